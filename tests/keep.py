#!/usr/bin/env python3
"""Proves crates as the gate does, and keeps what was proved.

usage: tests/keep.py prove [--lanes N] [--only] [CRATE ..]   proves the crates (all, if none is named) and, without --only, those below them
       tests/keep.py put                                     puts the kept libraries into crates/*/out, for `rt check` and for clones
       tests/keep.py slow [CRATE ..]                         prints where the time went in the crates that were proved
       tests/keep.py lanes [FACTOR]                          reckons how long `rt ci` takes by what the crates took, times FACTOR

A crate is kept under the sum of its files and of the sums of the libraries that crates.txt names for it, so any clone on the machine finds it, and
a crate that changed is proved again with all above it. The gate trusts none of it. All is kept in the folder that KEPT names, else in
/tmp/kept: libraries, what the checks printed (proof.log), and in times.jsonl and functions/ the seconds that they took."""
import copy
import glob
import hashlib
import importlib.machinery
import importlib.util
import json
import os
import resource
import shutil
import subprocess
import sys
import tempfile
import time
from concurrent.futures import FIRST_COMPLETED, ThreadPoolExecutor, wait

KEPT = os.environ.get('KEPT', '/tmp/kept')
ROOT = os.path.dirname(os.path.dirname(os.path.realpath(__file__)))
OWN = os.path.realpath(__file__)


def load_rt():
    """rt's own classes, so that a crate is proved by the words that the gate uses."""
    loader = importlib.machinery.SourceFileLoader('rt_ci', os.path.realpath(shutil.which('rt')))
    spec = importlib.util.spec_from_loader('rt_ci', loader)
    made = importlib.util.module_from_spec(spec)
    sys.modules['rt_ci'] = made
    loader.exec_module(made)
    made.rtlib.stop = made.stop
    made.rtlib.Crate = made.Crate
    made.Crate.cuts_libraries = True
    return made


def say(text):
    print(time.strftime('%H:%M:%S'), text, flush=True)


class Kept:
    """The crates of the repository, and where each is kept."""

    def __init__(self, rt):
        self.rt, self.sums = rt, {}
        os.chdir(ROOT)
        found = rt.rtlib.crates_below(ROOT)
        self.crates = {it.name: it for it in sorted(found, key=lambda it: len(it.below()))}

    def sum(self, crate):
        if crate.name not in self.sums:
            made = hashlib.sha256()
            for file in self.rt.rtlib.files_of(crate.folder):
                with open(file, 'rb') as it:
                    made.update(repr((os.path.relpath(file, crate.folder), it.read())).encode())
            made.update(repr([sorted(crate.of_kit), sorted(self.sum(it) for it in crate.deps)]).encode())
            self.sums[crate.name] = made.hexdigest()
        return self.sums[crate.name]

    def room(self, crate):
        return f'{KEPT}/{self.sum(crate)}'

    def is_proved(self, crate):
        return os.path.exists(f'{self.room(crate)}/proved')

    def put(self, crate):
        """Puts the crate's kept library in place, for checks above it."""
        mark = f'{crate.folder}/out/rlib/stamp'
        if self.rt.rtlib.text_of(mark) == self.sum(crate):
            return
        shutil.rmtree(f'{crate.folder}/out/rlib', ignore_errors=True)
        shutil.copytree(f'{self.room(crate)}/rlib', f'{crate.folder}/out/rlib')
        with open(mark, 'w') as it:
            it.write(self.sum(crate))

    def prove(self, crate):
        """Proves the crate from nothing over the libraries in place, as `rt ci` does, and keeps it."""
        crate, room = copy.copy(crate), self.room(crate)
        os.makedirs(room, exist_ok=True)
        os.makedirs(f'{crate.folder}/out', exist_ok=True)
        begin = time.time()
        with open(f'{room}/proof.log', 'w+', errors='replace') as crate.out:
            try:
                status = self.rt.rtlib.fmt(crate.folder, '--check', crate.out) or crate.ci(['--jobs', '1'], False)
            except SystemExit:
                status = 2
        if status == 0 and crate.makes_rlib():
            shutil.rmtree(f'{room}/rlib', ignore_errors=True)
            shutil.copytree(f'{crate.folder}/out/rlib', f'{room}/rlib')
            with open(f'{crate.folder}/out/rlib/stamp', 'w') as it:
                it.write(self.sum(crate))
        if status == 0:
            open(f'{room}/proved', 'w').close()
        say(f'{crate.name}: {"proved" if status == 0 else f"NOT PROVED, see {room}/proof.log"}, {time.time() - begin:.0f} s')
        return status == 0


def prove(kept, names, lanes, is_alone):
    """Proves the crates side by side, lowest first, those with the longest chain of lines above them before others."""
    wanted = set(names or kept.crates)
    if not is_alone:
        wanted |= {below.name for it in [*wanted] for below in kept.crates[it].below()}
    order = [it for name, it in kept.crates.items() if name in wanted]
    above = {it.name: 0 for it in order}
    for crate in reversed(order):
        above[crate.name] += crate.count(rb'\n')
        for it in crate.below():
            if it.name in above:
                above[it.name] = max(above[it.name], above[crate.name])
    left, running, well = sorted(order, key=lambda it: -above[it.name]), {}, {}
    with ThreadPoolExecutor(lanes) as pool:
        while left or running:
            for crate in [*left]:
                below = [it.name for it in crate.below() if it.name in wanted]
                if not all(it in well for it in below) or len(running) >= lanes:
                    continue
                left.remove(crate)
                if not all(well[it] for it in below):
                    well[crate.name] = False
                elif kept.is_proved(crate):
                    well[crate.name] = True
                    if crate.makes_rlib():
                        kept.put(crate)
                elif running and kept.rt.need(crate) / 2 > kept.rt.free():
                    left.append(crate)
                else:
                    running[pool.submit(kept.prove, crate)] = crate.name
            for it in wait(running, timeout=5, return_when=FIRST_COMPLETED).done if running else []:
                well[running.pop(it)] = it.result()
    failed = [it for it in well if not well[it]]
    say(f'{len(well) - len(failed)} proved, {len(failed)} not: {" ".join(failed)}')
    return 1 if failed else 0


def modules_of(pid, name, written):
    """Notes when the check wrote each module of the crate, which it keeps in a folder of its own while it runs."""
    for folder in glob.glob(f'{tempfile.gettempdir()}/rattle-logic-built-locked-{pid}-*'):
        try:
            for it in os.scandir(folder):
                if it.name.startswith(f'Rattle-{name}-') and it.name.endswith('.oantt') and it.name not in written:
                    written[it.name] = it.stat().st_mtime
        except OSError:
            pass


def as_rattle(words):
    """Stands for rattle: runs it with these words, and notes what it took, and the seconds between a module and the one that was written before it."""
    if '--crate-name' not in words or '--test' in words:
        os.execv(os.environ['RATTLE'], ['rattle', *words])
    name, begin, written = words[words.index('--crate-name') + 1], time.time(), {}
    with subprocess.Popen([os.environ['RATTLE'], *words]) as ran:
        while ran.poll() is None:
            modules_of(ran.pid, name, written)
            time.sleep(1)
    taken, last = {}, begin
    for module, at in sorted(written.items(), key=lambda it: it[1]):
        function, _, kind = module.removeprefix(f'Rattle-{name}-').removesuffix('.oantt').rpartition('.')
        kinds = taken.setdefault(function or kind, {})
        kinds[kind] = kinds.get(kind, 0.0) + at - last
        last = at
    os.makedirs(f'{KEPT}/functions', exist_ok=True)
    with open(f'{KEPT}/functions/{name}', 'w') as out:
        json.dump(taken, out)
    used = resource.getrusage(resource.RUSAGE_CHILDREN)
    row = dict(crate=name, cpu=round(used.ru_utime + used.ru_stime), wall=round(time.time() - begin), mb=used.ru_maxrss >> 10, status=ran.returncode)
    with open(f'{KEPT}/times.jsonl', 'a') as out:
        out.write(json.dumps(row) + '\n')
    return ran.returncode


def times():
    """Seconds of processor of each crate's last check that proved it."""
    if not os.path.exists(f'{KEPT}/times.jsonl'):
        return {}
    rows = map(json.loads, open(f'{KEPT}/times.jsonl'))
    return {it['crate']: it['cpu'] for it in rows if it['status'] == 0}


def slow(names):
    """A function's code as steps (Lts) is checked where its caller is reached, and the others of its modules with its proof."""
    for name in names or sorted(os.listdir(f'{KEPT}/functions')):
        taken = json.load(open(f'{KEPT}/functions/{name}'))
        print(f'{name}: {sum(sum(it.values()) for it in taken.values()):.0f} s')
        for function, kinds in sorted(taken.items(), key=lambda it: -sum(it[1].values()))[:15]:
            most = sorted(kinds.items(), key=lambda it: -it[1])[:3]
            print(f'{sum(kinds.values()):8.1f}  {function}: {", ".join(f"{kind} {seconds:.1f}" for kind, seconds in most)}')


def lanes(kept, factor):
    """rt's own order: the longest chain of lines first, as many as processors and memory take; programs' and tests' runs, edits and the engines left
    out. A crate that was not timed counts as its lines say."""
    seconds, crates = times(), kept.crates.values()
    cost = {it.name: factor * seconds.get(it.name, 25 + 0.2 * it.count(rb'\n')) for it in crates}
    need = {it.name: kept.rt.need(it) for it in crates}
    below = {it.name: [low.name for low in it.below()] for it in crates}
    above = {it.name: 0 for it in crates}
    for crate in reversed([*crates]):
        above[crate.name] += crate.count(rb'\n')
        for it in below[crate.name]:
            above[it] = max(above[it], above[crate.name])
    left, running, done, now = sorted(above, key=lambda it: -above[it]), {}, set(), 0.0
    memory, count = 0.85 * kept.rt.free(), kept.rt.processors()
    while left or running:
        for name in [it for it in left if done.issuperset(below[it])]:
            if len(running) < count and (not running or need[name] <= memory - sum(need[it] for it in running)):
                left.remove(name)
                running[name] = now + cost[name]
        now = min(running.values())
        for name in [it for it in running if running[it] <= now]:
            done.add(name)
            del running[name]
            print(f'{now / 60:6.1f} min  {name} ({cost[name]:.0f} s{"" if name in seconds else ", by its lines"})')
    print(f'{now / 60:.0f} minutes; {sum(cost.values()):.0f} seconds of processor')


def main(words):
    if words and words[0] in ('build', 'check', 'fmt', 'expand'):
        return as_rattle(words)
    verb, words = (words or [''])[0], words[1:]
    if verb == 'slow':
        return slow(words)
    if verb not in ('prove', 'put', 'lanes'):
        print(__doc__, file=sys.stderr)
        return 2
    rt = load_rt()
    kept = Kept(rt)
    if verb == 'lanes':
        return lanes(kept, float(words[0]) if words else 1.0)
    if verb == 'put':
        found = [it for it in kept.crates.values() if it.makes_rlib() and kept.is_proved(it)]
        for it in found:
            kept.put(it)
        say(f'{len(found)} libraries are in place')
        return 0
    os.environ['RATTLE'] = rt.rtlib.RATTLE
    rt.rtlib.RATTLE = OWN
    rt.rtlib.guarded()
    at = words.index('--lanes') if '--lanes' in words else None
    count = int(words[at + 1]) if at is not None else rt.processors()
    rest = words if at is None else [*words[:at], *words[at + 2 :]]
    return prove(kept, [it for it in rest if it != '--only'], count, '--only' in rest)


if __name__ == '__main__':
    sys.exit(main(sys.argv[1:]))
