#!/usr/bin/env python3
"""What the gate's checks cost, crate by crate.

usage: tests/costs.py run [WORDS]   runs `rt ci WORDS`, samples its processes every 3 s, and prints the table
       tests/costs.py show FILE     prints the table of samples that an earlier run left

The table is Markdown, as docs/COSTS.md has it: seconds of processor of a crate's proof, of its edits, and of its tests and
programs; the peak of memory in MB; functions in src/, and seconds a function; then the sum and the longest chain of crates. The
samples stay in the file that COSTS names, else in /tmp/costs.json."""
import json
import os
import re
import subprocess
import sys
import time

TICKS = os.sysconf('SC_CLK_TCK')
PAGE = os.sysconf('SC_PAGE_SIZE')
FILE = os.environ.get('COSTS', '/tmp/costs.json')
TOOLS = ('rattle', 'clang', 'opt', 'llc', 'ld.lld', 'lld')


def stat_of(pid):
    return open(f'/proc/{pid}/stat').read().rsplit(')', 1)[1].split()


def below(root):
    """The processes that the process started, and those that these started."""
    parent = {}
    for pid in filter(str.isdigit, os.listdir('/proc')):
        try:
            parent[int(pid)] = int(stat_of(pid)[1])
        except (OSError, IndexError, ValueError):
            pass
    found = {root}
    while True:
        more = {pid for pid, of in parent.items() if of in found} - found
        if not more:
            return found
        found |= more


def kind_of(words):
    """A crate's proof is checked for contracts that no call can meet, an edit is a check alone, and all else builds tests and programs."""
    if os.path.basename(words[0]) != 'rattle':
        return 'tests'
    if '--empty-contracts' in words:
        return 'proof'
    return 'edits' if words[1:2] == ['check'] else 'tests'


def sampled(pid, begin, seen):
    words = open(f'/proc/{pid}/cmdline').read().split('\0')
    if os.path.basename(words[0]) not in TOOLS:
        return
    crate = os.path.basename(os.readlink(f'/proc/{pid}/cwd'))
    stat = stat_of(pid)
    row = seen.setdefault(f'{pid}:{stat[19]}', dict(crate=crate, kind=kind_of(words), cpu=0, mb=0))
    row['cpu'] = max(row['cpu'], (int(stat[11]) + int(stat[12])) / TICKS)
    row['mb'] = max(row['mb'], int(stat[21]) * PAGE >> 20)


def run(words):
    begin, seen = time.time(), {}
    child = subprocess.Popen(['rt', 'ci', *words])
    while child.poll() is None:
        for pid in below(child.pid):
            try:
                sampled(pid, begin, seen)
            except (OSError, IndexError):
                pass
        with open(FILE, 'w') as out:
            json.dump(dict(wall=time.time() - begin, rows=list(seen.values())), out)
        time.sleep(3)
    show(FILE)
    return child.returncode


def listed():
    """What each crate of crates.txt stands on, and how many functions it has."""
    needs, functions = {}, {}
    for line in open('crates.txt'):
        line = line.split('#')[0]
        if ':' in line:
            name, rest = line.split(':', 1)
            needs[name.split()[0]] = rest.split()
    for crate in needs:
        files = [os.path.join(at, f) for at, _, fs in os.walk(f'crates/{crate}/src') for f in fs if f.endswith('.rt')]
        functions[crate] = sum(len(re.findall(r'^\s*(?:pub(?:\(crate\))? )?(?:const )?fn ', open(f).read(), re.M)) for f in files)
    return needs, functions


def show(path):
    data = json.load(open(path))
    os.chdir(subprocess.check_output(['git', 'rev-parse', '--show-toplevel'], text=True).strip())
    needs, functions = listed()
    cost = {}
    for row in data['rows']:
        crate = re.sub(r'__.*$', '', row['crate'])
        if crate in needs:
            of = cost.setdefault(crate, dict(proof=0, edits=0, tests=0, mb=0))
            of[row['kind']] += row['cpu']
            of['mb'] = max(of['mb'], row['mb'])
    chains = {}

    def chain(crate):
        if crate not in chains:
            best = max((chain(it) for it in needs[crate] if it in needs), default=(0, []))
            chains[crate] = (best[0] + cost.get(crate, {}).get('proof', 0), best[1] + [crate])
        return chains[crate]

    print('| Crate | Proof | Edits | Tests | MB | Functions | A function |\n|---|---:|---:|---:|---:|---:|---:|')
    whole = lambda it: sum(cost[it][kind] for kind in ('proof', 'edits', 'tests'))
    for crate in sorted(cost, key=lambda it: -whole(it)):
        of, n = cost[crate], functions[crate]
        print(f"| {crate} | {of['proof']:.0f} | {of['edits']:.0f} | {of['tests']:.0f} | {of['mb']} | {n} | {of['proof'] / n if n else 0:.1f} |")
    seconds, way = max((chain(it) for it in needs), default=(0, []))
    print(f"\nSum: {sum(map(whole, cost)):.0f} s of processor, in {data['wall']:.0f} s. Longest chain: {seconds:.0f} s ({', '.join(way)}).")


if sys.argv[1:2] == ['run']:
    sys.exit(run(sys.argv[2:]))
elif sys.argv[1:2] == ['show'] and len(sys.argv) == 3:
    show(sys.argv[2])
else:
    print(__doc__)
    sys.exit(2)
