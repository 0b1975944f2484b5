#!/usr/bin/env python3
"""Which definitions a contract rests on: the files of specs/ that a source file's ghost imports name, and those that these import.

usage: tests/believed.py [FILE]    FILE is a source file whose contract is meant, crates/commands/src/top.rt if none is given

A line a file: its lines, those that are neither blank nor a comment nor an import, and its name; then the sums."""
import os
import re
import sys

IMPORT = re.compile(r'^\s*(?:pub )?(?:ghost )?use Rattle\.(\w+)\.specs\.([\w.]+)')


def imported(path):
    for line in open(path):
        found = IMPORT.match(line)
        if found:
            # `declared` and `contracts` are made of the Rust declarations
            parts = found.group(2).rstrip('.').split('.')
            while parts and parts[0] not in ('declared', 'contracts'):
                file = f"crates/{found.group(1)}/specs/{'/'.join(parts)}.antt"
                if os.path.isfile(file):
                    yield file
                    break
                parts.pop()


def main(source):
    os.chdir(os.path.join(os.path.dirname(os.path.abspath(__file__)), '..'))
    found, left = set(), list(imported(source))
    while left:
        file = left.pop()
        if file not in found:
            found.add(file)
            left.extend(imported(file))
    sums = [0, 0]
    for file in sorted(found):
        lines = open(file).read().splitlines()
        said = [it for it in lines if it.strip() and not it.lstrip().startswith('--') and not re.match(r'\s*(pub )?use ', it)]
        sums = [sums[0] + len(lines), sums[1] + len(said)]
        print(f'{len(lines):5} {len(said):5}  {file}')
    print(f'{sums[0]:5} {sums[1]:5}  in {len(found)} files')


if sys.argv[1:2] and sys.argv[1].startswith('-') or len(sys.argv) > 2:
    print(__doc__)
    sys.exit(2)
main(sys.argv[1] if len(sys.argv) > 1 else 'crates/commands/src/top.rt')
