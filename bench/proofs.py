#!/usr/bin/env python3
"""Where the time of a check from nothing goes, function by function.

    rm -r crates/NAME/out/incremental; (cd crates/NAME && rt check --jobs 1); bench/proofs.py NAME [ROWS]

A check writes a file for each module that it has checked, one after the other, so what lies between two files is what the later one
took; the first module has the loading of the libraries with it. Code is the size of a function (held values that are dropped at each
early return make it large), search what is found without an answer, answers what is written. The files of a second check stand among
them: only a check from nothing is told well.
"""
import collections, os, re, sys

TOP = os.path.dirname(os.path.dirname(os.path.abspath(__file__)))
PARTS = {'Lts': 'code', 'Tie': 'code', 'Reads': 'code', 'Proof': 'search', 'Answers': 'answers', 'Invariants': 'answers'}


def modules(folder):
    """The modules in the order in which they were checked, each with its time."""
    for at, _, names in os.walk(folder):
        for name in names:
            found = re.match(r'Rattle-\w+?-(specs|proofs)\.(.*?)(\.decls)?\.oantt$', name)
            if found:
                yield os.stat(os.path.join(at, name)).st_mtime, found[1], found[2]


def main():
    if len(sys.argv) not in (2, 3) or not sys.argv[-1].isdigit() and len(sys.argv) == 3:
        sys.exit('usage: bench/proofs.py NAME [ROWS]')
    crate, rows = sys.argv[1], int(sys.argv[2]) if len(sys.argv) > 2 else 20
    checked = sorted(modules(f'{TOP}/crates/{crate}/out/incremental'))
    if not checked:
        sys.exit(f'bench/proofs.py: crates/{crate}/out/incremental has nothing of a check')
    seconds, last = collections.defaultdict(collections.Counter), None
    for time, kind, module in checked:
        *path, part = module.split('.')
        name = '.'.join(path) if kind == 'proofs' and path else f'{kind} {module}'
        seconds[name][PARTS.get(part.split('-')[0], 'other')] += time - (last or time)
        last = time
    for name, parts in sorted(seconds.items(), key=lambda row: -sum(row[1].values()))[:rows]:
        print(f'{sum(parts.values()):7.1f} s  {name}  ' + ', '.join(f'{part} {time:.1f}' for part, time in parts.most_common() if time > 0.3))


main()
