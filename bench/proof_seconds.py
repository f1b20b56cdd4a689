#!/usr/bin/env python3
"""Where the time of a crate's check went, module by module.

bench/proof_seconds.py CRATE [COUNT]    after a first `rt check --jobs 1` or `rt lib --jobs 1` in its folder

`rt check` writes a file for each module as it ends with it, into out/incremental, so what passed between one file and the next
is what the latter took. F.Lts are the states of the function F, F.Proof its goals, F.Answers those that have an answer; what a
crate's own name stands for is its end, where all is taken together. After a later check only what was done anew counts.
"""
import collections, os, sys

def main():
    if len(sys.argv) < 2:
        sys.exit(__doc__)
    crate, count = sys.argv[1], int(sys.argv[2]) if len(sys.argv) > 2 else 40
    top = os.path.join(os.path.dirname(os.path.abspath(__file__)), '..', 'crates', crate, 'out', 'incremental')
    files = []
    for folder, _, names in os.walk(top):
        for name in names:
            if name.endswith('.oantt'):
                # a module's declarations are written first, into records/
                module = name.removesuffix('.oantt').removesuffix('.decls')
                files.append((os.stat(os.path.join(folder, name)).st_mtime, module))
    if not files:
        sys.exit(f'{crate}: nothing is kept; run `rt check --jobs 1` there first')
    files.sort()
    modules, kinds = collections.Counter(), collections.Counter()
    for (before, _), (time, module) in zip(files, files[1:]):
        modules[module] += time - before
        kinds[module.rsplit('.', 1)[-1]] += time - before
    print(f'{files[-1][0] - files[0][0]:.0f} seconds in {len(modules)} modules')
    for table in (kinds.most_common(8), modules.most_common(count)):
        print()
        for name, seconds in table:
            print(f'{seconds:7.1f} {name}')

main()
