#!/usr/bin/env python3
"""Says where the seconds of a crate's check go: python3 tools/seconds.py NAME [HOW MANY]

Checks the crate from nothing with `rt check`, and takes from the times of the files that the check keeps below crates/NAME/out how long each module took.
A function has several modules: its contract, what follows from its code (Lts, Tie), and its Proof. The first module that names a function of another crate
also has the time in which that function's proof is loaded. What stands before the first file, the reading of the crates below, is the rest of the time.
"""
import collections
import os
import shutil
import subprocess
import sys
import time

name = sys.argv[1]
many = int(sys.argv[2]) if len(sys.argv) > 2 else 30
top = os.path.join(os.path.dirname(os.path.abspath(__file__)), '..')
kept = os.path.join(top, 'crates', name, 'out', 'incremental')
shutil.rmtree(kept, ignore_errors=True)
began = time.time()
said = subprocess.run(['rt', 'check'], cwd=os.path.join(top, 'crates', name), stdout=subprocess.PIPE, stderr=subprocess.STDOUT, text=True).stdout
whole = time.time() - began

written = sorted((os.stat(os.path.join(folder, file)).st_mtime_ns, file) for folder, _, files in os.walk(kept) for file in files if file.endswith('.oantt'))
if not written:
    sys.exit('nothing was checked anew: the check took all of it from what another copy of the repository kept')
modules, functions, last = collections.Counter(), collections.Counter(), written[0][0]
for at, file in written:
    module = file.replace('.decls.oantt', '').replace('.oantt', '')
    modules[module] += at - last
    path = module.split('.proofs.')[-1].split('.') if '.proofs.' in module else [module]
    named = [part for part in path if not part[0].isupper()]
    functions['.'.join(named) if named and '.proofs.' in module else module] += at - last
    last = at

print(said.strip().split('\n')[-1])
print(f'{whole:.1f} s in all, {(written[-1][0] - written[0][0]) / 1e9:.1f} s in {len(modules)} modules')
for title, counted in (('functions, and files of definitions and laws', functions), ('modules', modules)):
    print(f'-- {title}')
    for what, took in counted.most_common(many):
        print(f'{took / 1e9:7.2f} {what}')
