#!/usr/bin/env python3
"""Tells where the time of a crate's proof goes, by module: `Lts` is the run of a function step by step, `Proof` its goals.

    where-time.py ROOT CRATE [MOST]

Everything below is kept in ROOT (prove.py leaves it so). The check writes each module as it is done; what a module is charged with is the
time since the one before, the modules of crates below that it is the first to load among it. For a quiet machine.
"""
import collections
import os
import re
import shutil
import subprocess
import sys
import tempfile
import time

from rt_module import load

ROOT, NAME, MOST = sys.argv[1], sys.argv[2], int(sys.argv[3]) if len(sys.argv) > 3 else 40

m = load()
m.Crate.allowed = m.handles_of(ROOT)
crate = next(it for it in m.crates_of(ROOT) if it.name == NAME)
room = tempfile.mkdtemp(prefix="where-time-")
words = [*crate.words(["--jobs", "1"], keeps=False), "--incremental", room]
last = time.time()
subprocess.run([*m.rtlib.guarded(), m.rtlib.RATTLE, "check", *words], cwd=crate.folder, stdin=subprocess.DEVNULL, stdout=subprocess.DEVNULL, stderr=subprocess.DEVNULL, check=False)
files = sorted((os.stat(f"{at}/{it}").st_mtime, f"{at}/{it}") for at, _, names in os.walk(room) for it in names)
by_module, by_kind = collections.Counter(), collections.Counter()
for moment, path in files:
    name = re.sub(r"\.(oantt|decls)$", "", os.path.basename(path))
    by_module[name] += moment - last
    by_kind[name.rsplit(".", 1)[-1] if name.startswith(f"Rattle-{NAME}-proofs") else name.split(".")[0]] += moment - last
    last = moment
shutil.rmtree(room)
for told in (by_kind, by_module):
    for name, seconds in told.most_common(MOST):
        print(f"{seconds:7.1f}  {name}")
    print()
