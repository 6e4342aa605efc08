#!/usr/bin/env python3
"""Proves crates as `rt ci` does, each with JOBS processes, and keeps what is proved where `rt ci` finds it.

    prove.py ROOT JOBS CRATE..

ROOT is a clone of its own, in which nothing else runs and nothing is written meanwhile. 3: a crate below is not kept.
"""
import os
import sys
import time

from rt_module import load

ROOT, JOBS, NAMES = sys.argv[1], sys.argv[2], sys.argv[3:]

m = load()
rtlib = m.rtlib
m.Crate.allowed = m.handles_of(ROOT)
os.chdir(ROOT)
crates = m.crates_of(ROOT)
m.Crate.cuts_libraries = True
for it in (rtlib.ALLOW_C, rtlib.BACKEND, "RT_SECONDS"):
    os.environ.pop(it, None)
rtlib.guarded()
wanted = {it.name: it for it in crates}
needed = {below.name for name in NAMES for below in wanted[name].below()} | {*NAMES}
order = [it for it in crates if it.name in needed]
kept = m.Kept(order)
kept.drop = lambda path: None


def given(crate, key):
    """Whether the crate is kept; its library then stands in its out/."""
    if not kept.give(crate, False, key):
        return False
    kept.is_built(crate)
    if not crate.is_program and not crate.is_static:
        os.makedirs(f"{crate.folder}/out/rlib", exist_ok=True)
        with open(f"{crate.folder}/out/rlib/stamp", "w") as it:
            it.write(crate.stamp())
    return True


for crate in order:
    key = kept.key(crate)
    for it in kept.made(crate, False):
        m.clear(f"{crate.folder}/out/{it}")
    if given(crate, key):
        continue
    if crate.name not in NAMES:
        print(crate.name, "is not kept", flush=True)
        sys.exit(3)
    with kept.in_turn(crate, False, key) as has_waited:
        if has_waited and given(crate, key):
            continue
        began = time.time()
        os.makedirs(f"{crate.folder}/out", exist_ok=True)
        crate.out = open(f"{crate.folder}/out/prove.log", "w+")
        status = crate.ci(["--jobs", JOBS], False)
        print(time.strftime("%H:%M"), crate.name, f"NOT PROVED {status}" if status else "proved", round(time.time() - began), "s", flush=True)
        if status:
            sys.exit(1)
        if not crate.is_program and not crate.is_static:
            kept.is_built(crate)
        kept.keep(crate, False, key)
        if crate.name in kept.lost:
            print(crate.name, "is lost: a file was touched", flush=True)
