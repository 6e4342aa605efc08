"""Tries the wrong bodies of a crate over the functions that they stand in alone, many in one check.

    quick-bodies.py ROOT CRATE [MOST [LOG..]]

ROOT is a clone in which the libraries below stand in out/; nothing else may run in it, since its sources are edited. What a LOG tells as refused is
not tried again.
"""
import os, pathlib, re, subprocess, sys, time, types, shutil
ROOT, NAME = sys.argv[1], sys.argv[2]
MOST = int(sys.argv[3]) if len(sys.argv) > 3 else 12
LOGS = sys.argv[4:]
source = open(f"{ROOT}/tools/wrong-bodies").read().rsplit("main()", 1)[0]
t = types.ModuleType("wb"); sys.modules["wb"] = t
t.__file__ = f"{ROOT}/tools/wrong-bodies"
exec(compile(source, "wb", "exec"), t.__dict__)
from rt_module import load
m = load()
m.Crate.allowed = m.handles_of(ROOT)
crate = next(it for it in m.crates_of(ROOT) if it.name == NAME)
folder = pathlib.Path(ROOT) / "crates" / NAME
paths = []
def run(*a, **k):
    while True:
        words = crate.words(["--jobs", "1", *[x for p in paths for x in ("--only", p)]], keeps=False)
        done = REAL([*(m.rtlib.guarded() or []), m.rtlib.RATTLE, "check", *words], cwd=folder, stdin=subprocess.DEVNULL, stdout=subprocess.PIPE, stderr=subprocess.STDOUT, errors="replace", check=False)
        # a method that stands in another file than its type has that one's name; one of a trait, or of some instances of a type alone,
        # has a longer name, whose end is its own; one that a trait only names has none
        said = done.stdout if isinstance(done.stdout, str) else done.stdout.decode(errors="replace")
        lacks = re.search(r"has no function `([^`]*)`", said)
        several = re.search(r"several functions are named `([^`]*)`: help: write one of (.*)", said)
        if lacks and lacks.group(1) in paths and len(paths) + lacks.group(1).count("::") > 1:
            parts = lacks.group(1).split("::")
            paths[paths.index(lacks.group(1))] = "::".join(parts[-2:] if len(parts) > 2 else parts[1:])
            paths[:] = [p for p in paths if p]
        elif several and several.group(1) in paths:
            paths[:] = [p for p in paths if p != several.group(1)] + re.findall(r"`([^`]*)`", several.group(2))
        else:
            return done
REAL = subprocess.run
t.subprocess = types.SimpleNamespace(**{it: getattr(subprocess, it) for it in dir(subprocess) if not it.startswith("__")})
t.subprocess.run = run
def path_of(path, owner, function):
    module = path.removeprefix("src/").removesuffix(".rt").replace("/", "::")
    parts = [NAME] + ([] if module in ("lib", "main") else [module]) + ([owner.split()[-1]] if owner else []) + [function]
    return "::".join(parts)
edits = [t.read_edit(f) for f in sorted((folder / "wrong-bodies").glob("*.edit"))]
told = {}
for e in edits:
    if t.applied(e, {}, folder) is None: told[e.name] = ("BAD EDIT", "does not apply")
    else: t.locate(e, folder)
def tried(batch):
    texts = {}
    for e in batch: texts = t.applied(e, texts, folder)
    olds = {p: (folder / p).read_text() for p in texts}
    for p, x in texts.items(): (folder / p).write_text(x)
    paths[:] = sorted({path_of(*f) for e in batch for f in e.functions if f[2]})
    began = time.time()
    try: came = t.check(folder)
    finally:
        for p, x in olds.items(): (folder / p).write_text(x)
    came.judged = any(l.startswith("only=") for l in came.said.split("\n"))
    print(f"  .. {len(batch)} edits, {round(time.time()-began)} s, judged {came.judged}", "" if came.judged else [l for l in came.said.split("\n") if "rror" in l and "by-macro" not in l][:2], flush=True)
    return came
import glob
known = set()
for f in LOGS:
    known |= set(re.findall(r"(?m)^(\w+) refused", open(f).read()))
for e in edits:
    if e.name in known: told[e.name] = ("refused", "before")
pending = [e for e in edits if e.name not in told]
while pending:
    pending.sort(key=lambda e: e.tries)
    taken, fs, texts = [], set(), {}
    for e in pending:
        more = t.applied(e, texts, folder)
        if more is None or e.functions & fs or len(taken) >= (MOST if e.tries == 0 else 1 if e.tries > 1 else 4): continue
        taken.append(e); fs |= e.functions; texts = more
        if e.tries > 1: break
    came = tried(taken)
    for e in taken:
        w = t.refused_in(e, came)
        if came.judged and w: told[e.name] = ("refused", w)
        elif len(taken) == 1:
            g = next(iter(came.goals.items()), None) or next(iter(came.unanswered.items()), None)
            wrong = next((l for l in came.said.split("\n") if "error" in l and "by-macro" not in l and "Error" not in l and not l.startswith("statements ")), "")
            if came.judged and g: told[e.name] = ("refused", f"{g[0]}: {g[1]} (another)")
            elif came.judged and not re.search(r"(?m)^fn \S+: (?!proved)", came.said) and not wrong: told[e.name] = ("NOT REFUSED here", "its function is still proved")
            elif came.judged and re.search(r"(?m)^fn \S+: (?:not proved|no proof)", came.said): told[e.name] = ("refused", "a name or an answer is gone: " + " ".join(re.findall(r"(?m)^fn \S+: (?!proved).*", came.said))[:150])
            else: told[e.name] = ("SEE", wrong[:300] + " | " + " ".join(re.findall(r"(?m)^fn \S+: (?!proved).*", came.said))[:300])
        e.tries += 1 if came.judged and len(taken) > 1 else 2
    for e in taken:
        if e.name in told: print(e.name, *told[e.name], flush=True)
    pending = [e for e in pending if e.name not in told]
bad = {k: v for k, v in told.items() if v[0] != "refused"}
print(NAME, len(told), "tried;", len(bad), "not refused:", bad)
