#!/usr/bin/env python3
"""check_over_kept.py CRATE [VERB] [WORDS..]: `rt VERB` of one crate (`check`, `test` or `lemma`; by default `check`) over libraries that are there.

`rt check` first proves every crate below, for half an hour. What `rt ci` passed on this machine is kept in /opt/rattle-kept. This takes the
newest library of each crate from there, into FOLDER (below), whatever commit it is of: so it checks as soon as a gate has passed what is below,
in 20 s to 4 minutes. VERB `rlib` also makes the library of a crate that was checked so, for those above it; --keep CRATE.. lists crates whose
libraries in FOLDER stay as they are, since they were made so.

Its verdict is for whoever writes a proof: only `rt ci` says that a crate is proved. It loads `rt` as a module and has it build nothing, so
another toolchain may want another script. FOLDER is the variable KEPT_LIBRARIES, or /tmp/sealer-libraries.
"""
import importlib.machinery
import importlib.util
import json
import os
import shutil
import sys
from pathlib import Path

TOP = Path(__file__).resolve().parent.parent
PASSED = Path("/opt/rattle-kept")
FOLDER = Path(os.environ.get("KEPT_LIBRARIES", "/tmp/sealer-libraries"))
VERBS = ("check", "test", "lemma", "rlib")


def take(names):
    """Copies the newest library of each of these crates that a gate passed."""
    for name in names:
        found = [it for it in PASSED.glob(f"proof-{name}-*") if (it / "made.json").is_file()]
        if not found:
            continue
        newest = max(found, key=lambda it: it.stat().st_mtime)
        to = FOLDER / name
        mark = to / "taken"
        if mark.is_file() and mark.read_text(encoding="utf-8") == newest.name:
            continue
        shutil.rmtree(to, ignore_errors=True)
        for number, (file, _) in enumerate(json.loads((newest / "made.json").read_text(encoding="utf-8"))["files"]):
            (to / file).parent.mkdir(parents=True, exist_ok=True)
            shutil.copyfile(newest / str(number), to / file)
        mark.write_text(newest.name, encoding="utf-8")


def loaded():
    """`rt` as a module."""
    path = os.path.realpath(shutil.which("rt") or sys.exit("check_over_kept.py: no rt"))
    sys.path.insert(0, os.path.dirname(path))
    loader = importlib.machinery.SourceFileLoader("rt", path)
    module = importlib.util.module_from_spec(importlib.util.spec_from_loader("rt", loader))
    sys.modules["rt"] = module
    loader.exec_module(module)
    return module


def main(words):
    """Returns the status."""
    kept = words[words.index("--keep") + 1:] if "--keep" in words else []
    words = words[:words.index("--keep")] if kept else words
    if not words or not (TOP / "crates" / words[0]).is_dir():
        sys.exit(__doc__.split("\n", 1)[0])
    crate, *words = words
    verb = words.pop(0) if words and words[0] in VERBS else "check"
    others = [it.name for it in (TOP / "crates").iterdir() if it.name != crate and it.name not in kept]
    take(others)
    rt = loaded()
    whole, build = rt.rtlib.Crate.__init__, rt.rtlib.Crate.build_rlib

    def placed(self, *given, **named):
        whole(self, *given, **named)
        self.rlib = f"{FOLDER}/{Path(self.folder).name}/rlib/{self.name}.rlib"
        os.makedirs(os.path.dirname(self.rlib), exist_ok=True)

    def made(self, flags):
        (FOLDER / crate / "taken").unlink(missing_ok=True)
        for it in (rt.rtlib.Crate, rt.Crate):
            it.is_built = lambda *_: False
        self.cuts_libraries = False
        return build(self, words or ["--jobs", "1"], False)

    rt.rtlib.Crate.__init__ = placed
    rt.rtlib.Crate.is_built = lambda *_: True
    rt.rtlib.Crate.build_rlib = lambda *_, **__: 0
    rt.share_work = lambda *_: None
    if verb == "rlib":
        rt.rtlib.Crate.check = rt.Crate.check = made
    os.chdir(TOP / "crates" / crate)
    return rt.main(["check"] if verb == "rlib" else [verb, *words])


sys.exit(main(sys.argv[1:]))
