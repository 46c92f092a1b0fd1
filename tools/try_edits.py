#!/usr/bin/env python3
"""try_edits.py [--lend | --take FILE | NAME..]: checks docs/edits.txt, the record of what each wrong body in crates/*/edits/ came to, and tries edits.

An edit is a wrong body that the prover has to refuse, in the form of `rt must-fail`. Those in crates/X/must-fail/ are tried by each `rt ci`;
those in crates/X/edits/ have a line each in docs/edits.txt:

    CRATE/EDIT  DAY  OWN  BELOW  where it was refused, and by which goal

OWN is a sum of the edit, of its crate's sources and line in crates.txt, and of the kit; BELOW of what the crate sees of those below it: their
specs/ and the heads of their public items (not the lemmas that its proofs cite: these change at most which goal refuses it). Without a word the
lines are checked, in seconds: an edit without a line, a line without an edit, a stale OWN, a DAY to come, or a text to replace that isn't once in
its file fails. Where BELOW alone is stale the edit waits for its turn since DAY. An edit that was only moved here has a line without sums, `- - untried`, and waits too.

NAME.. (CRATE or CRATE/EDIT) tries these edits, or `stale` all whose lines are absent or stale, and writes their lines. It calls `rt ci` over a copy
of the crate and of those below it; a kit that keeps nothing then proves all of these anew.

A gate has a turn: eight edits of one crate, among those that have waited longest. --lend copies them into the crate's must-fail/, as turn-EDIT, so
that the gate's own `rt ci` tries them over what it proves anyway. --take removes them, and reads in FILE, which has what `rt ci` printed, what they
came to: an edit that isn't refused, or a line that says something else, fails. What passes is written: commit docs/edits.txt, so that others have
their turn.
"""
import datetime
import hashlib
import re
import shutil
import subprocess
import sys
import tempfile
from pathlib import Path

TOP = Path(__file__).resolve().parent.parent
RECORD = TOP / "docs" / "edits.txt"
HEAD = "# What each edit in crates/*/edits/ came to, written by tools/try_edits.py: edit, day, sum of its crate, sum of those below, refused by.\n"
# The sums and the goal in the line of an edit that was moved here and not tried yet.
UNTRIED = ("-", "-", "untried")
# How many edits a turn has: of the crate where they are dearest these take ten minutes of one processor.
TURN = 8
# How the name of an edit begins in must-fail/ while it is its turn; .gitignore has it.
LENT = "turn-"
REFUSED = re.compile(r"^rt: must-fail (\S+)/(\S+)\.edit: refused, as it must be: (?:note: )?(\S+?:\d+):\d+: .*?\(?`([^`]+)`\)?")
FUNCTION = re.compile(r"(pub(\([^)]*\))? )?(const |unsafe )*fn ")
TRAIT = re.compile(r"(pub )?(unsafe )?trait\b|impl\b.* for ")
ANY = re.compile(r"^rt: must-fail (\S+)/(\S+)\.edit: (.*)")


def sum_of(*parts):
    found = hashlib.sha256()
    for part in parts:
        found.update(repr(part).encode())
    return found.hexdigest()[:16]


def crates_below():
    """The lines of crates.txt, by crate, and what each crate uses, directly or not."""
    used, rows = {}, {}
    for row in (TOP / "crates.txt").read_text(encoding="utf-8").splitlines():
        name, _, rest = row.partition("#")[0].partition(":")
        if name.strip():
            used[name.split()[0]] = rest.split()
            rows[name.split()[0]] = row
    found = {}

    def visit(name):
        if name not in found:
            found[name] = set().union(*({it} | visit(it) for it in used[name] if it in used))
        return found[name]

    for name in used:
        visit(name)
    return rows, found


def files_of(crate, *parts):
    files = [it for part in parts for it in (TOP / "crates" / crate / part).rglob("*") if it.is_file()]
    return sorted((str(it.relative_to(TOP)), it.read_text(encoding="utf-8")) for it in files)


def heads(text):
    """What others see of a file as `rt fmt` lays it out: no comments, no imports, no body of a function, and no head of a private one."""
    found, within, head, body, is_seen, has_clauses = [], "", None, None, True, False
    for line in text.splitlines():
        bare = line.strip()
        indent = line[: len(line) - len(line.lstrip())]
        if body is not None:
            body = None if line == body + "}" else body
            continue
        if not bare or bare.startswith(("//", "use ", "ghost use ", "mod ")):
            continue
        if head is None and FUNCTION.match(bare):
            # a trait's methods are seen without `pub`
            head, has_clauses, is_seen = indent, False, bare.startswith("pub ") or bool(TRAIT.match(within))
        if head is None:
            within = bare if not indent else within
            found.append(bare)
            continue
        has_clauses = has_clauses or bare.startswith(("requires", "ensures", "where", "measure"))
        found += [bare] if is_seen else []
        if line == head + "{" or not has_clauses and bare.endswith("{"):
            head, body = None, head
        elif line == head + "{}" or bare.endswith(";") or not has_clauses and bare.endswith("{}"):
            head = None
    return "\n".join(found)


class Edits:
    """The edits of the repository, with their sums."""

    def __init__(self):
        self.rows, self.below = crates_below()
        # the sum of the kit's logic, which `rt version` prints last: kits of one logic differ in letters
        kit = subprocess.run(["rt", "version"], capture_output=True, text=True, check=True).stdout.split()[-1]
        seen = {it: sum_of(files_of(it, "specs"), [(name, heads(text)) for name, text in files_of(it, "src")]) for it in self.below}
        self.sums, self.files = {}, {}
        for crate in sorted(self.below):
            own = sum_of(kit, self.rows[crate], files_of(crate, "src", "specs", "proofs"))
            below = sum_of([(it, seen[it]) for it in sorted(self.below[crate])])
            for file in sorted((TOP / "crates" / crate / "edits").glob("*.edit")):
                name = f"{crate}/{file.stem}"
                self.files[name] = file
                self.sums[name] = (sum_of(own, file.read_text(encoding="utf-8")), below)


def read_record():
    rows = RECORD.read_text(encoding="utf-8").splitlines() if RECORD.exists() else []
    return {name: tuple(rest) for name, *rest in (row.split(None, 4) for row in rows if row and not row.startswith("#"))}


def write_record(record):
    wide = max(map(len, record), default=0)
    rows = [f"{name:{wide}} {' '.join(record[name])}\n" for name in sorted(record)]
    RECORD.write_text(HEAD + "".join(rows), encoding="utf-8")


def try_edits(edits, names):
    """Tries edits of one crate. Returns where and by which goal each was refused, and what went wrong with the others."""
    crate = names[0].split("/")[0]
    with tempfile.TemporaryDirectory(prefix="sealer-edits-") as name:
        room = Path(name)
        wanted = {crate, *edits.below[crate]}
        (room / "crates.txt").write_text("".join(f"{edits.rows[it]}\n" for it in sorted(wanted)), encoding="utf-8")
        shutil.copy2(TOP / "HANDLES", room)
        for it in wanted:
            for part in ("src", "specs", "proofs", "data"):
                if (TOP / "crates" / it / part).is_dir():
                    shutil.copytree(TOP / "crates" / it / part, room / "crates" / it / part)
        (room / "crates" / crate / "must-fail").mkdir()
        for name in names:
            shutil.copy2(edits.files[name], room / "crates" / crate / "must-fail")
        ran = subprocess.run(["rt", "ci"], cwd=room, stdin=subprocess.DEVNULL, stdout=subprocess.PIPE, stderr=subprocess.STDOUT, text=True, errors="replace")
    return outcomes(ran.stdout, names)


def outcomes(said, names):
    """Where and by which goal `rt ci`, which said this, refused these edits, and what went wrong with the others."""
    found, wrong = {}, {}
    for line in said.splitlines():
        refused, other = REFUSED.match(line), ANY.match(line)
        if refused and "only because" not in line and "only by a limit" not in line:
            found[f"{refused[1]}/{refused[2]}"] = f"{refused[3]} {refused[4]}"
        elif other:
            wrong[f"{other[1]}/{other[2]}"] = other[3]
    missed = {name: f"not tried: {said.strip()[-300:]}".strip() for name in names if name not in found and name not in wrong}
    return {it: found[it] for it in names if it in found}, {it: wrong[it] for it in names if it in wrong} | missed


def stale(edits, record):
    """The edits that have no line or a stale one of their own, and those that only wait for their turn."""
    bad = [name for name in edits.sums if name not in record or record[name][1:] != UNTRIED and record[name][1] != edits.sums[name][0]]
    waits = [name for name in edits.sums if name not in bad and record[name][2] != edits.sums[name][1]]
    return bad, waits


def unplaced(crate, file):
    """The texts of an edit that aren't once in the file that it names."""
    source, text, found = None, "", []
    for line in file.read_text(encoding="utf-8").splitlines():
        word, _, rest = line.partition(": ")
        if word == "file":
            source = TOP / "crates" / crate / rest.strip()
            text = source.read_text(encoding="utf-8") if source.exists() else ""
        elif word == "old":
            replaced = rest
            found += [rest] if text.count(rest) != 1 else []
        elif word == "new":
            text = text.replace(replaced, rest, 1)
    return found


def turn_of(edits, record, waits):
    """The edits whose turn it is, of one crate: those whose lines are oldest, and among equals by the count of commits."""
    oldest = min(record[name][0] for name in waits or edits.sums)
    crates = sorted({name.split("/")[0] for name in waits or edits.sums if record[name][0] == oldest})
    commits = subprocess.run(["git", "rev-list", "--count", "HEAD"], cwd=TOP, capture_output=True, text=True, check=False).stdout
    count = int(commits) if commits.strip().isdigit() else 0
    crate = crates[count % len(crates)]
    names = sorted(name for name in edits.sums if name.split("/")[0] == crate)
    first = count % len(names)
    return sorted(names[first:] + names[:first], key=lambda name: record[name][0])[:TURN]


def lent():
    """The copies of edits in must-fail/ folders, by the name of each edit."""
    files = (TOP / "crates").glob(f"*/must-fail/{LENT}*.edit")
    return {f"{it.parent.parent.name}/{it.stem.removeprefix(LENT)}": it for it in files}


def give_back():
    """Removes these copies, and a folder that has nothing else."""
    for file in lent().values():
        file.unlink()
        if not any(file.parent.iterdir()):
            file.parent.rmdir()


def main(words):
    if words and words[0].startswith("-") and words != ["--lend"] and (words[0] != "--take" or len(words) != 2):
        sys.exit(__doc__)
    edits, record, failed = Edits(), read_record(), []
    bad, waits = stale(edits, record)
    wanted = words if words and not words[0].startswith("-") else []
    today = datetime.date.today().isoformat()
    if wanted:
        names = [name for name in edits.sums if name in wanted or name.split("/")[0] in wanted or "stale" in wanted and name in bad + waits]
        record = {name: line for name, line in record.items() if name in edits.sums}
        for crate in sorted({name.split("/")[0] for name in names}):
            found, wrong = try_edits(edits, [name for name in names if name.split("/")[0] == crate])
            record.update({name: (today, *edits.sums[name], where) for name, where in found.items()})
            record = {name: line for name, line in record.items() if name not in wrong}
            failed += [f"{name}: {why}" for name, why in wrong.items()]
            write_record(record)
            print(f"{crate}: {len(found)} refused", flush=True)
    else:
        failed += [f"{name}: no line, or one of other sources: try it by tools/try_edits.py {name}" for name in bad]
        failed += [f"{name}: a line without an edit" for name in record if name not in edits.sums]
        failed += [f"{name}: not once in its file: {text}" for name, file in edits.files.items() for text in unplaced(name.split("/")[0], file)]
        failed += [f"{name}: {line[0]} is still to come" for name, line in record.items() if line[0] > today]
        since = f" since {min(record[it][0] for it in waits)}" if waits else ""
        print(f"edits: {len(edits.sums)}, of which {len(edits.sums) - len(bad)} have a line, and {len(waits)} wait for their turn{since}")
    if words[:1] == ["--lend"] and not failed and edits.sums:
        give_back()
        for name in turn_of(edits, record, waits):
            room = TOP / "crates" / name.split("/")[0] / "must-fail"
            room.mkdir(exist_ok=True)
            shutil.copy2(edits.files[name], room / f"{LENT}{edits.files[name].name}")
    if words[:1] == ["--take"] and not failed:
        names = sorted(lent())
        give_back()
        said = Path(words[1]).read_text(encoding="utf-8", errors="replace").splitlines()
        found, wrong = outcomes("\n".join(it.replace(f"/{LENT}", "/", 1) for it in said if f"/{LENT}" in it), names)
        failed += [f"{name}: {why}" for name, why in wrong.items()] if names else ["no edit had its turn"]
        failed += [f"{name}: refused at {where}, and its line says {record[name][3]}" for name, where in found.items() if record[name][3] not in (UNTRIED[2], where)]
        record.update({name: (today, *edits.sums[name], where) for name, where in found.items()})
        print(f"edits: tried anew, as it was their turn: {' '.join(names)}")
        if not failed:
            write_record(record)
    for it in failed:
        print(it)
    return 1 if failed else 0


if __name__ == "__main__":
    sys.exit(main(sys.argv[1:]))
