#!/usr/bin/env python3
"""run_examples.py [DOCUMENT...]: runs the examples of the documents and manual pages exactly as printed.

In a document an example is a block marked `console`; in a manual page it is a literal display with a line that begins
with '$ '. A line '$ COMMAND' is run, with the lines '> ..' after it. The lines below are what it prints on both streams,
where a line '...' is any number of lines. A command with nothing below it prints nothing and exits with status 0. The
blocks of a document are one session of bash, in a folder like the top of a fresh clone, with the built program. A block
marked `sh` takes long, or another machine: only its syntax is checked, and whether the files exist that it names
(tools/recipe_runs.sh runs those of the manual). A block marked `text` is no example. Prints how many were run, or what differs, with status 1.
"""
import os
import re
import secrets
import shutil
import subprocess
import sys
import tempfile
from pathlib import Path

TOP = Path(__file__).resolve().parent.parent
PROGRAM = TOP / "crates/sealer/out/sealer"
DOCUMENTS = ["README.md", "docs/MANUAL.md", "docs/MANY_MACHINES.md", *sorted(
    str(it.relative_to(TOP)) for it in (TOP / "man").glob("*.[1-8]")
)]
# What a document's examples need besides; without it they are left out, which is a failure under CI.
NEEDS = {"docs/MANY_MACHINES.md": "parallel"}
# What is copied from the repository.
PARTS = ("README.md", "completions", "docs", "examples", "man", "tools")
SECONDS = 120


def blocks_of(text):
    """The fenced blocks of a text of Markdown: the word after the fence, the number of its line, and its lines."""
    found, block = [], None
    for number, line in enumerate(text.splitlines(), 1):
        if line.startswith("```"):
            if block is None:
                block = (line[3:].strip(), number, [])
            else:
                found.append(block)
                block = None
        elif block is not None:
            block[2].append(line)
    return found


def displays_of(text):
    """The literal displays of a manual page that have a command."""
    found = []
    for display in re.finditer(r"^\.Bd -literal.*\n((?:.*\n)*?)\.Ed$", text, re.M):
        lines = [it.replace("\\&", "").replace("\\-", "-").replace("\\e", "\\") for it in display.group(1).splitlines()]
        if any(it.startswith("$ ") for it in lines):
            found.append(("console", text[: display.start()].count("\n") + 1, lines))
    return found


def is_whole(command):
    """Whether the command is complete."""
    ran = subprocess.run(["bash", "-n"], input=command, capture_output=True, text=True, check=False)
    return not ran.returncode and not ran.stderr and not command.endswith("\\")


def commands_of(number, lines):
    """The commands of a block: the number of the line, the command, and the lines that it prints."""
    found = []
    for behind, line in enumerate(lines, 1):
        if line.startswith("$ "):
            found.append((number + behind, [line[2:]], []))
        elif not found:
            raise ValueError(f"line {number + behind}: a block of commands begins with '$ '")
        elif line.startswith("> ") and not found[-1][2] and not is_whole("\n".join(found[-1][1])):
            found[-1][1].append(line[2:])
        else:
            found[-1][2].append(line)
    return [(at, "\n".join(command), shown) for at, command, shown in found]


def is_shown(shown, printed):
    """Whether what was printed is what is shown."""
    if not shown:
        return not printed
    parts = ["(?:.*\n)*" if it == "..." else re.escape(it) + "\n" for it in shown]
    return re.fullmatch("".join(parts), printed) is not None


def clone(room):
    """Makes a folder like the top of a fresh clone in which the program was built."""
    top = room / "clone"
    top.mkdir()
    for part in PARTS:
        there = TOP / part
        if there.is_dir():
            shutil.copytree(there, top / part, ignore=shutil.ignore_patterns("__pycache__"))
        elif there.exists():
            shutil.copy2(there, top / part)
    built = top / PROGRAM.relative_to(TOP)
    built.parent.mkdir(parents=True)
    shutil.copy2(PROGRAM, built)
    return top


def run(document, commands):
    """Runs commands in one session; gives each one's status and what it printed, to the last that was run."""
    room = Path(tempfile.mkdtemp(prefix="sealer-examples-"))
    try:
        top, mark = clone(room), secrets.token_hex(16)
        (room / "home").mkdir()
        session = ["exec 2>&1 </dev/null", f"cd {top} || exit", "last=0"]
        for _, command, _ in commands:
            quoted = command.replace("'", "'\\''")
            session.append(f"(exit $last); eval '{quoted}'; last=$?; printf '\\n{mark} %d\\n' $last")
        path = os.environ["PATH"]
        if document.startswith("man/"):
            # a page is read where the program is installed
            path = f"{top / PROGRAM.parent.relative_to(TOP)}:{path}"
        env = {"PATH": path, "HOME": str(room / "home"), "LC_ALL": "C.UTF-8", "USER": "user", "TMPDIR": str(room)}
        (room / "session").write_text("\n".join(session) + "\n", encoding="utf-8")
        ran = subprocess.run(
            ["bash", room / "session"], env=env, capture_output=True, text=True, errors="replace", timeout=SECONDS, check=False
        )
        parts = re.split(rf"\n{mark} (\d+)\n", ran.stdout)
        return [(int(status), printed) for printed, status in zip(parts[::2], parts[1::2])], ran.stdout
    finally:
        shutil.rmtree(room, ignore_errors=True)


def unrun(number, lines):
    """What is wrong with a block that isn't run."""
    text = "\n".join(lines)
    ran = subprocess.run(["bash", "-n"], input=text, capture_output=True, text=True, check=False)
    if ran.returncode:
        yield f"{number}: {ran.stderr.strip()}"
    for name in re.findall(r"(?<![\w/.-])(?:tools|examples|docs|man|completions)/[\w./-]*\w", text):
        if not (TOP / name).exists():
            yield f"{number}: there is no {name}"


def judged(document):
    """What is wrong with a document's examples, and how many commands were run."""
    text, wrong, commands = (TOP / document).read_text(encoding="utf-8"), [], []
    is_page = document.startswith("man/")
    for word, number, lines in displays_of(text) if is_page else blocks_of(text):
        if word == "console":
            commands += commands_of(number, lines)
        elif word == "sh":
            wrong += unrun(number, lines)
        elif word != "text":
            wrong.append(f"{number}: a block is marked console, sh or text")
    if not is_page:
        outside = re.sub(r"^```.*?^```", lambda it: "\n" * it.group(0).count("\n"), text, flags=re.M | re.S)
        for number, line in enumerate(outside.splitlines(), 1):
            if re.match(r" {4,}\S", line):
                wrong.append(f"{number}: a block without a mark")
    if commands:
        answers, printed = run(document, commands)
        for (at, command, shown), (status, told) in zip(commands, answers):
            if not is_shown(shown, told) or not shown and status:
                wrong.append(f"{at}: {command}\n  status {status}, printed:\n{told.rstrip()}")
        if len(answers) < len(commands):
            at, command, _ = commands[len(answers)]
            wrong.append(f"{at}: {command}\n  the session ended here: {printed[-500:]}")
    return [f"{document}:{it}" for it in wrong], len(commands)


def main():
    if not PROGRAM.exists():
        sys.exit(f"{PROGRAM} isn't built: tools/build.py")
    documents = sys.argv[1:] or DOCUMENTS
    wrong, runs = [], 0
    for document in documents:
        tool = NEEDS.get(document)
        if tool and not shutil.which(tool):
            print(f"left out: the examples of {document}, which need {tool}")
            wrong += [f"{tool} is missing"] if os.environ.get("CI") else []
            continue
        try:
            faults, count = judged(document)
        except (ValueError, subprocess.TimeoutExpired) as fault:
            faults, count = [f"{document}: {fault}"], 0
        wrong += faults
        runs += count
        if not count and document in ("README.md", "docs/MANUAL.md", "man/sealer.1"):
            wrong.append(f"{document}: no example was found")
    for line in wrong:
        print(line)
    if not wrong:
        print(f"{runs} commands of {len(documents)} documents print what is shown")
    return 1 if wrong else 0


if __name__ == "__main__":
    sys.exit(main())
