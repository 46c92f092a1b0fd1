#!/usr/bin/env python3
"""link_static.py PROGRAM OUTPUT [COMMIT]: links a program that `rt` built against the static C library.

PROGRAM is what `rt` linked, dynamically and position-independent: the file that the gate tests. Its code and data are
taken as they are, each segment at its old distance from the others, and the places that the loader would fill are
filled by the linker: with addresses inside PROGRAM, and with those of the C library's functions. At the end the code and
the constants in OUTPUT are compared with PROGRAM's. What it can't take over, as thread-local storage, it refuses.

With COMMIT, a commit's full name, the first twelve digits of that replace 'not-recorded' in the text of `--version`. That
is one place in a constant; nothing else differs.

`rt` keeps no object file of a program that was proved in an earlier run, so this starts from the program itself.
Needs cc and the C library's static archive (Debian: gcc, libc6-dev).
"""
import re
import shutil
import struct
import subprocess
import sys
import tempfile
from collections import namedtuple
from pathlib import Path

# What `--version` ends with before a commit is named (crates/command_line/src/version.rt), and how many digits replace its last word.
COMMIT = b") commit not-recorded"
DIGITS = 12
# Where PROGRAM's first segment lies in OUTPUT, above all that the C library brings: its address in bytes.
BASE = 1 << 24
# The types of segments, and of what the loader fills in, as ELF and its supplement for x86-64 number them.
LOAD, TLS = 1, 7
WORD, COPIED_ADDRESS, CALLED_ADDRESS, OWN_ADDRESS = 1, 6, 7, 8
EXECUTABLE, WRITABLE = 1, 2
WEAK = 2
# The bytes of a place that is filled in.
PLACE = 8

Segment = namedtuple("Segment", "kind flags offset address physical in_file in_memory align")
Section = namedtuple("Section", "name kind flags address offset size link info align entry")
Symbol = namedtuple("Symbol", "name info other section value size")


class Program:
    """The parts of an ELF file that are needed here."""

    def __init__(self, file):
        self.data = data = Path(file).read_bytes()
        if data[:6] != b"\x7fELF\x02\x01" or struct.unpack_from("<HH", data, 16) != (3, 62):
            sys.exit(f"{file} is no position-independent program for x86-64")
        first, table = struct.unpack_from("<QQ", data, 32)
        size, count, row, rows, names = struct.unpack_from("<5H", data, 54)
        self.segments = [Segment(*struct.unpack_from("<IIQQQQQQ", data, first + size * it)) for it in range(count)]
        found = [Section(*struct.unpack_from("<IIQQQQIIQQ", data, table + row * it)) for it in range(rows)]
        self.strings_of = lambda section: found[section.link]
        self.sections = {self.text(found[names], it.name): it for it in found}

    def name_commit(self, commit):
        """Puts a commit's first digits into the constant that has room for them."""
        if not re.fullmatch("[0-9a-f]{40,64}", commit):
            sys.exit(f"{commit} is not the full name of a commit")
        at = self.data.find(COMMIT)
        if at < 0 or self.data.count(COMMIT) != 1:
            sys.exit(f"the program has {self.data.count(COMMIT)} places for a commit, not one")
        end = at + len(COMMIT)
        if not any(it.offset <= at and end <= it.offset + it.in_file and not it.flags & WRITABLE for it in self.loaded()):
            sys.exit("the place for a commit is not in a constant")
        self.data = self.data[: end - DIGITS] + commit[:DIGITS].encode() + self.data[end:]

    def text(self, strings, at):
        start = strings.offset + at
        return self.data[start : self.data.index(b"\0", start)].decode()

    def rows(self, name, form):
        section = self.sections[name]
        return struct.iter_unpack(form, self.data[section.offset : section.offset + section.size])

    def symbols(self, name):
        strings = self.strings_of(self.sections[name])
        return [Symbol(self.text(strings, first), *rest) for first, *rest in self.rows(name, "<IBBHQQ")]

    def loaded(self):
        return [it for it in self.segments if it.kind == LOAD]

    def bytes_at(self, address, size):
        for it in self.loaded():
            if it.address <= address and address + size <= it.address + it.in_file:
                return self.data[it.offset + address - it.address :][:size]
        return None


def places_of(program):
    """What the loader would fill in: by its address, the assembler's term for it."""
    outer, places = program.symbols(".dynsym"), {}
    for name in (".rela.dyn", ".rela.plt"):
        for address, info, addend in program.rows(name, "<QQq"):
            kind, symbol = info & 0xFFFFFFFF, outer[info >> 32]
            if kind == OWN_ADDRESS:
                places[address] = f"program + {addend}"
            elif kind in (WORD, COPIED_ADDRESS, CALLED_ADDRESS) and symbol.section == 0:
                places[address] = f"{symbol.name} + {addend}"
            else:
                sys.exit(f"cannot fill in {symbol.name or 'a place'} of type {kind}")
    return places


def assembly_of(program):
    """The assembler's text of all that is loaded of a program that lies beside it as `program`."""
    places = places_of(program)
    [main] = [it.value for it in program.symbols(".symtab") if it.name == "main" and it.section]
    weak = [it.name for it in program.symbols(".dynsym") if it.info >> 4 == WEAK]
    yield f".globl main\nmain = program + {main}"
    yield from (f".weak {name}" for name in weak)
    for number, it in enumerate(program.loaded()):
        mode = "a" + "w" * bool(it.flags & WRITABLE) + "x" * bool(it.flags & EXECUTABLE)
        yield f'.section .program{number}, "{mode}", @progbits'
        if number == 0:
            yield f"program = . - {it.address}"
        at, end = it.address, it.address + it.in_file
        for place in [*sorted(place for place in places if at <= place < end), end]:
            if at < place:
                yield f'.incbin "program", {it.offset + at - it.address}, {place - at}'
            if place < end:
                yield f".quad {places[place]}"
            at = place + PLACE
        if it.in_memory > it.in_file:
            yield f".zero {it.in_memory - it.in_file}"
    # what runs before main; what the C library's own start-up files do at the end needs no second time
    first = program.sections[".init_array"]
    yield '.section .init_array, "aw", @init_array'
    yield from (f".quad {places[it]}" for it in range(first.address, first.address + first.size, PLACE))
    mark = program.sections[".comment"]
    yield f'.section .comment\n.incbin "program", {mark.offset}, {mark.size}'
    yield '.section .note.GNU-stack, "", @progbits'


def check(program, output):
    """Compares the code and the constants."""
    for it in program.loaded():
        own = program.data[it.offset : it.offset + it.in_file]
        if not it.flags & WRITABLE and output.bytes_at(BASE + it.address, it.in_file) != own:
            sys.exit("the linked code is not the program's")


def main():
    if len(sys.argv) not in (3, 4):
        sys.exit("usage: link_static.py PROGRAM OUTPUT [COMMIT]")
    file, output, *commits = sys.argv[1:]
    program = Program(file)
    for commit in commits:
        program.name_commit(commit)
    if any(it.kind == TLS for it in program.segments):
        sys.exit(f"{file} has thread-local storage, which cannot be taken over")
    if program.sections[".fini_array"].size != PLACE:
        sys.exit(f"{file} has functions that run at its end, which cannot be taken over")
    addresses = [f"-Wl,--section-start=.program{number}={BASE + it.address:#x}" for number, it in enumerate(program.loaded())]
    with tempfile.TemporaryDirectory() as room:
        Path(room, "program").write_bytes(program.data)
        Path(room, "program.s").write_text("\n".join(assembly_of(program)) + "\n", encoding="utf-8")
        words = ["cc", "-static-pie", "-s", "-Wl,--build-id=none", "-Wl,-z,relro,-z,now,-z,noexecstack", *addresses, "-o", "linked", "program.s"]
        if subprocess.run(words, cwd=room, check=False).returncode:
            sys.exit(f"{file} was not linked")
        check(program, Program(f"{room}/linked"))
        shutil.copy(f"{room}/linked", output)


if __name__ == "__main__":
    main()
