"""Journals: what an audit says of one by the text, and ones made by chance."""
import re

from fuzz.run import Ask

NUMBER = rb"(0|[1-9][0-9]{0,9})"
RANGE = re.compile(rb"range " + rb" ".join([NUMBER] * 4))
OPERATION = re.compile(NUMBER + rb" (?:(issue) none|(issue|sealed|void) " + NUMBER + rb")")


# --- What the text says ---


def range_in(line):
    """Where a range begins, its size, and how many seats it has; or None where a line is no range line."""
    found = RANGE.fullmatch(line)
    if not found:
        return None
    device, lo, size, seats = map(int, found.groups())
    is_bounded = device <= 16_777_215 and 1 <= size <= 65_535 and lo + size <= 4_294_967_296 and 1 <= seats <= 64
    return (lo, size, seats) if is_bounded else None


def operation_in(line):
    """A seat, what it did, and with which number, None for `none`; or None where a line is no operation."""
    found = OPERATION.fullmatch(line)
    if not found or int(found[1]) > 63 or int(found[4] or 0) > 4_294_967_295:
        return None
    return int(found[1]), (found[2] or found[3]).decode(), None if found[2] else int(found[4])


def verdict(data):
    """The line that an audit prints."""
    *lines, rest = data.split(b"\n")
    numbers = lines and range_in(lines[0])
    if not numbers:
        return "malformed line 1"
    lo, size, seats = numbers
    issued, holder, refused, settled = 0, {}, set(), {"sealed": 0, "void": 0}
    for at, line in enumerate(lines[1:], 2):
        operation = operation_in(line)
        if operation is None:
            return f"malformed line {at}"
        seat, act, number = operation
        if act != "issue":
            is_legal = holder.pop(number, None) == seat
            settled[act] += 1
        elif number is None:
            is_legal = issued == size and seat not in refused
            refused.add(seat)
        else:
            is_legal = issued < size and number == lo + issued and seat not in refused
            holder[number] = seat
            issued += 1
        if not is_legal or seat >= seats:
            return f"illegal line {at}"
    if rest:
        return f"malformed line {len(lines) + 1}"
    sealed, void = settled["sealed"], settled["void"]
    return f"legal: {issued} granted, {sealed} sealed, {void} void, {len(holder)} open, {len(refused)} refused"


# --- The cases ---

VALUES = (
    b"0 00 01 1 +1 -1 2 9 10 62 63 64 65 100 65534 65535 65536 16777214 16777215 16777216 4294967294 4294967295 "
    b"4294967296 4294967297 18446744073709551616 99999999999999999999999999999999999 1.0 0x1 x none issue sealed void "
    b"range Issue NONE"
).split(b" ") + [b"", b"\xef\xbc\x91"]


def legal_journal(rng):
    """The lines of a legal journal."""
    size, seats = rng.choice((1, 1, 2, 3, 5, 20, 65535)), rng.choice((1, 1, 2, 3, 64, rng.randint(1, 64)))
    lo = rng.choice((0, 7, 2**32 - size, rng.randrange(2**32 - size + 1)))
    lines = [b"range %d %d %d %d" % (rng.choice((0, 1, 2**24 - 1, rng.randrange(2**24))), lo, size, seats)]
    issued, held, refused = 0, [], set()
    for _ in range(rng.choice((0, 1, 5, 20, 20, 60))):
        seat = rng.randrange(seats)
        if held and rng.random() < 0.5:
            lines.append(rng.choice((b"%d sealed %d", b"%d void %d")) % held.pop(rng.randrange(len(held))))
        elif issued < size:
            lines.append(b"%d issue %d" % (seat, lo + issued))
            held.append((seat, lo + issued))
            issued += 1
        elif seat not in refused:
            lines.append(b"%d issue none" % seat)
            refused.add(seat)
    return lines


def another_word(rng, lines):
    """Another word in one line: one beside a number, the number in another form, or any value."""
    at = rng.randrange(len(lines))
    words = lines[at].split(b" ")
    place = rng.randrange(len(words))
    word, value = words[place], rng.choice(VALUES)
    if word.isdigit() and rng.random() < 0.8:
        beside = b"%d" % abs(int(word) + rng.choice((-1, 1)))
        value = rng.choice((beside, beside, beside, beside, beside, word + b"0", b"0" + word, b"+" + word, b"-" + word))
    words[place] = value
    lines[at] = b" ".join(words)


def another_line(rng, lines):
    """One line in another form."""
    at = rng.randrange(len(lines))
    line = lines[at]
    lines[at] = rng.choice((
        line + b" ", b" " + line, line + b"\r", line.replace(b" ", b"  ", 1), line.replace(b" ", b"\t"), line.upper(),
        line + b" 1", line + b"0" * 40, line.replace(b" ", b""), line[:-1],
    ))


def other_lines(rng, lines):
    """A line less, more, twice, or two exchanged."""
    one, two, way = rng.randrange(len(lines)), rng.randrange(len(lines)), rng.randrange(4)
    if way == 0 and len(lines) > 1:
        del lines[one]
    elif way == 1:
        lines.insert(one, lines[two])
    elif way == 2:
        lines[one], lines[two] = lines[two], lines[one]
    else:
        more = (b"", b"x" * 40, b"range 1 0 1 1", b"0 issue none", b"0 issue 0", b"1 void 0", b"63 sealed 4294967295")
        lines.insert(rng.randrange(len(lines) + 1), rng.choice(more))


def other_bytes(rng, data):
    """The text cut, lengthened, with a byte or bit that is another, or with other ends of lines."""
    at = rng.randrange(len(data) + 1)
    return rng.choice((
        data[:at], data[:at], data[:-1], data[:at] + data[at + 1:], data[:at] + rng.randbytes(1) + data[at:],
        data[:at] + bytes(byte ^ 1 << rng.randrange(8) for byte in data[at:at + 1]) + data[at + 1:],
        data + rng.choice((b"\n", b"\r", b" ", b"\0", b"0 issue none", b"x\n", data)),
        data.replace(b"\n", rng.choice((b"\r\n", b"\r", b"", b"\n\n", b" \n"))),
        b"", b"\n", b"\xef\xbb\xbf" + data, b" " + data, b"\n" + data,
    ))


def ask(rng, case):
    """One journal."""
    lines = legal_journal(rng)
    for _ in range(rng.choice((0, 0, 1, 1, 1, 2, 3))):
        rng.choice([another_word] * 3 + [other_lines] * 3 + [another_line])(rng, lines)
    data = b"".join(line + b"\n" for line in lines)
    if rng.random() < 0.25:
        data = other_bytes(rng, data)
    line = verdict(data)
    return Ask(case, ["audit"], [], {}, 0 if line.startswith("legal") else 1, [line], input=data)
