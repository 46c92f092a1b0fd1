"""Containers: what the text says of one, and ones made by chance, most of them wrong."""
import copy
import hashlib

from cryptography.exceptions import InvalidTag
from cryptography.hazmat.primitives.ciphers.aead import ChaCha20Poly1305

from fuzz.run import Ask

MAGIC, TAG = b"STRMSEAL", 16
# The greatest plaintext that may be asked for, and the one where nothing is.
MOST, USUAL = 1 << 40, 1 << 30
# The exponents of version 2, mostly small ones.
EXPONENTS = [12] * 8 + [13, 13, 14, 15, 16, 16, 17, 18, 19, 20]


# --- What the text says ---


class Fault(Exception):
    """The text of a container's first fault."""


def refuse(is_fault, text):
    if is_fault:
        raise Fault(text)


def hint_of(key):
    return hashlib.sha256(key).digest()[:7]


def container_length(header, size, plain):
    """The bytes of a container, of those of its header, of a chunk and of its plaintext."""
    return header + plain + TAG * max(1, -(-plain // size))


def plaintext(key, data, most):
    """What a container holds, if plaintexts of at most `most` bytes are accepted."""
    if data[:9] == MAGIC + b"\x02":
        refuse(len(data) < 24, "header cut short")
        refuse(data[9] not in range(12, 21), "unknown chunk size")
        refuse(data[17:24] != hint_of(key), "sealed under another key")
        refuse(len(data) == 24 or len(data) < 25 + data[24], "header cut short")
        header, size = 25 + data[24], 1 << data[9]
        refuse(len(data) > container_length(header, size, most), "too long")
    else:
        header, size = 24, 1 << 16
        refuse(len(data) > container_length(header, size, most), "too long")
        refuse(len(data) < 24, "header cut short")
        refuse(data[:8] != MAGIC, "not a sealed file")
        refuse(data[8] != 1, "unknown version")
        refuse(data[9] != 16, "unknown chunk size")
        refuse(data[17:24] != hint_of(key), "sealed under another key")
    # No other number of chunks can give this many bytes.
    count = max(1, -(-(len(data) - header) // (size + TAG)))
    plain = len(data) - header - TAG * count
    refuse(plain < 0 or container_length(header, size, plain) != len(data), "wrong length")
    pieces = []
    for number in range(count):
        at = header + number * (size + TAG)
        nonce = data[10:17] + number.to_bytes(4, "big") + bytes([number == count - 1])
        try:
            pieces.append(ChaCha20Poly1305(key).decrypt(nonce, data[at:at + size + TAG], data[:header]))
        except InvalidTag:
            raise Fault(f"chunk {number} does not check") from None
    return b"".join(pieces)


def label_in(data):
    """The label of a container that checks; version 1 has none."""
    return data[25:25 + data[24]] if data[8] == 2 else None


def shown(data):
    """What `verify --show` says of a container that checks."""
    size, device, number = 1 << data[9], int.from_bytes(data[10:13], "big"), int.from_bytes(data[13:17], "big")
    line = f"  version {data[8]} chunk {size} device {device} file {number}"
    if data[8] == 1:
        return line
    printed = (chr(it) if 32 <= it < 127 and it not in b'"\\' else f"\\x{it:02x}" for it in label_in(data))
    return f'{line} label "{"".join(printed)}"'


# --- A container in its parts ---


def pieces_of(plain, size):
    return [plain[at:at + size] for at in range(0, len(plain), size)] or [b""]


class Parts:
    """A container in its parts, each of which may be changed. With a label it is of version 2."""

    def __init__(self, key, prefix, plain, exponent=16, label=None):
        self.magic, self.version, self.exponent = MAGIC, 1 if label is None else 2, exponent
        self.key, self.prefix, self.hint = key, prefix, hint_of(key)
        self.label, self.label_length = label, len(label or b"")
        self.pieces, self.chunks = pieces_of(plain, 1 << exponent), []
        # The number of the first chunk, which piece is the last one, and how much of the header is associated data.
        self.first, self.last, self.bound = 0, len(self.pieces) - 1, None
        self.seal()

    def header(self):
        label = b"" if self.label is None else bytes([self.label_length]) + self.label
        return self.magic + bytes([self.version, self.exponent]) + self.prefix + self.hint + label

    def seal(self):
        """Seals the pieces under what the parts are."""
        self.chunks = []
        for at, piece in enumerate(self.pieces):
            nonce = self.prefix + (self.first + at).to_bytes(4, "big") + bytes([at == self.last])
            self.chunks.append(ChaCha20Poly1305(self.key).encrypt(nonce, piece, self.header()[:self.bound]))

    def data(self):
        return self.header() + b"".join(self.chunks)

    def places(self):
        """Where parts begin and end."""
        places = [0, 8, 9, 24, 25, len(self.header())]
        for chunk in self.chunks:
            places.append(places[-1] + len(chunk))
        return places


def length_near(rng, size, most):
    """Bytes of a plaintext: around the greatest one, few, or around whole chunks."""
    way = rng.random()
    if way < 0.4 and most < 1 << 18:
        return max(0, most + rng.choice((-1, 0, 1)))
    if way < 0.5:
        return rng.choice((0, 0, 1, 15, 16, 17, rng.randrange(300)))
    chunks = rng.choice((1, 1, 2, 2, 3) if size <= 1 << 14 else (0, 1, 1, 2))
    return max(0, chunks * size + rng.choice((-17, -16, -1, 0, 0, 1, 1, 16, 17, rng.randrange(-size, size))))


def drawn(rng, key, most, first_only):
    """A valid container."""
    prefix = rng.choice((bytes(7), b"\xff" * 7, rng.randbytes(7), rng.randbytes(7)))
    exponent, label = 16, None
    if not first_only and rng.random() < 0.75:
        exponent = rng.choice(EXPONENTS)
        length = rng.choice((0, 0, 1, 2, 16, 254, 255, rng.randrange(256)))
        label = rng.choice((rng.randbytes(length), bytes(rng.choices(b'ab "\\\n\x1b', k=length))))
    length = length_near(rng, 1 << exponent, most)
    plain = (rng.randbytes(61) * (length // 61 + 1))[:length]
    return Parts(key, prefix, plain, exponent, label)


# --- What is changed before the pieces are sealed, so that tags are good ---


def an_empty_chunk_more(_, parts):
    parts.pieces.append(b"")
    parts.last += 1


def no_last_one(_, parts):
    parts.last = -1


def another_last_one(rng, parts):
    parts.last = rng.randrange(len(parts.pieces))


def another_first_number(rng, parts):
    parts.first = rng.choice((1, 2, 256, 2**31))


def other_sizes(rng, parts):
    parts.pieces = pieces_of(b"".join(parts.pieces), rng.choice((1000, 1 << 11, 1 << 12, 1 << 13)))
    parts.last = len(parts.pieces) - 1


def another_version(rng, parts):
    parts.version = rng.choice((0, 1, 2, 2, 3, 16, 255))


def another_exponent(rng, parts):
    parts.exponent = rng.choice((0, 1, 10, *range(11, 23), 255))


def less_of_the_header(rng, parts):
    parts.bound = rng.choice((0, 8, 23, 24, 25))


def another_key(rng, parts):
    parts.key = rng.randbytes(32)


SEALINGS = [
    an_empty_chunk_more, an_empty_chunk_more, no_last_one, another_last_one, another_first_number, other_sizes,
    another_version, another_exponent, less_of_the_header, another_key,
]


# --- What is changed of the parts of a sealed one ---


def flipped(rng, data, place=None):
    """The bytes with one bit flipped."""
    place = rng.randrange(len(data)) if place is None else place
    return data[:place] + bytes([data[place] ^ 1 << rng.randrange(8)]) + data[place + 1:]


def another_name(rng, parts):
    """Another magic, prefix or hint."""
    part = rng.choice(("magic", "prefix", "hint"))
    setattr(parts, part, flipped(rng, getattr(parts, part)))


def another_label_length(rng, parts):
    beside = (parts.label_length + rng.choice((-17, -16, -1, 1, 15, 16, 17))) % 256
    parts.label_length = rng.choice((0, 255, rng.randrange(256), beside, beside, beside))


def another_label(rng, parts):
    if parts.label:
        parts.label = rng.choice((flipped(rng, parts.label), parts.label[1:], parts.label + b"\0"))


def chunks_exchanged(rng, parts):
    one, two = rng.randrange(len(parts.chunks)), rng.randrange(len(parts.chunks))
    parts.chunks[one], parts.chunks[two] = parts.chunks[two], parts.chunks[one]


def a_chunk_twice(rng, parts):
    parts.chunks.insert(rng.randrange(len(parts.chunks) + 1), rng.choice(parts.chunks))


def a_chunk_less(rng, parts):
    del parts.chunks[rng.randrange(len(parts.chunks))]


def chunks_of_a_twin(rng, parts):
    """A chunk, or all, of another container with the same pieces."""
    twin = copy.copy(parts)
    if parts.label is not None and rng.random() < 0.5:
        twin.label = rng.randbytes(rng.choice((0, 1, min(255, len(parts.label)))))
        twin.label_length = len(twin.label)
    else:
        twin.prefix = flipped(rng, parts.prefix)
    twin.seal()
    at = rng.randrange(len(twin.chunks))
    if rng.random() < 0.2 or at >= len(parts.chunks):
        parts.chunks = twin.chunks
    else:
        parts.chunks[at] = twin.chunks[at]


CHANGES = [
    another_name, another_version, another_exponent, another_label_length, another_label_length, another_label,
    chunks_exchanged, a_chunk_twice, a_chunk_less, chunks_of_a_twin, chunks_of_a_twin,
]


# --- What is changed of its bytes ---


def near(rng, places):
    """A place at one of these or beside it."""
    beside = (-17, -16, -15, -1, 0, 0, 1, 2, 15, 16, 17, 18, rng.randrange(-40, 40))
    return max(0, rng.choice(places) + rng.choice(beside))


def cut(rng, data, places):
    return data[:rng.choice((near(rng, places), near(rng, places), rng.randrange(len(data) + 1)))]


def lengthened(rng, data, _):
    return data + rng.randbytes(rng.choice((1, 15, 16, 17, rng.randrange(100)))) * rng.choice((1, 1, 1, 100))


def bit_flipped(rng, data, places):
    if not data:
        return data
    place = rng.choice((rng.randrange(len(data)), rng.randrange(min(30, len(data))), near(rng, places)))
    return flipped(rng, data, min(place, len(data) - 1))


def byte_less(rng, data, places):
    place = near(rng, places)
    return data[:place] + data[place + 1:]


def byte_more(rng, data, places):
    place = near(rng, places)
    return data[:place] + rng.randbytes(1) + data[place:]


def other_bytes(rng, data, _):
    begin = rng.choice((b"", MAGIC, MAGIC + b"\x01", MAGIC + b"\x02", data[:24]))
    return begin + rng.randbytes(rng.randrange(60))


BYTE_CHANGES = [cut, cut, lengthened, bit_flipped, bit_flipped, byte_less, byte_more, other_bytes]


# --- The cases ---


def altered(rng, parts):
    """The bytes of a container, most often changed."""
    if rng.random() < 0.2:
        rng.choice(SEALINGS)(rng, parts)
        parts.seal()
    for _ in range(rng.choice((0, 0, 1, 1, 2))):
        if parts.chunks:
            rng.choice(CHANGES)(rng, parts)
    data, places = parts.data(), parts.places()
    for _ in range(rng.choice((0, 0, 0, 1, 1, 2))):
        data = rng.choice(BYTE_CHANGES)(rng, data, places)
    return data


def asked_label(rng, data):
    """A label that may be asked for: mostly that of these bytes, where a command line can have it, or one beside it."""
    there = label_in(data) if len(data) > 24 and data[:9] == MAGIC + b"\x02" else b"a label"
    return rng.choice((there, there, there, there[:-1], there + b"x", b""))


def as_words(label):
    """A label as a word of a command line, or None where it can't be one."""
    try:
        text = label.decode()
    except UnicodeDecodeError:
        return None
    return text if "\0" not in text and len(label) < 256 else None


def asks(rng, first, count, first_only):
    """`count` containers, numbered from `first` on, for one run, but of `unpipe` for a run each."""
    key = rng.randbytes(32)
    command = rng.choice(("verify", "verify", "open", "unpipe"))
    words = [command, "--key", "key", "--workers", str(rng.choice((1, 1, 2, 3, 16)))]
    limits = (0, 1, 4095, 4096, 8192, 65536, rng.randrange(1 << 14), rng.randrange(1 << 17))
    most = rng.choice((USUAL, USUAL, MOST, rng.choice(limits)))
    if most != USUAL:
        words += ["--max-bytes", str(most)]
    shows = command == "verify" and not first_only and rng.random() < 0.4
    if shows:
        words.append("--show")
    made = {}
    for case in range(first, first + count):
        data = altered(rng, drawn(rng, rng.randbytes(32) if rng.random() < 0.05 else key, most, first_only))
        if first_only and data[:9] == MAGIC + b"\x02":
            data = MAGIC + b"\x03" + data[9:]
        made[case] = data
    label = None
    if not first_only and rng.random() < 0.3:
        label = as_words(asked_label(rng, rng.choice(list(made.values()))))
    if label is not None:
        words.append(f"--label={label}")
    for case, data in made.items():
        if command == "unpipe":
            yield ask_of_stream(case, words, key, data, most, label)
            continue
        name = f"{case}.stm"
        ask = Ask(case, words, [name], {"key": key.hex().encode(), name: data}, 0, [])
        try:
            plain = plaintext(key, data, most)
            refuse(label is not None and label_in(data) != label.encode(), "another label")
            ask.out = [f"{'good' if command == 'verify' else 'opened'} {name} bytes {len(plain)}"]
            ask.out += [shown(data)] if shows else []
            ask.left = {str(case): plain} if command == "open" else {}
        except Fault as fault:
            ask.status, ask.out = 1, [f"failed {name}: {fault}"]
        yield ask


def ask_of_stream(case, words, key, data, most, label):
    """A container that `unpipe` gets, as standard input or, of each third case, as a FILE."""
    name = f"{case}.stm" if case % 3 == 0 else "-"
    files = {"key": key.hex().encode(), **({name: data} if name != "-" else {})}
    ask = Ask(case, words, [name] if case % 3 < 2 else [], files, 0, [], input=b"" if name in files else data)
    try:
        ask.container = plaintext(key, data, most)
        refuse(label is not None and label_in(data) != label.encode(), "another label")
        ask.faults = f"opened {name} bytes {len(ask.container)}\n"
    except Fault as fault:
        ask.status, ask.container, ask.faults = 1, b"", f"failed {name}: {fault}\n"
    return ask
