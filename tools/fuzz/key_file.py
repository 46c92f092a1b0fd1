"""Key files: what the text says of one, and ones made by chance."""
import re

from fuzz.container import MOST, USUAL, Fault, drawn, plaintext
from fuzz.run import Ask

OTHERS = (b"0", b"f", b"F", b"g", b"G", b"/", b":", b"@", b"`", b" ", b"\n", b"\0", b"\x80", b"\xef\xbc\x91")
ENDS = (b"\r", b"\n\r", b"\n\n", b"\r\n\n", b"\r\r\n", b" \n", b"\t", b"\n\0", b"\x0b", b"\x0c")


def key_in(data):
    """The key, or None where a file is no key file."""
    found = re.fullmatch(rb"([0-9A-Fa-f]{64})(\n|\r\n)?", data)
    return found and bytes.fromhex(found[1].decode())


def key_file(rng, key):
    """A file with the digits of a key, or with something like it."""
    digits, end, at, other = key.hex(), rng.choice((b"", b"\n", b"\r\n")), rng.randrange(64), rng.choice(OTHERS)
    cased = "".join(rng.choice((digit, digit.upper())) for digit in digits).encode()
    digits = digits.encode()
    return rng.choice((
        digits + end, cased + end, cased + end,
        # a digit that is another one, less, or more
        digits[:at] + other + digits[at + 1:] + end, digits[:at] + digits[at + 1:] + end,
        digits[:at] + other + digits[at:] + end, digits + other + end, other + digits + end, digits + end + other,
        # other lengths
        digits[:at] + end, digits + digits[:at] + end, digits * 2 + end, digits[:62] + end, digits[:63] + end, b"", end,
        digits + end + bytes(rng.choice((1, 100, 100_000))),
        # other ends, and other beginnings
        digits + rng.choice(ENDS), cased + rng.choice(ENDS), b"0x" + digits[:rng.choice((62, 64))] + end,
        b"\xef\xbb\xbf" + digits + end,
        # other forms
        key, rng.randbytes(rng.choice((64, 65, 66, 67))), key.hex().encode("utf-16"),
    ))


def ask(rng, case, first_only):
    """One container, and a key file for it."""
    key = rng.randbytes(32)
    data, text = drawn(rng, key, MOST, first_only).data(), key_file(rng, key)
    asked = Ask(case, ["verify", "--key", "key"], ["a.stm"], {"key": text, "a.stm": data}, 0, [])
    found = key_in(text)
    try:
        if found is None:
            asked.status, asked.faults = 2, "key: not a key file\n"
        else:
            asked.out = [f"good a.stm bytes {len(plaintext(found, data, USUAL))}"]
    except Fault as fault:
        asked.status, asked.out = 1, [f"failed a.stm: {fault}"]
    return asked
