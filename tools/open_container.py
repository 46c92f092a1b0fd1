#!/usr/bin/env python3
"""Opens a sealed container, version 1 or 2, by docs/FORMATS.md alone.

    open_container.py KEYFILE CONTAINER OUTPUT

KEYFILE holds the key as 64 hex digits. Needs the package `cryptography`; exits with status 3 without it.
If the container doesn't open, prints the first fault, with status 1.
"""
import hashlib
import sys

try:
    from cryptography.exceptions import InvalidTag
    from cryptography.hazmat.primitives.ciphers.aead import ChaCha20Poly1305
except ImportError:
    sys.exit(3)

MAGIC, TAG = b"STRMSEAL", 16
# Bytes of the greatest plaintext that is accepted, and how many chunks at most: their numbers have 32 bits.
MOST, MOST_CHUNKS = (1 << 52) - (1 << 20), (1 << 32) - 1


class Fault(Exception):
    """Why it doesn't open."""


def container_length(header, exponent, plain):
    """The length of a container with `header` bytes of header and `plain` bytes of plaintext."""
    return header + plain + TAG * max(1, -(-plain // (1 << exponent)))


def longest_container(header, exponent):
    """The bytes of the longest container that is accepted."""
    return container_length(header, exponent, min(MOST, MOST_CHUNKS << exponent))


def header_of_version_1(key, data):
    """The header's length and the exponent."""
    if len(data) > longest_container(24, 16):
        raise Fault("too long")
    if len(data) < 24:
        raise Fault("header cut short")
    if data[:8] != MAGIC:
        raise Fault("not a sealed file")
    if data[8] != 1:
        raise Fault("unknown version")
    if data[9] != 16:
        raise Fault("unknown chunk size")
    if data[17:24] != hashlib.sha256(key).digest()[:7]:
        raise Fault("sealed under another key")
    return 24, 16


def header_of_version_2(key, data):
    """The header's length, with the label, and the exponent."""
    if len(data) < 24:
        raise Fault("header cut short")
    exponent = data[9]
    if not 12 <= exponent <= 20:
        raise Fault("unknown chunk size")
    if data[17:24] != hashlib.sha256(key).digest()[:7]:
        raise Fault("sealed under another key")
    if len(data) < 25 or len(data) < 25 + data[24]:
        raise Fault("header cut short")
    length = 25 + data[24]
    if len(data) > longest_container(length, exponent):
        raise Fault("too long")
    return length, exponent


def sealed_chunks(body, exponent):
    """The chunks with their tags."""
    size = (1 << exponent) + TAG
    parts = [body[i:i + size] for i in range(0, len(body), size)]
    # Only the first chunk may be empty, and then it is the only one.
    if not parts or len(parts[-1]) < TAG + (len(parts) > 1):
        raise Fault("wrong length")
    return parts


def opened(key, data):
    """The plaintext of a container."""
    begins_as_2 = data[:9] == MAGIC + b"\x02"
    length, exponent = header_of_version_2(key, data) if begins_as_2 else header_of_version_1(key, data)
    header, prefix = data[:length], data[10:17]
    parts, plain = sealed_chunks(data[length:], exponent), []
    for number, part in enumerate(parts):
        nonce = prefix + number.to_bytes(4, "big") + bytes([number + 1 == len(parts)])
        try:
            plain.append(ChaCha20Poly1305(key).decrypt(nonce, part, header))
        except InvalidTag:
            raise Fault(f"chunk {number} does not check") from None
    return b"".join(plain)


def main():
    key_file, container, output = sys.argv[1:]
    key = bytes.fromhex(open(key_file, encoding="ascii").read())
    try:
        plain = opened(key, open(container, "rb").read())
    except Fault as fault:
        print(fault)
        sys.exit(1)
    open(output, "wb").write(plain)


if __name__ == "__main__":
    main()
