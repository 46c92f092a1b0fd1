#!/usr/bin/env python3
"""Seals a file into a container, version 1 or 2, by docs/FORMATS.md alone. For tests: it keeps no ledger.

    seal_container.py [--exponent N] [--label TEXT] KEYFILE DEVICE NUMBER INPUT CONTAINER

Version 2 is written if an exponent (12 to 20) or a label (0 to 255 bytes) is given; the other is then 16 or empty.
KEYFILE holds the key as 64 hex digits. Needs the package `cryptography`; exits with status 3 without it.
"""
import argparse
import hashlib
import os
import sys

try:
    from cryptography.hazmat.primitives.ciphers.aead import ChaCha20Poly1305
except ImportError:
    sys.exit(3)

MAGIC = b"STRMSEAL"


def sealed(key, device, number, plain, exponent=None, label=None):
    """The container of a plaintext under a device's number: version 2 where an exponent or a label is given."""
    prefix = device.to_bytes(3, "big") + number.to_bytes(4, "big")
    hint = hashlib.sha256(key).digest()[:7]
    if exponent is None and label is None:
        exponent = 16
        header = MAGIC + bytes([1, exponent]) + prefix + hint
    else:
        exponent = 16 if exponent is None else exponent
        label = b"" if label is None else label
        header = MAGIC + bytes([2, exponent]) + prefix + hint + bytes([len(label)]) + label
    size = 1 << exponent
    parts = [plain[i:i + size] for i in range(0, len(plain), size)] or [b""]
    body = []
    for chunk, part in enumerate(parts):
        nonce = prefix + chunk.to_bytes(4, "big") + bytes([chunk + 1 == len(parts)])
        body.append(ChaCha20Poly1305(key).encrypt(nonce, part, header))
    return header + b"".join(body)


def main():
    parser = argparse.ArgumentParser(description="Seals a file into a container. For tests: it keeps no ledger.")
    parser.add_argument("--exponent", metavar="N", type=int, choices=range(12, 21), help="of the chunk size, 12 to 20")
    parser.add_argument("--label", metavar="TEXT", type=os.fsencode, help="at most 255 bytes")
    parser.add_argument("key", metavar="KEYFILE")
    parser.add_argument("device", metavar="DEVICE", type=int)
    parser.add_argument("number", metavar="NUMBER", type=int)
    parser.add_argument("source", metavar="INPUT")
    parser.add_argument("container", metavar="CONTAINER")
    asked = parser.parse_args()
    if asked.label is not None and len(asked.label) > 255:
        parser.error("the label has more than 255 bytes")
    key = bytes.fromhex(open(asked.key, encoding="ascii").read())
    plain = open(asked.source, "rb").read()
    container = sealed(key, asked.device, asked.number, plain, asked.exponent, asked.label)
    open(asked.container, "wb").write(container)


if __name__ == "__main__":
    main()
