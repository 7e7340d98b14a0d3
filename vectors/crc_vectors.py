#!/usr/bin/python3
"""Vectors for crates/crc_vectors: messages, and their CRC as the library crcmod computes it (Debian: python3-crcmod).

Writes crates/crc_vectors/stdin, records of a length (two bytes, high first) and as many bytes, and
crates/crc_vectors/stdout, a line of eight hexadecimal digits for each. Running it again writes the same files."""
import hashlib
import pathlib

import crcmod

CRATE = pathlib.Path(__file__).resolve().parent.parent / "crates" / "crc_vectors"
LENGTHS = [*range(0, 41), 63, 64, 65, 127, 128, 129, 182, 183, 184, 187, 188, 189, 255, 256, 257, 511, 512, 700]
CHECK = b"123456789"


def noise(seed, n):
    return hashlib.shake_128(seed.encode()).digest(n)


def messages():
    yield CHECK
    for n in LENGTHS:
        yield bytes(n)
        yield b"\xff" * n
        yield noise(f"bytes {n}", n)
    for n in (4, 184):  # one bit set, at each place of the first bytes and of the last
        for bit in (*range(16), *range(n * 8 - 16, n * 8)):
            yield (1 << (n * 8 - 1 - bit)).to_bytes(n, "big")
    for n in (0, 1, 16, 179, 183):  # a message with its own CRC behind it: zero
        body = noise(f"body {n}", n)
        yield body + crc(body).to_bytes(4, "big")


crc = crcmod.mkCrcFun(0x104C11DB7, initCrc=0xFFFFFFFF, rev=False, xorOut=0)
# the value that the catalogues of CRCs publish for CRC-32/MPEG-2
assert crc(CHECK) == 0x0376E6E7
all_messages = list(messages())
(CRATE / "stdin").write_bytes(b"".join(len(m).to_bytes(2, "big") + m for m in all_messages))
(CRATE / "stdout").write_text("".join(f"{crc(m):08x}\n" for m in all_messages))
