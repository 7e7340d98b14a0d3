#!/usr/bin/python3
"""Holds the remainders that the lister must print to the library crcmod (Debian: python3-crcmod).

Reads the lister's input, crates/lister/data/many, and what must be printed of it, which stands in crates/lister/stdout behind the
example's lines. Behind `refused 7` must stand what crcmod makes of the packet's bytes 4 to 187, and it must not be 0; behind any other
refusal nothing. Fails where a line says something else."""
import pathlib

import crcmod

LISTER = pathlib.Path(__file__).resolve().parent.parent / "crates" / "lister"
EXAMPLE_LINES = 3
PACKET_BYTES = 188

crc = crcmod.mkCrcFun(0x104C11DB7, initCrc=0xFFFFFFFF, rev=False, xorOut=0)
recording = (LISTER / "data" / "many").read_bytes()
lines = (LISTER / "stdout").read_text().splitlines()[EXAMPLE_LINES:]
checked = 0
for k in range(len(recording) // PACKET_BYTES):
    number, word, *rest = lines[k].split(" ")
    assert number == str(k), lines[k]
    if word == "refused" and rest[0] == "7":
        remainder = crc(recording[PACKET_BYTES * k + 4 : PACKET_BYTES * (k + 1)])
        assert remainder != 0 and rest[1:] == [f"{remainder:08x}"], lines[k]
        checked += 1
    elif word == "refused":
        assert len(rest) == 1, lines[k]
assert checked > 0
print(f"{checked} remainders are those of crcmod")
