#!/usr/bin/env python3
"""Writes the example sheets of this folder, byte by byte, from docs/SHEETS.md. Run it here; it shares no code with the crates."""
from struct import pack

def head(protocol, channels, memory, caches, sets, ways, blocks, mark=b"MOS", version=1):
    return mark + pack("<HBBBBBBH", version, protocol, channels, memory, caches, sets, ways, blocks)

def load(cache, block, word):
    return b"L" + pack("<BHB", cache, block, word)

def store(cache, block, word, value):
    return b"S" + pack("<BHBQ", cache, block, word, value)

def deliver(channel, pick):
    return b"D" + bytes([channel, pick])

def turn(pick):
    return b"M" + bytes([pick])

def content(block, *words):
    assert len(words) % 2 == 0
    return b"C" + pack("<HB", block, len(words) // 2) + pack(f"<{len(words)}Q", *words)

def note(text):
    return b"N" + bytes([len(text)]) + text

# every kind of record, with numbers at the ends of their fields and a note that needs escapes
every = b"".join([
    head(7, 0, 0, 2, 1, 1, 4),
    note("stores by the head core, loads by the feeder core".encode()),
    content(2, 5, 18446744073709551615, 0, 7),
    store(0, 2, 1, 7),
    deliver(0, 0),
    turn(0),
    deliver(1, 255),
    load(1, 2, 1),
    note(b"a tab\t, a line\n, a backslash \\, a byte \xff"),
    note(b""),
    content(0),
    store(255, 65535, 255, 18446744073709551615),
])
good = {
    "every-record.sheet": every,
    # the last record lacks its last byte
    "cut.sheet": every[:-1],
    # version 2
    "bad-head.sheet": head(7, 0, 0, 2, 1, 1, 4, version=2) + load(0, 0, 0),
}
for name, data in good.items():
    with open(name, "wb") as out:
        out.write(data)
    print(name, len(data), "bytes")
