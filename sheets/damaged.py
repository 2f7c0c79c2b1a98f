#!/usr/bin/env python3
"""Prints what crates/damaged must print (its file 'stdout'), from docs/SHEETS.md. It shares no code with the crates."""
from struct import pack, unpack

PROTOCOLS = ["MI", "MSI", "MESI", "MESIF", "MOSI", "MOSIF", "MOESI", "MOESIF"]
CHANNELS = ["unordered", "paired", "single file"]
MEMORIES = ["words", "image"]
TOO_LONG = "5 sheet over 32768 bytes"
BAD_HEAD = "6 head short, or of another mark or version"
OUT_OF_BOUNDS = "7 head code or length out of bounds"
UNKNOWN_LETTER = "8 unknown letter"
CUT_SHORT = "9 record cut short"

class Refused(Exception):
    pass

def head_line(sheet):
    if len(sheet) > 32768:
        raise Refused(TOO_LONG)
    if len(sheet) < 13 or sheet[:5] != b"MOS\x01\x00":
        raise Refused(BAD_HEAD)
    protocol, channels, memory, caches, sets, ways, blocks = unpack("<BBBBBBH", sheet[5:13])
    if not (protocol <= 7 and channels <= 2 and memory <= 1
            and 1 <= caches <= 8 and 1 <= sets <= 16 and 1 <= ways <= 4 and 1 <= blocks <= 1024):
        raise Refused(OUT_OF_BOUNDS)
    return (f"protocol {PROTOCOLS[protocol]} channels {CHANNELS[channels]} memory {MEMORIES[memory]}"
            f" caches {caches} sets {sets} ways {ways} blocks {blocks}")

def shown(text):
    return "".join(chr(b) if 32 <= b < 127 and b != 92 else f"\\x{b:02x}" for b in text)

class Cursor:
    def __init__(self, data, at):
        self.data, self.at = data, at

    def take(self, size):
        if len(self.data) - self.at < size:
            raise Refused(CUT_SHORT)
        self.at += size
        return self.data[self.at - size:self.at]

def record_line(cursor):
    letter = cursor.take(1)
    if letter == b"L":
        return "load cache %d block %d word %d" % unpack("<BHB", cursor.take(4))
    if letter == b"S":
        return "store cache %d block %d word %d value %d" % unpack("<BHBQ", cursor.take(12))
    if letter == b"D":
        return "deliver channel %d pick %d" % tuple(cursor.take(2))
    if letter == b"M":
        return "memory turn pick %d" % tuple(cursor.take(1))
    if letter == b"C":
        block, count = unpack("<HB", cursor.take(3))
        words = unpack(f"<{2 * count}Q", cursor.take(16 * count))
        return f"content block {block} count {count} words" + "".join(f" {w}" for w in words)
    if letter == b"N":
        return "note " + shown(cursor.take(cursor.take(1)[0]))
    raise Refused(UNKNOWN_LETTER)

def listing(sheet):
    lines = []
    try:
        lines.append(head_line(sheet))
        cursor = Cursor(sheet, 13)
        while cursor.at < len(sheet):
            lines.append(f"{len(lines)} " + record_line(cursor))
    except Refused as why:
        lines.append(f"{len(lines)} no {why}")
    return lines

def head(mark=b"MOS", version=1, protocol=5, channels=1, memory=0, caches=7, sets=3, ways=2, blocks=260):
    return mark + pack("<HBBBBBBH", version, protocol, channels, memory, caches, sets, ways, blocks)

def note(text):
    return b"N" + bytes([len(text)]) + text

every = (head() + note(b"a\\b\n") + b"C" + pack("<HBQQ", 3, 1, 7, 2**64 - 1)
         + b"S" + pack("<BHBQ", 0, 258, 1, 0x0102030405060708) + b"D" + bytes([1, 255]) + b"M" + bytes([5])
         + b"L" + pack("<BHB", 1, 258, 1))
for cut in range(len(every) + 1):
    print(f"cut {cut}: {listing(every[:cut])[-1]}")

for letter in range(256):
    print(f"letter {letter}: {listing(head() + bytes([letter]) + bytes(20))[1]}")

for place in range(3):
    for change in (-1, 0, 1):
        mark = bytearray(b"MOS")
        mark[place] += change
        print(f"head mark {place + 1} {mark[place]}: {listing(head(mark=bytes(mark)))[0]}")
for field, values in [("version", (0, 1, 2, 257)), ("protocol", (0, 7, 8)), ("channels", (0, 2, 3)), ("memory", (0, 1, 2)),
                      ("caches", (0, 1, 8, 9)), ("sets", (0, 1, 16, 17)), ("ways", (0, 1, 4, 5)), ("blocks", (0, 1, 1024, 1025))]:
    for value in values:
        print(f"head {field} {value}: {listing(head(**{field: value}))[0]}")

for last in (114, 115):
    sheet = head() + 127 * note(255 * b"a") + note(last * b"a")
    print(f"size {len(sheet)}: {listing(sheet)[0]}")
    print(f"size {len(sheet)} ends: {listing(sheet)[-1]}")
