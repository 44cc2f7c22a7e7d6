"""Streams, sections and texts of tables that are spoilt in a drawn way, for the scripts that try hostile input."""
import re

from lib import reader

# Values that lie at the edge of fields and lengths.
BYTES = [0, 1, 2, 3, 5, 127, 128, 182, 183, 184, 254, 255]
LENGTHS = [0, 1, 2, 4, 5, 8, 9, 12, 13, 16, 1021, 1022, 4093, 4094, 4095]

# What comes instead of a number or a text of a JSON text.
VALUES = ["-1", "0", "1.5", "1e999", "31", "32", "255", "256", "4095", "8191", "8192", "65535", "65536", "4294967296",
          "18446744073709551616", "null", "true", "[]", "{}", '""', '"0x"', '"0x1FFF"', '"-1"', '"\\ud800"', '"\\u0000"',
          '"' + "z" * 300 + '"', '"' + "7" * 500 + '"', "[" * 200 + "]" * 200]

# The same, of numbers and texts that many places take.
NUMBERS = ["0", "1", "2", "5", "16", "31", "255", '"0x0F"', '"7"']
TEXTS = ['""', '"News"', '"0A FF"', '"\u00e9\u0444"', '"2026-02-28 23:59:59"', '"01:02:03"', '"0x10"', '"eng"']

# PIDs that a spoilt table is put on.
TABLE_PIDS = [0, 1, 16, 17, 18, 256, 272, 4096]


# ---- bytes

def any_bytes(draw, count):
    return bytes(draw.randrange(256) for _ in range(count))


def turned(draw, data):
    """Some bits are turned."""
    data = bytearray(data)
    for _ in range(draw.choice([1, 1, 3, 20]) if data else 0):
        data[draw.randrange(len(data))] ^= 1 << draw.randrange(8)
    return bytes(data)


def cut_off(draw, data):
    return data[:draw.randint(0, len(data))]


def taken_out(draw, data):
    """A stretch is gone."""
    at = draw.randint(0, len(data))
    return data[:at] + data[at + draw.choice([1, 4, 188, 400]):]


def put_in(draw, data):
    """A stretch of any bytes is there besides."""
    at = draw.randint(0, len(data))
    return data[:at] + any_bytes(draw, draw.choice([1, 3, 188, 376])) + data[at:]


def repeated(draw, data):
    """A stretch comes again and again."""
    at = draw.randint(0, len(data))
    piece = data[at:at + draw.choice([1, 10, 188, 1880])]
    return data[:at] + piece * draw.choice([2, 3, 50]) + data[at:]


# ---- sections

def sealed(body):
    """The section with its length and its CRC set; one of the short form has no CRC."""
    body = bytearray(body[:4092])
    if len(body) < 3:
        return bytes(body)
    is_long = body[1] & 0x80
    length = len(body) - 3 + (4 if is_long else 0)
    body[1] = body[1] & 0xF0 | length >> 8 & 0x0F
    body[2] = length & 0xFF
    return bytes(body) + (reader.crc_of(body).to_bytes(4, "big") if is_long else b"")


def section_of(draw, section):
    """A section that is spoilt: mostly in its body, under a length and a CRC that are right."""
    body = bytearray(section[:-4] if section[1:] and section[1] & 0x80 else section)
    for _ in range(draw.choice([1, 1, 2, 6])):
        at = draw.randrange(3, len(body)) if len(body) > 3 else 0
        kind = draw.randrange(6)
        if kind == 0:
            body[at:at + 1] = bytes([draw.choice(BYTES)])
        elif kind == 1:
            length = draw.choice([*LENGTHS, max(0, len(body) - at - 2), max(0, len(body) - at - 1)])
            body[at:at + 2] = (0xF000 | length).to_bytes(2, "big")
        elif kind == 2:
            del body[at:at + draw.choice([1, 2, 40])]
        elif kind == 3:
            body[at:at] = any_bytes(draw, draw.choice([1, 2, 40, 3000]))
        elif kind == 4:
            body[at:] = turned(draw, body[at:])
        else:
            body[0:1] = bytes([draw.choice([0, 1, 2, 0x40, 0x42, 0x46, 0x4A, 0x4E, 0x50, 0x70, 0x73, 0xC0])])
    whole = sealed(body)
    return turned(draw, whole) if draw.random() < 0.2 else whole


def sections_of(draw, sections):
    """Some of these sections one after another, some of them spoilt, and sometimes the row itself."""
    rows = [draw.choice(sections) for _ in range(draw.choice([1, 1, 2, 8]))]
    data = b"".join(section_of(draw, row) if draw.random() < 0.7 else row for row in rows)
    return draw.choice([turned, cut_off, taken_out, put_in, repeated])(draw, data) if draw.random() < 0.3 else data


# ---- streams

def packets_with(draw, pid, sections):
    """Packets that carry these sections, sometimes with a pointer that lies."""
    rows, left = [], b"".join(sections)
    left, is_first = bytes([0]) + left, True
    while left:
        head = bytes([0x47, (0x40 if is_first else 0) | pid >> 8, pid & 0xFF, 0x10 | len(rows) % 16])
        rows.append((head + left[:184]).ljust(reader.SIZE, b"\xff"))
        left, is_first = left[184:], False
    if draw.random() < 0.2:
        rows[0] = rows[0][:4] + bytes([draw.choice(BYTES)]) + rows[0][5:]
    return rows


def with_tables(draw, data, sections):
    """The packets of one PID are others, which carry spoilt sections, again and again."""
    pid = draw.choice(TABLE_PIDS)
    rows = [packet for packet in reader.packets_of(data) if reader.pid_of(packet) != pid]
    for _ in range(draw.choice([1, 3, 10])):
        at = draw.randint(0, len(rows))
        chosen = [section_of(draw, draw.choice(sections)) for _ in range(draw.choice([1, 1, 3]))]
        rows[at:at] = packets_with(draw, pid, chosen)
    return counted(rows, pid) if draw.random() < 0.8 else b"".join(rows)


def counted(rows, pid):
    """The packets, with those of this PID counted on."""
    number, found = 0, []
    for packet in rows:
        if reader.pid_of(packet) == pid:
            packet = packet[:3] + bytes([packet[3] & 0xF0 | number % 16]) + packet[4:]
            number += 1
        found.append(packet)
    return b"".join(found)


def with_heads(draw, data, _sections):
    """Some packets have other heads, adaptation fields, pointers or lengths."""
    data = bytearray(data)
    count = len(data) // reader.SIZE
    for _ in range(draw.choice([1, 5, 60]) if count else 0):
        at = draw.randrange(count) * reader.SIZE
        kind = draw.randrange(4)
        if kind == 0:
            data[at + draw.randrange(1, 12)] ^= 1 << draw.randrange(8)
        elif kind == 1:
            data[at + 3] = data[at + 3] & 0xCF | draw.choice([0, 0x10, 0x20, 0x30])
            data[at + 4] = draw.choice(BYTES)
        elif kind == 2:
            data[at + 1] |= 0x40
            data[at + 4] = draw.choice(BYTES)
        else:
            place = at + draw.choice([5, 6, 12, 13, 15, 16])
            data[place:place + 2] = (0xB000 | draw.choice(LENGTHS)).to_bytes(2, "big")
    return bytes(data)


def shuffled(draw, data, _sections):
    """Packets come again, come elsewhere or are gone."""
    rows = reader.packets_of(data)
    for _ in range(draw.choice([1, 10, 100]) if rows else 0):
        at = draw.randrange(len(rows))
        kind = draw.randrange(3)
        if kind == 0:
            rows[at:at] = [rows[at]] * draw.choice([1, 2, 17])
        elif kind == 1:
            rows.insert(draw.randint(0, len(rows)), rows[at])
        elif len(rows) > 1:
            del rows[at]
    return b"".join(rows)


def stream_of(draw, streams, sections):
    """A part of a real stream that is spoilt, mostly with its packets in place; its bytes may be moved in the last step."""
    data = draw.choice(streams)
    count = len(data) // reader.SIZE
    begin = draw.choice([0, draw.randrange(count)])
    data = data[begin * reader.SIZE:(begin + draw.choice([10, 200, 1500])) * reader.SIZE]
    for _ in range(draw.choice([1, 1, 2, 3])):
        data = draw.choice([with_tables, with_tables, with_heads, shuffled])(draw, data, sections)
    if draw.random() < 0.3:
        data = draw.choice([turned, cut_off, taken_out, put_in, repeated])(draw, data)
    return data


def noise_of(draw):
    """Any bytes, or packets of any bytes after the byte of sync."""
    if draw.random() < 0.3:
        return any_bytes(draw, draw.choice([0, 1, 187, 188, 189, 5000]))
    pids = [draw.choice([*TABLE_PIDS, draw.randrange(8192)]) for _ in range(4)]
    heads = (0x47000000 | draw.choice([0, 0x40, 0x80, 0xC0]) << 16 | draw.choice(pids) << 8 | draw.randrange(256)
             for _ in range(draw.choice([1, 20, 300])))
    return b"".join(head.to_bytes(4, "big") + any_bytes(draw, 184) for head in heads)


# ---- texts

def text_of(draw, texts):
    """A JSON text of tables that is spoilt: in most steps one number or text of it is another one."""
    text = draw.choice(texts)
    for _ in range(draw.choice([1, 1, 2, 5])):
        kind = draw.randrange(16)
        if kind < 13:
            text = with_value(draw, text, is_near=kind < 12)
        elif kind == 13:
            text = draw.choice([turned, cut_off, taken_out, put_in, repeated])(draw, text)
        elif kind == 14:
            depth = draw.choice([2, 100, 126, 127, 128, 5000])
            text = b"[" * depth + text + b"]" * draw.choice([0, depth - 1, depth])
        else:
            text = draw.choice([b"\xef\xbb\xbf", b" ", b"\x00", b"\xff"]) + text + draw.choice([b"", b"\n", b",", b"\x00"])
    return text


def with_value(draw, text, is_near):
    """A number, or a text that is no name, is another one, and sometimes one that is elsewhere."""
    parts = re.finditer(rb'("#name": *)?"[^"]*"( *:)?|\b\d+\b', text)
    found = [part for part in parts if not part[0].startswith(b'"#name"') and not part[0].endswith(b":")]
    if not found:
        return text
    part = draw.choice(found)
    if not is_near:
        other = draw.choice([draw.choice(VALUES).encode(), draw.choice(found)[0]])
    else:
        other = draw.choice(TEXTS if part[0].startswith(b'"') and not part[0].startswith(b'"0x') else NUMBERS).encode()
    return text[:part.start()] + other + text[part.end():]
