"""Descriptors by the table of docs/formats.md: a reader of its own, and bodies that are drawn.

`pages` reads the table. `shown` is the element that JSON has for a body, by the rules of docs/json.md, or None where the body is
not of the page; of a text that is neither plain ASCII nor UTF-8 after its mark it knows the key alone, and raises `Unsure`.
`bodies` draws bodies of a page, and others that are nearly so; `page_for` finds the page of a body.
"""
import collections
import pathlib
import re
import time

TOP = pathlib.Path(__file__).resolve().parents[2]

Row = collections.namedtuple("Row", "name kind count")
Page = collections.namedtuple("Page", "tag name front item each back groups extension form", defaults=((), None, None))
Group = collections.namedtuple("Group", "name values rows")

# The tag of extension descriptors: the first byte of their bodies is the tag of an extension, which is that of their pages.
EXTENSION = 0x7F

# Where `back` is None the items, if there are any, go up to the end. A group's rows are there where the field of its name is one of
# its values; where it has no name, they always are. Items that have groups, or items in them, are pages themselves, `form`.


class Unsure(Exception):
    """A text in another character table."""


class Outside(Exception):
    """Bits that are not of the page."""


def row_of(text):
    words = text.split()
    if words[0] in ("reserved", "ones", "zeros") and len(words) == 2:
        return Row("", words[0], int(words[1]))
    if words[-1].isdigit():
        return Row(words[0], "digits" if words[1] == "digits" else "number", int(words[-1]))
    return Row(words[0], " ".join(words[1:]), 0)


def rows_of(text):
    """The rows of a list, of which reserved bits that are shown get their names."""
    rows, seen = [], 0
    for part in filter(None, (part.strip() for part in text.split(";"))):
        row = row_of(part)
        if row.kind in ("reserved", "zeros"):
            seen += 1
            row = row._replace(name="reserved" if seen == 1 else f"reserved_{seen}")
        rows.append(row)
    return rows


def grouped_page(tag, name, fields):
    """A page whose first fields say which others are there."""
    chunks = [chunk.strip("; ") for chunk in re.split(r"(if `\w+` is [^:]*: \([^)]*\))", fields)]
    told = [(re.fullmatch(r"if `(\w+)` is ([^:]*): \((.*)\)", chunk), chunk) for chunk in chunks if chunk]
    texts = [found[3] if found else chunk for found, chunk in told]
    rows, groups = rows_of(";".join(texts)), []
    for (found, _), text in zip(told, texts):
        count = len(rows_of(text))
        values = [int(value) for value in found[2].split(" or ")] if found else []
        groups.append(Group(found[1] if found else None, values, rows[:count]))
        rows = rows[count:]
    return Page(tag, name, groups[0].rows, None, None, None, groups[1:])


def page_of(line):
    tags, name, _, fields, _ = (part.strip() for part in line.strip("|\n").split(" | "))
    tag, _, extension = tags.partition("/")
    page = page_by(int(tag, 16), name.strip("`"), fields)
    return page._replace(extension=int(extension, 16)) if extension else page


def parts_of(fields):
    """The parts between semicolons that are in no parentheses."""
    parts, depth = [""], 0
    for letter in fields:
        depth += (letter == "(") - (letter == ")")
        if letter == ";" and depth == 0:
            parts.append("")
        else:
            parts[-1] += letter
    return [part.strip() for part in parts if part.strip()]


def formed_page(tag, name, fields):
    """A page whose items have groups, or items in them; None where it is no such page."""
    *front, last = parts_of(fields) or [""]
    loop = re.fullmatch(r"each `(\w+)`: \((.*)\)", last)
    if not loop or "`" not in loop[2]:
        return None
    *rest, inner = parts_of(loop[2])
    counted = re.fullmatch(r"counted `(\w+)`: \((.*)\)", inner)
    own = page_by(None, loop[1], "; ".join(rest if counted else [*rest, inner]))
    if counted:
        own = own._replace(item=counted[1], each=rows_of(counted[2]), back=[])
    return Page(tag, name, rows_of("; ".join(front)), None, None, None, (), None, own)


def page_by(tag, name, fields):
    formed = formed_page(tag, name, fields)
    if formed:
        return formed
    if "if `" in fields:
        return grouped_page(tag, name, fields)
    loop = re.search(r"(each|counted) `(\w+)`: \((.*?)\)", fields)
    if not loop:
        return Page(tag, name, rows_of(fields), None, None, None)
    around = fields[:loop.start()].rstrip("; "), fields[loop.end():].lstrip("; ")
    rows = rows_of(";".join(around))
    place = len(rows_of(around[0]))
    back = rows[place:] if loop[1] == "counted" else None
    return Page(tag, name, rows[:place], loop[2], rows_of(loop[3]), back)


def pages():
    text = (TOP / "docs/formats.md").read_text(encoding="utf-8")
    table = text.partition("| Tag | Name | Clause | Fields | Bytes of |\n")[2].splitlines()[1:]
    return [page_of(line[1:]) for line in table[:table.index("")]]


def page_for(table, tag, body):
    """The page of a descriptor with this tag and body; None where it has none."""
    extension = body[0] if tag == EXTENSION and body else None
    return next((page for page in table if (page.tag, page.extension) == (tag, extension)), None)


# ---- reading

class Bits:
    def __init__(self, data):
        self.left = "".join(f"{byte:08b}" for byte in data)

    def number(self, count):
        if len(self.left) < count:
            raise Outside
        taken, self.left = self.left[:count], self.left[count:]
        return int(taken or "0", 2)

    def data(self, count):
        return bytes(self.number(8) for _ in range(count))

    def rest(self):
        if len(self.left) % 8:
            raise Outside
        return self.data(len(self.left) // 8)


def digits_of(bits, count):
    found = [bits.number(4) for _ in range(count)]
    if max(found) > 9:
        raise Outside
    return int("".join(map(str, found)))


def start_of(bits):
    day, times = bits.number(16), bits.number(24)
    if (day, times) == (0xFFFF, 0xFFFFFF):
        return "undefined"
    text = f"{times:06x}"
    if not text.isdecimal() or int(text[:2]) > 23 or int(text[2:4]) > 59 or int(text[4:]) > 59:
        raise Outside
    date = time.gmtime((day - 40587) * 86400)
    return f"{date.tm_year:04}-{date.tm_mon:02}-{date.tm_mday:02} {text[:2]}:{text[2:4]}:{text[4:]}"


def is_plain(data):
    return all(0x20 <= byte <= 0x7E for byte in data)


def text_of(data):
    if is_plain(data):
        return data.decode()
    if data[0] == 0x15 and not is_plain(data[1:]):
        try:
            return data[1:].decode()
        except UnicodeDecodeError:
            pass
    raise Unsure


def value_of(row, bits):
    """The value that JSON has for a row, or None where it has none."""
    if row.kind in ("reserved", "zeros"):
        found = bits.number(row.count)
        return None if found == (2 ** row.count - 1 if row.kind == "reserved" else 0) else found
    if row.kind == "ones":
        if bits.number(row.count) != 2 ** row.count - 1:
            raise Outside
        return None
    if row.kind == "language":
        data = bits.data(3)
        if not is_plain(data):
            raise Outside
        return data.decode()
    return {
        "number": lambda: bits.number(row.count), "flag": lambda: bits.number(1) == 1, "start": lambda: start_of(bits),
        "digits": lambda: digits_of(bits, row.count), "text": bits.rest, "data": lambda: bits.rest().hex(),
        "counted text": lambda: bits.data(bits.number(8)), "counted data": lambda: bits.data(bits.number(8)).hex(),
    }[row.kind]()


def values_of(rows, bits):
    found = ((row.name, value_of(row, bits)) for row in rows)
    return {name: value for name, value in found if value is not None}


def items_of(page, bits):
    items = []
    while bits.left:
        items.append({"#name": page.item, **values_of(page.each, bits)})
    return items


def is_there(group, element):
    return group.name is None or int(element[group.name]) in group.values


def with_texts(element):
    """The element with its bytes as texts."""
    if isinstance(element, list):
        return [with_texts(one) for one in element]
    return {name: text_of(value) if isinstance(value, bytes) else with_texts(value) if name == "#nodes" else value
            for name, value in element.items()}


def element_of(page, bits):
    """The element of the bits in front that are of the page; it has bytes where there are texts."""
    element = {"#name": page.name, **values_of(page.front, bits)}
    for group in page.groups:
        if is_there(group, element):
            element.update(values_of(group.rows, bits))
    if page.form:
        element["#nodes"] = []
        while bits.left:
            element["#nodes"].append(element_of(page.form, bits))
    elif page.item and page.back is None:
        element["#nodes"] = items_of(page, bits)
    elif page.item:
        element["#nodes"] = items_of(page, Bits(bits.data(bits.number(8))))
        element.update(values_of(page.back, bits))
    return element


def shown(page, body):
    """The element of a body; None where it is not of the page."""
    bits = Bits(body if page.extension is None else body[1:])
    try:
        element = element_of(page, bits)
        if bits.left:
            return None
    except Outside:
        return None
    return with_texts(element)


# ---- drawing

TEXTS = [b"", b"News", b"a", b"The long text of the event.", b"\x15\xc3\x89t\xc3\xa9", b"\x15S\xc3\xad\xc5\xa5"]


def time_of(chance):
    day, hour, minute = chance.randrange(65536), chance.randrange(24), chance.randrange(60)
    if chance.random() < 0.1:
        return "1" * 40
    return f"{day:016b}" + "".join(f"{int(digit):04b}" for digit in f"{hour:02}{minute:02}{chance.randrange(60):02}")


def bits_of(data):
    return "".join(f"{byte:08b}" for byte in data)


def drawn_row(chance, row):
    """The bits of a value that the row can hold."""
    if row.kind == "ones" or row.kind == "reserved" and chance.random() < 0.7:
        return "1" * row.count
    if row.kind == "zeros" and chance.random() < 0.7:
        return "0" * row.count
    if row.kind == "digits":
        return "".join(f"{chance.randrange(10):04b}" for _ in range(row.count))
    if row.kind == "start":
        return time_of(chance)
    if row.kind == "language":
        return bits_of(chance.choice([b"eng", b"fra", b"GBR", b"~ ~"]))
    if "text" in row.kind:
        data = chance.choice(TEXTS)
    elif "data" in row.kind:
        data = bytes(chance.randrange(256) for _ in range(chance.randrange(5)))
    else:
        count = row.count if row.kind != "flag" else 1
        return f"{chance.choice([0, 2 ** count - 1, chance.randrange(2 ** count)]):0{count}b}"
    return (f"{len(data):08b}" if row.kind.startswith("counted") else "") + bits_of(data)


def drawn_rows(chance, rows):
    return "".join(drawn_row(chance, row) for row in rows)


def bytes_of(bits):
    return int("1" + bits, 2).to_bytes(len(bits) // 8 + 1, "big")[1:]


def drawn_bits(chance, page):
    """The bits of an element of the page."""
    bits = drawn_rows(chance, page.front)
    if page.groups:
        front = values_of(page.front, Bits(bytes_of(bits)))
        bits += "".join(drawn_rows(chance, group.rows) for group in page.groups if is_there(group, front))
    if page.form:
        bits += "".join(drawn_bits(chance, page.form) for _ in range(chance.randrange(4)))
    if page.item:
        items = "".join(drawn_rows(chance, page.each) for _ in range(chance.randrange(4)))
        bits += items if page.back is None else f"{len(items) // 8:08b}" + items + drawn_rows(chance, page.back)
    return bits


def drawn(chance, page):
    """A body of the page, of at most 255 bytes."""
    return (b"" if page.extension is None else bytes([page.extension])) + bytes_of(drawn_bits(chance, page))


def spoiled(chance, body):
    """The body with a bit turned, cut, or with bytes after it."""
    kind = chance.randrange(4)
    if kind == 0 or not body:
        return body + bytes(chance.randrange(256) for _ in range(chance.randrange(1, 4)))
    if kind == 1:
        return body[:chance.randrange(len(body))]
    at, bit = chance.randrange(len(body)), 1 << chance.randrange(8)
    return body[:at] + bytes([body[at] ^ bit]) + body[at + 1:]


def bodies(chance, page, count):
    """So many bodies of the page, as many that are nearly so, and half as many of any bytes."""
    good = [drawn(chance, page) for _ in range(count)]
    near = [spoiled(chance, body) for body in good]
    return [body for body in [*good, *near, *(chance.randbytes(chance.randrange(24)) for _ in range(count // 2))] if len(body) <= 255]
