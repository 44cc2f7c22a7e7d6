"""Reads packets, sections and tables of streams, for the scripts of this folder. It knows nothing of the programs."""
import collections

SIZE, NULL_PID = 188, 8191
NULL = bytes([0x47, 0x1F, 0xFF, 0x10]) + bytes([0xFF] * 184)
PAT_PID, NIT_PID, SDT_PID = 0, 16, 17

# A table as the reader has it: its head, the descriptors of the whole, and entries of a head and descriptors each.
Table = collections.namedtuple("Table", "id extension version current fields descriptors entries")


# ---- packets and sections

def packets_of(data):
    return [data[at:at + SIZE] for at in range(0, len(data) - SIZE + 1, SIZE)]


def pid_of(packet):
    return (packet[1] & 0x1F) << 8 | packet[2]


def payload_of(packet):
    control = packet[3] >> 4 & 3
    if control in (0, 2):
        return b""
    return packet[4:] if control == 1 else packet[5 + packet[4]:]


def crc_of(data):
    crc = 0xFFFFFFFF
    for byte in data:
        crc ^= byte << 24
        for _ in range(8):
            crc = (crc << 1 ^ (0x04C11DB7 if crc & 0x80000000 else 0)) & 0xFFFFFFFF
    return crc


def is_long(section):
    return bool(section[1] & 0x80)


def sections_of(packets):
    """The sections of the packets of one PID, each with the number of the packet that ends it."""
    counter, held = None, None
    for number, packet in enumerate(packets):
        payload = payload_of(packet)
        if not payload:
            continue
        if counter is not None and packet[3] & 15 != (counter + 1) % 16:
            if packet[3] & 15 == counter:
                continue
            held = None
        counter = packet[3] & 15
        if packet[1] & 0x40:
            before, behind = payload[1:1 + payload[0]], payload[1 + payload[0]:]
            if held is not None:
                yield from whole(held + before, number)[0]
            found, held = whole(behind, number)
            yield from found
        elif held is not None:
            found, held = whole(held + payload, number)
            yield from found


def whole(data, number):
    """The whole sections at the beginning of the bytes, and what is left; none is left after stuffing."""
    found = []
    while len(data) >= 3 and data[0] != 0xFF:
        size = 3 + ((data[1] & 15) << 8 | data[2])
        if len(data) < size:
            return found, data
        if not is_long(data[:size]) or crc_of(data[:size]) == 0:
            found.append((data[:size], number))
        data = data[size:]
    return found, (data if data and data[0] != 0xFF else None)


def runs_of(packets):
    """The tables of one PID: key, sections and the number of the packet that ends the last one, in their order.

    A table comes once in each of its versions, by the first section of each number, as `docs/formats.md` has it: what a
    multiplexer changes without a new version is no other table.
    """
    begun = {}
    for section, number in sections_of(packets):
        if not is_long(section) or 0x4E <= section[0] <= 0x6F:
            continue
        key = (section[0], section[3] << 8 | section[4], section[5] & 1)
        version, place, last = section[5] >> 1 & 31, section[6], section[7]
        held = begun.get(key)
        if held is None or (held[0], held[1]) != (version, last):
            held = begun[key] = (version, last, {})
        if place not in held[2]:
            held[2][place] = section
            if len(held[2]) == last + 1:
                yield key, [held[2][n] for n in range(last + 1)], number


# ---- tables

def number(data, bits=16):
    return int.from_bytes(data[:2], "big") & ((1 << bits) - 1)


def descriptors_in(data):
    found = []
    while data:
        found.append((data[0], data[2:2 + data[1]]))
        data = data[2 + data[1]:]
    return tuple(found)


def head_of(run):
    return dict(id=run[0][0], extension=number(run[0][3:]), version=run[0][5] >> 1 & 31, current=run[0][5] & 1)


def table_of(run):
    """The fields, descriptors and entries of a run of sections; of what is no PAT, CAT, PMT, NIT, BAT or SDT its bytes."""
    table_id = run[0][0]
    bodies = [section[8:-4] for section in run]
    fields, descriptors, entries = (), (), []
    if table_id == 0:
        for body in bodies:
            entries += [((number(body[at:]), number(body[at + 2:], 13)), ()) for at in range(0, len(body), 4)]
        # The network's entry is told first.
        entries.sort(key=lambda entry: entry[0][0] != 0)
    elif table_id == 1:
        for body in bodies:
            descriptors += descriptors_in(body)
    elif table_id == 2:
        body = bodies[0]
        fields, size = (number(body, 13),), number(body[2:], 12)
        descriptors, body = descriptors_in(body[4:4 + size]), body[4 + size:]
        while body:
            size = number(body[3:], 12)
            entries.append(((body[0], number(body[1:], 13)), descriptors_in(body[5:5 + size])))
            body = body[5 + size:]
    elif table_id in (0x40, 0x41, 0x4A):
        for body in bodies:
            size = number(body, 12)
            descriptors += descriptors_in(body[2:2 + size])
            body = body[4 + size:]
            while body:
                size = number(body[4:], 12)
                entries.append(((number(body), number(body[2:])), descriptors_in(body[6:6 + size])))
                body = body[6 + size:]
    elif table_id in (0x42, 0x46):
        fields = (number(bodies[0]),)
        for body in bodies:
            body = body[3:]
            while body:
                size = number(body[3:], 12)
                head = (number(body), body[2] >> 1 & 1, body[2] & 1, body[3] >> 5, body[3] >> 4 & 1)
                entries.append((head, descriptors_in(body[5:5 + size])))
                body = body[5 + size:]
    else:
        fields = tuple(run)
    return Table(**head_of(run), fields=fields, descriptors=descriptors, entries=tuple(entries))


def on_pids(packets):
    by_pid = collections.defaultdict(list)
    for packet in packets:
        by_pid[pid_of(packet)].append(packet)
    return by_pid


# ---- comparing tables before and after

def distinct(runs):
    """For each key its tables in their order, one that only repeats the one before left out."""
    found = collections.defaultdict(list)
    for key, table in runs:
        if not found[key] or found[key][-1] != table:
            found[key].append(table)
    return found


def is_within(part, all_of):
    """Whether the items are in the list, in this order."""
    rest = iter(all_of)
    return all(any(item == other for other in rest) for item in part)


def faults_of_tables(pid, before, behind, edit, view):
    """The tables of an edited PID: what was wanted of each, and what came.

    `edit` gives of a key and a run the table that is wanted, its bytes where it is to stay as it was, or None where it is
    not carried; `view` gives of a run behind what is compared with that.
    """
    wanted, came, changes, sizes = [], [], {}, {}
    for key, run, number in runs_of(before):
        table = edit(key, run)
        if table is None:
            continue
        key = key_behind(key, table)
        if changes.get(key, (None,))[0] != table:
            changes[key] = table, number
        sizes[key] = sum(map(len, run))
        wanted.append((key, table))
    for key, run, _ in runs_of(behind):
        came.append((key, view(key, run)))
    # A cycle is the packets of all tables, which an edit makes a few bytes longer.
    cycle = (sum(sizes.values()) + 100) // 183 + 2
    wanted, came = distinct(wanted), distinct(came)
    for key in sorted(set(wanted) | set(came)):
        is_due = key in changes and len(before) - changes[key][1] > 2 * cycle
        if key not in wanted:
            yield f"PID {pid}: a table {key} that was not there"
        elif not is_within(came[key], wanted[key]):
            yield f"PID {pid}: tables {key}\n    came   {came[key]}\n    wanted {wanted[key]}"
        elif is_due and came[key][-1:] != wanted[key][-1:]:
            yield f"PID {pid}: the last table {key} did not come\n    came   {came[key]}\n    wanted {wanted[key][-1]}"


def key_behind(key, table):
    """The key of an edited table, whose extension may be another one."""
    return (key[0], table.extension, key[2]) if isinstance(table, Table) else key
