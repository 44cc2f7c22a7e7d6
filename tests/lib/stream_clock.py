"""The clock of a stream as docs/plugins.md tells its rule, and streams on which it is tried. It knows nothing of the programs."""
from lib.reader import pid_of

RATE = 27_000_000
PERIOD = 2 ** 33 * 300
MOST = 2 ** 62


# ---- the clock

def pcr_of(packet):
    """The PCR of a packet, or None: in a valid adaptation field with room for it, and no transport error."""
    control, size = packet[3] >> 4 & 3, packet[4]
    has_room = size >= 7 and (size == 183 if control == 2 else control == 3 and size <= 182)
    if packet[1] & 0x80 or not has_room or not packet[5] & 0x10:
        return None
    field = int.from_bytes(packet[6:12], "big")
    return (field >> 15) * 300 + (field & 511)


def looks_of(cells, asked=None):
    """The time with each cell, in units of 27 MHz, and whether it has a PCR that is read; cells are packets by position, or None
    where one was dropped."""
    read, value, place, time, units, positions = asked, None, None, 0, 0, 0
    for position, packet in enumerate(cells):
        clock = None if packet is None else pcr_of(packet)
        if clock is not None:
            pid = pid_of(packet)
            if value is None:
                if asked is None or pid == asked:
                    read, value, place = pid, clock, position
            else:
                way = position - place
                is_silent = way * units > 2 * RATE * positions or way > 100_000
                changes = asked is None and pid != read and is_silent
                if pid == read or changes:
                    step = (clock - value) % PERIOD
                    if changes or packet[5] & 0x80 or step == 0 or step > RATE:
                        time += way * units // positions if positions else 0
                    else:
                        time, units, positions = time + step, units + step, positions + way
                    time, units = min(time, MOST), min(units, MOST)
                    read, value, place = pid, clock, position
        yield time, place == position


def times_of(cells, asked=None):
    """The time with each cell."""
    for time, _ in looks_of(cells, asked):
        yield time


# ---- streams that are made here

def clocked(pid, clock, flags=0x10, error=False):
    """A packet with this PCR; an extension above 299 tells a clock beyond the period."""
    base = min(clock // 300, 2 ** 33 - 1)
    field = base << 15 | 63 << 9 | (clock - 300 * base)
    return bytes([0x47, pid >> 8 | (0x80 if error else 0), pid & 255, 0x30, 7, flags]) + field.to_bytes(6, "big") + bytes([0xAA] * 176)


def plain(pid=300):
    return bytes([0x47, pid >> 8, pid & 255, 0x10]) + bytes([0xAA] * 184)


def varying(draw, count, clock, pid=256, steps=(200_000, 2_000_000)):
    """PCRs in steps of time that are drawn, with numbers of packets between them that are drawn too."""
    packets = []
    for _ in range(count):
        packets += [clocked(pid, clock % PERIOD), *[plain()] * draw.randrange(1, 60)]
        clock += draw.randint(*steps)
    return packets


def made(draw):
    """Streams by name."""
    yield "varying", varying(draw, 60, draw.randrange(PERIOD))
    yield "joined", varying(draw, 30, draw.randrange(PERIOD)) + varying(draw, 30, draw.randrange(PERIOD))
    yield "joined on another PID", varying(draw, 30, 7) + varying(draw, 60, draw.randrange(PERIOD), pid=257)
    yield "gap", varying(draw, 30, 0) + varying(draw, 30, 30 * RATE)
    yield "period", varying(draw, 40, PERIOD - 10 * RATE // 5)
    yield "two clocks", [it for pair in zip(varying(draw, 40, 0), varying(draw, 40, 5 * RATE, pid=257)) for it in pair]
    stops = varying(draw, 20, 0)
    other = [it for _ in range(1500) for it in (plain(), clocked(257, draw.randrange(PERIOD)))]
    yield "a PID that stops", stops + other
    yield "a PID that stops for long", [clocked(256, 5), *[plain()] * 100_000, clocked(257, 9), clocked(257, RATE), clocked(257, 2 * RATE)]
    yield "a PID that stops for less", [clocked(256, 5), *[plain()] * 99_999, clocked(257, 9), clocked(257, RATE), clocked(257, 2 * RATE)]
    for name, wrong in (("ahead", 40 * RATE), ("an hour ahead", 3600 * RATE), ("behind", -1), ("the same", 0), ("a second", RATE),
                        ("more than a second", RATE + 1)):
        packets = varying(draw, 30, 10 * RATE)
        places = [place for place, it in enumerate(packets) if pcr_of(it) is not None]
        for place in draw.sample(range(1, len(places)), 4):
            before = pcr_of(packets[places[place - 1]])
            packets[places[place]] = clocked(256, (before + wrong) % PERIOD)
        yield name, packets
    packets = varying(draw, 40, 10 * RATE)
    yield "flags", [it if pcr_of(it) is None or draw.random() < 0.8 else clocked(256, draw.randrange(PERIOD), 0x90) for it in packets]
    yield "errors", [it if pcr_of(it) is None or draw.random() < 0.6 else clocked(256, draw.randrange(PERIOD), error=True) for it in packets]
    yield "beyond", [it if pcr_of(it) is None or draw.random() < 0.8 else clocked(256, PERIOD + draw.randrange(212)) for it in packets]
    yield "no PCR", [plain()] * 50
    yield "empty", []
