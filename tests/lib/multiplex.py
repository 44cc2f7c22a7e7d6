"""A multiplex of 60 services, of a constant rate, in rounds that follow one another. It knows nothing of the programs.

It has what a broadcast has: PAT, CAT, NIT, SDT, EITs of the present and the following event, TDT, a PMT of each service with
picture, sound and subtitles, PCRs, and time stamps; every second service is scrambled. No indicator of ETSI TR 101 290 has an
error in it. There are two kinds of rounds: all services but the first one have other numbers and PIDs in the one than in the
other, so that with rounds in turn all tables change.

On each PID the counters of a round begin with 0 and end with 15. The time stamps stand still from round to round; PCRs go on.
"""
import dataclasses
import itertools

from lib.reader import NULL, SIZE, crc_of
from lib.stream_clock import PERIOD

SERVICES = 60

# Packets a second, units of 27 MHz a packet, and packets a round, which are 3.2 seconds.
RATE = 40_000
UNITS = 27_000_000 // RATE
ROUND = 128_000
BITRATE = RATE * SIZE * 8

# How many packets lie between two of a kind, and between the same ones of two services.
OFFSET = 12
TABLES = 8_000
PAT_STEP = 4_000
EIT_STEP = 64_000
SOUND_PART_STEP = 1_000

EMM = 500
SCRAMBLED = 0x80

# A short_event_descriptor.
EVENT_TEXT = b"\x4d\x2beng\x05event\x21what it tells of, in short words "


def two(number, flags=0):
    return (number | flags).to_bytes(2, "big")


def section(table, extension, body, version=0, number=0, last=0):
    size = len(body) + 9
    data = bytes([table, 0xB0 | size >> 8, size & 255]) + two(extension) + bytes([0xC1 | version << 1, number, last]) + body
    return data + crc_of(data).to_bytes(4, "big")


def packets_of(pid, data):
    """The packets of a section, the counters 0."""
    data = b"\0" + data
    for at in range(0, len(data), 184):
        start = 0 if at else 0x40
        yield bytes([0x47, start | pid >> 8, pid & 255, 0x10]) + data[at:at + 184].ljust(184, b"\xff")


@dataclasses.dataclass(frozen=True)
class Service:
    """A service's number and PIDs. It has picture, sound, subtitles and the packets of its conditional access behind one another."""
    number: int
    pmt: int
    video: int
    is_scrambled: bool

    def pmt_section(self):
        access = bytes([9, 4, 1, 2]) + two(self.video + 3, 0xE000) if self.is_scrambled else b""
        body = two(self.video, 0xE000) + two(len(access), 0xF000) + access
        for place, (kind, words) in enumerate(((27, b""), (4, b"\x0a\4eng\0"), (6, b"\x59\x08eng\x10\0\1\0\1"))):
            body += bytes([kind]) + two(self.video + place, 0xE000) + two(len(words), 0xF000) + words
        return section(2, self.number, body)


def services_of(kind):
    """The services of a round. The first one is the same in both, and has the clock."""
    for n in range(SERVICES):
        other = n and kind * SERVICES
        yield Service(1 + n + other, 32 + n + other, 512 + 4 * (n + other), n % 2 == 1)


def tables_of(kind, services):
    """The sections: the PID, where the first one is due and how far they come one from another, and the data."""
    entries = b"".join(two(it.number) + two(it.pmt, 0xE000) for it in services)
    yield 0, 0, PAT_STEP, section(0, 7, two(0) + two(16, 0xE000) + entries, kind)
    items = [two(it.number) + b"\xfd" + two(0x8015 if not it.is_scrambled else 0x9015) + b"\x48\x13\x01\x07channel\x09name%05d" % it.number
             for it in services]
    for n in (0, 1):
        half = b"".join(items[SERVICES // 2 * n:SERVICES // 2 * (n + 1)])
        yield 17, 1_000 + 2_000 * n, TABLES, section(66, 7, two(1) + b"\xff" + half, kind, n, 1)
    for place, it in enumerate(services):
        yield it.pmt, OFFSET * place + 3, TABLES, it.pmt_section()
        for n in (0, 1):
            event = two(n) + bytes.fromhex("EA60 120000 013000") + two(45, 0x8000) + EVENT_TEXT
            body = two(7) + two(1) + bytes([1, 78]) + event
            yield 18, 500 * (2 * place + n), EIT_STEP, section(78, it.number, body, kind, n, 1)
    yield 1, 20, TABLES, section(1, 0xFFFF, bytes([9, 4, 1, 2]) + two(EMM, 0xE000))
    yield 16, 40, TABLES, section(64, 1, two(0, 0xF000) + two(0, 0xF000))
    yield 20, 60, TABLES, b"\x70\x70\x05" + bytes.fromhex("EA60 120000")


def stamped(pid, units, scrambling):
    """The first packet of a PES packet with a PTS."""
    t = units // 300
    bits = (2 << 36) | (t >> 30 << 33) | 1 << 32 | ((t >> 15 & 0x7FFF) << 17) | 1 << 16 | (t & 0x7FFF) << 1 | 1
    head = b"\0\0\1\xe0\0\0\x80\x80\5" + bits.to_bytes(5, "big")
    return bytes([0x47, 0x40 | pid >> 8, pid & 255, 0x10 | scrambling]) + head.ljust(184, b"\x55")


def clocked(pid, units, is_first, scrambling):
    """The same with an adaptation field for a PCR; with the discontinuity flag where the PID may not have come for a round."""
    packet = stamped(pid, units, scrambling)
    return packet[:3] + bytes([0x30 | scrambling, 7, 0x90 if is_first else 0x10]) + bytes(6) + packet[4:-8]


def plain(pid, scrambling):
    return bytes([0x47, pid >> 8, pid & 255, 0x10 | scrambling]) + b"\xaa" * 184


def due_of(kind, services, clock_step, sound_step):
    """What is due and when, besides pictures: the packet's number, the packet, and whether it has a PCR."""
    for pid, begin, step, data in tables_of(kind, services):
        for at in range(begin, ROUND, step):
            for packet in packets_of(pid, data):
                yield at, packet, False
    for at in range(9, ROUND, TABLES):
        yield at, plain(EMM, 0), False
    for n, it in enumerate(services):
        # The PMT of a service comes before anything else of it.
        begin, scrambling = OFFSET * n + 5, SCRAMBLED if it.is_scrambled else 0
        for at in range(begin, ROUND, clock_step):
            yield at, clocked(it.video, at * UNITS, n and at < clock_step, scrambling), True
        for at in range(begin + 2, ROUND, sound_step):
            yield at, stamped(it.video + 1, at * UNITS, scrambling), False
        for at in range(begin + 4, ROUND, SOUND_PART_STEP):
            yield at, plain(it.video + 1, scrambling), False
        for at in range(begin + 6, ROUND, TABLES):
            yield at, stamped(it.video + 2, at * UNITS, scrambling), False
            if scrambling:
                yield at, plain(it.video + 3, 0), False


class Round:
    """A round's packets, and where it has PCRs."""

    def __init__(self, kind, clock_step=1_600, sound_step=4_000):
        services = list(services_of(kind))
        rows, clocks, place = [None] * ROUND, [], -1
        for at, packet, has_clock in sorted(due_of(kind, services, clock_step, sound_step), key=lambda it: it[0]):
            place = max(at, place + 1)
            rows[place] = packet
            if has_clock:
                clocks.append(place)
        free = [place for place, packet in enumerate(rows) if packet is None]
        # As many for each picture, a multiple of 16, and null packets between them.
        pictures = [plain(it.video, SCRAMBLED if it.is_scrambled else 0) for it in services]
        parts = len(free) // (16 * (SERVICES + 1)) * 16
        for place, packet in itertools.zip_longest(free, [*pictures, NULL] * parts, fillvalue=NULL):
            rows[place] = packet
        self.data, self.clocks = bytearray(b"".join(counted(rows))), clocks

    def begun_at(self, position):
        """The packets of the round that begins at a position of the stream."""
        for place in self.clocks:
            base, extension = divmod((position + place) * UNITS % PERIOD, 300)
            at = place * SIZE + 6
            self.data[at:at + 6] = (base << 15 | 0x7E00 | extension).to_bytes(6, "big")
        return self.data


def counted(packets):
    """With their counters."""
    counters = {}
    for packet in packets:
        pid = packet[1:3]
        pid = (pid[0] & 31) << 8 | pid[1]
        if pid == 8191:
            yield packet
            continue
        counter = counters[pid] = (counters.get(pid, 15) + 1) % 16
        yield packet[:3] + bytes([packet[3] | counter]) + packet[4:]
    for pid, counter in counters.items():
        assert counter == 15, f"PID {pid} has no multiple of 16 packets in a round"
