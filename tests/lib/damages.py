"""Streams with damage of many kinds, and a table of what a search for packets loses in each and gives besides.

    python3 -m lib.damages [--events N] [--seed N] [--form WORD] [STREAM..]

It is run from the folder of the tests, and tries the rule of lib/found_packets.py alone, over the streams of tests/data:
of each kind of damage so many events (150), each in a stretch of about 150 packets. An event says which units of the
damaged bytes are still whole, so that what is lost, and what is found besides them, can be counted.
"""
import argparse
import pathlib
import random

from lib import found_packets
from lib.packet_forms import FORMS, SIZE, check_bytes

DATA = pathlib.Path(__file__).resolve().parent.parent / "data"

# About so many packets go between two events.
STRETCH = 150


class Stretch:
    """Some units of a stream: bytes, and the places of those units that are whole."""

    def __init__(self, units):
        self.data = b"".join(units)
        self.intact, at = [], 0
        for unit in units:
            self.intact.append(at)
            at += len(unit)

    def without(self, at, end, length):
        """Forgets the units that have one of these bytes, and moves those behind them."""
        moved = length - (end - at)
        unit = self.unit
        self.intact = [place if place + unit <= at else place + moved for place in self.intact if place + unit <= at or place >= end]

    def put(self, at, end, new):
        """Other bytes stand in the place of these."""
        self.without(at, end, len(new))
        self.data = self.data[:at] + new + self.data[end:]


def any_bytes(draw, count):
    return bytes(draw.randrange(256) for _ in range(count))


def begins_within(draw, it):
    it.put(0, draw.randrange(1, it.unit), b"")


def ends_within(draw, it):
    """The packet of the last unit may be whole all the same."""
    last, end = it.intact[-1], len(it.data)
    it.put(end - draw.randrange(1, it.unit), end, b"")
    if len(it.data) >= last + it.before + SIZE:
        it.intact.append(last)


def inside(draw, it):
    """A place inside a unit in the middle of the stretch."""
    return it.middle(draw) + draw.randrange(1, it.unit)


def put_into_a_packet(draw, it):
    at = inside(draw, it)
    it.intact = [place for place in it.intact if not place < at < place + it.unit]
    it.put(at, at, any_bytes(draw, draw.choice([1, 4, 17, 100, 188, 400])))


def put_between_packets(draw, it):
    at = it.middle(draw)
    it.put(at, at, any_bytes(draw, draw.choice([1, 4, 17, 100, 188, 400])))


def lost_of_a_packet(draw, it):
    at = it.middle(draw)
    first = draw.randrange(0, it.unit - 1)
    it.put(at + first, at + draw.randrange(first + 1, it.unit), b"")


def lost_over_borders(draw, it):
    at = inside(draw, it)
    it.put(at, at + draw.randrange(it.unit, 5 * it.unit), b"")


def wrong_sync_byte(draw, it):
    at = it.middle(draw) + it.before
    it.put(at, at + 1, bytes([draw.choice([value for value in range(256) if value != 0x47])]))


def replaced(draw, it):
    at = inside(draw, it)
    count = draw.choice([1, 50, 188, 500, 1000])
    it.put(at, at + count, draw.choice([bytes(count), b"\xFF" * count, any_bytes(draw, count)]))


def one_behind_another(draw, it):
    """The recording ends within a packet, and another one begins within one."""
    at = it.middle(draw)
    end = it.middle(draw)
    at, end = min(at, end), max(at, end)
    it.put(at + draw.randrange(1, it.unit), end + it.unit + draw.randrange(1, it.unit), b"")


def another_pitch(draw, it):
    """Some units in a row have other bytes between them, and are left out of the count."""
    at, count = it.middle(draw), draw.randrange(3, 12)
    end = at + count * it.unit
    it.put(at, end, b"".join(it.data[place:place + it.unit] + any_bytes(draw, 16) for place in range(at, end, it.unit)))


KINDS = [begins_within, ends_within, put_into_a_packet, put_between_packets, lost_of_a_packet, lost_over_borders,
         wrong_sync_byte, replaced, one_behind_another, another_pitch]


def units_of(form, stream):
    """The packets of a stream with what a disc or a receiver has before or after each: an arrival time, or a code."""
    data = stream.read_bytes()
    packets = [data[at:at + SIZE] for at in range(0, len(data) - SIZE + 1, SIZE)]
    if form == "m2ts":
        return [(number * 2707 % 2 ** 30).to_bytes(4, "big") + packet for number, packet in enumerate(packets)]
    return [packet + (check_bytes(packet) if form == "rs204" else b"") for packet in packets]


def stretch_of(draw, form, units):
    """Some units in a row of a stream."""
    count = min(STRETCH + draw.randrange(-20, 21), len(units))
    begin = draw.randrange(0, len(units) - count + 1)
    it = Stretch(units[begin:begin + count])
    it.unit, it.before = sum(FORMS[form]) + SIZE, FORMS[form][0]
    it.middle = lambda drawn: it.unit * drawn.randrange(count // 4, count * 3 // 4)
    return it


def tried(kind, draw, form, streams, events):
    """The numbers of intact units, of those that are not found, and of those that are found besides."""
    intact = lost = other = 0
    for _ in range(events):
        it = stretch_of(draw, form, draw.choice(streams))
        kind(draw, it)
        found, want = set(found_packets.places(form, it.data)), set(it.intact)
        intact, lost, other = intact + len(want), lost + len(want - found), other + len(found - want)
    return intact, lost, other


def main():
    words = argparse.ArgumentParser(description="A table of what is lost and found in streams with damage.")
    words.add_argument("--events", type=int, default=150)
    words.add_argument("--seed", type=int, default=1)
    words.add_argument("--form", choices=sorted(FORMS), default="ts")
    words.add_argument("streams", nargs="*", type=pathlib.Path)
    given = words.parse_args()
    streams = [units_of(given.form, path) for path in given.streams or sorted(DATA.glob("*.ts"))]
    streams = [units for units in streams if len(units) > 40]
    print(f"{'damage':22} {'intact':>8} {'lost':>6} {'besides':>8}")
    for kind in KINDS:
        draw = random.Random(f"{given.seed} {kind.__name__}")
        intact, lost, other = tried(kind, draw, given.form, streams, given.events)
        print(f"{kind.__name__.replace('_', ' '):22} {intact:8} {lost:6} {other:8}")


if __name__ == "__main__":
    main()
