"""The rule by which packets are found again in bytes with damage, for the scripts of this folder: a reader of its own.

It knows nothing of the programs, and is written from the words of docs/formats.md ("Packets found again").
"""
from lib.packet_forms import FORMS, SIZE

SYNC = 0x47


class Reader:
    """The bytes of a file with units of one form."""

    def __init__(self, form, data):
        self.data = data
        self.before, behind = FORMS[form]
        self.unit = self.before + SIZE + behind

    def is_whole(self, at):
        """Whether a unit at this place has its whole packet, with the sync byte."""
        first = at + self.before
        return first + SIZE <= len(self.data) and self.data[first] == SYNC

    def row(self, at):
        """Whether five whole units are in a row from this place on."""
        return all(self.is_whole(at + k * self.unit) for k in range(5))

    def is_cut(self, at):
        """Whether five in a row begin inside the unit at this place, and those behind it do not hold it."""
        if sum(self.is_whole(at + k * self.unit) for k in range(1, 5)) >= 2:
            return False
        first = at + self.before
        inside = (place for place in range(at + 1, at + self.unit)
                  if self.data[place + self.before:place + self.before + 1] == bytes([SYNC]))
        return first < len(self.data) and any(self.row(place) for place in inside)

    def search(self):
        """The place of each unit with a packet, with the number of bytes left out before it, and how many are behind the last."""
        found, at, left, near = [], 0, 0, True
        while at < len(self.data):
            if self.row(at) or near and self.is_whole(at) and not self.is_cut(at):
                found.append((at, left))
                at, left, near = at + self.unit, 0, True
            elif near and self.is_whole(at + self.unit) and not self.is_cut(at):
                at, left = at + self.unit, left + self.unit
            else:
                at, left, near = at + 1, left + 1, False
        return found, left


def places(form, data):
    """The place of each packet's unit."""
    return [at for at, _ in Reader(form, data).search()[0]]


def packets(form, data):
    """The packets that are found."""
    before = FORMS[form][0]
    return [data[at + before:at + before + SIZE] for at in places(form, data)]


def gaps(form, data):
    """The bytes left out before packets, by the packet's number, and how many are behind the last one."""
    found, behind = Reader(form, data).search()
    return [(number, left) for number, (_, left) in enumerate(found) if left], behind


def counts(form, data):
    """How often sync was lost, the bytes left out there, and how many sync bytes alone were bad."""
    between, behind = gaps(form, data)
    unit = Reader(form, b"").unit
    losses = [left for _, left in between if left != unit] + [behind] * (behind > 0)
    return len(losses), sum(losses), sum(left == unit for _, left in between)
