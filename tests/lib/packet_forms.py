"""Files that keep bytes before or after each packet, for the scripts of this folder: wraps packets, and reads them back.

It knows nothing of the programs. What `wrapped` puts between the packets holds 0x47 at many places, so that a reader that
takes a unit for a packet is found out; `coded` puts there what a modulator does.
"""
SIZE = 188

# The bytes before and after each packet, by the word of the option --format.
FORMS = {"ts": (0, 0), "m2ts": (4, 0), "rs204": (0, 16)}


def between(number, count):
    """So many bytes that are beside the packet of this number."""
    return bytes(0x47 if (number + k) % 3 == 0 else (number * 5 + k * 7) % 256 for k in range(count))


def code_steps():
    """What each byte of a message adds to the check bytes, as 128-bit numbers.

    The code is that of ETSI EN 300 421, 4.4.2: RS(204,188), which is RS(255,239) shortened, over the field of x^8 + x^4 +
    x^3 + x^2 + 1, with the roots 2^0 to 2^15.
    """
    powers = [1]
    for _ in range(254):
        powers.append(powers[-1] << 1 ^ (0x11d if powers[-1] & 0x80 else 0))
    logs = {power: at for at, power in enumerate(powers)}

    def product(one, other):
        return powers[(logs[one] + logs[other]) % 255] if one and other else 0

    generator = [1]
    for root in powers[:16]:
        shifted = [*generator, 0]
        generator = [a ^ product(b, root) for a, b in zip(shifted, [0, *generator])]
    return [int.from_bytes(bytes(product(byte, it) for it in generator[1:]), "big") for byte in range(256)]


CODE_STEPS = code_steps()


def check_bytes(packet):
    """The sixteen bytes of the Reed-Solomon code after a packet."""
    left = 0
    for byte in packet:
        left = (left << 8 & (1 << 128) - 1) ^ CODE_STEPS[byte ^ left >> 120]
    return left.to_bytes(16, "big")


def coded(data):
    """The whole packets of some bytes, each with its check bytes after it."""
    packets = (data[at:at + SIZE] for at in range(0, len(data) - SIZE + 1, SIZE))
    return b"".join(packet + check_bytes(packet) for packet in packets)


def wrapped(form, data):
    """The packets of some bytes, each with what is before and after it; of a last one that is not whole what there is."""
    before, behind = FORMS[form]
    units = []
    for number in range(-(-len(data) // SIZE)):
        packet = data[SIZE * number:SIZE * (number + 1)]
        units.append(between(number, before) + packet + (between(number, behind) if len(packet) == SIZE else b""))
    return b"".join(units)


def stripped(form, data):
    """What is left of the bytes of a file, byte by byte."""
    before, behind = FORMS[form]
    unit = before + SIZE + behind
    return bytes(byte for place, byte in enumerate(data) if before <= place % unit < before + SIZE)
