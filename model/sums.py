"""Sums of bytes, and numbers that tell runs of bytes apart."""


def crc_slow(data):
    """CRC-32, reflected, polynomial 0xEDB88320, starting at 0, not inverted: bit by bit."""
    register = 0
    for byte in data:
        for k in range(8):
            feedback = (register ^ (byte >> k)) & 1
            register >>= 1
            if feedback:
                register ^= 0xEDB88320
    return register


def step(byte):
    register = byte
    for _ in range(8):
        register = (register >> 1) ^ (0xEDB88320 if register & 1 else 0)
    return register


STEPS = [step(byte) for byte in range(256)]


def crc(data):
    """The same sum, byte by byte."""
    register = 0
    for byte in data:
        register = STEPS[(register ^ byte) & 255] ^ (register >> 8)
    return register


assert crc(bytes(range(256))) == crc_slow(bytes(range(256)))


def fold(all, data):
    """Takes bytes into a number: the sum of a header and its own sum is always 0, so a sum would not do for all of it."""
    for byte in data:
        all = (all ^ byte) * 16777619 % 2 ** 32
    return all
