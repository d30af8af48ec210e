"""Random arguments for the histories."""

TOP = 2**64 - 1
ODD = ((1, 64, 64), (2, 64, 64), (5, 3, 128), (7, 1, 128), (9, 2, 64), (17, 1, 64), (1, 2, 4096),
       (3, 5, 192))


def secret(chance):
    return chance.randbytes(32)


def shape(chance):
    """Mostly small ones, so that many histories can be run; at times an odd one."""
    if chance.random() < 0.9:
        return chance.randint(1, 5), chance.randint(1, 4), chance.choice((64, 64, 64, 128))
    return chance.choice(ODD)


def a_range(chance, size):
    """Mostly within the drive, of all lengths, at times past its end."""
    offset = chance.randint(0, size)
    length = chance.choice((0, 1, 64, 130, chance.randint(0, size), size - offset))
    if size > 2000:
        length = min(length, chance.choice((64, 300, size)))
    if chance.random() < 0.9:
        length = min(length, size - offset)
    return (TOP, length) if chance.random() < 0.02 else (offset, length)
