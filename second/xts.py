"""XTS-AES-256 after IEEE 1619 over sectors of 512 bytes."""

from aes import BLOCK, added, deciphered, enciphered

SECTOR = 512


def tweaks(key, sector):
    """IEEE 1619, 5.2: the sector number lowest byte first, enciphered; then times alpha from block to block."""
    tweak = int.from_bytes(enciphered(key, sector.to_bytes(BLOCK, "little")), "little")
    for _ in range(SECTOR // BLOCK):
        yield tweak.to_bytes(BLOCK, "little")
        tweak = (tweak << 1) % 2**128 ^ (0x87 if tweak >> 127 else 0)


def through(cipher, data, tweak, text):
    """All whole sectors of a text, numbered from 0."""
    out = []
    for number in range(len(text) // SECTOR):
        for j, t in enumerate(tweaks(tweak, number)):
            at = SECTOR * number + BLOCK * j
            out.append(added(cipher(data, added(text[at:at + BLOCK], t)), t))
    return b"".join(out)


def encrypted(data, tweak, text):
    return through(enciphered, data, tweak, text)


def decrypted(data, tweak, text):
    return through(deciphered, data, tweak, text)
