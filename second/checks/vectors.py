"""Published vectors: RFC 8439 for ChaCha20 and Poly1305, RFC 7693 for BLAKE2s, FIPS 197 and SP 800-38A for AES-256."""

import random
import struct

from aes import counter_stream, deciphered, enciphered
from keys import laid_out
from primitives import blake2s, chacha20_block, keystream, poly1305, xor

KEY = bytes(range(32))
BLOCKS = [
    ("2.3.2", KEY, 1, "000000090000004a00000000",
     "10f1e7e4d13b5915500fdd1fa32071c4c7d1f4c733c068030422aa9ac3d46c4e"
     "d2826446079faa0914c2d705d98b02a2b5129cd1de164eb9cbd083e8a2503c4e"),
    ("A.1 first", bytes(32), 0, "00" * 12,
     "76b8e0ada0f13d90405d6ae55386bd28bdd219b8a08ded1aa836efcc8b770dc7"
     "da41597c5157488d7724e03fb8d84a376a43b8f41518a11cc387b669b2ee6586"),
    ("A.1 second", bytes(32), 1, "00" * 12,
     "9f07e7be5551387a98ba977c732d080dcb0f29a048e3656912c6533e32ee7aed"
     "29b721769ce64e43d57133b074d839d531ed1f28510afb45ace10a1f4b794d6f"),
]
SUNSCREEN = (b"Ladies and Gentlemen of the class of '99: If I could offer you only one tip for "
             b"the future, sunscreen would be it.")
SUNSCREEN_ENCIPHERED = (
    "6e2e359a2568f98041ba0728dd0d6981e97e7aec1d4360c20a27afccfd9fae0b"
    "f91b65c5524733ab8f593dabcd62b3571639d624e65152ab8f530c359f0861d8"
    "07ca0dbf500d6a6156a38e088a22b65e52bc514d16ccf806818ce91ab7793736"
    "5af90bbf74a35be6b40b8eedf2785e42874d")
COUNTED = (
    "6bc1bee22e409f96e93d7e117393172aae2d8a571e03ac9c9eb76fac45af8e51"
    "30c81c46a35ce411e5fbc1191a0a52eff69f2445df4f9b17ad2b417be66c3710",
    "601ec313775789a5b7a7f504bbf3d228f443e3ca4d62b59aca84e990cacaf5c5"
    "2b0930daa23de94ce87017ba2d84988ddfc9c58db67aada613c2dd08457941a6")
F16 = "ff" * 16
TAGS = [
    ("2.5.2", "85d6be7857556d337f4452fe42d506a80103808afb0db2fd4abff6af4149f51b",
     b"Cryptographic Forum Research Group".hex(), "a8061dc1305136c6c22b8baf0c0127a9"),
    ("A.3 zero key", "00" * 32, "00" * 64, "00" * 16),
    ("A.3 wrap past the prime", "02" + "00" * 31, F16, "03" + "00" * 15),
    ("A.3 sum past 128 bits", "02" + "00" * 15 + F16, "02" + "00" * 15, "03" + "00" * 15),
    ("A.3 carry", "01" + "00" * 31, F16 + "f0" + "ff" * 15 + "11" + "00" * 15, "05" + "00" * 15),
    ("A.3 exactly the prime", "01" + "00" * 31, F16 + "fb" + "fe" * 15 + "01" * 16, "00" * 16),
    ("A.3 just below", "02" + "00" * 31, "fd" + "ff" * 15, "fa" + "ff" * 15),
]


def plain_block(key, counter, nonce):
    """RFC 8439 2.3 word by word, to hold the program's many words at once against."""
    words = b"expand 32-byte k" + key + struct.pack("<I", counter) + nonce
    start = struct.unpack("<16I", words)
    state = list(start)
    columns = [(i, i + 4, i + 8, i + 12) for i in range(4)]
    diagonals = [(i, 4 + (i + 1) % 4, 8 + (i + 2) % 4, 12 + (i + 3) % 4) for i in range(4)]
    for a, b, c, d in (columns + diagonals) * 10:
        for x, y, z, turn in ((a, b, d, 16), (c, d, b, 12), (a, b, d, 8), (c, d, b, 7)):
            state[x] = (state[x] + state[y]) % 2**32
            mixed = state[z] ^ state[x]
            state[z] = (mixed << turn | mixed >> 32 - turn) % 2**32
    return struct.pack("<16I", *((one + other) % 2**32 for one, other in zip(start, state)))


def plain(tally):
    chance = random.Random(f"vectors {tally.seed}")
    for _ in range(200):
        key, nonce = chance.randbytes(32), chance.randbytes(12)
        counter = chance.choice((0, 2**31, 2**32 - 1, 2**32 - 2, chance.getrandbits(32)))
        blocks = chance.randint(1, 6)
        want = [plain_block(key, (counter + i) % 2**32, nonce) for i in range(blocks)]
        tally.same(f"{blocks} blocks from {counter}", keystream(key, nonce, counter, blocks),
                   b"".join(want))


def run(tally):
    plain(tally)
    for name, key, counter, nonce, want in BLOCKS:
        got = chacha20_block(key, counter, bytes.fromhex(nonce))
        tally.same(f"RFC 8439 {name}", got.hex(), want)
    nonce = bytes.fromhex("000000000000004a00000000")
    pad = keystream(KEY, nonce, 1, 2)[:len(SUNSCREEN)]
    tally.same("RFC 8439 2.4.2", xor(SUNSCREEN, pad).hex(), SUNSCREEN_ENCIPHERED)
    for name, key, message, want in TAGS:
        got = poly1305(bytes.fromhex(key), bytes.fromhex(message))
        tally.same(f"RFC 8439 {name}", got.hex(), want)
    key, nonce = bytes(range(0x80, 0xa0)), bytes.fromhex("070000004041424344454647")
    text = xor(SUNSCREEN, keystream(key, nonce, 1, 2)[:len(SUNSCREEN)])
    whole = laid_out(bytes.fromhex("50515253c0c1c2c3c4c5c6c7"), text)
    tally.same("RFC 8439 2.8.2, the end of the layout", whole[96:].hex(),
               "fab324e4fad675945585808b4831d7bc3ff4def08e4b7a9de576d26586cec64b"
               "6116" + "00" * 14 + "0c00000000000000" + "7200000000000000")
    got = poly1305(chacha20_block(key, 0, nonce)[:32], whole)
    tally.same("RFC 8439 2.8.2", got.hex(), "1ae10b594f09e26a7e902ecbd0600691")
    tally.same("RFC 7693 abc", blake2s(b"", b"abc").hex(),
               "508c5e8c327c14e2e1a72ba34eeb452f37458b209ed63a294d999b4c86675982")
    one, two = bytes.fromhex("00112233445566778899aabbccddeeff"), bytes.fromhex("8ea2b7ca516745bfeafc49904b496089")
    tally.same("FIPS 197 C.3", (enciphered(KEY, one), deciphered(KEY, two)), (two, one))
    key = bytes.fromhex("603deb1015ca71be2b73aef0857d77811f352c073b6108d72d9810a30914dff4")
    stream = counter_stream(key, 0xf0f1f2f3f4f5f6f7, 0xf8f9fafbfcfdfeff, 4)
    tally.same("SP 800-38A F.5.5", xor(bytes.fromhex(COUNTED[0]), stream).hex(), COUNTED[1])
    many = b"".join(plain_block(KEY, 7 + i, nonce) for i in range(64))
    tally.same("64 blocks at once", keystream(KEY, nonce, 7, 64), many)
