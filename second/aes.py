"""AES-256 after FIPS 197, and counter mode after NIST SP 800-38A over it."""

from functools import lru_cache

BLOCK = 16
ROUNDS = 14


def doubled(a):
    """FIPS 197, 4.2: times x, modulo x^8 + x^4 + x^3 + x + 1."""
    return a << 1 ^ (0x11B if a & 0x80 else 0)


def product(a, b):
    total = 0
    while b:
        total ^= a if b & 1 else 0
        a, b = doubled(a), b >> 1
    return total


def substitute(a):
    """5.1.1: the inverse (0 for 0), then the affine step."""
    inverse = next((b for b in range(256) if product(a, b) == 1), 0)
    turned = inverse
    for _ in range(4):
        inverse = (inverse << 1 | inverse >> 7) & 0xFF
        turned ^= inverse
    return turned ^ 0x63


SBOX = bytes(substitute(a) for a in range(256))
INVERSE = bytes(SBOX.index(a) for a in range(256))
TIMES = {k: bytes(product(a, k) for a in range(256)) for k in (2, 3, 9, 11, 13, 14)}
# 5.1.2: row r of the state turns by r; byte i of the state is row i % 4 of column i // 4.
SHIFTED = [(i + 4 * (i % 4)) % 16 for i in range(16)]
UNSHIFTED = [SHIFTED.index(i) for i in range(16)]


@lru_cache(maxsize=64)
def round_keys(key):
    """5.2, for keys of eight words."""
    words = [key[i:i + 4] for i in range(0, 32, 4)]
    constant = 1
    for i in range(8, 4 * (ROUNDS + 1)):
        word = words[-1]
        if i % 8 == 0:
            word = bytes(SBOX[a] for a in word[1:] + word[:1])
            word = bytes((word[0] ^ constant,)) + word[1:]
            constant = doubled(constant)
        elif i % 8 == 4:
            word = bytes(SBOX[a] for a in word)
        words.append(bytes(a ^ b for a, b in zip(words[-8], word)))
    return [b"".join(words[i:i + 4]) for i in range(0, len(words), 4)]


def added(a, b):
    return (int.from_bytes(a, "little") ^ int.from_bytes(b, "little")).to_bytes(len(a), "little")


def mixed(state):
    """5.1.3, column by column."""
    two, three = TIMES[2], TIMES[3]
    out = bytearray(16)
    for c in range(0, 16, 4):
        p, q, r, s = state[c:c + 4]
        out[c] = two[p] ^ three[q] ^ r ^ s
        out[c + 1] = p ^ two[q] ^ three[r] ^ s
        out[c + 2] = p ^ q ^ two[r] ^ three[s]
        out[c + 3] = three[p] ^ q ^ r ^ two[s]
    return out


def unmixed(state):
    """5.3.3."""
    nine, eleven, thirteen, fourteen = (TIMES[k] for k in (9, 11, 13, 14))
    out = bytearray(16)
    for c in range(0, 16, 4):
        p, q, r, s = state[c:c + 4]
        out[c] = fourteen[p] ^ eleven[q] ^ thirteen[r] ^ nine[s]
        out[c + 1] = nine[p] ^ fourteen[q] ^ eleven[r] ^ thirteen[s]
        out[c + 2] = thirteen[p] ^ nine[q] ^ fourteen[r] ^ eleven[s]
        out[c + 3] = eleven[p] ^ thirteen[q] ^ nine[r] ^ fourteen[s]
    return out


def enciphered(key, block):
    keys = round_keys(key)
    state = added(block, keys[0])
    for k in keys[1:-1]:
        state = added(mixed([SBOX[state[i]] for i in SHIFTED]), k)
    return added(bytes(SBOX[state[i]] for i in SHIFTED), keys[-1])


def deciphered(key, block):
    keys = round_keys(key)
    state = added(block, keys[-1])
    for k in keys[-2:0:-1]:
        state = unmixed(added(bytes(INVERSE[state[i]] for i in UNSHIFTED), k))
    return added(bytes(INVERSE[state[i]] for i in UNSHIFTED), keys[0])


def counter_stream(key, keycount, number, blocks):
    """Document 02, Item 8: counter blocks of the keycount and the number of the block, both most
    significant byte first; the number steps and rolls over at 64 bits, the keycount stands."""
    return b"".join(enciphered(key, keycount.to_bytes(8, "big") + ((number + j) % 2**64).to_bytes(8, "big"))
                    for j in range(blocks))
