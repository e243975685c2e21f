"""The words that a hash starts from: RFC 7693's IV, with the parameter block of the BLAKE2 paper over it.

hashlib tells no words, so they are checked by what comes of them: RFC 7693's BLAKE2b, started from them, has to give hashlib's
digest. hashlib has no maximal depth 0: there the digest is that of the BLAKE2b below.
"""
import hashlib
import struct

BLOCK, MASK = 128, 2**64 - 1

IV = [0x6A09E667F3BCC908, 0xBB67AE8584CAA73B, 0x3C6EF372FE94F82B, 0xA54FF53A5F1D36F1,
      0x510E527FADE682D1, 0x9B05688C2B3E6C1F, 0x1F83D9ABFB41BD6B, 0x5BE0CD19137E2179]

SIGMA = [[0, 1, 2, 3, 4, 5, 6, 7, 8, 9, 10, 11, 12, 13, 14, 15],
         [14, 10, 4, 8, 9, 15, 13, 6, 1, 12, 0, 2, 11, 7, 5, 3],
         [11, 8, 12, 0, 5, 2, 15, 13, 10, 14, 3, 6, 7, 1, 9, 4],
         [7, 9, 3, 1, 13, 12, 11, 14, 2, 6, 5, 10, 4, 0, 15, 8],
         [9, 0, 5, 7, 2, 4, 10, 15, 14, 1, 11, 12, 6, 8, 3, 13],
         [2, 12, 6, 10, 0, 11, 8, 3, 4, 13, 7, 5, 15, 14, 1, 9],
         [12, 5, 1, 15, 14, 13, 4, 10, 0, 7, 6, 3, 9, 2, 8, 11],
         [13, 11, 7, 14, 12, 1, 3, 9, 5, 0, 15, 4, 8, 6, 2, 10],
         [6, 15, 14, 9, 11, 3, 0, 8, 12, 2, 13, 7, 1, 4, 10, 5],
         [10, 2, 8, 4, 7, 6, 1, 5, 15, 11, 9, 14, 3, 12, 13, 0]]

COLUMNS_AND_DIAGONALS = [(0, 4, 8, 12), (1, 5, 9, 13), (2, 6, 10, 14), (3, 7, 11, 15),
                         (0, 5, 10, 15), (1, 6, 11, 12), (2, 7, 8, 13), (3, 4, 9, 14)]


def start_words(setting):
    block = struct.pack("<BBBBLQBB14x16s16s", setting["digest_size"], len(setting["key"]), setting["fanout"],
                        setting["depth"], setting["leaf_size"], setting["node_offset"], setting["node_depth"],
                        setting["inner_size"], setting["salt"], setting["person"])
    return [iv ^ word for iv, word in zip(IV, struct.unpack("<8Q", block))]


# The low byte of each first.
def bytes_of(words):
    return struct.pack("<8Q", *words)


def rotated(x, by):
    return (x >> by | x << 64 - by) & MASK


def mix(v, a, b, c, d, x, y):
    v[a] = (v[a] + v[b] + x) & MASK
    v[d] = rotated(v[d] ^ v[a], 32)
    v[c] = (v[c] + v[d]) & MASK
    v[b] = rotated(v[b] ^ v[c], 24)
    v[a] = (v[a] + v[b] + y) & MASK
    v[d] = rotated(v[d] ^ v[a], 16)
    v[c] = (v[c] + v[d]) & MASK
    v[b] = rotated(v[b] ^ v[c], 63)


def compressed(h, block, count, is_last, is_last_node):
    v, m = h + IV, struct.unpack("<16Q", block)
    v[12] ^= count
    v[14] ^= MASK * is_last
    v[15] ^= MASK * (is_last and is_last_node)
    for i in range(12):
        order = SIGMA[i % 10]
        for place, indexes in enumerate(COLUMNS_AND_DIAGONALS):
            mix(v, *indexes, m[order[2 * place]], m[order[2 * place + 1]])
    return [h[i] ^ v[i] ^ v[i + 8] for i in range(8)]


# Of a message that is shorter than a block: with a key it is the second one, but where it is empty.
def short_digest(setting, message):
    h, count, block = start_words(setting), 0, message
    if setting["key"]:
        key_block = setting["key"].ljust(BLOCK, b"\0")
        if message:
            h, count = compressed(h, key_block, BLOCK, False, False), BLOCK
        else:
            block = key_block
    h = compressed(h, block.ljust(BLOCK, b"\0"), count + len(block), True, setting["last_node"])
    return bytes_of(h)[:setting["digest_size"]]


def checked_words(setting):
    if setting["depth"] > 0:
        for message in b"", b"abc":
            assert short_digest(setting, message) == hashlib.blake2b(message, **setting).digest(), setting
    return start_words(setting)
