"""BLAKE2bp digests from outside: libb2's, compared with a tree of hashlib's nodes where hashlib can make one.

That is without a key and at 64 bytes: hashlib has no root that carries a key's length and hashes no key, and it cuts the
state of a leaf to the asked length.
"""
import ctypes
import ctypes.util
import hashlib
import sys

libb2 = ctypes.CDLL(ctypes.util.find_library("b2") or sys.exit("libb2 is missing: apt-get install libb2-dev"))

LEAVES, BLOCK, STATE = 4, 128, 64


def by_libb2(message, size, key):
    out = ctypes.create_string_buffer(size)
    lengths = map(ctypes.c_size_t, (size, len(message), len(key)))
    assert libb2.blake2bp(out, message, key, *lengths) == 0
    return out.raw


# A node of the tree. The last one of its depth is a last node.
def node(data, offset, depth, is_last):
    return hashlib.blake2b(data, digest_size=STATE, fanout=LEAVES, depth=2, leaf_size=0, node_offset=offset, node_depth=depth,
                           inner_size=STATE, last_node=is_last).digest()


# Blocks are dealt to the leaves in turn.
def by_hashlib(message):
    states = b""
    for leaf in range(LEAVES):
        share = b"".join(message[at:at + BLOCK] for at in range(leaf * BLOCK, len(message), LEAVES * BLOCK))
        states += node(share, leaf, 0, leaf == LEAVES - 1)
    return node(states, 0, 1, True)


def tree_digest(message, size=STATE, key=b""):
    digest = by_libb2(message, size, key)
    assert key or size < STATE or digest == by_hashlib(message), len(message)
    return digest.hex()
