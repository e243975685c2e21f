"""Parameters, by hashlib's names, and the lines that set them."""
from script import generated, hexadecimal, say


# The parameters of a case: the lowest, the highest, and then a mixture. hashlib has no depth 0.
def chosen(case):
    lowest = dict(digest_size=1, key=b"", salt=b"", person=b"", fanout=0, depth=1, leaf_size=0, node_offset=0,
                  node_depth=0, inner_size=0, last_node=False)
    highest = dict(digest_size=64, key=b"\xff" * 64, salt=b"\xff" * 16, person=b"\xff" * 16, fanout=255, depth=255,
                   leaf_size=2**32 - 1, node_offset=2**64 - 1, node_depth=255, inner_size=64, last_node=True)
    if case < 2:
        return [lowest, highest][case]
    number = int.from_bytes(generated(20, case), "little")
    return dict(digest_size=number % 64 + 1, key=generated([0, 1, 32, 64][case % 4], case + 100),
                salt=generated([0, 5, 16][case % 3], case + 200), person=generated([16, 0, 7][case % 3], case + 300),
                fanout=number % 256, depth=number // 256 % 255 + 1, leaf_size=number // 2**16 % 2**32,
                node_offset=number // 2**48 % 2**64, node_depth=number // 2**112 % 256,
                inner_size=number // 2**120 % 65, last_node=case % 2 == 0)


# The defaults but for the digest's length and the key.
def plain(digest_size=64, key=b""):
    return dict(chosen(0), fanout=1, digest_size=digest_size, key=key)


OUR_NAMES = dict(digest_size="hash_length", person="personal", depth="max_depth", leaf_size="max_leaf_length",
                 inner_size="inner_hash_length")


def set_one(name, value, number=0):
    shown = hexadecimal(value) if isinstance(value, bytes) else str(int(value))
    say("params %s %s" % (OUR_NAMES.get(name, name), shown), "number=%d" % number)


# Every parameter, so that nothing of the ones before is left.
def set_all(setting, reverse=False):
    for name, value in sorted(setting.items(), reverse=reverse):
        set_one(name, value)
