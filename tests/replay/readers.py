"""What is read of the records themselves: whether they keep their ranges, what parameters hold, and digests made of words.

Answers come from document 01's rules over a table of what was set; words.py has the words that a hash starts from.
"""
import hashlib

from parameters import chosen, plain, set_all, set_one
from script import LARGEST, Dice, counted, digest_answer, generated, hexadecimal, note, refused_digest, say
from words import BLOCK, IV, bytes_of, checked_words, short_digest, start_words


def ask(line, is_so):
    say(line, "number=0 equal=%d" % is_so)


def ask_bytes(line, data):
    say(line, digest_answer(data.hex()))


# Document 01's refusals 1 to 5.
def refusal(name, value):
    if name == "digest_size":
        return 0 if 1 <= value <= 64 else 1
    number, most = {"key": (2, 64), "salt": (3, 16), "person": (4, 16), "inner_size": (5, 64)}.get(name, (0, LARGEST))
    return number if (len(value) if isinstance(value, bytes) else value) > most else 0


# Every method says the line of a call on the parameters, with the answer that the table has for it.
class Parameters:
    def __init__(self):
        say("params new")
        self.setting = plain()

    def set(self, name, value):
        number = refusal(name, value)
        set_one(name, value, number)
        if number == 0:
            self.setting = dict(self.setting, **{name: value})

    def set_every(self, setting, reverse=False):
        set_all(setting, reverse)
        self.setting = setting

    def ask_all(self):
        key = self.setting["key"]
        ask("params in_range", True)
        ask("params is_keyed", key != b"")
        ask("params is_last_node", self.setting["last_node"])
        say("params digest_length", "number=0 length=%d" % self.setting["digest_size"])
        ask_bytes("params key_block", key.ljust(BLOCK, b"\0"))
        ask_bytes("params to_words", bytes_of(checked_words(self.setting)))


# RFC 7693 and document 01, case O, have the first word.
def defaults():
    note("what is read of the defaults")
    assert start_words(plain())[0] == IV[0] ^ 0x01010040 == 0x6A09E667F2BDC948
    Parameters().ask_all()


# What a setter refuses. The low 8, 16 or 32 bits of some would be taken.
REFUSED = [("digest_size", 0), ("digest_size", 65), ("digest_size", 256 + 64), ("digest_size", 2**32 + 20),
           ("digest_size", LARGEST), ("key", bytes(65)), ("key", bytes(256 + 64)), ("salt", bytes(17)),
           ("person", bytes(256)), ("inner_size", 65), ("inner_size", 2**32), ("inner_size", LARGEST)]


def keys():
    note("what is read after keys of 0 to 64 bytes, shorter ones over longer ones, and setters that refuse")
    parameters = Parameters()
    for length in 0, 1, 32, 64, 32, 1, 0, 64, 63, 2, 0:
        parameters.set("key", generated(length, length + 1))
        parameters.ask_all()
    for key in b"\0", bytes(64), b"\xff" * 64:
        parameters.set("key", key)
        parameters.set("digest_size", len(key))
        parameters.ask_all()
        for name, value in REFUSED:
            parameters.set(name, value)
            parameters.ask_all()


ENDS = dict(digest_size=[1, 2, 63, 64], key=[b"\xff" * 64, b"\1", b""], salt=[b"\xff" * 16, counted(15), b"\1", b""],
            person=[b"\xff" * 16, counted(15), b"\1", b""], fanout=[0, 2, 254, 255], depth=[0, 2, 254, 255],
            leaf_size=[1, 2**16, 2**31, 2**32 - 1], node_offset=[1, 2**32 - 1, 2**32, 2**63, LARGEST],
            node_depth=[1, 2, 254, 255], inner_size=[1, 32, 63, 64], last_node=[True, False])


# A field in a wrong place would show where all others are 0.
def each_field():
    note("the words with one field set at a time, at the ends of its range and between")
    for name, values in ENDS.items():
        parameters = Parameters()
        for value in values:
            parameters.set(name, value)
            parameters.ask_all()


def all_fields():
    note("the words with every field set, over those before")
    parameters = Parameters()
    for case in range(40):
        parameters.set_every(chosen(case), reverse=case % 2 == 0)
        parameters.ask_all()


def depth_zero():
    note("maximal depth 0, with digests")
    parameters = Parameters()
    for case in range(8):
        setting, message = dict(chosen(case), depth=0), generated(case * 16, case)
        parameters.set_every(setting)
        parameters.ask_all()
        ask_bytes("hash " + hexadecimal(message), short_digest(setting, message))


def drawn_value(dice, name):
    if dice.below(6) == 0:
        refused = [value for refused, value in REFUSED if refused == name]
        if refused:
            return dice.one_of(refused)
    return dice.one_of([*ENDS[name], chosen(dice.below(100) + 2)[name]])


def drawn():
    for seed in range(6):
        note("drawn setters, and what is read after each, seed %d" % seed)
        dice, parameters = Dice(seed + 80), Parameters()
        for _ in range(40):
            name = dice.one_of(sorted(ENDS))
            parameters.set(name, drawn_value(dice, name))
            parameters.ask_all()


# The flag of a state is its own.
def states():
    note("a state keeps its ranges through all calls, but for the zero state, and leaves the parameters as they are")
    for key, is_last in (b"", False), (b"\1", True), (b"\xff" * 64, False):
        parameters = Parameters()
        parameters.set("key", key)
        parameters.set("last_node", is_last)
        for opened in "new", "open":
            say("state " + opened)
            ask("state in_range", True)
            for length in 0, 1, 127, 1, 127, 128, 129, 1000:
                say("state update c:%d:0" % length)
                ask("state in_range", True)
                say("state set_last_node %d" % (not is_last))
                ask("state in_range", True)
            parameters.ask_all()
        say("state zero")
        for line, answer in ("update x:00", "number=14"), ("update x:", "number=14"), ("set_last_node 1", "number=14"), \
                            ("count", "number=14 count=0"), ("finalize", refused_digest(14)):
            ask_bytes("blake2b x:", hashlib.blake2b().digest())
            ask("state in_range", False)
            say("state " + line, answer)
            ask("state in_range", False)
            ask("digest in_range", line != "finalize")
        parameters.ask_all()


# The last digest, or None for zeros, after a call that made it: what is asked of it.
def ask_last(data):
    ask("digest in_range", data is not None)
    number, written = (14, b"") if data is None else (0, data)
    say("digest len", "number=%d length=%d" % (number, len(written)))
    say("digest equals_bytes " + hexadecimal(written), "number=%d equal=%d" % (number, data is not None))
    rest = "a5" * (64 - len(written))
    say("digest write_bytes 64", "number=%d length=%d bytes=%s" % (number, len(written), written.hex() + rest))


def from_words(data, length):
    is_made = 1 <= length <= 64
    answer = digest_answer(data[:length].hex()) if is_made else refused_digest(1)
    say("digest from_words %d %s" % (length, hexadecimal(data)), answer)
    ask_last(data[:length] if is_made else None)


def digests():
    note("digests of eight words, low bytes first; of a length that no digest has, refusal 1 and zeros")
    for data in counted(64), generated(64, 90), bytes(64), b"\xff" * 64:
        for length in 0, 1, 20, 64, 65, 256, 2**32 + 20, LARGEST, 2, 7, 8, 9, 63, 256 + 20, 2**16 + 64, 2**63 + 1:
            from_words(data, length)
    note("what lies behind the length is no part of a digest of words")
    for length in 1, 20, 63, 64:
        from_words(counted(64), length)
        say("digest keep")
        for place in sorted({0, length - 1, min(length, 63), 63}):
            other = bytearray(counted(64))
            other[place] ^= 0x80
            from_words(bytes(other), length)
            ask("digest equals", place >= length)
    note("other calls that make a digest, and its range after them")
    digest = hashlib.blake2b(b"abc").digest()
    say("params new")
    say("state new")
    say("state update x:616263")
    for line, made in ("blake2b x:616263", digest), ("hash x:616263", digest), ("state finalize", digest), \
                      ("digest from_words 64 " + hexadecimal(digest), digest), ("digest from_bytes c:64:0", counted(64)), \
                      ("digest from_bytes " + hexadecimal(bytes(64)), bytes(64)):
        say("digest zero", refused_digest(0))
        ask_last(None)
        ask_bytes(line, made)
        ask_last(made)


def lengths():
    note("the lengths that a digest may have")
    for length in *range(67), 127, 128, 255, 256, 256 + 1, 256 + 64, 2**16, 2**16 + 1, 2**32, 2**32 + 1, 2**32 + 64, 2**63, \
                  2**63 + 1, LARGEST - 1, LARGEST:
        ask("digest is_digest_length %d" % length, 1 <= length <= 64)


def ask_parallel(is_made):
    ask("bp params in_range", True)
    ask("bp state in_range", is_made)


def parallel_records():
    note("BLAKE2bp: parameters keep their ranges through all calls, and a state too, but for the zero state")
    say("bp params new")
    for key in b"", b"\1", bytes(32), b"\xff" * 64, b"\2", b"":
        for line in "key " + hexadecimal(key), "hash_length %d" % (len(key) or 64):
            say("bp params " + line)
            ask("bp params in_range", True)
        for opened in "new", "open":
            say("bp state " + opened)
            ask_parallel(True)
            for length in 0, 1, 511, 512, 1024, 384, 385, 2000:
                say("bp state update c:%d:0" % length)
                ask_parallel(True)
        for line, number in [("hash_length %d" % n, 1) for n in (0, 65, 256 + 64, 2**32 + 20, LARGEST)] + \
                            [("key c:%d:0" % n, 2) for n in (65, 256 + 64)]:
            say("bp params " + line, "number=%d" % number)
            ask_parallel(True)
        say("bp state zero")
        for line, answer in ("update x:00", "number=14"), ("update x:", "number=14"), ("count", "number=14 count=0"), \
                            ("finalize", refused_digest(14)):
            ask_parallel(False)
            say("bp state " + line, answer)
        ask_parallel(False)
    note("the ranges of BLAKE2b's records and of BLAKE2bp's are apart")
    say("state new")
    ask("state in_range", True)
    say("bp state new")
    say("state zero")
    ask_parallel(True)
    ask("state in_range", False)
    say("state new")


def reader_calls():
    defaults()
    keys()
    each_field()
    all_fields()
    depth_zero()
    drawn()
    states()
    digests()
    lengths()
    parallel_records()
