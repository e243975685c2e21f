"""BLAKE2bp: published answers, and histories of a state against the bytes that it was fed, with an outside digest of them.

What waits in the buffer and what the leaves have compressed is counted by document 01's rules for a full buffer and the
crate's for what goes straight from the input.
"""
import hashlib

from published import published_cases
from script import LARGEST, Dice, Message, counted, digest_answer, generated, hexadecimal, note, refused_digest, say
from trees import tree_digest

ROW, BUFFER, NEED = 512, 1024, 384


# The bytes that wait, and those that each leaf has compressed.
class Filling:
    def __init__(self, is_keyed):
        self.held, self.leaf_count = ROW if is_keyed else 0, 0

    def rows_go(self, rows):
        self.leaf_count += rows * ROW // 4

    def take(self, length):
        room = BUFFER - self.held
        if 0 < self.held and room < length:
            length -= room
            rows = 2 if length > NEED else 1
            self.rows_go(rows)
            self.held = BUFFER - rows * ROW
        if self.held == 0:
            rows = max(0, length - NEED - 1) // ROW
            self.rows_go(rows)
            length -= rows * ROW
        self.held += length


def set_params(size=64, key=b""):
    say("bp params new")
    say("bp params hash_length %d" % size)
    say("bp params key " + hexadecimal(key))


# Every method says the line of a call, with the answer that the bytes so far have for it.
class State:
    def __init__(self, size=64, key=b"", call="open"):
        self.size, self.key, self.data, self.filling = size, key, b"", Filling(key)
        say("bp state " + call)

    # The text is how a script writes the data.
    def update(self, text, data):
        say("bp state update " + text)
        self.data += data
        self.filling.take(len(data))

    # In pieces that end where it is said.
    def feed(self, text, data, ends):
        for start, end in zip([0, *ends], ends):
            self.update("%s[%d:%d]" % (text, start, end), data[start:end])
            self.inside()

    def inside(self):
        say("bp state buffered", "number=0 length=%d" % self.filling.held)
        say("bp state leaf_count", "number=0 count=%d" % self.filling.leaf_count)

    def count(self):
        say("bp state count", "number=0 count=%d" % len(self.data))

    def finalize(self):
        say("bp state finalize", digest_answer(tree_digest(self.data, self.size, self.key)))


# Where the pieces of a message of so many bytes end.
SHORT_CUTS = {
    "in one piece": lambda length: [length],
    "before the last byte": lambda length: [max(0, length - 1), length],
    "in the middle, with an empty piece": lambda length: [length // 2, length // 2, length],
    "in pieces of 61 bytes": lambda length: [*range(61, length, 61), length],
}


def at(ends):
    return lambda length: [end for end in ends if end < length] + [length]


CUTS = {
    "in one piece": at([]),
    "before the last byte": SHORT_CUTS["before the last byte"],
    "at the borders": at([384, 512, 897, 1024]),
    "in front of the borders, with empty pieces": at([0, 383, 511, 511, 896, 1023]),
    "behind the borders": at([1, 385, 513, 898, 1025]),
    "full buffers": at([512, 1024, 1024, 1408, 2048]),
    "full buffers and a byte more": at([512, 1024, 1409, 2433]),
    "in pieces of 385 bytes": lambda length: [*range(385, length, 385), length],
}


# The published messages are shorter than a row: the count alone is asked of the state.
def published():
    for key, group in published_cases("b2bp"):
        note("BLAKE2bp: published answers, " + ("keyed" if key else "unkeyed"))
        say("bp params new")
        if key:
            say("bp params key x:" + key)
        for length, digest in group:
            assert digest == tree_digest(counted(length), 64, bytes.fromhex(key)), length
            message = "c:%d:0" % length
            say("bp hash " + message, digest_answer(digest))
            if not key:
                say("bp blake2bp " + message, digest_answer(digest))
            for cut in SHORT_CUTS.values():
                ends = cut(length)
                say("bp state open")
                for start, end in zip([0, *ends], ends):
                    say("bp state update %s[%d:%d]" % (message, start, end))
                say("bp state count", "number=0 count=%d" % length)
                say("bp state finalize", digest_answer(digest))


# Document 01's, from a fresh state, and then with a key, where a row waits from the start.
RUNS = [(b"", [896], 896, 0), (b"", [897], 385, 128), (b"", [512, 512], 1024, 0), (b"", [512, 512, 384], 896, 128),
        (b"", [512, 512, 385], 385, 256),
        (b"k", [], 512, 0), (b"k", [0], 512, 0), (b"k", [512], 1024, 0), (b"k", [513], 513, 128), (b"k", [896], 896, 128),
        (b"k", [897], 385, 256), (b"k", [512, 384], 896, 128), (b"k", [512, 385], 385, 256)]


def run_cases():
    note("BLAKE2bp: what waits and what the leaves have compressed")
    for key, lengths, held, leaf_count in RUNS:
        set_params(64, key)
        for call in ["open"] if key else ["new", "open"]:
            state = State(64, key, call)
            for length in lengths:
                state.update("c:%d:0" % length, counted(length))
            say("bp state buffered", "number=0 length=%d" % held)
            say("bp state leaf_count", "number=0 count=%d" % leaf_count)
            state.count()
            state.finalize()


LENGTHS = [0, 1, 127, 128, 129, 256, 383, 384, 385, 511, 512, 513, 767, 768, 769, 895, 896, 897, 898, 1023, 1024, 1025,
           1407, 1408, 1409, 1536, 1537, 1920, 1921, 2048, 2049, 2433, 4096, 4097]


# After the digest a byte more is taken: a row that went too early would have ended a leaf.
def borders():
    note("BLAKE2bp: messages and cuts at and beside the borders of a row and of the buffer, and a byte more after the digest")
    for key in b"", bytes(64):
        set_params(64, key)
        for length in LENGTHS:
            message = Message(length, length)
            say("bp hash " + message.text, digest_answer(tree_digest(message.data, 64, key)))
            for cut in CUTS.values():
                state = State(64, key)
                state.feed(message.text, message.data, cut(length))
                state.count()
                state.finalize()
                state.update("x:ff", b"\xff")
                state.finalize()


def digest_lengths():
    note("BLAKE2bp: every digest length, set over the one before, with keys of 0, 1, 32 and 64 bytes")
    for size in range(1, 65):
        key, length = generated([0, 1, 32, 64][size % 4], size), [0, 130, 513, 897, 1025, 2000, 5000][size % 7]
        message = Message(length, size)
        say("bp params hash_length %d" % size)
        say("bp params key " + hexadecimal(key))
        say("bp hash " + message.text, digest_answer(tree_digest(message.data, size, key)))
        state = State(size, key)
        state.finalize()
        state.feed(message.text, message.data, [length // 2, length])
        state.count()
        state.finalize()


def long_messages():
    note("BLAKE2bp: longer messages")
    for length in 10000, 70000, 2**20 + 1, 4194304:
        message = Message(length, 8)
        say("bp blake2bp " + message.text, digest_answer(tree_digest(message.data)))
        for size, key in (64, b""), (20, b"a key"):
            set_params(size, key)
            say("bp hash " + message.text, digest_answer(tree_digest(message.data, size, key)))
            state = State(size, key)
            state.feed(message.text, message.data, [700, length - 897, length])
            state.count()
            state.finalize()


# Sums of these reach every border from somewhere.
STEPS = [0, 1, 63, 127, 128, 129, 255, 256, 383, 384, 385, 511, 512, 513, 639, 640, 895, 896, 897, 1023, 1024, 1025, 1408, 1409,
         3000]


def drawn():
    for seed in range(12):
        dice = Dice(seed + 50)
        size, key = dice.one_of([64, 64, 1, 20, 63]), generated(dice.one_of([0, 0, 1, 32, 64]), seed)
        note("BLAKE2bp: drawn updates with digests, counts and what waits between, seed %d" % seed)
        set_params(size, key)
        state = State(size, key)
        for _ in range(40):
            message = Message(dice.one_of(STEPS), dice.below(2**20))
            state.update(message.text, message.data)
            dice.one_of([state.finalize, state.count, state.inside, state.inside])()
        state.count()
        state.inside()
        state.finalize()
        state.finalize()


def refusals():
    note("BLAKE2bp: refusals 1 and 2 leave the parameters, and a state that was opened, as they were")
    key = bytes(range(1, 65))
    set_params(20, key)
    state = State(20, key)
    state.update("c:600:0", counted(600))
    for line, number in [("hash_length 0", 1), ("hash_length 65", 1), ("hash_length 256", 1), ("hash_length 320", 1),
                         ("hash_length %d" % (2**32 + 20), 1), ("hash_length %d" % LARGEST, 1), ("key c:65:0", 2),
                         ("key c:128:0", 2), ("key c:4194304:0", 2)]:
        say("bp params " + line, "number=%d" % number)
        say("bp hash x:616263", digest_answer(tree_digest(b"abc", 20, key)))
        state.count()
        state.finalize()
    note("BLAKE2bp: a shorter key leaves nothing of the longer one, and an empty one takes it away")
    for key in b"\1", b"\1\2", b"":
        say("bp params key " + hexadecimal(key))
        say("bp hash x:616263", digest_answer(tree_digest(b"abc", 20, key)))
        State(20, key).finalize()
    note("BLAKE2bp: a new state has the defaults, whatever the parameters, and the setters don't change it")
    say("bp params key x:00")
    state = State(call="new")
    say("bp params hash_length 1")
    state.update("x:616263", b"abc")
    state.finalize()
    say("bp blake2bp x:616263", digest_answer(tree_digest(b"abc")))
    note("BLAKE2bp: the zero state is refused with 14, before everything else, and stays what it is")
    say("bp state zero")
    for _ in range(2):
        say("bp state update x:616263", "number=14")
        say("bp state update x:", "number=14")
        say("bp state update c:4194304:0", "number=14")
        say("bp state count", "number=14 count=0")
        say("bp state leaf_count", "number=14 count=0")
        say("bp state buffered", "number=14 length=0")
        say("bp state finalize", refused_digest(14))
    say("bp hash x:616263", digest_answer(tree_digest(b"abc", 1, b"\0")))
    State(1, b"\0").finalize()


# It runs first: no call on BLAKE2bp was made before.
def beginning():
    note("BLAKE2bp: a script starts with the defaults and an empty state")
    nothing = digest_answer(tree_digest(b""))
    say("bp state count", "number=0 count=0")
    say("bp state leaf_count", "number=0 count=0")
    say("bp state buffered", "number=0 length=0")
    say("bp state finalize", nothing)
    say("bp hash x:", nothing)
    say("bp blake2bp x:", nothing)


def apart():
    note("BLAKE2bp and BLAKE2b have parameters, a state and digests of their own")
    say("params new")
    say("params hash_length 20")
    say("state open")
    say("state update x:616263")
    say("hash x:646566", digest_answer(hashlib.blake2b(b"def", digest_size=20).hexdigest()))
    set_params(30, b"key")
    state = State(30, b"key")
    state.update("x:313233", b"123")
    state.finalize()
    say("digest len", "number=0 length=20")
    say("state count", "number=0 count=3")
    say("state finalize", digest_answer(hashlib.blake2b(b"abc", digest_size=20).hexdigest()))
    say("params new")
    say("state new")
    state.count()
    state.finalize()
    say("bp hash x:646566", digest_answer(tree_digest(b"def", 30, b"key")))


def parallel_calls():
    beginning()
    published()
    run_cases()
    borders()
    digest_lengths()
    long_messages()
    drawn()
    refusals()
    apart()
