"""One-shot hashes, states and digests: published, documented and hashlib's, and the refusals that they can meet."""
import hashlib

from parameters import chosen, set_all
from published import published_cases
from script import counted, digest_answer, generated, hexadecimal, note, say


# Where the pieces of a message of so many bytes end.
CUTS = {
    "in one piece": lambda length: [length],
    "before the last byte": lambda length: [max(0, length - 1), length],
    "in the middle": lambda length: [length // 2, length],
    "at the end of a block, with an empty piece": lambda length: [min(128, length), min(128, length), length],
    "in pieces of 61 bytes": lambda length: [*range(61, length, 61), length],
}


# A message piece by piece: its count, which is where the last piece ends, and its digest.
def pieces(message, ends, digest):
    say("state open")
    for start, end in zip([0, *ends], ends):
        say("state update %s[%d:%d]" % (message, start, end))
    say("state count", "number=0 count=%d" % ends[-1])
    say("state finalize", digest_answer(digest))


def published():
    for key, group in published_cases("b2b"):
        note("published answers, " + ("keyed" if key else "unkeyed"))
        say("params new")
        if key:
            say("params key x:" + key)
        for length, digest in group:
            message = "c:%d:0" % length
            say("hash " + message, digest_answer(digest))
            for ends in CUTS.values():
                pieces(message, ends(length), digest)


# The examples in the documentation of blake2b_simd 1.0.5: of the crate, blake2b, Params and State.
def documented():
    foo = ("ca002330e69d3e6b84a46a56a6533fd79d51d97a3bb7cad6c2ff43b354185d6d"
           "c1e723fb3db4ae0737e120378424c714bb982d9dc5bbd7a0ab318240ddd18f8d")
    mac = "ee8ff4e9be887297cf79348dc35dab56"
    note("the crate's documented examples")
    say("blake2b " + hexadecimal(b"foo"), digest_answer(foo))
    say("digest write_hex 128", "number=0 length=128 bytes=" + foo.encode().hex())
    say("params new")
    say("params hash_length 16")
    say("params key " + hexadecimal(b"The Magic Words are Squeamish Ossifrage"))
    say("params personal " + hexadecimal(b"L. P. Waterhouse"))
    say("state open")
    for piece in b"foo", b"bar", b"baz":
        say("state update " + hexadecimal(piece))
    say("state finalize", digest_answer(mac))
    say("digest written_hex 32", "number=0 length=32 bytes=" + mac.encode().hex())
    note("Params: one-shot and incremental")
    secret = hashlib.blake2b(b"my input", key=b"my secret key", digest_size=16).hexdigest()
    say("params new")
    say("params key " + hexadecimal(b"my secret key"))
    say("params hash_length 16")
    say("hash " + hexadecimal(b"my input"), digest_answer(secret))
    say("digest keep")
    say("state open")
    say("state update " + hexadecimal(b"my input"))
    say("state finalize", digest_answer(secret))
    say("digest equals", "number=0 equal=1")
    note("State: a digest leaves the state usable")
    say("state new")
    say("state update " + hexadecimal(b"foo"))
    say("state finalize", digest_answer(foo))
    say("state finalize", digest_answer(foo))
    foobar = hashlib.blake2b(b"foobar").hexdigest()
    say("state update " + hexadecimal(b"bar"))
    say("state finalize", digest_answer(foobar))
    say("digest keep")
    say("blake2b " + hexadecimal(b"foobar"), digest_answer(foobar))
    say("digest equals", "number=0 equal=1")


# Messages that end with a block: it stays buffered until more comes.
def whole_blocks():
    note("messages of whole blocks, then a byte more")
    for key in b"", bytes(64):
        say("params new")
        say("params key " + hexadecimal(key))
        for length in 128, 256, 384, 512, 1024:
            for cut in 0, 1, 100, 127, 128:
                pieces("c:%d:0" % length, [cut, length], hashlib.blake2b(counted(length), key=key).hexdigest())
                say("state update x:ff")
                longer = hashlib.blake2b(counted(length) + b"\xff", key=key).hexdigest()
                say("state finalize", digest_answer(longer))


# Parameters are not reset between two cases: a setter overwrites all that an earlier one set.
def all_parameters():
    note("every parameter, the ends of their ranges first, and messages of more than a block")
    say("params new")
    more = counted(300)
    for case, length in enumerate([300, 300, 0, 1, 64, 127, 128, 129, 255, 256, 257, 383, 384, 385, 1000, 4096, 4097,
                                   70000]):
        setting, data, message = chosen(case), generated(length, case), "g:%d:%d" % (length, case)
        set_all(setting, reverse=case % 2 == 0)
        digest = hashlib.blake2b(data, **setting).hexdigest()
        say("hash " + message, digest_answer(digest))
        pieces(message, [length // 7, length // 7, length // 2, length - length // 9, length], digest)
        other = dict(setting, last_node=not setting["last_node"])
        say("state set_last_node %d" % other["last_node"])
        say("state finalize", digest_answer(hashlib.blake2b(data, **other).hexdigest()))
        say("state update c:300:0")
        say("state finalize", digest_answer(hashlib.blake2b(data + more, **other).hexdigest()))
    note("every digest length")
    for digest_size in range(1, 65):
        say("params hash_length %d" % digest_size)
        digest = hashlib.blake2b(more, **dict(setting, digest_size=digest_size)).hexdigest()
        say("hash c:300:0", digest_answer(digest))
    note("the longest message")
    say("blake2b g:4194304:7", digest_answer(hashlib.blake2b(generated(4194304, 7)).hexdigest()))


def refusals():
    note("refusals 1 to 5 leave the parameters as they were")
    say("params new")
    say("params hash_length 20")
    say("params key c:64:1")
    say("params salt c:16:2")
    say("params personal c:16:3")
    say("params inner_hash_length 64")
    setting = dict(digest_size=20, key=bytes(range(1, 65)), salt=bytes(range(2, 18)), person=bytes(range(3, 19)),
                   inner_size=64)
    digest = hashlib.blake2b(b"abc", **setting).hexdigest()
    # Some of the numbers would be taken if only their low 8, 16 or 32 bits were looked at.
    for line, number in [("hash_length %d" % n, 1) for n in (0, 65, 256 + 64, 2**16 + 32, 2**32 + 32, 2**64 - 1)] + \
                        [("key c:%d:0" % n, 2) for n in (65, 256 + 64, 2**16 + 1, 2**22)] + \
                        [("salt c:%d:0" % n, 3) for n in (17, 256 + 16, 2**16)] + \
                        [("personal c:%d:0" % n, 4) for n in (17, 256 + 16, 2**16)] + \
                        [("inner_hash_length %d" % n, 5) for n in (65, 256 + 64, 2**16, 2**32, 2**64 - 1)]:
        say("params " + line, "number=%d" % number)
        say("hash x:616263", digest_answer(digest))
    note("a shorter key, salt or personalization leaves nothing of the longer one")
    say("params key x:01")
    say("params salt x:")
    say("params personal x:03")
    setting.update(key=b"\1", salt=b"", person=b"\3")
    digest = hashlib.blake2b(b"abc", **setting).hexdigest()
    say("hash x:616263", digest_answer(digest))
    note("an output that is too short is refused with 11 and keeps its bytes, one that is longer keeps its rest")
    raw, shown = digest, digest.encode().hex()
    say("digest len", "number=0 length=20")
    for call, text, written in ("bytes", raw, 20), ("hex", shown, 40):
        for room in 0, 1, written - 1:
            say("digest write_%s %d" % (call, room), "number=11 length=0 bytes=" + "a5" * room)
            say("digest written_%s %d" % (call, room), "number=11 length=0 bytes=")
        for room in written, written + 1, 1024:
            rest = "a5" * (room - written)
            say("digest write_%s %d" % (call, room), "number=0 length=%d bytes=%s" % (written, text + rest))
            say("digest written_%s %d" % (call, room), "number=0 length=%d bytes=%s" % (written, text))
    note("digests are equal when length and bytes agree")
    say("digest keep")
    say("digest equals", "number=0 equal=1")
    say("digest equals_bytes x:" + raw, "number=0 equal=1")
    say("digest equals_bytes x:" + raw[:-2], "number=0 equal=0")
    say("digest equals_bytes x:" + raw + "00", "number=0 equal=0")
    say("digest equals_bytes x:%s%02x" % (raw[:-2], int(raw[-2:], 16) ^ 1), "number=0 equal=0")
    say("digest equals_bytes x:", "number=0 equal=0")
    say("digest from_bytes x:" + raw + "00" * 44, digest_answer(raw + "00" * 44))
    say("digest equals", "number=0 equal=0")
    say("digest keep")
    say("digest equals", "number=0 equal=1")
    kept = bytes.fromhex(raw) + bytes(44)
    for place in 0, 63:
        other = bytearray(kept)
        other[place] ^= 1
        say("digest from_bytes " + hexadecimal(other), digest_answer(other.hex()))
        say("digest equals", "number=0 equal=0")
    say("digest write_bytes 63", "number=11 length=0 bytes=" + "a5" * 63)
    say("digest write_bytes 64", digest_answer(other.hex()))
    note("the zero record of a refusal is refused with 14, before everything else")
    say("state zero")
    say("state update x:616263", "number=14")
    say("state update x:", "number=14")
    say("state set_last_node 1", "number=14")
    say("state count", "number=14 count=0")
    say("state finalize", "number=14 length=0 bytes=")
    say("digest len", "number=14 length=0")
    say("digest equals", "number=14 equal=0")
    say("digest equals_bytes x:", "number=14 equal=0")
    say("digest write_bytes 3", "number=14 length=0 bytes=a5a5a5")
    say("digest write_hex 0", "number=14 length=0 bytes=")
    say("digest written_bytes 3", "number=14 length=0 bytes=")
    say("digest written_hex 3", "number=14 length=0 bytes=")
    say("digest equals_bytes c:64:0", "number=14 equal=0")
    say("digest zero", "number=0 length=0 bytes=")
    say("digest keep")
    say("digest equals", "number=14 equal=0")
    say("blake2b x:", digest_answer(hashlib.blake2b().hexdigest()))
    say("digest equals", "number=14 equal=0")


def hash_calls():
    published()
    documented()
    whole_blocks()
    all_parameters()
    refusals()
