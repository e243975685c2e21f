"""Lines that are no call, and the forms that a line and a message may have."""
import hashlib

from script import counted, digest_answer, note, refused_digest, say
from trees import tree_digest


def malformed_lines():
    note("lines that are no call change nothing")
    say("params new")
    say("state new")
    say("state update x:616263")
    say("blake2b x:646566", digest_answer(hashlib.blake2b(b"def").hexdigest()))
    say("bank new")
    say("bank open 2")
    say("bank update 2 x:616263")
    say("job new 2 0 3 x:616263")
    say("bp params new")
    say("bp state new")
    say("bp state update x:616263")
    for fault, lines in {
        "command": ["hush x:00", "state", "state open now", "state close", "params", "params depth 1", "digest",
                    "digest length", "params new now", "HASH x:00", " hash x:00",
                    "bank", "bank shut 2", "bank new 2", "banks new", "bank  new", "piece 0 0 0 0", "job", "job zero 2",
                    "jobs run 1 x:00",
                    "bp", "bp state", "bp state open now", "bp state buffered ", "bp state count 1", "bp state set_last_node 1",
                    "bp params", "bp params new 1", "bp params salt x:00", "bp hashes x:00", "bp  hash x:00", "bp digest len",
                    "BP hash x:00", "blake2bp x:00",
                    "params in_range 1", "params is_keyed x:", "params is_last_node 1", "params digest_length 64",
                    "params key_block ", "params to_words 8", "params in_ranges", "state in_range 0", "digest in_range 0",
                    "digest to_words", "in_range", "bp params in_range 1", "bp state in_range 0", "bp params is_keyed",
                    "bp params to_words", "bp digest in_range", "bp digest from_words 64 c:64:0"],
        "number": ["params fanout 256", "params max_depth -1", "params max_leaf_length 4294967296",
                   "params node_offset 18446744073709551616", "params hash_length", "params hash_length 1x",
                   "params hash_length 0x10", "params last_node 2", "state set_last_node 2",
                   "digest write_bytes 1025", "digest written_hex 1025", "digest write_hex",
                   "bank open", "bank open -1", "bank open 18446744073709551616", "bank close 2 2", "bank close x:00",
                   "bank update", "bank update x:00", "bank update  2 x:00", "bank digest 2 64", "bank digest_to 2",
                   "bank digest_to 2 1025", "bank digest_to 2 64 ", "bank piece 16 2 0 1", "bank piece 0 2 0",
                   "bank piece 0 2 0 1 1", "bank update_many x:00", "bank update_lent x:00", "job new 16 0 1 x:00", "job new 2 0 x:00",
                   "job new 2  0 1 x:00", "job run x:00", "job hash 16", "job hash", "job hash 2 2",
                   "bp params hash_length", "bp params hash_length -1", "bp params hash_length x:00",
                   "bp params hash_length 18446744073709551616",
                   "digest from_words", "digest from_words c:64:0", "digest from_words -1 c:64:0",
                   "digest from_words  64 c:64:0", "digest from_words 18446744073709551616 c:64:0",
                   "digest is_digest_length", "digest is_digest_length -1", "digest is_digest_length x:40",
                   "digest is_digest_length 64 64", "digest is_digest_length 18446744073709551616"],
        "message": ["hash", "hash 616263", "hash x:0", "hash x:0g", "hash x:00 00", "hash c:4194305:0", "hash c:1:256",
                    "hash c:1", "hash g:1:2147483648", "hash q:00", "hash x:00[0:2]", "hash x:0001[2:1]",
                    "hash x:0001[0:1", "hash x:0001[0:1]z", "hash x:0001[:1]", "params key x:0", "state update",
                    "digest from_bytes c:63:0", "digest from_bytes c:65:0", "digest equals_bytes 00",
                    "bank update 2", "bank update 2 616263", "bank update 2 2 x:00", "bank update 2  x:00",
                    "bank update_many 1", "bank update_many 1 x:0", "bank update_lent 1", "job held", "job held 1 x:00",
                    "job new 2 0 1", "job new 2 0 1 1 x:00", "job run 16",
                    "job run 3 x:00[0:2]",
                    "bp hash", "bp hash 00", "bp blake2bp x:00[0:2]", "bp params key x:0", "bp state update",
                    "bp state update c:4194305:0", "bp state update x:00 x:00",
                    "digest from_words 64", "digest from_words 64 c:63:0", "digest from_words 64 c:65:0",
                    "digest from_words 1 x:00", "digest from_words 0 x:", "digest from_words 64 64 c:64:0",
                    "digest from_words 64 c:64:0 64"],
        "line": ["blake2b x:" + "00" * 4091 + "0", "blake2b x:" + "00" * 20000, "# " + "-" * 8191,
                 "bank update 2 x:" + "00" * 4089, "job run 0 x:" + "00" * 4091, "bp hash x:" + "00" * 4092],
    }.items():
        for line in lines:
            say(line, "malformed " + fault)
    say("digest equals_bytes x:" + hashlib.blake2b(b"def").hexdigest(), "number=0 equal=1")
    say("state count", "number=0 count=3")
    say("state finalize", digest_answer(hashlib.blake2b(b"abc").hexdigest()))
    say("bank count 2", "number=0 count=3")
    say("bank digest 2", digest_answer(hashlib.blake2b(b"abc").hexdigest()))
    say("job hash 2", refused_digest(12))
    say("bp state count", "number=0 count=3")
    say("bp state finalize", digest_answer(tree_digest(b"abc")))
    say("bp hash x:616263", digest_answer(tree_digest(b"abc")))
    note("the longest line, upper-case digits, and a part of a message")
    say("blake2b x:" + "00" * 4091, digest_answer(hashlib.blake2b(bytes(4091)).hexdigest()))
    say("blake2b x:ABcdEF", digest_answer(hashlib.blake2b(b"\xab\xcd\xef").hexdigest()))
    say("blake2b c:300:250[5:299]", digest_answer(hashlib.blake2b(counted(600)[255:549]).hexdigest()))
    say("blake2b x:00[1:1]", digest_answer(hashlib.blake2b(b"").hexdigest()))
    say("", None)
    note("a last line needs no line feed")
    say("params new")
