"""The designers' published answers: tests/vectors/kat.txt."""
import os

KAT = os.path.join(os.path.dirname(os.path.abspath(__file__)), "..", "vectors", "kat.txt")


# Of an algorithm, without a key and then with one: the key's hex digits, and the lengths with their digests.
def published_cases(algorithm):
    with open(KAT) as lines:
        cases = [line.split() for line in lines if line.startswith(algorithm + " ")]
    assert len(cases) == 512, len(cases)
    for keyed in False, True:
        group = [case for case in cases if (case[1] != "-") == keyed]
        (key,) = {case[1] for case in group}
        yield key if keyed else "", [(int(length), digest) for _, _, length, digest in group]
