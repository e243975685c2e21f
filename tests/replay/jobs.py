"""Hash jobs and batches of them. Their answers come from a list of what each place holds, with hashlib for the digests.

The list is document 01's text over again: a job is a range until a batch runs it over its data.
"""
import hashlib

from parameters import chosen, plain, set_all
from pieces import border_pieces, is_inside
from script import LARGEST, Dice, Message, batch_answer, digest_answer, note, refused_digest, say

PLACES = 16


# A job whose digest is None is not finished. One with a key and no input is finished when it is made.
class Job:
    def __init__(self, setting, start, length):
        self.setting, self.start, self.length, self.digest = setting, start, length, None
        if setting["key"] and length == 0:
            self.run(b"")

    def run(self, data):
        own = data[self.start:self.start + self.length]
        self.digest = hashlib.blake2b(own, **self.setting).hexdigest()


# Every method says the line of a call, with the answer that the list has for it. A place that is None has the zero job.
class Places:
    def __init__(self):
        self.jobs = [None] * PLACES

    def new(self, place, setting, message, start, length):
        set_all(setting)
        self.again(place, setting, message, start, length)

    # With parameters that are set already.
    def again(self, place, setting, message, start, length):
        fine = is_inside(start, length, len(message.data))
        self.jobs[place] = Job(setting, start, length) if fine else None
        say("job new %d %d %d %s" % (place, start, length, message.text), "number=%d" % (0 if fine else 9))

    # Nothing lies inside no data.
    def empty(self, place):
        self.again(place, None, Message(0, 0), 0, 0)

    # The number and the index that a batch of so many jobs is answered.
    def verdict(self, used, data_length):
        if used > PLACES:
            return 10, 0
        for index, job in enumerate(self.jobs[:used]):
            if job is None:
                return 14, index
            if job.digest is None and not is_inside(job.start, job.length, data_length):
                return 9, index
        return 0, 0

    def run(self, used, message):
        number, index = self.verdict(used, len(message.data))
        say("job run %d %s" % (used, message.text), batch_answer(number, index))
        if number:
            self.show(min(used, PLACES))
            return
        for job in self.jobs[:used]:
            if job.digest is None:
                job.run(message.data)

    def hash(self, place):
        job = self.jobs[place]
        number = 14 if job is None else 12 if job.digest is None else 0
        say("job hash %d" % place, refused_digest(number) if number else digest_answer(job.digest))

    # The digest of a job that keeps its input: that of the one at a place, over the same bytes.
    def held(self, place, message):
        job = self.jobs[place]
        set_all(job.setting)
        own = "%s[%d:%d]" % (message.text, job.start, job.start + job.length)
        say("job held " + own, digest_answer(job.digest))

    # The first so many.
    def show(self, count):
        for place in range(count):
            self.hash(place)

    def show_all(self):
        self.show(PLACES)


# It runs first: no job was made before.
def zero_jobs(places):
    note("zero jobs: 14, before 12 for a digest and before 9 for a batch over no data; 10 before 14; none is in an empty batch")
    places.show_all()
    for used in 0, 1, 2, 16, 17, 18, 256, 2**32, 2**32 + 1, LARGEST:
        places.run(used, Message(0, 0))
        places.run(used, Message(9, 1))


def piece_borders(places):
    note("9 at the borders of the data when a job is made: in its place comes the zero job")
    n = 10
    data = Message(n, 2)
    for key in b"", b"k":
        setting = plain(16, key)
        set_all(setting)
        for start, length in border_pieces(n):
            places.again(0, setting, data, 0, 4)
            places.again(0, setting, data, start, length)
            places.hash(0)
            places.run(1, data)
            places.hash(0)
        for start, length in (0, 0), (0, 1), (1, 0), (LARGEST, 1):
            places.again(0, setting, Message(0, 0), start, length)
            places.hash(0)
    note("9 at the borders of the data of the batch")
    setting = plain(16)
    set_all(setting)
    for start, length in (0, 0), (0, 10), (5, 5), (9, 0), (9, 1):
        for shorter in 0, 1, 5, 9, 10, 11:
            places.again(0, setting, data, start, length)
            places.run(1, Message(shorter, 3))
            places.hash(0)


def no_input(places):
    note("no input: with a key a job is finished when it is made, and a batch leaves it as it is; without one a batch runs it")
    data = Message(200, 4)
    for setting in plain(key=b"k" * 64), plain(1, b"k"), chosen(1), plain(), plain(1), chosen(0):
        places.new(0, setting, data, 199, 0)
        places.hash(0)
        places.run(1, Message(0, 0))
        places.hash(0)
        places.run(1, data)
        places.hash(0)
        places.run(1, Message(0, 0))
        places.hash(0)
        places.held(0, data)


def sixteen_jobs(places):
    note("sixteen jobs of very different lengths and parameters, each digest at its place")
    data = Message(70000, 5)
    lengths = [0, 70000, 1, 127, 128, 129, 30000, 255, 256, 257, 0, 384, 385, 1000, 4096, 64]
    for place, length in enumerate(lengths):
        places.new(place, chosen(place), data, (70000 - length) // (place + 1) if length else place, length)
    places.show_all()
    places.run(16, data)
    places.show_all()
    note("each of them as a job that keeps its input")
    for place in range(PLACES):
        places.held(place, data)
    note("a second run changes nothing, over the same, other, shorter or no data")
    for other in data, Message(70000, 6), Message(10, 7), Message(0, 0):
        places.run(16, other)
    places.show_all()
    note("the same lengths the other way round, overlapping from the start of the data")
    for place, length in enumerate(reversed(lengths)):
        places.new(place, chosen(place + 16), data, 0, length)
    places.run(16, data)
    places.show_all()


def used_lengths(places):
    note("only the first so many are run; the others are neither checked nor changed")
    data, other = Message(300, 8), Message(300, 9)
    setting = plain(24)
    set_all(setting)
    for place in range(PLACES):
        places.again(place, setting, data, 10 * place, 100)
    for used in 0, 1, 3, 3, 15:
        places.run(used, data)
        places.show_all()
    note("what a job's range holds when it is run is its input")
    places.run(16, other)
    places.show_all()
    note("a bad job past the used length does not matter")
    for place in range(PLACES):
        places.again(place, setting, data, place, 150)
    places.empty(9)
    places.run(9, data)
    places.show_all()
    places.run(10, data)


# A batch of jobs that are fine but for those at some places: zero jobs, or jobs that reach past the data of the batch.
def mixed(places, zero, long):
    setting = plain(24)
    set_all(setting)
    for place in range(PLACES):
        length = 200 if place in long else 100
        places.again(place, setting, Message(300, 10), place, length)
    for place in zero:
        places.empty(place)


def orders(places):
    note("14 and 9 job by job: the first bad job decides, and then none is run")
    batch = Message(150, 11)
    for first in 0, 8, 14:
        for zero, long in ([first], []), ([], [first]), ([first], [first + 1]), ([first + 1], [first]), ([first, 15], []):
            mixed(places, zero, long)
            places.run(16, batch)
            places.run(first, batch)
            places.run(17, batch)
    for zero, long in ([15], []), ([], [15]):
        mixed(places, zero, long)
        places.run(16, batch)
        places.run(15, batch)
    note("a finished job is not checked for 9, and an unfinished one behind it is")
    mixed(places, [], [])
    places.run(8, batch)
    places.run(16, Message(50, 12))
    places.run(8, Message(0, 0))
    places.run(16, batch)
    places.show_all()
    note("parameters that are set after a job was made don't change it")
    mixed(places, [], [])
    set_all(chosen(1))
    places.run(16, batch)
    places.show_all()


def drawn_batches(places):
    for seed in range(4):
        note("drawn jobs and batches, seed %d" % seed)
        dice = Dice(seed)
        for _ in range(50):
            call, data = dice.below(10), Message(dice.one_of([0, 1, 129, 500, 2000]), dice.below(2**20))
            if call < 5:
                start = dice.below(len(data.data) + 1)
                length = min(dice.one_of([0, 1, 127, 128, 129, 1000]), len(data.data) - start + (dice.below(20) == 0))
                places.new(dice.below(PLACES), chosen(dice.below(1000)), data, start, length)
            elif call < 8:
                places.run(dice.below(PLACES + 2), data)
            else:
                places.hash(dice.below(PLACES))
        places.show_all()


def job_batches():
    places = Places()
    zero_jobs(places)
    piece_borders(places)
    no_input(places)
    sixteen_jobs(places)
    used_lengths(places)
    orders(places)
    drawn_batches(places)
