"""Histories over a bank. Their answers come from a table of what was fed to each open slot, with hashlib for the digests.

The table is document 01's text over again: it knows nothing of states, blocks or buffers.
"""
import hashlib

from parameters import chosen, plain, set_all
from pieces import border_pieces, is_inside
from script import LARGEST, Dice, Message, batch_answer, digest_answer, note, refused_digest, say

SLOTS = 16
BATCH = 16
TOO_HIGH = [SLOTS, SLOTS + 1, 255, 256, 2**32, LARGEST]


# What a slot was opened with, and the bytes that it was fed.
class Row:
    def __init__(self, setting, data=b""):
        self.setting, self.data = setting, data

    def digest(self):
        return hashlib.blake2b(self.data, **self.setting).hexdigest()


# Every method says the line of a call, with the answer that the table has for it. The records of a batch go as an array, or lent.
class Table:
    batch = "update_many"

    def __init__(self):
        self.rows = {}
        self.pieces = [(0, 0, 0)] * BATCH
        say("bank new")
        for place, piece in enumerate(self.pieces):
            self.set_piece(place, piece)

    def fault(self, slot):
        return 7 if slot >= SLOTS else 0 if slot in self.rows else 8

    def open(self, slot, setting):
        set_all(setting)
        number = 7 if slot >= SLOTS else 13 if slot in self.rows else 0
        say("bank open %d" % slot, "number=%d" % number)
        if number == 0:
            self.rows[slot] = Row(setting)

    def update(self, slot, message):
        number = self.fault(slot)
        say("bank update %d %s" % (slot, message.text), "number=%d" % number)
        if number == 0:
            self.rows[slot].data += message.data

    def digest(self, slot):
        number = self.fault(slot)
        say("bank digest %d" % slot, refused_digest(number) if number else digest_answer(self.rows[slot].digest()))

    def digest_to(self, slot, room):
        number, length, written = self.fault(slot), 0, ""
        if number == 0:
            digest = self.rows[slot].digest()
            if len(digest) // 2 <= room:
                length, written = len(digest) // 2, digest
            else:
                number = 11
        shown = written + "a5" * (room - length)
        say("bank digest_to %d %d" % (slot, room), "number=%d length=%d bytes=%s" % (number, length, shown))

    def count(self, slot):
        number = self.fault(slot)
        say("bank count %d" % slot, "number=%d count=%d" % (number, 0 if number else len(self.rows[slot].data)))

    def close(self, slot):
        number = self.fault(slot)
        say("bank close %d" % slot, "number=%d" % number)
        if number == 0:
            del self.rows[slot]

    def set_piece(self, place, piece):
        self.pieces[place] = piece
        say("bank piece %d %d %d %d" % (place, *piece))

    # The number and the index that a batch of so many records is answered.
    def verdict(self, used, data_length):
        if used > BATCH:
            return 10, 0
        for index, (slot, start, length) in enumerate(self.pieces[:used]):
            number = self.fault(slot) or (0 if is_inside(start, length, data_length) else 9)
            if number:
                return number, index
        return 0, 0

    # The records go to the front of the sixteen, and what was there before stays behind them.
    def update_many(self, records, message, used=None):
        for place, piece in enumerate(records):
            if self.pieces[place] != piece:
                self.set_piece(place, piece)
        used = len(records) if used is None else used
        number, index = self.verdict(used, len(message.data))
        say("bank %s %d %s" % (self.batch, used, message.text), batch_answer(number, index))
        if number:
            self.show(sorted(self.rows))
            return
        for slot, start, length in self.pieces[:used]:
            self.rows[slot].data += message.data[start:start + length]

    def show(self, slots):
        for slot in slots:
            self.count(slot)
            self.digest(slot)

    def show_all(self):
        self.show(range(SLOTS))


def slot_numbers():
    note("a bank of closed slots: 7 where there is no such slot, 8 where it is not open, also for no input and no output")
    table = Table()
    for slot in [0, 7, SLOTS - 1, *TOO_HIGH]:
        table.update(slot, Message(3, 1))
        table.update(slot, Message(0, 1))
        table.digest(slot)
        for room in 0, 3, 64:
            table.digest_to(slot, room)
        table.count(slot)
        table.close(slot)
    note("the same calls with a slot open beside, and 7 for an open")
    table.open(SLOTS - 1, plain())
    for slot in [SLOTS - 2, *TOO_HIGH]:
        table.update(slot, Message(3, 1))
        table.digest(slot)
        table.digest_to(slot, 0)
        table.count(slot)
        table.close(slot)
        table.update_many([(SLOTS - 1, 0, 3), (slot, 0, 1)], Message(3, 1))
    for slot in TOO_HIGH:
        table.open(slot, plain())
    table.show_all()


def open_and_close():
    note("13 for an open slot, whatever the parameters: it keeps its own and its bytes")
    table = Table()
    table.open(4, plain(20))
    table.open(4, plain(20))
    table.open(4, chosen(5))
    table.update(4, Message(200, 2))
    table.open(4, chosen(1))
    table.count(4)
    table.digest(4)
    note("a closed slot answers 8, and starts with no bytes and new parameters when it is opened again")
    table.open(5, chosen(6))
    table.update(5, Message(130, 3))
    for setting in plain(key=b"k" * 64), chosen(1), plain(1), chosen(7):
        table.close(4)
        table.close(4)
        table.update(4, Message(1, 1))
        table.digest(4)
        table.digest_to(4, 64)
        table.count(4)
        table.update_many([(5, 0, 4), (4, 0, 1)], Message(4, 1))
        table.open(4, setting)
        table.count(4)
        table.digest(4)
        table.update(4, Message(129, 4))
        table.digest(4)
    table.show_all()
    note("a new bank has all slots closed")
    Table().show_all()


def outputs():
    note("11 where the output is shorter than the slot's digest, after 7 and 8; the digest may be asked for again")
    table = Table()
    for slot, length in enumerate([1, 2, 20, 63, 64]):
        table.open(slot, plain(length))
        table.update(slot, Message(length, slot))
        for room in sorted({0, length - 1, length, length + 1, 1024}):
            table.digest_to(slot, room)
        table.digest(slot)
        table.digest(slot)
        table.update(slot, Message(128, slot))
        table.digest_to(slot, 64)


def lengths():
    note("updates and records of lengths around those of whole blocks, with digests between")
    table = Table()
    around = [0, 1, 127, 128, 129, 255, 256, 257]
    for slot, key in (0, b""), (1, b"\1"), (2, b"\xff" * 64):
        table.open(slot, plain(32, key))
        table.digest(slot)
        for first in around:
            table.update(slot, Message(first, 5))
            table.count(slot)
            table.digest(slot)
    for n in around:
        table.update_many([(0, 1, n), (1, 1, n), (2, 1, n), (0, 0, n)], Message(258, n))
        for slot in range(3):
            table.count(slot)
            table.digest(slot)
    note("long ones")
    table.update(1, Message(70000, 6))
    table.update_many([(0, 0, 100000), (1, 99999, 1), (2, 1, 99999), (2, 50000, 128)], Message(100000, 7))
    table.show_all()


def all_slots():
    note("all slots open, each with parameters of its own, and batches over all of them")
    table = Table()
    for slot in range(SLOTS):
        table.open(slot, chosen(slot))
        table.update(slot, Message(17 * slot, slot))
    table.show_all()
    data = Message(1000, 8)
    table.update_many([(slot, 50 * slot, 13 * slot) for slot in range(SLOTS)], data)
    table.show_all()
    table.update_many([(SLOTS - 1 - i, 0, 1000 - i) for i in range(BATCH)], data)
    table.show_all()
    note("an empty batch changes nothing, also over no data")
    table.update_many([], data)
    table.update_many([], Message(0, 0))
    table.show_all()
    note("records of one slot join in their order, overlapping and repeated ones too")
    for slot in 0, 1, 9:
        table.update_many([(slot, 60 * (BATCH - i), 90) for i in range(BATCH)], data)
        table.update_many([(slot, 500, 100)] * BATCH, data)
        table.count(slot)
        table.digest(slot)
    table.update_many([(3 + i % 2, 300 - 20 * i, 20 * i) for i in range(15)], data)
    note("the same bytes for all slots")
    table.update_many([(slot, 1, 999) for slot in range(SLOTS)], data)
    table.show_all()


def piece_borders():
    note("9 at the borders of the data: alone, last of sixteen, and behind a record of the same slot whose bytes go nowhere")
    table = Table()
    for slot in 0, 3, 15:
        table.open(slot, plain(16))
    n = 10
    data = Message(n, 9)
    for start, length in border_pieces(n):
        table.update_many([(3, start, length)], data)
        table.update_many([(3, 0, 10), (3, start, length)], data)
        table.update_many([(15, i % n, 1) for i in range(15)] + [(15, start, length)], data)
        table.count(3)
        table.digest(3)
    note("no piece lies inside no data, and only the first byte's in one byte")
    for length in 0, 1:
        for start in 0, 1, LARGEST:
            table.update_many([(0, start, length)], Message(0, 0))
            table.update_many([(0, start, length)], Message(1, 0))
    table.show_all()


def batch_lengths():
    note("10 before all that is wrong with records, and none that is past the used length matters")
    table = Table()
    for slot in range(SLOTS - 1):
        table.open(slot, plain(8))
    data = Message(300, 10)
    good = [(i % 15, i, 100 + i) for i in range(BATCH)]
    bad = [(SLOTS, 0, 1), (SLOTS - 1, 0, 1), (0, 300, 0), (LARGEST, LARGEST, LARGEST)]
    for records in good, bad * 4:
        for used in 17, 18, 256, 2**32, 2**32 + 1, LARGEST:
            table.update_many(records, data, used)
    for used in 17, LARGEST:
        table.update_many([], Message(0, 0), used)
    for used in 0, 1, 2, 15:
        table.update_many((good[:used] + bad * 4)[:BATCH], data, used)
        table.show_all()
    table.update_many(good, data)
    table.show_all()


def orders():
    note("in a record 7 before 9 and 8 before 9; of two bad records the first decides, whatever is wrong with them")
    table = Table()
    for slot in range(6):
        table.open(slot, plain(12))
    data = Message(200, 11)
    bad = [(16, 0, 1), (LARGEST, 200, 1), (6, 0, 1), (6, 200, 0), (6, LARGEST, 1), (0, 200, 0), (1, 150, 51)]
    for record in bad:
        table.update_many([record], data)
    for index in 0, 14:
        for first in bad:
            for second in bad[::2]:
                records = [(5 - i % 5, 10 * i, 20) for i in range(BATCH)]
                records[index], records[index + 1] = first, second
                table.update_many(records, data)
    for last in bad:
        table.update_many([(5 - i % 5, 10 * i, 20) for i in range(BATCH - 1)] + [last], data)
    table.show_all()


# A record of a drawn batch, bad once in so many times.
def drawn_record(table, dice, data_length, one_in):
    slot = dice.one_of(sorted(table.rows) or [0])
    start = dice.below(data_length) if data_length else 0
    length = min(dice.one_of([0, 1, 64, 127, 128, 129, 256, 1000]), max(0, data_length - start))
    if dice.below(one_in):
        return slot, start, length
    return dice.one_of([(dice.one_of(TOO_HIGH), start, length), (dice.below(SLOTS), start, length),
                        (slot, data_length, 0), (slot, start, data_length - start + 1), (slot, LARGEST - 1, 3)])


def drawn_call(table, dice):
    slot = dice.one_of(TOO_HIGH) if dice.below(40) == 0 else dice.below(SLOTS)
    fed = dice.one_of(sorted(table.rows) or [0]) if dice.below(10) else slot
    call = dice.below(100)
    if call < 12:
        table.open(slot, chosen(dice.below(1000)))
    elif call < 40:
        table.update(fed, Message(dice.one_of([0, 1, 2, 63, 127, 128, 129, 255, 256, 257, 384, 1024, 5000]), dice.below(2**20)))
    elif call < 65:
        data = Message(dice.one_of([0, 1, 128, 129, 300, 1000, 4096]), dice.below(2**20))
        count = dice.one_of([0, 1, 2, 3, 5, 8, 16, 16])
        table.update_many([drawn_record(table, dice, len(data.data), 40) for _ in range(count)], data)
    elif call < 78:
        table.digest(fed)
    elif call < 83:
        table.digest_to(fed, dice.one_of([0, 1, 31, 32, 63, 64, 65]))
    elif call < 93:
        table.count(fed)
    else:
        table.close(fed)


# Half of them start with an empty bank, the others with all slots open.
def drawn_histories():
    for seed in range(8):
        note("a drawn history, seed %d" % seed)
        dice, table = Dice(seed), Table()
        if seed % 2:
            for slot in range(SLOTS):
                table.open(slot, chosen(dice.below(1000)))
        for _ in range(100):
            drawn_call(table, dice)
        table.show_all()


# Those with batches are said once in each form, with the same answers.
def bank_histories():
    outputs()
    for form in "update_many", "update_lent":
        Table.batch = form
        note("batches by " + form)
        slot_numbers()
        open_and_close()
        lengths()
        all_slots()
        piece_borders()
        batch_lengths()
        orders()
        drawn_histories()
