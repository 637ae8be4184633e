"""The sheets that the program of crate stored_runs is given: the documents' cases, garbled ballots in every kind of round,
numbers of several bits, zeros and ones in balance, every cause in its variants, causes in conflict, chains of every shape, the longest sheets, and
sheets drawn by lot, many of them damaged.

Each has the length of the table that is lent with it. Those that are not drawn have the answer that the documents give.
"""
from collections import namedtuple

from model import OUTCOME
from sheet import LARGEST_TABLE, MOST_BITS, MOST_RECORDS, bits, tables_size

Call = namedtuple("Call", "n t T sender value marks w", defaults=(0,))
# a next index of None is that of the record after it in the chain, or 0
Record = namedtuple("Record", "round sender to ballot next bit last", defaults=(1, None, 0, 0))
# cause is None where the answer is not known beforehand; so are the outcomes
Stored = namedtuple("Stored", "sheet lent cause outcomes", defaults=(None, None))

LINE = Call(4, 1, 1, 1, 1, 0b1100)  # stations 3 and 4 are bad; R is 9
GOOD = Record(1, 3, 1)


def two(number):
    return number.to_bytes(2, "little")


def header(call, first=0):
    return bytes([*call[:5], call.w]) + two(first) + call.marks.to_bytes(4, "little")


def packed(record):
    return bytes(record[:4]) + two(record.next) + bytes([record.bit, record.last])


def chained(call, records, order=None, k=None, rest=b"\xff" * 8, first=None):
    """A sheet with a chain of the records. The q-th of them stands at index order[q], and every index up to k that is
    left has the bytes of rest."""
    order = order or range(1, len(records) + 1)
    stored = [rest] * (k if k is not None else len(records))
    for record, index, after in zip(records, order, [*order[1:], 0]):
        stored[index - 1] = packed(record if record.next is not None else record._replace(next=after))
    start = first if first is not None else order[0] if records else 0
    return header(call, start) + b"".join(stored)


def own_length(sheet):
    """The length of the tables by the sheet's header, where the program has as much to lend."""
    size = tables_size(*sheet[:2], sheet[5]) if len(sheet) > 5 else 0
    return min(size, LARGEST_TABLE)


def given(cause, sheet, lent=None, outcomes=None):
    return Stored(sheet, own_length(sheet) if lent is None else lent, cause, outcomes)


def place_numbers(call):
    """Bit, round, from and to of every place of the tables."""
    stations = range(1, call.n + 1)
    return [(b, r, i, j) for b in range(bits(call.w)) for r in range(1, 3 * call.t + 7) for i in stations for j in stations]


def marked_places(call):
    return [p for p in place_numbers(call) if call.marks >> (p[2] - 1) & 1]


def at_place(place, ballot=1):
    return Record(*place[1:], ballot, bit=place[0])


def filler(w=0):
    """All stations bad, and a ballot other than 255 in every place of so many bits: what a later run writes there shows."""
    call = LINE._replace(marks=15, w=w)
    return given(0, chained(call, [at_place(p, 7 * q % 255) for q, p in enumerate(place_numbers(call))]))


# ---- document 01's cases, with request 4's count, which is 0 in all of them

BAD = [255] * OUTCOME


def worked():
    a = Call(4, 1, 1, 1, 1, 8)
    yield given(0, bytes([4, 1, 1, 1, 1, 0, 0, 0, 8, 0, 0, 0]), outcomes=[1, 2, 0, 0] * 3 + BAD)
    told = [Record(1, 4, 1, 1), Record(1, 4, 2, 0), Record(1, 4, 3, 0)]
    yield given(0, chained(Call(4, 0, 1, 4, 0, 8), told), outcomes=[0, 1, 1, 0] * 3 + BAD)
    told = [Record(r, 1, j, j - 2) for r in (1, 2, 3, 5, 6) for j in (2, 3)]
    yield given(0, chained(Call(3, 0, 1, 1, 0, 1), told), outcomes=BAD + [0, 1, 1, 0, 1, 1, 1, 0])
    yield given(0, header(Call(1, 0, 0, 1, 0, 0)), outcomes=[0, 2, 0, 0])
    yield given(0, header(Call(1, 0, 0, 1, 0, 1)), outcomes=BAD)
    yield given(0, header(Call(32, 10, 10, 1, 0, 0)))
    yield given(0, header(Call(32, 0, 15, 1, 0, 0)))
    yield given(0, header(Call(4, 1, 1, 1, 0, 0)))
    yield given(3, header(Call(32, 11, 11, 1, 0, 0)))
    yield given(3, header(Call(32, 0, 16, 1, 0, 0)))
    yield given(3, header(Call(3, 1, 1, 1, 0, 0)))
    yield given(9, header(a, first=1))
    yield given(10, chained(a, [Record(1, 4, 1, next=1)]))
    yield given(1, header(a) + b"\0")
    yield given(2, header(a._replace(n=0)))
    yield given(2, header(a._replace(n=33)))


# ---- garbled ballots: four stations, R 9, kings 1 and 2 in rounds 4 and 7, one bad

def told_by(call, *ballots):
    """A sheet of these: the rounds, who is told, and the ballot, all from the bad station."""
    bad = call.marks.bit_length()
    return chained(call, [Record(r, bad, j, b) for rounds, to, b in ballots for r in rounds for j in to])


def garbled():
    all_four, a = range(1, 5), Call(4, 1, 1, 1, 1, 8)
    # in exchange rounds from anyone; blank in a first one only; a round once
    yield given(0, told_by(a, ([2], [1], 77), ([3], all_four, 3)), outcomes=[1, 2, 0, 2, 1, 2, 0, 1, 1, 2, 0, 1] + BAD)
    yield given(0, told_by(a, ([2, 8], [2], 2), ([3, 9], [3], 2)), outcomes=[1, 2, 0, 0, 1, 2, 0, 2, 1, 2, 0, 0] + BAD)
    # silence is none, nor what a bad station tells itself
    yield given(0, told_by(a, ([2, 3], [1, 2, 3], 255), ([2, 3], [4], 254)), outcomes=[1, 2, 0, 0] * 3 + BAD)
    # in rounds 1, 4 and 7 from neither the sender nor the king
    yield given(0, told_by(a, ([1, 4, 7], all_four, 77)), outcomes=[1, 2, 0, 0] * 3 + BAD)
    # from the sender, read as 0; from the king, who is not obeyed at grade 2
    yield given(0, told_by(a._replace(sender=4), ([1], [1], 77), ([1], [2], 2), ([1], [3], 255)), outcomes=[0, 2, 0, 1] * 2 + [0, 2, 0, 0] + BAD)
    first = Call(4, 1, 1, 2, 1, 1)
    yield given(0, told_by(first, ([4], [2], 77), ([4], [3], 2), ([4], [4], 255)), outcomes=BAD + [1, 2, 0, 1] * 2 + [1, 2, 0, 0])
    # in every round: all but round 7, which is another's
    yield given(0, told_by(first._replace(sender=1), (range(1, 10), all_four, 77)), outcomes=BAD + [0, 2, 0, 8] * 3)
    # two at once: too few are left for a grade
    both = [Record(2, i, j, 77) for i in (3, 4) for j in all_four]
    yield given(0, chained(LINE, both), outcomes=[0, 0, 1, 1] * 2 + BAD * 2)


# ---- numbers of several bits

def in_bits(call, *told):
    """A sheet of these: the bit, the rounds, who tells, who is told, and the ballot."""
    return chained(call, [Record(r, i, j, b, bit=bit) for bit, rounds, froms, to, b in told for r in rounds for i in froms for j in to])


def of_one_bit():
    """Cases A to D with w 0, and with w 1, for which it stands."""
    both = [Record(r, 1, j, j - 2) for r in (1, 2, 3, 5, 6) for j in (2, 3)]
    for w in 0, 1:
        yield given(0, header(Call(4, 1, 1, 1, 1, 8, w)), outcomes=[1, 2, 0, 0] * 3 + BAD)
        yield given(0, chained(Call(4, 0, 1, 4, 0, 8, w), [Record(1, 4, j, j == 1) for j in (1, 2, 3)]), outcomes=[0, 1, 1, 0] * 3 + BAD)
        yield given(0, chained(Call(3, 0, 1, 1, 0, 1, w), both), outcomes=BAD + [0, 1, 1, 0, 1, 1, 1, 0])
        yield given(0, header(Call(1, 0, 0, 1, 0, 0, w)), outcomes=[0, 2, 0, 0])


def numbers():
    a, quiet = Call(4, 1, 1, 1, 1, 8), (1, 2, 3)
    yield from of_one_bit()
    # numbers beside a bad station, 255 too; one station alone, and marked
    for w, number in (2, 0), (2, 2), (3, 5), (8, 170), (8, 255):
        yield given(0, header(a._replace(value=number, w=w)), outcomes=[number, 2, 0, 0] * 3 + BAD)
    yield given(0, header(Call(1, 0, 0, 1, 200, 0, 8)), outcomes=[200, 2, 0, 0])
    yield given(0, header(Call(1, 0, 0, 1, 255, 1, 8)), outcomes=BAD)
    # case B in bit 0, a one to all in bit 1
    told = (0, [1], [4], [1], 1), (0, [1], [4], [2, 3], 0), (1, [1], [4], quiet, 1)
    yield given(0, in_bits(Call(4, 0, 1, 4, 0, 8, 2), *told), outcomes=[2, 1, 1, 0] * 3 + BAD)
    # case C in bit 2 of three: the numbers differ, and all flag
    told = [(2, (1, 2, 3, 5, 6), [1], [j], j - 2) for j in (2, 3)]
    yield given(0, in_bits(Call(3, 0, 1, 1, 0, 1, 3), *told), outcomes=BAD + [0, 1, 1, 0, 4, 1, 1, 0])
    # station 4 keeps the rules in one bit and is silent in the other, the first or the last, which alone has grade 1 and a flag
    for number, kept in (1, 1), (2, 0):
        told = (kept, (2, 3, 5, 6), [4], quiet, 0)
        yield given(0, in_bits(Call(4, 0, 1, 1, number, 8, 2), told), outcomes=[number, 1, 1, 0] * 3 + BAD)
    # two bad ones leave bit 0 with grade 0, and keep the rules in bit 1
    told = (0, [2], [3, 4], range(1, 5), 77), (1, (2, 3, 5, 6, 8, 9), [3, 4], [1, 2], 0)
    yield given(0, in_bits(LINE._replace(w=2), *told), outcomes=[0, 0, 1, 1] * 2 + BAD * 2)
    # the largest of the bits' counts, not their sum: 1, 0, 3 at station 1, and 2, 1, 0 at station 2
    told = (0, [2], [4], [1], 77), (2, (2, 3, 5), [4], [1], 77), (0, (2, 3), [4], [2], 77), (1, [5], [4], [2], 77)
    yield given(0, in_bits(a._replace(value=5, w=3), *told), outcomes=[5, 2, 0, 3, 5, 2, 0, 2, 5, 2, 0, 0] + BAD)


# ---- balances: as many zeros as ones in the second round of an exchange

def in_bit_0(call, *told):
    """A sheet of these: the rounds, who tells, who is told, and the ballot."""
    return in_bits(call, *((0, *one) for one in told))


def one_good(n, value, *ballots):
    """Station n alone is good, and sends; t is 0 and T as large as it can be."""
    return in_bit_0(Call(n, 0, (n - 1) // 2, n, value, 2 ** (n - 1) - 1), *((rounds, froms, [n], b) for rounds, froms, b in ballots))


def every_balance():
    """In the last round, of each count that there can be: beside the station's own blank, with a one more, and in a row without a blank."""
    for count in range(1, 16):
        zeros, ones = ([6], range(1, count + 1), 0), range(count + 1, 2 * count + 2)
        yield given(0, one_good(2 * count + 1, 1, zeros, ([6], ones[:-1], 1)), outcomes=BAD * (2 * count) + [0, 0, 1, 0])
        yield given(0, one_good(2 * count + 2, 0, zeros, ([6], ones, 1)), outcomes=BAD * (2 * count + 1) + [1, 0, 1, 0])
    for count in range(1, 17):
        others = range(1, 2 * count)
        ballots = ((2, 3, 5), others, 1), ([6], others[:count], 0), ([6], others[count:], 1)
        yield given(0, one_good(2 * count, 1, *ballots), outcomes=BAD * len(others) + [0, 0, 1, 0])


def in_case_c():
    """Case C, but that in round 6 station 1 sends neither bit to stations 2, 3 or both: each has its own and the other's."""
    c, as_in_c = Call(3, 0, 1, 1, 0, 1), [((1, 2, 3, 5), [1], [j], j - 2) for j in (2, 3)]
    for neither, count in (255, 0), (2, 0), (77, 1):
        balance = [0, 0, 1, count]
        yield given(0, in_bit_0(c, *as_in_c, ([6], [1], [2], neither), ([6], [1], [3], 1)), outcomes=BAD + balance + [1, 1, 1, 0])
        yield given(0, in_bit_0(c, *as_in_c, ([6], [1], [2], 0), ([6], [1], [3], neither)), outcomes=BAD + [0, 1, 1, 0] + balance)
        yield given(0, in_bit_0(c, *as_in_c, ([6], [1], [2, 3], neither)), outcomes=BAD + balance * 2)


def before_the_king():
    """In round 3, a zero and a one at each good station."""
    # king 1 is good, and its y is 0
    divided = ([1], [4], [1, 2], 1), ([1], [4], [3], 0), ([2], [4], [1], 1), ([3], [4], [1, 2, 3], 0)
    yield given(0, in_bit_0(Call(4, 0, 1, 4, 1, 8), *divided), outcomes=[0, 1, 1, 0] * 3 + BAD)
    # king 1 is bad: it is silent, garbled, or tells a bit
    divided = ([1, 2], [1], [2], 0), ([1], [1], [3], 1), ([3], [1], [2, 3], 1)
    for king, value, count in (255, 0, 0), (77, 0, 1), (0, 0, 0), (1, 1, 0):
        yield given(0, in_bit_0(Call(3, 0, 1, 1, 1, 1), *divided, ([4], [1], [2, 3], king)), outcomes=BAD + [value, 1, 1, count] * 2)


def balances():
    yield from every_balance()
    yield from in_case_c()
    yield from before_the_king()
    # the largest T: 15 ones of good stations and 15 zeros of bad ones; at station 32 a zero fewer
    bad, good = range(1, 16), range(16, 33)
    divided = ([1, 4], [1], good[:-1], 1), ([1, 4], [1], [32], 0), ([5], [1], good[:15], 1), ([6], bad[:-1], good, 0), ([6], [15], good[:-1], 0)
    yield given(0, in_bit_0(Call(32, 0, 15, 1, 1, 2 ** 15 - 1), *divided), outcomes=BAD * 15 + [0, 0, 1, 0] * 16 + [1, 0, 1, 0])
    # in one bit of two
    for bit, number in (0, 2), (1, 1):
        ones = [(b, (2, 3, 5, 6)[:3 if b == bit else 4], [2], [1], 1) for b in (0, 1)]
        yield given(0, in_bits(Call(2, 0, 0, 1, 3, 2, 2), *ones, (bit, [6], [2], [1], 0)), outcomes=[number, 0, 1, 0] + BAD)


# ---- causes 1 to 8, one at a time

def sheet_form():
    whole = chained(LINE, [GOOD, Record(2, 4, 2)])
    unchained = header(LINE) + whole[12:]
    for length in 12, 20, 28:
        yield given(0, unchained[:length])
    for length in 0, 1, 4, 5, 6, 8, 11, 13, 16, 19, 21, 27:
        yield given(1, unchained[:length], 144)
    yield given(1, whole + b"\0")


def widths():
    """Cause 15, whatever the table's length; then the widths that there are."""
    for w in 9, 10, 16, 128, 254, 255:
        yield given(15, chained(LINE._replace(w=w), [GOOD]))
    for lent in 0, 144, 8 * 144, 9 * 144:
        yield given(15, header(LINE._replace(w=9)), lent)
    for w in range(MOST_BITS + 1):
        yield given(0, chained(LINE._replace(w=w), [GOOD]))


def line_numbers():
    """Causes 2 and 3."""
    for n, t, T in (2, 0, 0), (3, 0, 1), (4, 0, 1), (7, 2, 2), (8, 1, 3), (31, 10, 10):
        yield given(0, header(Call(n, t, T, 1, 1, 0)))
    for n in 33, 34, 64, 128, 255:
        yield given(2, header(LINE._replace(n=n)))
    yield given(2, header(Call(0, 0, 0, 0, 0, 0)))
    # t above T; then t + 2T equal to n, and above it, also by sums that a byte does not hold
    for n, t, T in (9, 2, 1), (5, 2, 1), (4, 1, 0), (32, 1, 0), (32, 255, 0):
        yield given(3, header(Call(n, t, T, 1, 1, 0)))
    for n, t, T in (1, 0, 1), (2, 0, 1), (4, 0, 2), (5, 1, 2), (6, 2, 2), (30, 10, 10), (32, 10, 11), (32, 2, 15):
        yield given(3, header(Call(n, t, T, 1, 1, 0)))
    for n, t, T in (4, 0, 128), (4, 1, 128), (4, 85, 86), (32, 0, 255), (32, 2, 127), (4, 255, 255):
        yield given(3, header(Call(n, t, T, 1, 1, 0)))


def sender_and_value():
    """Causes 4 and 5."""
    for sender in 1, 2, 3, 4:
        for value in 0, 1:
            yield given(0, header(LINE._replace(sender=sender, value=value)))
    for sender in 0, 5, 6, 33, 255:
        yield given(4, header(LINE._replace(sender=sender)))
    yield given(4, header(Call(32, 0, 0, 33, 0, 0)))
    # an unmarked sender, and a marked one
    for sender in 1, 3:
        for value in 2, 3, 128, 255:
            yield given(5, header(LINE._replace(sender=sender, value=value)))
        # the largest number of each width, and one more
        for w in range(1, MOST_BITS):
            yield given(0, header(LINE._replace(sender=sender, value=2 ** w - 1, w=w)))
            yield given(5, header(LINE._replace(sender=sender, value=2 ** w, w=w)))
            yield given(5, header(LINE._replace(sender=sender, value=255, w=w)))


def marks():
    """Cause 6."""
    yield given(0, header(LINE._replace(marks=15)))
    yield given(0, header(Call(31, 0, 0, 31, 1, 2 ** 31 - 1)))
    yield given(0, header(Call(32, 0, 0, 32, 1, 2 ** 32 - 1)))
    yield given(0, header(Call(32, 0, 15, 1, 0, 2 ** 31)))
    for marked in 16, 32, 256, 2 ** 16, 2 ** 24, 2 ** 31, 16 + 12, 2 ** 32 - 1, 2 ** 32 - 16:
        yield given(6, header(LINE._replace(marks=marked)))
    yield given(6, header(Call(31, 0, 0, 1, 0, 2 ** 31)))
    yield given(6, header(Call(1, 0, 0, 1, 0, 2)))


def table_lengths():
    """Cause 8."""
    yield given(0, header(LINE), 144)
    for lent in 0, 1, 128, 143, 145, 160, 36863, 36864, 36865, 40000, 65535:
        yield given(8, chained(LINE, [GOOD]), lent)
    for lent in 0, 36863, 36865, 65535:
        yield given(8, header(Call(32, 10, 10, 1, 0, 0)), lent)
    for lent in 5, 7:
        yield given(8, header(Call(1, 0, 0, 1, 0, 0)), lent)
    # one bit's table where there are more, and more than there are
    for w, lents in (0, (288,)), (1, (0, 288)), (2, (144, 287, 289, 432)), (3, (144, 288, 576)), (8, (144, 1151, 1153, 1296)):
        for lent in lents:
            yield given(8, chained(LINE._replace(w=w), [GOOD]), lent)
    for w in 2, 8:
        yield given(8, header(Call(32, 10, 10, 1, 0, 0, w)), LARGEST_TABLE)


# ---- causes 9 and 10

def chains():
    three = [GOOD, Record(2, 3, 2), Record(9, 4, 4, 0)]
    for order in (1, 2, 3), (3, 2, 1), (2, 3, 1):
        yield given(0, chained(LINE, three, order))
    # records outside the chain: garbage, or second ballots for a place that point to each other, out, or into the chain
    for rest in b"\xff" * 8, bytes(8), *(packed(GOOD._replace(ballot=0, next=index)) for index in (2, 9, 5)):
        yield given(0, chained(LINE, three, (5, 1, 3), 6, rest))
    yield given(0, chained(LINE, three, first=0))
    yield given(0, chained(LINE, three, first=2))
    yield given(0, header(LINE) + b"\xff" * 40)
    # indices above 255
    far = [Record(2, i, j, i + j) for i in (3, 4) for j in (1, 2, 3)]
    yield given(0, chained(LINE, far, (256, 1, 300, 257, 255, 44), 300))
    for first in 4, 5, 255, 256, 257, 512, 4096, 4097, 32768, 65535:
        yield given(9, chained(LINE, three, first=first))
    for out in 4, 5, 256, 257, 4097, 65535:
        for q in range(3):
            records = [*three[:q], three[q]._replace(next=out), *three[q + 1:]]
            yield given(9, chained(LINE, records))
    for q in range(3):
        for back in range(1, q + 2):
            records = [*three[:q], three[q]._replace(next=back), *three[q + 1:]]
            yield given(10, chained(LINE, records))
    # a loop through all of them, one into the middle that leaves a record out, and one that is entered at its last record
    yield given(10, chained(LINE, [*three[:2], three[2]._replace(next=3)], (3, 1, 2)))
    yield given(10, chained(LINE, [GOOD, Record(2, 3, 2), Record(3, 3, 3, next=5), Record(4, 3, 4)], (2, 5, 3, 1), 6))
    yield given(10, chained(LINE, [*three[:2], three[2]._replace(next=1)], first=3))


# ---- causes 11 to 13, one at a time

def alone_and_last(cause, record, call=LINE):
    """The record in a chain of its own, and after two that are in order."""
    yield given(cause, chained(call, [record]))
    yield given(cause, chained(call, [Record(8, 3, 4), Record(8, 4, 3), record], (2, 3, 1)))


def records():
    for good in (1, 3, 1), (9, 3, 1), (1, 4, 1), (1, 3, 4), (1, 3, 3), (1, 4, 3), (9, 4, 4):
        yield from alone_and_last(0, Record(*good))
    for ballot in 0, 1, 2, 3, 127, 128, 254, 255:
        yield given(0, chained(LINE, [GOOD._replace(ballot=ballot)]))
    for wrong in 0, 10, 11, 255:
        yield from alone_and_last(11, GOOD._replace(round=wrong))
    for wrong in 0, 5, 6, 32, 33, 35, 255:
        yield from alone_and_last(11, GOOD._replace(sender=wrong))
    for wrong in 0, 5, 6, 255:
        yield from alone_and_last(11, GOOD._replace(to=wrong))
    for bit in 1, 2, 8, 128, 255:
        yield from alone_and_last(11, GOOD._replace(bit=bit))
    for last in 1, 2, 128, 255:
        yield from alone_and_last(11, GOOD._replace(last=last))
    for unmarked in 1, 2:
        for to in 1, 3:
            yield from alone_and_last(12, Record(1, unmarked, to))
    yield given(12, chained(LINE._replace(marks=0), [GOOD]))
    wide = Call(32, 0, 0, 1, 0, 2 ** 31)
    yield given(0, chained(wide, [Record(6, 32, 32), Record(1, 32, 1)]))
    yield given(11, chained(wide, [Record(6, 33, 32)]))
    yield given(11, chained(wide, [Record(6, 32, 33)]))
    yield given(11, chained(wide, [Record(7, 32, 32)]))
    yield given(12, chained(wide, [Record(6, 31, 32)]))
    yield given(12, chained(wide, [Record(6, 1, 32)]))


def bits_of_records():
    """The bits that a sheet has, and those that it hasn't; then its last byte."""
    for w in 0, 1, 2, 3, 7, 8:
        call = LINE._replace(w=w)
        yield from alone_and_last(0, GOOD._replace(bit=bits(w) - 1), call)
        for bit in bits(w), 128, 255:
            yield from alone_and_last(11, GOOD._replace(bit=bit), call)
        yield from alone_and_last(11, GOOD._replace(bit=bits(w) - 1, last=1), call)
        yield given(0, chained(call, [GOOD._replace(bit=bit) for bit in range(bits(w))]))
        # another bit's record has the same place, and one of the last bit has it again
        again = [GOOD._replace(bit=bit) for bit in (*range(bits(w)), bits(w) - 1)]
        yield given(13, chained(call, again))
        yield given(13, chained(call, again, range(len(again), 0, -1)))


def places():
    """Cause 13."""
    same = GOOD._replace(ballot=0)
    for other in Record(1, 3, 2), Record(1, 4, 1), Record(2, 3, 1), Record(3, 1, 1), Record(3, 3, 1):
        yield given(0, chained(LINE._replace(marks=15), [GOOD, other]))
    for first, second in (1, 0), (0, 0), (255, 1), (1, 255), (255, 255), (7, 200):
        pair = [GOOD._replace(ballot=first), GOOD._replace(ballot=second)]
        yield given(13, chained(LINE, pair))
        yield given(13, chained(LINE, [pair[0], Record(2, 3, 1), Record(9, 4, 4), pair[1]], (2, 4, 1, 3)))
    yield given(13, chained(LINE, [Record(9, 4, 4), Record(9, 4, 4), GOOD]))
    yield given(13, chained(LINE, [GOOD, Record(9, 4, 4), same, Record(9, 4, 4)], (4, 3, 2, 1)))
    yield given(13, chained(Call(1, 0, 0, 1, 0, 1), [Record(r, 1, 1) for r in (1, 2, 3, 4, 5, 6, 1)]))
    yield given(0, chained(Call(1, 0, 0, 1, 0, 1), [Record(r, 1, 1, r % 2) for r in (6, 1, 2, 3, 5, 4)]))


# ---- causes in conflict

# in the order in which they are looked for
EARLY, LATE = (1, 15, 2, 3, 4, 5, 6, 8), (9, 10, 11, 12, 13)
WRONG = {11: Record(0, 3, 3), 12: Record(4, 2, 2), 13: GOOD}


def flawed(causes):
    """A sheet for which the causes hold, with its table's length. Where n is 0 causes 3 and 4 hold too."""
    call, records = LINE, [GOOD]
    if 15 in causes:
        call = call._replace(w=9)
    if 2 in causes:
        call = call._replace(n=0 if 6 in causes else 33)
    if 3 in causes:
        call = call._replace(T=0)
    if 4 in causes:
        call = call._replace(sender=0)
    if 5 in causes:
        call = call._replace(value=255)
    if 6 in causes:
        call = call._replace(marks=2 ** 31 + 12)
    records += [WRONG[c] for c in (11, 12, 13) if c in causes]
    if 9 in causes or 10 in causes:
        records.append(Record(5, 3, 3, next=9 if 9 in causes else 1))
    sheet = chained(call, records)
    return sheet + bytes(1 in causes), own_length(sheet) + (8 in causes)


def conflicts():
    """Every two causes that can hold at once, and all from each on; then causes 11 to 13 by the chain's order."""
    order = EARLY + LATE
    for q, a in enumerate(EARLY + (9, 10)):
        for b in order[q + 1:]:
            if (a, b) != (9, 10):
                yield given(a, *flawed({a, b}))
    for q in range(len(EARLY)):
        for late in (9, 11, 12, 13), (10, 11, 12, 13):
            yield given(EARLY[q], *flawed({*EARLY[q:], *late}))
    for a in 11, 12, 13:
        for b in 11, 12, 13:
            for order in ((1, 2, 3), (3, 2, 1), (1, 3, 2)) if a != b else ():
                yield given(a, chained(LINE, [GOOD, WRONG[a], WRONG[b]], order))
    # two causes in one record
    yield given(11, chained(LINE, [Record(0, 1, 1)]))
    yield given(11, chained(LINE, [Record(1, 1, 1, bit=1)]))
    yield given(11, chained(LINE, [GOOD, GOOD._replace(last=1)]))
    yield given(11, chained(LINE, [GOOD, GOOD._replace(bit=1)]))
    # a record reached again is never a second ballot for its place; a good sender's second ballot has the cause of the first
    yield given(10, chained(LINE, [GOOD, GOOD._replace(next=2)]))
    yield given(12, chained(LINE, [Record(1, 1, 1), Record(1, 1, 1)]))


# ---- the longest sheets

def longest(lot, call, all_causes):
    """4,096 records, chained in no order: as they are; then one in a place that is taken; then, where all is wanted, the last of them changed otherwise, and
    longer sheets."""
    chain = [at_place(p, lot.ballot()) for p in lot.shuffled(marked_places(call))[:MOST_RECORDS]]
    order = lot.shuffled(range(1, MOST_RECORDS + 1))
    sheet = chained(call, chain, order)
    yield given(0, sheet)
    again = chain[0]._replace(ballot=3)
    yield given(13, chained(call, [*chain[:-1], again], order))
    if not all_causes:
        return
    for cause, index in (10, order[0]), (9, MOST_RECORDS + 1):
        yield given(cause, chained(call, [*chain[:-1], chain[-1]._replace(next=index)], order))
    for length in 32781, 32788, 40000:
        yield given(1, sheet + bytes(length - len(sheet)))


# ---- sheets drawn by lot

class Lot:
    """Numbers that look drawn by lot, the same in every run."""

    def __init__(self, seed):
        self.state = seed

    def below(self, n):
        self.state = (self.state * 6364136223846793005 + 1442695040888963407) % 2 ** 64
        return (self.state >> 33) % n

    def among(self, items):
        return items[self.below(len(items))]

    def some(self, items, count):
        """So many of the items, or all if there are fewer."""
        rest = list(items)
        return [rest.pop(self.below(len(rest))) for _ in range(min(count, len(rest)))]

    def shuffled(self, items):
        return self.some(items, len(items))

    def bytes(self, size):
        return bytes(self.below(256) for _ in range(size))

    def ballot(self):
        return self.among((0, 0, 0, 1, 1, 1, 2, 255, self.below(256)))

    def call(self):
        n = 9 + self.below(24) if self.below(20) == 0 else 1 + self.below(8)
        T = self.below((n - 1) // 2 + 1)
        t = self.below(min(T, n - 1 - 2 * T) + 1)
        rate = self.among((0, 1, 2, 2, 3, 4))
        w = self.among([w for w in (0, 0, 0, 0, 1, 1, 2, 3, 4, 7, 8) if tables_size(n, t, w) <= LARGEST_TABLE])
        return Call(n, t, T, 1 + self.below(n), self.below(2 ** bits(w)), sum(1 << i for i in range(n) if self.below(4) < rate), w)


class Draft:
    """A drawn sheet that is in order, and ways to damage it."""

    def __init__(self, lot):
        self.lot, self.call = lot, lot.call()
        self.chain = [at_place(p, lot.ballot()) for p in lot.some(marked_places(self.call), lot.below(32))]
        self.k = len(self.chain) + lot.below(4)
        self.order = lot.shuffled(range(1, self.k + 1))[:len(self.chain)]
        self.sheet = bytearray(chained(self.call, self.chain, self.order, self.k, lot.bytes(8)))
        self.lent = own_length(self.sheet)

    def put(self, at, *values):
        """Bytes from a place on, as far as the sheet still goes."""
        for place, value in enumerate(values, at):
            if place < len(self.sheet):
                self.sheet[place] = value

    def record(self, least=0):
        """Where one of the chain's records starts, from the least-th on, or no place."""
        later = self.order[least:]
        return 12 + 8 * (self.lot.among(later) - 1) if later else len(self.sheet)

    def any_byte(self):
        self.put(self.lot.below(len(self.sheet) + 1), self.lot.below(256))

    def header_byte(self):
        n, at = self.call.n, self.lot.among((0, 0, 1, 2, 3, 3, 4, 4, 5, 6, 7, 8, 9, 11))
        self.put(at, self.lot.among((0, 2, n + 1, n + 1, 33, self.lot.below(256))))

    def cut(self):
        del self.sheet[self.lot.below(len(self.sheet) + 1):]

    def cut_records(self):
        del self.sheet[max(12, len(self.sheet) - 8 * (1 + self.lot.below(3))):]

    def extend(self):
        self.sheet += self.lot.bytes(1 + self.lot.below(16))

    def length(self):
        self.lent = self.lot.among((max(self.lent - 1, 0), self.lent + 1, self.lot.below(300)))

    def next_index(self):
        self.put(self.record() + 4, *two(self.lot.among((*self.order, self.k + 1, self.lot.below(65536)))))

    def record_byte(self):
        self.put(self.record() + self.lot.below(3), self.lot.among((0, 1, self.call.n, self.call.n + 1, self.lot.below(256))))

    def bit(self):
        self.put(self.record() + 6, self.lot.among((0, 1, bits(self.call.w) - 1, bits(self.call.w), self.lot.below(256))))

    def last(self):
        self.put(self.record() + 7, self.lot.below(256))

    def unmark(self):
        if self.chain:
            marks = self.call.marks & ~(1 << (self.lot.among(self.chain).sender - 1))
            self.put(8, *marks.to_bytes(4, "little"))

    def same_place(self):
        """The bit too, two times of three."""
        at, to = self.record(), self.record(1)
        self.put(to, *self.sheet[at:at + 3])
        if self.lot.below(3):
            self.put(to + 6, *self.sheet[at + 6:at + 7])


DAMAGES = (Draft.any_byte, Draft.cut, Draft.cut_records, Draft.extend, Draft.length, *[Draft.header_byte] * 6,
           *[Draft.next_index] * 2, *[Draft.record_byte] * 2, Draft.bit, Draft.last, *[Draft.unmark] * 2, *[Draft.same_place] * 2)


def drawn(lot, count):
    for q in range(count):
        if q % 10 == 0:
            yield filler()
        draft = Draft(lot)
        for _ in range(lot.among((0, 1, 1, 1, 2))):
            lot.among(DAMAGES)(draft)
        yield Stored(bytes(draft.sheet), draft.lent)


LARGEST_LINE = Call(32, 10, 10, 7, 1, sum(1 << (i - 1) for i in (1, 2, 4, 5, 8, 11, 17, 23, 31, 32)))
EIGHT_BITS = Call(12, 3, 4, 7, 171, 0b101101, 8)


def fixed(lot):
    for group in (worked(), garbled(), numbers(), balances(), sheet_form(), widths(), line_numbers(), sender_and_value(), marks(), table_lengths(),
                  chains(), records(), bits_of_records(), places(), conflicts(), longest(lot, LARGEST_LINE, True), longest(lot, EIGHT_BITS, False)):
        yield from group


def stored():
    """All of them, in order. Before a refused one that follows an accepted one, the table is filled."""
    lot, accepted = Lot(1), True
    for one in fixed(lot):
        if one.cause and accepted:
            yield filler(min(one.sheet[5], 3) if len(one.sheet) > 5 else 0)
        yield one
        accepted = one.cause == 0
    yield from drawn(lot, 300)
