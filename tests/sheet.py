"""Document 01's reader of run sheets and document 02's writer (request 1), of numbers of w bits (request 5), and what its generator refuses (request 7), for the
tests, from the documents alone.

A sheet is bytes. Stations and rounds keep the documents' numbers, from 1, and bits theirs, from 0.
"""
HEADER, RECORD, MOST_RECORDS, LARGEST_TABLE, MOST_BITS = 12, 8, 4096, 36864, 8
SILENCE = 255


def number(sheet, at, size):
    """The number in so many bytes, low byte first."""
    return int.from_bytes(sheet[at:at + size], "little")


def header(sheet):
    """n, t, T, sender, value, w as it stands there, and marks."""
    return (*sheet[:6], number(sheet, 8, 4))


def bits(w):
    """The bits of w, "0 standing for 1"."""
    return 1 if w == 0 else w


def table_size(n, t):
    """Of one bit."""
    return (3 * t + 6) * n * n


def tables_size(n, t, w):
    return bits(w) * table_size(n, t)


def place(n, r, i, j):
    """In a table of one bit."""
    return ((r - 1) * n + (i - 1)) * n + (j - 1)


def place_in_tables(n, t, b, r, i, j):
    """ "The buffers hold the bits' tables one after another, bit 0 first" """
    return b * table_size(n, t) + place(n, r, i, j)


def opening(sheet):
    """0, or the first of the causes 1, 15 and 2 to 6 that holds: "w above 8 by 15, right after the sheet's length"."""
    k, rest = divmod(len(sheet) - HEADER, RECORD)
    if rest or not 0 <= k <= MOST_RECORDS:
        return 1
    n, t, T, sender, value, w, marks = header(sheet)
    if w > MOST_BITS:
        return 15
    causes = {
        2: not 1 <= n <= 32,
        3: t > T or t + 2 * T >= n,
        4: not 1 <= sender <= n,
        5: value >= 2 ** bits(w),
        6: any(marks >> (i - 1) & 1 for i in range(n + 1, 33)),
    }
    return min((c for c, holds in causes.items() if holds), default=0)


def record(sheet, index):
    """Round, from, to, ballot, next index, bit, and the last byte."""
    at = HEADER + RECORD * (index - 1)
    return (*sheet[at:at + 4], number(sheet, at + 4, 2), *sheet[at + 6:at + 8])


def walk(sheet):
    """The chained records in the chain's order, and 0, 9 or 10."""
    k = (len(sheet) - HEADER) // RECORD
    chain, visited, index = [], set(), number(sheet, 6, 2)
    while index != 0:
        if index > k:
            return chain, 9
        if index in visited:
            return chain, 10
        visited.add(index)
        chain.append(record(sheet, index))
        index = chain[-1][4]
    return chain, 0


def judge_records(sheet, chain):
    """0, or the first of the causes 11 to 13 in the chain's order."""
    n, t, _, _, _, w, marks = header(sheet)
    seen = set()
    for r, i, j, _, _, b, last in chain:
        if not 1 <= r <= 3 * t + 6 or not 1 <= i <= n or not 1 <= j <= n or b >= bits(w) or last != 0:
            return 11
        if not marks >> (i - 1) & 1:
            return 12
        if (b, r, i, j) in seen:
            return 13
        seen.add((b, r, i, j))
    return 0


def judge(sheet, lent, size, bit=0):
    """0 or the number of the cause, and the chain: of a sheet of which this bit is wanted, with a lent table of that length, where `size` makes the wanted one of
    n, t and w."""
    cause, chain = opening(sheet), []
    if cause == 0 and lent != size(*sheet[:2], sheet[5]):
        cause = 8
    if cause == 0 and bit >= bits(sheet[5]):
        cause = 11
    if cause == 0:
        chain, cause = walk(sheet)
    return cause or judge_records(sheet, chain), chain


def laid(sheet, chain):
    """The tables of a sheet that is accepted."""
    n, t, _, _, _, w, _ = header(sheet)
    tables = [SILENCE] * tables_size(n, t, w)
    for r, i, j, ballot, _, b, _ in chain:
        tables[place_in_tables(n, t, b, r, i, j)] = ballot
    return tables


def read(sheet, table):
    """The number of the cause, or 0, and the lent table, of all bits, as it is afterwards."""
    cause, chain = judge(sheet, len(table), tables_size)
    return (cause, table) if cause else (0, laid(sheet, chain))


def read_bit(sheet, bit, table):
    """The same for one bit alone. The whole sheet is judged; a bit that it hasn't is 11, after the table's length and before the chain."""
    cause, chain = judge(sheet, len(table), lambda n, t, w: table_size(n, t), bit)
    return (cause, table) if cause else (0, laid(sheet, chain)[bit * len(table):(bit + 1) * len(table)])


# ---- the writer


def records(head, table):
    """Round, from, to, ballot and bit of "one record for each byte of a marked sender that is not 255": "the writer goes by bit before round"."""
    n, t, _, _, _, w, marks = header(head)
    stations = range(1, n + 1)
    for b in range(bits(w)):
        for r, i, j in ((r, i, j) for r in range(1, 3 * t + 7) for i in stations if marks >> (i - 1) & 1 for j in stations):
            ballot = table[place_in_tables(n, t, b, r, i, j)]
            if ballot != SILENCE:
                yield r, i, j, ballot, b


def judge_header(head):
    """0, or the first of the causes 1, 15 and 2 to 6 of a header handed in by itself: "A header not of 12 bytes is 1." """
    return 1 if len(head) != HEADER else opening(head)


def needed(head, table):
    """The number of the cause, or 0, before a sheet's buffer is looked at, and how many bytes the sheet needs, 0 if it is refused."""
    cause = judge_header(head)
    if cause == 0 and len(table) != tables_size(*head[:2], head[5]):
        cause = 8
    k = 0 if cause else len(list(records(head, table)))
    if k > MOST_RECORDS:
        cause = 14
    return (cause, 0) if cause else (0, HEADER + RECORD * k)


def written(head, table):
    """The sheet of a header and a table that are accepted: chained 1, 2, 3, with "1 there, or 0 without records" as the first index."""
    told = list(records(head, table))
    nexts = [*range(2, len(told) + 1), 0]
    chain = b"".join(bytes(one[:4]) + after.to_bytes(2, "little") + bytes([one[4], 0]) for one, after in zip(told, nexts))
    return head[:6] + bytes([min(len(told), 1), 0]) + head[8:] + chain


def wanted_size(sheet):
    """The length of the tables by the sheet's header, but no more than the largest."""
    size = tables_size(*sheet[:2], sheet[5]) if len(sheet) > 5 else 0
    return min(size, MOST_BITS * LARGEST_TABLE)


def rewritten(sheet):
    """The number of the cause, or 0, and the normal form: the sheet read, then written from its first 12 bytes and its table."""
    cause, table = read(sheet, [SILENCE] * wanted_size(sheet))
    return cause, b"" if cause else written(sheet[:HEADER], table)


# ---- the generator


def judge_generation(head, seed, lent):
    """0 or the number of the cause, with a lent table of that length: "Seed zero is refused by 16, after the header's causes and before 8." """
    cause = judge_header(head)
    if cause == 0 and seed == 0:
        cause = 16
    if cause == 0 and lent != tables_size(*head[:2], head[5]):
        cause = 8
    return cause
