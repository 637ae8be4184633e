#!/usr/bin/env python3
"""The examples: run sheets, each with the text that it stands for and its listing; logs with outcomes, each with the stations that broke the rules.

examples.py          writes the sheets and listings of examples/: the documents' cases A to D, a line with garbled ballots and silence, a recipe number with
                     a liar in one bit, the largest number beside a bad station, zeros and ones in balance, a large run in which ten bad stations divide
                     the good ones, the longest listing, a line for noisy runs with what the program seeds prints of it, and an untidy sheet beside the tidy
                     one that it is rewritten to. The texts are written by hand, the picture of case C by ./draw. Then the logs and outcomes, of case A's run
                     and of another maker's, with what the program audit prints of them
examples.py --check  holds each sheet to the one made here and to its text, its listing to the model's, and what the program agree prints to the listing; then
                     some inputs of odd lengths. Holds what the program seeds prints of these, where their tables are small, to the model's listings of noisy
                     runs, and those of the noisy line, one by one, to what agree prints of their runs' sheets. Holds what the program rewrite writes of all
                     of these, and of the sheets of crate stored_runs, to the model's normal form. Holds each log to the one made here, its set to the model's and to
                     the least of all markings, and what the program audit prints to the set; then that program's odd uses. The last line is
                     'N passed, M failed'
"""
import itertools
import os
import pathlib
import subprocess
import sys
import tempfile

import model
import run_sheets
import sheet as reader
from counting import built, closing

TOP = os.path.join(os.path.dirname(os.path.abspath(__file__)), "..")
EXAMPLES = os.path.join(TOP, "examples")
LONGEST_LISTING = 457
SEEDS = range(1, 101)
PROGRAM, REWRITE, AUDIT, NOISE = PROGRAMS = [os.path.join(TOP, "target", "bin", name) for name in ("agree", "rewrite", "audit", "seeds")]
# has no text: none gives records outside the chain
UNTIDY = "untidy"
# has listings of noisy runs too
NOISY = "noisy"
# of larger tables the model takes too long for a hundred runs
SMALL_TABLES = 4000


# ---- a listing and a set in Python, from the documents


def runs_of(data):
    """The number of the cause by which a sheet is refused, or 0, and the run of each of its bits."""
    cause, tables = reader.read(data, [0] * reader.wanted_size(data))
    return cause, [] if cause else runs_with(data, tables)


def runs_with(data, tables):
    """The run of each bit of a sheet's header with these tables."""
    n, t, T, sender, value, w, marks = reader.header(data)
    return model.runs_of_bits(n, t, T, sender - 1, value, w, bad_of(n, marks), tables)


def bad_of(n, marks):
    return [bool(marks >> i & 1) for i in range(n)]


def listing(data):
    cause, runs = runs_of(data)
    return f"refused {cause}\n" if cause else listing_of(runs)


def noisy_tables(data, seed):
    """What the generator makes of a sheet's header."""
    n, t, _, _, _, w, marks = reader.header(data)
    return model.generated(n, t, w, bad_of(n, marks), seed)


def listings(data):
    """ "A program reads one sheet, keeps its header and prints the listings for seeds 1 to 100. A sheet that the reader refuses prints its one refusal line and no
    more." """
    cause, _ = runs_of(data)
    return f"refused {cause}\n" if cause else "".join(listing_of(runs_with(data, noisy_tables(data, seed))) for seed in SEEDS)


def listing_of(runs):
    """ "A bad station is told by grade 255, since 255 can be a recipe." """
    run, (_, outcomes) = runs[0], model.number_broadcast(runs)
    lines = [f"agree {run.n} {run.t} {run.T} {run.sender + 1} {run.rounds}"]
    for i, outcome in enumerate(outcomes, 1):
        lines.append(" ".join([str(i)] + (["-"] * model.OUTCOME if outcome[1] == 255 else [str(b) for b in outcome])))
    return "".join(line + "\n" for line in lines)


def logged(run):
    """The log of a run and its outcomes."""
    said, outcomes = model.broadcast(model.Rules, run)
    return bytes(model.log_of(model.Rules, run, said)), bytes(itertools.chain(*outcomes))


def audited(line, log, outcomes):
    """What is printed of a log on a line of n, t, T and the sender: the set, or the lowest of its causes."""
    n, t, T, sender = line
    lengths = reader.table_size(n, t), model.OUTCOME * n
    causes = {2: not 1 <= n <= 32, 3: t > T or t + 2 * T >= n, 4: not 1 <= sender <= n, 8: (len(log), len(outcomes)) != lengths}
    if any(causes.values()):
        return f"refused {min(cause for cause, holds in causes.items() if holds)}\n"
    return "".join(["broke", *(f" {i + 1}" for i in model.broke(*as_run(line, log, outcomes))), "\n"])


def as_run(line, log, outcomes):
    """A log as a run's table, and the outcomes by station."""
    n, t, T, sender = line
    return model.Run(n, t, T, sender - 1, 0, [False] * n, log), [tuple(outcomes[at:at + model.OUTCOME]) for at in range(0, len(outcomes), model.OUTCOME)]


# ---- the sheets


def sheet_of(n, t, T, sender, value, marked, records, order=None, w=0):
    """A sheet whose chain takes the records, of bit 0 where they don't say which, in their order; `order` says at which index each one stands."""
    order = order or list(range(1, len(records) + 1))
    marks = sum(1 << (i - 1) for i in marked)
    first = order[0] if records else 0
    placed = {}
    for at, record, after in zip(order, records, order[1:] + [0]):
        placed[at] = bytes(record[:4]) + after.to_bytes(2, "little") + bytes([*(record[4:] or [0]), 0])
    body = b"".join(placed[at] for at in sorted(placed))
    return bytes([n, t, T, sender, value, w]) + first.to_bytes(2, "little") + marks.to_bytes(4, "little") + body


def shuffled(items, seed):
    """The items in an order that is the same in every run."""
    items, state = list(items), seed
    for last in range(len(items) - 1, 0, -1):
        state = (state * 1664525 + 1013904223) % 2**32
        at = (state >> 8) % (last + 1)
        items[at], items[last] = items[last], items[at]
    return items


def garbled():
    """Two bad stations of seven. What station 6 sends in any round arrives garbled at stations 1 to 3 and as a blank at station 4; station 7 is silent."""
    rounds = range(1, 13)
    return sheet_of(7, 2, 2, 1, 1, [6, 7], [(r, 6, j, 77) for r in rounds for j in (1, 2, 3)] + [(r, 6, 4, 2) for r in rounds])


def large():
    """The largest line with ten bad stations, which tell stations 11 to 21 a zero and 22 to 32 a one: the sender, and in eight phases all ten in the
    exchange and the king. Then they are garbled."""
    low, high, bad, phases = range(11, 22), range(22, 33), range(1, 11), range(1, 9)
    exchanges = [r for p in phases for r in (3 * p - 1, 3 * p)]
    divided = [([1], [7])] + [(exchanges, bad)] + [([3 * p + 1], [p]) for p in phases]
    records = [(r, i, j, bit) for rounds, froms in divided for bit, tos in ((0, low), (1, high)) for r in rounds for i in froms for j in tos]
    return sheet_of(32, 10, 10, 7, 1, bad, records + [(26, i, j, 77) for i in bad for j in range(1, 33)])


def recipe():
    """Recipe 5 of eight: t 0, T 1, station 1 sends. Station 4 is bad: in bit 0 it tells station 2 zeros and the others ones, in bits 1 and 2 it
    tells the others what a good one would. All decide 5, and station 2 flags: its grade of bit 0 is 1, of the others 2."""
    told = (0, 1, (1, 3)), (0, 0, (2,)), (1, 0, (1, 2, 3)), (2, 1, (1, 2, 3))
    return sheet_of(4, 0, 1, 1, 5, [4], [(r, 4, j, ballot, bit) for bit, ballot, to in told for r in (2, 3, 5, 6) for j in to], w=3)


def widest():
    """Recipe 255 of 256 beside a bad station, whose bytes are 255 too. It is garbled in bit 7 alone: in one round at station 1, in two at station 2."""
    return sheet_of(4, 1, 1, 1, 255, [4], [(2, 4, 1, 77, 7), (2, 4, 2, 77, 7), (3, 4, 2, 77, 7)], w=8)


def balance():
    """Two bad stations of five, t 0, T 2. In round 6 stations 3 and 4 have two zeros and two ones: they keep 0, with grade 0. Station 5 has two ones and a zero."""
    divided = [(r, 1, j, ballot) for ballot, to in ((1, (3, 4)), (0, (5,))) for r in (1, 4) for j in to]
    return sheet_of(5, 0, 2, 1, 1, [1, 2], divided + [(5, 1, j, 1) for j in (3, 4)] + [(6, i, j, 0) for i, to in ((1, (3, 4, 5)), (2, (3, 4))) for j in to])


def noisy():
    """Four stations, t 0, T 1. Station 1 is bad, sends the value and is the king: it says nothing here, and what is generated in noisy runs."""
    return sheet_of(4, 0, 1, 1, 1, [1], [], w=1)


def longest():
    """The sheet of the longest listing: n, t, T, the sender, R and the counts have two digits, the numbers three. Only a bad station's ballots can be garbled, and
    its own line is the shorter, so there is one: station 1, a king, garbled in every round of bit 7. The good sender's number is 255."""
    return sheet_of(32, 10, 10, 32, 255, [1], [(r, 1, j, 77, 7) for r in range(1, 37) for j in range(1, 33)], w=8)


def longest_of(n, t, T, bad):
    """How long a listing of that line with so many bad stations can be at most: with none all counts are 0."""
    rounds = 3 * t + 6
    fields = len("- - - -") * bad + len(f"255 0 0 {rounds if bad else 0}") * (n - bad)
    return len(f"agree {n} {t} {T} {n} {rounds}\n") + fields + sum(len(f"{i} \n") for i in range(1, n + 1))


def longest_sheet():
    """4,096 records, chained in another order than that of the file."""
    bad = range(1, 11)
    records = [(r, i, j, (r + j) % 4) for r in range(1, 37) for i in bad for j in range(1, 33)][:4096]
    return sheet_of(32, 10, 10, 7, 1, bad, shuffled(records, 1), shuffled(range(1, 4097), 2))


def untidy():
    """A sheet put together by hand: a chain that goes back and forth, silence in it, and records outside it that would be refused in it."""
    return bytes([4, 0, 1, 4, 0, 0, 4, 0, 8, 0, 0, 0]) + b"".join(bytes(record) for record in (
        (2, 4, 3, 1, 0, 0, 0, 0),       # 1: the last of the chain
        (255,) * 8,                     # 2: garbage
        (1, 4, 2, 0, 6, 0, 0, 0),       # 3: the second
        (1, 4, 1, 1, 3, 0, 0, 0),       # 4: the first
        (1, 4, 1, 0, 5, 0, 0, 0),       # 5: another ballot for a place that is taken, and after it itself
        (1, 4, 3, 255, 7, 0, 0, 0),     # 6: the third, silence
        (3, 4, 1, 77, 1, 0, 0, 0),      # 7: the fourth, garbled
        (1, 2, 1, 1, 9, 0, 0, 0),       # 8: from a good station
    ))


def sheets():
    told = [(1, 4, 1, 1), (1, 4, 2, 0), (1, 4, 3, 0)]
    both = [(r, 1, j, j - 2) for j in (2, 3) for r in (1, 2, 3, 5, 6)]
    return {
        "a": sheet_of(4, 1, 1, 1, 1, [4], []),
        "b": sheet_of(4, 0, 1, 4, 0, [4], told),
        "c": sheet_of(3, 0, 1, 1, 0, [1], both),
        "d": sheet_of(1, 0, 0, 1, 0, [], []),
        "d-bad": sheet_of(1, 0, 0, 1, 0, [1], []),
        "garbled": garbled(),
        "recipe": recipe(),
        "widest": widest(),
        "balance": balance(),
        "large": large(),
        "longest": longest(),
        NOISY: noisy(),
        UNTIDY: untidy(),
        "tidy": sheet_of(4, 0, 1, 4, 0, [4], [(1, 4, 1, 1), (1, 4, 2, 0), (2, 4, 3, 1), (3, 4, 1, 77)]),
    }


def foreign():
    """A log of another maker's program with its outcomes: five stations, t and T 1, and station 2 sends a one. In round 5 station 4 tells station 3 a one, as the
    others do, and station 5 a zero; station 3 shows grade 1 and a flag, though its last row has five ones."""
    log, outcomes = (bytearray(part) for part in logged(model.Run(5, 1, 1, 1, 1, [False] * 5, [])))
    log[reader.place(5, 5, 4, 5)] = 0
    outcomes[2 * model.OUTCOME:3 * model.OUTCOME] = 1, 1, 1, 0
    return (5, 1, 1, 2), bytes(log), bytes(outcomes)


def logs():
    """Line, log and outcomes."""
    return {"a": ((4, 1, 1, 1), *logged(runs_of(sheets()["a"])[1][0])), "foreign": foreign()}


def odd_inputs():
    """Inputs that are no sheets by their length, the longest sheet, and a sheet for each later cause."""
    a = sheet_of(4, 1, 1, 1, 1, [4], [])
    one = sheet_of(4, 1, 1, 1, 1, [4], [(1, 4, 1, 1)])
    longest = longest_sheet()
    inputs = {"the longest sheet": longest, "empty": b"", "one byte": b"\4", "eleven bytes": a[:11], "thirteen bytes": a + b"\0", "nineteen bytes": one[:19]}
    inputs |= {"a byte too long": longest + b"\0", "a record too long": longest + bytes(8), "very long": longest * 4, "zeros": bytes(12)}
    inputs |= {"all ones": b"\xff" * 12, "n 33": b"\x21" + a[1:], "T 2": a[:2] + b"\2" + a[3:], "sender 5": a[:3] + b"\5" + a[4:]}
    inputs |= {"value 2": a[:4] + b"\2" + a[5:], "mark 5": a[:8] + b"\x10" + a[9:], "first 1": a[:6] + b"\1" + a[7:]}
    inputs |= {"again": one[:16] + b"\1" + one[17:], "round 10": one[:12] + b"\x0a" + one[13:], "last byte": one[:19] + b"\1"}
    inputs |= {"unmarked": one[:13] + b"\1" + one[14:], "twice": sheet_of(4, 1, 1, 1, 1, [4], [(1, 4, 1, 1), (1, 4, 1, 255)])}
    return inputs | odd_numbers(a)


def odd_numbers(a):
    """Case A's sheet with other widths, numbers and bits; the longest sheet of eight bits of the largest line."""
    def record(bit, w):
        return sheet_of(4, 1, 1, 1, 1, [4], [(1, 4, 1, 1, bit)], w=w)

    inputs = {f"w {w}": a[:5] + bytes([w]) + a[6:] for w in (1, 2, 8, 9, 255)}
    inputs |= {f"number {number} of {w} bits": a[:4] + bytes([number, w]) + a[6:] for number, w in ((3, 2), (4, 2), (7, 3), (8, 3), (127, 7), (128, 7), (255, 8))}
    inputs |= {f"bit {bit} of {w}": record(bit, w) for bit, w in ((1, 0), (1, 1), (1, 2), (2, 2), (7, 8), (8, 8), (255, 8))}
    inputs |= {"w 9 and n 33": b"\x21" + a[1:5] + b"\x09" + a[6:], "w 9 and a byte too long": a[:5] + b"\x09" + a[6:] + b"\0"}
    inputs["the same place in two bits"] = sheet_of(4, 1, 1, 1, 2, [4], [(1, 4, 1, 1, 1), (1, 4, 1, 255, 0)], w=2)
    inputs["the same place twice in bit 1"] = sheet_of(4, 1, 1, 1, 2, [4], [(1, 4, 1, 1, 1), (1, 4, 1, 0, 0), (1, 4, 1, 255, 1)], w=2)
    records = [(r, i, j, (r + j + bit) % 4, bit) for bit in range(8) for r in range(1, 37, 4) for i in (2, 32) for j in range(1, 33)][:4096]
    inputs["the longest sheet of eight bits"] = sheet_of(32, 10, 10, 7, 200, [2, 32], shuffled(records, 3), shuffled(range(1, len(records) + 1), 4), w=8)
    return inputs


# ---- writing and checking


def read(path):
    with open(path, "rb") as file:
        return file.read()


def printed(sheet, program=PROGRAM):
    done = subprocess.run([program], input=sheet, capture_output=True)
    return done.stdout if done.returncode == 0 and not done.stderr else None


def made_files():
    """The content of each file that is written here."""
    for name, sheet in sheets().items():
        yield from ((name + ".sheet", sheet), (name + ".listing", listing(sheet).encode()))
    yield NOISY + ".listings", listings(noisy()).encode()
    for name, (line, log, outcomes) in logs().items():
        yield from ((name + ".log", log), (name + ".outcomes", outcomes), (name + ".broke", audited(line, log, outcomes).encode()))


def write():
    for name, content in made_files():
        with open(os.path.join(EXAMPLES, name), "wb") as file:
            file.write(content)


def made_of(command, file):
    return subprocess.run([os.path.join(TOP, command), file], capture_output=True).stdout


def texts():
    """Each example's text gives its sheet, and the sheet's text in the normal form gives it back."""
    for name, sheet in sheets().items():
        if name == UNTIDY:
            continue
        yield f"{name}: the text gives the sheet", made_of("sheet", os.path.join(EXAMPLES, name + ".text")) == sheet
        text = made_of("text", os.path.join(EXAMPLES, name + ".sheet"))
        done = subprocess.run([os.path.join(TOP, "sheet")], input=text, capture_output=True)
        yield f"{name}: its text in the normal form gives the sheet", done.stdout == sheet
    picture = made_of("draw", os.path.join(EXAMPLES, "c.sheet"))
    yield "c: the picture is the one that is drawn", picture == read(os.path.join(EXAMPLES, "c.svg")) and picture


def checks():
    """A name and whether it holds, for each."""
    expected = dict(made_files())
    by_hand = {name + ".text" for name in sheets()} - {UNTIDY + ".text"} | {"c.svg"}
    yield "examples/ has these and no others", set(os.listdir(EXAMPLES)) == {*expected, *by_hand}
    for name, made in expected.items():
        yield f"{name}: as it is made here", read(os.path.join(EXAMPLES, name)) == made
    for name, sheet in sheets().items():
        yield f"{name}: the program prints its listing", printed(sheet) == expected[name + ".listing"]
    yield f"longest: the listing has {LONGEST_LISTING} bytes", len(read(os.path.join(EXAMPLES, "longest.listing"))) == LONGEST_LISTING
    lines = [(n, t, T) for n in range(1, 33) for T in range(n) for t in range(T + 1) if t + 2 * T < n]
    yield "longest: no listing is longer", max(longest_of(*line, bad) for line in lines for bad in range(line[0] + 1)) == LONGEST_LISTING
    for name, sheet in odd_inputs().items():
        expected = listing(sheet)
        yield f"{name}: {expected.split(chr(10))[0]}", printed(sheet) == expected.encode()


def noisy_runs():
    """What the program seeds prints of each sheet whose tables are small, refused ones too. Of the noisy line: there are 100 listings; each is that of the sheet
    which the writer makes of the generated tables; the sheet's own records have no part in it."""
    stored = read(os.path.join(EXAMPLES, NOISY + ".listings"))
    for name, sheet in {**sheets(), **odd_inputs()}.items():
        if runs_of(sheet)[0] or reader.wanted_size(sheet) <= SMALL_TABLES:
            yield f"{name}: the program prints the listings of noisy runs", printed(sheet, NOISE) == listings(sheet).encode()
    yield "noisy: the listings are stored", printed(noisy(), NOISE) == stored
    written = (reader.written(noisy()[:reader.HEADER], noisy_tables(noisy(), seed)) for seed in SEEDS)
    yield "noisy: each is the listing of a written sheet", b"".join(printed(sheet) for sheet in written) == stored
    yield "noisy: they differ", len(set(stored.split(b"agree "))) > 50
    told = sheet_of(4, 0, 1, 1, 1, [1], [(1, 1, j, 1) for j in (2, 3, 4)], w=1)
    yield "noisy: with records, the same", printed(told, NOISE) == stored and printed(told) != printed(noisy())
    yield "noisy: stations that differ all flag", all(one_value(part) or all_flag(part) for part in stored.decode().split("agree ")[1:])


def one_value(part):
    """Whether the good stations of a listing decide one value."""
    return len({row.split()[1] for row in part.splitlines()[1:]} - {"-"}) == 1


def all_flag(part):
    return {row.split()[3] for row in part.splitlines()[1:]} - {"-"} == {"1"}


def rewriting(name, sheet):
    """What the program makes of a sheet is the model's normal form, or its refusal; and of a normal form, the same again."""
    cause, normal = reader.rewritten(sheet)
    made = printed(sheet, REWRITE)
    yield f"{name}: rewritten", made == (f"refused {cause}\n".encode() if cause else normal)
    if not cause:
        yield f"{name}: its normal form rewritten", printed(normal, REWRITE) == normal


def rewritings():
    """The tidy sheet is the normal form of the untidy one and has its listing; then each input in turn."""
    made = sheets()
    yield "untidy: its normal form is the tidy sheet", printed(made[UNTIDY], REWRITE) == made["tidy"] != made[UNTIDY]
    yield "untidy: the tidy sheet has the same listing", read(os.path.join(EXAMPLES, "untidy.listing")) == read(os.path.join(EXAMPLES, "tidy.listing"))
    for name, sheet in {**made, **odd_inputs()}.items():
        yield from rewriting(name, sheet)
    for number, run in enumerate(run_sheets.stored(), 1):
        yield from rewriting(f"run {number}", run.sheet)


def asked(*words):
    """How the program audit ends that is given these words."""
    done = subprocess.run([AUDIT, *map(str, words)], capture_output=True)
    return done.returncode, done.stdout.decode(), done.stderr.decode()


def asked_of(line, log, outcomes):
    """How it ends that is given a line, and files with a log and outcomes."""
    with tempfile.TemporaryDirectory() as folder:
        files = [os.path.join(folder, name) for name in ("log", "outcomes")]
        for file, content in zip(files, (log, outcomes)):
            pathlib.Path(file).write_bytes(content)
        return asked(*line, *files)


def audits():
    """What the program audit prints of each log; of the log of each sheet's run, its marks."""
    for name, made in logs().items():
        told = audited(*made)
        yield f"{name}: the program prints who broke the rules", asked_of(*made) == (0, told, "")
        markings, broke = list(model.run_markings(*as_run(*made))), {int(word) - 1 for word in told.split()[1:]}
        yield f"{name}: the set is the least marking", broke in markings and all(broke <= one for one in markings)
    yield "foreign: stations 3 and 4", audited(*foreign()) == "broke 3 4\n"
    for name, bit, run in ((name, bit, run) for name, sheet in sheets().items() for bit, run in enumerate(runs_of(sheet)[1])):
        marks = "".join(f" {i + 1}" for i in range(run.n) if run.bad[i])
        made = (run.n, run.t, run.T, run.sender + 1), *logged(run)
        yield f"{name}: the log of its run of bit {bit} yields its marks", asked_of(*made) == (0, f"broke{marks}\n", "") == (0, audited(*made), "")


def odd_logs():
    """Lines, logs and outcomes that are refused, and one of 32 stations that all broke the rules; with a byte more than the longest too."""
    line, log, outcomes = foreign()
    yield from (((0, 1, 1, 2), log, outcomes), ((33, 1, 1, 2), log, outcomes), ((5, 2, 1, 2), log, outcomes), ((5, 1, 2, 2), log, outcomes))
    yield from (((5, 1, 1, 0), log, outcomes), ((5, 1, 1, 6), log, outcomes), ((255,) * 4, log, outcomes), ((0, 1, 0, 0), b"", b""))
    yield from ((line, log[:-1], outcomes), (line, log + b"\0", outcomes), (line, b"", outcomes), (line, log, b""), (line, outcomes, log))
    yield from ((line, log, outcomes[:-1]), (line, log, outcomes + b"\0"), (line, bytes(10 * reader.LARGEST_TABLE), outcomes), (line, log, bytes(70000)))
    for more, beyond in (0, 0), (1, 0), (0, 1):
        yield (32, 10, 10, 32), bytes(reader.LARGEST_TABLE + more), bytes(32 * model.OUTCOME + beyond)


def odd_words():
    """The program audit used otherwise than its command does; numbers with zeros before them, and above 255."""
    files = [os.path.join(EXAMPLES, "foreign" + end) for end in (".log", ".outcomes")]
    usage = "audit: wanted are n, t, T and the sender in decimal, the log's file and the outcomes' file\n"
    wrong = [(), (5, 1, 1, 2), (5, 1, 1, 2, files[0]), (5, 1, 1, 2, *files, "more"), (*files, 5, 1, 1, 2)]
    wrong += [(*line, *files) for line in (("", 1, 1, 2), (5, "-1", 1, 2), (5, 1, "1x", 2), (5, 1, 1, " 2"), (5, 1, 1, "0x2"), ("+5", 1, 1, 2))]
    for words in wrong:
        yield f"audit {words}: how it is used", asked(*words) == (0, "", usage)
    lines = {("005", 1, 1, "02"): "broke 3 4", (261, 1, 1, 2): "refused 2", (5, 2**64 + 1, 1, 2): "refused 3", (5, 1, 257, 2): "refused 3"}
    lines[5, 1, 1, 2**32 + 2] = "refused 4"
    for line, told in lines.items():
        yield f"audit {line}: {told}", asked(*line, *files) == (0, told + "\n", "")


def odd_files():
    """The program audit with files that can't be opened or read, and with odd logs."""
    log, outcomes, none = (os.path.join(EXAMPLES, name) for name in ("foreign.log", "foreign.outcomes", "none"))
    missing, folder = ": No such file or directory", ": Is a directory"
    trials = [(none, outcomes, none + missing), (log, none, none + missing), (none, EXAMPLES, none + missing), ("", outcomes, missing)]
    trials += [(EXAMPLES, none, EXAMPLES + folder), (log, EXAMPLES, EXAMPLES + folder)]
    for first, second, said in trials:
        yield f"audit: {first}, {second}: {said}", asked(5, 1, 1, 2, first, second) == (0, "", said + "\n")
    for made in odd_logs():
        yield f"audit {made[0]}, {len(made[1])} and {len(made[2])} bytes: {audited(*made)}", asked_of(*made) == (0, audited(*made), "")


if __name__ == "__main__":
    if sys.argv[1:] == ["--check"]:
        trials = checks, texts, noisy_runs, rewritings, audits, odd_words, odd_files
        sys.exit(not (all(built(pathlib.Path(program)) for program in PROGRAMS) and closing(one for trial in trials for one in trial())))
    write()
