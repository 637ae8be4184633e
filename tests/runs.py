#!/usr/bin/env python3
"""What the program of crate stored_runs reads and must print, computed here from documents 01 and 02 alone.

    tests/runs.py            prints what it must print
    tests/runs.py --write    writes crates/stored_runs/stdin and crates/stored_runs/stdout
    tests/runs.py --check    compares with both, and with the answers that the documents give

A run on standard input is the sheet's length and the lent table's, two bytes each, low byte first, then the sheet.
Each run is a line: its number; n, t, T, sender, value, w as it stands on the sheet, and marks, or the refusal; a checksum
of the lent table, of all bits; and for an accepted sheet the rehearsal's answer, the bytes of the outcomes, and a checksum
of the log and of the outcomes. The table goes from run to run, so a refused sheet shows in it what was there before. A
table longer than the largest of one bit is lent from a buffer of zeros.
"""
import collections
import pathlib
import sys

import sheet
from model import number_broadcast, runs_of_bits
from run_sheets import stored

FOLDER = pathlib.Path(__file__).resolve().parent.parent / "crates/stored_runs"
WORD = 2 ** 32


def framed(runs):
    return b"".join(len(run.sheet).to_bytes(2, "little") + run.lent.to_bytes(2, "little") + run.sheet for run in runs)


def checksum(data):
    total = 0
    for b in data:
        total = (total * 31 + b + 1) % WORD
    return total


def rehearsed(call, table):
    """The log and the outcomes."""
    n, t, T, sender, value, w, marks = call
    log, decided = number_broadcast(runs_of_bits(n, t, T, sender - 1, value, w, [bool(marks >> i & 1) for i in range(n)], table))
    return log, [b for outcome in decided for b in outcome]


class Reader:
    """The runs one after another, with the buffers that they share."""

    def __init__(self):
        self.table, self.longer, self.lines, self.causes, self.amiss = [255] * sheet.LARGEST_TABLE, [0] * 65536, [], [], []

    def run(self, one):
        """Reads a sheet and rehearses it. What comes out otherwise than the documents say is kept in amiss."""
        buffer, name = self.table if one.lent <= sheet.LARGEST_TABLE else self.longer, f"run {len(self.lines) + 1}:"
        cause, buffer[:one.lent] = sheet.read(one.sheet, buffer[:one.lent])
        table, outcomes = buffer[:one.lent], None
        call = sheet.header(one.sheet) if cause == 0 else ("refused", cause)
        line = " ".join(map(str, [name, *call])) + f"; table {checksum(table)}"
        if cause == 0:
            log, outcomes = rehearsed(call, table)
            line += f"; accepted: {' '.join(map(str, outcomes))}; sums {checksum(log)} {checksum(outcomes)}"
        if one.cause not in (None, cause) or one.outcomes not in (None, outcomes):
            self.amiss.append(f"{name} the documents give {one.cause} {one.outcomes}, not {cause} {outcomes}")
        self.lines.append(line)
        self.causes.append(cause)


def read(runs):
    reader = Reader()
    for run in runs:
        reader.run(run)
    return reader


def text(reader):
    return "".join(line + "\n" for line in reader.lines)


def differences(name, ours):
    """What the stored file has otherwise."""
    theirs = (FOLDER / name).read_bytes()
    if theirs == ours:
        return []
    at = next((q for q, (a, b) in enumerate(zip(ours, theirs)) if a != b), min(len(ours), len(theirs)))
    return [f"crates/stored_runs/{name}: differs from byte {at} on, and has {len(theirs)} bytes where {len(ours)} are computed"]


def check():
    runs = list(stored())
    reader = read(runs)
    tally = collections.Counter(reader.causes)
    print(f"{len(runs)} runs computed: {tally.pop(0)} accepted; refused", ", ".join(f"by {c}: {tally[c]}" for c in sorted(tally)))
    parts = reader.amiss, differences("stdin", framed(runs)), differences("stdout", text(reader).encode())
    for line in [line for part in parts for line in part[:5]]:
        print(line)
    failed = sum(map(bool, parts))
    print(f"{len(parts) - failed} passed, {failed} failed")
    return failed > 0


def main():
    if sys.argv[1:] == ["--check"]:
        return check()
    runs = list(stored())
    if sys.argv[1:] == ["--write"]:
        (FOLDER / "stdin").write_bytes(framed(runs))
        (FOLDER / "stdout").write_text(text(read(runs)))
    else:
        sys.stdout.write(text(read(runs)))
    return False


if __name__ == "__main__":
    sys.exit(main())
