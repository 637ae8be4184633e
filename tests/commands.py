#!/usr/bin/env python3
"""The commands at the repository's top, as a planner uses them: what they write, where, and their exit status; what they do without input or output, on a
terminal, when they are interrupted; and how they build what they run, tried with made-up tools. The last line is 'N passed, M failed'.
"""
import contextlib
import os
import pathlib
import pty
import re
import shutil
import signal
import subprocess
import sys
import tempfile
import time

import examples
import sheet as sheets
from counting import closing
from model import OUTCOME

TOP = pathlib.Path(__file__).resolve().parent.parent
AGREE, LISTING = TOP / "examples" / "a.sheet", (TOP / "examples" / "a.listing").read_bytes()
UNTIDY, TIDY = TOP / "examples" / "untidy.sheet", (TOP / "examples" / "tidy.sheet").read_bytes()
RECIPE, WIDEST = ({end: (TOP / "examples" / f"{name}.{end}").read_bytes() for end in ("sheet", "text", "listing")} for name in ("recipe", "widest"))
NOISY, LISTINGS = "examples/noisy.sheet", (TOP / "examples" / "noisy.listings").read_bytes()
LINE, FILES = ("5", "1", "1", "2"), ("examples/foreign.log", "examples/foreign.outcomes")
LOG, OUTCOMES, BROKE = ((TOP / "examples" / f"foreign.{end}").read_bytes() for end in ("log", "outcomes", "broke"))
# those of one file or standard input; ./audit has its own trials
COMMANDS = "agree", "seeds", "rewrite", "sheet", "text", "draw"
PROGRAMS = "agree", "rewrite", "audit", "seeds"
# a command that hasn't ended after so many seconds hangs
HANGS = 600


class Ran:
    """How a command ended: its status, and what it wrote to standard output and standard error."""

    def __init__(self, *words, top=TOP, **streams):
        streams = {"stdin": subprocess.DEVNULL, "stdout": subprocess.PIPE, "stderr": subprocess.PIPE} | streams
        if "input" in streams:
            del streams["stdin"]
        try:
            done = subprocess.run([f"./{words[0]}", *map(str, words[1:])], cwd=top, timeout=HANGS, **streams)
            self.status, self.out, self.said = done.returncode, done.stdout, os.fsdecode(done.stderr or b"")
        except subprocess.TimeoutExpired:
            self.status, self.out, self.said = "hangs", b"", ""

    def gives(self, status, out=b"", said=""):
        """Whether it ended so; `said` is a pattern for the whole of standard error."""
        return (self.status, self.out) == (status, out) and re.fullmatch(said, self.said) is not None


def in_shell(words, top=TOP, **streams):
    """A command with its streams as a shell sets them."""
    return subprocess.run(["bash", "-c", words], cwd=top, timeout=HANGS, capture_output=True, **streams)


def causes():
    """The causes in words, by their numbers, as the commands tell them."""
    return dict(row.split(" ", 1) for row in (TOP / "commands" / "causes").read_text().splitlines())


# ---- what a command makes of its input


def inputs(folder):
    odd = folder / "-a & b: c.sheet"
    shutil.copy(AGREE, odd)
    os.symlink(TOP / "agree", folder / "linked")
    yield "a file", Ran("agree", AGREE).gives(0, LISTING)
    yield "standard input", Ran("agree", input=AGREE.read_bytes()).gives(0, LISTING)
    yield "standard input as -", Ran("agree", "-", input=AGREE.read_bytes()).gives(0, LISTING)
    yield "a pipe by its name", in_shell(f"./agree <(cat '{AGREE}')").stdout == LISTING
    yield "a name with signs in it", Ran("linked", "--", odd.name, top=folder).gives(0, LISTING)
    yield "rewrite: a file", Ran("rewrite", UNTIDY).gives(0, TIDY)
    yield "rewrite: standard input", Ran("rewrite", input=UNTIDY.read_bytes()).gives(0, TIDY)
    yield "rewrite, then agree", in_shell(f"./rewrite '{UNTIDY}' | ./agree").stdout == (TOP / "examples" / "untidy.listing").read_bytes()
    yield "a sheet in a pipe that comes in two parts", in_shell(f"(head -c 5; sleep 0.3; cat) <'{AGREE}' | ./agree").stdout == LISTING
    odd.write_bytes(AGREE.read_bytes()[:11])
    yield "and what is said of it", Ran("linked", odd, top=folder).gives(1, b"refused 1\n", f"agree: {re.escape(str(odd))}: refused 1: .*\nagree: it has 11 bytes\n")


def numbers(folder):
    """Sheets of several bits, through each command; the widths 0 and 1 are the same."""
    for name, made in ("recipe", RECIPE), ("widest", WIDEST):
        yield f"{name}: agree", Ran("agree", f"examples/{name}.sheet").gives(0, made["listing"])
        yield f"{name}: rewrite", Ran("rewrite", f"examples/{name}.sheet").gives(0, sheets.rewritten(made["sheet"])[1])
        yield f"{name}: sheet", Ran("sheet", f"examples/{name}.text").gives(0, made["sheet"])
        yield f"{name}: text, then sheet", in_shell(f"./text examples/{name}.sheet | ./sheet").stdout == made["sheet"]
        yield f"{name}: rewrite, then agree", in_shell(f"./rewrite examples/{name}.sheet | ./agree").stdout == made["listing"]
        picture = Ran("draw", f"examples/{name}.sheet")
        yield f"{name}: draw", picture.status == 0 and picture.out.startswith(b"<svg ") and picture.out.endswith(b"</svg>\n")
        yield f"{name}: its text is no sheet", "it looks like a text: " in Ran("agree", f"examples/{name}.text").said
    one_bit = AGREE.read_bytes()
    for w in 0, 1:
        yield f"case A with w {w}", Ran("agree", input=one_bit[:5] + bytes([w]) + one_bit[6:]).gives(0, LISTING)
    (folder / "records").write_text("\n bit 0 round 1 from 1 to 1 ballot 0\n")
    yield "a text that begins with a record of a bit", "it looks like a text: " in Ran("agree", folder / "records").said
    (folder / "width").write_text("w 2\n")
    yield "a text that begins with w", "it looks like a text: " in Ran("agree", folder / "width").said


def refusals(folder):
    """Each cause that a sheet can have: the number to standard output, and the cause in words to standard error."""
    told, file = causes(), folder / "refused.sheet"
    for name, sheet in examples.odd_inputs().items():
        listing = examples.listing(sheet).encode()
        if listing.startswith(b"refused "):
            number = listing.split()[1].decode()
            file.write_bytes(sheet)
            for command, out in ("agree", listing), ("seeds", listing), ("rewrite", listing), ("text", b""), ("draw", b""):
                said = re.escape(f"{command}: {file}: refused {number}: {told[number]}\n{command}: it has {len(sheet)} bytes\n")
                yield f"{command}, refused: {name}", Ran(command, file).gives(1, out, said)
    said = r"agree: examples/a.text: refused 1: .*\nagree: it looks like a text: ./sheet examples/a.text >line.sheet makes its run sheet\n"
    yield "a text instead of a sheet", Ran("agree", "examples/a.text").gives(1, b"refused 1\n", said)
    said = r"sheet: examples/a.sheet: line 1: .*\nsheet: by its name it is a run sheet: ./text examples/a.sheet shows it as text\n"
    yield "a sheet instead of a text", Ran("sheet", "examples/a.sheet").gives(1, b"", said)
    file = folder / "wrong"
    file.write_text("n 4\nt 1\nT 1\nsender 1\nvalue 1\nbad 9\n")
    yield "a wrong text", Ran("sheet", file).gives(1, b"", f"sheet: {re.escape(str(file))}: line 6: station 9 is beyond n 4\n")


def documented():
    rows = dict(re.findall(r"^\| (\d+) \| (.*) \|$", (TOP / "README.md").read_text(encoding="utf-8"), re.M))
    yield "README.md has the causes in the same words", rows == causes()
    numbers = [int(number) for number in causes()]
    yield "the causes 1 to 16", numbers[:16] == list(range(1, 17))
    yield "then that of an offer, 17, and no others", numbers[16:] == [17]


# ---- trouble with the streams


@contextlib.contextmanager
def unready(content):
    """A pipe with these bytes in it that isn't closed and doesn't wait for more."""
    read, write = os.pipe()
    os.write(write, content)
    os.set_blocking(read, False)
    yield read
    os.close(read)
    os.close(write)


def troubles(folder):
    sheet = AGREE.read_bytes()
    for command in COMMANDS:
        yield f"{command}: no such file", Ran(command, folder / "none").gives(2, b"", f"{command}: .*/none: No such file or directory\n")
        yield f"{command}: a folder", Ran(command, folder).gives(2, b"", f"{command}: {folder}: Is a directory\n")
        opened = os.open(folder, os.O_RDONLY)
        yield f"{command}: a folder as input", Ran(command, stdin=opened).gives(2, b"", f"{command}: standard input: Is a directory\n")
        os.close(opened)
        done = in_shell(f"./{command} <&-")
        yield f"{command}: no input", (done.returncode, done.stdout, done.stderr) == (2, b"", f"{command}: standard input is closed\n".encode())
        done = in_shell(f"./{command} '{AGREE}' >&-")
        yield f"{command}: no output", (done.returncode, done.stderr) == (2, f"{command}: standard output is closed\n".encode())
        with unready(sheet[:5]) as waits:
            yield f"{command}: an input that isn't ready after half a sheet", Ran(command, stdin=waits).gives(2, b"", f"{command}: standard input.*\n")
    for command in "agree", "seeds", "rewrite":
        with unready(b"") as waits:
            yield f"{command}: an input that isn't ready", Ran(command, stdin=waits).gives(2, b"", f"{command}: standard input could not be read\n")
        with open("/dev/full", "wb") as full:
            yield f"{command}: a full output", Ran(command, AGREE, stdout=full).gives(2, None, f"{command}: standard output: No space left on device\n")
    yield "an output that nobody reads", in_shell(f"./agree '{AGREE}' | true; exit ${{PIPESTATUS[0]}}").returncode == 128 + signal.SIGPIPE
    yield "a file, and no input", in_shell(f"./agree '{AGREE}' <&-").stdout == LISTING
    yield "no standard error", in_shell(f"./agree '{AGREE}' 2>&-").stdout == LISTING
    yield "no temporary folder", Ran("agree", AGREE, env=os.environ | {"TMPDIR": "/nowhere"}).gives(2, b"", "agree: no temporary folder can be made in /nowhere\n")


# ---- on a terminal, and how it is used


def on_terminal(words, top=TOP, env=None, streams=("stdin", "stdout", "stderr"), **others):
    """Status of a command with these streams on a terminal, and all that it writes there; the others are what they are given as, or nothing."""
    near, far = pty.openpty()
    given = {name: far if name in streams else others.get(name, subprocess.DEVNULL) for name in ("stdin", "stdout", "stderr")}
    running = subprocess.Popen(words, cwd=top, env=env, start_new_session=True, **given)
    os.close(far)
    shown = b""
    with contextlib.suppress(OSError):
        while part := os.read(near, 4096):
            shown += part
    os.close(near)
    return running.wait(timeout=HANGS), shown.decode()


# what stands before the file where a command's use is told, as a pattern
OPTIONS = {"draw": r"\[--seed N\] "}


def uses():
    for command in COMMANDS:
        usage = rf"usage: ./{command} {OPTIONS.get(command, '')}\[[A-Z]+\]\n(?s:.*)Exit status: 0 (?s:.*)"
        asked = Ran(command, "--help")
        yield f"{command} --help", asked.status == 0 and re.fullmatch(usage, asked.out.decode()) and not asked.said
        yield f"{command}: an unknown option", Ran(command, "-x").gives(2, b"", f"{command}: there is no option -x\n{usage}")
        yield f"{command}: two files", Ran(command, AGREE, AGREE).gives(2, b"", f"{command}: one file at most\n{usage}")
        yield f"{command}: an empty name", Ran(command, "").gives(2, b"", f"{command}: the file's name is empty\n{usage}")
        status, shown = on_terminal([f"./{command}"], streams=("stdin", "stderr"))
        said = f"{command}: no file is named, and standard input is a terminal\n{usage}"
        yield f"{command}: a terminal as input", status == 2 and re.fullmatch(said, shown.replace("\r\n", "\n"))
        with open("/dev/full", "wb") as full:
            yield f"{command} --help, a full output", Ran(command, "--help", stdout=full).gives(2, None, f"{command}: standard output can't be written\n")
    for command, file, kept in ("rewrite", "examples/a.sheet", "normal.sheet"), ("sheet", "examples/a.text", "line.sheet"), ("draw", "examples/a.sheet", "line.svg"):
        status, shown = on_terminal([f"./{command}", file])
        said = f"{command}: a terminal can't show it: write it to a file, as in ./{command} {file} >{kept}\r\nusage: "
        yield f"{command}: a terminal as output", status == 2 and shown.startswith(said)
    status, shown = on_terminal(["./agree", "examples/a.sheet"])
    yield "agree: a listing on a terminal", (status, shown.replace("\r\n", "\n").encode()) == (0, LISTING)


# ---- noisy runs


def seen(shown):
    """The lines that a terminal is left with, of what was written to it."""
    return [seen_line(row) for row in shown.split("\n")]


def seen_line(row):
    """A return goes back to the line's start, and ESC [ K empties the rest of it."""
    line, at = "", 0
    for part in re.findall(r"\r|\x1b\[K|[^\r\x1b]+", row):
        if part == "\x1b[K":
            line = line[:at]
        else:
            line, at = (line, 0) if part == "\r" else (line[:at] + part + line[at + len(part):], at + len(part))
    return line.rstrip()


def watched(folder, *words, **others):
    """Status, output and all that is written to a terminal as standard error."""
    with open(folder / "out", "w+b") as out:
        status, shown = on_terminal(words, streams=("stderr",), stdout=out, **others)
        return status, (folder / "out").read_bytes(), shown


def noisy_runs(folder):
    """./seeds: a file, standard input; with a terminal as standard error, which is told how far it is, and what it is left with."""
    sheet = (TOP / NOISY).read_bytes()
    yield "seeds: a file", Ran("seeds", NOISY).gives(0, LISTINGS)
    yield "seeds: standard input", Ran("seeds", input=sheet).gives(0, LISTINGS) and Ran("seeds", "-", input=sheet).gives(0, LISTINGS)
    yield "seeds: a sheet in a pipe that comes in two parts", in_shell(f"(head -c 5; sleep 0.3; cat) <{NOISY} | ./seeds").stdout == LISTINGS
    status, out, shown = watched(folder, "./seeds", NOISY)
    steps = [int(step) for step in re.findall(r"\rseeds: (\d+) of 100", shown)]
    yield "seeds: the same with a terminal as standard error", (status, out) == (0, LISTINGS)
    yield "seeds: which is told how far it is", len(steps) > 1 and steps == sorted(set(steps)) and steps[-1] <= 100
    yield "seeds: in one line, of which nothing is left", seen(shown) == [""]
    status, shown = on_terminal(["./seeds", NOISY])
    yield "seeds: all on a terminal", status == 0 and seen(shown) == LISTINGS.decode().split("\n")
    yield "seeds: a refused sheet, and a terminal", watched(folder, "./seeds", "examples/a.text")[:2] == (1, b"refused 1\n")
    said = r"seeds: examples/a.text: refused 1: .*\nseeds: it looks like a text: .*\n"
    yield "seeds: what is said of it there", re.fullmatch(said, "\n".join(seen(watched(folder, "./seeds", "examples/a.text")[2])))
    said = "seeds: /proc/self/mem could not be read\n"
    yield "seeds: a file that can't be read", Ran("seeds", "/proc/self/mem").gives(2, b"", said)
    status, out, shown = watched(folder, "./seeds", "/proc/self/mem")
    left = ["seeds: standard input could not be read", "seeds: /proc/self/mem: not all listings were made", ""]
    yield "seeds: the same, and a terminal", (status, out, seen(shown)) == (2, b"", left)


def cut_listings(folder):
    """A program whose listings are cut, with a terminal as standard error: some of a hundred, a line of the last, its last byte, all; then one that is killed."""
    copy = Copy(folder / "cut")
    copy.seeds()
    program, left = copy.top / "target" / "bin" / "seeds", folder / "left"
    cuts = {"half of them": len(LISTINGS) // 2, "a line": LISTINGS[:-1].rindex(b"\n") + 1, "a byte": len(LISTINGS) - 1, "all": 0}
    for name, size in cuts.items():
        left.write_bytes(LISTINGS[:size])
        program.write_text(f"#!/bin/sh\ncat '{left}'\n")
        status, out, shown = watched(folder, "./seeds", str(TOP / NOISY), top=copy.top, env=copy.env)
        told = seen(shown) == [f"seeds: {TOP / NOISY}: not all listings were made", ""]
        yield f"seeds: {name} missing", (status, out) == (2, LISTINGS[:size]) and told
    program.write_text("#!/bin/sh\nprintf '\\rseeds: 10 of 100' >&2\nkill -9 $$\n")
    status, out, shown = watched(folder, "./seeds", str(TOP / NOISY), top=copy.top, env=copy.env)
    yield "seeds: killed", (status, out, seen(shown)) == (2, b"", [f"seeds: {TOP / NOISY}: the program ended with status 137", ""])


def stopped(folder):
    """^C on the terminal while the listings are made: it ends by the signal, and nothing is left, on the terminal either."""
    copy, shown, told = Copy(folder / "stopped"), b"", False
    copy.seeds()
    (copy.top / "target" / "bin" / "seeds").write_text("#!/bin/sh\nprintf '\\rseeds: 10 of 100' >&2\nexec sleep 600\n")
    pid, near = pty.fork()
    if pid == 0:
        signal.signal(signal.SIGINT, signal.SIG_DFL)
        os.chdir(copy.top)
        os.execve("./seeds", ["./seeds", str(AGREE)], copy.env)
    with contextlib.suppress(OSError):
        while part := os.read(near, 4096):
            shown += part
            if b"10 of 100" in shown and not told:
                told = os.write(near, b"\x03") > 0
    os.close(near)
    ended = os.waitpid(pid, 0)[1]
    yield "seeds: ^C", told and os.WIFSIGNALED(ended) and os.WTERMSIG(ended) == signal.SIGINT and seen(shown.decode()) == [""] and copy.left() == []


def drawn_by_seed():
    """./draw --seed: a picture of its own for each seed; which seeds there are; which words are wrong."""
    plain, first, second = (Ran("draw", *words, NOISY) for words in ((), ("--seed", 1), ("--seed", 2)))
    pictures = all(one.status == 0 and not one.said and one.out.startswith(b"<svg ") and one.out.endswith(b"</svg>\n") for one in (plain, first, second))
    yield "draw --seed: pictures", pictures and len({plain.out, first.out, second.out}) == 3
    sheet = (TOP / NOISY).read_bytes()
    yield "draw --seed: standard input", all(Ran("draw", "--seed", 1, *words, input=sheet).gives(0, first.out) for words in ((), ("-",), ("--", "-")))
    yield "draw --seed: zeros before the number", Ran("draw", "--seed", "0000000000001", NOISY).gives(0, first.out)
    yield "draw --seed: the last of two", Ran("draw", "--seed", 2, "--seed", 1, NOISY).gives(0, first.out)
    yield "draw --seed: the largest", Ran("draw", "--seed", 2**32 - 1, NOISY).out not in (plain.out, first.out, second.out, b"")
    for word in "0", "000":
        yield f"draw --seed {word}", Ran("draw", "--seed", word, NOISY).gives(1, b"", f"draw: {NOISY}: refused 16: {causes()['16']}\n")
    said = "draw: examples/a.text: refused 1: .*\ndraw: it looks like a text: .*\n"
    yield "draw --seed 0, of a sheet that is refused", Ran("draw", "--seed", 0, "examples/a.text").gives(1, b"", said)
    usage = r"usage: ./draw \[--seed N\] \[SHEET\]\n(?s:.*)"
    wrong = {word: f"{word} is not below 2 to the power 32" for word in (str(2**32), str(2**64 + 1), "1" * 30, "0" + str(2**32))}
    wrong |= {word: f"'{word}' is no decimal number" for word in ("", "x", "-1", "+1", "1.5", "0x1", " 1", NOISY)}
    for word, said in wrong.items():
        yield f"draw --seed '{word}'", Ran("draw", "--seed", word, NOISY).gives(2, b"", f"draw: {re.escape(said)}\n{usage}")
    yield "draw --seed without a number", Ran("draw", "--seed").gives(2, b"", f"draw: --seed is without its number\n{usage}")
    yield "draw --seed=1", Ran("draw", "--seed=1", NOISY).gives(2, b"", f"draw: there is no option --seed=1\n{usage}")
    yield "draw --seed 1 --help", Ran("draw", "--seed", 1, "--help").status == 0
    yield "draw, then --seed 1", Ran("draw", NOISY, "--seed", 1).gives(2, b"", f"draw: --seed and its number stand before the file\n{usage}")
    yield "draw --seed 1, two files", Ran("draw", "--seed", 1, NOISY, NOISY).gives(2, b"", f"draw: one file at most\n{usage}")
    status, shown = on_terminal(["./draw", "--seed", "1", NOISY])
    said = f"draw: a terminal can't show it: write it to a file, as in ./draw --seed 1 {NOISY} >line.svg\r\nusage: "
    yield "draw --seed: a terminal as output", status == 2 and shown.startswith(said)
    for command in COMMANDS:
        if command not in OPTIONS:
            yield f"{command} --seed", Ran(command, "--seed", 1, NOISY).gives(2, b"", rf"{command}: there is no option --seed\nusage: (?s:.*)")
            yield f"{command}, then --seed", Ran(command, NOISY, "--seed", 1).gives(2, b"", rf"{command}: one file at most\nusage: (?s:.*)")


# ---- ./audit, which takes a line's numbers and two files


def audited(folder):
    """What it makes of its files: the set, also of nobody and of case A's log."""
    odd = [folder / name for name in ("-a & b: c.log", "-")]
    for file, content in zip(odd, (LOG, OUTCOMES)):
        file.write_bytes(content)
    # names that are no text in UTF-8
    raw = [folder / os.fsdecode(name) for name in (b"log \xff", b"outcomes \xc3")]
    for file, content in zip(raw, (LOG, OUTCOMES)):
        file.write_bytes(content)
    os.symlink(TOP / "audit", folder / "linked")
    log, outcomes = examples.logged(examples.runs_of((TOP / "examples" / "d.sheet").read_bytes())[1][0])
    for name, content in ("d.log", log), ("d.outcomes", outcomes):
        (folder / name).write_bytes(content)
    yield "audit: a log", Ran("audit", *LINE, *FILES).gives(0, BROKE)
    yield "audit: case A's log", Ran("audit", 4, 1, 1, 1, "examples/a.log", "examples/a.outcomes").gives(0, b"broke 4\n")
    yield "audit: a log in which all keep the rules", Ran("audit", 1, 0, 0, 1, folder / "d.log", folder / "d.outcomes").gives(0, b"broke\n")
    yield "audit: names with signs in them", Ran("linked", "--", *LINE, odd[0].name, "./-", top=folder).gives(0, BROKE)
    yield "audit: names that are no text", Ran("audit", *LINE, *raw).gives(0, BROKE)
    yield "audit: one of them alone", Ran("audit", *LINE, FILES[0], raw[1]).gives(0, BROKE)
    none = folder / os.fsdecode(b"none \xff")
    yield "audit: a name that is no text, of no file", Ran("audit", *LINE, none, FILES[1]).gives(1, b"", f"audit: {re.escape(str(none))}: .*\n")
    yield "audit: numbers with zeros before them", Ran("audit", "005", "01", "1", "002", *FILES).gives(0, BROKE)
    yield "audit: pipes by their names", in_shell(f"./audit {' '.join(LINE)} <(cat {FILES[0]}) <(cat {FILES[1]})").stdout == BROKE
    status, shown = on_terminal(["./audit", *LINE, *FILES])
    yield "audit: on a terminal", (status, shown.replace("\r\n", "\n").encode()) == (0, BROKE)


def audits_refused(folder):
    """Each cause: the number to standard output, and the cause in words to standard error; of a wrong length the lengths too."""
    told, short, empty = causes(), folder / "short", folder / "empty"
    short.write_bytes(LOG[:-1])
    empty.touch()
    trials = [(("0", *LINE[1:]), FILES, "2", ""), (("9" * 30, *LINE[1:]), FILES, "2", ""), (("5", "2", "1", "2"), FILES, "3", ""), ((*LINE[:3], "6"), FILES, "4", "")]
    bytes_of_5 = 5 * OUTCOME
    for files, has in ((short, FILES[1]), (224, bytes_of_5)), ((FILES[0], empty), (225, 0)), ((FILES[1], FILES[0]), (bytes_of_5, 225)):
        lengths = f"audit: the log has {has[0]} bytes and the outcomes have {has[1]}: wanted are 225 bytes of log and {bytes_of_5} of outcomes\n"
        trials.append((("5", "01", "1", "2"), files, "8", lengths))
    for line, files, number, lengths in trials:
        said = re.escape(f"audit: refused {number}: {told[number]}\n{lengths}")
        yield f"audit, refused {number}: {line}, {lengths}", Ran("audit", *line, *files).gives(1, f"refused {number}\n".encode(), said)
    done = in_shell(f"./audit 32 010 10 1 <(cat {FILES[0]}) {FILES[1]}")
    said = f"\naudit: wanted are 36864 bytes of log and {32 * OUTCOME} of outcomes\n"
    yield "audit: lengths of a pipe", done.stderr.decode().endswith(said) and done.stdout == b"refused 8\n"


def audit_troubles(folder):
    none, missing = folder / "none", "No such file or directory\n"
    yield "audit: no log", Ran("audit", *LINE, none, FILES[1]).gives(1, b"", f"audit: {none}: {missing}")
    yield "audit: no outcomes", Ran("audit", *LINE, FILES[0], none).gives(1, b"", f"audit: {none}: {missing}")
    yield "audit: neither", Ran("audit", *LINE, none, folder / "nor this").gives(1, b"", f"audit: {none}: {missing}")
    yield "audit: a name like what is said of an input", Ran("audit", *LINE, "audit: standard input", none).gives(1, b"", f"audit: audit: standard input: {missing}")
    yield "audit: a folder", Ran("audit", *LINE, folder, FILES[1]).gives(1, b"", f"audit: {folder}: Is a directory\n")
    with open("/dev/full", "wb") as full:
        yield "audit: a full output", Ran("audit", *LINE, *FILES, stdout=full).gives(2, None, "audit: standard output: No space left on device\n")
        yield "audit --help, a full output", Ran("audit", "--help", stdout=full).gives(2, None, "audit: standard output can't be written\n")
    words = " ".join(("./audit", *LINE, *FILES))
    done = in_shell(f"{words} >&-")
    yield "audit: no output", (done.returncode, done.stderr) == (2, b"audit: standard output is closed\n")
    yield "audit: an output that nobody reads", in_shell(f"{words} | true; exit ${{PIPESTATUS[0]}}").returncode == 128 + signal.SIGPIPE
    yield "audit: no input", in_shell(f"{words} <&-").stdout == BROKE
    yield "audit: no standard error", in_shell(f"{words} 2>&-").stdout == BROKE
    said = "audit: no temporary folder can be made in /nowhere\n"
    yield "audit: no temporary folder", Ran("audit", *LINE, *FILES, env=os.environ | {"TMPDIR": "/nowhere"}).gives(2, b"", said)


def audit_uses():
    usage = r"usage: ./audit N LOWER UPPER SENDER LOG OUTCOMES\n(?s:.*)\./- for one of that name(?s:.*)Exit status: 0 (?s:.*)"
    asked = Ran("audit", "--help")
    yield "audit --help", asked.status == 0 and re.fullmatch(usage, asked.out.decode()) and not asked.said
    wrong = {words: f"six words are wanted, and there are {len(words)}" for words in ((), LINE, (*LINE, FILES[0]), (*LINE, *FILES, "more"))}
    for place in range(4):
        for word in "", "x", "+1", "1.", " 1", "0x1":
            wrong[(*LINE[:place], word, *LINE[place + 1:], *FILES)] = f"'{word}' is no decimal number"
    wrong |= {(*LINE, "", FILES[1]): "a file's name is empty", (*LINE, FILES[0], ""): "a file's name is empty", ("-x", *LINE[1:], *FILES): "there is no option -x"}
    wrong |= {words: "- stands for no file here: ./- is one of that name" for words in ((*LINE, "-", FILES[1]), (*LINE, FILES[0], "-"))}
    for words, said in wrong.items():
        yield f"audit: {said}, of {words}", Ran("audit", *words).gives(2, b"", f"audit: {re.escape(said)}\n{usage}")


# ---- building, with a made-up rt in a copy of the commands


# it goes on after each crate when that is seen to be told, and in the end when it is let go, so that no trial depends on how fast the machine is
RT = """#!/bin/sh
crate=${PWD##*/}
echo "$1 $crate" >>"$RT_CALLS"
until_there() { n=0; until [ -e "$RT_CALLS.$1" ] || [ $n -gt 600 ]; do sleep 0.1; n=$((n + 1)); done; }
case $RT_DOES in
fails) echo "fn station::open: not proved"; exit 1 ;;
waits) sh -c 'echo $$ >>"$RT_CALLS.pids"; exec sleep 600' & echo $$ >>"$RT_CALLS.pids"; wait ;;
holds) until_there go ;;
esac
k=0
for lower in line broadcast layout; do
    k=$((k + 1))
    echo "rt: chose --jobs 2 for $lower"
    echo "logic=proved functions=$k"
    [ "$RT_DOES" != told ] || until_there $k
done
mkdir -p out && printf '%s\\n' '#!/bin/sh' "cat >/dev/null; echo $crate built" >"out/$crate" && chmod +x "out/$crate"
exit $k
"""


class Copy:
    """A copy of the commands and the crates, nothing of it built, beside a tool rt that only pretends."""

    def __init__(self, folder, does=""):
        self.top, tools = folder / "copy of the tree", folder / "tools"
        self.top.mkdir(parents=True)
        tools.mkdir()
        for part in "commands", "crates":
            shutil.copytree(TOP / part, self.top / part, ignore=shutil.ignore_patterns("out"))
        for part in *PROGRAMS, "crates.txt":
            shutil.copy(TOP / part, self.top / part)
        (tools / "rt").write_text(RT)
        (tools / "rt").chmod(0o755)
        self.calls = folder / "calls"
        self.calls.touch()
        (folder / "tmp").mkdir()
        self.temporary = folder / "tmp"
        path = f"{tools}:{os.environ['PATH']}"
        self.env = os.environ | {"PATH": path, "RT_CALLS": str(self.calls), "RT_DOES": does, "TMPDIR": str(self.temporary)}

    def agree(self, **streams):
        return Ran("agree", AGREE, top=self.top, env=self.env, **streams)

    def rewrite(self):
        return Ran("rewrite", UNTIDY, top=self.top, env=self.env)

    def audit(self):
        return Ran("audit", *LINE, *FILES, top=self.top, env=self.env)

    def seeds(self):
        return Ran("seeds", AGREE, top=self.top, env=self.env)

    def started(self, stderr):
        """The command in the background; what it makes goes to a file."""
        with open(self.top / "made", "wb") as made:
            return subprocess.Popen(["./agree", AGREE], cwd=self.top, env=self.env, stdin=subprocess.DEVNULL, stdout=made, stderr=stderr)

    def followed(self, near, far):
        """Status of the command with the far end as its standard error, and what it says there; each step that is told is let go on."""
        running = self.started(far)
        os.close(far)
        said = b""
        with contextlib.suppress(OSError):
            while part := os.read(near, 4096):
                said += part
                for step in re.findall(rb"(\d+) of \d+ crates", said):
                    self.let(step.decode())
        os.close(near)
        return running.wait(timeout=HANGS), said.decode()

    def let(self, word):
        pathlib.Path(f"{self.calls}.{word}").touch()

    def made(self):
        return (self.top / "made").read_bytes()

    def called(self):
        return self.calls.read_text().splitlines()

    def left(self):
        return list(self.temporary.iterdir())


def reached(crate):
    """The crate and those of the repository that it needs."""
    rows = [row.split(":") for row in (TOP / "crates.txt").read_text().splitlines() if row and not row.startswith("#")]
    needs = {name.split()[0]: words.split() for name, words in rows}
    found, ahead = set(), [crate]
    while ahead:
        name = ahead.pop()
        if name in needs and name not in found:
            found.add(name)
            ahead += needs[name]
    return found


def building(folder):
    copy, all_crates = Copy(folder / "first", "told"), len(reached("agree"))
    status, said = copy.followed(*os.pipe())
    steps = ["agree: target/bin/agree isn't built yet: building, some minutes from nothing\n"]
    steps += [f"agree: {k} of {all_crates} crates proved\n" for k in (1, 2, 3)]
    yield "the first use builds the program, and says how far it is", status == 0 and copy.made() == b"agree built\n" and all(step in said for step in steps)
    yield "and what it has built", re.search(r"agree: built in \d+ s: [0-9a-f]{64}  target/bin/agree\n$", said)
    copy.env["RT_DOES"] = ""
    yield "the second doesn't", copy.agree().gives(0, b"agree built\n") and copy.called() == ["run agree"]
    os.utime(copy.top / "crates" / "stored_runs" / "stdin")
    yield "nor where a crate has changed that it doesn't use", copy.agree().gives(0, b"agree built\n") and copy.called() == ["run agree"]
    os.utime(copy.top / "crates" / "line" / "src" / "lib.rt")
    again = copy.agree()
    yield "a program older than its crates is built again", again.out == b"agree built\n" and "is older than its sources: " in again.said and len(copy.called()) == 2
    (copy.top / "crates" / "layout" / "specs" / "Chain.antt").unlink()
    yield "also where a file is gone", copy.agree().out == b"agree built\n" and len(copy.called()) == 3
    made = {"rewrite": copy.rewrite(), "audit": copy.audit(), "seeds": copy.seeds()}
    yield "each program is built by its own command", copy.called()[3:] == ["run rewrite", "run audit", "run seeds"]
    for name, one in made.items():
        told = one.said.startswith(f"{name}: target/bin/{name} isn't built yet: building, ")
        yield f"{name}: told by its own name", told and (one.status, one.out) == (0, f"{name} built\n".encode())
    yield "nothing temporary is left", copy.left() == []
    copy = Copy(folder / "shown", "told")
    status, said = copy.followed(*pty.openpty())
    lines = re.findall(rf"\ragree: (\d) of {all_crates} crates proved, \d+ s\x1b\[K", said)
    kept = status == 0 and [k for k in dict.fromkeys(lines) if k != "0"] == ["1", "2", "3"]
    yield "on a terminal it is one line, kept up to date", kept and said.count("\n") == 2 and "\r\x1b[Kagree: built in " in said


def failing(folder):
    copy = Copy(folder / "fails", "fails")
    # what an earlier build left
    left = copy.top / "crates" / "agree" / "out" / "agree"
    left.parent.mkdir()
    left.write_text("#!/bin/sh\necho an earlier one\n")
    log = copy.top / "target" / "commands" / "agree.log"
    said = re.escape(f"agree: target/bin/agree can't be built; {log} says why\n")
    yield "a build that fails", copy.agree().gives(2, b"", f"agree: target.*: building, .*\n(agree: 0 of .*\n)?{said}") and "station::open: not proved" in log.read_text()
    (folder / "fails" / "tools" / "rt").unlink()
    copy.env["PATH"] = without_rt(folder)
    yield "no rt", copy.agree().gives(2, b"", 'agree: target/bin/agree can\'t be built: rt is not on the PATH \\(README.md, "What it needs"\\)\n')
    yield "nothing temporary is left by it", copy.left() == []


def without_rt(folder):
    """A PATH of one folder that has the tools of the commands, and no rt."""
    tools = folder / "few tools"
    tools.mkdir()
    for tool in "bash env dirname readlink sed awk grep find touch mktemp rm mkdir cat sleep flock sha256sum".split():
        os.symlink(shutil.which(tool), tools / tool)
    return str(tools)


def running(pid):
    """Whether a process is there and doesn't merely wait to be reaped."""
    with contextlib.suppress(OSError):
        return "\nState:\tZ" not in pathlib.Path(f"/proc/{pid}/status").read_text()
    return False


def until(holds, seconds=60):
    for _ in range(10 * seconds):
        if holds():
            return True
        time.sleep(0.1)
    return False


def interrupted(folder, number):
    """A command that a signal ends while it builds: it ends by that signal, and leaves neither the tool nor what that has started."""
    copy = Copy(folder / f"signal {number}", "waits")
    pids = pathlib.Path(f"{copy.calls}.pids")
    # whoever runs this may have had the signal ignored, which a shell can't undo
    command = subprocess.Popen(["./agree", AGREE], cwd=copy.top, env=copy.env, stderr=subprocess.DEVNULL, preexec_fn=lambda: signal.signal(number, signal.SIG_DFL))
    started = until(lambda: pids.exists() and len(pids.read_text().split()) == 2)
    command.send_signal(number)
    with contextlib.suppress(subprocess.TimeoutExpired):
        command.wait(timeout=HANGS)
    ended = started and until(lambda: not any(running(pid) for pid in pids.read_text().split()))
    return ended and command.returncode == -number and copy.left() == []


def interrupts(folder):
    for number in signal.SIGINT, signal.SIGTERM, signal.SIGHUP:
        yield f"{number.name} while it builds", interrupted(folder, number)


def at_once(folder):
    """Two first uses at once: one builds, the other waits for it."""
    copy = Copy(folder / "twice", "holds")
    said = [copy.top / "said 1", copy.top / "said 2"]
    with open(said[0], "wb") as first, open(said[1], "wb") as second:
        both = [copy.started(first), copy.started(second)]
    waiting = until(lambda: any("agree: waiting for another command that builds\n" in one.read_text() for one in said))
    copy.let("go")
    ended = [one.wait(timeout=HANGS) for one in both]
    yield "two first uses at once build once", waiting and ended == [0, 0] and copy.called() == ["run agree"]


# ---- which program it is


def section(name, library="controller"):
    """The bytes of a section of a library for C."""
    with tempfile.TemporaryDirectory() as folder:
        archive, file = TOP / "target" / "staticlib" / f"lib{library}.a", pathlib.Path(folder) / "section"
        subprocess.run(["ar", "x", archive], cwd=folder, check=True)
        member, = pathlib.Path(folder).glob("*.o")
        subprocess.run(["objcopy", "-O", "binary", f"--only-section={name}", "--set-section-flags", f"{name}=alloc", member, file], cwd=folder, check=True)
        return file.read_bytes()


def with_other(data, part):
    """The data with a bit of that part of it changed, wherever it stands."""
    return data.replace(part, part[:-1] + bytes([part[-1] ^ 1]))


def identified(folder):
    example = folder / "example"
    sums = Ran("build")
    done = subprocess.run(["sha256sum", "--check"], input=sums.out, cwd=TOP, capture_output=True)
    yield "./build prints the sums of what it builds", sums.status == 0 and done.stdout.count(b": OK\n") == 8 == sums.out.count(b"\n")
    some = Ran("build", *PROGRAMS, "controller", "lent", "exports")
    yield "those of seven without offer and acceptance", some.status == 0 and some.out.count(b"\n") == 7 and set(some.out.splitlines()) < set(sums.out.splitlines())
    subprocess.run(["gcc", "-O2", "controller/example.c", "target/staticlib/libcontroller.a", "-o", example], cwd=TOP, check=True)
    subprocess.run(["strip", "-o", folder / "stripped", example], check=True)
    for built_file in *(f"bin/{name}" for name in PROGRAMS), "staticlib/libcontroller.a", "staticlib/liblent.a", "staticlib/liboffer_calls.a", "staticlib/libexports.a":
        said = f"target/{built_file}: target/{built_file} of this tree, to the byte\n"
        yield f"./identify of {built_file}", Ran("identify", f"target/{built_file}").gives(0, said.encode())
    calls = "vembopu_advance, vembopu_ballot, vembopu_open, vembopu_result"
    for file in example, folder / "stripped":
        yield f"./identify of a controller, {file.name}", Ran("identify", file).gives(0, f"{file}: has {calls} as this tree builds them, and no call of liblent.a or libexports.a\n".encode())
        data, other = file.read_bytes(), folder / "other"
        other.write_bytes(with_other(data, section(".text.vembopu_ballot")))
        rest = calls.replace("vembopu_ballot, ", "")
        said = f"{other}: has {rest} as this tree builds them, but not vembopu_ballot\n"
        yield f"./identify of one with another ballot, {file.name}", Ran("identify", other).gives(1, said.encode())
        other.write_bytes(with_other(data, section(".rodata.cst16")[:16]))
        yield f"./identify of one with another constant, {file.name}", Ran("identify", other).gives(1, f"{other}: has {calls} as this tree builds them, but not constants\n".encode())
    stepping, archives = folder / "stepping", ["target/staticlib/libcontroller.a", "target/staticlib/liboffer_calls.a"]
    subprocess.run(["gcc", "-O2", "controller/offer.c", *archives, "-o", stepping], cwd=TOP, check=True)
    both = f"{calls}, vembopu_accept, vembopu_accept_lent, vembopu_offer"
    yield "./identify of a controller with offers", Ran("identify", stepping).gives(0, f"{stepping}: has {both} as this tree builds them, and no call of liblent.a or libexports.a\n".encode())
    # a function that offer and acceptance call, as far as a linker writes nothing into it
    other.write_bytes(with_other(stepping.read_bytes(), section(".text.station::advance", "offer_calls")[:64]))
    yield "./identify of one with another step", Ran("identify", other).gives(1, f"{other}: has {both} as this tree builds them, but not station::advance\n".encode())
    subprocess.run(["gcc", "-O2", "-c", "controller/example.c", "-o", folder / "named"], cwd=TOP, check=True)
    named = Ran("identify", folder / "named")
    yield "./identify of a file that only names the calls", named.status == 1 and named.out.endswith(b", and has no code of them as this tree builds it\n")
    for name in PROGRAMS:
        program = (TOP / "target" / "bin" / name).read_bytes()
        other.write_bytes(with_other(program, program[-64:]))
        yield f"./identify of a changed {name}", re.fullmatch(rb".*/other: neither a program nor a library of this tree, and none of their calls; its SHA-256 is [0-9a-f]{64}\n", Ran("identify", other).out)
    yield "./identify of two files, one of them another's", Ran("identify", "target/bin/agree", other).status == 1
    yield "./identify of no file", Ran("identify", folder / "none").gives(2, b"", "identify: .*/none: No such file or directory\n")
    for command in "build", "identify":
        yield f"{command} --help", (asked := Ran(command, "--help")).status == 0 and asked.out.startswith(f"usage: ./{command} ".encode())
    yield "./build of nothing known", Ran("build", "agreed").gives(2, b"", r"build: there is nothing called agreed\nusage: (?s:.*)")
    yield "./identify without a file", Ran("identify").gives(2, b"", r"usage: (?s:.*)")


# ---- README.md's block


def pasted(folder):
    """The block of README.md from a text to a picture, pasted whole into a shell."""
    block = re.search(r"## From a text to a picture\n.*?```\n(.*?)```", (TOP / "README.md").read_text(encoding="utf-8"), re.S).group(1)
    for command in COMMANDS:
        os.symlink(TOP / command, folder / command)
    done = in_shell(block, top=folder)
    made = {name: (folder / f"line.{name}").read_bytes() for name in ("text", "sheet", "svg")}
    yield "README.md's block prints case A's listing", (done.returncode, done.stdout, done.stderr) == (0, LISTING, b"")
    yield "and makes its sheet", made["sheet"] == AGREE.read_bytes()
    yield "and its picture", made["svg"].startswith(b"<svg ") and made["svg"].endswith(b"</svg>\n")


def checks():
    trials = [inputs, numbers, refusals, troubles, noisy_runs, audited, audits_refused, audit_troubles]
    trials += [building, cut_listings, stopped, failing, interrupts, at_once, identified, pasted]
    for trial in trials:
        with tempfile.TemporaryDirectory() as folder:
            yield from trial(pathlib.Path(folder).resolve())
    yield from documented()
    yield from uses()
    yield from drawn_by_seed()
    yield from audit_uses()


def ready():
    """Whether the programs are built and newer than their sources: what a first use says is tried by itself. If not, says why and counts that as a failure."""
    for words in ("build", *PROGRAMS), ("draw", AGREE):
        made = Ran(*words)
        if made.status != 0:
            print(f"{made.said}0 passed, 1 failed")
            return False
    return True


if __name__ == "__main__":
    sys.exit(not (ready() and closing(checks())))
