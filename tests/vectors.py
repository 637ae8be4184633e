#!/usr/bin/env python3
"""Holds every exported call and the programs agree, rewrite, audit and seeds to both sets of conformance vectors, those of vectors/ and of vectors/offers/
(vectors/README.md has their form), and the model of the tests too. Some vectors are derived from those that are there: the reading of one bit from those of all
bits, the runs of a number's bits from its own, and checks of their logs; what a header and a seed are refused by, generated tables written, read back and rehearsed,
and the sheets of noisy runs.

A station takes each row by offer and acceptance, which must do what taking it does; other offers must be refused. A call is handed each buffer with bytes around it
that must stay as they are; so must what it may only read, and in a refused call every buffer. Then the test itself is tried: on copies of the vectors with a wrong
answer planted in each, on calls that write where they may not or answer otherwise, and on other programs. The last line is 'N passed, M failed'.

    tests/vectors.py --model    holds the model alone
"""
import collections
import copy
import ctypes
import json
import pathlib
import subprocess
import sys
import tempfile

import examples
import model
import sheet as sheets
from counting import built, closing
from model import OUTCOME

TOP = pathlib.Path(__file__).resolve().parent.parent
VECTORS = TOP / "vectors"
# each set of vectors, and whether its stations' steps tell the ballot that an offer shows; the files of a set, and how many vectors these have
SETS = {"vectors": False, "vectors/offers": True}
FILES = "calls.jsonl", "listings.jsonl", "seeds.jsonl"
OF_EACH_CALL, LISTINGS, NOISY = 20, 110, 8
PROGRAM, REWRITE, AUDIT, SEEDS = PROGRAMS = [TOP / "target" / "bin" / name for name in ("agree", "rewrite", "audit", "seeds")]
LIBRARIES = "exports", "controller", "lent", "offer_calls"
LINE, STATION, STATE = ("n", "t", "T"), ("n", "t", "T", "sender", "own"), ("round", "value", "z", "grade", "count")
NUMBER = *LINE, "sender", "value", "w", "marks"
AROUND = 64
# an answer's highest byte is the refusal, the VALUES below it are what the call gives, and the fifth of them a count
VALUES = 7
REFUSAL, COUNT = 256 ** VALUES, 256 ** OUTCOME
# a state is below STATES; what stands above it where it is handed in nobody looks at
STATES = 256 ** len(STATE)
ABOVE = 0xa5c33c * STATES


class Fault(Exception):
    """What a call has done beside its answer."""


# ---- the calls


class Buffer:
    """Bytes that a call is handed, with others before and behind them."""

    def __init__(self, name, content, sized=True):
        self.name, self.size, self.sized = name, len(content), sized
        self.before = self.filling(AROUND) + bytes(content) + self.filling(AROUND)
        self.held = (ctypes.c_uint8 * len(self.before)).from_buffer_copy(self.before)

    @staticmethod
    def filling(size):
        """Bytes that a call would hardly write, all 256 over and over."""
        return (bytes((37 * place + 101) % 256 for place in range(256)) * (size // 256 + 1))[:size]

    @classmethod
    def lent(cls, name, size):
        return cls(name, cls.filling(size))

    def handed(self):
        """What a call is given of it: where it begins, and how long it is."""
        start = ctypes.addressof(self.held) + AROUND
        return [start, self.size] if self.sized else [start]

    def content(self):
        return bytes(self.held)[AROUND:AROUND + self.size]

    def hold_around(self):
        after = bytes(self.held)
        if (after[:AROUND], after[AROUND + self.size:]) != (self.before[:AROUND], self.before[AROUND + self.size:]):
            raise Fault(f"written beside {self.name}")

    def hold(self):
        self.hold_around()
        if bytes(self.held) != self.before:
            raise Fault(f"{self.name} has changed")


class Library:
    """The exported calls, linked into one shared object."""

    def __init__(self, path):
        self.calls = ctypes.CDLL(str(path))
        byte, word, size, place = ctypes.c_uint8, ctypes.c_uint32, ctypes.c_size_t, ctypes.c_void_p
        buffer, station, state, offer = [place, size], [byte] * 5, [ctypes.c_uint64], [ctypes.c_uint64]
        self.declare(byte, vembopu_read=buffer * 2, vembopu_read_bit=buffer + [byte] + buffer)
        self.declare(byte, vembopu_advance_lent=[place] + buffer, vembopu_accept_lent=[place] + buffer + offer)
        self.declare(byte, vembopu_generate=buffer + [word] + buffer, vembopu_exchange=[byte] * 3 + [word] + buffer * 3)
        self.declare(byte, vembopu_rehearse=[byte] * 6 + [word] + buffer * 3)
        self.declare(ctypes.c_uint64, vembopu_open=station + [byte], vembopu_advance=station + state + buffer)
        self.declare(ctypes.c_uint64, vembopu_ballot=station + state, vembopu_result=station + state)
        self.declare(ctypes.c_uint64, vembopu_offer=station + state + buffer, vembopu_accept=station + state + buffer + offer)
        self.declare(ctypes.c_uint64, vembopu_sheet_len=buffer * 2, vembopu_write=buffer * 3, vembopu_check=[byte] * 4 + buffer * 2)

    def declare(self, answer, **calls):
        for name, arguments in calls.items():
            call = getattr(self.calls, name)
            call.argtypes, call.restype = arguments, answer

    def call(self, name, *arguments):
        flat = []
        for argument in arguments:
            flat += argument.handed() if isinstance(argument, Buffer) else [argument]
        return getattr(self.calls, name)(*flat)


def linked(folder):
    """The static libraries as one shared object in this folder."""
    subprocess.run([TOP / "build", *LIBRARIES], check=True)
    shared = pathlib.Path(folder) / "libvembopu.so"
    archives = [TOP / "target" / "staticlib" / f"lib{name}.a" for name in LIBRARIES]
    subprocess.run(["gcc", "-shared", "-o", shared, "-Wl,--whole-archive", *archives, "-Wl,--no-whole-archive"], check=True)
    return Library(shared)


# ---- what each call makes of a vector's arguments, in the form of its answer


def answer(number, read, written):
    """An answer with its buffers: those that are only read are as they were, in a refused call the others too."""
    for buffer in read + (written if number else []):
        buffer.hold()
    for buffer in written:
        buffer.hold_around()
    return {"refused": number} if number else {buffer.name: buffer.content().hex() for buffer in written}


def given(args, *names):
    return [Buffer(name, bytes.fromhex(args[name])) for name in names]


def lent(args, *names):
    return [Buffer.lent(name, args[name + "_len"]) for name in names]


def read(library, args):
    sheet, table = given(args, "sheet"), lent(args, "table")
    return answer(library.call("vembopu_read", *sheet, *table), sheet, table)


def read_bit(library, args):
    sheet, table = given(args, "sheet"), lent(args, "table")
    return answer(library.call("vembopu_read_bit", *sheet, args["bit"], *table), sheet, table)


def write(library, args):
    """The sheet. The bytes that it needs are told beforehand as the model has them, and how many records it has afterwards."""
    inputs, sheet = given(args, "header", "table"), lent(args, "sheet")
    told, wanted = divmod(library.call("vembopu_sheet_len", *inputs), REFUSAL), sheets.needed(*(buffer.content() for buffer in inputs))
    answer(told[0], inputs, [])
    if told != wanted:
        raise Fault(f"vembopu_sheet_len answers {told}, wanted is {wanted}")
    refused, records = divmod(library.call("vembopu_write", *inputs, *sheet), REFUSAL)
    if records != (0 if refused else (sheet[0].size - sheets.HEADER) // sheets.RECORD):
        raise Fault(f"vembopu_write answers {refused} and {records} records")
    return answer(refused, inputs, sheet)


def generate(library, args):
    header, table = given(args, "header"), lent(args, "table")
    return answer(library.call("vembopu_generate", *header, args["seed"], *table), header, table)


def exchange(library, args):
    numbers = [args[name] for name in (*LINE, "marks")]
    inputs, outcomes = given(args, "inputs", "table"), lent(args, "outcomes")
    return answer(library.call("vembopu_exchange", *numbers, *inputs, *outcomes), inputs, outcomes)


def rehearse(library, args):
    numbers = [args[name] for name in NUMBER]
    table, made = given(args, "table"), lent(args, "log", "outcomes")
    return answer(library.call("vembopu_rehearse", *numbers, *table, *made), table, made)


def check(library, args):
    numbers, inputs = [args[name] for name in (*LINE, "sender")], given(args, "log", "outcomes")
    refused, marks = divmod(library.call("vembopu_check", *numbers, *inputs), REFUSAL)
    if refused and marks:
        raise Fault(f"vembopu_check: {marks} with a refusal")
    return answer(refused, inputs, []) or {"marks": marks}


class Station:
    """A station by its numbers and its state, and the offers that it has made."""

    def __init__(self, library, numbers, state):
        self.library, self.numbers, self.state, self.offers = library, numbers, state, set()

    def asked(self, name, above=ABOVE):
        """Refusal and values of a call on numbers; a refusal has no values."""
        refused, values = divmod(self.library.call(name, *self.numbers, self.state + above), REFUSAL)
        if refused and values:
            raise Fault(f"{name}: {values} with a refusal")
        return refused, values

    def ballot(self):
        refused, values = self.asked("vembopu_ballot")
        return {"refused": refused} if refused else values

    def result(self):
        refused, values = self.asked("vembopu_result")
        if refused:
            return {"refused": refused}
        done, *rest = values.to_bytes(VALUES, "little")
        outcome, above = rest[:OUTCOME], rest[OUTCOME:]
        return {"running": values >> 8} if done == 0 else {"done": outcome} if done == 1 and not any(above) else values

    def in_bytes(self, state):
        return bytes(self.numbers) + state.to_bytes(len(STATE), "little")

    def looked(self, name, row, *offer):
        """Refusal and values of a call on numbers with a row, which it only reads."""
        row = Buffer("row", row)
        number = self.library.call(name, *self.numbers, self.state + ABOVE, row, *offer)
        row.hold()
        return divmod(number, REFUSAL)

    def offer(self, row):
        """The 64 bits of the row's offer, a second time the same."""
        first, second = (self.looked("vembopu_offer", row) for _ in range(2))
        refused, values = first
        if first != second or (refused and values) or values >= 256 * STATES:
            raise Fault(f"vembopu_offer: {first}, then {second}")
        return refused * REFUSAL + values

    def stepped(self, name, row, *offer):
        """Refusal and state after a call that takes a row, by the one on numbers and by the one on a lent station."""
        refused, after = self.looked(name, row, *offer)
        if refused and after != self.state:
            raise Fault(f"{name}: another state with a refused row")
        if after >= STATES:
            raise Fault(f"{name}: {after:#x} is no state")
        row, lent_one = Buffer("row", row), Buffer("station", self.in_bytes(self.state), sized=False)
        number = self.library.call(name + "_lent", lent_one, row, *offer)
        answer(number, [row], [lent_one])
        if (number, lent_one.content()) != (refused, self.in_bytes(after)):
            raise Fault(f"{name}_lent answers {number} and is {lent_one.content().hex()}, not {refused} and {self.in_bytes(after).hex()}")
        return refused, after

    def take(self, row):
        """The refusal's number, 0 where the row is taken: by an acceptance with the row's offer, as without one. Any other offer is refused, by 17 where the row
        is taken."""
        offer, taken = self.offer(row), self.stepped("vembopu_advance", row)
        if (offer // REFUSAL, offer % STATES) != (taken[0], 0 if taken[0] else taken[1]):
            raise Fault(f"offered is {offer:#x}, taken {taken}")
        for other in (others_of(offer) | self.offers) - {offer}:
            if (tried := self.stepped("vembopu_accept", row, other)) != (taken[0] or OTHER_OFFER, self.state):
                raise Fault(f"offer {other:#x} in place of {offer:#x}: {tried}")
        if (accepted := self.stepped("vembopu_accept", row, offer)) != taken:
            raise Fault(f"accepted by {accepted}, taken by {taken}")
        self.offers.add(offer)
        refused, self.state = accepted
        return refused


OTHER_OFFER = 17


def others_of(offer):
    """Offers that are not this one: with a bit of each byte changed, and the highest; with another ballot; as a refusal; nothing, and all ones."""
    return {offer ^ 1 << at for at in (*range(0, 64, 8), 63)} | {offer ^ 255 * STATES, offer % STATES + OTHER_OFFER * REFUSAL, 0, 2**64 - 1}


def offered_ballot(offer):
    return {"refused": offer // REFUSAL} if offer >= REFUSAL else offer // STATES


def step(station, row):
    ballot, result, offer, refused = station.ballot(), station.result(), station.offer(row), station.take(row)
    return {"ballot": ballot, "result": result, "row": {"refused": refused} if refused else "taken", "offered_ballot": offered_ballot(offer)}


def station(library, args):
    numbers = [args[name] for name in STATION]
    one = Station(library, numbers, args["value"])
    refused, state = one.asked("vembopu_open", above=0)
    if refused:
        return {"refused": refused}
    one.state = state
    steps = [step(one, bytes.fromhex(row)) for row in args["rows"]]
    return {"steps": steps, "result": one.result()}


def station_state(library, args):
    state = int.from_bytes(bytes(args[name] for name in STATE), "little")
    one = Station(library, [args[name] for name in STATION], state)
    refusals = {"ballot": one.asked("vembopu_ballot")[0], "result": one.asked("vembopu_result")[0]}
    return {"refusals": {**refusals, "row": one.take(bytes.fromhex(args["row_bytes"]))}}


CALLS = {call.__name__: call for call in (read, read_bit, write, generate, exchange, rehearse, check, station, station_state)}


def tells_offers(vector):
    """Whether a step of a vector's station tells an offered ballot."""
    return any("offered_ballot" in step for step in vector["want"].get("steps", ()))


def in_form(made, vector):
    """What is made of a vector, in its form: without the offered ballots, if it tells none."""
    if "steps" not in made or tells_offers(vector):
        return made
    return {**made, "steps": [{name: told for name, told in step.items() if name != "offered_ballot"} for step in made["steps"]]}


def call_fault(library, vector):
    """What is wrong with what the call makes of a vector, if anything is."""
    try:
        made = in_form(CALLS[vector["call"]](library, vector["args"]), vector)
    except Fault as fault:
        return str(fault)
    return None if made == vector["want"] else f"gives {made}, wanted is {vector['want']}"


def ran(program, data, words=()):
    """How a program ends that is given these bytes and words: its status, and what it writes to standard output and standard error."""
    done = subprocess.run([program, *words], input=data, capture_output=True)
    return done.returncode, done.stdout, done.stderr


def rewrite(data):
    return ran(REWRITE, data)


def printed_fault(program, vector, wanted):
    """What is wrong with what the program prints of a vector's sheet, if it isn't the wanted text."""
    made = ran(program, bytes.fromhex(vector["sheet"]))
    return None if made == (0, wanted.encode(), b"") else f"gives {made}, wanted is {wanted!r}"


def listing_fault(program, vector):
    return printed_fault(program, vector, vector["listing"])


def listings_fault(program, vector):
    return printed_fault(program, vector, vector["listings"])


def sheet_refusal(vector):
    """The number by which a vector's sheet is refused, 0 if it isn't; None where only the table's length is told to be wrong."""
    if "listing" in vector:
        word, number, *_ = vector["listing"].split()
        return int(number) if word == "refused" else 0
    number = vector["want"].get("refused", 0)
    return None if number == 8 else number


def rewrite_fault(library, program, vector):
    """What is wrong with what the program, a function of bytes, makes of a vector's sheet, if anything is: wanted is the refusal, or the model's normal
    form, of which the program makes the same again and which has the vector's listing or table."""
    args = vector.get("args", vector)
    data = bytes.fromhex(args["sheet"])
    cause, normal = sheets.rewritten(data)
    if sheet_refusal(vector) not in (None, cause):
        return f"the model refuses it by {cause}, the vector by {sheet_refusal(vector)}"
    wanted = 0, f"refused {cause}\n".encode() if cause else normal, b""
    for given_sheet in (data,) if cause else (data, normal):
        if (made := program(given_sheet)) != wanted:
            return f"makes {made} of {given_sheet.hex()}, wanted is {wanted}"
    if cause or sheet_refusal(vector) is None:
        return None
    if "listing" in vector:
        return listing_fault(PROGRAM, {**vector, "sheet": normal.hex()})
    return call_fault(library, {**vector, "args": {**args, "sheet": normal.hex()}})


def audit(args):
    """How the program ends that is given the numbers of a check, and the names of files with its log and its outcomes."""
    with tempfile.TemporaryDirectory() as folder:
        files = [pathlib.Path(folder) / name for name in ("log", "outcomes")]
        for file in files:
            file.write_bytes(bytes.fromhex(args[file.name]))
        return ran(AUDIT, b"", [*(str(args[name]) for name in (*LINE, "sender")), *files])


def audit_line(want):
    """What the program prints where this is the answer of the call."""
    if "refused" in want:
        return f"refused {want['refused']}\n"
    return "".join(["broke", *(f" {i}" for i in range(1, 33) if want["marks"] >> (i - 1) & 1), "\n"])


def audit_fault(program, vector):
    """What is wrong with what the program, a function of a check's arguments, prints of them, if anything is."""
    made, wanted = program(vector["args"]), (0, audit_line(vector["want"]).encode(), b"")
    return None if made == wanted else f"gives {made}, wanted is {wanted}"


# ---- the model, where it has the call


def modelled(call, args):
    """What the model makes of a vector's arguments, in the form of an answer."""
    buffers = {name: bytes.fromhex(args[name]) for name in ("sheet", "header", "table") if name in args}
    cause, made = MODELLED[call](args, **buffers)
    return {"refused": cause} if cause else made


def model_read(args, sheet):
    cause, table = sheets.read(sheet, bytes(args["table_len"]))
    return cause, {"table": bytes(table).hex()}


def model_read_bit(args, sheet):
    cause, table = sheets.read_bit(sheet, args["bit"], bytes(args["table_len"]))
    return cause, {"table": bytes(table).hex()}


def model_write(args, header, table):
    cause, size = sheets.needed(header, table)
    if cause == 0 and size != args["sheet_len"]:
        cause = 8
    return cause, {} if cause else {"sheet": sheets.written(header, table).hex()}


def model_generate(args, header):
    cause = sheets.judge_generation(header, args["seed"], args["table_len"])
    return cause, {} if cause else {"table": bytes(examples.noisy_tables(header, args["seed"])).hex()}


def model_rehearse(args, table):
    """Refused as a sheet of these numbers would be, then by a buffer's length."""
    n, t, _, _, _, w, marks = (args[name] for name in NUMBER)
    cause = sheets.opening(bytes(args[name] for name in NUMBER[:6]) + bytes(2) + marks.to_bytes(4, "little"))
    size = sheets.tables_size(n, t, w)
    if cause == 0 and (len(table), args["log_len"], args["outcomes_len"]) != (size, size, OUTCOME * n):
        cause = 8
    if cause:
        return cause, {}
    log, outcomes = model.number_broadcast(runs_of(args, table))
    return 0, {"log": bytes(log).hex(), "outcomes": in_hex(outcomes)}


def model_station(args):
    """Opened, then stepped by offer and acceptance."""
    n, t, T, sender, own = (args[name] for name in STATION)
    cause = station_cause(args) or (0 if args["value"] in (0, 1) else 5)
    if cause:
        return cause, {}
    one = model.Station(model.Rules, model.Run(n, t, T, sender - 1, 0, [False] * n, []), own - 1, args["value"])
    steps = [model_step(one, bytes.fromhex(row)) for row in args["rows"]]
    return 0, {"steps": steps, "result": model_result(one)}


def station_cause(args):
    """The lowest of causes 2, 3 and 4, or 0."""
    n, t, T, sender, own = (args[name] for name in STATION)
    causes = {2: not 1 <= n <= 32, 3: t > T or t + 2 * T >= n, 4: not (1 <= sender <= n and 1 <= own <= n)}
    return min((cause for cause, holds in causes.items() if holds), default=0)


def model_step(station, row):
    ballot, result = {"refused": 7} if station.is_done() else station.ballot(), model_result(station)
    cause, offer = model.offer(station, row)
    refused = model.accept(station, row, offer)
    return {
        "ballot": ballot, "result": result, "row": {"refused": refused} if refused else "taken", "offered_ballot": {"refused": cause} if cause else offer[-1],
    }


def model_result(station):
    return {"done": list(station.result())} if station.is_done() else {"running": station.round}


def model_station_state(args):
    """The numbers that ballot, result and row give."""
    n, t, round_, value, z, grade, count = (args[name] for name in ("n", "t", *STATE))
    fits = 1 <= round_ <= 3 * t + 7 and value <= 1 and z <= 2 and grade <= 2 and count < round_
    result = station_cause(args) or (0 if fits else 7)
    ballot = result or (7 if round_ == 3 * t + 7 else 0)
    row = ballot or (0 if len(bytes.fromhex(args["row_bytes"])) == n else 8)
    return 0, {"refusals": {"ballot": ballot, "result": result, "row": row}}


MODELLED = {
    "read": model_read, "read_bit": model_read_bit, "write": model_write, "generate": model_generate, "rehearse": model_rehearse, "station": model_station,
    "station_state": model_station_state,
}


def runs_of(args, table):
    """The model's run of each bit."""
    n, t, T, sender, value, w, marks = (args[name] for name in NUMBER)
    return model.runs_of_bits(n, t, T, sender - 1, value, w, [bool(marks >> i & 1) for i in range(n)], table)


def in_hex(outcomes):
    return bytes(byte for outcome in outcomes for byte in outcome).hex()


def model_fault(vector):
    """What is wrong with what the model makes of a vector, if anything is."""
    if "listing" in vector:
        made, wanted = examples.listing(bytes.fromhex(vector["sheet"])), vector["listing"]
    elif "listings" in vector:
        made, wanted = examples.listings(bytes.fromhex(vector["sheet"])), vector["listings"]
    else:
        made, wanted = in_form(modelled(vector["call"], vector["args"]), vector), vector["want"]
    return None if made == wanted else f"gives {made!r}, wanted is {wanted!r}"


# ---- vectors that follow from others


BEFORE_LENGTH = 1, 15, 2, 3, 4, 5, 6


def bits_read(sheet, lent, want):
    """What follows from a reading of all bits for that of one: bit, length of the lent table and answer. A table of one bit's length gets that bit's part. The
    whole sheet is judged, so that it has the same refusal: one that comes before the table's length with any table, one of the length with a byte more than
    one bit's table has. A bit that the sheet hasn't is 11, after the length and before the chain."""
    cause = want.get("refused", 0)
    if cause in BEFORE_LENGTH:
        return [(bit, lent, want) for bit in (0, 1, 255)]
    size, bits = sheets.table_size(*sheet[:2]), sheets.bits(sheet[5])
    if cause == 8:
        return [(bit, size + 1, want) for bit in (0, bits, 255)]
    parts = [want if cause else {"table": want["table"][2 * bit * size:2 * (bit + 1) * size]} for bit in range(bits)]
    return [(bit, size, part) for bit, part in enumerate(parts)] + [(bit, size, {"refused": 11}) for bit in (bits, 255)]


def bit_by_bit(calls):
    """The readings of one bit that follow from each reading of all bits."""
    for place, vector in calls:
        if vector["call"] == "read":
            sheet = vector["args"]["sheet"]
            for bit, lent, want in bits_read(bytes.fromhex(sheet), vector["args"]["table_len"], vector["want"]):
                yield f"{place}, bit {bit}", {"call": "read_bit", "args": {"sheet": sheet, "bit": bit, "table_len": lent}, "want": want}


def runs_of_bits(calls):
    """Each rehearsal of several bits taken apart: that of each bit alone. Its table and log are that bit's part of the number's; its outcomes are the model's,
    which put together give the number's."""
    for place, vector in calls:
        if vector["call"] != "rehearse" or "refused" in vector["want"] or is_one_bit(vector):
            continue
        args, log = vector["args"], vector["want"]["log"]
        for bit, run in enumerate(runs_of(args, bytes.fromhex(args["table"]))):
            size = len(run.table)
            alone = args | {"value": run.value, "w": bit % 2, "table": run.table.hex(), "log_len": size}
            want = {"log": log[2 * bit * size:2 * (bit + 1) * size], "outcomes": in_hex(model.broadcast(model.Rules, run)[1])}
            yield f"{place}, bit {bit}", {"call": "rehearse", "args": alone, "want": want}


def is_one_bit(vector):
    return sheets.bits(vector["args"]["w"]) == 1


def rehearsed(calls):
    """A check of the log and the outcomes of each rehearsal of one bit: it yields the marks; with one station's count another, that station too."""
    for place, vector in calls:
        if vector["call"] == "rehearse" and "refused" not in vector["want"] and is_one_bit(vector):
            args = {name: vector["args"][name] for name in (*LINE, "sender")} | vector["want"]
            marks = vector["args"]["marks"]
            yield f"{place}, checked", {"call": "check", "args": args, "want": {"marks": marks}}
            for station in unmarked(args["outcomes"])[:1]:
                args = args | {"outcomes": miscounted(args["outcomes"], station)}
                yield f"{place}, miscounted", {"call": "check", "args": args, "want": {"marks": marks | 1 << station}}


def generations(calls):
    """What follows from a generation for others: a first index is not looked at; a header a byte short is 1, w above 8 is 15, a seed of 0 is 16 before 8."""
    for place, vector in calls:
        if vector["call"] == "generate":
            args, want, header = vector["args"], vector["want"], vector["args"]["header"]
            others = {
                "another first index": ({"header": header[:12] + "ffff" + header[16:]}, want), "a byte short": ({"header": header[:-2], "seed": 0}, {"refused": 1}),
                "w 9": ({"header": header[:10] + "09" + header[12:], "seed": 0}, {"refused": 15}),
                "seed 0": ({"seed": 0, "table_len": args["table_len"] + 1}, {"refused": 16} if want.get("refused") in (None, 8, 16) else want),
            }
            for name, (other, wanted) in others.items():
                yield f"{place}, {name}", {"call": "generate", "args": args | other, "want": wanted}


def generated_runs(calls):
    """Each generated table written, the sheet read, and the table rehearsed: sheet, log and outcomes are the model's, and what is read is what was generated."""
    for place, vector in calls:
        if vector["call"] == "generate" and "refused" not in vector["want"]:
            header, table = (bytes.fromhex(part) for part in (vector["args"]["header"], vector["want"]["table"]))
            size = sheets.needed(header, table)[1]
            for call, args in ("write", {"header": header.hex(), "table": table.hex(), "sheet_len": size}), ("rehearse", rehearsal_of(header, table)):
                yield f"{place}, {call}", {"call": call, "args": args, "want": modelled(call, args)}
            if size:
                args = {"sheet": sheets.written(header, table).hex(), "table_len": len(table)}
                yield f"{place}, read back", {"call": "read", "args": args, "want": vector["want"]}


def rehearsal_of(header, table):
    """The arguments of a rehearsal of a header's numbers."""
    return dict(zip(NUMBER, sheets.header(header))) | {"table": table.hex(), "log_len": len(table), "outcomes_len": OUTCOME * header[0]}


# of a noisy line's 100 listings those that are held one by one
SOME_SEEDS = 1, 2, 100


def listings_of_seeds(seeds):
    """Listings that follow from those of noisy runs: of a refused sheet, the refusal; of any other, the model's; of the sheet that is written of a seed's tables,
    that seed's."""
    for place, vector in seeds:
        sheet, listings = bytes.fromhex(vector["sheet"]), vector["listings"]
        refused = listings.startswith("refused ")
        yield f"{place}, as it is", {"sheet": vector["sheet"], "listing": listings if refused else examples.listing(sheet)}
        for seed in () if refused else SOME_SEEDS:
            table = examples.noisy_tables(sheet, seed)
            if sheets.needed(sheet[:sheets.HEADER], table)[0] == 0:
                listing = "agree " + listings.split("agree ")[seed]
                yield f"{place}, seed {seed}", {"sheet": sheets.written(sheet[:sheets.HEADER], table).hex(), "listing": listing}


def more_seeds(calls, listings, seeds):
    """What follows for noisy runs: every sheet that is refused is refused there too, and a normal form has the listings of its sheet."""
    for place, vector in [*calls, *listings]:
        if vector.get("call", "read") == "read" and sheet_refusal(vector):
            yield f"{place}, noisy", {"sheet": vector.get("args", vector)["sheet"], "listings": f"refused {sheet_refusal(vector)}\n"}
    for place, vector in seeds:
        cause, normal = sheets.rewritten(bytes.fromhex(vector["sheet"]))
        if cause == 0:
            yield f"{place}, in its normal form", {**vector, "sheet": normal.hex()}


def unmarked(outcomes):
    """The stations, from 0, whose outcome isn't a bad one's: "A bad station is told by grade 255"."""
    return [station for station, grade in enumerate(bytes.fromhex(outcomes)[1::OUTCOME]) if grade != 255]


def miscounted(outcomes, station):
    """The outcomes with one round more in this station's count, and nothing else changed."""
    changed = bytearray.fromhex(outcomes)
    changed[OUTCOME * station + OUTCOME - 1] += 1
    return changed.hex()


# ---- the test of the test


def leaves(want, path=()):
    """The places of an answer's numbers and texts."""
    if not isinstance(want, (dict, list)):
        return [path]
    inner = want.items() if isinstance(want, dict) else enumerate(want)
    return [leaf for key, value in inner for leaf in leaves(value, (*path, key))]


def wrong(value):
    """Another value of the same kind."""
    if isinstance(value, int):
        return value + 1
    if value == "taken":
        return {"refused": 8}
    return value[:-1] + ("0" if value[-1] != "0" else "1")


def planted(vector, path):
    """A copy of the vector that is wrong at this place."""
    made = copy.deepcopy(vector)
    inner = made
    for key in path[:-1]:
        inner = inner[key]
    inner[path[-1]] = wrong(inner[path[-1]])
    return made


class Writing:
    """A library of which one call writes a byte of one of its buffers."""

    def __init__(self, library, name, buffer, place):
        self.library, self.name, self.buffer, self.place = library, name, buffer, place

    def call(self, name, *arguments):
        number = self.library.call(name, *arguments)
        if name == self.name:
            buffer = [argument for argument in arguments if isinstance(argument, Buffer)][self.buffer]
            buffer.held[AROUND + (buffer.size if self.place == "behind" else self.place)] ^= 1
        return number


class Answering:
    """A library of which one call answers with another number."""

    def __init__(self, library, name, more):
        self.library, self.name, self.more = library, name, more

    def call(self, name, *arguments):
        return self.library.call(name, *arguments) + (self.more if name == self.name else 0)


class Reseeding:
    """A library that generates from another seed."""

    def __init__(self, library):
        self.library = library

    def call(self, name, *arguments):
        if name == "vembopu_generate":
            header, seed, table = arguments
            arguments = header, seed % 2**31 + 1, table
        return self.library.call(name, *arguments)


class Misoffering:
    """A library with a wrong reading of request 8: `shown` makes its offer of the right one, from what a call is handed; `same` says whether an offer is its own;
    and 17 may come `first`."""

    def __init__(self, library, shown=lambda library, station, right: right, same=lambda handed, own: handed == own, first=False):
        self.library, self.shown, self.same, self.first = library, shown, same, first

    def call(self, name, *arguments):
        if name not in ("vembopu_offer", "vembopu_accept", "vembopu_accept_lent"):
            return self.library.call(name, *arguments)
        lent = isinstance(arguments[0], Buffer)
        content = arguments[0].content() if lent else None
        station = [*content[:5], int.from_bytes(content[5:], "little")] if lent else arguments[:6]
        right = self.library.call("vembopu_offer", *station, arguments[1] if lent else arguments[6])
        own = self.shown(self.library, station, right) if right < REFUSAL else right
        if name == "vembopu_offer":
            return own
        *before, handed = arguments
        if self.first and handed != own:
            return OTHER_OFFER if lent else OTHER_OFFER * REFUSAL + station[5] % STATES
        return self.library.call(name, *before, right if self.same(handed, own) else ~right % 2**64)


def other_ballot(right, ballot):
    return right % STATES + STATES * ballot


def old_ballot(library, station, right):
    return other_ballot(right, library.call("vembopu_ballot", *station))


def done_value(library, station, right):
    done = right % 256 == 3 * station[1] + 7
    return other_ballot(right, right >> 8 & 255) if done else right


def but_for(byte):
    """Whether two offers are the same but for this byte of them."""
    return lambda handed, own: (handed ^ own) & ~(255 << 8 * byte) == 0


def misofferings(library):
    """Wrong readings of request 8."""
    for byte, name in enumerate((*STATE, "ballot", "seventh byte", "highest byte")):
        yield f"{name} not compared", Misoffering(library, same=but_for(byte))
    yield "any offer is taken", Misoffering(library, same=lambda handed, own: True)
    yield "no offer is taken", Misoffering(library, same=lambda handed, own: False)
    yield "17 before the row's causes", Misoffering(library, first=True)
    yield "the ballot of the old state", Misoffering(library, shown=old_ballot)
    yield "a done station's value for a ballot", Misoffering(library, shown=done_value)


class Miscounting:
    """A library that gets one count wrong and nothing else: that of a done result, and that of an unmarked station's outcome."""

    def __init__(self, library):
        self.library = library

    def call(self, name, *arguments):
        number = self.library.call(name, *arguments)
        if name == "vembopu_result" and number < REFUSAL and number % 256 == 1:
            return number + COUNT
        if number == 0 and name in ("vembopu_exchange", "vembopu_rehearse"):
            outcomes = arguments[-1]
            changed = miscounted(outcomes.content().hex(), unmarked(outcomes.content().hex())[0])
            outcomes.held[AROUND:AROUND + outcomes.size] = bytes.fromhex(changed)
        return number


BUFFERS = {
    "read": {"vembopu_read": 2}, "read_bit": {"vembopu_read_bit": 2}, "write": {"vembopu_sheet_len": 2, "vembopu_write": 3},
    "generate": {"vembopu_generate": 2}, "exchange": {"vembopu_exchange": 3}, "rehearse": {"vembopu_rehearse": 3}, "check": {"vembopu_check": 2},
}
BUFFERS["station"] = BUFFERS["station_state"] = {
    "vembopu_advance": 1, "vembopu_advance_lent": 2, "vembopu_offer": 1, "vembopu_accept": 1, "vembopu_accept_lent": 2,
}

ANSWERS = {
    "write": (("vembopu_sheet_len", 8), ("vembopu_sheet_len", REFUSAL), ("vembopu_write", 1), ("vembopu_write", REFUSAL)),
    "generate": (("vembopu_generate", 1), ("vembopu_generate", -1)), "check": (("vembopu_check", 1), ("vembopu_check", REFUSAL)),
    "station": (
        ("vembopu_open", REFUSAL), ("vembopu_ballot", COUNT), ("vembopu_result", STATES), ("vembopu_advance", COUNT), ("vembopu_advance", STATES),
        ("vembopu_offer", COUNT), ("vembopu_offer", STATES), ("vembopu_offer", 256 * STATES), ("vembopu_accept", COUNT), ("vembopu_accept", REFUSAL),
        ("vembopu_accept_lent", 1),
    ),
    "station_state": (
        ("vembopu_ballot", REFUSAL), ("vembopu_result", REFUSAL), ("vembopu_advance", REFUSAL), ("vembopu_advance_lent", 1), ("vembopu_offer", REFUSAL),
        ("vembopu_accept", REFUSAL), ("vembopu_accept_lent", 1),
    ),
}


def writings(library, vector):
    """Each call of a vector with a byte written before, in and behind each of its buffers."""
    for name, buffers in BUFFERS[vector["call"]].items():
        for buffer in range(buffers):
            for place in -1, 0, "behind":
                yield f"{name}, buffer {buffer}, byte {place}", Writing(library, name, buffer, place)


def samples(vectors):
    """One vector of each call that is accepted, and one that is refused."""
    kinds = {(vector["call"], "refused" in vector["want"]): vector for vector in reversed(vectors) if vector["args"].get("rows") != []}
    return list(kinds.values())


def counting(vectors):
    """The vectors whose answer has the count of a station."""
    has_count = {
        "exchange": lambda want: unmarked(want["outcomes"]), "rehearse": lambda want: unmarked(want["outcomes"]), "station": lambda want: "done" in want["result"],
    }
    return [vector for vector in vectors if vector["call"] in has_count and "refused" not in vector["want"] and has_count[vector["call"]](vector["want"])]


def told(vectors, fault):
    """Writes vectors to a file and reads them back; how many of them are told to be wrong."""
    with tempfile.TemporaryDirectory() as folder:
        path = pathlib.Path(folder) / "planted.jsonl"
        path.write_text("".join(json.dumps(vector) + "\n" for vector in vectors))
        return sum(fault(vector) is not None for _, vector in lines(path))


def own_checks(library, calls, listings, seeds):
    """A name and whether it holds, for each check of the test itself."""
    for name in CALLS:
        yield f"there are vectors of {name}", any(vector["call"] == name for vector in calls)
    for vector in samples(calls):
        name = vector["call"] + (", refused" if "refused" in vector["want"] else "")
        wrongs = [planted(vector, ("want", *path)) for path in leaves(vector["want"])]
        yield f"{name}: all of {len(wrongs)} wrong answers are told", told(wrongs, lambda one: call_fault(library, one)) == len(wrongs) > 0
        if vector["call"] != "station" or "refused" not in vector["want"]:
            for what, writing in writings(library, vector):
                yield f"{name}: {what}", call_fault(writing, vector) is not None
        for call, more in ANSWERS.get(vector["call"], ()):
            if vector["call"] != "station" or "refused" not in vector["want"] or call == "vembopu_open":
                yield f"{name}: {call} with {more} more", call_fault(Answering(library, call, more), vector) is not None
    for vector in counting(calls):
        yield f"{vector['call']}: a wrong count is told", call_fault(Miscounting(library), vector) is not None
    # what an offer shows is told by the steps that have it
    offered = [vector for vector in calls if tells_offers(vector)]
    for name, wrong_one in misofferings(library) if offered else ():
        yield f"station: {name} is told", any(call_fault(wrong_one, vector) is not None for vector in offered)
    for vector in listings[:3]:
        wrongs = [planted(vector, ("listing",)), {**vector, "listing": vector["listing"] + "\n"}, {**vector, "listing": ""}]
        yield "a wrong listing is told", told(wrongs, lambda one: listing_fault(PROGRAM, one)) == 3
    yield "another program is told", listing_fault("false", listings[0]) is not None
    yield from noise_checks(library, [vector for vector in calls if vector["call"] == "generate"], seeds)
    yield from rewriting_checks(library, [vector for vector in calls if vector["call"] == "read"] + listings)
    yield from auditing_checks([vector for vector in calls if vector["call"] == "check"])


def noise_checks(library, generations, seeds):
    """Another generator; and wrong listings of noisy runs, and other programs, on a sheet whose runs differ and one that is refused."""
    for vector in generations:
        if vector["want"].get("refused") == 16 or set(vector["want"].get("table", "")) > {"f"}:
            yield f"generate: another seed is told, of {vector['args']['seed']}", call_fault(Reseeding(library), vector) is not None
    noisy = next(one for one in seeds if len(set(one["listings"].split("agree "))) > 50)
    refused = next(one for one in seeds if one["listings"].startswith("refused "))
    for vector in noisy, refused:
        for name, wrong_one in wrong_listings(vector["listings"]).items():
            yield f"wrong listings are told: {name}", told([{**vector, "listings": wrong_one}], lambda one: listings_fault(SEEDS, one)) == 1
    yield "other programs than seeds are told", all(listings_fault(other, noisy) is not None for other in ("false", PROGRAM, REWRITE))
    yield "another program is told by a refusal", listings_fault("false", refused) is not None


def wrong_listings(text):
    """Texts that are not the listings, by what is wrong with them."""
    first, *rest = text.split("agree ")[1:] or [text]
    wrongs = {"nothing": "", "another last byte": wrong(text), "a line more": text + "\n", "twice": text * 2}
    if rest:
        parts = {"the first missing": rest, "the last missing": [first, *rest[:-1]], "one more": [first, *rest, first]}
        parts["the first two exchanged"] = [rest[0], first, *rest[1:]]
        wrongs |= {name: "".join("agree " + part for part in wrong_parts) for name, wrong_parts in parts.items()}
    return wrongs


def rewriting_checks(library, vectors):
    """Other programs than rewrite, on a sheet that isn't in its normal form and one that is refused; and wrong vectors."""
    untidy = next(one for one in vectors if sheet_refusal(one) == 0 and "listing" in one and sheets.rewritten(bytes.fromhex(one["sheet"]))[1].hex() != one["sheet"])
    read_one = next(one for one in vectors if sheet_refusal(one) == 0 and "args" in one)
    refused = next(one for one in vectors if sheet_refusal(one))
    others = {
        "that gives the sheet": lambda data: (0, data, b""), "that gives nothing": lambda data: (0, b"", b""), "that refuses all": lambda data: (0, b"refused 99\n", b""),
        "with a status": lambda data: (1, *rewrite(data)[1:]), "that says something": lambda data: (*rewrite(data)[:2], b"so"),
        "with a byte more": lambda data: (0, rewrite(data)[1] + b"\0", b""),
    }
    for name, other in others.items():
        for kind, vector in ("untidy", untidy), ("refused", refused):
            yield f"rewrite: a program {name}, {kind}", rewrite_fault(library, other, vector) is not None
    once = bytes.fromhex(untidy["sheet"])
    yield "rewrite: another sheet the second time", rewrite_fault(library, lambda data: rewrite(data) if data == once else (0, data + data[-8:], b""), untidy) is not None
    wrongs = planted(untidy, ("listing",)), planted(read_one, ("want", "table")), {**untidy, "listing": "refused 9\n"}, {**refused, "listing": "refused 99\n"}
    yield "rewrite: wrong vectors are told", all(rewrite_fault(library, rewrite, one) is not None for one in wrongs)


def auditing_checks(vectors):
    """Other programs than audit, on a log in which stations broke the rules and one that is refused; and wrong vectors."""
    broken, refused = (next(one for one in vectors if one["want"].get(kind)) for kind in ("marks", "refused"))
    others = {
        "that tells of nobody": lambda args: (0, b"broke\n", b""), "that refuses all": lambda args: (0, b"refused 99\n", b""),
        "with a status": lambda args: (1, *audit(args)[1:]), "that says something": lambda args: (*audit(args)[:2], b"so"),
        "without the line's end": lambda args: (0, audit(args)[1].rstrip(), b""), "with a line more": lambda args: (0, audit(args)[1] * 2, b""),
    }
    for name, other in others.items():
        for kind, vector in ("broken", broken), ("refused", refused):
            yield f"audit: a program {name}, {kind}", audit_fault(other, vector) is not None
    wrongs = [planted(vector, ("want", *path)) for vector in vectors for path in leaves(vector["want"])]
    yield f"audit: all of {len(wrongs)} wrong vectors are told", told(wrongs, lambda one: audit_fault(audit, one)) == len(wrongs) == len(vectors)


# ---- all together


def lines(path):
    """Each vector of a file, with its place."""
    name = path.relative_to(TOP) if path.is_relative_to(TOP) else path.name
    return [(f"{name}:{number}", json.loads(line)) for number, line in enumerate(path.read_text().splitlines(), 1)]


def stored(name):
    """The calls, the listings and the listings of noisy runs of a set, each with its place."""
    return [lines(TOP / name / file) for file in FILES]


def set_checks():
    """There are the files of each set and no others, each with all its vectors, and in one form."""
    wanted = {TOP / name / file for name in SETS for file in FILES}
    yield "the files of each set and no others", set(VECTORS.rglob("*.jsonl")) == wanted
    for name, offers in SETS.items():
        calls, listings, seeds = stored(name)
        count = collections.Counter(vector["call"] for _, vector in calls)
        # readings of one bit follow from others
        yield f"{name}: {OF_EACH_CALL} vectors of each call", count == {call: OF_EACH_CALL for call in CALLS if call != "read_bit"}
        yield f"{name}: {LISTINGS} listings and {NOISY} of noisy runs", (len(listings), len(seeds)) == (LISTINGS, NOISY)
        form = {"ballot", "result", "row"} | ({"offered_ballot"} if offers else set())
        steps = [set(step) for _, vector in calls for step in vector["want"].get("steps", ())]
        yield f"{name}: the steps of stations tell {sorted(form)}", steps and all(step == form for step in steps)


def derived(calls, listings, seeds):
    """The same three that follow from these."""
    noise = [*generations(calls), *generated_runs(calls)]
    bits = [*bit_by_bit([*calls, *noise]), *runs_of_bits([*calls, *noise])]
    return [[*noise, *bits, *rehearsed([*calls, *noise, *bits])], [*listings_of_seeds(seeds)], [*more_seeds(calls, listings, seeds)]]


def model_checks(calls, listings, seeds):
    """Of the calls that the model has, and of the listings, those of noisy runs too; and that wrong ones of them are told."""
    held = [(place, vector) for place, vector in calls if vector["call"] in MODELLED] + listings + seeds
    for place, fault in ((place, model_fault(vector)) for place, vector in held):
        yield f"{place}, by the model: {fault}", fault is None
    for vector in samples([vector for _, vector in held if "call" in vector]):
        wrongs = [planted(vector, ("want", *path)) for path in leaves(vector["want"])]
        yield f"{vector['call']}: all of {len(wrongs)} wrong answers are told by the model", told(wrongs, model_fault) == len(wrongs) > 0
    yield "a wrong listing is told by the model", model_fault(planted(listings[0][1], ("listing",))) is not None
    yield "wrong listings of noisy runs are told by the model", model_fault(planted(seeds[0][1], ("listings",))) is not None


def with_derived(name):
    """The calls, the listings and those of noisy runs of a set, with all that follow from them."""
    there = stored(name)
    return [[*kind, *more] for kind, more in zip(there, derived(*there))]


def checks(library):
    """A name and whether it holds, for each check."""
    yield from set_checks()
    for name in SETS:
        yield from checks_of(library, name)


def checks_of(library, name):
    """Those of one set."""
    count = collections.Counter(vector["call"] for _, vector in stored(name)[0])
    (calls, listings, seeds), each = with_derived(name), ", ".join(f"{call} {number}" for call, number in count.items())
    faults = [(place, call_fault(library, vector)) for place, vector in calls]
    faults += [(place, listing_fault(PROGRAM, vector)) for place, vector in listings]
    faults += [(place, listings_fault(SEEDS, vector)) for place, vector in seeds]
    audits = [(place, vector) for place, vector in calls if vector["call"] == "check"]
    faults += [(f"{place}, by the program", audit_fault(audit, vector)) for place, vector in audits]
    again = [(place, vector) for place, vector in [*calls, *listings] if vector.get("call", "read") == "read"]
    faults += [(f"{place}, rewritten", rewrite_fault(library, rewrite, vector)) for place, vector in again]
    print(f"{name}: {sum(count.values())} calls ({each}) and what follows from them: {len(calls)} calls, {len(listings)} listings, {len(seeds)} of noisy runs, "
          f"{len(again)} sheets rewritten, {len(audits)} logs checked")
    for place, fault in faults:
        yield f"{place}: {fault}", fault is None
    yield from model_checks(calls, listings, seeds)
    yield from own_checks(library, *([vector for _, vector in kind] for kind in (calls, listings, seeds)))


def checks_of_model():
    """Those that need nothing built."""
    yield from set_checks()
    for name in SETS:
        yield from model_checks(*with_derived(name))


def main():
    if sys.argv[1:] == ["--model"]:
        return closing(checks_of_model())
    with tempfile.TemporaryDirectory() as folder:
        return closing(checks(linked(folder)))


if __name__ == "__main__":
    sys.exit(not ((sys.argv[1:] == ["--model"] or all(map(built, PROGRAMS))) and main()))
