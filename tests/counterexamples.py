#!/usr/bin/env python3
"""For each must-fail edit of the definitions of crates broadcast, rules, xorshift, generator and offer: a run, a log or a seed with which what is edited breaks a
theorem. The same for wrong readings of request 5, numbers of several bits, of request 7, noisy runs, and of request 8, offer and acceptance.

The prover refuses each edit. This test shows that it is right to: it runs the documents' steps, and the same steps
with the edit, on small lines with random bad stations, and looks for a run that breaks a statement of
crates/broadcast/specs/Theorems.antt; and it asks who broke the rules, and the same with the edit, by logs of such runs
and by changed ones, and looks for a log that breaks a statement of crates/rules/specs/Theorems.antt. It runs numbers bit by
bit, and looks for a run that breaks demand 3 of the number, or what its outcome and log have of the bits'. It generates tables,
and looks for a seed that breaks a statement of the specs/Theorems.antt of crates xorshift, generator and seeded. It offers rows to single
stations and accepts them, and looks for one that breaks a statement of crates/offer/specs/Theorems.antt. What the documents
say must break none; each edit must break one. An edit may also break what no statement has but request 4: which rounds count,
byte by byte. Edits of the code break the code's promise alone, and are not looked at. Stations are counted from 0 and rounds from
1, as in the definitions. Prints a line for each check.
"""
import copy
import itertools
import pathlib
import random
import sys

import sheet as sheets
from model import (BLANK, FIRST, GARBLED, KING, OUTCOME, SECOND, SENDER, SILENCE, Keeping, Noise, Numbers, Offering, Rules, Run, Station, accept, bit_or, broadcast,
                   broke, exchange, garbled, garbled_alone, generated, kind_of, log_of, mixed, next_state, number_broadcast, offer, one_of, received, run_markings,
                   runs_of_bits, second_step)

CRATES = pathlib.Path(__file__).resolve().parent.parent / "crates"


def edited(base=Rules, **change):
    return type("Edited", (base,), {name: staticmethod(value) if callable(value) else value for name, value in change.items()})


EDITED = {
    "thresholds_exchanged": edited(grade=lambda n, t, T, c: 2 if c >= n - T else 1 if c >= n - t else 0),
    "flag_at_grade_0_only": edited(flag=lambda g: 1 if g < 1 else 0),
    "silence_counts_for_0": edited(first_value=lambda read: bit_or(0, read)),
    "z_kept_with_fewer": edited(keeps=lambda n, T, count: count + 1 >= n - T),
    "blank_is_zero": edited(second_value=lambda read: bit_or(0, read)),
    "balance_gives_1": edited(y=lambda zeros, ones: 0 if zeros > ones else 1),
    "balance_of_none_gives_0": edited(y=lambda zeros, ones: 1 if zeros < ones or zeros == ones > 0 else 0),
    "grade_of_other_count": edited(graded=lambda y, counts: counts[1 - y]),
    "one_phase_less": edited(phases=lambda t: t),
    "king_obeyed_at_grade_1": edited(obeys=lambda g: g <= 1),
    "king_read_as_0": edited(king_value=lambda y, read: bit_or(0, read)),
    "x_kept_at_grade_0": edited(left_with=lambda x, y, g: x if g == 0 else y),
    "king_sends_x": edited(kings_ballot=lambda x, y: x),
    "good_sender_from_table": edited(takes_table=lambda bad: not bad),
    "done_a_row_early": edited(rows_to_done=lambda rounds: rounds - 1),
    "station_king_tells_z": edited(station_kings_ballot=lambda y, z: z),
    "log_from_and_to_exchanged": edited(offset=lambda n, r, i, j: ((r - 1) * n + j) * n + i),
    "rows_transposed": edited(row_place=lambda n, r, i, j: ((r - 1) * n + j) * n + i),
    "all_speak_in_round_1": edited(speaks=lambda kind, i, one: kind != KING or i == one),
    "alone_flag_from_y": edited(flag_alone=lambda y, g: 1 if y < 2 else 0),
    "bad_outcome_shown": edited(bad_outcome=(0,) * OUTCOME),
    "last_round_not_counted": edited(counted_rounds=lambda rounds: range(rounds)),
    "round_counted_twice": edited(counted=lambda garbled, some: garbled + 2 * some),
    "bystander_counted": edited(expects=lambda kind, speaks: True),
}


def random_run(rng, n, t, T):
    sender, value = rng.randrange(n), rng.randrange(2)
    bad = [False] * n
    for i in rng.sample(range(n), rng.randint(0, min(T, n))):
        bad[i] = True
    if rng.random() < 0.5 and sum(bad) < T:
        bad[sender] = True
    weights = rng.choice(((4, 4, 1, 1, 1), (1, 1, 1, 1, 0), (1, 1, 0, 0, 0)))
    return Run(n, t, T, sender, value, bad, rng.choices((0, 1, BLANK, SILENCE, 7), weights, k=(3 * t + 6) * n * n))


def broken_guarantee(run, outcomes, bits=1):
    """Demand 3 of the outcome bytes."""
    decided = {outcomes[i][0] for i in run.good}
    flags = [outcomes[i][2] for i in run.good]
    if not decided <= set(range(2 ** bits)) or not set(flags) <= {0, 1}:
        return "Demand3, range"
    if run.f <= run.t and len(decided) > 1:
        return "Demand3, agreement"
    if run.f <= run.t and any(flags):
        return "Demand3, no_flag"
    if run.f <= run.T and not run.bad[run.sender] and decided - {run.value}:
        return "Demand3, extended_validity"
    if run.f <= run.T and len(decided) > 1 and not all(flags):
        return "Demand3, consistency_detection"
    return None


def is_garbled(kind, b):
    """Request 4's "not 255 and its round has no meaning for it", byte by byte."""
    return b not in ((0, 1, BLANK, SILENCE) if kind == SECOND else (0, 1, SILENCE))


def has_garbled(run, r, row):
    """Whether "at least one ballot it expected was garbled: from all in exchange rounds, else from the sender or the king."""
    if r > 1 and r % 3 != 1:
        return any(is_garbled(SECOND if r % 3 == 0 else FIRST, b) for b in row)
    return is_garbled(SENDER, row[run.sender]) if r == 1 else is_garbled(KING, row[r // 3 - 1])


def broken_exchange(rules, run, rng):
    """Definition 6 of an exchange with any inputs, step 4's count, and flag and count of garbled rounds of the exchange had alone."""
    x = [rng.randrange(2) for _ in range(run.n)] if rng.random() < 0.5 else [rng.randrange(2)] * run.n
    z, y, grade, counts = exchange(rules, run, 1, x)
    entered = {x[i] for i in run.good}
    left = {y[i] for i in run.good}
    if any(sum(c) != run.n for c in counts):
        return "BallotsMakeN"
    if any(rules.flag_alone(y[i], grade[i]) != (grade[i] < 2) for i in run.good):
        return "ExchangeBytes"
    rows = {i: (received(rules, run, 1, x, i), received(rules, run, 2, z, i)) for i in run.good}
    if any(garbled_alone(rules, run, x, z, i) != has_garbled(run, 2, rows[i][0]) + has_garbled(run, 3, rows[i][1]) for i in run.good):
        return "request 4's count of the exchange had alone"
    if run.f <= run.T and len(entered) == 1 and (left != entered or any(grade[i] < (2 if run.f <= run.t else 1) for i in run.good)):
        return "Definition6, validity"
    sure = [i for i in run.good if grade[i] == 2 or (run.f <= run.t and grade[i] >= 1)]
    if run.f <= run.T and sure and len(left) > 1:
        return "Definition6, detection"
    return None


def broken_reading(rules, run):
    """What a byte counts for in the first round of an exchange, and what one from the king leaves."""
    row = run.table[:run.n]
    if any([rules.first_value(rules.reading(FIRST, b)) for b in row].count(v) != row.count(v) for v in (0, 1)):
        return "FirstCounts"
    if any(rules.king_value(y, rules.reading(KING, b)) != (b if b <= 1 else y) for y in (0, 1) for b in row):
        return "KingsWordLaw"
    return None


def broken_second_row(rules, run):
    """What steps 4 and 5 make of rows of any bytes: of one with as many zeros as ones, and of one that gives 1."""
    for at in range(0, run.n * run.n, run.n):
        y, grade, (zeros, ones, _) = second_step(rules, run, run.table[at:at + run.n])
        if zeros == ones and (y, grade) != (0, 0):
            return "BalanceHasGrade0"
        if y == 1 and ones <= zeros:
            return "OneByMajority"
    return None


def broken_end(theorem, last, value, grade, flag):
    """What a station ends with, by the bytes that it received in the last round."""
    zeros, ones = last.count(0), last.count(1)
    if value == 1 and ones <= zeros:
        return f"{theorem}, changeover"
    if zeros == ones and (value, grade, flag) != (0, 0, 1):
        return f"{theorem}, balance"
    return None


def broken_last_round(rules, run, said, outcomes):
    """The end of each good station, by the log."""
    log = log_of(rules, run, said)
    for j in run.good:
        last = [log[Rules.offset(run.n, run.rounds, i, j)] for i in range(run.n)]
        found = broken_end("LastRoundLaw", last, *outcomes[j][:3])
        if found:
            return found
    return None


def broken_last_row(rules, run):
    """The end of a single station, on rows of any bytes."""
    station = Station(rules, run, 0, run.value)
    for at in range(0, len(run.table), run.n * run.n):
        row = run.table[at:at + run.n]
        station.take(row)
    return broken_end("LastRow", row, station.value, station.grade, rules.flag(station.grade))


def broken_ballot(rules, run, r, row):
    """Good stations' ballots are not garbled at those who expect them."""
    kind, one = kind_of(r), one_of(run, r)
    return any(rules.speaks(kind, i, one) and rules.reading(kind, row[i]) == GARBLED for i in run.good)


def broken_count(rules, run, said, outcomes):
    """A good station's count, by the rows that the log has for it."""
    log = log_of(rules, run, said)
    for j in run.good:
        count, rows = outcomes[j][3], {r: [log[Rules.offset(run.n, r, i, j)] for i in range(run.n)] for r in range(1, run.rounds + 1)}
        if any(broken_ballot(rules, run, r, row) for r, row in rows.items()):
            return "GoodBallotsReadable"
        if run.f == 0 and count != 0:
            return "NoneMarkedNoneGarbled"
        if not 0 <= count <= run.rounds:
            return "OutcomeBytesLaw"
        if count != sum(garbled(rules, kind_of(r), one_of(run, r), row) for r, row in rows.items()):
            return "CountByLog"
        if count != sum(has_garbled(run, r, row) for r, row in rows.items()):
            return "request 4's count"
    return None


def broken_station(rules, run, said, outcomes):
    """Demand 2, its first sentence, the log's layout, and who is silent in round 1."""
    log = log_of(rules, run, said)
    for j in run.good:
        station = Station(rules, run, j, run.value if j == run.sender else 1 - run.value)
        for r in range(1, run.rounds + 1):
            if isinstance(station.result(), tuple):
                return "StationFollowsRun, running_before"
            at = Rules.offset(run.n, r, j, 0)
            if any(station.ballot() != b for b in log[at:at + run.n]):
                return "StationFollowsRun, ballots"
            station.take([log[rules.row_place(run.n, r, i, j)] for i in range(run.n)])
        if station.result() != outcomes[j]:
            return "StationFollowsRun, done_after"
    for i in run.good:
        at = Rules.offset(run.n, 1, i, 0)
        if i != run.sender and log[at:at + run.n] != [SILENCE] * run.n:
            return "SentByRoundsLaw, not_sender"
    for i in set(range(run.n)) - set(run.good):
        if outcomes[i] != (255,) * OUTCOME:
            return "OutcomeBytesLaw"
    return None


def demand_3(rules, run, rng):
    return broken_guarantee(run, broadcast(rules, run)[1])


def any_theorem(rules, run, rng):
    said, outcomes = broadcast(rules, run)
    return (broken_guarantee(run, outcomes) or broken_exchange(rules, run, rng) or broken_reading(rules, run)
            or broken_station(rules, run, said, outcomes) or broken_count(rules, run, said, outcomes)
            or broken_last_round(rules, run, said, outcomes) or broken_last_row(rules, run) or broken_second_row(rules, run))


def search(rules, broken, tries):
    """The first theorem broken in some thousands of runs, with its run."""
    rng = random.Random(1)
    lines = [(n, t, T) for n in range(1, 9) for T in range(n) for t in range(T + 1) if t + 2 * T < n]
    for _ in range(tries):
        run = random_run(rng, *rng.choice(lines))
        found = broken(rules, run, rng)
        if found:
            return found, run
    return None


# ---- who broke the rules


def row_of_all_good(log, r, own, value):
    """What a station should have received: its row of the run in which all are good."""
    run = Run(log.n, log.t, log.T, log.sender, value, [False] * log.n, [])
    return [broadcast(Rules, run)[0].get(r, [SILENCE] * log.n)[i] for i in range(log.n)]


KEEPING = {
    "should_have_received": edited(Keeping, row=row_of_all_good),
    "own_row_for_column": edited(Keeping, row=lambda log, r, own, value: [log.entry(r, own, j) for j in range(log.n)]),
    "value_1_not_tried": edited(Keeping, values=(0,)),
    "any_byte_for_a_value": edited(Keeping, values=range(256)),
    "last_receiver_not_compared": edited(Keeping, receivers=lambda n: range(n - 1)),
    "flag_not_compared": edited(Keeping, ends=lambda result, outcome: result[:2] + result[3:] == outcome[:2] + outcome[3:]),
    "count_not_compared": edited(Keeping, ends=lambda result, outcome: result[:3] == outcome[:3]),
    "sender_from_0": edited(Keeping, sender=lambda sender: sender + 1),
    "sender_excused": edited(Keeping, excused=lambda own, sender: own == sender),
}


def random_log(rng):
    """A run with its log and outcomes; half of the logs are changed as another maker's might be."""
    lines = [(n, t, T) for n in range(1, 5) for T in range(n) for t in range(T + 1) if t + 2 * T < n]
    run = random_run(rng, *rng.choice(lines))
    said, outcomes = broadcast(Rules, run)
    log = log_of(Rules, run, said)
    if rng.random() < 0.5:
        return run, log, outcomes, True
    ends = (0, 2, 0), (1, 2, 0), (1, 1, 1), (0, 0, 1), (1, 2, 1)
    outcomes = [(*rng.choice(ends), rng.choice((one[3], one[3], 0, 1))) if rng.random() < 0.3 else one for one in outcomes]
    for at in rng.sample(range(len(log)), min(len(log), rng.randrange(3))):
        log[at] = rng.choice((0, 1, BLANK, SILENCE, 7))
    if rng.random() < 0.3:
        at = Rules.offset(run.n, 1, run.sender, 0)
        log[at:at + run.n] = [rng.choice((BLANK, SILENCE, 7))] * run.n
    return run, log, outcomes, False


def broken_set(keeping, run, log, outcomes, own):
    """Of a rehearsal's log its marks, of any the least marking."""
    logged = Run(run.n, run.t, run.T, run.sender, 0, [False] * run.n, log)
    found = set(broke(logged, outcomes, keeping))
    if own and found != {i for i in range(run.n) if run.bad[i]}:
        return "OwnLogs"
    markings = list(run_markings(logged, outcomes))
    if found not in markings or not all(found <= one for one in markings):
        return "BrokeLeast"
    return None


def search_logs(keeping, tries):
    """The first theorem broken by some hundreds of logs, with its run."""
    rng = random.Random(3)
    for _ in range(tries):
        run, log, outcomes, own = random_log(rng)
        found = broken_set(keeping, run, log, outcomes, own)
        if found:
            return found, f"{run}{'' if own else ', changed'}"
    return None


# ---- numbers of several bits


NUMBERS = {
    "bit_0_highest": edited(Numbers, number=lambda values: sum(value << b for b, value in enumerate(reversed(values)))),
    "every_bit_in_part_0": edited(Numbers, part=lambda tables, size, b: tables[:size]),
    "flag_of_last_bit": edited(Numbers, flag=lambda flags: flags[-1]),
    "grade_the_largest": edited(Numbers, grade=max),
    "count_the_smallest": edited(Numbers, count=min),
    "count_the_sum": edited(Numbers, count=sum),
}


def random_number(rng):
    """A line with its number, and the table of each bit."""
    n, t, T = rng.choice([(n, t, T) for n in range(1, 6) for T in range(n) for t in range(T + 1) if t + 2 * T < n])
    runs = [random_run(rng, n, t, T) for _ in range(rng.randint(1, 3))]
    number = rng.randrange(2 ** len(runs))
    return Run(n, t, T, runs[0].sender, number, runs[0].bad, []), [run.table for run in runs]


def broken_bits(run, ends, log, outcomes):
    """What a number's outcomes and log have of its bits' own."""
    size = len(log) // len(ends)
    for b, (of_bit, decided) in enumerate(ends):
        if log[b * size:(b + 1) * size] != of_bit:
            return "BitBuffersLaw"
        for i in run.good:
            if outcomes[i][0] >> b & 1 != decided[i][0] or outcomes[i][1] > decided[i][1] or outcomes[i][3] < decided[i][3]:
                return "NumberOutcomeBytesLaw"
    if any(outcomes[i][2] != (outcomes[i][1] < 2) or outcomes[i][3] not in [decided[i][3] for _, decided in ends] for i in run.good):
        return "NumberOutcomeBytesLaw"
    return None


def broken_number(numbers, run, tables):
    """Demand 3 of a number, and the bits' own runs, each with its own table and that bit of the number."""
    bits = [Run(run.n, run.t, run.T, run.sender, run.value >> b & 1, run.bad, table) for b, table in enumerate(tables)]
    ends = [(log_of(Rules, bit, said), decided) for bit, (said, decided) in ((bit, broadcast(Rules, bit)) for bit in bits)]
    laid = [byte for table in tables for byte in table]
    log, outcomes = number_broadcast(runs_of_bits(run.n, run.t, run.T, run.sender, run.value, len(tables), run.bad, laid, numbers), numbers=numbers)
    return broken_guarantee(run, outcomes, len(tables)) or broken_bits(run, ends, log, outcomes)


def search_numbers(numbers, tries):
    """The first statement broken by some hundreds of numbers, with its run."""
    rng = random.Random(5)
    for _ in range(tries):
        run, tables = random_number(rng)
        found = broken_number(numbers, run, tables)
        if found:
            return found, f"{run}, {len(tables)} bits"
    return None


# ---- noisy runs


STATE = {
    "bits_beyond_32_kept": edited(Noise, xor_left=lambda states, k, state: state ^ state << k),
    "state_of_31_bits": edited(Noise, states=2**31),
    "step_not_undone": edited(Noise, xor_left=lambda states, k, state: (state << k) % states),
}
TABLES = {
    "state_started_at_each_round": edited(Noise, runs_on=lambda seed, state, r, i: seed if i == 0 else state),
    "stepped_for_unmarked": edited(Noise, steps=lambda marked: True),
}
NOISE = {
    "right_before_left": edited(Noise, shifts=(-17, 13, 5)),
    "mod_4_before_the_step": edited(Noise, written=lambda old, new: old),
    "three_written_as_3": edited(Noise, byte=lambda state: state % 4),
    "unmarked_drawn": edited(Noise, steps=lambda marked: True, writes=lambda marked: True),
    "state_started_at_each_bit": edited(Noise, runs_on=lambda seed, state, r, i: seed if (r, i) == (1, 0) else state),
}
# the shifts that undo a step
UNDOING = 5, 10, 20, -17, 13, 26
KNOWN = {2463534242: [723471715, 2497366906, 2064144800], 1: [270369, 67634689, 2647435461, 307599695]}


def states_from(seed, steps, noise=Noise):
    """The seed, and the state after each of so many steps."""
    return list(itertools.accumulate(range(steps), lambda state, _: next_state(state, noise), initial=seed))


def broken_state(noise, seed):
    """What is shown of the state."""
    states = states_from(seed, 20, noise)
    holds = {
        "StatesStay": max(states) < noise.states,
        "NeverZero": 0 not in states,
        "StepUndone": all(mixed(after, UNDOING, noise) == state for state, after in itertools.pairwise(states)),
        "KnownStatesLaw": all(states_from(first, len(known), noise)[1:] == known for first, known in KNOWN.items()),
    }
    return " and ".join(name for name, held in holds.items() if not held)


def broken_tables(noise, run, w, seed):
    """What is shown of the tables: with a step for each byte of a marked sender, in table order through all bits, they are of the states one after another."""
    tables = generated(run.n, run.t, w, run.bad, seed, noise)
    drawn, other = ([b for at, b in enumerate(tables) if run.bad[at // run.n % run.n] == bad] for bad in (True, False))
    marks = sum(bad << i for i, bad in enumerate(run.bad))
    sheet = sheets.written(bytes((run.n, run.t, run.T, run.sender + 1, 0, w, 0, 0)) + marks.to_bytes(4, "little"), tables)
    holds = {
        "BallotOfFour": set(drawn) <= {0, 1, 2, 255},
        "GeneratedBytes, silent": set(other) <= {255},
        "GeneratedReadsBack": sheets.read(sheet, [0] * len(tables)) == (0, tables),
        "GeneratedBytes by StepsCountedLaw": drawn == [(0, 1, 2, 255)[state % 4] for state in states_from(seed, len(drawn))[1:]],
    }
    return " and ".join(name for name, held in holds.items() if not held)


def search_noise(noise, tries):
    """The statements broken by the first of some hundreds of seeds that breaks one, with its run."""
    rng = random.Random(7)
    for _ in range(tries):
        (run, tables), seed = random_number(rng), rng.randrange(1, noise.states)
        found = broken_state(noise, seed) or broken_tables(noise, run, len(tables), seed)
        if found:
            return found, f"seed {seed}, {run}, {len(tables)} bits"
    return None


# ---- offer and acceptance


def but_for(place):
    """Whether two offers are the same but for one of their six numbers."""
    return lambda handed, right: all(a == b for at, (a, b) in enumerate(zip(handed, right)) if at != place)


def taken_over(station, row, handed):
    station.round, station.value, station.z, station.grade, station.garbled = handed[:5]


DEFINED = {
    "count_left_out": edited(Offering, same=but_for(4)),
    "done_tells_its_value": edited(Offering, done_ballot=lambda following: following.value),
    "offer_judged_first": edited(Offering, cause=lambda of_row, of_offer: of_offer or of_row),
}
OFFERING = {
    **{f"{name}_not_compared": edited(Offering, same=but_for(place)) for place, name in enumerate(("round", "value", "z", "grade", "count", "ballot"))},
    "state_not_compared": edited(Offering, same=lambda handed, right: handed[5] == right[5]),
    "ballot_of_the_old_state": edited(Offering, teller=lambda station, following: station),
    "offered_state_taken_over": edited(Offering, same=lambda handed, right: True, take=taken_over),
    "any_offer_taken": edited(Offering, same=lambda handed, right: True),
    "no_offer_taken": edited(Offering, same=lambda handed, right: False),
    "row_not_taken": edited(Offering, take=lambda station, row, handed: None),
}


def others_of(right):
    """Offers with one number changed, and with all."""
    return [tuple(b ^ (at == place) for at, b in enumerate(right)) for place in range(6)] + [tuple(b ^ 1 for b in right)]


def accepted(station, row, handed, offering):
    """What an acceptance answers, and the state after it."""
    one = copy.copy(station)
    return accept(one, row, handed, offering), one.state()


def broken_step(offering, station, row):
    """What is shown of offer and acceptance, of one station and row."""
    before, following = station.state(), station.after(row)
    cause, right = offer(station, row, offering)
    if (cause, right[:5]) != (0, following.state()):
        return "Together, shows"
    if right[5] != (SILENCE if following.is_done() else following.ballot()):
        return "ShownBallot"
    if any(accepted(station, row, handed, offering) != (17, before) for handed in others_of(right)):
        return "Together, other"
    if station.state() != before or offer(station, row, offering) != (0, right):
        return "AfterAnyCuts"
    if any(accepted(station, other, handed, offering) != (8, before) for other in (row[1:], [*row, 0]) for handed in (right, *others_of(right))):
        return "Together, refused"
    return None if accepted(station, row, right, offering) == (0, following.state()) else "AcceptingIsTaking"


def search_offers(offering, tries):
    """The first statement broken by a row to a station, in some hundreds of runs, with its run."""
    rng = random.Random(9)
    for _ in range(tries):
        run = random_number(rng)[0]
        station, rows = Station(Rules, run, rng.randrange(run.n), run.value % 2), range(run.rounds)
        for row in ([rng.choice((0, 1, BLANK, SILENCE, 7)) for _ in range(run.n)] for _ in rows):
            found = broken_step(offering, station, row)
            if found:
                return found, f"{run}, round {station.round}"
            station.take(row)
    return None


# ---- all of them


def told(name, found, none):
    """Prints what was found, and answers whether it is as wanted: nothing where `none` says what was tried, otherwise something."""
    if none:
        print(f"{name}: " + (f"BREAKS {found[0]} at {found[1]}" if found else f"no theorem broken in {none}"))
    else:
        print(f"{name}: " + (f"breaks {found[0]} at {found[1]}" if found else "BREAKS NOTHING"))
    return bool(found) != bool(none)


def of_edits(crate, edits, find):
    """Whether each edit of a crate's definitions breaks a theorem, and each that is there is here."""
    there = {p.stem for p in (CRATES / crate / "must-fail").glob("*.edit") if "\nfile: specs/" in p.read_text(encoding="utf-8")}
    for name in sorted(there | set(edits)):
        if name not in there or name not in edits:
            print(f"{name}: MISSING {'here' if name in there else f'in crates/{crate}/must-fail'}")
            yield False
        else:
            yield told(name, find(edits[name]), "")


def main():
    results = [told("as the documents have it", search(Rules, any_theorem, 4000), "4000 runs")]
    results += of_edits("broadcast", EDITED, lambda rules: search(rules, demand_3, 4000) or search(rules, any_theorem, 40000))
    results += [told("who broke the rules, as request 3 has it", search_logs(Keeping, 400), "400 logs")]
    results += of_edits("rules", KEEPING, lambda keeping: search_logs(keeping, 2000))
    results += [told("numbers, as request 5 has it", search_numbers(Numbers, 2000), "2000 numbers")]
    results += [told(name, search_numbers(numbers, 2000), "") for name, numbers in NUMBERS.items()]
    results += [told("noisy runs, as request 7 has them", search_noise(Noise, 400), "400 runs")]
    results += of_edits("xorshift", STATE, lambda noise: search_noise(noise, 400))
    results += of_edits("generator", TABLES, lambda noise: search_noise(noise, 400))
    results += [told(name, search_noise(noise, 400), "") for name, noise in NOISE.items()]
    results += [told("offer and acceptance, as request 8 has them", search_offers(Offering, 400), "400 runs")]
    results += of_edits("offer", DEFINED, lambda offering: search_offers(offering, 400))
    results += [told(name, search_offers(offering, 400), "") for name, offering in OFFERING.items()]
    print(f"{results.count(True)} passed, {results.count(False)} failed")
    return not all(results)


if __name__ == "__main__":
    sys.exit(main())
