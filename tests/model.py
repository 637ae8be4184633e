"""Document 01's steps with document 02's requests 2 to 8, for the tests: the graded exchange, the broadcast with its log, the broadcasts of a number's bits, the
generator of noisy runs, the single station with offer and acceptance, and the checker of logs.

Stations are counted from 0 and rounds from 1, as in the definitions of crate broadcast.
"""
import copy
import itertools

BLANK, SILENCE, GARBLED = 2, 255, "garbled"
# the kinds of rounds
SENDER, FIRST, SECOND, KING = "sender", "first", "second", "king"
# "The outcome becomes four bytes a station": value, grade, flag, and the count of the rounds in which a ballot was garbled
OUTCOME = 4


def bit_or(other, read):
    return read if read in (0, 1) else other


class Rules:
    """The documents' steps. An edit replaces one of them."""

    # which it was: "A byte is garbled if it is not 255 and its round has no meaning for it; blank is garbled outside the second round of an exchange."
    reading = staticmethod(lambda kind, b: b if b in (0, 1, SILENCE) or (kind, b) == (SECOND, BLANK) else GARBLED)
    # what the steps make of that. "In the first round of an exchange a byte other than 0 or 1 now counts for neither value"
    first_value = staticmethod(lambda read: bit_or(BLANK, read))
    keeps = staticmethod(lambda n, T, count: count >= n - T)
    second_value = staticmethod(lambda read: bit_or(BLANK, read))
    # "In step 4 equal counts now give 0": 1 if more ones than zeros, otherwise 0
    y = staticmethod(lambda zeros, ones: 1 if zeros < ones else 0)
    # "the count for y"
    graded = staticmethod(lambda y, counts: counts[y])
    grade = staticmethod(lambda n, t, T, c: 2 if c >= n - t else 1 if c >= n - T else 0)
    flag = staticmethod(lambda g: 1 if g < 2 else 0)
    flag_alone = staticmethod(lambda y, g: 1 if g < 2 else 0)
    obeys = staticmethod(lambda g: g == 0)
    # "a king's unreadable ballot leaves a grade 0 station with its own y"
    king_value = staticmethod(lambda y, read: bit_or(y, read))
    left_with = staticmethod(lambda x, y, g: y)
    kings_ballot = staticmethod(lambda x, y: y)
    phases = staticmethod(lambda t: t + 1)
    takes_table = staticmethod(lambda bad: bad)
    rows_to_done = staticmethod(lambda rounds: rounds)
    station_kings_ballot = staticmethod(lambda y, z: y)
    offset = staticmethod(lambda n, r, i, j: ((r - 1) * n + i) * n + j)
    row_place = staticmethod(lambda n, r, i, j: ((r - 1) * n + i) * n + j)
    bad_outcome = (255,) * OUTCOME
    # `one` is the sender or the king
    speaks = staticmethod(lambda kind, i, one: kind in (FIRST, SECOND) or i == one)
    # "at least one ballot it expected was garbled: from all in exchange rounds, else from the sender or the king.": from those who should speak
    expects = staticmethod(lambda kind, speaks: speaks)
    some_garbled = staticmethod(lambda ballots: ballots > 0)
    # "A station counts the rounds in which"
    counted_rounds = staticmethod(lambda rounds: range(1, rounds + 1))
    counted = staticmethod(lambda garbled, some: garbled + some)
    counted_alone = staticmethod(lambda first, second: first + second)


def kind_of(r):
    return SENDER if r == 1 else (SECOND, KING, FIRST)[r % 3]


def one_of(run, r):
    """The sender in round 1, the king in a king's round."""
    return run.sender if r == 1 else r // 3 - 1


def sender_value(rules, b):
    """In round 1 "a byte other than 0 or 1 is read as 0"."""
    return bit_or(0, rules.reading(SENDER, b))


class Run:
    """What a broadcast is handed. The sender is counted from 0, bad has a truth value for each station."""

    def __init__(self, n, t, T, sender, value, bad, table):
        self.n, self.t, self.T, self.rounds = n, t, T, 3 * t + 6
        self.sender, self.value, self.bad, self.table = sender, value, bad, table
        self.f = sum(bad)
        self.good = [i for i in range(n) if not bad[i]]

    def __str__(self):
        marked = [i + 1 for i in range(self.n) if self.bad[i]]
        return f"n {self.n} t {self.t} T {self.T}, sender {self.sender + 1}, value {self.value}, marked {marked}"

    def entry(self, r, i, j):
        """Round 0, which only an edit asks for, has the bytes of round 1, as 0 - 1 is 0 in the definitions."""
        return self.table[((r - (r > 0)) * self.n + i) * self.n + j]


def sends(rules, run, r, i, j, b):
    return run.entry(r, i, j) if rules.takes_table(run.bad[i]) else b


def first_step(rules, run, row, x):
    """Step 2: z."""
    values = [rules.first_value(rules.reading(FIRST, b)) for b in row]
    return x if rules.keeps(run.n, run.T, values.count(x)) else BLANK


def second_step(rules, run, row):
    """Steps 4 and 5: y, the grade, and the three counts."""
    values = [rules.second_value(rules.reading(SECOND, b)) for b in row]
    counts = [values.count(0), values.count(1), values.count(BLANK)]
    y = rules.y(counts[0], counts[1])
    return y, rules.grade(run.n, run.t, run.T, rules.graded(y, counts)), counts


def received(rules, run, r, said, j):
    """Station j's row of a round in which the stations say these bytes."""
    return [sends(rules, run, r, i, j, b) for i, b in enumerate(said)]


def garbled(rules, kind, one, row):
    """Whether a round of that kind, with that sender or king, counts at a station that receives the row."""
    ballots = sum(rules.reading(kind, b) == GARBLED and rules.expects(kind, rules.speaks(kind, i, one)) for i, b in enumerate(row))
    return rules.some_garbled(ballots)


def exchange(rules, run, r, x):
    """z, y, grade and the three counts of each station."""
    rows = [received(rules, run, r, x, j) for j in range(run.n)]
    z = [first_step(rules, run, row, x[j]) for j, row in enumerate(rows)]
    ends = [second_step(rules, run, received(rules, run, r + 1, z, j)) for j in range(run.n)]
    return z, *map(list, zip(*ends))


def garbled_alone(rules, run, x, z, j):
    """The count of an exchange had alone, of its two rounds."""
    first, second = received(rules, run, 1, x, j), received(rules, run, 2, z, j)
    return rules.counted_alone(garbled(rules, FIRST, None, first), garbled(rules, SECOND, None, second))


def garbled_rounds(rules, run, said, j):
    """Station j's count in a broadcast."""
    rows = {r: received(rules, run, r, said.get(r, [SILENCE] * run.n), j) for r in rules.counted_rounds(run.rounds)}
    return sum(garbled(rules, kind_of(r), one_of(run, r), row) for r, row in rows.items())


def broadcast(rules, run):
    """The bytes said in each round, and the outcome of each station."""
    n, said = run.n, {}
    said[1] = [run.value if rules.speaks(SENDER, i, run.sender) else SILENCE for i in range(n)]
    x = [sender_value(rules, sends(rules, run, 1, run.sender, j, run.value)) for j in range(n)]
    for p in range(rules.phases(run.t) + 1):
        r = 3 * (p + 1) - 1
        z, y, grade, counts = exchange(rules, run, r, x)
        said[r], said[r + 1] = x, z
        said[r + 2] = [rules.kings_ballot(x[i], y[i]) if rules.speaks(KING, i, p) else SILENCE for i in range(n)]
        if p < rules.phases(run.t):
            king = [sends(rules, run, r + 2, p, j, said[r + 2][p]) for j in range(n)]
            y = [rules.left_with(x[j], y[j], grade[j]) for j in range(n)]
            x = [rules.king_value(y[j], rules.reading(KING, king[j])) if rules.obeys(grade[j]) else y[j] for j in range(n)]
    ends = [None if run.bad[j] else (y[j], grade[j], rules.flag(grade[j]), garbled_rounds(rules, run, said, j)) for j in range(n)]
    return said, [rules.bad_outcome if end is None else end for end in ends]


def log_of(rules, run, said):
    log = [None] * (run.rounds * run.n * run.n)
    for r in range(1, run.rounds + 1):
        for i in range(run.n):
            for j in range(run.n):
                b = said.get(r, [SILENCE] * run.n)[i]
                log[rules.offset(run.n, r, i, j)] = sends(rules, run, r, i, j, b)
    return log


# ---- a number of w bits


class Numbers:
    """Request 5's own: where a bit's table stands, and a good station's outcome of a number from its outcomes of the bits, bit 0 first. An edit replaces one of
    them."""

    # "The buffers hold the bits' tables one after another, bit 0 first"
    part = staticmethod(lambda tables, size, b: tables[b * size:(b + 1) * size])
    number = staticmethod(lambda values: sum(value << b for b, value in enumerate(values)))
    # "The garbled count is the largest of the bits' counts, the grade the smallest."
    grade, count = staticmethod(min), staticmethod(max)
    # "a station's flag is raised if any bit raises it"
    flag = staticmethod(max)


def runs_of_bits(n, t, T, sender, number, w, bad, tables, numbers=Numbers):
    """The run of each bit, bit 0 first: "Each bit is one broadcast, all with the same marks and sender", and "0 standing for 1"."""
    bits = w or 1
    return [Run(n, t, T, sender, number >> b & 1, bad, numbers.part(tables, len(tables) // bits, b)) for b in range(bits)]


def outcome_of_bits(numbers, ends):
    values, grades, flags, counts = zip(*ends)
    return numbers.number(values), numbers.grade(grades), numbers.flag(flags), numbers.count(counts)


def number_broadcast(runs, rules=Rules, numbers=Numbers):
    """The log of a number's run, its bits' logs one after another, and the outcome of each station."""
    log, ends = [], []
    for run in runs:
        said, outcomes = broadcast(rules, run)
        log += log_of(rules, run, said)
        ends.append(outcomes)
    bad = runs[0].bad
    return log, [rules.bad_outcome if bad[j] else outcome_of_bits(numbers, [end[j] for end in ends]) for j in range(runs[0].n)]


# ---- the generator of noisy runs


class Noise:
    """Request 7's own: the state's steps, and which bytes of the tables are made of them. An edit replaces one of them."""

    # "a 32-bit state"
    states = 2**32
    # "at each step exclusive-or with itself shifted left 13, then right 17, then left 5": a shift to the right is below 0
    shifts = 13, -17, 5
    # "bits beyond 32 dropped"
    xor_left = staticmethod(lambda states, k, state: state ^ (state << k) % states)
    # "For each round, marked sender and receiver in table order it steps once and writes"
    steps = staticmethod(lambda marked: marked)
    writes = staticmethod(lambda marked: marked)
    # "the new state mod 4, with 255 for 3"
    written = staticmethod(lambda old, new: new)
    byte = staticmethod(lambda state: SILENCE if state % 4 == 3 else state % 4)
    # "With several bits the state runs on from one bit's table to the next.": what a sender's row in a round begins from
    runs_on = staticmethod(lambda seed, state, r, i: state)


def mixed(state, shifts, noise=Noise):
    """The state after exclusive-or with itself shifted by each of these."""
    for k in shifts:
        state = noise.xor_left(noise.states, k, state) if k > 0 else state ^ state >> -k
    return state


def next_state(state, noise=Noise):
    return mixed(state, noise.shifts, noise)


def generated(n, t, w, bad, seed, noise=Noise):
    """The bits' run tables, one after another; "Other bytes are 255"."""
    tables, state = [], seed
    for r, i in ((r, i) for _ in range(w or 1) for r in range(1, 3 * t + 7) for i in range(n)):
        state = noise.runs_on(seed, state, r, i)
        for _ in range(n):
            old, state = state, next_state(state, noise) if noise.steps(bad[i]) else state
            tables.append(noise.byte(noise.written(old, state)) if noise.writes(bad[i]) else SILENCE)
    return tables


class Station:
    """One station as it runs singly."""

    def __init__(self, rules, run, own, value):
        self.rules, self.run, self.own, self.round, self.value, self.z, self.grade, self.garbled = rules, run, own, 1, value, BLANK, 0, 0

    def ballot(self):
        kind = kind_of(self.round)
        if not self.rules.speaks(kind, self.own, one_of(self.run, self.round)):
            return SILENCE
        if kind == SECOND:
            return self.z
        return self.rules.station_kings_ballot(self.value, self.z) if kind == KING else self.value

    def take(self, row):
        rules, run, kind, one = self.rules, self.run, kind_of(self.round), one_of(self.run, self.round)
        self.garbled = rules.counted(self.garbled, garbled(rules, kind, one, row))
        if kind == SENDER:
            self.value = sender_value(rules, row[one])
        elif kind == FIRST:
            self.z = first_step(rules, run, row, self.value)
        elif kind == SECOND:
            self.value, self.grade, _ = second_step(rules, run, row)
        elif rules.obeys(self.grade):
            self.value = rules.king_value(self.value, rules.reading(KING, row[one]))
        self.round += 1

    def is_done(self):
        return self.round == self.rules.rows_to_done(self.run.rounds) + 1

    def result(self):
        return (self.value, self.grade, self.rules.flag(self.grade), self.garbled) if self.is_done() else self.round

    def state(self):
        return self.round, self.value, self.z, self.grade, self.garbled

    def after(self, row):
        """The station that the row makes of this one, which stays."""
        following = copy.copy(self)
        following.take(row)
        return following

    def row_cause(self, row):
        """The cause by which a row is refused, or 0."""
        return 7 if self.is_done() else 8 if len(row) != self.run.n else 0


class Offering:
    """Request 8's own: whose ballot an offer shows, which offer is the one, and when that is looked at. An edit replaces one of them."""

    # "the following state and its ballot (255 if that state is done)"
    teller = staticmethod(lambda station, following: following)
    done_ballot = staticmethod(lambda following: SILENCE)
    # "An acceptance whose offer, whatever it holds, is not the one this station and row give"
    same = staticmethod(lambda handed, right: handed == right)
    # "is refused by 17, after the causes of the station and the row only"
    cause = staticmethod(lambda of_row, of_offer: of_row or of_offer)
    # "Offer and acceptance together do what taking the row did."
    take = staticmethod(lambda station, row, handed: station.take(row))


def offer(station, row, offering=Offering):
    """The cause by which the row is refused, or 0; and the offer, the state's five numbers and the ballot. It "leaves the station alone"."""
    cause = station.row_cause(row)
    if cause:
        return cause, None
    following = station.after(row)
    return 0, (*following.state(), offering.done_ballot(following) if following.is_done() else offering.teller(station, following).ballot())


def accept(station, row, handed, offering=Offering):
    """The cause by which the row or the offer is refused, "and the station stays"; or 0, and the row is taken."""
    of_row, right = offer(station, row, offering)
    cause = offering.cause(of_row, 0 if right and offering.same(handed, right) else 17)
    if cause == 0:
        offering.take(station, row, handed)
    return cause


class Keeping:
    """Request 3's own: who keeps the rules. The log is a run's table. An edit replaces one of them."""

    # "a value of its own"
    values = (0, 1)
    # "the rows it received"
    row = staticmethod(lambda log, r, own, value: [log.entry(r, i, own) for i in range(log.n)])
    # "send its logged bytes": to these
    receivers = staticmethod(lambda n: range(n))
    # "and end with its logged outcome"
    ends = staticmethod(lambda result, outcome: result == outcome)
    sender = staticmethod(lambda sender: sender)
    excused = staticmethod(lambda own, sender: False)


def keeps_with(keeping, log, own, value, outcome):
    """Whether this value, "with the rows it received, makes it send its logged bytes and end with its logged outcome"."""
    line = Run(log.n, log.t, log.T, keeping.sender(log.sender), value, log.bad, log.table)
    one = Station(Rules, line, own, value)
    for r in range(1, log.rounds + 1):
        if any(log.entry(r, own, j) != one.ballot() for j in keeping.receivers(log.n)):
            return False
        one.take(keeping.row(log, r, own, value))
    return keeping.ends(one.result(), outcome)


def broke(log, outcomes, keeping=Keeping):
    """The stations that broke the rules: "A station is in it exactly if no value of its own" does."""
    return [i for i in range(log.n) if not keeping.excused(i, log.sender)
            and not any(keeps_with(keeping, log, i, value, outcomes[i]) for value in keeping.values)]


def run_markings(log, outcomes):
    """The markings of a small line "under which the log is a run", itself as the table, "with the outcomes of unmarked stations as logged"."""
    for bad, value in itertools.product(itertools.product((False, True), repeat=log.n), (0, 1)):
        run = Run(log.n, log.t, log.T, log.sender, value, bad, log.table)
        said, ends = broadcast(Rules, run)
        if log_of(Rules, run, said) == list(log.table) and all(bad[i] or ends[i] == outcomes[i] for i in range(log.n)):
            yield {i for i in range(log.n) if bad[i]}
