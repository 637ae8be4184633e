/*
 * Cuts of power. A station is a process of its own, with its state and its row
 * in memory that outlives it, and works as vembopu.h has it under "First look,
 * then step". In each round of a run it is killed at every point between two
 * statements, and at every instruction, from its start to the step and a little
 * beyond; and so when it is opened, over what another run has left. Then a new
 * process goes on from what is stored. Every stored state must be the one before
 * the row or the one after it, and every ballot and offer, made again too, and
 * the result those of the run by vembopu_advance without a cut.
 *
 *     cuts          on numbers, and with a lent station
 *     cuts WRONG    with a station that writes otherwise, which must be told
 */
#define _DEFAULT_SOURCE
#include "check.h"
#include "vembopu.h"

#include <errno.h>
#include <signal.h>
#include <sys/ptrace.h>
#include <sys/types.h>
#include <sys/user.h>
#include <sys/wait.h>

enum { MOST = 4, MOST_ROUNDS = 9, NOT_YET = 200, LONGEST = 4096, BEYOND = 20, SECONDS = 60 };

static const struct line {
    uint8_t n, t, upper, sender, own, value;
} lines[] = {{4, 1, 1, 2, 1, 1}, {1, 0, 0, 1, 1, 0}};

enum { LINES = sizeof lines / sizeof lines[0] };

/* What outlives a process. */
struct stable {
    union {
        volatile uint64_t word;
        volatile uint32_t half[2];
        volatile uint8_t byte[8];
    } state;
    volatile uint8_t n, t, upper, sender, own;
    volatile uint8_t row[MOST], row_round;
};

/* What has left it and can't be taken back, by round: the ballot that is sent and
   the offer that is shown; and the result. */
struct told {
    volatile uint8_t sent[MOST_ROUNDS + 2];
    volatile uint64_t offer[MOST_ROUNDS + 2];
    volatile uint64_t result;
};

static struct shared {
    struct stable stable;
    struct told told;
} *shared;

static const struct line *line;
static uint8_t received[MOST_ROUNDS + 2][MOST]; /* the rows of the run, by round */

/* The run that nobody cuts. */
static uint64_t state[MOST_ROUNDS + 2], offer[MOST_ROUNDS + 2], result;
static uint8_t ballot[MOST_ROUNDS + 2];

/* ---- The station's process ---- */

/* The first two are as they should be. The others store a state in two halves, or
   byte by byte; a row's round before the row; show an offer before its row is
   stored; take any row that they find at their start; write a row again that
   stands; leave the old run's row standing when they are opened; and open over
   the old run's state. */
enum {
    ON_NUMBERS, LENT,
    HALVES, BYTES, ROUND_FIRST, SHOWN_FIRST, ANY_ROW, WRITTEN_AGAIN, OLD_ROW, OLD_STATE,
    KINDS
};
static const char *const kind_name[KINDS] = {"on numbers",  "lent",    "halves",        "bytes",   "round_first",
                                             "shown_first", "any_row", "written_again", "old_row", "old_state"};
static int kind;
static int points_left; /* until it is cut; below 0 it isn't */
static int opening, starting;
static struct vembopu_station own;

#define NUMBERS(s) (s)->n, (s)->t, (s)->upper, (s)->sender, (s)->own

/* Between two statements. */
static void point(void)
{
    if (points_left-- == 0)
        kill(getpid(), SIGKILL);
}

static int is_to_be_stored(const struct stable *m, uint8_t round)
{
    if (kind == WRITTEN_AGAIN)
        return 1;
    if (kind == ANY_ROW && starting)
        return m->row_round == 0;
    return m->row_round != round;
}

static void store_row(struct stable *m, uint8_t round)
{
    if (kind == ROUND_FIRST)
        m->row_round = round;
    for (int i = 0; i < m->n; i++) {
        point();
        m->row[i] = received[round][i];
    }
    point();
    m->row_round = round;
    point();
}

static void store_state(struct stable *m, uint64_t next)
{
    if (kind == HALVES) {
        m->state.half[0] = (uint32_t)(next & 0xffffffffu);
        point();
        m->state.half[1] = (uint32_t)(next >> 32);
    } else if (kind == BYTES) {
        for (int k = 0; k < 8; k++, point())
            m->state.byte[k] = (uint8_t)(next >> 8 * k & 255);
    } else {
        m->state.word = next;
    }
    point();
}

/* The offer, which is shown. */
static uint64_t look(const struct stable *m, uint8_t round, const uint8_t *row)
{
    uint64_t shown = vembopu_offer(NUMBERS(m), kind == LENT ? vembopu_state_of(&own) : m->state.word, row, m->n);
    point();
    shared->told.offer[round] = shown;
    point();
    return shown;
}

/* The state after the row; a refusal ends the process. */
static uint64_t accepted(const struct stable *m, const uint8_t *row, uint64_t shown)
{
    uint64_t number, next;
    if (kind == LENT) {
        number = vembopu_accept_lent(&own, row, m->n, shown);
        next = vembopu_state_of(&own);
    } else {
        next = vembopu_accept(NUMBERS(m), m->state.word, row, m->n, shown);
        number = vembopu_refusal(next);
    }
    if (number != 0)
        _exit((int)number);
    point();
    return vembopu_state(next);
}

static void take_round(struct stable *m, uint8_t round)
{
    uint8_t row[MOST];
    if (kind == SHOWN_FIRST)
        look(m, round, received[round]);
    if (is_to_be_stored(m, round))
        store_row(m, round);
    for (int i = 0; i < m->n; i++)
        row[i] = m->row[i];
    uint64_t shown = look(m, round, row);
    store_state(m, accepted(m, row, shown));
}

static void store_numbers(struct stable *m)
{
    const uint8_t numbers[] = {NUMBERS(line)};
    volatile uint8_t *const at[] = {&m->n, &m->t, &m->upper, &m->sender, &m->own};
    for (int k = 0; k < 5; k++, point())
        *at[k] = numbers[k];
}

static void open_station(struct stable *m)
{
    if (kind != OLD_STATE)
        m->state.word = 0;
    point();
    store_numbers(m);
    if (kind != OLD_ROW)
        m->row_round = 0;
    point();
    m->state.word = vembopu_state(vembopu_open(NUMBERS(line), line->value));
    point();
}

/* From what is stored to the end of the run. */
static void work(void)
{
    struct stable *m = &shared->stable;
    uint64_t now;
    if (opening)
        open_station(m);
    own = vembopu_station_of(NUMBERS(m), m->state.word);
    while (vembopu_running(now = vembopu_result(NUMBERS(m), m->state.word))) {
        uint8_t round = vembopu_round(now);
        shared->told.sent[round] = vembopu_ballot_byte(vembopu_ballot(NUMBERS(m), m->state.word));
        point();
        take_round(m, round);
        starting = 0;
    }
    shared->told.result = now;
}

/* ---- Starting and ending it ---- */

enum { UNCUT = -1, TRACED = -2 };

/* It is cut after so many points, or not at all. A traced one stops before its
   work; where that isn't allowed it ends with the error. */
static pid_t start(int points)
{
    fflush(stdout);
    pid_t process = fork();
    if (process != 0)
        return process;
    alarm(SECONDS);
    starting = 1;
    points_left = points;
    if (points == TRACED) {
        if (ptrace(PTRACE_TRACEME, 0, NULL, NULL) != 0)
            _exit(errno);
        __asm__ volatile("int3");
    }
    work();
    _exit(0);
}

static int is_there; /* the process that was waited for last */

static int status_of(pid_t process)
{
    int status = -1;
    if (process < 0 || waitpid(process, &status, 0) != process) {
        perror("cuts");
        exit(2);
    }
    is_there = WIFSTOPPED(status);
    return status;
}

static void end(pid_t process)
{
    if (!is_there)
        return;
    kill(process, SIGKILL);
    status_of(process);
}

/* ---- The run that nobody cuts ---- */

static void draw_rows(void)
{
    static const uint8_t bytes[] = {0, 1, 1, 2, 77, 255};
    uint64_t next = vembopu_open(NUMBERS(line), line->value);
    int rounds = vembopu_rounds(line->t);
    for (int r = 1; r <= rounds; r++) {
        state[r] = vembopu_state(next);
        ballot[r] = vembopu_ballot_byte(vembopu_ballot(NUMBERS(line), state[r]));
        for (int i = 0; i < line->n; i++)
            received[r][i] = bytes[draw(sizeof bytes)];
        if (line->n > 1)
            received[r][line->own - 1] = ballot[r];
        next = vembopu_advance(NUMBERS(line), state[r], received[r], line->n);
    }
    state[rounds + 1] = vembopu_state(next);
    ballot[rounds + 1] = VEMBOPU_SILENCE;
    result = vembopu_result(NUMBERS(line), state[rounds + 1]);
    for (int r = 1; r <= rounds; r++)
        offer[r] = state[r + 1] | (uint64_t)ballot[r + 1] << 40;
}

/* What another run has left, with a row of round 1 that stands. */
static const struct stable old = {{0x01010101u}, 3, 0, 1, 3, 2, {77, 77, 77, 77}, 1};

/* What is stored when a round begins, or before the station is opened: round 0.
   Nothing has left in it yet. */
static void lay(int round)
{
    struct stable *m = &shared->stable;
    memcpy(m, &old, sizeof old);
    opening = round == 0;
    points_left = -1;
    if (round > 0) {
        store_numbers(m);
        m->state.word = state[round];
        m->row_round = (uint8_t)(round - 1);
        for (int i = 0; i < line->n; i++)
            m->row[i] = received[round - 1][i];
    }
    for (int r = 0; r < MOST_ROUNDS + 2; r++) {
        shared->told.sent[r] = NOT_YET;
        shared->told.offer[r] = 0;
    }
    shared->told.result = 0;
}

/* ---- After a cut ---- */

static unsigned long points, instructions, gone_on; /* a line's cuts, and how often a new process went on */
static int last_round;                              /* in which it did; 0 for none of this line */

/* What is wrong with what is stored of a station that was cut when it was opened:
   it is the old one whole, or none, or the new one whole. */
static const char *wrong_opening(void)
{
    const struct stable *m = &shared->stable;
    const uint8_t stored[] = {NUMBERS(m)}, new[] = {NUMBERS(line)};
    if (m->state.word == 0)
        return NULL;
    if (m->state.word == old.state.word)
        return memcmp(m, &old, sizeof old) == 0 ? NULL : "an old state, and the rest isn't the old run's";
    if (m->state.word != state[1] || memcmp(stored, new, sizeof new) != 0 || m->row_round != 0)
        return "a state that is neither old nor new";
    return NULL;
}

/* What is wrong with what is stored, or has left, of a process that was cut in
   this round. */
static const char *wrong_at_cut(int round)
{
    const struct stable *m = &shared->stable;
    const struct told *told = &shared->told;
    const uint8_t stored[] = {NUMBERS(m)}, numbers[] = {NUMBERS(line)};
    if (round == 0)
        return wrong_opening();
    if (m->state.word != state[round] && m->state.word != state[round + 1])
        return "a state that is neither before nor after the row";
    if (memcmp(stored, numbers, sizeof stored) != 0)
        return "other numbers";
    if (told->offer[round] != 0 && told->offer[round] != offer[round])
        return "another offer";
    if (told->sent[round] != NOT_YET && told->sent[round] != ballot[round])
        return "another ballot";
    return NULL;
}

/* What is wrong at the end of a run that is gone on with in this round. */
static const char *wrong_at_end(int round, int status)
{
    const struct told *told = &shared->told;
    int rounds = vembopu_rounds(line->t);
    if (status != 0)
        return "it doesn't come to its end";
    for (int r = round > 0 ? round : 1; r <= rounds; r++)
        if (told->offer[r] != offer[r] || told->sent[r] != ballot[r])
            return "another offer or ballot when it goes on";
    if (told->result != result || shared->stable.state.word != state[rounds + 1])
        return "another result";
    return NULL;
}

/* A new process, from what is stored; it opens the station if that wasn't done.
   The round's row comes once more only if it doesn't stand and nothing was shown
   of it; otherwise something else would come. */
static const char *go_on(int round)
{
    uint8_t row[MOST];
    memcpy(row, received[round], sizeof row);
    opening = round == 0 && shared->stable.state.word != state[1];
    if (shared->stable.row_round == round || shared->told.offer[round] != 0)
        for (int i = 0; i < MOST; i++)
            received[round][i] ^= 254;
    int status = status_of(start(UNCUT));
    memcpy(received[round], row, sizeof row);
    return wrong_at_end(round, status);
}

/* Where the same is stored and has left as at the cut before, in the same round,
   the same follows: it isn't gone on with again. */
static const char *wrong_after(int round)
{
    static struct shared before;
    static const char *followed;
    const char *wrong = wrong_at_cut(round);
    if (wrong != NULL)
        return wrong;
    if (last_round == round && memcmp(&before, shared, sizeof before) == 0)
        return followed;
    last_round = round;
    memcpy(&before, shared, sizeof before);
    gone_on++;
    followed = go_on(round);
    return followed;
}

/* ---- Cuts between two statements ---- */

/* 1 if the process was in the round when it was cut there. */
static int cut_at_point(int round, int at)
{
    lay(round);
    int status = status_of(start(at));
    return WIFSIGNALED(status) && WTERMSIG(status) == SIGKILL && shared->told.sent[round + 1] == NOT_YET;
}

/* Each point until the next round; to the first that is wrong. */
static int each_point(int round)
{
    int at = 0, right = 1;
    for (; right && cut_at_point(round, at); at++, points++) {
        const char *wrong = wrong_after(round);
        right = check(wrong == NULL, "%s, n %d, own %d, round %d, cut at point %d: %s", kind_name[kind], line->n,
                      line->own, round, at, wrong);
    }
    return right && check(at > 3 + line->n, "%s, round %d: cut at %d points", kind_name[kind], round, at);
}

/* ---- Cuts at an instruction ---- */

/* Where a process is: its next instruction, and how far down its stack. */
struct place {
    unsigned long long at, down;
};

static struct place walked[LONGEST];  /* before each instruction of a round */
static unsigned long long top;        /* the stack of the process when it was stopped first */

static int is_stopped(int status)
{
    return WIFSTOPPED(status) && WSTOPSIG(status) == SIGTRAP;
}

static int go(pid_t process, int how)
{
    return ptrace(how, process, NULL, NULL) == 0 && is_stopped(status_of(process));
}

static struct place place_of(pid_t process)
{
    struct user_regs_struct r = {0};
    ptrace(PTRACE_GETREGS, process, NULL, &r);
    struct place p = {r.rip, top - r.rsp};
    return p;
}

/* The process before its first instruction, or 0. */
static pid_t stopped(int round)
{
    lay(round);
    pid_t process = start(TRACED);
    if (!is_stopped(status_of(process)))
        return 0;
    ptrace(PTRACE_SETOPTIONS, process, NULL, (void *)PTRACE_O_EXITKILL);
    top = 0;
    top = 0 - place_of(process).down;
    return process;
}

/* Walks through the round, instruction by instruction, to the step and a little
   beyond: how many there are. */
static int walk(int round)
{
    int steps = 0, beyond = 0;
    pid_t process = stopped(round);
    if (process == 0)
        return 0;
    do {
        walked[steps++] = place_of(process);
        beyond += shared->stable.state.word == state[round + 1];
    } while (beyond < BEYOND && steps < LONGEST && go(process, PTRACE_SINGLESTEP));
    end(process);
    return beyond == BEYOND ? steps : 0;
}

/* Runs to the next time at that instruction, by a breakpoint that is taken away
   again. */
static int run_to(pid_t process, unsigned long long at)
{
    struct user_regs_struct r;
    errno = 0;
    long word = ptrace(PTRACE_PEEKTEXT, process, (void *)at, NULL);
    long with = (long)(((unsigned long)word & ~0xfful) | 0xcc);
    int ran = errno == 0 && ptrace(PTRACE_POKETEXT, process, (void *)at, (void *)with) == 0 &&
              go(process, PTRACE_CONT) && ptrace(PTRACE_POKETEXT, process, (void *)at, (void *)word) == 0 &&
              ptrace(PTRACE_GETREGS, process, NULL, &r) == 0 && r.rip == at + 1;
    r.rip = at;
    return ran && ptrace(PTRACE_SETREGS, process, NULL, &r) == 0;
}

/* 1 if the process is where the one that was walked through was, after so many
   instructions. It runs from each time at the last of them to the next. */
static int reaches(pid_t process, int steps)
{
    const struct place want = walked[steps];
    int there = 1, here = 0;
    while (there && here < steps) {
        int next = here + 1;
        while (walked[next].at != want.at)
            next++;
        if (walked[here].at == want.at || next == here + 1)
            there = go(process, PTRACE_SINGLESTEP);
        if (next > here + 1)
            there = there && run_to(process, want.at);
        here = next;
    }
    struct place p = place_of(process);
    return there && p.at == want.at && p.down == want.down;
}

static int cut_at_instruction(int round, int steps)
{
    pid_t process = stopped(round);
    int there = process != 0 && reaches(process, steps);
    if (process != 0)
        end(process);
    return check(there, "%s, round %d: not at instruction %d", kind_name[kind], round, steps);
}

/* Each instruction; to the first that is wrong. */
static int each_instruction(int round)
{
    int steps = walk(round), right = 1;
    if (!check(steps > 0, "%s, n %d, round %d: cut at instruction 0: it doesn't come to the step", kind_name[kind],
               line->n, round))
        return 0;
    for (int k = 0; right && k < steps; k++, instructions++) {
        right = cut_at_instruction(round, k);
        const char *wrong = wrong_after(round);
        right = check(wrong == NULL, "%s, n %d, own %d, round %d, cut at instruction %d: %s", kind_name[kind], line->n,
                      line->own, round, k, wrong) && right;
    }
    return right;
}

/* ---- */

/* Whether processes can be traced here. */
static int may_trace(void)
{
    pid_t process = start(TRACED);
    int status = status_of(process);
    if (is_stopped(status)) {
        end(process);
        return 1;
    }
    if (WIFEXITED(status) && (WEXITSTATUS(status) == EPERM || WEXITSTATUS(status) == ENOSYS))
        printf("NOT RUN: cuts at every instruction: ptrace is not permitted here\n");
    else
        check(0, "a process can't be traced: status %x", (unsigned)status);
    return 0;
}

/* All rounds of a line. A station that is wrong is told once in each way. */
static void cut_line(int traced)
{
    int right_at_points = 1, right_at_instructions = traced;
    points = instructions = gone_on = 0;
    last_round = 0;
    draw_rows();
    lay(1);
    const char *wrong = go_on(1);
    check(wrong == NULL, "%s, n %d, own %d, without a cut: %s", kind_name[kind], line->n, line->own, wrong);
    for (int round = 0; round <= vembopu_rounds(line->t); round++) {
        right_at_points = right_at_points && each_point(round);
        right_at_instructions = right_at_instructions && each_instruction(round);
    }
    printf("%s, n %d, own %d: cut at %lu points and %lu instructions, %lu times gone on\n", kind_name[kind], line->n,
           line->own, points, instructions, gone_on);
    fflush(stdout);
}

static int kind_of(const char *name)
{
    int k = HALVES;
    while (k < KINDS && strcmp(name, kind_name[k]) != 0)
        k++;
    return k;
}

int main(int argc, char **argv)
{
    int first = argc > 1 ? kind_of(argv[1]) : ON_NUMBERS, last = argc > 1 ? first : LENT;
    shared = mmap(NULL, sizeof *shared, PROT_READ | PROT_WRITE, MAP_SHARED | MAP_ANONYMOUS, -1, 0);
    if (shared == MAP_FAILED || first == KINDS)
        return 2;
    int traced = may_trace();
    for (kind = first; kind <= last; kind++)
        for (line = lines; line < lines + (argc > 1 ? 1 : LINES); line++)
            cut_line(traced);
    return closing_count();
}
