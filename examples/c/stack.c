/*
 * How much stack each call takes at the largest size. A call runs on a stack of its own that is painted before; what it overwrites is
 * counted, less what an empty function does. Calls are made on clean and on dirty sums, and accepted and refused, in the trials below.
 * A line has a call, the most bytes that it took, and in which trial. Status 1: a call takes TABLEAU_SUM_STACK_BYTES or more, or it does
 * not answer as it should.
 */
#define _XOPEN_SOURCE 600
#include <inttypes.h>
#include <stdio.h>
#include <stdlib.h>
#include <string.h>
#include <ucontext.h>

#include "tableau_sum.h"

#define N TABLEAU_SUM_MAX_QUBITS
#define K TABLEAU_SUM_MAX_COEFFICIENTS
#define CAPACITY TABLEAU_SUM_MAX_CAPACITY
#define ENTRY (5 + 3 * K + 6 * N)
#define WORDS (CAPACITY * ENTRY)

static const tableau_sum_size size = {N, K, CAPACITY};

/* What the calls are lent and pass, and what they are given. */
static tableau_sum_header header;
static uint64_t store[WORDS];
static size_t p, q, place;
static double rate, draw;
static double rates[TABLEAU_SUM_PAIRS];
static uint64_t out[2 * CAPACITY];
static uint8_t text[127 + CAPACITY * (1 + K + 2 * N) * 64];
static size_t text_len, out_len, room;
static tableau_sum_answer answer;

/* ---- the painted stack */

#define STACK_WORDS 16384
#define PAINT UINT64_C(0xa5c35a3ca5c35a3c)

static uint64_t stack[STACK_WORDS];
static ucontext_t caller, callee;

/* The bytes of the stack that a function overwrites. */
static size_t overwritten(void (*function)(void))
{
    size_t i;
    for (i = 0; i < STACK_WORDS; i++)
        stack[i] = PAINT;
    if (getcontext(&callee) != 0)
        exit(EXIT_FAILURE);
    callee.uc_stack.ss_sp = stack;
    callee.uc_stack.ss_size = sizeof stack;
    callee.uc_link = &caller;
    makecontext(&callee, function, 0);
    if (swapcontext(&caller, &callee) != 0)
        exit(EXIT_FAILURE);
    for (i = 0; i < STACK_WORDS && stack[i] == PAINT; i++)
        continue;
    return sizeof stack - i * sizeof stack[0];
}

/* ---- the calls */

static void nothing(void)
{
}

#define CALL(name, ...) \
    static void name(void) \
    { \
        answer = tableau_sum_##name(__VA_ARGS__); \
    }

CALL(fresh, header.size, header.threshold, header.cutoff, store, WORDS)
CALL(read_sheet, text, text_len, store, WORDS)
CALL(pauli_error, header, store, WORDS, q, rate / 2, rate / 4, rate / 4)
CALL(loss_channel, header, store, WORDS, q, rate)
CALL(depolarize1, header, store, WORDS, q, rate)
CALL(two_qubit_pauli_error, header, store, WORDS, p, q, rates)
CALL(depolarize2, header, store, WORDS, p, q, rate)
CALL(reset_loss_channel, header, store, WORDS, q)
CALL(h, header, store, WORDS, q)
CALL(s, header, store, WORDS, q)
CALL(cnot, header, store, WORDS, p, q)
CALL(truncate, header, store, WORDS)
CALL(normalise, header, store, WORDS)
CALL(table, header, store, WORDS, out, out_len)
CALL(pick, header, store, WORDS, draw)
CALL(write_sheet, header, store, WORDS, text, room)
CALL(write_page, header, store, WORDS, text, room)
CALL(view, header, store, WORDS, place)

/* It gives no number. */
static void view_word(void)
{
    const uint64_t word = tableau_sum_view_word(header, store, WORDS, place, TABLEAU_SUM_WEIGHT);
    answer.number = word == 0 ? TABLEAU_SUM_BAD_PLACE : TABLEAU_SUM_DONE;
}

/* ---- cutoffs tried: as many as there may be, on as many steps */

#define CUTOFFS TABLEAU_SUM_MAX_CUTOFFS
#define STEPS TABLEAU_SUM_MAX_STEPS

static double cutoffs[CUTOFFS];
static uint64_t kinds[STEPS];
static size_t qubits[STEPS];
static double step_rates[STEPS * TABLEAU_SUM_STEP_RATES];
static uint64_t places[2 * CUTOFFS * STEPS];
static size_t cutoffs_len, places_len;

CALL(try_cutoffs, header.size, header.threshold, cutoffs, cutoffs_len, kinds, STEPS, qubits, STEPS, step_rates,
     STEPS * TABLEAU_SUM_STEP_RATES, store, WORDS, places, places_len)

/* The three channels in turn, on eight qubits one after the other. */
static void all_steps(void)
{
    for (size_t i = 0; i < STEPS; i++) {
        kinds[i] = i % 3;
        qubits[i] = i / 3 % 8;
        for (size_t j = 0; j < TABLEAU_SUM_STEP_RATES; j++)
            step_rates[i * TABLEAU_SUM_STEP_RATES + j] = rate / 4;
    }
    for (size_t i = 0; i < CUTOFFS; i++)
        cutoffs[i] = i == 0 ? 0 : 0.001 * (double)i;
    cutoffs_len = CUTOFFS;
    places_len = sizeof places / sizeof places[0];
}

/* ---- a list of calls */

#define MOST 16
#define RECORD (TABLEAU_SUM_RECORD_WORDS + TABLEAU_SUM_SHOWN_WORDS)
#define STRETCH (127 + (1 + K + 2 * N) * 64)

static tableau_sum_call list[MOST];
static size_t list_len;
static uint64_t records[MOST * RECORD];
static uint8_t stretches[MOST * STRETCH];
static const tableau_sum_room list_room = {TABLEAU_SUM_SHOWN_WORDS, STRETCH};

static void in_list(tableau_sum_call call)
{
    list[list_len++] = call;
}

/* Behind a gate a channel or a reset finds the sum dirty. */
static void in_list_dirty(tableau_sum_call call)
{
    in_list(tableau_sum_call_h(q));
    in_list(call);
}

static void list_changes(void)
{
    list_len = 0;
    in_list_dirty(tableau_sum_call_pauli_error(q, rate / 2, rate / 4, rate / 4));
    in_list_dirty(tableau_sum_call_two_qubit_pauli_error(p, q, rates));
    in_list_dirty(tableau_sum_call_depolarize1(q, rate));
    in_list_dirty(tableau_sum_call_depolarize2(p, q, rate));
    in_list_dirty(tableau_sum_call_loss_channel(q, rate));
    in_list_dirty(tableau_sum_call_reset_loss_channel(q));
    in_list(tableau_sum_call_s(q));
    in_list(tableau_sum_call_cnot(p, q));
    in_list(tableau_sum_call_truncate());
    in_list(tableau_sum_call_normalise());
}

static void list_looks(void)
{
    list_len = 0;
    in_list(tableau_sum_call_table(out_len));
    in_list(tableau_sum_call_pick(draw));
    in_list(tableau_sum_call_sheet());
    in_list(tableau_sum_call_view(place));
    in_list(tableau_sum_call_page());
}

/* Its number is that of the first call that is refused. */
static void run(void)
{
    const tableau_sum_ran ran = tableau_sum_run(header, store, WORDS, list->words, list_len * TABLEAU_SUM_CALL_WORDS, records, MOST * RECORD,
                                                stretches, sizeof stretches, list_room, false);
    size_t i = 0;
    while (i + 1 < ran.made && records[i * RECORD] == TABLEAU_SUM_DONE)
        i++;
    answer.number = ran.made == list_len ? records[i * RECORD] : ran.number;
}

/* ---- the sums that calls are tried on, with every coefficient place in use */

struct sum {
    size_t count;
    uint64_t words[WORDS];
};
/* The fresh entry; that entry with qubit 0 lost; 256 that differ by Paulis at the qubits 0 to 3; 256 by losses at the qubits 0 to 7. */
static struct sum one, lost, paulis, losses;

static void must(tableau_sum_answer a)
{
    if (a.number != TABLEAU_SUM_DONE)
        exit(EXIT_FAILURE);
    header = a.header;
}

static void keep(struct sum *sum)
{
    sum->count = header.count;
    memcpy(sum->words, store, sizeof store);
    for (size_t i = 0; i < sum->count; i++) {
        uint64_t *entry = sum->words + tableau_sum_entry_start(size, i);
        entry[TABLEAU_SUM_COEFFICIENT_COUNT] = K;
        for (size_t j = 0; j < K; j++)
            entry[tableau_sum_coefficient_start(j)] = j;
    }
}

static void make_sums(void)
{
    must(tableau_sum_fresh(size, 0.5, 0, store, WORDS));
    keep(&one);
    must(tableau_sum_loss_channel(header, store, WORDS, 0, 1));
    keep(&lost);
    must(tableau_sum_fresh(size, 0.5, 0, store, WORDS));
    must(tableau_sum_depolarize2(header, store, WORDS, 0, 1, 0.5));
    must(tableau_sum_depolarize2(header, store, WORDS, 2, 3, 0.5));
    keep(&paulis);
    must(tableau_sum_fresh(size, 0.5, 0, store, WORDS));
    for (size_t i = 0; i < 8; i++)
        must(tableau_sum_loss_channel(header, store, WORDS, i, 0.25));
    keep(&losses);
}

/* ---- a trial */

/* A call and its trials; a full sum on which it stores no branch; the number that it gives for what `spoil` passes; the most bytes that it
 * took, and in which trial. */
struct call {
    const char *name;
    void (*make)(void);
    void (*trials)(struct call *c);
    const struct sum *full;
    uint64_t spoilt;
    size_t most;
    char trial[32];
};

static bool dirty;
static bool failed;
static size_t taken_by_nothing;

/* The sum that the next trial is on, and what its call passes. */
static void on(const struct sum *sum, double threshold, double cutoff)
{
    header.size = size;
    header.count = sum->count;
    header.threshold = threshold;
    header.cutoff = cutoff;
    header.dirty = dirty;
    memcpy(store, sum->words, sizeof store);
    p = 1;
    q = 0;
    place = sum->count - 1;
    draw = 0.999;
    out_len = 2 * CAPACITY;
    room = sizeof text;
}

static void spoil(void)
{
    q = N;
    place = header.count;
    draw = 1;
    out_len = 0;
    room = 0;
}

static void with_rate(double r)
{
    rate = r;
    for (int i = 0; i < TABLEAU_SUM_PAIRS; i++)
        rates[i] = r / TABLEAU_SUM_PAIRS;
}

static void wrong(const struct call *c, const char *trial, const char *what)
{
    printf("%s, %s%s: %s\n", c->name, trial, dirty ? ", dirty" : "", what);
    failed = true;
}

static void attempt(struct call *c, const char *trial, uint64_t number)
{
    const size_t taken = overwritten(c->make) - taken_by_nothing;
    if (answer.number != number)
        wrong(c, trial, tableau_sum_meaning(answer.number));
    if (taken > c->most) {
        c->most = taken;
        snprintf(c->trial, sizeof c->trial, "%s%s", trial, dirty ? ", dirty" : "");
    }
}

/* ---- the trials of each call */

static void fresh_trials(struct call *c)
{
    on(&one, 0.5, 0);
    attempt(c, "done", TABLEAU_SUM_DONE);
    header.cutoff = -1;
    attempt(c, "refused with 2", TABLEAU_SUM_BAD_HEADER);
    header.size.n = N + 1;
    attempt(c, "refused with 1", TABLEAU_SUM_BAD_SIZE);
}

/* The phase on the last line is the last byte but one. */
static void sheet_trials(struct call *c)
{
    on(c->full, 0.5, 0);
    text_len = tableau_sum_write_sheet(header, store, WORDS, text, sizeof text).length;
    attempt(c, "done", TABLEAU_SUM_DONE);
    text[text_len - 2] = '4';
    attempt(c, "refused with 5", TABLEAU_SUM_BAD_ENTRY);
    text_len--;
    attempt(c, "refused with 7", TABLEAU_SUM_BAD_SHEET);
}

/* On sums that no call takes. */
static void bad_sums(struct call *c)
{
    on(c->full, 0.5, 0);
    store[WORDS - 1] = 4;
    attempt(c, "refused with 5", TABLEAU_SUM_BAD_ENTRY);
    header.cutoff = -1;
    attempt(c, "refused with 2", TABLEAU_SUM_BAD_HEADER);
    header.size.n = N + 1;
    attempt(c, "refused with 1", TABLEAU_SUM_BAD_SIZE);
}

/* Of every call on a sum: full, with one entry, and refused. */
static void trials(struct call *c)
{
    on(&one, 0.5, 0);
    attempt(c, "one entry", TABLEAU_SUM_DONE);
    on(c->full, 0.5, 0.01);
    attempt(c, "full", TABLEAU_SUM_DONE);
    spoil();
    attempt(c, "other arguments", c->spoilt);
    bad_sums(c);
}

/* .. whose branches merge, are stored and are dropped; with the threshold 0 none is alike to another. */
static void branch_trials(struct call *c, const struct sum *single)
{
    trials(c);
    on(c->full, 0.5, 0);
    attempt(c, "merged", TABLEAU_SUM_DONE);
    if (answer.counts.merged == 0)
        wrong(c, "merged", "no branch is");
    on(single, 0.5, 0);
    attempt(c, "stored", TABLEAU_SUM_DONE);
    if (answer.counts.stored == 0)
        wrong(c, "stored", "no branch is");
    on(c->full, 0, 2);
    attempt(c, "compared and dropped", TABLEAU_SUM_DONE);
    if (answer.counts.compared == 0 || answer.counts.dropped == 0)
        wrong(c, "compared and dropped", "no branch is");
}

static void reset_trials(struct call *c)
{
    branch_trials(c, &lost);
}

static void channel_trials(struct call *c)
{
    branch_trials(c, &one);
    on(c->full, 0.5, 0);
    p = N - 2;
    q = N - 1;
    attempt(c, "refused with 6", TABLEAU_SUM_NO_ROOM);
    on(&one, 0.5, 0);
    store[TABLEAU_SUM_WEIGHT] = 0;
    attempt(c, "refused with 9", TABLEAU_SUM_NO_WEIGHT);
    with_rate(16);
    attempt(c, "refused with 4", TABLEAU_SUM_BAD_RATE);
    with_rate(0.25);
}

/* Lists of all that changes a sum and of all that looks at it. A loss finds no room in a full sum; with the cutoff 2 nothing is left. */
static void run_trials(struct call *c)
{
    on(&one, 0.5, 0);
    list_changes();
    attempt(c, "one entry", TABLEAU_SUM_DONE);
    on(c->full, 0.5, 0);
    attempt(c, "full, refused with 6", TABLEAU_SUM_NO_ROOM);
    on(c->full, 0, 2);
    attempt(c, "compared and dropped", TABLEAU_SUM_DONE);
    bad_sums(c);
    on(&one, 0.5, 0);
    list_looks();
    attempt(c, "looked at", TABLEAU_SUM_DONE);
    spoil();
    list_looks();
    attempt(c, "refused with 8", TABLEAU_SUM_SHORT_OUTPUT);
    list_changes();
    attempt(c, "other arguments", c->spoilt);
    list[0].words[0] = TABLEAU_SUM_KIND_PAGE + 1;
    attempt(c, "refused with 19", TABLEAU_SUM_DOES_NOT_FIT);
}

/* With the cutoff 0 a trial finds no room for its branches; with others it goes on, and drops some. */
static void cutoff_trials(struct call *c)
{
    on(&one, 0.5, 0);
    all_steps();
    attempt(c, "done", TABLEAU_SUM_DONE);
    if (places[2 * STEPS - 2] != TABLEAU_SUM_NO_ROOM || places[2 * STEPS * CUTOFFS - 2] != TABLEAU_SUM_DONE)
        wrong(c, "done", "other trials end");
    qubits[1] = N;
    attempt(c, "another qubit in a trial", TABLEAU_SUM_DONE);
    places_len--;
    attempt(c, "refused with 8", TABLEAU_SUM_SHORT_OUTPUT);
    cutoffs[CUTOFFS - 1] = -1;
    attempt(c, "refused with 2", TABLEAU_SUM_BAD_HEADER);
    cutoffs_len = 0;
    attempt(c, "refused with 11", TABLEAU_SUM_BAD_TRIALS);
    header.size.n = N + 1;
    attempt(c, "refused with 1", TABLEAU_SUM_BAD_SIZE);
    kinds[STEPS - 1] = TABLEAU_SUM_STEP_DEPOLARIZE1 + 1;
    attempt(c, "refused with 19", TABLEAU_SUM_DOES_NOT_FIT);
}

/* view_word gives no number, and 0 for a word that is not there. */
static void word_trials(struct call *c)
{
    on(c->full, 0.5, 0);
    attempt(c, "full", TABLEAU_SUM_DONE);
    spoil();
    attempt(c, "other arguments", TABLEAU_SUM_BAD_PLACE);
}

static struct call calls[] = {
    {"fresh", fresh, fresh_trials, NULL, 0, 0, ""},
    {"read_sheet", read_sheet, sheet_trials, &paulis, 0, 0, ""},
    {"try_cutoffs", try_cutoffs, cutoff_trials, NULL, 0, 0, ""},
    {"pauli_error", pauli_error, channel_trials, &paulis, TABLEAU_SUM_BAD_PLACE, 0, ""},
    {"loss_channel", loss_channel, channel_trials, &losses, TABLEAU_SUM_BAD_PLACE, 0, ""},
    {"depolarize1", depolarize1, channel_trials, &paulis, TABLEAU_SUM_BAD_PLACE, 0, ""},
    {"two_qubit_pauli_error", two_qubit_pauli_error, channel_trials, &paulis, TABLEAU_SUM_BAD_PLACE, 0, ""},
    {"depolarize2", depolarize2, channel_trials, &paulis, TABLEAU_SUM_BAD_PLACE, 0, ""},
    {"reset_loss_channel", reset_loss_channel, reset_trials, &losses, TABLEAU_SUM_BAD_PLACE, 0, ""},
    {"h", h, trials, &paulis, TABLEAU_SUM_BAD_PLACE, 0, ""},
    {"s", s, trials, &paulis, TABLEAU_SUM_BAD_PLACE, 0, ""},
    {"cnot", cnot, trials, &paulis, TABLEAU_SUM_BAD_PLACE, 0, ""},
    {"truncate", truncate, trials, &paulis, TABLEAU_SUM_DONE, 0, ""},
    {"normalise", normalise, trials, &paulis, TABLEAU_SUM_DONE, 0, ""},
    {"table", table, trials, &paulis, TABLEAU_SUM_SHORT_OUTPUT, 0, ""},
    {"pick", pick, trials, &paulis, TABLEAU_SUM_BAD_DRAW, 0, ""},
    {"write_sheet", write_sheet, trials, &paulis, TABLEAU_SUM_SHORT_OUTPUT, 0, ""},
    {"write_page", write_page, trials, &paulis, TABLEAU_SUM_SHORT_OUTPUT, 0, ""},
    {"view", view, trials, &paulis, TABLEAU_SUM_BAD_PLACE, 0, ""},
    {"view_word", view_word, word_trials, &paulis, TABLEAU_SUM_BAD_PLACE, 0, ""},
    {"run", run, run_trials, &paulis, TABLEAU_SUM_BAD_PLACE, 0, ""},
};
#define CALLS (sizeof calls / sizeof calls[0])

int main(void)
{
    const struct call *most = calls;
    make_sums();
    with_rate(0.25);
    taken_by_nothing = overwritten(nothing);
    for (size_t i = 0; i < 2 * CALLS; i++) {
        dirty = i >= CALLS;
        calls[i % CALLS].trials(&calls[i % CALLS]);
    }
    for (size_t i = 0; i < CALLS; i++) {
        printf("%-22s %6zu bytes (%s)\n", calls[i].name, calls[i].most, calls[i].trial);
        if (calls[i].most > most->most)
            most = &calls[i];
    }
    printf("at most %zu bytes of stack, by %s (%s)\n", most->most, most->name, most->trial);
    if (most->most >= TABLEAU_SUM_STACK_BYTES) {
        printf("below %d were expected\n", TABLEAU_SUM_STACK_BYTES);
        failed = true;
    }
    return failed || fflush(stdout) != 0 ? EXIT_FAILURE : EXIT_SUCCESS;
}
