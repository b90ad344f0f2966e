/*
 * Every call of the library, and every number that it gives, one line each: a test of the header. The example is planner.c.
 * A line has the call, its number, merged, stored, dropped, compared, the bits of the dropped and of the truncated weight, place, length,
 * the count and flag of the header given back, and a digest of what the call wrote or shows; of the store, if that is nothing else.
 * Then lists of calls: a line for each list, with its number, how many calls were made, count and flag, and digests of what it was lent; and
 * one for each call that was made, from its record. Then trials of cutoffs: a line for each call, and for each trial that it made.
 */
#include <inttypes.h>
#include <math.h>
#include <stdio.h>
#include <stdlib.h>
#include <string.h>

#include "tableau_sum.h"

#define N 2
#define K 2
#define CAPACITY 64
#define WORDS (CAPACITY * (5 + 3 * K + 6 * N))
#define SHEET (127 + CAPACITY * (1 + K + 2 * N) * 64)
#define LENGTH(array) (sizeof(array) / sizeof(array)[0])

static const tableau_sum_size size = {N, K, CAPACITY};
static tableau_sum_header header;
static uint64_t store[WORDS];
static uint64_t table[2 * CAPACITY];
static double rates[TABLEAU_SUM_PAIRS]; /* 1/256, 2/256, .. */
static uint8_t text[SHEET];

/* ---- telling */

static uint64_t mixed(uint64_t digest, uint64_t word)
{
    digest = (digest ^ word) * UINT64_C(0x100000001b3);
    return digest ^ digest >> 32;
}

static uint64_t digest_of(const uint64_t *words, size_t length)
{
    uint64_t digest = 0;
    for (size_t i = 0; i < length; i++)
        digest = mixed(digest, words[i]);
    return digest;
}

static uint64_t digest_of_text(const uint8_t *bytes, size_t length)
{
    uint64_t digest = 0;
    for (size_t i = 0; i < length; i++)
        digest = mixed(digest, bytes[i]);
    return digest;
}

static void tell(const char *call, tableau_sum_answer a, uint64_t digest)
{
    const tableau_sum_counts c = a.counts;
    printf("%s %" PRIu64 " %zu %zu %zu %zu ", call, a.number, c.merged, c.stored, c.dropped, c.compared);
    printf("%016" PRIx64 " %016" PRIx64 " ", tableau_sum_bits(a.lost.dropped), tableau_sum_bits(a.lost.truncated));
    printf("%zu %zu %zu %d %016" PRIx64 "\n", a.place, a.length, a.header.count, a.header.dirty, digest);
}

/* An accepted call that changes the sum. */
static void changed(const char *call, tableau_sum_answer a)
{
    header = a.header;
    tell(call, a, digest_of(store, WORDS));
}

/* A refused call: the header is as it was. */
static void refused(const char *call, tableau_sum_answer a)
{
    tell(call, a, digest_of(store, WORDS));
}

/* ---- accepted calls */

static void channels(void)
{
    changed("fresh", tableau_sum_fresh(size, 0.5, 0, store, WORDS));
    changed("pauli_error", tableau_sum_pauli_error(header, store, WORDS, 0, 0.25, 0.125, 0.0625));
    changed("loss_channel", tableau_sum_loss_channel(header, store, WORDS, 1, 0.5));
    changed("depolarize1", tableau_sum_depolarize1(header, store, WORDS, 0, 0.1875));
    changed("h", tableau_sum_h(header, store, WORDS, 0));
    changed("s", tableau_sum_s(header, store, WORDS, 1));
    changed("cnot", tableau_sum_cnot(header, store, WORDS, 0, 1));
    changed("two_qubit_pauli_error", tableau_sum_two_qubit_pauli_error(header, store, WORDS, 1, 0, rates));
    changed("depolarize2", tableau_sum_depolarize2(header, store, WORDS, 0, 1, 0.25));
    changed("reset_loss_channel", tableau_sum_reset_loss_channel(header, store, WORDS, 1));
}

static void looks(void)
{
    tableau_sum_answer a = tableau_sum_table(header, store, WORDS, table, 2 * CAPACITY);
    tell("table", a, digest_of(table, a.length));
    tell("pick", tableau_sum_pick(header, store, WORDS, 0.75), 0);
    a = tableau_sum_view(header, store, WORDS, 3);
    tell("view", a, digest_of(store + 3 * a.length, a.length));
    printf("view_word %016" PRIx64 " %016" PRIx64 "\n", tableau_sum_view_word(header, store, WORDS, 3, TABLEAU_SUM_PHASE_LOSS_KEY),
           tableau_sum_view_word(header, store, WORDS, 3, a.length));
    a = tableau_sum_write_page(header, store, WORDS, text, tableau_sum_page_bytes(size));
    tell("write_page", a, digest_of_text(text, a.length));
}

/* Writes a number into the text, as the field that begins at this byte. */
static void put_field(size_t at, double x)
{
    char field[22];
    snprintf(field, sizeof field, "%21" PRIu64, tableau_sum_bits(x));
    memcpy(text + at, field, 21);
}

/* The sheet is read back with the cutoff 1/32, the last field of line 1, and the weight 2 for the first entry. */
static size_t sheet(void)
{
    const tableau_sum_answer a = tableau_sum_write_sheet(header, store, WORDS, text, sizeof text);
    tell("write_sheet", a, digest_of_text(text, a.length));
    put_field(105, 1.0 / 32);
    put_field(127, 2);
    changed("read_sheet", tableau_sum_read_sheet(text, a.length, store, WORDS));
    changed("normalise", tableau_sum_normalise(header, store, WORDS));
    changed("truncate", tableau_sum_truncate(header, store, WORDS));
    return a.length;
}

/* ---- refused calls */

static void refusals(size_t text_len)
{
    const tableau_sum_size large = {TABLEAU_SUM_MAX_QUBITS + 1, K, CAPACITY};
    const tableau_sum_size long_entries = {N, TABLEAU_SUM_MAX_COEFFICIENTS + 1, 16}; /* 92 words each, as many as the store has */
    refused("fresh", tableau_sum_fresh(large, 0.5, 0, store, WORDS));
    refused("fresh", tableau_sum_fresh(long_entries, 0.5, 0, store, WORDS));
    refused("fresh", tableau_sum_fresh(size, 0.5, (double)NAN, store, WORDS));
    refused("h", tableau_sum_h(header, store, WORDS, N));
    refused("cnot", tableau_sum_cnot(header, store, WORDS, 1, 1));
    refused("view", tableau_sum_view(header, store, WORDS, header.count));
    refused("pauli_error", tableau_sum_pauli_error(header, store, WORDS, 0, 0.5, 0.5, 0.5));
    put_field(127, 1025);
    refused("read_sheet", tableau_sum_read_sheet(text, text_len, store, WORDS));
    refused("read_sheet", tableau_sum_read_sheet(text, text_len - 1, store, WORDS));
    refused("write_sheet", tableau_sum_write_sheet(header, store, WORDS, text, 126));
    refused("write_page", tableau_sum_write_page(header, store, WORDS, text, header.count * TABLEAU_SUM_PAGE_LINE - 1));
    refused("pick", tableau_sum_pick(header, store, WORDS, 1));
}

/* Number 6 needs a full store, and 9 an empty sum. */
static void last_refusals(void)
{
    const tableau_sum_size one = {N, K, 1};
    const size_t words = tableau_sum_store_words(one);
    tableau_sum_answer a = tableau_sum_fresh(one, 0.5, 0, store, words);
    tell("fresh", a, digest_of(store, words));
    a = tableau_sum_loss_channel(a.header, store, words, 0, 1);
    tell("loss_channel", a, digest_of(store, words));
    changed("fresh", tableau_sum_fresh(size, 0.5, 1, store, WORDS));
    refused("table", tableau_sum_table(header, store, WORDS, table, 2 * CAPACITY));
    refused("pick", tableau_sum_pick(header, store, WORDS, 0));
}

/* ---- lists of calls: what each call is called, and its words */

#define MOST 16
static const char *names[MOST];
static tableau_sum_call calls[MOST];
static tableau_sum_record records[MOST];
static size_t count;

static void add(const char *name, tableau_sum_call call)
{
    names[count] = name;
    calls[count++] = call;
}

static void tell_run(const char *call, tableau_sum_ran ran)
{
    header = ran.header;
    printf("%s %" PRIu64 " %zu %zu %d %016" PRIx64 "\n", call, ran.number, ran.made, header.count, header.dirty, digest_of(store, WORDS));
}

/* On the sum of the sheet. */
static void circuit(size_t text_len, bool stop)
{
    changed("read_sheet", tableau_sum_read_sheet(text, text_len, store, WORDS));
    const tableau_sum_ran ran = tableau_sum_run_calls(header, store, WORDS, calls, count, records, stop);
    tell_run("run_calls", ran);
    for (size_t i = 0; i < ran.made; i++)
        tell(names[i], tableau_sum_record_answer(records[i], ran.header), 0);
}

/* Every call that changes a sum, and some that are refused; and an empty list. */
static void circuits(size_t text_len)
{
    put_field(127, 2);
    add("normalise", tableau_sum_call_normalise());
    add("truncate", tableau_sum_call_truncate());
    add("h", tableau_sum_call_h(0));
    add("cnot", tableau_sum_call_cnot(0, 1));
    add("pauli_error", tableau_sum_call_pauli_error(0, 0.25, 0.125, 0.0625));
    add("loss_channel", tableau_sum_call_loss_channel(1, 0.25));
    add("cnot", tableau_sum_call_cnot(1, 1));
    add("two_qubit_pauli_error", tableau_sum_call_two_qubit_pauli_error(1, 0, rates));
    add("depolarize2", tableau_sum_call_depolarize2(0, 1, 0.25));
    add("pauli_error", tableau_sum_call_pauli_error(0, 0.5, 0.5, 0.5));
    add("s", tableau_sum_call_s(1));
    add("depolarize1", tableau_sum_call_depolarize1(0, 0.1875));
    add("loss_channel", tableau_sum_call_loss_channel(0, 0.875));
    add("reset_loss_channel", tableau_sum_call_reset_loss_channel(1));
    add("h", tableau_sum_call_h(N));
    circuit(text_len, false);
    circuit(text_len, true);
    count = 0;
    circuit(text_len, false);
}

/* ---- lists that show something */

#define ROOM (TABLEAU_SUM_RECORD_WORDS + TABLEAU_SUM_SHOWN_WORDS)
static const tableau_sum_room room = {TABLEAU_SUM_SHOWN_WORDS, SHEET};
static uint64_t all_records[MOST * ROOM];
static uint8_t all_text[MOST * SHEET];

#define PAINT 7

/* By the digests of all records, each without the paint at its end: the same however much room a record has. */
static uint64_t digest_of_records(void)
{
    uint64_t digest = 0;
    for (size_t i = 0; i < MOST; i++) {
        size_t used = ROOM;
        while (used > 0 && all_records[i * ROOM + used - 1] == PAINT)
            used--;
        digest = mixed(digest, digest_of(all_records + i * ROOM, used));
    }
    return digest;
}

/* What is written stands in paint. */
static tableau_sum_ran run(size_t calls_len, size_t log_len, size_t text_len, tableau_sum_room r)
{
    for (size_t i = 0; i < MOST * ROOM; i++)
        all_records[i] = PAINT;
    memset(all_text, PAINT, sizeof all_text);
    const tableau_sum_ran ran =
        tableau_sum_run(header, store, WORDS, calls->words, calls_len, all_records, log_len, all_text, text_len, r, false);
    tell_run("run", ran);
    printf("written %016" PRIx64 " %016" PRIx64 "\n", digest_of_records(), digest_of_text(all_text, sizeof all_text));
    return ran;
}

/* Done and refused, between calls that change the sum. */
static void shows(void)
{
    add("loss_channel", tableau_sum_call_loss_channel(0, 0.25));
    add("table", tableau_sum_call_table(4));
    add("pick", tableau_sum_call_pick(0.75));
    add("view", tableau_sum_call_view(1));
    add("sheet", tableau_sum_call_sheet());
    add("page", tableau_sum_call_page());
    add("h", tableau_sum_call_h(1));
    add("table", tableau_sum_call_table(3));
    add("pick", tableau_sum_call_pick(1));
    add("view", tableau_sum_call_view(2));
    add("page", tableau_sum_call_page());
    changed("fresh", tableau_sum_fresh(size, 0.5, 0, store, WORDS));
    const tableau_sum_ran ran = run(count * TABLEAU_SUM_CALL_WORDS, count * ROOM, count * SHEET, room);
    for (size_t i = 0; i < ran.made; i++)
        tell(names[i], tableau_sum_record_answer(tableau_sum_record_at(all_records, room, i), ran.header), 0);
}

/* Lists that do not fit: no whole calls; a word of a record, a byte of text or room for a table is missing; more room than a record
 * may have; a kind that there is not. Lists without room: a view; more calls than memory holds; none at all, which fits. */
static void unfit_lists(void)
{
    const size_t call = TABLEAU_SUM_CALL_WORDS;
    const tableau_sum_room little = {TABLEAU_SUM_SHOWN_WORDS - 1, SHEET}, much = {TABLEAU_SUM_MOST_SHOWN + 1, SHEET};
    run(count * call - 1, count * ROOM, count * SHEET, room);
    run(count * call, count * ROOM - 1, count * SHEET, room);
    run(count * call, count * ROOM, count * SHEET - 1, room);
    run(count * call, count * ROOM, count * SHEET, little);
    run(call, MOST * ROOM, MOST * SHEET, much);
    calls[0].words[0] = TABLEAU_SUM_KIND_PAGE + 1;
    run(call, ROOM, SHEET, room);
    calls[0] = tableau_sum_call_view(0);
    tell_run("run_calls", tableau_sum_run_calls(header, store, WORDS, calls, 1, records, false));
    printf("not made: %s\n", tableau_sum_meaning(records[0].words[0]));
    tell_run("run_calls", tableau_sum_run_calls(header, store, WORDS, calls, SIZE_MAX / call + 1, records, false));
    tell_run("run_calls", tableau_sum_run_calls(header, store, WORDS, NULL, 0, NULL, false));
}

/* ---- cutoffs tried: a line for each call, and one for each trial, with the number and the entries of its steps */

static const uint64_t kinds[] = {TABLEAU_SUM_STEP_PAULI_ERROR, TABLEAU_SUM_STEP_LOSS_CHANNEL, TABLEAU_SUM_STEP_DEPOLARIZE1,
                                 TABLEAU_SUM_STEP_LOSS_CHANNEL};
static const size_t qubits[] = {0, 1, 0, 0};
static const double step_rates[] = {0.25, 0.125, 0.0625, 0.25, 7, 7, 1, 7, 7, 0.125, 7, 7};
#define STEPS LENGTH(kinds)

static uint64_t places[2 * 4 * STEPS];

/* With the steps above, or some of it another. */
static void try_all(tableau_sum_size s, const double *cutoffs, size_t cutoffs_len, const uint64_t *k, const size_t *q, size_t qubits_len,
                size_t rates_len, size_t out_len)
{
    const tableau_sum_answer a = tableau_sum_try_cutoffs(s, 0.5, cutoffs, cutoffs_len, k, STEPS, q, qubits_len, step_rates, rates_len, store,
                                                         WORDS, places, out_len);
    tell("try_cutoffs", a, digest_of(store, WORDS));
    for (size_t i = 0; i < a.length / (2 * STEPS); i++) {
        printf("trial");
        for (size_t j = 0; j < STEPS; j++)
            printf(" %" PRIu64 " %" PRIu64, places[2 * (i * STEPS + j)], places[2 * (i * STEPS + j) + 1]);
        printf("\n");
    }
}

/* Every number; trials that end by 9 and by 3, and one on an empty sum. */
static void trials(void)
{
    const double cutoffs[] = {0, 1.0 / 64, 0.5, 1}, no_bound[] = {0, (double)NAN};
    const size_t outside[] = {0, N, 0, 0};
    const uint64_t unknown[] = {0, 1, 3, 1};
    const tableau_sum_size large = {TABLEAU_SUM_MAX_QUBITS + 1, K, CAPACITY};
    const size_t all_rates = LENGTH(step_rates), room_for_all = LENGTH(places);
    try_all(size, cutoffs, 4, kinds, qubits, STEPS, all_rates, room_for_all);
    try_all(size, cutoffs, 2, kinds, outside, STEPS, all_rates, room_for_all);
    try_all(large, cutoffs, 2, kinds, qubits, STEPS, all_rates, room_for_all);
    try_all(size, cutoffs, 0, kinds, qubits, STEPS, all_rates, room_for_all);
    try_all(size, no_bound, 2, kinds, qubits, STEPS, all_rates, room_for_all);
    try_all(size, cutoffs, 4, kinds, qubits, STEPS, all_rates, room_for_all - 1);
    try_all(size, cutoffs, 4, unknown, qubits, STEPS, all_rates, room_for_all);
    try_all(size, cutoffs, 4, kinds, qubits, STEPS - 1, all_rates, room_for_all);
    try_all(size, cutoffs, 4, kinds, qubits, STEPS, all_rates - 1, room_for_all);
}

/* ---- the bits of a NaN. The proofs know one NaN only, so that a refused call hands its bits back as they were given is tested */

static bool same_bounds(tableau_sum_header a, tableau_sum_header b)
{
    return memcmp(&a.threshold, &b.threshold, sizeof a.threshold) == 0 && memcmp(&a.cutoff, &b.cutoff, sizeof a.cutoff) == 0;
}

/* A list hands the bounds back too, made or not. */
static bool list_keeps(tableau_sum_header h, uint64_t number)
{
    const tableau_sum_call pair[] = {tableau_sum_call_h(0), tableau_sum_call_pick(0)};
    const tableau_sum_call unfit = tableau_sum_call_view(0);
    const tableau_sum_ran ran = tableau_sum_run_calls(h, store, WORDS, pair, 2, records, false);
    const tableau_sum_ran not_made = tableau_sum_run_calls(h, store, WORDS, &unfit, 1, records + 2, false);
    return ran.made == 2 && records[0].words[0] == number && records[1].words[0] == number && same_bounds(ran.header, h) &&
           not_made.number == TABLEAU_SUM_DOES_NOT_FIT && same_bounds(not_made.header, h);
}

/* Every call that takes a header gives this number, and the bounds bit for bit. */
static bool bounds_kept(tableau_sum_header h, uint64_t number)
{
    const tableau_sum_answer answers[] = {
        tableau_sum_pauli_error(h, store, WORDS, 0, 0, 0, 0),
        tableau_sum_loss_channel(h, store, WORDS, 0, 0),
        tableau_sum_depolarize1(h, store, WORDS, 0, 0),
        tableau_sum_two_qubit_pauli_error(h, store, WORDS, 0, 1, rates),
        tableau_sum_depolarize2(h, store, WORDS, 0, 1, 0),
        tableau_sum_reset_loss_channel(h, store, WORDS, 0),
        tableau_sum_h(h, store, WORDS, 0),
        tableau_sum_s(h, store, WORDS, 0),
        tableau_sum_cnot(h, store, WORDS, 0, 1),
        tableau_sum_truncate(h, store, WORDS),
        tableau_sum_normalise(h, store, WORDS),
        tableau_sum_table(h, store, WORDS, table, 2 * CAPACITY),
        tableau_sum_pick(h, store, WORDS, 0),
        tableau_sum_write_sheet(h, store, WORDS, text, sizeof text),
        tableau_sum_view(h, store, WORDS, 0),
        tableau_sum_write_page(h, store, WORDS, text, sizeof text),
    };
    for (size_t i = 0; i < LENGTH(answers); i++)
        if (answers[i].number != number || !same_bounds(answers[i].header, h))
            return false;
    return list_keeps(h, number);
}

static bool nans_kept(void)
{
    /* quiet; with a sign and a payload; signalling; no NaN */
    static const uint64_t bits[] = {0x7ff8000000000000, 0xfff80000deadbeef, 0x7ff0000000000001, 0};
    bool kept = true;
    for (int i = 0; i < 15; i++) {
        tableau_sum_header h = header;
        h.threshold = tableau_sum_float(bits[i / 4]);
        h.cutoff = tableau_sum_float(bits[i % 4]);
        kept = kept && bounds_kept(h, TABLEAU_SUM_BAD_HEADER);
        h.size.n = TABLEAU_SUM_MAX_QUBITS + 1;
        kept = kept && bounds_kept(h, TABLEAU_SUM_BAD_SIZE);
    }
    if (!kept)
        fputs("a refused call hands a NaN back with other bits\n", stderr);
    return kept;
}

int main(void)
{
    for (int i = 0; i < TABLEAU_SUM_PAIRS; i++)
        rates[i] = (i + 1) / 256.0;
    channels();
    looks();
    const size_t text_len = sheet();
    refusals(text_len);
    last_refusals();
    circuits(text_len);
    shows();
    unfit_lists();
    trials();
    return nans_kept() && fflush(stdout) == 0 ? EXIT_SUCCESS : EXIT_FAILURE;
}
