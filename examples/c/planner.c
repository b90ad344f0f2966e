/*
 * A shot planner: three atoms in a GHZ state under noise. The circuit is a list of calls, made in one call. It prints what each of them did
 * and lost, the sampling table with each entry's share of the shots, the entries that some draws pick, the page, and the sheet; it reads the
 * sheet back, and shows what a refused call looks like.
 */
#include <inttypes.h>
#include <stdio.h>
#include <stdlib.h>
#include <string.h>

#include "tableau_sum.h"

#define SHOTS 10000
#define LENGTH(array) (sizeof(array) / sizeof(array)[0])

/* A store, and the header that describes it: the one that the last accepted call gave. */
struct sum {
    tableau_sum_header header;
    uint64_t *store;
    size_t words;
};

/* ---- answers */

/* Whether a call was done. Of a refused one it says which it was and why. */
static bool was_done(const char *call, uint64_t number)
{
    if (number != TABLEAU_SUM_DONE)
        fprintf(stderr, "%s was refused with %" PRIu64 ": %s\n", call, number, tableau_sum_meaning(number));
    return number == TABLEAU_SUM_DONE;
}

/* The same, and the header of an accepted call is kept. */
static bool accepted(struct sum *s, const char *call, tableau_sum_answer a)
{
    if (!was_done(call, a.number))
        return false;
    s->header = a.header;
    return true;
}

/* Zeroed memory, or a message. */
static void *room(size_t count, size_t each)
{
    void *p = count == 0 ? NULL : calloc(count, each);
    if (p == NULL)
        fprintf(stderr, "there is no room for %zu elements\n", count);
    return p;
}

/* ---- the circuit */

static bool begin(struct sum *s)
{
    const tableau_sum_size size = {3, 1, 32};
    const double threshold = 1e-6, cutoff = 1e-3;
    s->words = tableau_sum_store_words(size);
    s->store = room(s->words, sizeof *s->store);
    return s->store != NULL && accepted(s, "fresh", tableau_sum_fresh(size, threshold, cutoff, s->store, s->words));
}

/* What a call did: its branches, the entries after it, and the weight that it lost. */
static void print_step(const char *call, tableau_sum_answer a)
{
    printf("%-20s  %6zu  %6zu  %7zu  %7zu  %14.6f  %9.6f\n", call, a.counts.merged, a.counts.stored, a.counts.dropped, a.header.count,
           a.lost.dropped, a.lost.truncated);
}

/* The calls that were made, and what all of them lost. Truncating takes of what the drops have left. */
static bool print_steps(struct sum *s, const char *const *names, const tableau_sum_record *records, tableau_sum_ran ran)
{
    double kept = 1;
    printf("call                  merged  stored  dropped  entries  weight dropped  truncated\n");
    for (size_t i = 0; i < ran.made; i++) {
        const tableau_sum_answer a = tableau_sum_record_answer(records[i], ran.header);
        if (!accepted(s, names[i], a))
            return false;
        print_step(names[i], a);
        kept = kept * (1 - a.lost.dropped) * (1 - a.lost.truncated);
    }
    printf("lost in all: %.6f of the weight; what is left adds up to 1 all the same\n", 1 - kept);
    return true;
}

/* A GHZ state, and then noise: one call of the library, which ends with the first call of the list that it refuses. */
static bool run_circuit(struct sum *s)
{
    static const char *const names[] = {"h 0", "cnot 0 1", "cnot 1 2", "depolarize1 0, 3%", "loss_channel 1, 10%", "reset_loss_channel 1",
                                        "loss_channel 2, 2%"};
    const tableau_sum_call calls[] = {
        tableau_sum_call_h(0),
        tableau_sum_call_cnot(0, 1),
        tableau_sum_call_cnot(1, 2),
        tableau_sum_call_depolarize1(0, 0.03),
        tableau_sum_call_loss_channel(1, 0.1),
        tableau_sum_call_reset_loss_channel(1),
        tableau_sum_call_loss_channel(2, 0.02),
    };
    tableau_sum_record records[LENGTH(calls)];
    const tableau_sum_ran ran = tableau_sum_run_calls(s->header, s->store, s->words, calls, LENGTH(calls), records, true);
    return was_done("the circuit", ran.number) && print_steps(s, names, records, ran);
}

/* ---- the sampling table */

/* Shots up to a running total of weights, so that the shares add up to all of them. */
static unsigned long shots_to(double total)
{
    return (unsigned long)(total * SHOTS + 0.5);
}

static void print_share(const struct sum *s, size_t place, double before, double total)
{
    const uint64_t *entry = s->store + tableau_sum_entry_start(s->header.size, place);
    printf("%5zu  %.6f  %.6f  %016" PRIx64 "  %5lu\n", place, tableau_sum_float(entry[TABLEAU_SUM_WEIGHT]), total, entry[TABLEAU_SUM_LOSS],
           shots_to(total) - shots_to(before));
}

static bool print_table(struct sum *s)
{
    const size_t words = 2 * s->header.count;
    uint64_t *table = room(words, sizeof *table);
    bool done = table != NULL && accepted(s, "table", tableau_sum_table(s->header, s->store, s->words, table, words));
    if (done) {
        double before = 0;
        printf("\nplace    weight     total  lost              shots\n");
        for (size_t i = 0; i < words; i += 2) {
            const double total = tableau_sum_float(table[i + 1]);
            print_share(s, (size_t)table[i], before, total);
            before = total;
        }
    }
    free(table);
    return done;
}

/* The draws are given here. A planner takes them from its random generator, each at least 0 and below 1. */
static bool print_picks(struct sum *s)
{
    static const double draws[] = {0.0, 0.5, 0.96, 0.98, 0.999};
    printf("\n");
    for (size_t i = 0; i < LENGTH(draws); i++) {
        const tableau_sum_answer a = tableau_sum_pick(s->header, s->store, s->words, draws[i]);
        if (!accepted(s, "pick", a))
            return false;
        printf("draw %.3f picks entry %zu\n", draws[i], a.place);
    }
    return true;
}

/* ---- the sheet */

/* The sum's sheet, and in *length its bytes; NULL after a message. The caller frees it. */
static uint8_t *sheet_of(struct sum *s, size_t *length)
{
    const size_t bytes = tableau_sum_sheet_bytes(s->header.size);
    uint8_t *text = room(bytes, sizeof *text);
    if (text != NULL) {
        const tableau_sum_answer a = tableau_sum_write_sheet(s->header, s->store, s->words, text, bytes);
        if (accepted(s, "write_sheet", a)) {
            *length = a.length;
            return text;
        }
    }
    free(text);
    return NULL;
}

/* A sum of its own from a sheet. The store's length follows from the first line. */
static bool read_back(struct sum *s, const uint8_t *text, size_t length)
{
    s->words = tableau_sum_store_words(tableau_sum_sheet_size(text, length));
    s->store = room(s->words, sizeof *s->store);
    return s->store != NULL && accepted(s, "read_sheet", tableau_sum_read_sheet(text, length, s->store, s->words));
}

/* What is read back has the same sheet again, and is dirty: its keys are worked out by its next channel or reset. */
static bool same_again(const uint8_t *text, size_t length)
{
    struct sum copy = {0};
    uint8_t *again = NULL;
    size_t again_length = 0;
    bool same = false;
    if (read_back(&copy, text, length) && (again = sheet_of(&copy, &again_length)) != NULL) {
        same = again_length == length && memcmp(again, text, length) == 0;
        printf("\nread back: %zu entries, %s; its sheet is %s\n", copy.header.count, copy.header.dirty ? "dirty" : "not dirty",
               same ? "the same" : "ANOTHER");
    }
    free(again);
    free(copy.store);
    return same;
}

static bool print_sheet(struct sum *s)
{
    size_t length = 0;
    uint8_t *text = sheet_of(s, &length);
    bool done = text != NULL;
    if (done) {
        printf("\nthe sheet, %zu bytes:\n", length);
        done = fwrite(text, 1, length, stdout) == length && same_again(text, length);
    }
    free(text);
    return done;
}

/* ---- the page */

/* For people: a line for each entry, with its place, its share in parts per million and its lost qubits. */
static bool print_page(struct sum *s)
{
    const size_t bytes = tableau_sum_page_bytes(s->header.size);
    uint8_t *text = room(bytes, sizeof *text);
    bool done = false;
    if (text != NULL) {
        const tableau_sum_answer a = tableau_sum_write_page(s->header, s->store, s->words, text, bytes);
        if (accepted(s, "write_page", a)) {
            printf("\nthe page:\n");
            done = fwrite(text, 1, a.length, stdout) == a.length;
        }
    }
    free(text);
    return done;
}

/* ---- a refusal */

/* There is no qubit 3. The number says so; header and store are as they were, and the sum goes on. */
static bool show_refusal(struct sum *s)
{
    const size_t bytes = s->words * sizeof *s->store;
    uint64_t *before = room(s->words, sizeof *before);
    bool untouched = false;
    if (before != NULL) {
        memcpy(before, s->store, bytes);
        const tableau_sum_answer a = tableau_sum_loss_channel(s->header, s->store, s->words, 3, 0.02);
        untouched = a.number != TABLEAU_SUM_DONE && a.header.count == s->header.count && memcmp(before, s->store, bytes) == 0;
        printf("\nloss_channel 3, 2%%: refused with %" PRIu64 ", %s\n", a.number, tableau_sum_meaning(a.number));
        printf("the store is %s\n", untouched ? "as it was" : "CHANGED");
    }
    free(before);
    return untouched;
}

int main(void)
{
    struct sum s = {0};
    const bool done =
        begin(&s) && run_circuit(&s) && print_table(&s) && print_picks(&s) && print_page(&s) && print_sheet(&s) && show_refusal(&s);
    free(s.store);
    return done && fflush(stdout) == 0 ? EXIT_SUCCESS : EXIT_FAILURE;
}
