/*
 * tableau_sum.h: weighted sums of stabilizer tableaux under Pauli and loss noise.
 *
 * For C99 and later and for C++. Link with libtableau_sum.a, which `rt staticlib tableau_sum` writes to target/staticlib, on x86-64
 * Linux. The library needs memcpy, memmove and memset and nothing else: it has no heap and no state of its own.
 *
 * HOW A SUM IS KEPT. The caller lends a store of 64-bit words, tableau_sum_store_words(size) of them, and keeps a header that
 * describes it. Each call takes both and gives an answer: a number, 0 if the call was done, and the header as it is now, which belongs
 * into the next call. A refused call changes nothing that it was lent. A whole list of calls can be made in one (tableau_sum_run_calls).
 *
 *     tableau_sum_size size = {3, 1, 32};
 *     size_t words = tableau_sum_store_words(size);
 *     uint64_t *store = calloc(words, sizeof *store);
 *     tableau_sum_answer a = tableau_sum_fresh(size, 1e-6, 1e-3, store, words);
 *     if (a.number == TABLEAU_SUM_DONE)
 *         a = tableau_sum_h(a.header, store, words, 0);
 *     if (a.number != TABLEAU_SUM_DONE)
 *         puts(tableau_sum_meaning(a.number));
 *
 * WHAT THE CALLER OWES. The proofs of the library take these for granted, and no call tests them:
 *   - No pointer is null, also where the length is 0. Pointers to words and doubles are aligned to 8 bytes.
 *   - A length counts elements, not bytes. So many elements are there, and they are initialised: use calloc rather than malloc.
 *   - The slices of one call do not overlap. Until it returns no other thread writes to them, or reads those that the call writes.
 *   - The flag `dirty` of a header is 0 or 1, as every answer has it.
 *   - Arithmetic rounds to nearest and keeps subnormal numbers. Programs start so, unless they are linked with gcc's -ffast-math.
 *
 * WHAT IS PROMISED, by proof. Whatever the numbers, headers and words are, a call ends, touches the slices only inside their lengths,
 * and gives exactly what document 01 of the project says; tableau_sum_write_page and tableau_sum_try_cutoffs, what requests 1 and 2 of
 * document 02 say, and the gates, on lost atoms, what request 5 says (request 3 changes no call, request 4 is a limit; the others are not
 * built); tableau_sum_run, what its calls give one after the other. For a sum that was begun by tableau_sum_fresh, tableau_sum_read_sheet
 * or tableau_sum_try_cutoffs, and whose header and store nothing but these calls has written since, no branch misses an equal entry
 * because of stale keys.
 *
 * Calls on different stores may run at the same time in different threads.
 */
#ifndef TABLEAU_SUM_H
#define TABLEAU_SUM_H

#include <stddef.h>
#include <stdint.h>
#include <string.h>
#ifndef __cplusplus
#include <stdbool.h>
#endif

#ifdef __cplusplus
extern "C" {
#endif

/* Whoever drops an answer has lost the header: compilers that can, warn. */
#if defined(__GNUC__)
#define TABLEAU_SUM_CALL __attribute__((warn_unused_result))
#else
#define TABLEAU_SUM_CALL
#endif

/* ---- limits: each from 1 to this. Past them every call gives TABLEAU_SUM_BAD_SIZE, also where a sheet has them. (Up to request 4 of
 * document 02 the limit of k was 64.) */

#define TABLEAU_SUM_MAX_QUBITS 64
#define TABLEAU_SUM_MAX_COEFFICIENTS 24
#define TABLEAU_SUM_MAX_CAPACITY 256

/* the rates of tableau_sum_two_qubit_pauli_error */
#define TABLEAU_SUM_PAIRS 15

/* the cutoffs and the steps that tableau_sum_try_cutoffs can be given, and the rates of a step */
#define TABLEAU_SUM_MAX_CUTOFFS 8
#define TABLEAU_SUM_MAX_STEPS 64
#define TABLEAU_SUM_STEP_RATES 3

/*
 * Every call takes less stack than this. Measured by examples/c/stack.c, as gcc builds it: at most 27,688 bytes, by the trials of cutoffs; by a
 * list 24,936, by a reset itself 23,416. (Where the dynamic linker has to find memcpy in the middle of a call it takes more: some 3,150 bytes, in
 * an earlier measurement.)
 */
#define TABLEAU_SUM_STACK_BYTES 36864

/* ---- the numbers a call gives: the lowest that applies, but the reader tests TABLEAU_SUM_BAD_SHEET first, and the trials
 * TABLEAU_SUM_BAD_TRIALS before TABLEAU_SUM_BAD_HEADER */

enum tableau_sum_number {
    /* The call was done. */
    TABLEAU_SUM_DONE = 0,
    /* n, k or capacity is outside its limits, or the store's length is not tableau_sum_store_words of the size. */
    TABLEAU_SUM_BAD_SIZE = 1,
    /* The count is above the capacity; or the threshold or the cutoff is NaN, infinite or below 0. */
    TABLEAU_SUM_BAD_HEADER = 2,
    /* A qubit is not below n; or both qubits of a CNOT are the same; or the place to be viewed is not below the count. */
    TABLEAU_SUM_BAD_PLACE = 3,
    /* A rate is NaN, below 0 or above 1; or the rates, added from the first on, come to more than 1. For depolarising this is asked of
     * the rate itself and of its parts' total. */
    TABLEAU_SUM_BAD_RATE = 4,
    /* A listed entry has a weight that is NaN, below 0 or above 1024, more than k coefficients, a coefficient that is NaN or infinite,
     * a phase above 3, or an x, z or loss bit at n or higher; or an unused coefficient place or a slot past the count is not 0.
     * Merging can lift a weight above 1024: every later call on that sum then gives this number. */
    TABLEAU_SUM_BAD_ENTRY = 5,
    /* A channel would hold more than `capacity` entries before it truncates. */
    TABLEAU_SUM_NO_ROOM = 6,
    /* A sheet's text breaks its columns, digits, line ends or number of lines, or has a field of 2^64 or more. */
    TABLEAU_SUM_BAD_SHEET = 7,
    /* The output slice is shorter than needed. */
    TABLEAU_SUM_SHORT_OUTPUT = 8,
    /* The weights of a list that is to be normalised, and is not empty, add up to 0; or a table or a pick is asked of an empty list. */
    TABLEAU_SUM_NO_WEIGHT = 9,
    /* A draw is NaN, below 0, or 1 or more. */
    TABLEAU_SUM_BAD_DRAW = 10,
    /* There are no steps or no cutoffs to be tried, or more than TABLEAU_SUM_MAX_STEPS or TABLEAU_SUM_MAX_CUTOFFS. */
    TABLEAU_SUM_BAD_TRIALS = 11,
    /* Of a list of calls: its words are no whole calls of known kinds, or there is no record, no room in it for a table or a view, or no
     * stretch of text for each. Of the steps of trials: a kind is not known, or there is not a qubit and three rates for each. Of no other
     * call. Nothing was done. (12 to 18 are kept for calls to come.) */
    TABLEAU_SUM_DOES_NOT_FIT = 19
};

/* ---- what the calls take and give */

/* How large a sum can be. */
typedef struct tableau_sum_size {
    size_t n;        /* qubits */
    size_t k;        /* coefficients that an entry has room for */
    size_t capacity; /* entries that the store has room for */
} tableau_sum_size;

/* What describes the sum in a store. Take it from the last answer, and pass it on as it is. */
typedef struct tableau_sum_header {
    tableau_sum_size size;
    size_t count;     /* entries listed */
    double threshold; /* coefficients are as good as equal if the square of their distance is below the square of this */
    double cutoff;    /* a branch that merges with no entry is kept only if its weight is above this */
    bool dirty;       /* the stored keys are stale: after a gate or a reading, until the next channel or reset. 0 or 1 */
} tableau_sum_header;

/* What became of the branches of a channel or a reset. Every other call gives 0 for all four. */
typedef struct tableau_sum_counts {
    size_t merged;   /* found an entry that is alike, which gained their weight */
    size_t stored;   /* became an entry of their own */
    size_t dropped;  /* were not above the cutoff */
    size_t compared; /* full comparisons of a branch with an entry */
} tableau_sum_counts;

/*
 * The weight that a channel, a reset or truncate took out of the sum; every other call gives 0 for both. Look at it first: a channel or a
 * truncate that loses something divides what is left by its total, so the sheet, the page and the table add up to 1 whatever was lost, and
 * shots are planned as if it had never been there. Only these two figures tell.
 */
typedef struct tableau_sum_lost {
    double dropped;   /* of the branches that were dropped, before anything is divided: their weights, added in order from 0. Of a sum
                       * whose weights came to 1 this is the fraction that is gone. Branches of rate 0 are dropped too, and add 0 */
    double truncated; /* of the entries that truncating took: their weights, added in list order from 0. Where a branch was dropped they
                       * were divided before, so this is a fraction of what the drops had left */
} tableau_sum_lost;

/* What every call gives. A field that the call has no use for is 0, and after a refusal all but the number and the header are. */
typedef struct tableau_sum_answer {
    uint64_t number;           /* one of enum tableau_sum_number */
    tableau_sum_header header; /* as it is now. Refused: as it was given; from fresh, read_sheet and try_cutoffs, zeros */
    tableau_sum_counts counts;
    tableau_sum_lost lost;
    size_t place;  /* pick: the place of the entry that was picked */
    size_t length; /* table, try_cutoffs, write_sheet, write_page: elements written; view: words of the entry */
} tableau_sum_answer;

/* The layout that the library was built for. */
#if defined(__cplusplus) && __cplusplus >= 201103L
#define TABLEAU_SUM_ASSERT(claim) static_assert(claim, #claim)
#elif !defined(__cplusplus) && defined(__STDC_VERSION__) && __STDC_VERSION__ >= 201112L
#define TABLEAU_SUM_ASSERT(claim) _Static_assert(claim, #claim)
#endif
#ifdef TABLEAU_SUM_ASSERT
TABLEAU_SUM_ASSERT(sizeof(size_t) == 8);
TABLEAU_SUM_ASSERT(sizeof(double) == 8);
TABLEAU_SUM_ASSERT(sizeof(bool) == 1);
TABLEAU_SUM_ASSERT(sizeof(tableau_sum_size) == 24);
TABLEAU_SUM_ASSERT(sizeof(tableau_sum_header) == 56);
TABLEAU_SUM_ASSERT(sizeof(tableau_sum_counts) == 32);
TABLEAU_SUM_ASSERT(sizeof(tableau_sum_lost) == 16);
TABLEAU_SUM_ASSERT(sizeof(tableau_sum_answer) == 128);
TABLEAU_SUM_ASSERT(offsetof(tableau_sum_header, dirty) == 48);
TABLEAU_SUM_ASSERT(offsetof(tableau_sum_answer, header) == 8);
TABLEAU_SUM_ASSERT(offsetof(tableau_sum_answer, counts) == 64);
TABLEAU_SUM_ASSERT(offsetof(tableau_sum_answer, lost) == 96);
TABLEAU_SUM_ASSERT(offsetof(tableau_sum_answer, place) == 112);
TABLEAU_SUM_ASSERT(offsetof(tableau_sum_answer, length) == 120);
#endif

/* ---- a sum begins. The store may hold any words; accepted, every word of it is written */

/*
 * The fresh sum: one entry of weight 1, rows 0 to n - 1 X on qubit i, rows n to 2n - 1 Z, phases 0, one coefficient 1 + 0i at index 0.
 * It has no entry if 1 is not above the cutoff. The keys are worked out, and the sum is not dirty.
 * size, threshold, cutoff: those of the sum. store: tableau_sum_store_words(size) words.
 * Numbers: 1, 2.
 */
TABLEAU_SUM_CALL tableau_sum_answer tableau_sum_fresh(tableau_sum_size size, double threshold, double cutoff, uint64_t *store,
                                                      size_t store_len);

/*
 * The sum that a sheet says. It is dirty, with keys 0.
 * text: the whole sheet, byte for byte. store: as many words as the size on its first line asks for (tableau_sum_sheet_size).
 * Numbers: 7, then 1, 2, 5.
 */
TABLEAU_SUM_CALL tableau_sum_answer tableau_sum_read_sheet(const uint8_t *text, size_t text_len, uint64_t *store, size_t store_len);

/* ---- cutoffs tried before a campaign */

/* What a step does at its qubit. */
enum tableau_sum_step {
    TABLEAU_SUM_STEP_PAULI_ERROR = 0,  /* with its three rates, as tableau_sum_pauli_error */
    TABLEAU_SUM_STEP_LOSS_CHANNEL = 1, /* with the first of them, as tableau_sum_loss_channel; the others are not looked at */
    TABLEAU_SUM_STEP_DEPOLARIZE1 = 2   /* with the first of them, as tableau_sum_depolarize1 */
};

/* Words that the output of tableau_sum_try_cutoffs needs: two for each step of each trial. */
static inline size_t tableau_sum_trials_words(size_t cutoffs, size_t steps)
{
    return 2 * cutoffs * steps;
}

/*
 * For each cutoff a trial: a fresh sum, and the steps on it one by one, as calls of their own would do them, up to the first that is refused.
 * cutoffs: 1 to TABLEAU_SUM_MAX_CUTOFFS. kinds, qubits, rates: of 1 to TABLEAU_SUM_MAX_STEPS steps; step s is kinds[s] at qubits[s] with
 * rates[3 * s], rates[3 * s + 1] and rates[3 * s + 2]. A qubit or a rate that is bad is a refusal at its own step, 3 or 4.
 * store: tableau_sum_store_words(size) words, which may hold anything.
 * out: tableau_sum_trials_words of both lengths, or more; those past it stay as they are. Step s of trial c has two words, from
 * out[2 * (c * kinds_len + s)] on: the number that it gave, and how many entries there are after it. After a refusal all places of that
 * trial show its number and the entries that it left.
 * Done: number 0, whatever was refused within a trial; header and store are the last trial's sum, with which calls can go on; length is that
 * of the words written. Refused: a header of zeros, and nothing is changed.
 * Numbers: 19, then 1, 11, 2, 8, in this order.
 */
TABLEAU_SUM_CALL tableau_sum_answer tableau_sum_try_cutoffs(tableau_sum_size size, double threshold, const double *cutoffs,
                                                            size_t cutoffs_len, const uint64_t *kinds, size_t kinds_len,
                                                            const size_t *qubits, size_t qubits_len, const double *rates,
                                                            size_t rates_len, uint64_t *store, size_t store_len, uint64_t *out,
                                                            size_t out_len);

/* ---- channels: h is the header, store the words that it describes. The answer has the four counts, and the weight that was lost
 *
 * Each entry whose qubits are live gives a branch for each rate, of its weight times that rate, and keeps its weight times 1 minus the
 * total. Then the branches are merged, in order. If any was dropped the sum is normalised; at the end it is truncated.
 */

/*
 * X, Y and Z at qubit q with rates x, y and z.
 * Numbers: 1, 2, 3, 4, 5, 6, 9.
 */
TABLEAU_SUM_CALL tableau_sum_answer tableau_sum_pauli_error(tableau_sum_header h, uint64_t *store, size_t store_len, size_t q, double x,
                                                            double y, double z);

/*
 * Qubit q is lost with this rate.
 * Numbers: 1, 2, 3, 4, 5, 6, 9.
 */
TABLEAU_SUM_CALL tableau_sum_answer tableau_sum_loss_channel(tableau_sum_header h, uint64_t *store, size_t store_len, size_t q,
                                                             double rate);

/*
 * X, Y and Z at qubit q, each with a third of the rate.
 * Numbers: 1, 2, 3, 4, 5, 6, 9.
 */
TABLEAU_SUM_CALL tableau_sum_answer tableau_sum_depolarize1(tableau_sum_header h, uint64_t *store, size_t store_len, size_t q,
                                                            double rate);

/*
 * Pairs of Paulis at qubits p and q, which may be the same one.
 * rates: 15, in the order IX IY IZ XI XX XY XZ YI YX YY YZ ZI ZX ZY ZZ, the first letter at p and the second at q.
 * Numbers: 1, 2, 3, 4, 5, 6, 9.
 */
TABLEAU_SUM_CALL tableau_sum_answer tableau_sum_two_qubit_pauli_error(tableau_sum_header h, uint64_t *store, size_t store_len, size_t p,
                                                                      size_t q, const double rates[TABLEAU_SUM_PAIRS]);

/*
 * Each of these pairs with a fifteenth of the rate.
 * Numbers: 1, 2, 3, 4, 5, 6, 9.
 */
TABLEAU_SUM_CALL tableau_sum_answer tableau_sum_depolarize2(tableau_sum_header h, uint64_t *store, size_t store_len, size_t p, size_t q,
                                                            double rate);

/*
 * Entries that are lost at qubit q become live, and are merged. An entry that is alike to none and not above the cutoff is dropped;
 * nothing is truncated or normalised. The answer has the four counts, and the weight that was lost with those.
 * Numbers: 1, 2, 3, 5.
 */
TABLEAU_SUM_CALL tableau_sum_answer tableau_sum_reset_loss_channel(tableau_sum_header h, uint64_t *store, size_t store_len, size_t q);

/* ---- gates: on the rows of every entry that has not lost a qubit of the gate; the others stay as they are, whichever of CNOT's two is
 * lost. The sum is dirty afterwards, also if no entry was turned. (Up to request 5 of document 02 gates turned lost atoms too.) */

/*
 * H at qubit q.
 * Numbers: 1, 2, 3, 5.
 */
TABLEAU_SUM_CALL tableau_sum_answer tableau_sum_h(tableau_sum_header h, uint64_t *store, size_t store_len, size_t q);

/*
 * S at qubit q.
 * Numbers: 1, 2, 3, 5.
 */
TABLEAU_SUM_CALL tableau_sum_answer tableau_sum_s(tableau_sum_header h, uint64_t *store, size_t store_len, size_t q);

/*
 * CNOT from qubit a, which controls, to qubit b.
 * Numbers: 1, 2, 3 (also if a and b are the same), 5.
 */
TABLEAU_SUM_CALL tableau_sum_answer tableau_sum_cnot(tableau_sum_header h, uint64_t *store, size_t store_len, size_t a, size_t b);

/* ---- weights */

/*
 * Keeps the entries whose weight is above the cutoff and, if any went, normalises. The answer has the weight that they took with them.
 * Numbers: 1, 2, 5.
 */
TABLEAU_SUM_CALL tableau_sum_answer tableau_sum_truncate(tableau_sum_header h, uint64_t *store, size_t store_len);

/*
 * Divides each weight by the total of all, added in list order.
 * Numbers: 1, 2, 5, 9.
 */
TABLEAU_SUM_CALL tableau_sum_answer tableau_sum_normalise(tableau_sum_header h, uint64_t *store, size_t store_len);

/* ---- calls that only look: they write to no store */

/*
 * The sampling table, by falling weight (of equal weights the earlier entry first): for each entry its place in the list, from 0, and
 * the bits of the running total of weights up to and with it (tableau_sum_float).
 * out: 2 words for each entry listed, or more; those past the table stay as they are. The answer's length counts words.
 * Numbers: 1, 2, 5, 8, 9.
 */
TABLEAU_SUM_CALL tableau_sum_answer tableau_sum_table(tableau_sum_header h, const uint64_t *store, size_t store_len, uint64_t *out,
                                                      size_t out_len);

/*
 * The answer's place is that of the first entry of the table whose total is above the draw, else of the last.
 * draw: from 0 to below 1.
 * Numbers: 1, 2, 5, 9, 10.
 */
TABLEAU_SUM_CALL tableau_sum_answer tableau_sum_pick(tableau_sum_header h, const uint64_t *store, size_t store_len, double draw);

/*
 * The sheet of the sum: ASCII text with no 0 at its end. Keys and flag are not on it.
 * out: room for tableau_sum_sheet_bytes of the size is always enough; bytes past the text stay as they are. The answer's length counts
 * bytes.
 * Numbers: 1, 2, 5, 8.
 */
TABLEAU_SUM_CALL tableau_sum_answer tableau_sum_write_sheet(tableau_sum_header h, const uint64_t *store, size_t store_len, uint8_t *out,
                                                            size_t out_len);

/*
 * The weight page of the sum: ASCII text with no 0 at its end, one line of TABLEAU_SUM_PAGE_LINE bytes for each entry in list order. Its
 * place, from 1, in 5 columns; its share in parts per million, which is the exact weight times 1,000,000 cut down to a whole number, in 11;
 * two spaces; its loss word as 16 hexadecimal capitals, highest qubits first; a line end. An empty sum has an empty page.
 * out: room for tableau_sum_page_bytes of the size is always enough; bytes past the text stay as they are. The answer's length counts
 * bytes.
 * Numbers: 1, 2, 5, 8.
 */
TABLEAU_SUM_CALL tableau_sum_answer tableau_sum_write_page(tableau_sum_header h, const uint64_t *store, size_t store_len, uint8_t *out,
                                                           size_t out_len);

/*
 * A view of the entry at a place, from 0: the answer's length is that of its stretch, which begins at store[place * length].
 * Numbers: 1, 2, 3, 5.
 */
TABLEAU_SUM_CALL tableau_sum_answer tableau_sum_view(tableau_sum_header h, const uint64_t *store, size_t store_len, size_t place);

/*
 * Word i of that view. It gives no number: past the view's end, and where the view is refused, the word is 0. Each call checks the whole
 * sum again, so whoever reads many words reads them in the store: they stand from store[place * tableau_sum_entry_words(size)] on, as
 * many as these.
 */
TABLEAU_SUM_CALL uint64_t tableau_sum_view_word(tableau_sum_header h, const uint64_t *store, size_t store_len, size_t place, size_t i);

/* ---- the layout of a store. An entry is one stretch of words: a head of 5, then k coefficients and 2n rows of 3 words each */

enum tableau_sum_word {
    TABLEAU_SUM_WEIGHT = 0,            /* the bits of the weight */
    TABLEAU_SUM_LOSS = 1,              /* bit q: qubit q is lost */
    TABLEAU_SUM_WORD_KEY = 2,          /* the key of the rows' x and z */
    TABLEAU_SUM_PHASE_LOSS_KEY = 3,    /* the key of phases and losses */
    TABLEAU_SUM_COEFFICIENT_COUNT = 4, /* coefficients in use; the places past them are 0 */
    TABLEAU_SUM_HEAD_WORDS = 5
};

/* Words of an entry: 5 + 3k + 6n; 0 if n, k or capacity is outside its limits. */
static inline size_t tableau_sum_entry_words(tableau_sum_size size)
{
    if (size.n < 1 || size.n > TABLEAU_SUM_MAX_QUBITS || size.k < 1 || size.k > TABLEAU_SUM_MAX_COEFFICIENTS || size.capacity < 1 ||
        size.capacity > TABLEAU_SUM_MAX_CAPACITY)
        return 0;
    return TABLEAU_SUM_HEAD_WORDS + 3 * size.k + 6 * size.n;
}

/* Words of a store: capacity times those of an entry; 0 if n, k or capacity is outside its limits. */
static inline size_t tableau_sum_store_words(tableau_sum_size size)
{
    return size.capacity * tableau_sum_entry_words(size);
}

/* Where in the store the entry at a place begins. */
static inline size_t tableau_sum_entry_start(tableau_sum_size size, size_t place)
{
    return place * tableau_sum_entry_words(size);
}

/* Where in an entry coefficient j, below k, begins: its index, and the bits of its real and imaginary part. */
static inline size_t tableau_sum_coefficient_start(size_t j)
{
    return TABLEAU_SUM_HEAD_WORDS + 3 * j;
}

/* Where in an entry row r, below 2n, begins: x and z, with bit q for qubit q, and the phase, 0 to 3. */
static inline size_t tableau_sum_row_start(tableau_sum_size size, size_t r)
{
    return TABLEAU_SUM_HEAD_WORDS + 3 * size.k + 3 * r;
}

/* The float of these bits, as a weight, a total or a part of a coefficient is kept. */
static inline double tableau_sum_float(uint64_t bits)
{
    double x;
    memcpy(&x, &bits, sizeof x);
    return x;
}

/* The bits of a float. */
static inline uint64_t tableau_sum_bits(double x)
{
    uint64_t bits;
    memcpy(&bits, &x, sizeof bits);
    return bits;
}

/* ---- sheets */

/* Columns of a field of a sheet. */
#define TABLEAU_SUM_COLUMNS 21

/* The most bytes that the sheet of a sum of this size has, with every slot and coefficient place in use; 0 if it is outside its limits. */
static inline size_t tableau_sum_sheet_bytes(tableau_sum_size size)
{
    if (tableau_sum_entry_words(size) == 0)
        return 0;
    return (6 * TABLEAU_SUM_COLUMNS + 1) + size.capacity * (1 + size.k + 2 * size.n) * (3 * TABLEAU_SUM_COLUMNS + 1);
}

/* The number in the field that begins at `field`, or 0 if it is no number below 1000. */
static inline size_t tableau_sum_small_field(const uint8_t *field)
{
    size_t value = 0;
    size_t i;
    for (i = 0; i < TABLEAU_SUM_COLUMNS; i++) {
        if (field[i] >= '0' && field[i] <= '9')
            value = 10 * value + (size_t)(field[i] - '0');
        else if (field[i] != ' ' || value != 0)
            return 0;
        if (value > 999)
            return 0;
    }
    return value;
}

/*
 * The size on the first line of a sheet, so that a store can be had before it is read; zeros if there is none within the limits.
 * tableau_sum_read_sheet then judges the text, this line included.
 */
static inline tableau_sum_size tableau_sum_sheet_size(const uint8_t *text, size_t text_len)
{
    tableau_sum_size size = {0, 0, 0};
    tableau_sum_size named;
    if (text_len < 3 * TABLEAU_SUM_COLUMNS)
        return size;
    named.n = tableau_sum_small_field(text);
    named.k = tableau_sum_small_field(text + TABLEAU_SUM_COLUMNS);
    named.capacity = tableau_sum_small_field(text + 2 * TABLEAU_SUM_COLUMNS);
    if (tableau_sum_entry_words(named) == 0)
        return size;
    return named;
}

/* ---- pages */

/* Bytes of a line of a page: 34 columns, and the line's end. */
#define TABLEAU_SUM_PAGE_LINE 35

/* The most bytes that the page of a sum of this size has, with every slot in use; 0 if it is outside its limits. */
static inline size_t tableau_sum_page_bytes(tableau_sum_size size)
{
    if (tableau_sum_entry_words(size) == 0)
        return 0;
    return size.capacity * TABLEAU_SUM_PAGE_LINE;
}

/* ---- a list of calls, made in one call
 *
 * Each call looks at the whole store before it does anything; in a list only those up to the first that is accepted do, and the later ones
 * look at weights. What is left in header and store, and what is told of each call, is what the same calls give one by one.
 *
 *     tableau_sum_call calls[] = {tableau_sum_call_h(0), tableau_sum_call_cnot(0, 1), tableau_sum_call_loss_channel(1, 0.02)};
 *     tableau_sum_record records[3];
 *     tableau_sum_ran ran = tableau_sum_run_calls(a.header, store, words, calls, 3, records, true);
 *     tableau_sum_answer last = tableau_sum_record_answer(records[ran.made - 1], ran.header);
 */

/* Words of a call; of the numbers that a record begins with; the most that a table or a view shows behind them, the table of 256 entries;
 * the most room that a record may have for that, as many as were asked for while k could be 64. */
#define TABLEAU_SUM_CALL_WORDS 18
#define TABLEAU_SUM_RECORD_WORDS 11
#define TABLEAU_SUM_SHOWN_WORDS 512
#define TABLEAU_SUM_MOST_SHOWN 581

/* A call as words. The functions below make it. */
typedef struct tableau_sum_call {
    uint64_t words[TABLEAU_SUM_CALL_WORDS]; /* kind; two whole numbers: qubits, a place or a room; the bits of 15 rates, or of a draw */
} tableau_sum_call;

/* What a call of a list gave. tableau_sum_record_answer reads it. */
typedef struct tableau_sum_record {
    uint64_t words[TABLEAU_SUM_RECORD_WORDS]; /* number; merged, stored, dropped, compared; place; length; the bits of the dropped and of
                                               * the truncated weight; entries listed; the flag */
} tableau_sum_record;

/* What each call of a list has room for. */
typedef struct tableau_sum_room {
    size_t shown; /* words behind the numbers of its record: TABLEAU_SUM_SHOWN_WORDS if the list has a table or a view, else 0 will do; at
                   * most TABLEAU_SUM_MOST_SHOWN */
    size_t bytes; /* bytes of text, for a sheet or a page */
} tableau_sum_room;

/* What a list of calls gives. */
typedef struct tableau_sum_ran {
    uint64_t number;           /* TABLEAU_SUM_DONE, also where calls of the list were refused; or TABLEAU_SUM_DOES_NOT_FIT */
    size_t made;               /* calls that were made, refused ones counted; they have a record */
    tableau_sum_header header; /* as the last of them left it */
} tableau_sum_ran;

#ifdef TABLEAU_SUM_ASSERT
TABLEAU_SUM_ASSERT(sizeof(tableau_sum_call) == 144);
TABLEAU_SUM_ASSERT(sizeof(tableau_sum_record) == 88);
TABLEAU_SUM_ASSERT(sizeof(tableau_sum_room) == 16);
TABLEAU_SUM_ASSERT(sizeof(tableau_sum_ran) == 72);
TABLEAU_SUM_ASSERT(offsetof(tableau_sum_ran, header) == 16);
#undef TABLEAU_SUM_ASSERT
#endif

/* Word 0 of a call. */
enum tableau_sum_kind {
    TABLEAU_SUM_KIND_PAULI_ERROR = 0,
    TABLEAU_SUM_KIND_LOSS_CHANNEL = 1,
    TABLEAU_SUM_KIND_DEPOLARIZE1 = 2,
    TABLEAU_SUM_KIND_TWO_QUBIT_PAULI_ERROR = 3,
    TABLEAU_SUM_KIND_DEPOLARIZE2 = 4,
    TABLEAU_SUM_KIND_RESET_LOSS_CHANNEL = 5,
    TABLEAU_SUM_KIND_H = 6,
    TABLEAU_SUM_KIND_S = 7,
    TABLEAU_SUM_KIND_CNOT = 8,
    TABLEAU_SUM_KIND_TRUNCATE = 9,
    TABLEAU_SUM_KIND_NORMALISE = 10,
    TABLEAU_SUM_KIND_TABLE = 11,
    TABLEAU_SUM_KIND_PICK = 12,
    TABLEAU_SUM_KIND_SHEET = 13,
    TABLEAU_SUM_KIND_VIEW = 14,
    TABLEAU_SUM_KIND_PAGE = 15
};

/* A call of this kind with these whole numbers, and 0 for each rate. */
static inline tableau_sum_call tableau_sum_call_of(enum tableau_sum_kind kind, size_t first, size_t second)
{
    tableau_sum_call call = {{0}};
    call.words[0] = (uint64_t)kind;
    call.words[1] = first;
    call.words[2] = second;
    return call;
}

/* .. and with these rates, 15 at most. */
static inline tableau_sum_call tableau_sum_call_with(enum tableau_sum_kind kind, size_t first, size_t second, const double *rates,
                                                     size_t count)
{
    tableau_sum_call call = tableau_sum_call_of(kind, first, second);
    size_t i;
    for (i = 0; i < count; i++)
        call.words[3 + i] = tableau_sum_bits(rates[i]);
    return call;
}

/* The calls, each with the arguments that it has by itself. Rates and qubits are judged when the call is made. */

static inline tableau_sum_call tableau_sum_call_pauli_error(size_t q, double x, double y, double z)
{
    double rates[3];
    rates[0] = x;
    rates[1] = y;
    rates[2] = z;
    return tableau_sum_call_with(TABLEAU_SUM_KIND_PAULI_ERROR, q, 0, rates, 3);
}

static inline tableau_sum_call tableau_sum_call_loss_channel(size_t q, double rate)
{
    return tableau_sum_call_with(TABLEAU_SUM_KIND_LOSS_CHANNEL, q, 0, &rate, 1);
}

static inline tableau_sum_call tableau_sum_call_depolarize1(size_t q, double rate)
{
    return tableau_sum_call_with(TABLEAU_SUM_KIND_DEPOLARIZE1, q, 0, &rate, 1);
}

static inline tableau_sum_call tableau_sum_call_two_qubit_pauli_error(size_t p, size_t q, const double rates[TABLEAU_SUM_PAIRS])
{
    return tableau_sum_call_with(TABLEAU_SUM_KIND_TWO_QUBIT_PAULI_ERROR, p, q, rates, TABLEAU_SUM_PAIRS);
}

static inline tableau_sum_call tableau_sum_call_depolarize2(size_t p, size_t q, double rate)
{
    return tableau_sum_call_with(TABLEAU_SUM_KIND_DEPOLARIZE2, p, q, &rate, 1);
}

static inline tableau_sum_call tableau_sum_call_reset_loss_channel(size_t q)
{
    return tableau_sum_call_of(TABLEAU_SUM_KIND_RESET_LOSS_CHANNEL, q, 0);
}

static inline tableau_sum_call tableau_sum_call_h(size_t q)
{
    return tableau_sum_call_of(TABLEAU_SUM_KIND_H, q, 0);
}

static inline tableau_sum_call tableau_sum_call_s(size_t q)
{
    return tableau_sum_call_of(TABLEAU_SUM_KIND_S, q, 0);
}

static inline tableau_sum_call tableau_sum_call_cnot(size_t a, size_t b)
{
    return tableau_sum_call_of(TABLEAU_SUM_KIND_CNOT, a, b);
}

static inline tableau_sum_call tableau_sum_call_truncate(void)
{
    return tableau_sum_call_of(TABLEAU_SUM_KIND_TRUNCATE, 0, 0);
}

static inline tableau_sum_call tableau_sum_call_normalise(void)
{
    return tableau_sum_call_of(TABLEAU_SUM_KIND_NORMALISE, 0, 0);
}

/* The place is in its record. */
static inline tableau_sum_call tableau_sum_call_pick(double draw)
{
    return tableau_sum_call_with(TABLEAU_SUM_KIND_PICK, 0, 0, &draw, 1);
}

/* What these four show needs room, which only tableau_sum_run lends. A table takes at most `room` words of its record; one that needs more,
 * 2 for each entry, is refused. */

static inline tableau_sum_call tableau_sum_call_table(size_t room)
{
    return tableau_sum_call_of(TABLEAU_SUM_KIND_TABLE, room, 0);
}

static inline tableau_sum_call tableau_sum_call_view(size_t place)
{
    return tableau_sum_call_of(TABLEAU_SUM_KIND_VIEW, place, 0);
}

static inline tableau_sum_call tableau_sum_call_sheet(void)
{
    return tableau_sum_call_of(TABLEAU_SUM_KIND_SHEET, 0, 0);
}

static inline tableau_sum_call tableau_sum_call_page(void)
{
    return tableau_sum_call_of(TABLEAU_SUM_KIND_PAGE, 0, 0);
}

/*
 * Makes these calls in order, each on header and store as the last one left them.
 * calls: their words, one call behind the other. calls_len counts words, as the other lengths count elements.
 * log: call i has record i, of TABLEAU_SUM_RECORD_WORDS + room.shown words: its numbers, and then what a table or a view shows, as many
 * words as its length says. text: call i has stretch i, of room.bytes bytes, for a sheet or a page. What no call wrote stays as it is.
 * room: shown is TABLEAU_SUM_MOST_SHOWN at most.
 * stop: the list ends with the first call that is refused. Without it refused calls change nothing but their record, and the rest goes on.
 * Numbers: 19, with the header as it was given and nothing changed. What each call gave is in its record.
 */
TABLEAU_SUM_CALL tableau_sum_ran tableau_sum_run(tableau_sum_header h, uint64_t *store, size_t store_len, const uint64_t *calls,
                                                 size_t calls_len, uint64_t *log, size_t log_len, uint8_t *text, size_t text_len,
                                                 tableau_sum_room room, bool stop);

/*
 * The same for a list of `count` calls that change a sum, which is looked at afterwards. A list with a table or a view gives 19, and sheets
 * and pages in it are refused with 8, since they have no room here; a pick needs none.
 * calls, records: so many are there, and they do not overlap; both may be null if the list is empty, which changes nothing. A count that no
 * memory can hold gives 19. The records may hold anything; those of calls that were not made are left with a number that no call gives.
 */
static inline TABLEAU_SUM_CALL tableau_sum_ran tableau_sum_run_calls(tableau_sum_header h, uint64_t *store, size_t store_len,
                                                                     const tableau_sum_call *calls, size_t count,
                                                                     tableau_sum_record *records, bool stop)
{
    const tableau_sum_room room = {0, 0};
    uint8_t no_text = 0;
    tableau_sum_ran ran;
    ran.number = TABLEAU_SUM_DONE;
    ran.made = 0;
    ran.header = h;
    if (count > (size_t)-1 / sizeof *calls)
        ran.number = TABLEAU_SUM_DOES_NOT_FIT;
    else if (count > 0) {
        memset(records, 0xff, count * sizeof *records);
        ran = tableau_sum_run(h, store, store_len, calls->words, count * TABLEAU_SUM_CALL_WORDS, records->words,
                              count * TABLEAU_SUM_RECORD_WORDS, &no_text, 0, room, stop);
    }
    return ran;
}

/* Record i of a log whose records have this room; i is below the calls made. */
static inline tableau_sum_record tableau_sum_record_at(const uint64_t *log, tableau_sum_room room, size_t i)
{
    tableau_sum_record record;
    memcpy(record.words, log + i * (TABLEAU_SUM_RECORD_WORDS + room.shown), sizeof record.words);
    return record;
}

/*
 * The answer that the call of this record would have given by itself.
 * h: any header of that list, as the one that it began with: size, threshold and cutoff are the same in all, and the record has the rest.
 */
static inline tableau_sum_answer tableau_sum_record_answer(tableau_sum_record record, tableau_sum_header h)
{
    const uint64_t *words = record.words;
    tableau_sum_answer a;
    a.number = words[0];
    a.counts.merged = (size_t)words[1];
    a.counts.stored = (size_t)words[2];
    a.counts.dropped = (size_t)words[3];
    a.counts.compared = (size_t)words[4];
    a.place = (size_t)words[5];
    a.length = (size_t)words[6];
    a.lost.dropped = tableau_sum_float(words[7]);
    a.lost.truncated = tableau_sum_float(words[8]);
    a.header = h;
    a.header.count = (size_t)words[9];
    a.header.dirty = words[10] != 0;
    return a;
}

/* ---- what a number means, in words */

static inline const char *tableau_sum_meaning(uint64_t number)
{
    switch (number) {
    case TABLEAU_SUM_DONE:
        return "done";
    case TABLEAU_SUM_BAD_SIZE:
        return "n, k or capacity is outside its limits, or the store has another length";
    case TABLEAU_SUM_BAD_HEADER:
        return "the count is above the capacity, or the threshold or the cutoff is NaN, infinite or below 0";
    case TABLEAU_SUM_BAD_PLACE:
        return "a qubit is not below n, both qubits of a CNOT are the same, or no entry is at that place";
    case TABLEAU_SUM_BAD_RATE:
        return "a rate is NaN, below 0 or above 1, or the total of the rates is above 1";
    case TABLEAU_SUM_BAD_ENTRY:
        return "an entry has a weight, coefficient, phase or bit outside its limits, or a word that must be 0 is not";
    case TABLEAU_SUM_NO_ROOM:
        return "the store has no room for the branches";
    case TABLEAU_SUM_BAD_SHEET:
        return "the text is no sheet";
    case TABLEAU_SUM_SHORT_OUTPUT:
        return "the output is too short";
    case TABLEAU_SUM_NO_WEIGHT:
        return "the weights add up to 0, or there is no entry";
    case TABLEAU_SUM_BAD_DRAW:
        return "the draw is NaN, below 0, or 1 or more";
    case TABLEAU_SUM_BAD_TRIALS:
        return "there are no steps or no cutoffs to be tried, or more than 64 steps or 8 cutoffs";
    case TABLEAU_SUM_DOES_NOT_FIT:
        return "the calls or steps are not whole or not of known kinds, or there is no room for what the calls give";
    default:
        return "no number of this library";
    }
}

#undef TABLEAU_SUM_CALL

#ifdef __cplusplus
}
#endif

#endif
