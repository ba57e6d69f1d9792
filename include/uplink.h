/* Uplink: the algebra of dive formulas, as C functions over bytes.
 *
 * A list is node records of 24 bytes, a sum is entries of 32 bytes, both without a header and
 * little-endian; docs/FORMATS.md has every field. Every byte list and every number gets a result
 * or one refusal, and nothing is asked of the caller but that each pointer be good for the length
 * that goes with it. A length of 0 is fine; its pointer is not read through.
 *
 * A result can be a long time coming: the modifier Both runs its body twice, so 127 records of nested
 * Both take more than 2^64 steps to read, and nothing refuses them. A program that reads lists from
 * strangers asks uplink_cost first, and turns such a list away.
 *
 * Each function returns UPLINK_DONE or the number of a refusal. On a refusal the counts are zero
 * and no byte of `sum` or `out` is changed; on success bytes past what was written stay as they
 * were. Input and output must not overlap.
 *
 * The functions keep no state, allocate nothing and may be called from several threads at once. The
 * most stack that a call took of the lists that were tried: 83,900 bytes where records lie inside few
 * others, 107,900 at the deepest there is, 128 levels (x86-64; tests/stack measures it). Have half a MiB.
 */
#ifndef UPLINK_H
#define UPLINK_H

#include <stddef.h>
#include <stdint.h>

#ifdef __cplusplus
extern "C" {
#endif

/* What comes back. */
enum uplink_number {
    UPLINK_DONE = 0,
    UPLINK_TOO_MANY_VARIABLES = 1, /* a pop finds nothing */
    UPLINK_NOT_SUPPORTED = 2,      /* a kind, primitive or modifier that isn't handled */
    UPLINK_NO_OUTPUT = 3,          /* nothing is left at the end */
    UPLINK_TOO_MANY_OUTPUTS = 4,   /* several are left at the end */
    UPLINK_NON_SCALAR = 5,         /* an array push */
    UPLINK_NON_REAL = 6,           /* a push of something else; in the run anything complex */
    UPLINK_TOO_COMPLEX = 7,        /* outside of what the algebra expresses */
    UPLINK_INTERPRETER_BUG = 8,    /* a modifier with the wrong number of bodies */
    UPLINK_NO_INVERSE = 9,         /* a custom inverse without a normal form */
    UPLINK_NOT_HANDLED = 10,       /* inverse: too little arithmetic to invert */
    UPLINK_BAD_RECORD = 11,        /* the bytes are no list, or no sum */
    UPLINK_NO_ROOM = 12,           /* a sum, the stack, or what is held grows too large */
    UPLINK_TOO_DEEP = 13,          /* nested too deep */
    UPLINK_NEEDS_MATH = 14,        /* a power, log or root outside of the exact cases; in the run also a root below zero; in
                                    * uplink_value a term that is no whole power of x */
    UPLINK_NOT_FINITE = 15,        /* a number that isn't finite, given or formed, but for a power of x */
    UPLINK_BIG_POWER = 16,         /* a sum raised to a whole number above 64 */
    UPLINK_OUTPUT_ROOM = 17,       /* the output lent is too short */
    UPLINK_POWER_NOT_FINITE = 18   /* a power of x formed that isn't finite: derive, and all that read a list */
};

/* Sizes in bytes, and the most there can be. A buffer of UPLINK_LIST_BYTES takes every list, one of
 * UPLINK_SUM_BYTES every sum. */
enum {
    UPLINK_RECORD_BYTES = 24,
    UPLINK_ENTRY_BYTES = 32,
    UPLINK_MOST_RECORDS = 2048,
    UPLINK_MOST_ENTRIES = 64,
    UPLINK_LIST_BYTES = UPLINK_MOST_RECORDS * UPLINK_RECORD_BYTES,
    UPLINK_SUM_BYTES = UPLINK_MOST_ENTRIES * UPLINK_ENTRY_BYTES
};

/* A node record. On a little-endian machine a list is an array of these; unused fields are zero. */
struct uplink_record {
    uint8_t kind;    /* enum uplink_kind */
    uint8_t code;    /* enum uplink_primitive or uplink_modifier, for those two kinds */
    uint8_t args;    /* a body's argument count */
    uint8_t zero;
    uint32_t inside; /* how many following records lie inside */
    double re;       /* the number of a push */
    double im;       /* of a complex push */
};

enum uplink_kind {
    UPLINK_REAL = 1,
    UPLINK_COMPLEX = 2,
    UPLINK_ARRAY = 3,
    UPLINK_OTHER = 4,
    UPLINK_PRIMITIVE = 5,
    UPLINK_MODIFIER = 6,
    UPLINK_BODY = 7,
    UPLINK_RUN = 8,
    UPLINK_CUSTOM_INVERSE = 9, /* with its normal form inside */
    UPLINK_OBVERSE = 10,
    UPLINK_CUSTOM_INVERSE_ALONE = 11,
    UPLINK_UNDER_MARKER = 12,
    UPLINK_ANYTHING_ELSE = 13
};

enum uplink_primitive {
    UPLINK_IDENTITY = 1, UPLINK_POP = 2, UPLINK_DUP = 3, UPLINK_FLIP = 4,
    UPLINK_NEG = 5, UPLINK_NOT = 6, UPLINK_SQRT = 7, UPLINK_ADD = 8,
    UPLINK_SUB = 9, UPLINK_MUL = 10, UPLINK_DIV = 11, UPLINK_POW = 12,
    UPLINK_EXP = 13, UPLINK_SIN = 14, UPLINK_COS = 15, UPLINK_RECIPROCAL = 16,
    UPLINK_COMPLEX_OF = 17,
    UPLINK_MAX = 18, UPLINK_SINH = 19, UPLINK_COSH = 20, /* only written */
    UPLINK_EXP2 = 32, UPLINK_EXP10 = 33, UPLINK_LOG = 34, UPLINK_LN = 35,
    UPLINK_LOG2 = 36, UPLINK_LOG10 = 37, UPLINK_OVER = 38,
    UPLINK_ROOT = 39 /* only written */
};

enum uplink_modifier {
    UPLINK_DIP = 1, UPLINK_GAP = 2, UPLINK_ON = 3, UPLINK_BY = 4,
    UPLINK_BOTH = 5, UPLINK_BRACKET = 6, UPLINK_FORK = 7
};

/* A sum entry: a term with its coefficient. Each level is in strictly rising order. */
struct uplink_entry {
    uint8_t kind;    /* enum uplink_term */
    uint8_t zero[3];
    uint32_t inside; /* how many following entries lie inside */
    double number;   /* the power of an X, the base of a Log, else 0 */
    double re;       /* the coefficient */
    double im;
};

enum uplink_term {
    UPLINK_TERM_X = 1, UPLINK_TERM_DIV = 2, UPLINK_TERM_LOG = 3, UPLINK_TERM_EXP = 4,
    UPLINK_TERM_SIN = 5, UPLINK_TERM_COS = 6, UPLINK_TERM_SINH = 7, UPLINK_TERM_COSH = 8
};

/* Place: the record that refused while a list was read or run, else 0. */
struct uplink_answer {
    uint64_t place;
    uint64_t count; /* entries or records written; uplink_value writes none */
};

/* THIS STRUCT HAS GROWN BY 8 BYTES, AT ITS END: `pairs` IS NEW. uplink_read WRITES ALL 32 BYTES, SO AN OBJECT FILE
 * THAT WAS COMPILED WITH AN OLDER HEADER LENDS TOO LITTLE AND IS WRITTEN PAST ITS END. COMPILE IT ANEW BEFORE IT IS
 * LINKED; SO WITH EVERY PROGRAM IN ANOTHER LANGUAGE THAT DECLARES THE STRUCT, OR AN ARRAY OF THREE NUMBERS, ITSELF. */
struct uplink_read_answer {
    uint64_t place;
    uint64_t count;   /* entries written */
    uint64_t complex; /* 1 where a complex step was met, else 0 */
    uint64_t pairs;   /* pairs of terms multiplied, 0 on a refusal; see uplink_read */
};

struct uplink_run_answer {
    uint64_t place;
    uint64_t steps; /* records run */
    uint64_t peak;  /* the most values on the stack and held at once */
};

struct uplink_cost_answer {
    uint64_t place; /* always 0 */
    uint64_t steps; /* records that a reading runs; 2^64 - 1 stands for itself and for everything above */
};

/* A limit for uplink_cost, for programs without a reason for another. A list without Both never comes
 * near it: it has at most 2,048 records, and each is run at most once. So many steps take less than a
 * second where the sums are small, and an hour at worst, where every other step is a power of a sum of 64
 * terms (README.md, Lists from strangers). Who has less time sets a limit of 10,000: a minute at worst. */
#define UPLINK_STEPS_RECOMMENDED 1000000

/* From a list to the sum that it stands for.
 *
 * `pairs` tells how much multiplying that took. A pair is an outermost term of one factor with an outermost term
 * of the other: Mul of sums of a and b terms multiplies a * b pairs, Pow by a whole n the pairs of its n - 1
 * products, each of the product so far with the base. A pair counts whatever its coefficients are, and where its
 * term is there already. So x + 1 to the power 3 takes 2 * 2 + 3 * 2 = 10 pairs, and a sum of 64 terms times
 * itself 4,096. One Mul multiplies 4,096 pairs at most, one Pow 258,048.
 *
 * Not counted: powers 0 and 1, powers that aren't whole and from 0 up, and E to the x, which multiply nothing;
 * what lies inside of two Div terms; and what other records multiply (Complex, Div, Reciprocal, Exp, Exp2, Exp10,
 * Sqrt). A record counts each time it is run, so twice in the body of a Both. 2^64 - 1 stands for itself and for
 * everything above. */
uint64_t uplink_read(const uint8_t *list, size_t list_bytes, uint8_t *sum, size_t sum_bytes,
                     struct uplink_read_answer *answer);

/* The derivative and the integral of a sum. */
uint64_t uplink_derive(const uint8_t *sum, size_t sum_bytes, uint8_t *out, size_t out_bytes,
                       struct uplink_answer *answer);
uint64_t uplink_integrate(const uint8_t *sum, size_t sum_bytes, uint8_t *out, size_t out_bytes,
                          struct uplink_answer *answer);

/* A sum as a list; `complex` is the flag that read answered (0 is false, all else true). There are two
 * writers.
 *
 * uplink_write, uplink_derivative and uplink_integral write as the Rust does that this library ports, byte
 * for byte. That one goes on with the list so far where it writes a function's argument, so a function that
 * isn't the first term gets another argument: x^2 + sin x is written as x^2 + sin 2x, and x + sin(0 x) as
 * x + sin x (docs/DIFFERENCES.md, Written lists). They are there for comparison with the Rust.
 *
 * uplink_write_faithful, uplink_derivative_faithful and uplink_integral_faithful write each argument by
 * itself, and their lists mean what the sum says: run on x, such a list gives the sum's terms that aren't
 * zero, added in order, each function taken of the value of its argument. That is proved, whatever the names
 * of the functions stand for. Take these to show or to run a formula with functions in it.
 *
 * Of powers of x alone (each outermost term that isn't zero is one) both write the same bytes, and both
 * refuse the same sums with the same number; where there are functions, only the room that is needed
 * differs. */
uint64_t uplink_write(const uint8_t *sum, size_t sum_bytes, uint8_t complex, uint8_t *out,
                      size_t out_bytes, struct uplink_answer *answer);

/* From a list to the list of its derivative, of its integral, or of what undoes it. */
uint64_t uplink_derivative(const uint8_t *list, size_t list_bytes, uint8_t *out, size_t out_bytes,
                           struct uplink_answer *answer);
uint64_t uplink_integral(const uint8_t *list, size_t list_bytes, uint8_t *out, size_t out_bytes,
                         struct uplink_answer *answer);
uint64_t uplink_inverse(const uint8_t *list, size_t list_bytes, uint8_t *out, size_t out_bytes,
                        struct uplink_answer *answer);

/* The same three with the second writer: lists that mean what the sum says. */
uint64_t uplink_write_faithful(const uint8_t *sum, size_t sum_bytes, uint8_t complex, uint8_t *out,
                               size_t out_bytes, struct uplink_answer *answer);
uint64_t uplink_derivative_faithful(const uint8_t *list, size_t list_bytes, uint8_t *out,
                                    size_t out_bytes, struct uplink_answer *answer);
uint64_t uplink_integral_faithful(const uint8_t *list, size_t list_bytes, uint8_t *out,
                                  size_t out_bytes, struct uplink_answer *answer);

/* The value of a list at x; +0 when refused. Pow raises to whole powers from 0 to 64, by products from
 * the left, and to no others (UPLINK_NEEDS_MATH). To the power 0, and -0 counts as 0, every number gives
 * 1; read as a formula, the same step makes the constant 0. Sqrt gives the number nearest to the root,
 * and the zero that it finds; below zero it is UPLINK_NEEDS_MATH. */
uint64_t uplink_run(const uint8_t *list, size_t list_bytes, double x, double *value,
                    struct uplink_run_answer *answer);

/* The value of a sum at x, without a list; +0 when refused. Terms whose coefficient is zero in both parts don't
 * matter, whatever they are. Each other outermost term is to be x to a whole power from 0 to 64 (-0 counts as 0;
 * 0.5 isn't one). They are added in rising power: the power 0 is x * 0 + c, every other one the product from the
 * left, times the real part of the coefficient unless that is 1. Without terms it is x * 0. To the bit this is what
 * uplink_run gives at x for the list that uplink_write writes of the sum with the flag 0.
 *
 * The refusals, asked in this order: UPLINK_BAD_RECORD and UPLINK_TOO_DEEP, as of uplink_write; UPLINK_NOT_FINITE
 * where x isn't finite; UPLINK_NEEDS_MATH where any of the terms is no such power; UPLINK_NOT_FINITE where the
 * imaginary part of one of them reaches 2^-52 (a smaller one is dropped, as in writing), or where a value formed
 * isn't finite. Place and count are 0, always. */
uint64_t uplink_value(const uint8_t *sum, size_t sum_bytes, double x, double *value,
                      struct uplink_answer *answer);

/* How many steps a reading of the list takes, known before it is read. A step is a record that is run,
 * counted as often as it runs, and a body is a step of its own: Dup, Mul are 2 steps, Both with the body
 * Neg is 5. Where uplink_read, uplink_derivative, uplink_integral, their faithful namesakes or
 * uplink_inverse meet no refusal in reading, they run exactly so many records; where they meet one, at
 * most so many. (uplink_run runs each record at most once.) What follows reading is bounded by the 64 entries of a sum, and isn't counted.
 *
 * The only refusals are UPLINK_BAD_RECORD and UPLINK_TOO_DEEP, at place 0 with 0 steps. The time is linear
 * in the records. What a collector writes before it reads a stranger's list:
 *
 *     struct uplink_cost_answer cost;
 *     if (uplink_cost(list, list_bytes, &cost) != UPLINK_DONE) return NO_LIST;
 *     if (cost.steps > UPLINK_STEPS_RECOMMENDED) return TOO_LONG;
 */
uint64_t uplink_cost(const uint8_t *list, size_t list_bytes, struct uplink_cost_answer *answer);

#ifdef __cplusplus
}
#endif

#endif
