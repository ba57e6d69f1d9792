/* Calls every function of uplink.h on answers that document 01 prints, on lists of functions, on products, on sums beside their lists, on lists whose cost is known, and on wrong input. */
#include "uplink.h"
#include <stdio.h>
#include <string.h>

static int failures;

static void expect(int holds, const char *what)
{
    if (!holds) {
        printf("not so: %s\n", what);
        failures++;
    }
}

static struct uplink_record push(double number)
{
    struct uplink_record r = {0};
    r.kind = UPLINK_REAL;
    r.re = number;
    return r;
}

static struct uplink_record primitive(uint8_t code)
{
    struct uplink_record r = {0};
    r.kind = UPLINK_PRIMITIVE;
    r.code = code;
    return r;
}

static struct uplink_record modifier(uint8_t code, uint32_t inside)
{
    struct uplink_record r = {0};
    r.kind = UPLINK_MODIFIER;
    r.code = code;
    r.inside = inside;
    return r;
}

static struct uplink_record body(uint32_t inside)
{
    struct uplink_record r = {0};
    r.kind = UPLINK_BODY;
    r.inside = inside;
    return r;
}

static struct uplink_record run_of(uint32_t inside)
{
    struct uplink_record r = {0};
    r.kind = UPLINK_RUN;
    r.inside = inside;
    return r;
}

static int same(const struct uplink_record *a, const struct uplink_record *b, size_t n)
{
    return memcmp(a, b, n * sizeof *a) == 0;
}

/* x^3 + x: what is read, its derivative in one step and in three, the run of it. */
static void cubic(void)
{
    struct uplink_record list[] = {primitive(UPLINK_DUP), push(3), primitive(UPLINK_POW), primitive(UPLINK_ADD)};
    struct uplink_record out[32], again[32];
    struct uplink_entry sum[4], derived[4];
    struct uplink_read_answer read;
    struct uplink_answer answer;
    struct uplink_run_answer ran;
    double value;

    expect(uplink_derivative((uint8_t *)list, sizeof list, (uint8_t *)out, sizeof out, &answer) == UPLINK_DONE, "derivative is done");
    expect(answer.place == 0 && answer.count == 11, "11 records");
    expect(uplink_run((uint8_t *)out, 11 * sizeof *out, 2.0, &value, &ran) == UPLINK_DONE, "run is done");
    expect(value == 13 && ran.place == 0 && ran.steps == 11 && ran.peak == 3, "13, in 11 steps, with 3 values at the peak");

    expect(uplink_read((uint8_t *)list, sizeof list, (uint8_t *)sum, sizeof sum, &read) == UPLINK_DONE, "read is done");
    expect(read.place == 0 && read.count == 2 && read.complex == 0, "two entries, not complex");
    expect(sum[0].kind == UPLINK_TERM_X && sum[0].number == 1 && sum[0].re == 1, "x");
    expect(sum[1].kind == UPLINK_TERM_X && sum[1].number == 3 && sum[1].re == 1, "x^3");
    expect(uplink_derive((uint8_t *)sum, 2 * sizeof *sum, (uint8_t *)derived, sizeof derived, &answer) == UPLINK_DONE, "derive is done");
    expect(answer.count == 2 && derived[0].number == 0 && derived[0].re == 1 && derived[1].number == 2 && derived[1].re == 3, "1 + 3 x^2");
    expect(uplink_write((uint8_t *)derived, 2 * sizeof *derived, 0, (uint8_t *)again, sizeof again, &answer) == UPLINK_DONE, "write is done");
    expect(answer.count == 11 && same(out, again, 11), "the same list, in three steps");
    expect(uplink_integrate((uint8_t *)derived, 2 * sizeof *derived, (uint8_t *)sum, sizeof sum, &answer) == UPLINK_DONE, "integrate is done");
    expect(answer.count == 2 && sum[0].number == 1 && sum[0].re == 1 && sum[1].number == 3 && sum[1].re == 1, "x + x^3 again");
}

/* What is read of a list: its pairs, or a refusal, which has none. The words behind the answer stay as they were. */
static void multiplies(const struct uplink_record *list, size_t count, uint64_t number, uint64_t pairs, const char *what)
{
    static struct uplink_entry sum[UPLINK_MOST_ENTRIES];
    struct { struct uplink_read_answer read; uint64_t behind[4]; } answer;
    uint8_t untouched[sizeof answer.behind];

    memset(&answer, 0xa5, sizeof answer);
    memset(untouched, 0xa5, sizeof untouched);
    expect(uplink_read((const uint8_t *)list, count * sizeof *list, (uint8_t *)sum, sizeof sum, &answer.read) == number, what);
    expect(answer.read.pairs == pairs, what);
    expect(number == UPLINK_DONE || (answer.read.count == 0 && answer.read.complex == 0), "a refusal with counts");
    expect(memcmp(answer.behind, untouched, sizeof untouched) == 0, "nothing is written behind the answer");
}

#define MULTIPLIES(list, pairs, what) multiplies(list, sizeof list / sizeof *list, UPLINK_DONE, pairs, what)
#define REFUSES(list, number, what) multiplies(list, sizeof list / sizeof *list, number, 0, what)

/* Products count; other records don't, whatever they multiply. */
static void pairs(void)
{
    struct uplink_record squared[] = {primitive(UPLINK_DUP), primitive(UPLINK_MUL)};
    struct uplink_record cubed[] = {push(3), primitive(UPLINK_POW)};
    struct uplink_record binomial[] = {push(1), primitive(UPLINK_ADD), push(3), primitive(UPLINK_POW)};
    struct uplink_record longest[] = {push(1), primitive(UPLINK_ADD), push(63), primitive(UPLINK_POW)};
    struct uplink_record power_of_two[] = {primitive(UPLINK_POP), push(5), primitive(UPLINK_EXP2)};
    struct uplink_record both[] = {modifier(UPLINK_BOTH, 3), body(2), push(2), primitive(UPLINK_MUL)};
    struct uplink_record complex[] = {push(1), primitive(UPLINK_ADD), push(0), primitive(UPLINK_COMPLEX_OF)};

    MULTIPLIES(squared, 1, "x by x is 1 pair");
    MULTIPLIES(cubed, 2, "x^3 takes 2 pairs");
    MULTIPLIES(binomial, 10, "(x + 1)^3 takes 10 pairs");
    MULTIPLIES(longest, 4030, "(x + 1)^63 takes 4,030 pairs");
    MULTIPLIES(power_of_two, 0, "Exp2 counts none");
    MULTIPLIES(both, 2, "a body that runs twice counts twice");
    MULTIPLIES(complex, 0, "Complex counts none");
}

/* 64 powers of x that are next to each other in binary64, squared: the terms of the product fall together. */
static void falling_together(void)
{
    struct uplink_record list[4 * UPLINK_MOST_ENTRIES + 3];
    size_t count = 0, at;

    list[count++] = primitive(UPLINK_DUP);
    for (at = 0; at < UPLINK_MOST_ENTRIES; at++) {
        if (at > 0) list[count++] = primitive(UPLINK_OVER);
        list[count++] = push(-1152921504606846976.0 - 256.0 * (double)at);
        list[count++] = primitive(UPLINK_POW);
        if (at > 0) list[count++] = primitive(UPLINK_ADD);
    }
    list[count++] = primitive(UPLINK_FLIP);
    list[count++] = primitive(UPLINK_POP);
    multiplies(list, count, UPLINK_DONE, 0, "powers below zero multiply nothing");
    list[count++] = primitive(UPLINK_DUP);
    list[count++] = primitive(UPLINK_MUL);
    multiplies(list, count, UPLINK_DONE, 4096, "64 terms by 64 are 4,096 pairs");
}

/* Before a product, in one and after it, at the end of the list, and for want of room. */
static void refused_pairs(void)
{
    struct uplink_record before[] = {primitive(UPLINK_POP), primitive(UPLINK_POP), push(3), primitive(UPLINK_POW)};
    struct uplink_record within[] = {push(1), primitive(UPLINK_ADD), push(64), primitive(UPLINK_POW)};
    struct uplink_record after[] = {primitive(UPLINK_DUP), primitive(UPLINK_MUL), primitive(UPLINK_MAX)};
    struct uplink_record none[] = {push(3), primitive(UPLINK_POW), primitive(UPLINK_POP)};
    struct uplink_record two[] = {push(3), primitive(UPLINK_POW), primitive(UPLINK_DUP)};
    struct uplink_read_answer answer = {7, 7, 7, 7};
    uint8_t nothing[1];

    REFUSES(before, UPLINK_TOO_MANY_VARIABLES, "refused before a product");
    REFUSES(within, UPLINK_NO_ROOM, "refused in the last product of a power");
    REFUSES(after, UPLINK_NOT_SUPPORTED, "refused after a product");
    REFUSES(none, UPLINK_NO_OUTPUT, "nothing is left after products");
    REFUSES(two, UPLINK_TOO_MANY_OUTPUTS, "two are left after products");
    multiplies(two, 0, UPLINK_DONE, 0, "the empty list multiplies nothing");
    expect(uplink_read((uint8_t *)two, 2 * sizeof *two, nothing, 0, &answer) == UPLINK_OUTPUT_ROOM, "too little room for x^3");
    expect(answer.place == 0 && answer.count == 0 && answer.complex == 0 && answer.pairs == 0, "has no pairs");
    expect(uplink_read((uint8_t *)two, 2 * sizeof *two - 1, nothing, 0, &answer) == UPLINK_BAD_RECORD && answer.pairs == 0, "nor has half a record");
}

/* What a call wrote: these records, in exact room and in ample room; a byte less and a record less are refused. */
typedef uint64_t (*writer)(uint8_t *out, size_t out_bytes, struct uplink_answer *answer);

static void gives(writer call, const struct uplink_record *records, size_t count, const char *what)
{
    struct uplink_record out[16];
    struct uplink_answer answer;
    size_t needed = count * sizeof *records, less;
    uint8_t untouched[sizeof out];

    memset(untouched, 0xa5, sizeof untouched);
    memset(out, 0xa5, sizeof out);
    expect(call((uint8_t *)out, sizeof out, &answer) == UPLINK_DONE, what);
    expect(answer.place == 0 && answer.count == count && same(out, records, count), what);
    expect(memcmp(out + count, untouched, sizeof out - needed) == 0, "bytes past the count stay");
    memset(out, 0xa5, sizeof out);
    expect(call((uint8_t *)out, needed, &answer) == UPLINK_DONE && same(out, records, count), "exact room is enough");
    memset(out, 0xa5, sizeof out);
    for (less = 1; less <= sizeof *records; less += sizeof *records - 1) {
        expect(call((uint8_t *)out, needed - less, &answer) == UPLINK_OUTPUT_ROOM, "room that is short");
        expect(answer.place == 0 && answer.count == 0, "at place 0, with count 0");
        expect(memcmp(out, untouched, sizeof out) == 0, "no byte is changed");
    }
}

static struct uplink_record on_body(uint32_t inside)
{
    struct uplink_record r = body(inside);
    r.args = 1;
    return r;
}

static struct uplink_entry term(uint8_t kind, uint32_t inside, double number, double re)
{
    struct uplink_entry e = {0};
    e.kind = kind;
    e.inside = inside;
    e.number = number;
    e.re = re;
    return e;
}

/* x^2 + sin x as a list, and 1 - cos x. */
static uint64_t slope_of_square_and_sine(uint8_t *out, size_t out_bytes, struct uplink_answer *answer)
{
    struct uplink_record list[] = {primitive(UPLINK_DUP), primitive(UPLINK_DUP), primitive(UPLINK_MUL),
                                   primitive(UPLINK_FLIP), primitive(UPLINK_SIN), primitive(UPLINK_ADD)};
    return uplink_derivative_faithful((uint8_t *)list, sizeof list, out, out_bytes, answer);
}

static uint64_t area_of_one_less_cosine(uint8_t *out, size_t out_bytes, struct uplink_answer *answer)
{
    struct uplink_record list[] = {primitive(UPLINK_COS), primitive(UPLINK_NOT)};
    return uplink_integral_faithful((uint8_t *)list, sizeof list, out, out_bytes, answer);
}

/* x^2 + sin(0 x), and x + sin x. */
static uint64_t square_and_sine_of_zeros(uint8_t *out, size_t out_bytes, struct uplink_answer *answer)
{
    struct uplink_entry sum[] = {term(UPLINK_TERM_X, 0, 2, 1), term(UPLINK_TERM_SIN, 1, 0, 1), term(UPLINK_TERM_X, 0, 1, 0)};
    return uplink_write_faithful((uint8_t *)sum, sizeof sum, 0, out, out_bytes, answer);
}

static uint64_t x_and_sine(uint8_t *out, size_t out_bytes, struct uplink_answer *answer)
{
    struct uplink_entry sum[] = {term(UPLINK_TERM_X, 0, 1, 1), term(UPLINK_TERM_SIN, 1, 0, 1), term(UPLINK_TERM_X, 0, 1, 1)};
    return uplink_write_faithful((uint8_t *)sum, sizeof sum, 0, out, out_bytes, answer);
}

/* Lists that mean what the sum says. */
static void faithful(void)
{
    struct uplink_record slope[] = {modifier(UPLINK_ON, 3), on_body(2), push(2), primitive(UPLINK_MUL),
                                    primitive(UPLINK_IDENTITY), primitive(UPLINK_COS), primitive(UPLINK_ADD)};
    struct uplink_record area[] = {primitive(UPLINK_DUP), primitive(UPLINK_IDENTITY), primitive(UPLINK_SIN),
                                   push(-1), primitive(UPLINK_MUL), primitive(UPLINK_ADD)};
    struct uplink_record zeros[] = {modifier(UPLINK_ON, 3), on_body(2), primitive(UPLINK_DUP), primitive(UPLINK_MUL),
                                    push(0), primitive(UPLINK_MUL), primitive(UPLINK_SIN), primitive(UPLINK_ADD)};
    struct uplink_record sine[] = {primitive(UPLINK_DUP), primitive(UPLINK_IDENTITY), primitive(UPLINK_SIN), primitive(UPLINK_ADD)};

    gives(slope_of_square_and_sine, slope, sizeof slope / sizeof *slope, "2x + cos x");
    gives(area_of_one_less_cosine, area, sizeof area / sizeof *area, "x - sin x");
    gives(square_and_sine_of_zeros, zeros, sizeof zeros / sizeof *zeros, "x^2 + sin(0 x)");
    gives(x_and_sine, sine, sizeof sine / sizeof *sine, "x + sin x");
}

/* Where the two writers agree: on powers of x, and on what is refused. */
static void both_writers(void)
{
    struct uplink_entry powers[] = {term(UPLINK_TERM_X, 0, 0, 5), term(UPLINK_TERM_X, 0, 0.5, -1), term(UPLINK_TERM_X, 0, 3, 2)};
    struct uplink_entry imaginary[] = {term(UPLINK_TERM_SIN, 1, 0, 1), term(UPLINK_TERM_X, 0, 1, 2)};
    struct uplink_record one[32], other[32];
    struct uplink_answer first, second;
    uint8_t complex;

    imaginary[1].im = 2.220446049250313e-16;
    for (complex = 0; complex < 3; complex++) {
        uplink_write((uint8_t *)powers, sizeof powers, complex, (uint8_t *)one, sizeof one, &first);
        expect(uplink_write_faithful((uint8_t *)powers, sizeof powers, complex, (uint8_t *)other, sizeof other, &second) == UPLINK_DONE, "powers");
        expect(first.count == 17 && second.count == 17 && same(one, other, 17), "of powers of x the same bytes");
        expect(uplink_write_faithful((uint8_t *)imaginary, sizeof imaginary, complex, (uint8_t *)other, sizeof other, &second)
                   == (complex ? UPLINK_DONE : UPLINK_NOT_FINITE), "an imaginary part of 2^-52 inside an argument");
    }
    expect(uplink_write_faithful((uint8_t *)powers, sizeof powers - 1, 0, (uint8_t *)other, sizeof other, &second) == UPLINK_BAD_RECORD, "no sum");
    powers[1].number = 0;
    expect(uplink_write_faithful((uint8_t *)powers, sizeof powers, 0, (uint8_t *)other, sizeof other, &second) == UPLINK_BAD_RECORD, "powers that don't rise");
    expect(second.place == 0 && second.count == 0, "at place 0, with count 0");
}

/* 2x + 5 and its inverse; 1/x and its integral. */
static void others(void)
{
    struct uplink_record line[] = {push(2), primitive(UPLINK_MUL), push(5), primitive(UPLINK_ADD)};
    struct uplink_record undo[] = {push(5), primitive(UPLINK_SUB), push(2), primitive(UPLINK_DIV)};
    struct uplink_record one_by_x[] = {primitive(UPLINK_RECIPROCAL)};
    struct uplink_record log[] = {primitive(UPLINK_IDENTITY), push(2.718281828459045), primitive(UPLINK_LOG)};
    struct uplink_record out[8];
    struct uplink_answer answer;

    expect(uplink_inverse((uint8_t *)line, sizeof line, (uint8_t *)out, sizeof out, &answer) == UPLINK_DONE, "inverse is done");
    expect(answer.count == 4 && same(out, undo, 4), "push 5, Sub, push 2, Div");
    expect(uplink_integral((uint8_t *)one_by_x, sizeof one_by_x, (uint8_t *)out, sizeof out, &answer) == UPLINK_DONE, "integral is done");
    expect(answer.count == 3 && same(out, log, 3), "Identity, push E, Log");
}

/* To the power 0 or -0 the run gives 1 for every number; read as a formula the list is the constant 0. */
static void nought(void)
{
    static const double numbers[] = {2, 0, -0.0, -7, 5e-324, 1e308};
    static const double zeros[] = {0, -0.0};
    struct uplink_read_answer read;
    struct uplink_run_answer ran;
    struct uplink_entry sum[2];
    double value;
    size_t i, j;

    for (j = 0; j < sizeof zeros / sizeof *zeros; j++) {
        struct uplink_record list[] = {push(zeros[j]), primitive(UPLINK_POW)};
        for (i = 0; i < sizeof numbers / sizeof *numbers; i++) {
            expect(uplink_run((uint8_t *)list, sizeof list, numbers[i], &value, &ran) == UPLINK_DONE, "a power nought is run");
            expect(value == 1 && ran.place == 0 && ran.steps == 2 && ran.peak == 2, "1, in 2 steps, with 2 values at the peak");
        }
        expect(uplink_read((uint8_t *)list, sizeof list, (uint8_t *)sum, sizeof sum, &read) == UPLINK_DONE, "a power nought is read");
        expect(read.count == 1 && sum[0].kind == UPLINK_TERM_X && sum[0].number == 0 && sum[0].re == 0, "as the constant 0");
    }
}

/* A power of x that isn't finite is told from a coefficient that isn't. */
static void overflows(void)
{
    struct uplink_record power[] = {push(-1e308), primitive(UPLINK_POW), push(1e200), primitive(UPLINK_MUL), primitive(UPLINK_DUP), primitive(UPLINK_MUL)};
    struct uplink_record coefficient[] = {push(1e308), primitive(UPLINK_MUL), push(10), primitive(UPLINK_MUL)};
    struct uplink_record out[8];
    struct uplink_answer answer;

    expect(uplink_derivative((uint8_t *)power, sizeof power, (uint8_t *)out, sizeof out, &answer) == UPLINK_POWER_NOT_FINITE, "PowerNotFinite");
    expect(answer.place == 5 && answer.count == 0, "at record 5, with count 0");
    expect(uplink_derivative((uint8_t *)coefficient, sizeof coefficient, (uint8_t *)out, sizeof out, &answer) == UPLINK_NOT_FINITE, "NotFinite");
    expect(answer.place == 3 && answer.count == 0, "at record 3, with count 0");
}

/* A refusal has its number and place, zero counts, and changes no byte. */
static void refusals(void)
{
    struct uplink_record list[] = {push(2), primitive(UPLINK_ADD), primitive(UPLINK_ADD)};
    uint8_t out[96], before[96];
    struct uplink_answer answer = {7, 7};
    struct uplink_run_answer ran = {7, 7, 7};
    double value = 7;

    memset(out, 0xa5, sizeof out);
    memcpy(before, out, sizeof out);
    expect(uplink_derivative((uint8_t *)list, sizeof list, out, sizeof out, &answer) == UPLINK_TOO_MANY_VARIABLES, "TooManyVariables");
    expect(answer.place == 2 && answer.count == 0, "at record 2, with count 0");
    expect(uplink_derivative((uint8_t *)list, sizeof list - 1, out, sizeof out, &answer) == UPLINK_BAD_RECORD, "BadRecord");
    expect(uplink_derivative((uint8_t *)list, 0, out, sizeof out, &answer) == UPLINK_DONE && answer.count == 4, "the empty list is x");
    memcpy(out, before, sizeof out);
    expect(uplink_derivative((uint8_t *)list, 0, out, sizeof out - 1, &answer) == UPLINK_OUTPUT_ROOM, "OutputRoom");
    expect(answer.place == 0 && answer.count == 0, "at place 0, with count 0");
    expect(memcmp(out, before, sizeof out) == 0, "no byte is changed");
    expect(uplink_run((uint8_t *)list, sizeof list, 1.0, &value, &ran) == UPLINK_TOO_MANY_VARIABLES, "a run is refused");
    expect(value == 0 && ran.place == 2 && ran.steps == 0 && ran.peak == 0, "with value, steps and peak 0");
}

/* The number, the value to the bit, and place and count 0; nothing beside value and answer is written. */
static void has_value(const void *sum, size_t bytes, double x, uint64_t number, double value, const char *what)
{
    struct uplink_answer answers[3];
    double values[3];
    uint8_t around[sizeof *answers];

    memset(around, 0xa5, sizeof around);
    memset(answers, 0xa5, sizeof answers);
    memset(values, 0xa5, sizeof values);
    expect(uplink_value(sum, bytes, x, &values[1], &answers[1]) == number, what);
    expect(memcmp(&values[1], &value, sizeof value) == 0, what);
    expect(answers[1].place == 0 && answers[1].count == 0, "at place 0, with count 0");
    expect(memcmp(&answers[0], around, sizeof around) == 0 && memcmp(&answers[2], around, sizeof around) == 0, "nothing is written beside the answer");
    expect(memcmp(&values[0], around, sizeof value) == 0 && memcmp(&values[2], around, sizeof value) == 0, "nothing is written beside the value");
}

static void has_no_value(const void *sum, size_t bytes, double x, uint64_t number, const char *what)
{
    has_value(sum, bytes, x, number, 0.0, what);
}

/* The value of a sum is that of the run of its list. */
static void values_as_run(const struct uplink_entry *sum, size_t count, const char *what)
{
    static const double numbers[] = {0, -0.0, 1, -1, 2.5, -0.1, 0.7, 5e-324, -1e-200, 1e4, -1e15};
    struct uplink_record list[64];
    struct uplink_answer written;
    struct uplink_run_answer ran;
    double value;
    size_t i;

    expect(uplink_write((const uint8_t *)sum, count * sizeof *sum, 0, (uint8_t *)list, sizeof list, &written) == UPLINK_DONE, what);
    for (i = 0; i < sizeof numbers / sizeof *numbers; i++) {
        expect(uplink_run((uint8_t *)list, written.count * sizeof *list, numbers[i], &value, &ran) == UPLINK_DONE, what);
        has_value(sum, count * sizeof *sum, numbers[i], UPLINK_DONE, value, what);
    }
}

static void values(void)
{
    struct uplink_entry dive[] = {term(UPLINK_TERM_X, 0, 1, 60), term(UPLINK_TERM_X, 0, 2, -6)};
    struct uplink_entry powers[] = {term(UPLINK_TERM_X, 0, -0.0, 0.1), term(UPLINK_TERM_X, 0, 1, 1), term(UPLINK_TERM_X, 0, 2, 0.3),
                                    term(UPLINK_TERM_X, 0, 3, 1), term(UPLINK_TERM_X, 0, 7, -1.7), term(UPLINK_TERM_X, 0, 19, 1e-9)};
    struct uplink_entry zeros[] = {term(UPLINK_TERM_X, 0, -1, 0), term(UPLINK_TERM_X, 0, 0.5, -0.0), term(UPLINK_TERM_X, 0, 2, 3),
                                   term(UPLINK_TERM_SIN, 1, 0, 0), term(UPLINK_TERM_X, 0, 65, 2)};
    struct uplink_entry high[] = {term(UPLINK_TERM_X, 0, 64, 3)};

    has_value(dive, sizeof dive, 2.5, UPLINK_DONE, 112.5, "112.5 metres after 2.5 minutes");
    has_value(high, sizeof high, -2, UPLINK_DONE, 3 * 18446744073709551616.0, "3 x^64 at -2");
    has_value(zeros, 2 * sizeof *zeros, -2, UPLINK_DONE, -0.0, "nothing but zeros, at -2");
    values_as_run(dive, 2, "60 x - 6 x^2");
    values_as_run(powers, 6, "six powers, one of them -0");
    values_as_run(zeros, 5, "zeros that are no whole powers");
    values_as_run(zeros, 2, "nothing but zeros");
    powers[2].im = -1.1102230246251565e-16;
    powers[3].im = 1.1102230246251565e-16;
    values_as_run(powers, 6, "imaginary parts below 2^-52");
}

static void no_values(void)
{
    const double infinite = 1e308 * 10, below_zero = -infinite, no_number = infinite - infinite;
    struct uplink_entry dive[] = {term(UPLINK_TERM_X, 0, 1, 60), term(UPLINK_TERM_X, 0, 2, -6)};
    struct uplink_entry sine[] = {term(UPLINK_TERM_X, 0, 1, 1), term(UPLINK_TERM_SIN, 1, 0, 1), term(UPLINK_TERM_X, 0, 1, 1)};
    struct uplink_entry deep[] = {term(UPLINK_TERM_SIN, 4, 0, 1), term(UPLINK_TERM_SIN, 3, 0, 1), term(UPLINK_TERM_SIN, 2, 0, 1),
                                  term(UPLINK_TERM_SIN, 1, 0, 1), term(UPLINK_TERM_X, 0, 1, 1)};

    has_no_value(dive, 0, 1, UPLINK_BAD_RECORD, "no entries are no sum");
    has_no_value(dive, sizeof dive - 1, 1, UPLINK_BAD_RECORD, "a length that isn't whole entries");
    has_no_value(sine, 2 * sizeof *sine, infinite, UPLINK_BAD_RECORD, "no sum, before an x that isn't finite");
    has_no_value(deep, sizeof deep, no_number, UPLINK_TOO_DEEP, "four levels, before an x that isn't finite");
    has_no_value(deep + 1, sizeof deep - sizeof *deep, 1, UPLINK_NEEDS_MATH, "three levels");
    has_no_value(sine, sizeof sine, infinite, UPLINK_NOT_FINITE, "x infinite, before a sine");
    has_no_value(dive, sizeof dive, below_zero, UPLINK_NOT_FINITE, "x infinite below zero");
    has_no_value(dive, sizeof dive, no_number, UPLINK_NOT_FINITE, "x not a number");
    sine[0].im = 1;
    has_no_value(sine, sizeof sine, 1, UPLINK_NEEDS_MATH, "a sine, before an imaginary part");
    has_no_value(sine, sizeof *sine, 1, UPLINK_NOT_FINITE, "an imaginary part");
    has_no_value(dive, sizeof dive, 1e200, UPLINK_NOT_FINITE, "a power that overflows");
}

static void no_powers(void)
{
    static const double powers[] = {0.5, -1, 65, 1.0000000000000002, -5e-324, 1e300};
    struct uplink_entry sum[2], line[] = {term(UPLINK_TERM_X, 0, 0, 1.5e308), term(UPLINK_TERM_X, 0, 1, 1e308)};
    size_t i;

    for (i = 0; i < sizeof powers / sizeof *powers; i++) {
        sum[powers[i] < 2] = term(UPLINK_TERM_X, 0, 2, 1e308);
        sum[powers[i] > 2] = term(UPLINK_TERM_X, 0, powers[i], 5e-324);
        has_no_value(sum, sizeof sum, 3, UPLINK_NEEDS_MATH, "a power that isn't a whole one from 0 to 64, before an overflow");
    }
    has_no_value(line, sizeof line, 1, UPLINK_NOT_FINITE, "a sum that overflows");
    has_no_value(line + 1, sizeof *line, 2, UPLINK_NOT_FINITE, "a product that overflows");
    line[0].im = 2.220446049250313e-16;
    has_no_value(line, sizeof line, 0, UPLINK_NOT_FINITE, "an imaginary part of 2^-52");
    line[0].im = -2.220446049250313e-16;
    has_no_value(line, sizeof line, 0, UPLINK_NOT_FINITE, "an imaginary part of -2^-52");
    line[0].re = 0;
    has_no_value(line, sizeof line, 0, UPLINK_NOT_FINITE, "an imaginary part without a real one");
}

static void costs(const struct uplink_record *list, size_t count, uint64_t steps, const char *what)
{
    struct uplink_cost_answer answer = {7, 7};

    expect(uplink_cost((const uint8_t *)list, count * sizeof *list, &answer) == UPLINK_DONE, "a cost is told");
    expect(answer.place == 0 && answer.steps == steps, what);
}

/* So many Boths, each in the body of the one before, around Neg. */
static size_t nested(struct uplink_record *list, size_t boths)
{
    size_t count = 2 * boths + 1, at;

    for (at = 0; at < boths; at++) {
        list[2 * at] = modifier(UPLINK_BOTH, count - 2 * at - 1);
        list[2 * at + 1] = body(count - 2 * at - 2);
    }
    list[2 * boths] = primitive(UPLINK_NEG);
    return count;
}

/* Steps, up to the number that stands for everything above it too. */
static void steps(void)
{
    struct uplink_record squared[] = {primitive(UPLINK_DUP), primitive(UPLINK_MUL)};
    struct uplink_record on_two[] = {modifier(UPLINK_ON, 4), body(1), primitive(UPLINK_NEG), body(1), primitive(UPLINK_NEG)};
    struct uplink_record list[129];

    costs(squared, 0, 0, "an empty list costs nothing");
    costs(squared, 2, 2, "Dup, Mul costs 2");
    costs(on_two, 5, 1, "On with two bodies runs none of them");
    costs(list, nested(list, 1), 5, "Both of Neg costs 5");
    costs(list, nested(list, 9), 2045, "nine Boths cost 2,045");
    costs(list, nested(list, 61), UINT64_MAX / 2 - 2, "61 Boths cost 2^63 - 3");
    costs(list, nested(list, 62), UINT64_MAX - 2, "62 Boths cost 2^64 - 3");
    costs(list, nested(list, 63), UINT64_MAX, "63 Boths cost more than is told");
    costs(list, nested(list, 64), UINT64_MAX, "64 Boths too");
}

/* The three lines of uplink.h, on a list that may be read and on one that may not. */
static int is_turned_away(const struct uplink_record *list, size_t count)
{
    struct uplink_cost_answer cost;

    if (uplink_cost((const uint8_t *)list, count * sizeof *list, &cost) != UPLINK_DONE) return 1;
    return cost.steps > UPLINK_STEPS_RECOMMENDED;
}

static void limits(void)
{
    struct uplink_record list[125];

    expect(!is_turned_away(list, nested(list, 17)), "17 Boths are let in");
    expect(is_turned_away(list, nested(list, 18)), "18 Boths are turned away");
    expect(is_turned_away(list, nested(list, 62)), "62 Boths are turned away");
}

static void costs_nothing(const void *list, size_t bytes, uint64_t number, const char *what)
{
    struct uplink_cost_answer answer = {7, 7};

    expect(uplink_cost(list, bytes, &answer) == number, what);
    expect(answer.place == 0 && answer.steps == 0, "at place 0, with 0 steps");
}

/* A list that is none has no cost. */
static void no_costs(void)
{
    static struct uplink_record many[UPLINK_MOST_RECORDS + 1];
    struct uplink_record deep[130], squared[] = {primitive(UPLINK_DUP), primitive(UPLINK_MUL)};
    struct uplink_record loose[] = {body(0)}, wrong[] = {primitive(UPLINK_DUP), push(1)};
    size_t at;

    wrong[1].im = 1;
    for (at = 0; at <= UPLINK_MOST_RECORDS; at++) many[at] = primitive(UPLINK_NEG);
    for (at = 0; at < 130; at++) deep[at] = run_of(129 - at);
    costs_nothing(squared, sizeof squared - 1, UPLINK_BAD_RECORD, "a length that isn't whole records");
    costs_nothing(wrong, sizeof wrong, UPLINK_BAD_RECORD, "an unused byte that isn't 0");
    costs_nothing(loose, sizeof loose, UPLINK_BAD_RECORD, "a body without a modifier");
    costs_nothing(many, sizeof many, UPLINK_BAD_RECORD, "2,049 records");
    costs(many, UPLINK_MOST_RECORDS, UPLINK_MOST_RECORDS, "2,048 records cost a step each");
    costs_nothing(deep, sizeof deep, UPLINK_TOO_DEEP, "129 levels");
    costs(deep + 1, 129, 129, "128 levels cost a step for each record");
}

/* Nothing but the answer is written, on success and on a refusal. */
static void only_the_answer(void)
{
    struct uplink_record list[125], before[125];
    struct uplink_cost_answer answers[3];
    uint8_t around[sizeof *answers];
    size_t count = nested(list, 62), cut;

    memset(around, 0xa5, sizeof around);
    memcpy(before, list, sizeof list);
    for (cut = 0; cut < 2; cut++) {
        memset(answers, 0xa5, sizeof answers);
        uplink_cost((const uint8_t *)list, count * sizeof *list - cut, &answers[1]);
        expect(same(list, before, count), "the list is as it was");
        expect(memcmp(&answers[0], around, sizeof around) == 0, "nothing is written before the answer");
        expect(memcmp(&answers[2], around, sizeof around) == 0, "nothing is written after the answer");
        expect(answers[1].place == 0 && answers[1].steps == (cut ? 0 : UINT64_MAX - 2), "the answer is written");
    }
}

int main(void)
{
    expect(sizeof(struct uplink_record) == UPLINK_RECORD_BYTES, "a record's size");
    expect(sizeof(struct uplink_entry) == UPLINK_ENTRY_BYTES, "an entry's size");
    expect(sizeof(struct uplink_read_answer) == 4 * sizeof(uint64_t), "an answer of read has four numbers");
    cubic();
    pairs();
    falling_together();
    refused_pairs();
    faithful();
    both_writers();
    others();
    nought();
    overflows();
    refusals();
    values();
    no_values();
    no_powers();
    steps();
    limits();
    no_costs();
    only_the_answer();
    printf(failures ? "%d failed\n" : "the C functions answer as printed\n", failures);
    return failures != 0;
}
