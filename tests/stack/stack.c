/* How much stack a call of each C function takes, for lists that take much of it each in its own way.
 *
 *     stack          print a table of bytes, and end with 1 where a bound is exceeded
 *     stack lower    the same with bounds of a tenth, which must be exceeded
 *
 * Each call runs on a thread of its own whose stack is painted beforehand. What is counted reaches from the caller's
 * frame down to the lowest word that no longer has the paint. A frame's lowest words may stay as they were, so a call
 * can take a little more than this tells; the half MiB that README.md asks for has room for that. */
#define _POSIX_C_SOURCE 200112L
#include <pthread.h>
#include <stdint.h>
#include <stdio.h>
#include <stdlib.h>
#include <string.h>

#include "uplink.h"

enum { STACK_BYTES = 1 << 20, ALIGNMENT = 1 << 16, PAINT = 0xa5, MOST_WORDS = 1 << 14, PAIRS = 64, LEVELS = 128 };

enum function {
    READ, DERIVATIVE, INTEGRAL, DERIVATIVE_FAITHFUL, INTEGRAL_FAITHFUL, INVERSE, RUN, COST, DERIVE, INTEGRATE, WRITE, WRITE_FAITHFUL,
    VALUE, FUNCTIONS
};

static const char *const function_names[FUNCTIONS] = {
    "read", "derivative", "integral", "derivative_faithful", "integral_faithful", "inverse", "run", "cost", "derive", "integrate",
    "write", "write_faithful", "value"};

/* ---- the bounds */

enum row {
    EMPTY, SQUARE, CUBE, LARGE, WHOLE, COMPLEX, CONSTANT, NOT, RECIPROCAL, QUOTIENT, PRIMITIVES, DIVS, SINE, SINES, LONG_SINE, RUNS, NESTED, ROWS
};

/* The most bytes that a call may take, in the order of the functions: a tenth above what was measured on x86-64. On Arm an
 * earlier library took as much within a tenth, and less for each of 128 levels, but this one was not measured there; so every
 * bound is half as large again where the machine is no x86-64. */
#ifdef __x86_64__
enum { BOUND_HALVES = 2 };
#else
enum { BOUND_HALVES = 3 };
#endif

static const struct {
    const char *name;
    unsigned most[FUNCTIONS];
} bounds[ROWS] = {
    [EMPTY] =      {"the empty list", { 37900,  56800,  54100,  69200,  69400,  35200,   2700,    700,   6300,   6500,  25100,  40400,   2600}},
    [SQUARE] =     {"a square",       { 41100,  60000,  60000,  69200,  69400,  41100,   2900,    800,   6300,   6500,  25100,  40400,   2600}},
    [CUBE] =       {"a cube",         { 41400,  60300,  60300,  69200,  69400,  41400,   2900,    800,   6300,   6500,  25100,  40400,   2600}},
    [LARGE] =      {"(x + 1)^63",     { 41500,  60400,  60400,  69200,  69400,  41500,   2900,    800,   6300,   6500,  25100,  40400,   2600}},
    [WHOLE] =      {"whole arena",    { 41500,  60400,  60400,  69200,  69400,  41500,   2900,    800,   6300,   6500,  25100,  40400,   2600}},
    [COMPLEX] =    {"Complex",        { 41500,  60400,  60400,  69200,  69400,  41500,   2900,    800,   6300,   6500,  25100,  40400,   2600}},
    [CONSTANT] =   {"Exp2 of 5",      { 41400,  60300,  60300,  68700,  69400,  41400,   2900,    800,   6300,   6500,  25100,  40400,   2600}},
    [NOT] =        {"Not",            { 41100,  60000,  60000,  69200,  69400,  41100,   2900,    800,   6300,   6500,  25100,  40400,   2600}},
    [RECIPROCAL] = {"Reciprocal",     { 41600,  60500,  60500,  69200,  69500,  41600,   2900,    800,   6300,   6500,  25100,  40400,   2600}},
    [QUOTIENT] =   {"Div",            { 41600,  60500,  60500,  68700,  69400,  41600,   2900,    800,   6300,   6500,  25100,  40400,   2600}},
    [PRIMITIVES] = {"any primitive",  { 41600,  60500,  60500,  69300,  69500,  41600,   2900,    800,   6600,   6800,  25400,  40500,   3000}},
    [DIVS] =       {"three Divs",     { 73300,  92200,  92200,  73400,  73600,  73300,   2900,    800,  30100,   7400,  26200,  41500,   3600}},
    [SINE] =       {"x^2 + sin x",    { 41300,  60200,  60200,  69300,  69500,  41300,   2900,    800,   6600,   6800,  25400,  40500,   3000}},
    [SINES] =      {"x^2 + 3 sines",  { 41400,  60300,  60300,  41500,  41700,  41500,   2900,    800,   7200,   7400,  26200,  41500,   3600}},
    [LONG_SINE] =  {"sin of 63",      { 41500,  60400,  60400,  41600,  41800,  41500,   2900,    800,   6600,   6800,  25400,  40500,   3000}},
    [RUNS] =       {"128 runs",       { 41100,  60000,  60000,  69200,  69400,  41100,  43500,  14300,   6300,   6500,  25100,  40400,   2600}},
    [NESTED] =     {"64 modifiers",   { 99700, 118600, 118600,  99800, 100000,  99700,  23200,  14300,   6300,   6500,  25100,  40400,   2600}},
};

/* ---- lists in words */

static const struct {
    const char *before, *name;
    uint8_t code;
} primitives[] = {
    {"", "Identity", UPLINK_IDENTITY},
    {"", "Pop", UPLINK_POP},
    {"", "Dup", UPLINK_DUP},
    {"Dup ", "Flip", UPLINK_FLIP},
    {"", "Neg", UPLINK_NEG},
    {"", "Not", UPLINK_NOT},
    {"", "Sqrt", UPLINK_SQRT},
    {"Dup ", "Add", UPLINK_ADD},
    {"Dup ", "Sub", UPLINK_SUB},
    {"Dup ", "Mul", UPLINK_MUL},
    {"Dup ", "Div", UPLINK_DIV},
    {"2 ", "Pow", UPLINK_POW},
    {"", "Exp", UPLINK_EXP},
    {"", "Sin", UPLINK_SIN},
    {"", "Cos", UPLINK_COS},
    {"", "Reciprocal", UPLINK_RECIPROCAL},
    {"Dup ", "Complex", UPLINK_COMPLEX_OF},
    {"Pop 5 ", "Exp2", UPLINK_EXP2},
    {"Pop 5 ", "Exp10", UPLINK_EXP10},
    {"2 ", "Log", UPLINK_LOG},
    {"", "Ln", UPLINK_LN},
    {"", "Log2", UPLINK_LOG2},
    {"", "Log10", UPLINK_LOG10},
    {"Dup ", "Over", UPLINK_OVER},
};

static const char *const modifiers[] = {"", "Dip", "Gap", "On", "By", "Both", "Bracket", "Fork"};

enum { PRIMITIVE_COUNT = sizeof primitives / sizeof *primitives, MODIFIER_COUNT = sizeof modifiers / sizeof *modifiers };

static struct uplink_record list[UPLINK_MOST_RECORDS];
static size_t list_count;

static void give_up(const char *why, const char *what) {
    printf("stack: %s: %s\n", why, what);
    exit(2);
}

static struct uplink_record *put(uint8_t kind, uint8_t code) {
    if (list_count == UPLINK_MOST_RECORDS) give_up("too many records", "");
    struct uplink_record *record = &list[list_count++];
    memset(record, 0, sizeof *record);
    record->kind = kind;
    record->code = code;
    return record;
}

/* Words have one space between them. A number is a push; Run is followed by '(', its records and ')', a modifier by as
 * many bodies of one argument, each '(1', its records and ')'. */
static char *next_word;

static int is_next(const char *word) {
    size_t length = strlen(word);
    return strncmp(next_word, word, length) == 0 && (next_word[length] == ' ' || next_word[length] == 0);
}

static void skip_word(void) {
    next_word += strcspn(next_word, " ");
    next_word += *next_word == ' ';
}

static void put_records(void);

static void put_inside(struct uplink_record *outer) {
    size_t start = list_count;
    skip_word();
    put_records();
    if (!is_next(")")) give_up("no end", next_word);
    skip_word();
    outer->inside = (uint32_t)(list_count - start);
}

static void put_modifier(uint8_t code) {
    struct uplink_record *modifier = put(UPLINK_MODIFIER, code);
    size_t start = list_count;
    skip_word();
    while (is_next("(1")) {
        struct uplink_record *body = put(UPLINK_BODY, 0);
        body->args = 1;
        put_inside(body);
    }
    modifier->inside = (uint32_t)(list_count - start);
}

static void put_number(void) {
    char *end;
    double number = strtod(next_word, &end);
    if (end == next_word) give_up("no such word", next_word);
    put(UPLINK_REAL, 0)->re = number;
    skip_word();
}

static void put_word(void) {
    for (size_t i = 0; i < PRIMITIVE_COUNT; i++) {
        if (is_next(primitives[i].name)) {
            put(UPLINK_PRIMITIVE, primitives[i].code);
            skip_word();
            return;
        }
    }
    for (size_t code = 1; code < MODIFIER_COUNT; code++) {
        if (is_next(modifiers[code])) {
            put_modifier((uint8_t)code);
            return;
        }
    }
    if (is_next("Run")) {
        skip_word();
        put_inside(put(UPLINK_RUN, 0));
        return;
    }
    put_number();
}

static void put_records(void) {
    while (*next_word != 0 && !is_next(")")) put_word();
}

static void make_list(char *words) {
    list_count = 0;
    next_word = words;
    put_records();
    if (*next_word != 0) give_up("an end too many", next_word);
}

/* ---- calls on a painted stack */

struct call {
    enum function function;
    const uint8_t *input;
    size_t length;
    uint64_t number;
    size_t used;
};

static uint8_t *stack;
static uint8_t output[UPLINK_LIST_BYTES];
static uint8_t complex_flag;

static uint64_t ask(const struct call *call) {
    static struct uplink_answer answer;
    static struct uplink_read_answer read;
    static struct uplink_run_answer ran;
    static struct uplink_cost_answer cost;
    static double value;
    switch (call->function) {
    case READ: return uplink_read(call->input, call->length, output, sizeof output, &read);
    case DERIVATIVE: return uplink_derivative(call->input, call->length, output, sizeof output, &answer);
    case INTEGRAL: return uplink_integral(call->input, call->length, output, sizeof output, &answer);
    case DERIVATIVE_FAITHFUL: return uplink_derivative_faithful(call->input, call->length, output, sizeof output, &answer);
    case INTEGRAL_FAITHFUL: return uplink_integral_faithful(call->input, call->length, output, sizeof output, &answer);
    case INVERSE: return uplink_inverse(call->input, call->length, output, sizeof output, &answer);
    case RUN: return uplink_run(call->input, call->length, 1.5, &value, &ran);
    case COST: return uplink_cost(call->input, call->length, &cost);
    case DERIVE: return uplink_derive(call->input, call->length, output, sizeof output, &answer);
    case INTEGRATE: return uplink_integrate(call->input, call->length, output, sizeof output, &answer);
    case WRITE: return uplink_write(call->input, call->length, complex_flag, output, sizeof output, &answer);
    case WRITE_FAITHFUL: return uplink_write_faithful(call->input, call->length, complex_flag, output, sizeof output, &answer);
    default: return uplink_value(call->input, call->length, 1.5, &value, &answer);
    }
}

/* Asked on the painted stack, and measured there before the thread ends. */
static void *on_the_stack(void *argument) {
    struct call *call = argument;
    volatile uint64_t here = 0;
    const uint8_t *lowest = stack;
    call->number = ask(call);
    while (*lowest == PAINT) lowest++;
    call->used = (size_t)((uintptr_t)&here - (uintptr_t)lowest);
    return NULL;
}

static void measure(struct call *call) {
    pthread_attr_t attributes;
    pthread_t thread;
    memset(stack, PAINT, STACK_BYTES);
    if (pthread_attr_init(&attributes) != 0) give_up("no thread", "attributes");
    if (pthread_attr_setstack(&attributes, stack, STACK_BYTES) != 0) give_up("no thread", "stack");
    if (pthread_create(&thread, &attributes, on_the_stack, call) != 0) give_up("no thread", "start");
    if (pthread_join(thread, NULL) != 0) give_up("no thread", "end");
    pthread_attr_destroy(&attributes);
}

/* ---- the table */

enum { LEAST_WIDTH = 10 };

static unsigned divisor = 1;
static int exceeded;

static int width_of(enum function function) {
    int width = (int)strlen(function_names[function]);
    return width < LEAST_WIDTH ? LEAST_WIDTH : width;
}

static void measure_and_say(enum row row, struct call *call) {
    measure(call);
    int is_over = call->used > (size_t)bounds[row].most[call->function] * BOUND_HALVES / 2 / divisor;
    exceeded += is_over;
    printf(" %*u%c", width_of(call->function), (unsigned)call->used, is_over ? '!' : call->number == UPLINK_DONE ? ' ' : '*');
}

static void say_sum(enum row row) {
    static uint8_t sum[UPLINK_SUM_BYTES];
    struct uplink_read_answer read;
    uint64_t number = uplink_read((uint8_t *)list, list_count * sizeof *list, sum, sizeof sum, &read);
    complex_flag = (uint8_t)read.complex;
    for (int function = DERIVE; function < FUNCTIONS; function++) {
        struct call call = {(enum function)function, sum, read.count * UPLINK_ENTRY_BYTES, 0, 0};
        if (number == UPLINK_DONE) measure_and_say(row, &call);
        else printf(" %*s ", width_of((enum function)function), "-");
    }
}

/* The list of these words, and the sum that it reads to. */
static void say_list(enum row row, const char *name, char *words) {
    make_list(words);
    printf("%-14s", name);
    for (int function = READ; function <= COST; function++) {
        struct call call = {(enum function)function, (uint8_t *)list, list_count * sizeof *list, 0, 0};
        measure_and_say(row, &call);
    }
    say_sum(row);
    putchar('\n');
}

static const struct {
    enum row row;
    const char *words;
} samples[] = {
    {EMPTY, ""},
    {SQUARE, "Dup Mul"},
    {CUBE, "3 Pow"},
    {LARGE, "1 Add 63 Pow"},
    {WHOLE, "1 Add 63 Pow Dup Dup Pop Pop"},
    {COMPLEX, "Dup Complex"},
    {CONSTANT, "Pop 5 Exp2"},
    {NOT, "Not"},
    {RECIPROCAL, "Reciprocal"},
    {QUOTIENT, "Dup Div"},
    {DIVS, "Dup Dup 1 Add Reciprocal Flip 2 Add Reciprocal Add Reciprocal Flip "
           "Dup 3 Add Reciprocal Flip 4 Add Reciprocal Add Reciprocal Add Reciprocal 2 Pow"},
    {SINE, "Dup Dup Mul Flip Sin Add"},
    {SINES, "Dup Dup Mul Flip Sin Sin Sin Add"},
    {LONG_SINE, "1 Add 62 Pow Sin"},
};

static void say_samples(void) {
    char words[MOST_WORDS];
    for (size_t i = 0; i < sizeof samples / sizeof *samples; i++) {
        strcpy(words, samples[i].words);
        say_list(samples[i].row, bounds[samples[i].row].name, words);
    }
}

/* Each primitive, after what it needs besides x. */
static void say_primitives(void) {
    char words[MOST_WORDS];
    for (size_t i = 0; i < PRIMITIVE_COUNT; i++) {
        snprintf(words, sizeof words, "%s%s", primitives[i].before, primitives[i].name);
        say_list(PRIMITIVES, words, words);
    }
}

/* So many times what opens a level, Neg, and as often what closes it. */
static void put_levels(char *words, const char *open, const char *close, int levels) {
    for (int i = 0; i < levels; i++) strcat(words, open);
    strcat(words, "Neg");
    for (int i = 0; i < levels; i++) strcat(words, close);
}

static void say_levels(enum row row, const char *name, const char *open, const char *close, int levels) {
    char words[MOST_WORDS] = "";
    put_levels(words, open, close, levels);
    say_list(row, name, words);
}

/* The same in the whole arena, above two sums of 64 entries. */
static void say_levels_above(enum row row, const char *name, const char *open, const char *close, int levels) {
    char words[MOST_WORDS] = "1 Add 63 Pow Dup Dup ";
    put_levels(words, open, close, levels);
    strcat(words, " Pop Pop");
    say_list(row, name, words);
}

/* A modifier and its body are a level each. Both would run its innermost record 2^64 times. */
static void say_nested(void) {
    say_levels(RUNS, "Run", "Run ( ", " )", LEVELS);
    say_levels(NESTED, "Dip", "1 Dip (1 ", " ) Pop", PAIRS);
    say_levels(NESTED, "Gap", "Gap (1 2 ", " )", PAIRS);
    say_levels(NESTED, "On", "On (1 ", " ) Add", PAIRS);
    say_levels(NESTED, "By", "By (1 ", " ) Add", PAIRS);
    say_levels(NESTED, "Bracket", "1 Bracket (1 ) (1 ", " ) Pop", PAIRS);
    say_levels(NESTED, "Fork", "Fork (1 ", " )", PAIRS);
    say_levels_above(NESTED, "Dip, whole", "1 Dip (1 ", " ) Pop", PAIRS);
}

static void say_head(void) {
    printf("%-14s", "bytes of stack");
    for (int function = 0; function < FUNCTIONS; function++)
        printf(" %*s ", width_of((enum function)function), function_names[function]);
    putchar('\n');
}

int main(int count, char **words) {
    void *memory;
    if (count > 1) divisor = strcmp(words[1], "lower") == 0 ? 10 : 1;
    if (posix_memalign(&memory, ALIGNMENT, STACK_BYTES) != 0) give_up("no memory", "stack");
    stack = memory;
    say_head();
    say_samples();
    say_primitives();
    say_nested();
    puts("* refused, - not read to a sum, ! above its bound");
    free(memory);
    if (exceeded > 0) printf("stack: %d above their bounds\n", exceeded);
    else puts("stack: no call takes more than its bound");
    return exceeded > 0;
}
