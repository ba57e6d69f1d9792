/* Random and damaged bytes through every C function.
 *
 *     hostile INPUTS SEED [overrun | changed | forgotten]
 *
 * Every buffer is of exact size and comes from malloc, and the answers start undefined, so that valgrind sees
 * any byte read or written outside of what was lent and any answer that isn't written. The program itself sees
 * that a refusal changes no byte and has counts of zero, that a success leaves the bytes past its count, that
 * the input stays, that room doesn't change a result, that the same call twice gives the same, that both
 * writers refuse alike, and that uplink_value gives to the bit what the run of the written list gives. Nested
 * Both, which nobody can read to its end, and damaged copies of it go through uplink_cost alone, which has to
 * tell in milliseconds what they cost.
 *
 * With a third word it does wrong on purpose, to show that it would be noticed: it writes a byte past the room
 * that was lent, changes a byte after a refusal, or reads an answer that nobody wrote. */
#include <stdint.h>
#include <stdio.h>
#include <stdlib.h>
#include <string.h>
#include <time.h>

#include "uplink.h"

enum { NUMBERS = 19, FILL = 0xa5, SHORT = 40, NESTING = 5, MOST_BOTHS = 66, MOST_MILLISECONDS = 100 };

/* ---- random numbers */

static uint64_t state;

static uint64_t bits(void) {
    uint64_t z = state += 0x9e3779b97f4a7c15u;
    z = (z ^ z >> 30) * 0xbf58476d1ce4e5b9u;
    z = (z ^ z >> 27) * 0x94d049bb133111ebu;
    return z ^ z >> 31;
}

static size_t below(size_t end) {
    return (size_t)(bits() % end);
}

static double some_number(void) {
    static const double numbers[] = {0, -0.0, 1, 1, 2, 2, 3, -1, 0.5, -0.5, 10, 2.718281828459045, 64, 65,
                                     1e308, 5e-324, 9007199254740992.0, 1.1102230246251565e-16};
    switch (below(40)) {
    case 0: {
        uint64_t any = bits();
        double number;
        memcpy(&number, &any, sizeof number);
        return number;
    }
    case 1:
        return 1e308 * 10;
    default:
        return numbers[below(sizeof numbers / sizeof *numbers)];
    }
}

/* ---- bytes to send */

struct bytes {
    uint8_t *at;
    size_t length;
};

static void out_of_memory(void) {
    puts("hostile: out of memory");
    exit(2);
}

/* Exactly so many bytes, so that valgrind knows where they end. */
static uint8_t *exact(size_t length) {
    uint8_t *at = malloc(length);
    if (at == NULL && length > 0) out_of_memory();
    return at;
}

static struct bytes copy_of(const void *from, size_t length) {
    struct bytes bytes = {exact(length), length};
    if (length > 0) memcpy(bytes.at, from, length);
    return bytes;
}

static struct uplink_record records[UPLINK_MOST_RECORDS + 1];
static size_t record_count;

static struct uplink_record *put_record(uint8_t kind, uint8_t code) {
    struct uplink_record *record = &records[record_count++];
    memset(record, 0, sizeof *record);
    record->kind = kind;
    record->code = code;
    return record;
}

static void grow_records(size_t most, int nesting);

static void grow_inside(struct uplink_record *outer, size_t most, int nesting) {
    size_t start = record_count;
    grow_records(most, nesting);
    outer->inside = (uint32_t)(record_count - start);
}

static void grow_modifier(size_t most, int nesting) {
    uint8_t code = (uint8_t)(below(60) == 0 ? bits() : 1 + below(7));
    struct uplink_record *modifier = put_record(UPLINK_MODIFIER, code);
    size_t bodies = below(12) == 0 || code == UPLINK_FORK ? below(4) : code == UPLINK_BRACKET ? 2 : 1;
    size_t start = record_count;
    for (size_t i = 0; i < bodies; i++) {
        struct uplink_record *body = put_record(UPLINK_BODY, 0);
        body->args = (uint8_t)below(3);
        grow_inside(body, most, nesting + 1);
    }
    modifier->inside = (uint32_t)(record_count - start);
}

static void grow_record(size_t most, int nesting) {
    if (record_count + 64 > UPLINK_MOST_RECORDS) return;
    static const uint8_t often[] = {UPLINK_DUP, UPLINK_MUL, UPLINK_ADD, UPLINK_ADD, UPLINK_SUB, UPLINK_POW,
                                    UPLINK_NEG, UPLINK_DIV, UPLINK_FLIP, UPLINK_OVER, UPLINK_SIN, UPLINK_POP};
    switch (below(16)) {
    case 0: case 1: case 2: case 3:
        put_record(UPLINK_REAL, 0)->re = some_number();
        return;
    case 4: {
        struct uplink_record *record = put_record(UPLINK_COMPLEX, 0);
        record->re = some_number();
        record->im = some_number();
        return;
    }
    case 5: case 6:
        put_record(UPLINK_PRIMITIVE, (uint8_t)(1 + below(39)));
        return;
    case 7:
        if (nesting < NESTING) grow_modifier(most / 3, nesting);
        return;
    case 8:
        if (nesting < NESTING && below(2) == 0)
            grow_inside(put_record((uint8_t)(UPLINK_RUN + below(2)), 0), most / 3, nesting + 1);
        return;
    case 9:
        if (below(12) == 0) put_record((uint8_t)(3 + below(11)), 0);
        return;
    default:
        put_record(UPLINK_PRIMITIVE, often[below(sizeof often)]);
    }
}

static void grow_records(size_t most, int nesting) {
    size_t count = below(most + 1);
    for (size_t i = 0; i < count; i++) grow_record(most, nesting);
}

/* As many Dup, then as many Add: it mostly reads to one sum and runs. */
static void grow_even(void) {
    size_t count = 1 + below(6);
    for (size_t i = 0; i < count; i++) put_record(UPLINK_PRIMITIVE, UPLINK_DUP);
    for (size_t i = 0; i < count; i++) {
        put_record(UPLINK_REAL, 0)->re = (double)below(9);
        put_record(UPLINK_PRIMITIVE, below(3) == 0 ? UPLINK_POW : UPLINK_MUL);
        put_record(UPLINK_PRIMITIVE, UPLINK_ADD);
    }
}

/* The longest and the deepest lists, and one more. */
static void grow_large(void) {
    size_t count = UPLINK_MOST_RECORDS - 1 + below(3);
    size_t levels = 127 + below(3);
    switch (below(3)) {
    case 0:
        while (record_count < count) put_record(UPLINK_PRIMITIVE, UPLINK_NEG);
        return;
    case 1:
        for (size_t i = 0; i < levels; i++) put_record(UPLINK_RUN, 0)->inside = (uint32_t)(levels - i);
        put_record(UPLINK_PRIMITIVE, UPLINK_NEG);
        return;
    default:
        put_record(UPLINK_REAL, 0)->re = 1;
        put_record(UPLINK_PRIMITIVE, UPLINK_ADD);
        put_record(UPLINK_REAL, 0)->re = (double)(62 + below(4));
        put_record(UPLINK_PRIMITIVE, UPLINK_POW);
    }
}

static struct bytes some_list(void) {
    record_count = 0;
    switch (below(24)) {
    case 0:
        grow_large();
        break;
    case 1: case 2: case 3: case 4: case 5: case 6: case 7: case 8:
        grow_even();
        break;
    default:
        /* Something to pop, so that not all of them end there. */
        for (size_t i = below(8); i > 0; i--) put_record(UPLINK_REAL, 0)->re = some_number();
        grow_records(SHORT, 0);
    }
    return copy_of(records, record_count * sizeof *records);
}

static struct uplink_entry entries[UPLINK_MOST_ENTRIES + 8];
static size_t entry_count;

static struct uplink_entry *put_entry(uint8_t kind, double number) {
    struct uplink_entry *entry = &entries[entry_count++];
    memset(entry, 0, sizeof *entry);
    entry->kind = kind;
    entry->number = number;
    entry->re = below(3) == 0 ? 1 : some_number();
    entry->im = below(6) == 0 ? some_number() : 0;
    return entry;
}

/* Kinds rise, and powers rise among X, so that most levels are in order. */
static void grow_level(int nesting) {
    double power = (double)below(5) - 2;
    size_t powers = nesting == 0 && below(30) == 0 ? UPLINK_MOST_ENTRIES - 1 + below(3) : below(4);
    for (size_t i = 0; i < powers; i++, power += 0.5 + (double)below(2)) put_entry(UPLINK_TERM_X, power);
    for (uint8_t kind = UPLINK_TERM_DIV; kind <= UPLINK_TERM_COSH; kind++) {
        if (entry_count + 8 > UPLINK_MOST_ENTRIES || nesting > 3 || below(6) != 0) continue;
        struct uplink_entry *entry = put_entry(kind, kind == UPLINK_TERM_LOG ? (double)(2 + below(2)) : 0);
        size_t start = entry_count;
        if (below(3) == 0) grow_level(nesting + 1);
        else put_entry(UPLINK_TERM_X, 1);
        entry->inside = (uint32_t)(entry_count - start);
    }
}

/* Whole powers of x alone, up to 64 and at times past it: most have a value. */
static void grow_powers(void) {
    size_t step = below(4) == 0 ? 1 : 1 + below(9);
    for (size_t power = below(5); power <= 64 + below(2) && entry_count < UPLINK_MOST_ENTRIES; power += 1 + below(step)) {
        struct uplink_entry *entry = put_entry(UPLINK_TERM_X, (double)power);
        if (below(8) != 0) entry->im = below(2) == 0 ? 0 : 1.1102230246251565e-16;
    }
    if (entry_count > 0 && entries[0].number == 0 && below(2) == 0) entries[0].number = -0.0;
}

static struct bytes some_sum(void) {
    entry_count = 0;
    if (below(3) == 0) grow_powers();
    else grow_level(0);
    return copy_of(entries, entry_count * sizeof *entries);
}

static struct bytes some_junk(size_t size) {
    size_t length = below(6 * size);
    struct bytes bytes = {exact(length), length};
    for (size_t i = 0; i < length; i++) bytes.at[i] = (uint8_t)bits();
    return bytes;
}

/* A bit flipped, a field set to something small, or the end cut off. */
static void damage(struct bytes *bytes, size_t size) {
    if (bytes->length == 0) return;
    size_t at = below(bytes->length);
    switch (below(3)) {
    case 0:
        bytes->at[at] ^= (uint8_t)(1u << below(8));
        return;
    case 1:
        at = at / size * size + below(5);
        if (at < bytes->length) bytes->at[at] = (uint8_t)below(16);
        return;
    default: {
        struct bytes cut = copy_of(bytes->at, at);
        free(bytes->at);
        *bytes = cut;
    }
    }
}

static struct bytes some_bytes(int is_list) {
    size_t size = is_list ? UPLINK_RECORD_BYTES : UPLINK_ENTRY_BYTES;
    if (below(12) == 0) return some_junk(size);
    struct bytes bytes = is_list ? some_list() : some_sum();
    if (below(3) == 0) damage(&bytes, size);
    return bytes;
}

/* ---- calls */

enum function {
    READ, DERIVATIVE, INTEGRAL, INVERSE, DERIVATIVE_FAITHFUL, INTEGRAL_FAITHFUL, DERIVE, INTEGRATE, WRITE, WRITE_FAITHFUL,
    VALUE, RUN, COST, FUNCTIONS
};

static const char *const names[FUNCTIONS] = {
    "read", "derivative", "integral", "inverse", "derivative_faithful", "integral_faithful", "derive", "integrate", "write",
    "write_faithful", "value", "run", "cost"};
static unsigned long counts[FUNCTIONS][NUMBERS];
static const char *wrong = "";

static int takes_a_list(enum function function) {
    return function < DERIVE || function > VALUE;
}

static int writes_bytes(enum function function) {
    return function < VALUE;
}

static size_t result_size(enum function function) {
    return function == READ || function == DERIVE || function == INTEGRATE ? UPLINK_ENTRY_BYTES : UPLINK_RECORD_BYTES;
}

static void fail(enum function function, struct bytes input, size_t room, const char *what) {
    printf("hostile: %s, room of %zu bytes: %s; input of %zu bytes:", names[function], room, what, input.length);
    for (size_t i = 0; i < input.length; i++) printf("%s%02x", i % 8 == 0 ? " " : "", input.at[i]);
    puts("");
    exit(1);
}

/* What a call gives: the number, and up to four that go with it (flag and pairs, or steps and peak, last). */
struct given {
    uint64_t number, place, second, third, fourth;
    struct bytes out;
    double value;
};

static int is_same(const struct given *a, const struct given *b) {
    return a->number == b->number && a->place == b->place && a->second == b->second && a->third == b->third &&
           a->fourth == b->fourth && memcmp(&a->value, &b->value, sizeof a->value) == 0;
}

/* One call, with everything that is lent in memory of its own. */
static struct given call(enum function function, struct bytes input, uint8_t complex, double x, size_t room) {
    struct given given = {0, 0, 0, 0, 0, {exact(room), room}, 0};
    struct uplink_answer *two = (void *)exact(sizeof *two);
    struct uplink_read_answer *read = (void *)exact(sizeof *read);
    struct uplink_run_answer *ran = (void *)exact(sizeof *ran);
    struct uplink_cost_answer *cost = (void *)exact(sizeof *cost);
    double *value = (void *)exact(sizeof *value);
    uint8_t *out = given.out.at;
    if (room > 0) memset(out, FILL, room);
    switch (function) {
    case READ: given.number = uplink_read(input.at, input.length, out, room, read); break;
    case DERIVATIVE: given.number = uplink_derivative(input.at, input.length, out, room, two); break;
    case INTEGRAL: given.number = uplink_integral(input.at, input.length, out, room, two); break;
    case INVERSE: given.number = uplink_inverse(input.at, input.length, out, room, two); break;
    case DERIVE: given.number = uplink_derive(input.at, input.length, out, room, two); break;
    case INTEGRATE: given.number = uplink_integrate(input.at, input.length, out, room, two); break;
    case DERIVATIVE_FAITHFUL: given.number = uplink_derivative_faithful(input.at, input.length, out, room, two); break;
    case INTEGRAL_FAITHFUL: given.number = uplink_integral_faithful(input.at, input.length, out, room, two); break;
    case WRITE: given.number = uplink_write(input.at, input.length, complex, out, room, two); break;
    case WRITE_FAITHFUL: given.number = uplink_write_faithful(input.at, input.length, complex, out, room, two); break;
    case COST: given.number = uplink_cost(input.at, input.length, cost); break;
    case VALUE: given.number = uplink_value(input.at, input.length, x, value, two); break;
    default: given.number = uplink_run(input.at, input.length, x, value, ran);
    }
    if (function == READ || strcmp(wrong, "forgotten") == 0)
        given.place = read->place, given.second = read->count, given.third = read->complex, given.fourth = read->pairs;
    else if (function == RUN)
        given.place = ran->place, given.second = ran->steps, given.third = ran->peak, given.value = *value;
    else if (function == COST)
        given.place = cost->place, given.second = cost->steps;
    else
        given.place = two->place, given.second = two->count;
    if (function == VALUE) given.value = *value;
    if (strcmp(wrong, "overrun") == 0) given.out.at[room] = FILL;
    if (strcmp(wrong, "changed") == 0 && given.number != 0 && room > 0) out[room - 1] = 0;
    free(two), free(read), free(ran), free(cost), free(value);
    return given;
}

static int all_filled(struct bytes bytes, size_t from) {
    for (size_t i = from; i < bytes.length; i++)
        if (bytes.at[i] != FILL) return 0;
    return 1;
}

/* What holds of every call, whatever the input. */
static void check(enum function function, struct bytes input, struct given given) {
    size_t room = given.out.length, size = result_size(function);
    if (given.number >= NUMBERS) fail(function, input, room, "no such number");
    if (given.number != 0) {
        static const double zero = 0;
        if (given.second != 0 || given.third != 0 || given.fourth != 0) fail(function, input, room, "a refusal with counts");
        if (memcmp(&given.value, &zero, sizeof zero) != 0) fail(function, input, room, "a refusal with a value");
        if (!all_filled(given.out, 0)) fail(function, input, room, "a refusal changed a byte");
        if (given.place != 0 && given.place >= input.length / UPLINK_RECORD_BYTES)
            fail(function, input, room, "a place that no record has");
    } else {
        if (given.place != 0) fail(function, input, room, "a success with a place");
        if (function == VALUE && given.second != 0) fail(function, input, room, "a value with a count");
        if (!writes_bytes(function)) return;
        if (given.second > room / size) fail(function, input, room, "more counted than there is room for");
        if (!all_filled(given.out, given.second * size)) fail(function, input, room, "a byte past the count changed");
        if (given.third > 1) fail(function, input, room, "a flag that is neither 0 nor 1");
    }
}

/* The same call twice; the input stays as it was. Gives what it comes to, with the room that was lent. */
static struct given call_twice(enum function function, struct bytes input, uint8_t complex, double x, size_t room) {
    struct bytes before = copy_of(input.at, input.length);
    struct given first = call(function, input, complex, x, room);
    check(function, input, first);
    struct given second = call(function, input, complex, x, room);
    int is_kept = input.length == 0 || memcmp(before.at, input.at, input.length) == 0;
    if (!is_kept) fail(function, before, room, "the input changed");
    int is_equal = is_same(&first, &second) && (room == 0 || memcmp(first.out.at, second.out.at, room) == 0);
    if (!is_equal) fail(function, input, room, "the second time is another");
    free(before.at), free(second.out.at);
    counts[function][first.number]++;
    return first;
}

/* Ample room, exactly enough, a byte less, and none. */
static void send(enum function function, struct bytes input) {
    uint8_t complex = (uint8_t)(below(2) == 0 ? 0 : bits());
    double x = some_number();
    size_t size = result_size(function), most = writes_bytes(function) ? UPLINK_LIST_BYTES : 0;
    struct given ample = call_twice(function, input, complex, x, most);
    size_t needed = ample.number == 0 && writes_bytes(function) ? ample.second * size : 0;
    size_t rooms[3] = {needed, needed == 0 ? below(99) : needed - 1, needed == 0 ? 0 : below(needed)};
    for (int i = 0; i < 3 && writes_bytes(function); i++) {
        struct given given = call_twice(function, input, complex, x, rooms[i]);
        int has_room = rooms[i] >= needed;
        if (has_room && !is_same(&ample, &given)) fail(function, input, rooms[i], "room changes the answer");
        if (has_room && needed > 0 && memcmp(ample.out.at, given.out.at, needed) != 0)
            fail(function, input, rooms[i], "room changes the bytes");
        if (!has_room && (given.number != UPLINK_OUTPUT_ROOM || given.place != 0))
            fail(function, input, rooms[i], "too little room isn't 17 at 0");
        free(given.out.at);
    }
    free(ample.out.at);
}

/* The Rust's writer and the second one refuse the same input, with the same number and place. */
static void refuse_alike(enum function first, enum function second, struct bytes input) {
    uint8_t complex = (uint8_t)below(2);
    struct given one = call(first, input, complex, 0, UPLINK_LIST_BYTES);
    struct given other = call(second, input, complex, 0, UPLINK_LIST_BYTES);
    if (one.number != other.number || one.place != other.place)
        fail(second, input, UPLINK_LIST_BYTES, "the writers don't refuse alike");
    free(one.out.at), free(other.out.at);
}

/* Whether an outermost term that isn't zero is something else than x to a whole power from 0 to 64. */
static int has_other_term(struct bytes sum) {
    for (size_t at = 0; at < sum.length;) {
        struct uplink_entry entry;
        memcpy(&entry, sum.at + at, sizeof entry);
        int is_power = entry.kind == UPLINK_TERM_X && entry.number >= 0 && entry.number <= 64 && entry.number == (int)entry.number;
        if ((entry.re != 0 || entry.im != 0) && !is_power) return 1;
        at += (1 + (size_t)entry.inside) * sizeof entry;
    }
    return 0;
}

/* The value of a sum at x is that of its list, and so is the number, but for x and for terms that are asked before a list is written. */
static void value_as_run(struct bytes sum, double x) {
    struct given value = call_twice(VALUE, sum, 0, x, 0);
    struct given list = call(WRITE, sum, 0, 0, UPLINK_LIST_BYTES);
    struct bytes written = {list.out.at, list.second * UPLINK_RECORD_BYTES};
    struct given ran = call(RUN, written, 0, x, 0);
    uint64_t number = list.number == 0 ? ran.number : list.number;
    if (list.number == 0 || list.number == UPLINK_NOT_FINITE) {
        if (x - x != 0) number = UPLINK_NOT_FINITE;
        else if (has_other_term(sum)) number = UPLINK_NEEDS_MATH;
    }
    if (value.number != number) fail(VALUE, sum, 0, "another number");
    if (number == 0 && memcmp(&value.value, &ran.value, sizeof x) != 0) fail(VALUE, sum, 0, "the list has another value");
    free(value.out.at), free(list.out.at), free(ran.out.at);
}

/* All kinds of x: zeros, small and large ones, those whose powers overflow, and those that aren't finite. */
static void value_at_all(struct bytes sum) {
    static const double numbers[] = {0, -0.0, 1, -1, 0.7, -2.5, 5e-324, -1e-160, 2e4, -3e5, 1e155, -1.7976931348623157e308};
    for (size_t i = 0; i < sizeof numbers / sizeof *numbers; i++) value_as_run(sum, numbers[i]);
    value_as_run(sum, some_number());
    value_as_run(sum, 1e308 * 10);
    value_as_run(sum, -1e308 * 10);
    value_as_run(sum, 1e308 * 10 - 1e308 * 10);
}

/* Every list function on lists and at times on sums, and the reverse. */
static void send_to_all(int is_list) {
    struct bytes input = some_bytes(is_list);
    int crosses = below(20) == 0;
    for (enum function function = READ; function < FUNCTIONS; function++)
        if (takes_a_list(function) == is_list || crosses) send(function, input);
    if (is_list) {
        refuse_alike(DERIVATIVE, DERIVATIVE_FAITHFUL, input);
        refuse_alike(INTEGRAL, INTEGRAL_FAITHFUL, input);
    } else {
        refuse_alike(WRITE, WRITE_FAITHFUL, input);
        value_at_all(input);
    }
    free(input.at);
}

/* So many Boths around so many Neg. */
static struct bytes nested_both(size_t boths, size_t inside) {
    size_t count = 2 * boths + inside;
    record_count = 0;
    for (size_t i = 0; i < boths; i++) {
        put_record(UPLINK_MODIFIER, UPLINK_BOTH)->inside = (uint32_t)(count - 2 * i - 1);
        put_record(UPLINK_BODY, 0)->inside = (uint32_t)(count - 2 * i - 2);
    }
    while (record_count < count) put_record(UPLINK_PRIMITIVE, UPLINK_NEG);
    return copy_of(records, count * sizeof *records);
}

/* 2^boths times inside + 3, less 3; from 2^64 - 1 on 2^64 - 1. */
static uint64_t steps_of_both(size_t boths, size_t inside) {
    uint64_t steps = inside;
    for (size_t i = 0; i < boths; i++) steps = steps > (UINT64_MAX - 3) / 2 ? UINT64_MAX : 2 * steps + 3;
    return steps;
}

/* What nested Both costs, and how long it takes to tell. */
static void cost_nested_both(size_t boths, size_t inside) {
    struct bytes input = nested_both(boths, inside);
    int is_deep = boths > 64; /* a body inside 129 others */
    clock_t start = clock();
    struct given given = call_twice(COST, input, 0, 0, 0);
    double milliseconds = 1000.0 * (double)(clock() - start) / CLOCKS_PER_SEC;
    if (given.number != (is_deep ? UPLINK_TOO_DEEP : UPLINK_DONE)) fail(COST, input, 0, "another number");
    if (!is_deep && given.second != steps_of_both(boths, inside)) fail(COST, input, 0, "another cost");
    if (milliseconds > MOST_MILLISECONDS) fail(COST, input, 0, "it takes too long");
    if (boths == 64 && inside == 1) printf("cost                twice of 64 nested Boths in %.1f ms\n", milliseconds);
    free(given.out.at), free(input.at);
}

static void cost_all_nested_both(void) {
    for (size_t boths = 0; boths < MOST_BOTHS; boths++)
        for (size_t inside = 0; inside < 3; inside++) cost_nested_both(boths, inside);
}

/* A damaged copy, which may still take for ever to read. */
static void cost_damaged_both(void) {
    struct bytes input = nested_both(below(MOST_BOTHS), below(4));
    damage(&input, UPLINK_RECORD_BYTES);
    send(COST, input);
    free(input.at);
}

static int report(void) {
    int missing = 0;
    for (enum function function = READ; function < FUNCTIONS; function++) {
        unsigned long refused = 0;
        printf("%-19s done %lu; refused", names[function], counts[function][0]);
        for (int number = 1; number < NUMBERS; number++) {
            refused += counts[function][number];
            if (counts[function][number] > 0) printf(" %d:%lu", number, counts[function][number]);
        }
        puts("");
        missing |= counts[function][0] == 0 || refused == 0;
    }
    if (missing) puts("hostile: a function never succeeded, or was never refused");
    return missing;
}

int main(int count, char **words) {
    if (count < 3 || count > 4) {
        puts("usage: hostile INPUTS SEED [overrun | changed | forgotten]");
        return 2;
    }
    unsigned long inputs = strtoul(words[1], NULL, 10);
    state = strtoull(words[2], NULL, 10);
    if (count == 4) wrong = words[3];
    cost_all_nested_both();
    for (unsigned long i = 0; i < inputs; i++) {
        send_to_all(i % 2 == 0);
        cost_damaged_both();
    }
    return report();
}
