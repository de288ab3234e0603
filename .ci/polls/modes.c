/* The stored cases in a floating-point mode of the caller: no answer may depend on it.
 *     modes MODE < crates/conformance/stdin
 * MODE is nearest, down, up or zero for a way of rounding, trap for a program that every exception of standard C ends, or flush for
 * one that takes the least floats for zero, which linking with -Ofast sets before main. The calls of the stream are made through
 * roadside.h, and loads, queries and polls print the lines that crates/conformance/stdout has. The exit status is 0; 1 where the
 * mode is not on before and after every call, the stream is broken or a result has bits that no part names; 2 for another word. */
#define _GNU_SOURCE /* feenableexcept, fegetexcept */
#include <fenv.h>
#include <inttypes.h>
#include <stdio.h>
#include <stdlib.h>
#include <string.h>
#include <xmmintrin.h>

#include "roadside.h"

/* MXCSR is the machine's register of the mode. Its six lowest bits are flags, no part of it. ZEROS: the least floats are zeros in
 * comparisons and as operands. */
#define FLAGS 0x003Fu
#define ZEROS 0x0040u

struct mode {
    const char *name;
    int rounding, traps;
    unsigned control; /* MXCSR without flags */
};

static const struct mode modes[] = {
    {"nearest", FE_TONEAREST, 0, 0x1F80}, /* what a program starts with */
    {"down", FE_DOWNWARD, 0, 0x3F80},
    {"up", FE_UPWARD, 0, 0x5F80},
    {"zero", FE_TOWARDZERO, 0, 0x7F80},
    {"flush", FE_TONEAREST, 0, 0x9FC0}, /* 8000: and as results */
    {"trap", FE_TONEAREST, FE_ALL_EXCEPT, 0x0100},
};

static const struct mode *mode;
static uint8_t state[ROADSIDE_STATE];
static uint8_t bytes[40960];              /* the most that a call of the stream has */
static volatile double least = 0x1p-1074; /* the least float above zero */

static void stop(const char *what)
{
    fprintf(stderr, "cabinet: floats in mode %s: %s\n", mode->name, what);
    exit(1);
}

static void see_mode(const char *when)
{
    if ((_mm_getcsr() & ~FLAGS) != mode->control || fegetround() != mode->rounding || fegetexcept() != mode->traps)
        stop(when);
}

static void set_mode(const char *name)
{
    size_t i;

    for (i = 0; i < sizeof modes / sizeof *modes; i++)
        if (strcmp(modes[i].name, name) == 0)
            mode = &modes[i];
    if (mode == NULL)
        exit(2);
    if (fesetround(mode->rounding) != 0 || (mode->traps != 0 && feenableexcept(mode->traps) == -1))
        stop("it cannot be set");
    see_mode("it is not on");
    if ((least == 0) != ((mode->control & ZEROS) != 0))
        stop("it does not do what it must");
}

/* A number of the stream, high byte first. */
static uint64_t number(int size)
{
    uint64_t x = 0;

    for (; size > 0; size--) {
        int c = getchar();

        if (c == EOF)
            stop("the stream is broken");
        x = x << 8 | (uint64_t)c;
    }
    return x;
}

/* A count and so many bytes. */
static size_t counted(void)
{
    size_t n = (size_t)number(4);

    if (n > sizeof bytes || fread(bytes, 1, n, stdin) != n)
        stop("the stream is broken");
    return n;
}

static unsigned mode_of_state(void)
{
    return state[ROADSIDE_STATE - ROADSIDE_MODE];
}

static uint64_t length_of_state(void)
{
    uint64_t x = 0;
    int i;

    for (i = 0; i < ROADSIDE_LENGTH; i++)
        x = x << 8 | state[ROADSIDE_ARRAY + i];
    return x;
}

/* A state made by hand: bytes, then zeros; its length; its mode. */
static void do_state(void)
{
    size_t n = counted();

    if (n > ROADSIDE_ARRAY)
        stop("the stream is broken");
    memset(state, 0, sizeof state);
    memcpy(state, bytes, n);
    for (n = ROADSIDE_ARRAY; n < ROADSIDE_STATE; n++)
        state[n] = (uint8_t)number(1);
}

static void do_load(void)
{
    size_t n = counted();
    uint64_t r = roadside_load(state, sizeof state, bytes, n);

    if (ROADSIDE_NUMBER(r) == ROADSIDE_DONE)
        printf("load 0 0 %u %u overflow %u", ROADSIDE_LOAD_B(r), ROADSIDE_LOAD_COUNT(r), ROADSIDE_LOAD_OVERFLOWS(r));
    else
        printf("load %u %u %u %u", ROADSIDE_NUMBER(r), ROADSIDE_LOAD_A(r), ROADSIDE_LOAD_B(r), ROADSIDE_LOAD_COUNT(r));
    printf(" mode %u length %" PRIu64 "\n", mode_of_state(), length_of_state());
}

static void show(const char *call, uint64_t r)
{
    if (r >> 40 != 0)
        stop("a result has bits that no part names");
    printf("%s %u %u 0 %u signal %u green %u mode %u\n", call, ROADSIDE_NUMBER(r), ROADSIDE_A(r), ROADSIDE_COUNT(r),
           ROADSIDE_SIGNAL(r), ROADSIDE_GREEN(r), mode_of_state());
}

static void do_query(void)
{
    uint32_t scale = (uint32_t)number(4);
    size_t i, n = ROADSIDE_QUAD * (size_t)number(2);

    if (n > sizeof bytes)
        stop("the stream is broken");
    for (i = 0; i < n; i++)
        bytes[i] = (uint8_t)number(1);
    show("query", roadside_query(state, sizeof state, bytes, n, scale));
}

/* Every reading is put anew from its double, as callers put it: the same bytes. */
static void put_anew(size_t n)
{
    uint8_t put[ROADSIDE_DETECTOR];
    size_t at;

    for (at = 0; at + ROADSIDE_DETECTOR <= n; at += ROADSIDE_DETECTOR) {
        uint64_t bits = 0;
        double queue;
        int i;

        if (bytes[at] != 0)
            continue;
        for (i = 1; i < ROADSIDE_DETECTOR; i++)
            bits = bits << 8 | bytes[at + i];
        memcpy(&queue, &bits, sizeof queue);
        roadside_put_queue(put, queue);
        if (memcmp(put, bytes + at, sizeof put) != 0)
            stop("roadside_put_queue puts other bytes");
    }
}

static void do_poll(void)
{
    size_t n = counted();

    put_anew(n);
    show("poll", roadside_poll(state, sizeof state, bytes, n));
}

static void fresh(void)
{
    if (roadside_fresh(state, sizeof state) != ROADSIDE_DONE)
        stop("fresh is refused");
}

/* One call, or the start of a case. Writes and listings are no calls of roadside.h. */
static void answer(int mark)
{
    static unsigned cases;

    switch (mark) {
    case 'C':
        printf("case %u\n", cases++);
        fresh();
        break;
    case 'F':
        fresh();
        break;
    case 'S':
        do_state();
        break;
    case 'L':
        do_load();
        break;
    case 'Q':
        do_query();
        break;
    case 'P':
        do_poll();
        break;
    case 'W':
        number(4);
        number(8);
        break;
    case 'T':
        counted();
        break;
    default:
        stop("the stream is broken");
    }
}

int main(int argc, char **argv)
{
    int mark;

    if (argc != 2)
        return 2;
    setvbuf(stdout, NULL, _IOLBF, BUFSIZ); /* a trap leaves the lines before it */
    set_mode(argv[1]);
    while ((mark = getchar()) != 'E') {
        answer(mark);
        see_mode("a call has changed it");
    }
    return fflush(stdout) != 0;
}
