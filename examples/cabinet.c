/* A street cabinet's program: it loads a certificate, hands over polls of the loop detectors, and prints what each call answers.
 * cabinet.due has what it must print. The exit status is 0 if every answer was the one expected and no refusal changed the
 * state, and 1 otherwise. */
#include <math.h>
#include <stdio.h>
#include <string.h>

#include "certificates.h"
#include "roadside.h"

/* The state is the caller's. Here it is static, so that it takes no stack. */
static uint8_t state[ROADSIDE_STATE];
static uint8_t before[ROADSIDE_STATE]; /* its bytes before a call */
static int failed;

/* What is expected of a query or a poll that succeeds, of one that is refused at a link, and of a load that is refused or accepted.
 * Any other refusal is its number alone. */
static uint64_t showing(unsigned signal, unsigned green)
{
    return (uint64_t)signal << 24 | (uint64_t)green << 32;
}

static uint64_t at_link(unsigned number, unsigned link)
{
    return number | (uint64_t)link << 8;
}

static uint64_t turned_down(unsigned number, unsigned a, unsigned b, unsigned count)
{
    return number | (uint64_t)a << 8 | (uint64_t)b << 24 | (uint64_t)count << 36;
}

static uint64_t taken(unsigned count, unsigned overflows)
{
    return (uint64_t)overflows << 8 | (uint64_t)count << 36;
}

/* Ends the line of a call. */
static void end_line(uint64_t result, uint64_t expected)
{
    if (ROADSIDE_NUMBER(result) != ROADSIDE_DONE) {
        int same = memcmp(state, before, sizeof state) == 0;

        printf(", state %s", same ? "as it was" : "CHANGED");
        failed |= !same;
    }
    printf("%s\n", result == expected ? "" : ", UNEXPECTED");
    failed |= result != expected;
}

/* Prints the parts of a query's or a poll's result. */
static void show(const char *what, uint64_t result, uint64_t expected)
{
    printf("%s: number %u, A %u, signal %u, green %02X", what, ROADSIDE_NUMBER(result), ROADSIDE_A(result),
           ROADSIDE_SIGNAL(result), ROADSIDE_GREEN(result));
    end_line(result, expected);
}

static void try_load(const char *what, const uint8_t *certificate, size_t len, uint64_t expected)
{
    uint64_t result;

    memcpy(before, state, sizeof state);
    result = roadside_load(state, sizeof state, certificate, len);
    if (ROADSIDE_NUMBER(result) == ROADSIDE_DONE)
        printf("%s: number 0, count %u, overflows %u", what, ROADSIDE_LOAD_COUNT(result), ROADSIDE_LOAD_OVERFLOWS(result));
    else
        printf("%s: number %u, A %u, B %u, count %u", what, ROADSIDE_NUMBER(result), ROADSIDE_LOAD_A(result),
               ROADSIDE_LOAD_B(result), ROADSIDE_LOAD_COUNT(result));
    end_line(result, expected);
}

static void try_poll(const char *what, const uint8_t *poll, size_t len, uint64_t expected)
{
    memcpy(before, state, sizeof state);
    show(what, roadside_poll(state, sizeof state, poll, len), expected);
}

/* of a certificate with one link */
static void try_query(const char *what, uint32_t queue, uint32_t scale, uint64_t expected)
{
    uint8_t queues[ROADSIDE_QUAD];

    roadside_put_quad(queues, queue);
    memcpy(before, state, sizeof state);
    show(what, roadside_query(state, sizeof state, queues, sizeof queues, scale), expected);
}

/* The 18 bytes of a link: two queues, a queue and a fault, or two faults. */
static void put_both(uint8_t *link, double first, double second)
{
    roadside_put_queue(link, first);
    roadside_put_queue(link + ROADSIDE_DETECTOR, second);
}

static void put_one(uint8_t *link, double first, uint8_t fault)
{
    roadside_put_queue(link, first);
    roadside_put_fault(link + ROADSIDE_DETECTOR, fault);
}

static void put_none(uint8_t *link, uint8_t first, uint8_t second)
{
    roadside_put_fault(link, first);
    roadside_put_fault(link + ROADSIDE_DETECTOR, second);
}

/* From any bytes to a state that holds L. */
static void start(void)
{
    uint8_t poll[ROADSIDE_LINK];
    uint64_t result;

    memset(state, 0xFF, sizeof state);
    result = roadside_fresh(state, sizeof state);
    printf("fresh: number %u", ROADSIDE_NUMBER(result));
    end_line(result, ROADSIDE_DONE);
    put_both(poll, 9.5, 9.5);
    try_poll("poll before a load", poll, sizeof poll, ROADSIDE_NO_CERTIFICATE);
    try_load("load L with 3 arrivals", busier_l, sizeof busier_l, turned_down(ROADSIDE_NOT_LOWER, 1, 1, 3));
    try_load("load L", certificate_l, sizeof certificate_l, taken(4, 0));
}

/* L: one link, cap 10; signal 0 with green 01 in every cell. */
static void one_link(void)
{
    uint8_t poll[ROADSIDE_LINK];

    put_one(poll, 9.5, 7);
    try_poll("9.5 and a fault", poll, sizeof poll, showing(0, 0x01));
    try_poll("its first 17 bytes", poll, sizeof poll - 1, ROADSIDE_MISFIT);
    poll[ROADSIDE_DETECTOR] = 2;
    try_poll("9.5 and a detector opened by 02", poll, sizeof poll, ROADSIDE_MISFIT);
    put_both(poll, 9.5, NAN);
    try_poll("9.5 and not a number", poll, sizeof poll, at_link(ROADSIDE_BAD_READING, 0));
    put_none(poll, 7, 255);
    try_poll("two faults", poll, sizeof poll, at_link(ROADSIDE_NO_READING, 0));
    put_one(poll, -0.0, 7);
    try_poll("-0.0 and a fault", poll, sizeof poll, showing(0, 0x01));
    put_both(poll, 3, 10);
    try_poll("3 and cap", poll, sizeof poll, showing(0, 0x01));
    put_both(poll, 3, 0x1.4000000000001p+3);
    try_poll("3 and the next number above cap", poll, sizeof poll, at_link(ROADSIDE_BAD_READING, 0));
    try_query("query 19 over 2", 19, 2, showing(0, 0x01));
    try_query("query 21 over 2", 21, 2, ROADSIDE_MISFIT);
    try_query("query 9 over 0", 9, 0, ROADSIDE_MISFIT);
}

/* A state one byte short: 18 from every call. */
static void short_state(void)
{
    const size_t len = sizeof state - 1;
    uint8_t poll[ROADSIDE_LINK], queues[ROADSIDE_QUAD];

    put_one(poll, 9.5, 7);
    roadside_put_quad(queues, 9);
    memcpy(before, state, sizeof state);
    show("short state, fresh", roadside_fresh(state, len), ROADSIDE_NO_CERTIFICATE);
    show("short state, load", roadside_load(state, len, certificate_l, sizeof certificate_l), ROADSIDE_NO_CERTIFICATE);
    show("short state, query", roadside_query(state, len, queues, sizeof queues, 1), ROADSIDE_NO_CERTIFICATE);
    show("short state, poll", roadside_poll(state, len, poll, sizeof poll), ROADSIDE_NO_CERTIFICATE);
}

/* Two links, caps 40, cuts 10, 20 and 30. */
static void two_links(void)
{
    uint8_t poll[2 * ROADSIDE_LINK];
    uint8_t *const link0 = poll, *const link1 = poll + ROADSIDE_LINK;

    try_load("load a red link", red_link, sizeof red_link, taken(1, 1));
    try_load("load two junctions", two_junctions, sizeof two_junctions, taken(24, 0));
    put_one(link0, 3, 7);
    put_both(link1, 9, 12.5);
    try_poll("3; 9 and 12.5: cell 1", poll, sizeof poll, showing(1, 0x02));
    put_both(link1, 0x1.3ffffffffffffp+3, 0);
    try_poll("3; the next number below 10: cell 0", poll, sizeof poll, showing(0, 0x03));
    put_both(link1, NAN, 5);
    try_poll("3; not a number", poll, sizeof poll, at_link(ROADSIDE_BAD_READING, 1));
    put_none(link0, 1, 2);
    try_poll("two faults; not a number", poll, sizeof poll, at_link(ROADSIDE_NO_READING, 0));
    put_both(link0, NAN, 5);
    link1[0] = 0xFF;
    try_poll("not a number; opened by FF", poll, sizeof poll, ROADSIDE_MISFIT);
    put_both(link0, 30, 2);
    put_both(link1, 0, 0);
    try_poll("30; 0: cell 12, not listed", poll, sizeof poll, ROADSIDE_NO_ENTRY);
}

int main(void)
{
    start();
    one_link();
    short_state();
    two_links();
    return failed || fflush(stdout) != 0;
}
