/* A planning office's program: it screens, judges, lists, loads, asks and writes a certificate, and prints what each call
 * answers. office.due has what it must print. The exit status is 0 if every call returned the number expected and changed nothing
 * that it must not change, and 1 otherwise. */
#include <stdio.h>
#include <string.h>

#include "certificates.h"
#include "dergvost.h"

static uint8_t state[DERGVOST_STATE];
static uint8_t before[DERGVOST_STATE]; /* the state's bytes before a call */
static uint8_t buffer[DERGVOST_LISTING];
static uint32_t report[DERGVOST_SHOWN]; /* long enough for every call */
static int failed;

/* Notes a thing that must hold. */
static void must(int holds, const char *what)
{
    if (!holds)
        printf("UNEXPECTED: %s\n", what);
    failed |= !holds;
}

/* Prints a report. The returned number is its first. */
static void tell(const char *what, uint32_t returned, uint32_t expected)
{
    printf("%s: number %u, A %u, B %u, count %u\n", what, (unsigned)report[DERGVOST_NUMBER], (unsigned)report[DERGVOST_A],
           (unsigned)report[DERGVOST_B], (unsigned)report[DERGVOST_COUNT]);
    must(returned == report[DERGVOST_NUMBER] && returned == expected, what);
}

/* The same of judge and load, which have a place more. */
static void tell_verdict(const char *what, uint32_t returned, uint32_t expected)
{
    tell(what, returned, expected);
    printf("  overflows %u\n", (unsigned)report[DERGVOST_OVERFLOWS]);
}

static void list(const char *what, const uint8_t *certificate, size_t len)
{
    size_t length;

    memset(buffer, '#', sizeof buffer);
    tell(what, dergvost_list(certificate, len, buffer, sizeof buffer, report, DERGVOST_REPORT), DERGVOST_DONE);
    length = report[DERGVOST_A];
    if (length < sizeof buffer) {
        fwrite(buffer, 1, length, stdout);
        must(buffer[length] == '#', "the byte behind the listing stays");
    } else
        must(0, "the listing is shorter than the buffer");
}

static void query(const char *what, uint32_t queue, uint32_t scale, uint32_t expected)
{
    tell(what, dergvost_query(state, sizeof state, &queue, 1, scale, report, DERGVOST_SHOWN), expected);
    printf("  signal %u, green %02X\n", (unsigned)report[DERGVOST_SIGNAL], (unsigned)report[DERGVOST_GREEN]);
}

/* The calls on bytes alone. */
static void bytes_alone(const char *name, const uint8_t *certificate, size_t len, uint32_t verdict)
{
    printf("%s\n", name);
    tell("screen", dergvost_screen(certificate, len, report, DERGVOST_REPORT), DERGVOST_DONE);
    tell_verdict("judge", dergvost_judge(certificate, len, report, DERGVOST_VERDICT), verdict);
    list("list", certificate, len);
}

/* The calls on a state. */
static void with_state(void)
{
    printf("a state\n");
    must(dergvost_fresh(state, sizeof state) == DERGVOST_DONE, "fresh");
    query("query before a load", 9, 2, DERGVOST_NO_CERTIFICATE);
    tell_verdict("load L", dergvost_load(state, sizeof state, certificate_l, sizeof certificate_l, report, DERGVOST_VERDICT),
                 DERGVOST_DONE);
    memcpy(before, state, sizeof state);
    tell_verdict("load L with 3 arrivals",
                 dergvost_load(state, sizeof state, busier_l, sizeof busier_l, report, DERGVOST_VERDICT), DERGVOST_NOT_LOWER);
    must(memcmp(state, before, sizeof state) == 0, "a refused load leaves the state");
    query("query 20 over 2", 20, 2, DERGVOST_DONE);
    query("query 21 over 2", 21, 2, DERGVOST_MISFIT);

    memset(buffer, '#', sizeof buffer);
    tell("write from 2 on", dergvost_write(state, sizeof state, buffer, 2 + sizeof certificate_l, 2, report, DERGVOST_REPORT),
         DERGVOST_DONE);
    must(memcmp(buffer + 2, certificate_l, sizeof certificate_l) == 0, "what is written is L");
    must(buffer[0] == '#' && buffer[1] == '#' && buffer[2 + sizeof certificate_l] == '#', "the bytes around it stay");
    tell("write from 3 on", dergvost_write(state, sizeof state, buffer, 2 + sizeof certificate_l, 3, report, DERGVOST_REPORT),
         DERGVOST_NO_ROOM);
}

/* A state one byte short: 18 from every call that takes one. */
static void short_state(void)
{
    const size_t len = sizeof state - 1;
    const uint32_t queue = 9;

    printf("a state one byte short\n");
    memcpy(before, state, sizeof state);
    memset(buffer, '#', sizeof buffer);
    must(dergvost_fresh(state, len) == DERGVOST_NO_CERTIFICATE, "fresh");
    tell_verdict("load", dergvost_load(state, len, certificate_l, sizeof certificate_l, report, DERGVOST_VERDICT),
                 DERGVOST_NO_CERTIFICATE);
    tell("query", dergvost_query(state, len, &queue, 1, 2, report, DERGVOST_SHOWN), DERGVOST_NO_CERTIFICATE);
    tell("write", dergvost_write(state, len, buffer, sizeof buffer, 0, report, DERGVOST_REPORT), DERGVOST_NO_CERTIFICATE);
    must(memcmp(state, before, sizeof state) == 0, "the state stays");
    must(buffer[0] == '#', "the buffer stays");
}

/* A report that is too short: 255, and nothing changes. The state is one byte short too: 255 comes first. */
static void too_short(const char *what, uint32_t returned)
{
    printf("%s: returned %u\n", what, (unsigned)returned);
    must(returned == DERGVOST_TOO_SHORT, what);
}

static void short_report(void)
{
    const uint8_t *l = certificate_l;
    const size_t len = sizeof certificate_l, less = sizeof state - 1, places = DERGVOST_REPORT - 1;
    const uint32_t queue = 9;
    uint32_t kept[DERGVOST_SHOWN];

    memset(report, 0x5A, sizeof report);
    memcpy(kept, report, sizeof kept);
    printf("a report one place short\n");
    too_short("screen", dergvost_screen(l, len, report, places));
    too_short("judge", dergvost_judge(l, len, report, DERGVOST_VERDICT - 1));
    too_short("list", dergvost_list(l, len, buffer, sizeof buffer, report, places));
    too_short("load", dergvost_load(state, less, l, len, report, DERGVOST_VERDICT - 1));
    too_short("query", dergvost_query(state, less, &queue, 1, 2, report, DERGVOST_SHOWN - 1));
    too_short("write", dergvost_write(state, less, buffer, sizeof buffer, 0, report, places));
    must(memcmp(report, kept, sizeof kept) == 0, "the report stays");
    must(memcmp(state, before, sizeof state) == 0, "the state stays");
    must(buffer[0] == '#', "the buffer stays");
}

int main(void)
{
    bytes_alone("L", certificate_l, sizeof certificate_l, DERGVOST_DONE);
    bytes_alone("L with 3 arrivals", busier_l, sizeof busier_l, DERGVOST_NOT_LOWER);
    bytes_alone("a red link", red_link, sizeof red_link, DERGVOST_DONE);
    with_state();
    short_state();
    short_report();
    return failed || fflush(stdout) != 0;
}
