/* The signal lookup of a street cabinet, in C. Archive: libroadside.a (x86-64 Linux).
 *
 * A certificate holds a signal policy for up to 8 links. It is loaded into a state, which is a plain array of bytes that the
 * caller owns. A poll hands over what the loop detectors of all links say, and is answered by the signal to show.
 *
 * Every call is answered by one 64-bit result. Its lowest byte is the number: 0 is success, anything else a refusal. A refusal
 * changes nothing, and the next call may follow at once. The macros below take a result apart.
 *
 * What the caller must see to:
 *   - No pointer is null, also where the length is 0. Each points to as many bytes as the length beside it says.
 *   - The state overlaps no other slice of the same call, and nothing else reads or changes it until the call returns.
 *   - There are ROADSIDE_STACK bytes of stack left.
 * Nothing is asked of the contents: any bytes are a state, a certificate, a poll or queues, and any number is a scale.
 *
 * Threads: the calls have no state of their own and allocate nothing. Calls on different states may run at the same time on
 * different threads; one state is used by one thread at a time.
 */
#ifndef ROADSIDE_H
#define ROADSIDE_H

#include <float.h>
#include <stddef.h>
#include <stdint.h>
#include <string.h>

#if FLT_RADIX != 2 || DBL_MANT_DIG != 53 || DBL_MAX_EXP != 1024
#error "roadside.h: a double is not an IEEE 754 number of 64 bits here"
#endif

#ifdef __cplusplus
extern "C" {
#endif

/* Bytes of a state: the array for a certificate, its length (high byte first), the mode. The array has room for the most
 * records of the greatest size: HD, LK, TN, SG, MD, GR, AR, EN, ZZ. */
#define ROADSIDE_ARRAY (9 + 8 * 14 + 32 * 7 + 16 * 3 + 8 * 20 + 8 * 31 + 8 * 34 + 4096 * 9 + 2)
#define ROADSIDE_LENGTH 8
#define ROADSIDE_MODE 1
#define ROADSIDE_STATE (ROADSIDE_ARRAY + ROADSIDE_LENGTH + ROADSIDE_MODE) /* 37,948 */

/* A poll has 18 bytes a link, links ascending: nine of the first detector, then nine of the second. */
#define ROADSIDE_DETECTOR 9
#define ROADSIDE_LINK (2 * ROADSIDE_DETECTOR)

/* A query has four bytes a link, links ascending. */
#define ROADSIDE_QUAD 4

/* The most links of a certificate. */
#define ROADSIDE_LINKS 8

/* Stack that is enough for every call, in bytes, with room to spare: measured were, with an older version of the kit, 186,000 for a
 * load and 40,000 for a query or a poll. */
#define ROADSIDE_STACK (512 * 1024)

/* The number of a result. Where A, B and count name something, the line says so; they are 0 otherwise. */
enum roadside_number {
    ROADSIDE_DONE = 0, /* success; a load: count = successors looked up, and overflows below */

    /* the certificate of a load is refused */
    ROADSIDE_CUT_SHORT = 1,      /* fewer bytes than the due record or its mark needs; A = offset of its start */
    ROADSIDE_WRONG_MARK = 2,     /* wrong mark, or a byte after ZZ; A = that offset */
    ROADSIDE_BAD_HEADER = 3,     /* a field of HD, H2 or H3 is out of range; A = offset of the record, as for 4 to 9, 22 to 24 */
    ROADSIDE_BAD_LINK = 4,       /* a field of an LK, in H2 and H3 its start flow too */
    ROADSIDE_BAD_TURN = 5,       /* a field of a TN, its order, or its link's shares above 100 */
    ROADSIDE_BAD_SIGNAL = 6,     /* the green byte of an SG, or a field of an MD */
    ROADSIDE_BAD_GRID = 7,       /* the count or a cut of a GR */
    ROADSIDE_BAD_ARRIVALS = 8,   /* a low or a high of an AR */
    ROADSIDE_BAD_ENTRY = 9,      /* an EN names a missing cell, mode, signal or next mode */
    ROADSIDE_BAD_ORDER = 22,     /* its names exist, and its pair of cell and mode is not above that of the EN before it */
    ROADSIDE_BAD_MEMORY = 23,    /* H2, H3: its pair is above, and its next mode's MD names a signal other than its own */
    ROADSIDE_BAD_GOAL_NUMBER = 24, /* H3: it names its own, and that mode has another goal number than the rank asks for */
    ROADSIDE_PULL_TOO_HIGH = 10, /* pull sum of a link too high; A = signal, B = link */
    ROADSIDE_FLOW_TOO_HIGH = 11, /* flow condition of a turn fails; A = turn */
    ROADSIDE_NOT_SAFE = 12,      /* an entry's cell is not safe; A = entry, count before it */
    ROADSIDE_WRONG_GOAL = 13,    /* rank 0 without goal, or goal without rank 0; A = entry, count before it */
    ROADSIDE_NOT_LISTED = 14,    /* a successor is not listed; A = entry, B = cell, count with it */
    ROADSIDE_NOT_LOWER = 15,     /* a successor's rank is not lower; A = entry, B = cell, count with it */

    /* a query or a poll is refused; 18 also answers fresh and load */
    ROADSIDE_MISFIT = 16,         /* poll: not 18 bytes a link, or a detector opens with neither 0 nor 1;
                                     query: not 4 bytes a link, scale not 1 to 100,000, or a queue above cap * scale */
    ROADSIDE_NO_CERTIFICATE = 18, /* the state holds none, or its slice has not ROADSIDE_STATE bytes */
    ROADSIDE_NO_ENTRY = 19,       /* no entry for the queues' cell in the state's mode */
    ROADSIDE_BAD_READING = 20,    /* poll: a reading is not a number, below zero or above cap; A = link */
    ROADSIDE_NO_READING = 21      /* poll: both detectors of a link report faults; A = link */
};

/* The parts of a result. The number, of every call: */
#define ROADSIDE_NUMBER(result) ROADSIDE_PART(result, 0, 0xFF)

/* of a query and a poll (B is always 0; bit i of the green byte, of value 2 to the i, is set when link i is green): */
#define ROADSIDE_A(result) ROADSIDE_PART(result, 8, 0xFF)
#define ROADSIDE_COUNT(result) ROADSIDE_PART(result, 16, 0xFF)
#define ROADSIDE_SIGNAL(result) ROADSIDE_PART(result, 24, 0xFF)
#define ROADSIDE_GREEN(result) ROADSIDE_PART(result, 32, 0xFF)

/* of a load: */
#define ROADSIDE_LOAD_A(result) ROADSIDE_PART(result, 8, 0xFFFF)
#define ROADSIDE_LOAD_B(result) ROADSIDE_PART(result, 24, 0xFFF)
#define ROADSIDE_LOAD_COUNT(result) ROADSIDE_PART(result, 36, 0xFFFFFFF)

/* of a load whose number is 0, which has no A: entries under which a link may exceed its cap, so that arrivals are turned away: */
#define ROADSIDE_LOAD_OVERFLOWS(result) ROADSIDE_PART(result, 8, 0xFFFF)

#define ROADSIDE_PART(result, shift, mask) ((unsigned)((uint64_t)(result) >> (shift) & (mask)))

/* Makes the bytes a fresh state: mode 0, no certificate. Refused with 18. The result is the number alone. */
uint64_t roadside_fresh(uint8_t *state, size_t state_len);

/* Judges a certificate; an accepted one is copied into the state, in place of what was there, and the mode is 0. It may be
 * called in any state. Refused with 18 for the state's length, then with 1 to 9, 22 to 24, then with 10 to 15. */
uint64_t roadside_load(uint8_t *state, size_t state_len, const uint8_t *certificate, size_t certificate_len);

/* Looks up the signal for queues that are whole numbers over one scale (roadside_put_quad), and passes to the next mode.
 * Refused with 18, 16, 19, in this order. */
uint64_t roadside_query(uint8_t *state, size_t state_len, const uint8_t *queues, size_t queues_len, uint32_t scale);

/* Looks up the signal for a poll of all detectors (roadside_put_queue, roadside_put_fault), and passes to the next mode. The
 * queue of a link is the larger of its readings that are present, taken exactly. Refused with 18, 16, then link by link
 * ascending with 20 or 21, then with 19. */
uint64_t roadside_poll(uint8_t *state, size_t state_len, const uint8_t *poll, size_t poll_len);

/* Puts a detector that gives a queue into a poll: nine bytes at `at`. */
static inline void roadside_put_queue(uint8_t *at, double queue)
{
    uint64_t bits;
    int i;

    memcpy(&bits, &queue, sizeof bits);
    at[0] = 0;
    for (i = 0; i < 8; i++)
        at[1 + i] = (uint8_t)(bits >> (56 - 8 * i) & 0xFF);
}

/* Puts a detector that reports a fault into a poll: nine bytes at `at`. The seven last are not read by the call. */
static inline void roadside_put_fault(uint8_t *at, uint8_t code)
{
    memset(at, 0, ROADSIDE_DETECTOR);
    at[0] = 1;
    at[1] = code;
}

/* Puts a queue of a query: four bytes at `at`. */
static inline void roadside_put_quad(uint8_t *at, uint32_t queue)
{
    int i;

    for (i = 0; i < ROADSIDE_QUAD; i++)
        at[i] = (uint8_t)(queue >> (24 - 8 * i) & 0xFF);
}

#ifdef __cplusplus
}
#endif

#endif
