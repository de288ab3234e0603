/* The checker of signal policy certificates, in C. Archive: libexports.a (x86-64 Linux).
 *
 * A certificate is screened, judged or listed as bytes; or it is loaded into a state, which is a plain array of bytes that the
 * caller owns, and then asked for signals and written out again.
 *
 * Every call but dergvost_fresh is lent a report, a slice of 32-bit numbers. It is filled on refusal too, in this order:
 * number, A, B, count; for judge and load overflows; for a query signal and green byte. Further places stay as they were.
 * Every call returns the number: 0 is success, anything else a refusal, which changes nothing but the report. A report that is
 * too short gets DERGVOST_TOO_SHORT, before every other test, and nothing changes at all.
 *
 * What the caller must see to:
 *   - No pointer is null, also where the length is 0. Each points to as many elements as the length beside it says; 32-bit
 *     numbers are aligned.
 *   - A slice that the call changes overlaps no other slice of the same call, and nothing else reads or changes it until the
 *     call returns.
 *   - There are DERGVOST_STACK bytes of stack left.
 * Nothing is asked of the contents: any bytes are a state or a certificate, and any number is a queue, a scale or a start.
 *
 * Threads: the calls have no state of their own and allocate nothing. Calls on different slices may run at the same time on
 * different threads; one state is used by one thread at a time.
 */
#ifndef DERGVOST_H
#define DERGVOST_H

#include <stddef.h>
#include <stdint.h>

#ifdef __cplusplus
extern "C" {
#endif

/* Bytes of a state: the array for a certificate, its length (high byte first), the mode. The array has room for the most
 * records of the greatest size: HD, LK, TN, SG, MD, GR, AR, EN, ZZ. */
#define DERGVOST_ARRAY (9 + 8 * 14 + 32 * 7 + 16 * 3 + 8 * 20 + 8 * 31 + 8 * 34 + 4096 * 9 + 2)
#define DERGVOST_LENGTH 8
#define DERGVOST_MODE 1
#define DERGVOST_STATE (DERGVOST_ARRAY + DERGVOST_LENGTH + DERGVOST_MODE) /* 37,948 */

/* A buffer of this many bytes has room for every listing, and one of DERGVOST_ARRAY for every certificate. */
#define DERGVOST_LISTING 94293

/* Stack that is enough for every call, in bytes, with room to spare: measured were, with an older version of the kit, 224,000 for a
 * load, 186,000 for judge and list, and 40,000 for a query or a write. */
#define DERGVOST_STACK (512 * 1024)

/* Places of a report, of a report of judge and load, and of a query's report. */
#define DERGVOST_REPORT 4
#define DERGVOST_VERDICT 5
#define DERGVOST_SHOWN 6

/* Where the parts of a report stand. */
enum dergvost_place {
    DERGVOST_NUMBER = 0,
    DERGVOST_A = 1,
    DERGVOST_B = 2,
    DERGVOST_COUNT = 3,
    DERGVOST_OVERFLOWS = 4, /* of judge and load: entries under which a link may exceed its cap, so that arrivals are turned
                               away; 0 on refusal */
    DERGVOST_SIGNAL = 4,    /* of a query; 0 on refusal */
    DERGVOST_GREEN = 5      /* of a query: bit i, of value 2 to the i, is set when link i is green; 0 on refusal */
};

/* The number of a report. Where A, B and count name something, the line says so; they are 0 otherwise. */
enum dergvost_number {
    DERGVOST_DONE = 0, /* success; judge and load: count = successors looked up; list and write: A = bytes written */

    /* screen, judge and load: the certificate is refused by reading (1 to 9, 22 to 24) or the two conditions */
    DERGVOST_CUT_SHORT = 1,      /* fewer bytes than the due record or its mark needs; A = offset of its start */
    DERGVOST_WRONG_MARK = 2,     /* wrong mark, or a byte after ZZ; A = that offset */
    DERGVOST_BAD_HEADER = 3,     /* a field of HD, H2 or H3 is out of range; A = offset of the record, as for 4 to 9, 22 to 24 */
    DERGVOST_BAD_LINK = 4,       /* a field of an LK, in H2 and H3 its start flow too */
    DERGVOST_BAD_TURN = 5,       /* a field of a TN, its order, or its link's shares above 100 */
    DERGVOST_BAD_SIGNAL = 6,     /* the green byte of an SG, or a field of an MD */
    DERGVOST_BAD_GRID = 7,       /* the count or a cut of a GR */
    DERGVOST_BAD_ARRIVALS = 8,   /* a low or a high of an AR */
    DERGVOST_BAD_ENTRY = 9,      /* an EN names a missing cell, mode, signal or next mode */
    DERGVOST_BAD_ORDER = 22,     /* its names exist, and its pair of cell and mode is not above that of the EN before it */
    DERGVOST_BAD_MEMORY = 23,    /* H2, H3: its pair is above, and its next mode's MD names a signal other than its own */
    DERGVOST_BAD_GOAL_NUMBER = 24, /* H3: it names its own, and that mode has another goal number than the rank asks for */
    DERGVOST_PULL_TOO_HIGH = 10, /* pull sum of a link too high; A = signal, B = link */
    DERGVOST_FLOW_TOO_HIGH = 11, /* flow condition of a turn fails; A = turn */

    /* judge and load: an entry breaks the claim */
    DERGVOST_NOT_SAFE = 12,   /* its cell is not safe; A = entry, count before it */
    DERGVOST_WRONG_GOAL = 13, /* rank 0 without goal, or goal without rank 0; A = entry, count before it */
    DERGVOST_NOT_LISTED = 14, /* a successor is not listed; A = entry, B = cell, count with it */
    DERGVOST_NOT_LOWER = 15,  /* a successor's rank is not lower; A = entry, B = cell, count with it */

    /* the calls on a state and on a buffer */
    DERGVOST_MISFIT = 16,         /* query: scale not 1 to 100,000, not one queue a link, or a queue above cap * scale */
    DERGVOST_NO_ROOM = 17,        /* write: the buffer from start on is too short; list: the buffer is too short */
    DERGVOST_NO_CERTIFICATE = 18, /* query, write: the state holds none; fresh, load, query, write: the state's slice has
                                     not DERGVOST_STATE bytes */
    DERGVOST_NO_ENTRY = 19,       /* query: no entry for the queues' cell in the state's mode */

    /* returned, never reported */
    DERGVOST_TOO_SHORT = 255 /* the report has too few places */
};

/* The tests before 12. Refused with 1 to 9, 22 to 24, then with 10 and 11. */
uint32_t dergvost_screen(const uint8_t *certificate, size_t certificate_len, uint32_t *report, size_t report_len);

/* The verdict. Its report has 5 places. Refused with 1 to 9, 22 to 24, then with 10 to 15. */
uint32_t dergvost_judge(const uint8_t *certificate, size_t certificate_len, uint32_t *report, size_t report_len);

/* Puts the listing into the front of a buffer, of a refused certificate too; A is its length. Refused with 17. */
uint32_t dergvost_list(const uint8_t *certificate, size_t certificate_len, uint8_t *buffer, size_t buffer_len,
                       uint32_t *report, size_t report_len);

/* Makes the bytes a fresh state: mode 0, no certificate. Refused with 18. It has no report. */
uint32_t dergvost_fresh(uint8_t *state, size_t state_len);

/* Judges a certificate; an accepted one is copied into the state, in place of what was there, and the mode is 0. It may be
 * called in any state. Its report has 5 places. Refused with 18 for the state's length, then as judge. */
uint32_t dergvost_load(uint8_t *state, size_t state_len, const uint8_t *certificate, size_t certificate_len,
                       uint32_t *report, size_t report_len);

/* Looks up the signal for queues that are whole numbers over one scale, one a link, and passes to the next mode. Its report
 * has 6 places. Refused with 18, 16, 19, in this order. */
uint32_t dergvost_query(uint8_t *state, size_t state_len, const uint32_t *queues, size_t queues_len, uint32_t scale,
                        uint32_t *report, size_t report_len);

/* Puts the certificate that is held into a buffer from start on; every other byte stays, and A is the certificate's length.
 * Refused with 18, 17, in this order. */
uint32_t dergvost_write(const uint8_t *state, size_t state_len, uint8_t *buffer, size_t buffer_len, size_t start,
                        uint32_t *report, size_t report_len);

#ifdef __cplusplus
}
#endif

#endif
