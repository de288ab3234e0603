/* The certificates of the examples, record by record (docs/FORMAT.md). */
#ifndef CERTIFICATES_H
#define CERTIFICATES_H

#include <stdint.h>

/* L: one link, cap 10, flow 6, safe 10, goal 5; cells 0 to 5, 5 to 8, 8 to 10; one mode; every cell shows signal 0, green 01 */
static const uint8_t certificate_l[] = {
    0x48, 0x44, 1, 0, 1, 1, 1, 0, 3,            /* HD: links, turns, signals, modes, arrival boxes, entries */
    0x4C, 0x4B, 0, 1, 0, 10, 0, 6, 0, 10, 0, 5, /* LK: tail, head, cap, flow, safe, goal */
    0x53, 0x47, 0x01,                           /* SG: green byte */
    0x47, 0x52, 3, 0, 5, 0, 8,                  /* GR: intervals, cuts */
    0x41, 0x52, 0, 0, 0, 2,                     /* AR: low, high */
    0x45, 0x4E, 0, 0, 0, 0, 0, 0, 0,            /* EN: cell, mode, signal, next mode, rank */
    0x45, 0x4E, 0, 1, 0, 0, 0, 0, 1,
    0x45, 0x4E, 0, 2, 0, 0, 0, 0, 2,
    0x5A, 0x5A,                                 /* ZZ */
};

/* L with up to 3 arrivals a step: refused with 15, A = entry 1, B = cell 1, count 3 */
static const uint8_t busier_l[] = {
    0x48, 0x44, 1, 0, 1, 1, 1, 0, 3,
    0x4C, 0x4B, 0, 1, 0, 10, 0, 6, 0, 10, 0, 5,
    0x53, 0x47, 0x01,
    0x47, 0x52, 3, 0, 5, 0, 8,
    0x41, 0x52, 0, 0, 0, 3,
    0x45, 0x4E, 0, 0, 0, 0, 0, 0, 0,
    0x45, 0x4E, 0, 1, 0, 0, 0, 0, 1,
    0x45, 0x4E, 0, 2, 0, 0, 0, 0, 2,
    0x5A, 0x5A,
};

/* cases/two-junctions.txt, the worked example of README.md: cell 4 * i + j has link 0 in its interval i and link 1 in its
 * interval j. Signal 0 shows green 03, signal 1 green 02 (link 1 alone). Cells with 30 or more on a link are not listed. */
static const uint8_t two_junctions[] = {
    0x48, 0x44, 2, 1, 2, 1, 1, 0, 9,
    0x4C, 0x4B, 0, 1, 0, 40, 0, 12, 0, 30, 0, 10,
    0x4C, 0x4B, 1, 2, 0, 40, 0, 12, 0, 30, 0, 10,
    0x54, 0x4E, 0, 1, 50, 0, 150,               /* TN: from, to, share, pull */
    0x53, 0x47, 0x03,
    0x53, 0x47, 0x02,
    0x47, 0x52, 4, 0, 10, 0, 20, 0, 30,
    0x47, 0x52, 4, 0, 10, 0, 20, 0, 30,
    0x41, 0x52, 0, 0, 0, 1, 0, 0, 0, 1,
    0x45, 0x4E, 0, 0, 0, 0, 0, 0, 0,
    0x45, 0x4E, 0, 1, 0, 1, 0, 0, 2,
    0x45, 0x4E, 0, 2, 0, 1, 0, 0, 4,
    0x45, 0x4E, 0, 4, 0, 0, 0, 0, 1,
    0x45, 0x4E, 0, 5, 0, 1, 0, 0, 3,
    0x45, 0x4E, 0, 6, 0, 1, 0, 0, 5,
    0x45, 0x4E, 0, 8, 0, 0, 0, 0, 2,
    0x45, 0x4E, 0, 9, 0, 0, 0, 0, 4,
    0x45, 0x4E, 0, 10, 0, 0, 0, 0, 6,
    0x5A, 0x5A,
};

/* A link that stays red, cap 10, goal and safe 10, with up to 1 arrival a step: accepted, and its one entry may turn an arrival
 * away */
static const uint8_t red_link[] = {
    0x48, 0x44, 1, 0, 1, 1, 1, 0, 1,
    0x4C, 0x4B, 0, 1, 0, 10, 0, 6, 0, 10, 0, 10,
    0x53, 0x47, 0x00,
    0x47, 0x52, 1,
    0x41, 0x52, 0, 0, 0, 1,
    0x45, 0x4E, 0, 0, 0, 0, 0, 0, 0,
    0x5A, 0x5A,
};

#endif
