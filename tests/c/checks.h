/* Counts checks; lends room with bytes on either side of it that are not lent,
 * and tells what a call has touched; notes the codes that calls answer. */
#ifndef CHECKS_H
#define CHECKS_H

#include <stdio.h>
#include <string.h>

#include "odl.h"

static unsigned passed, failed;

static void check(int holds, const char *what, int line) {
    if (holds) {
        passed++;
    } else {
        failed++;
        printf("failed: line %d: %s\n", line, what);
    }
}

#define CHECK(holds) check((holds), #holds, __LINE__)

/* The lent room, with bytes on either side of it that are not lent. All of it
 * holds a pattern before each call, so that a byte moved or cleared shows. */
#define AROUND 64
#define LONGEST_ROOM 1024
static uint8_t memory[AROUND + LONGEST_ROOM + AROUND];
static uint8_t *const room = memory + AROUND;

static uint8_t pattern(size_t at) {
    return (uint8_t)(at * 37 ^ at >> 8 ^ 0xA5);
}

/* True if the room holds these bytes and nothing else was touched. */
static int holds(const void *bytes, size_t length) {
    size_t at;
    for (at = 0; at < sizeof memory; at++) {
        int inside = at >= AROUND && at < AROUND + length;
        uint8_t expected = inside ? ((const uint8_t *)bytes)[at - AROUND] : pattern(at);
        if (memory[at] != expected) {
            return 0;
        }
    }
    return 1;
}

static int untouched(void) {
    return holds(NULL, 0);
}

/* The two results of the last call; every call must set both. */
#define UNSET ((size_t)-77)
static size_t place, length;

static void prepare(void) {
    size_t at;
    for (at = 0; at < sizeof memory; at++) {
        memory[at] = pattern(at);
    }
    place = length = UNSET;
}

static int results(size_t wanted_place, size_t wanted_length) {
    return place == wanted_place && length == wanted_length;
}

/* Notes a code among those that a function has answered, one bit for each. */
static uint8_t noted(unsigned long *codes, uint8_t code) {
    *codes |= 1ul << code;
    return code;
}

/* The bits of these codes; the list ends with 99. */
static unsigned long bits(const int *codes) {
    unsigned long all = 0;
    for (; *codes != 99; codes++) {
        all |= 1ul << *codes;
    }
    return all;
}

/* Prints how many checks passed, and gives the program's status. */
static int ended(void) {
    printf("%u passed, %u failed\n", passed, failed);
    return failed != 0;
}

#endif
