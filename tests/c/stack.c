/* How much stack a call takes at most, over labels and tables that drive each
 * function deepest and longest; include/odl.h promises a bound. Each call runs
 * in a thread whose stack was painted beforehand: the lowest byte that lost
 * its paint tells. */
#define _POSIX_C_SOURCE 200809L
#include <pthread.h>
#include <stdio.h>
#include <stdlib.h>
#include <string.h>

#include "odl.h"

#define PROMISED (64 * 1024)
#define STACK (1024 * 1024)
#define PAINT 0xC5

static uint8_t label[ODL_LONGEST_LABEL];
static size_t label_len;
static uint8_t table[5 * ODL_LONGEST_LABEL];
static size_t table_len;
static uint8_t room[5 * ODL_LONGEST_LABEL];
static size_t row;
static struct odl_book book;
static size_t place, length;
static uint8_t code;

static void *nothing(void *unused) {
    return unused;
}

static void *reading(void *unused) {
    code = odl_read(label, label_len, room, sizeof room, &place, &length);
    return unused;
}

static void *writing(void *unused) {
    code = odl_write(label, label_len, table, table_len, room, sizeof room, &place, &length);
    return unused;
}

static void *texting(void *unused) {
    code = odl_text(label, label_len, table, table_len, row, room, sizeof room, &place, &length);
    return unused;
}

static void *finding(void *unused) {
    code = odl_find(label, label_len, table, table_len, (const uint8_t *)"Z", 1, row, &place,
                    &length);
    return unused;
}

static void *naming(void *unused) {
    odl_name(label, label_len, table, table_len, row, &place, &length);
    return unused;
}

static void *taking(void *unused) {
    code = odl_take(&book, label, label_len, room, sizeof room, &place, &length);
    return unused;
}

static void stop(const char *what) {
    printf("failed: %s\n0 passed, 1 failed\n", what);
    exit(EXIT_FAILURE);
}

/* The bytes of stack that a thread with this one call has touched. */
static size_t touched(void *(*call)(void *)) {
    static uint8_t *stack;
    pthread_attr_t attributes;
    pthread_t thread;
    size_t at = 0;
    if (stack == NULL && posix_memalign((void **)&stack, 4096, STACK) != 0) {
        stop("no memory for a stack");
    }
    memset(stack, PAINT, STACK);
    if (pthread_attr_init(&attributes) != 0
        || pthread_attr_setstack(&attributes, stack, STACK) != 0
        || pthread_create(&thread, &attributes, call, NULL) != 0
        || pthread_join(thread, NULL) != 0) {
        stop("no thread");
    }
    while (at < STACK && stack[at] == PAINT) {
        at++;
    }
    return STACK - at;
}

static size_t put(size_t at, const char *bytes) {
    memcpy(label + at, bytes, strlen(bytes));
    return at + strlen(bytes);
}

/* A label of this beginning, this filling over and over, and this end. */
static void fill(const char *before, const char *filling, size_t times, const char *after) {
    size_t at = put(0, before);
    while (times-- > 0 && at + strlen(filling) + strlen(after) <= sizeof label) {
        at = put(at, filling);
    }
    label_len = put(at, after);
}

/* 80 blocks within each other, the most that there may be. */
static void nest(void) {
    size_t at = 0, depth;
    for (depth = 0; depth < 80; depth++) {
        at = put(at, "GROUP=A ");
    }
    at = put(at, "B=\"x\" ");
    for (depth = 0; depth < 80; depth++) {
        at = put(at, "END_GROUP ");
    }
    label_len = put(at, "Z=1 END");
}

static size_t most, base;
static unsigned passed, failed;

static void measure(const char *name, const char *shape, void *(*call)(void *), uint8_t expected) {
    size_t taken;
    code = 99;
    taken = touched(call) - base;
    if (taken > most) {
        most = taken;
    }
    if (taken <= PROMISED && code == expected) {
        passed++;
    } else {
        failed++;
        printf("failed: %s on %s: %zu bytes of stack, code %u\n", name, shape, taken, code);
    }
}

/* The label taken into an empty book, and into a full one. */
static void measure_takings(const char *shape, uint8_t reads_with) {
    memset(&book, 0, sizeof book);
    measure("odl_take", shape, taking, reads_with);
    book.counts[ODL_AT_MONDAY] = ODL_MOST_SESSIONS;
    measure("odl_take with a full book", shape, taking,
            reads_with == ODL_ACCEPTED ? ODL_BOOK_FULL : reads_with);
}

/* All calls over the label as it stands. Rows of the table are a block or an
 * attribute first; the last of it is row 99. */
static void measure_all(const char *shape, uint8_t reads_with, uint8_t writes_with, size_t text,
                        uint8_t finds_with) {
    measure_takings(shape, reads_with);
    measure("odl_read", shape, reading, reads_with);
    if (reads_with == ODL_ACCEPTED) {
        memcpy(table, room, length);
        table_len = length;
        measure("odl_write", shape, writing, writes_with);
        row = text;
        measure("odl_text", shape, texting, text == 0 ? ODL_NO_SUCH_ROW : ODL_ACCEPTED);
        row = 0;
        measure("odl_find", shape, finding, finds_with);
        measure("odl_name", shape, naming, 99);
    }
}

int main(void) {
    base = touched(nothing);
    nest();
    measure_all("80 blocks", ODL_ACCEPTED, ODL_ACCEPTED, 80 * 5 + 5, ODL_ACCEPTED);
    fill("", "OBJECT=A ", 81, "END");
    measure_all("81 blocks", ODL_TOO_DEEP, 0, 0, 0);
    fill("A=(", "1,", 65535, "1)END");
    measure_all("a long sequence", ODL_ACCEPTED, ODL_WRITTEN_TOO_LONG, 0, ODL_NAME_ABSENT);
    /* Each row takes 5 bytes when it is written. */
    fill("A=((", "1),(", 13000, "1))END");
    measure_all("a long sequence of sequences", ODL_ACCEPTED, ODL_ACCEPTED, 0, ODL_NAME_ABSENT);
    fill("A=\"", "x-\n ", 65535, "\" END");
    measure_all("a long text", ODL_ACCEPTED, ODL_ACCEPTED, 5, ODL_NAME_ABSENT);
    fill("A=1<", "B*", 30000, "B> END");
    measure_all("many units", ODL_ACCEPTED, ODL_ACCEPTED, 0, ODL_NAME_ABSENT);
    fill("A=0.", "0", 65535, "7 END");
    measure_all("a long number", ODL_PAST_LIMIT, 0, 0, 0);
    fill("A=10:00:00.5", "0", 65535, " END");
    measure_all("a long time", ODL_ACCEPTED, ODL_ACCEPTED, 0, ODL_NAME_ABSENT);
    fill("/*", "*", 65535, "*/\nEND");
    measure_all("a long comment", ODL_ACCEPTED, ODL_ACCEPTED, 0, ODL_NAME_ABSENT);
    fill("", "A=-12.5E-3<M> ", 3000, "END");
    measure_all("many statements", ODL_ACCEPTED, ODL_ACCEPTED, 0, ODL_NAME_ABSENT);
    /* Four reals take 76 bytes when they are written. */
    fill("A=(", "1E-18,-15E-18,1E17,1E-999,", 800, "1.)END");
    measure_all("many reals", ODL_ACCEPTED, ODL_ACCEPTED, 0, ODL_NAME_ABSENT);
    fill("", "A=-12.5E-3<M> ", 3000, "START_TIME=9999-365T23:59:59.999999999-12:59 END");
    measure_takings("a late START_TIME", ODL_ACCEPTED);
    printf("the most stack that a call took: %zu bytes of %d\n", most, PROMISED);
    if (most < 1024) {
        stop("the paint does not tell");
    }
    printf("%u passed, %u failed\n", passed, failed);
    return failed != 0;
}
