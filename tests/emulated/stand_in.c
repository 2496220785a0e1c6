/* The functions of odl.h, each handed to the real library in another
 * process: one for each thread, started at its first call. */
#include <stdio.h>
#include <stdlib.h>
#include <string.h>
#include <unistd.h>

#include "calls.h"
#include "odl.h"

/* A buffer, and where its bytes are handed back: NULL if it is only read. */
struct buffer {
    const uint8_t *bytes;
    size_t length;
    uint8_t *back;
};

static __thread int to_server = -1, from_server = -1;

static void fail(const char *what) {
    perror(what);
    abort();
}

static void start(void) {
    int asked[2], answered[2];
    if (pipe(asked) != 0 || pipe(answered) != 0) {
        fail("pipe");
    }
    pid_t child = fork();
    if (child < 0) {
        fail("fork");
    }
    if (child == 0) {
        dup2(asked[0], 0);
        dup2(answered[1], 1);
        /* no end of another thread's pipe may stay open here */
        for (int file = 3; file < 1024; file++) {
            close(file);
        }
        execl(RUNNER, RUNNER, SERVER, (char *)NULL);
        _exit(127);
    }
    close(asked[0]);
    close(answered[1]);
    to_server = asked[1];
    from_server = answered[0];
}

static void give(const uint8_t *from, size_t count) {
    while (count > 0) {
        ssize_t n = write(to_server, from, count);
        if (n <= 0) {
            fail("the library's process");
        }
        from += n;
        count -= (size_t)n;
    }
}

static void take(uint8_t *to, size_t count) {
    while (count > 0) {
        ssize_t n = read(from_server, to, count);
        if (n <= 0) {
            fail("the library's process");
        }
        to += n;
        count -= (size_t)n;
    }
}

static uint8_t *put(uint8_t *to, const void *from, size_t count) {
    if (count > 0) {
        memcpy(to, from, count);
    }
    return to + count;
}

static void ask(int call, uint64_t row, const struct buffer *b) {
    uint64_t size = 1 + 8;
    for (int i = 0; i < buffers_of[call]; i++) {
        size += 1 + 1 + 8 + b[i].length;
    }
    uint8_t *request = malloc(8 + size), number = (uint8_t)call;
    if (request == NULL) {
        fail("malloc");
    }
    uint8_t *at = put(put(put(request, &size, 8), &number, 1), &row, 8);
    for (int i = 0; i < buffers_of[call]; i++) {
        const uint8_t flags[] = {b[i].bytes == NULL, b[i].back != NULL};
        uint64_t length = b[i].length;
        at = put(put(put(at, flags, sizeof flags), &length, 8), b[i].bytes, b[i].length);
    }
    give(request, 8 + size);
    free(request);
}

static uint8_t hand_on(int call, size_t row, const struct buffer *b, size_t *first, size_t *second) {
    uint8_t head[ANSWER_HEAD];
    uint64_t results[2];
    if (to_server < 0) {
        start();
    }
    ask(call, row, b);
    take(head, sizeof head);
    for (int i = 0; i < buffers_of[call]; i++) {
        if (b[i].back != NULL) {
            take(b[i].back, b[i].length);
        }
    }
    memcpy(results, head + 1, sizeof results);
    *first = results[0];
    *second = results[1];
    return head[0];
}

uint8_t odl_read(const uint8_t *label, size_t label_len, uint8_t *table, size_t table_len,
                 size_t *place, size_t *length) {
    const struct buffer b[] = {{label, label_len, NULL}, {table, table_len, table}};
    return hand_on(CALL_READ, 0, b, place, length);
}

uint8_t odl_write(const uint8_t *label, size_t label_len, const uint8_t *table, size_t table_len,
                  uint8_t *out, size_t out_len, size_t *place, size_t *length) {
    const struct buffer b[] = {{label, label_len, NULL}, {table, table_len, NULL}, {out, out_len, out}};
    return hand_on(CALL_WRITE, 0, b, place, length);
}

uint8_t odl_text(const uint8_t *label, size_t label_len, const uint8_t *table, size_t table_len, size_t row,
                 uint8_t *out, size_t out_len, size_t *place, size_t *length) {
    const struct buffer b[] = {{label, label_len, NULL}, {table, table_len, NULL}, {out, out_len, out}};
    return hand_on(CALL_TEXT, row, b, place, length);
}

uint8_t odl_find(const uint8_t *label, size_t label_len, const uint8_t *table, size_t table_len,
                 const uint8_t *name, size_t name_len, size_t row, size_t *place, size_t *at) {
    const struct buffer b[] = {{label, label_len, NULL}, {table, table_len, NULL}, {name, name_len, NULL}};
    return hand_on(CALL_FIND, row, b, place, at);
}

void odl_name(const uint8_t *label, size_t label_len, const uint8_t *table, size_t table_len, size_t row,
              size_t *start_of, size_t *end) {
    const struct buffer b[] = {{label, label_len, NULL}, {table, table_len, NULL}};
    hand_on(CALL_NAME, row, b, start_of, end);
}

uint8_t odl_take(struct odl_book *book, const uint8_t *label, size_t label_len, uint8_t *table, size_t table_len,
                 size_t *place, size_t *length) {
    uint8_t *counts = (uint8_t *)book;
    const struct buffer b[] = {{counts, sizeof *book, counts}, {label, label_len, NULL}, {table, table_len, table}};
    return hand_on(CALL_TAKE, 0, b, place, length);
}
