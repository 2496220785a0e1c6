/* Answers calls of the library, one after another, from standard input to
 * standard output: the real library in a process of its own. */
#include "calls.h"
#include "odl.h"

long read(int file, void *to, size_t count);
long write(int file, const void *from, size_t count);
void *malloc(size_t size);
void free(void *block);
void *memcpy(void *to, const void *from, size_t count);
void _exit(int status);

struct buffer {
    uint8_t *bytes;
    size_t length;
    uint8_t lent;
};

static void take(uint8_t *to, size_t count) {
    while (count > 0) {
        long n = read(0, to, count);
        if (n <= 0) {
            _exit(n < 0);
        }
        to += n;
        count -= (size_t)n;
    }
}

static void give(const uint8_t *from, size_t count) {
    while (count > 0) {
        long n = write(1, from, count);
        if (n <= 0) {
            _exit(1);
        }
        from += n;
        count -= (size_t)n;
    }
}

static size_t number(const uint8_t **at) {
    uint64_t n;
    memcpy(&n, *at, sizeof n);
    *at += sizeof n;
    return n;
}

/* A buffer in memory of its own, so that no call sees more than it is lent; NULL
 * where the caller's was. */
static struct buffer buffer_at(const uint8_t **at) {
    struct buffer b;
    uint8_t absent = *(*at)++;
    b.lent = *(*at)++;
    b.length = number(at);
    b.bytes = absent ? NULL : malloc(b.length + 1);
    if (b.length > 0) {
        memcpy(b.bytes, *at, b.length);
    }
    *at += b.length;
    return b;
}

static uint8_t answer(int call, size_t row, const struct buffer *b, size_t *first, size_t *second) {
    switch (call) {
    case CALL_READ:
        return odl_read(b[0].bytes, b[0].length, b[1].bytes, b[1].length, first, second);
    case CALL_WRITE:
        return odl_write(b[0].bytes, b[0].length, b[1].bytes, b[1].length, b[2].bytes, b[2].length, first, second);
    case CALL_TEXT:
        return odl_text(b[0].bytes, b[0].length, b[1].bytes, b[1].length, row, b[2].bytes, b[2].length, first, second);
    case CALL_FIND:
        return odl_find(b[0].bytes, b[0].length, b[1].bytes, b[1].length, b[2].bytes, b[2].length, row, first, second);
    case CALL_NAME:
        odl_name(b[0].bytes, b[0].length, b[1].bytes, b[1].length, row, first, second);
        return 0;
    case CALL_TAKE:
        return odl_take((struct odl_book *)b[0].bytes, b[1].bytes, b[1].length, b[2].bytes, b[2].length, first, second);
    default:
        _exit(1);
    }
    return 0;
}

/* Gives the code, the results and what was lent, in one run of bytes. */
static void reply(uint8_t code, size_t first, size_t second, const struct buffer *b, int count) {
    size_t size = ANSWER_HEAD;
    for (int i = 0; i < count; i++) {
        size += b[i].lent ? b[i].length : 0;
    }
    uint8_t *bytes = malloc(size), *at = bytes + ANSWER_HEAD;
    bytes[0] = code;
    memcpy(bytes + 1, &first, 8);
    memcpy(bytes + 9, &second, 8);
    for (int i = 0; i < count; i++) {
        if (b[i].lent && b[i].length > 0) {
            memcpy(at, b[i].bytes, b[i].length);
            at += b[i].length;
        }
    }
    give(bytes, size);
    free(bytes);
}

static void serve(const uint8_t *at) {
    struct buffer b[MOST_BUFFERS];
    size_t first = (size_t)-1, second = (size_t)-1;
    int call = *at++, count = buffers_of[call];
    size_t row = number(&at);
    for (int i = 0; i < count; i++) {
        b[i] = buffer_at(&at);
    }
    uint8_t code = answer(call, row, b, &first, &second);
    reply(code, first, second, b, count);
    for (int i = 0; i < count; i++) {
        free(b[i].bytes);
    }
}

int main(void) {
    for (;;) {
        uint64_t size;
        take((uint8_t *)&size, sizeof size);
        uint8_t *request = malloc(size);
        take(request, size);
        serve(request);
        free(request);
    }
}
