/* Counts label files by the weekday of their START_TIME, for a rota: takes each
 * of them into a session book. */
#include <stdio.h>
#include <stdlib.h>

#include "labels.h"
#include "odl.h"

static const char *const counters[] = {
    "Monday", "Tuesday", "Wednesday", "Thursday", "Friday", "Saturday", "Sunday", "undated",
};

/* Takes the file's label into the book. */
static int take_file(struct odl_book *book, const char *name) {
    if (load(name) != EXIT_SUCCESS) {
        return EXIT_FAILURE;
    }
    size_t place, length;
    uint8_t code = odl_take(book, label, label_len, table, sizeof table, &place, &length);
    return code == ODL_ACCEPTED ? EXIT_SUCCESS : refused(name, code, place);
}

int main(int count, char **words) {
    struct odl_book book = {{0}};
    int status = EXIT_SUCCESS;
    for (int i = 1; i < count; i++) {
        if (take_file(&book, words[i]) != EXIT_SUCCESS) {
            status = EXIT_FAILURE;
        }
    }
    for (int i = ODL_AT_MONDAY; i <= ODL_AT_UNDATED; i++) {
        printf("%s %lu\n", counters[i], (unsigned long)book.counts[i]);
    }
    return status;
}
