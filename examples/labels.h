/* What the examples share: the label of a file, room for its table, and what a
 * refusal says. */
#ifndef LABELS_H
#define LABELS_H

#include <stdio.h>
#include <stdlib.h>

#include "odl.h"

/* By the code's number. */
static const char *const reasons[] = {
    "accepted",
    "the label is over 65,535 bytes",
    "a byte that begins no element, or is not allowed in its text, symbol or comment",
    "a text, symbol or comment that is not closed",
    "a word of no form, or an empty symbol",
    "a number, radix, digit, length, date or unit exponent past its limit",
    "an element that cannot stand there",
    "a closing name that is not the opening one",
    "OBJECT or GROUP at depth 80",
    "END without spacing or a line end after it",
    "the input ends early",
    "the room is too short",
    "the table is not proper over this label",
    "the written label would be over 65,535 bytes",
    "no attribute of that name",
    "not the offset of a row that is asked for",
    "the book is full",
};

/* One byte more than a label may have is enough to see that it is too long. */
static uint8_t label[ODL_LONGEST_LABEL + 1];
static size_t label_len;

/* Five times the label's length is always enough. */
static uint8_t table[5 * ODL_LONGEST_LABEL];

/* Puts the bytes of the file where the label is. */
static int load(const char *name) {
    FILE *file = fopen(name, "rb");
    if (file == NULL) {
        perror(name);
        return EXIT_FAILURE;
    }
    label_len = fread(label, 1, sizeof label, file);
    fclose(file);
    return EXIT_SUCCESS;
}

static int refused(const char *what, uint8_t code, size_t place) {
    printf("%s: refused with code %u at %zu: %s\n", what, code, place, reasons[code]);
    return EXIT_FAILURE;
}

#endif
