/* Labels that the reader refuses: one or more for each of its codes but 11, with
 * code and place worked out by hand. */
#ifndef REFUSALS_H
#define REFUSALS_H

#include <string.h>

#include "odl.h"

/* A refused label, the name and the number of its code, and the place. */
struct refusal {
    const char *label;
    size_t length;
    enum odl_code code;
    uint8_t number;
    size_t place;
};

#define REFUSAL(label, code, number, place) {label, sizeof label - 1, code, number, place}

static const struct refusal refusals[] = {
    REFUSAL("A=& END", ODL_BAD_BYTE, 2, 2),
    REFUSAL("A=\"x\x80\" END", ODL_BAD_BYTE, 2, 2),
    REFUSAL("A=1 /*/ END", ODL_LEFT_OPEN, 3, 4),
    REFUSAL("A='' END", ODL_NO_FORM, 4, 2),
    REFUSAL("A=1990-366 END", ODL_PAST_LIMIT, 5, 2),
    REFUSAL("A=() END", ODL_MISPLACED, 6, 3),
    REFUSAL("OBJECT=X END_OBJECT=Y END", ODL_OTHER_NAME, 7, 20),
    REFUSAL("END;", ODL_END_NOT_SET_OFF, 9, 0),
    REFUSAL("A=1 ", ODL_ENDS_EARLY, 10, 4),
};

/* Tries each of them, and those that are too long to be written out. */
static void each_refusal(void (*try)(const struct refusal *)) {
    static char wide[ODL_LONGEST_LABEL + 1] = "END ";
    char nested[81 * 9 + 1] = "";
    const struct refusal too_long = {wide, sizeof wide, ODL_LABEL_TOO_LONG, 1, 65535};
    /* 80 blocks are right, so the fault is at the word of the 81st. */
    const struct refusal too_deep = {nested, 81 * 9, ODL_TOO_DEEP, 8, 80 * 9};
    const struct refusal ends_early = {nested, 80 * 9, ODL_ENDS_EARLY, 10, 80 * 9};
    size_t at;
    for (at = 0; at < 81; at++) {
        strcat(nested, "OBJECT=X ");
    }
    for (at = 0; at < sizeof refusals / sizeof *refusals; at++) {
        try(&refusals[at]);
    }
    try(&too_long);
    try(&too_deep);
    try(&ends_early);
}

#endif
