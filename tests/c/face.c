/* Calls the functions on labels and tables through include/odl.h: the header's
 * numbers, the answers and the lent room against values worked out by hand from
 * the documents. Each number of the header comes back from a real call; those
 * of the session book in book.c. */
#include "checks.h"
#include "refusals.h"

/* Which codes each function has answered, one bit for each. */
static unsigned long read_codes, write_codes, text_codes, find_codes;

static uint8_t reads(const void *label, size_t label_len, size_t room_len) {
    prepare();
    return noted(&read_codes, odl_read(label, label_len, room, room_len, &place, &length));
}

static uint8_t writes(const void *label, size_t label_len, const uint8_t *table, size_t table_len,
                      size_t room_len) {
    prepare();
    return noted(&write_codes,
                 odl_write(label, label_len, table, table_len, room, room_len, &place, &length));
}

static uint8_t texts(const void *label, size_t label_len, const uint8_t *table, size_t table_len,
                     size_t row, size_t room_len) {
    prepare();
    return noted(&text_codes, odl_text(label, label_len, table, table_len, row, room, room_len,
                                       &place, &length));
}

/* `length` is the offset of the row that is found. */
static uint8_t finds(const void *label, size_t label_len, const uint8_t *table, size_t table_len,
                     const char *name, size_t row) {
    prepare();
    return noted(&find_codes, odl_find(label, label_len, table, table_len, (const uint8_t *)name,
                                       strlen(name), row, &place, &length));
}

/* `place` and `length` are start and end of the name. */
static void names(const void *label, size_t label_len, const uint8_t *table, size_t table_len,
                  size_t row) {
    prepare();
    odl_name(label, label_len, table, table_len, row, &place, &length);
}

/* A label with a row of every kind. The comments count its bytes. */
static const char label[] =
    "OBJECT=cam\n"                                /* 0: name 7 to 10 */
    "GROUP=g\n"                                   /* 11: name 17 to 18 */
    "^p=(-2<m*s/k**-3>,1.50)\n"                   /* 19: name 20 to 21, units 26, 28, 30 */
    "END_GROUP\n"                                 /* 43 */
    "t={1990-158,10:00-00:30,1990-07T1:2:3.5,4:5Z}\n" /* 53: name 53 to 54 */
    "n=\"Jupi-\n ter\"\n"                         /* 99: name 99 to 100, text 102 to 112 */
    "s='a b'\n"                                   /* 114: name 114 to 115, symbol 117 to 120 */
    "END_OBJECT\n"                                /* 122 */
    "END";                                        /* 133 */
#define LABEL label, sizeof label - 1

/* Its table; the comments count the bytes. 1990 is 7 * 256 + 198, day 158 of
 * it is 7 June, 500,000,000 is 1DCD6500 in hex. */
static const uint8_t table[] = {
    ODL_OBJECT, 0, 7, 0, 10,                                           /* 0 */
    ODL_GROUP, 0, 17, 0, 18,                                           /* 5 */
    ODL_POINTER, 0, 20, 0, 21,                                         /* 10 */
    ODL_SEQUENCE,                                                      /* 15 */
    ODL_INTEGER, 255, 255, 255, 255, 255, 255, 255, 254,               /* 16 */
    ODL_UNIT, ODL_FIRST, 0, 26, 0, 27, 1,                              /* 25 */
    ODL_UNIT, ODL_TIMES, 0, 28, 0, 29, 1,                              /* 32 */
    ODL_UNIT, ODL_DIVIDED, 0, 30, 0, 31, 253,                          /* 39 */
    ODL_REAL, 0, 0, 0, 0, 0, 0, 0, 15, 255, 255,                       /* 46 */
    ODL_END_SEQUENCE,                                                  /* 57 */
    ODL_END_GROUP,                                                     /* 58 */
    ODL_ATTRIBUTE, 0, 53, 0, 54,                                       /* 59 */
    ODL_SET,                                                           /* 64 */
    ODL_TIME, ODL_DATE_ONLY, 7, 198, 6, 7, 0, 0, 0, 0, 0, 0, 0, 0, 0, 0, /* 65 */
    ODL_TIME, ODL_TIME_ONLY, 0, 0, 0, 0, 10, 0, 0, 0, 0, 0, 0, 255, 226, ODL_SIGNED_ZONE, /* 81 */
    ODL_TIME, ODL_DATE_AND_TIME, 7, 198, 1, 7, 1, 2, 3, 0x1D, 0xCD, 0x65, 0, 0, 0,
    ODL_NO_ZONE,                                                       /* 97 */
    ODL_TIME, ODL_TIME_ONLY, 0, 0, 0, 0, 4, 5, 0, 0, 0, 0, 0, 0, 0, ODL_Z, /* 113 */
    ODL_END_SET,                                                       /* 129 */
    ODL_ATTRIBUTE, 0, 99, 0, 100,                                      /* 130 */
    ODL_TEXT, 0, 102, 0, 112,                                          /* 135 */
    ODL_ATTRIBUTE, 0, 114, 0, 115,                                     /* 140 */
    ODL_SYMBOL, 0, 117, 0, 120,                                        /* 145 */
    ODL_END_OBJECT,                                                    /* 150 */
    ODL_LAST, 0, 136,                                                  /* 151 */
};
#define TABLE table, sizeof table

/* The same rows by number, so that the header's numbers are the documents'. */
static const uint8_t kinds[] = {3,  5,  2,  20, 10, 15, 15, 15, 11, 21, 6,  1,
                                22, 12, 12, 12, 12, 23, 1,  13, 1,  14, 4,  99};
static const size_t offsets[] = {0,  5,  10, 15, 16,  25,  32,  39,  46,  57,  58,  59,
                                 64, 65, 81, 97, 113, 129, 130, 135, 140, 145, 150, 151};
#define ROWS (sizeof kinds)

static const char canonical[] =
    "OBJECT = CAM\r\n"
    "  GROUP = G\r\n"
    "    ^P = (-2 <M*S/K**-3>, 1.5)\r\n"
    "  END_GROUP = G\r\n"
    "  T = {1990-06-07, 10:00:00-00:30, 1990-01-07T01:02:03.5Z, 04:05:00Z}\r\n"
    "  N = \"Jupiter\"\r\n"
    "  S = 'A B'\r\n"
    "END_OBJECT = CAM\r\n"
    "END\r\n";
#define WRITTEN (sizeof canonical - 1)

/* A label one byte too long. One byte shorter, with END last, it is right. */
static uint8_t longest[ODL_LONGEST_LABEL + 1];
#define TOO_LONG longest, sizeof longest

static void check_row_numbers(void) {
    size_t row;
    CHECK(reads(LABEL, LONGEST_ROOM) == 0);
    for (row = 0; row < ROWS; row++) {
        CHECK(room[offsets[row]] == kinds[row]);
    }
    CHECK(room[26] == 0 && room[33] == 1 && room[40] == 2); /* joints */
    CHECK(room[66] == 1 && room[82] == 2 && room[98] == 3); /* parts */
    CHECK(room[112] == 0 && room[128] == 1 && room[96] == 2); /* zones */
}

static void check_accepted_reading(void) {
    CHECK(sizeof label - 1 == 136 && sizeof table == 154);
    CHECK(reads(LABEL, LONGEST_ROOM) == ODL_ACCEPTED);
    CHECK(results(136, 154) && holds(TABLE));
    CHECK(reads(LABEL, 154) == ODL_ACCEPTED);
    CHECK(results(136, 154) && holds(TABLE));
    CHECK(reads(LABEL, 153) == ODL_ROOM_TOO_SHORT);
    CHECK(results(136, 154) && untouched());
    CHECK(reads("END and more", 12, 3) == ODL_ACCEPTED);
    CHECK(results(3, 3) && holds("\x63\0\x03", 3));

    memset(longest, ' ', sizeof longest);
    memcpy(longest + ODL_LONGEST_LABEL - 3, "END", 3);
    CHECK(reads(longest, ODL_LONGEST_LABEL, LONGEST_ROOM) == ODL_ACCEPTED);
    CHECK(results(65535, 3) && holds("\x63\xFF\xFF", 3));
}

static void check_refused_reading(const struct refusal *it) {
    uint8_t code = reads(it->label, it->length, LONGEST_ROOM);
    CHECK(code == it->code && code == it->number);
    CHECK(results(it->place, 0) && untouched());
}

static void check_writing(void) {
    /* An attribute and a text over 9,999 bytes are written in 10,007. */
    static uint8_t wide[10000];
    static uint8_t rows[7 * 10 + 3];
    static const uint8_t row[] = {ODL_ATTRIBUTE, 0, 0, 0, 1, ODL_TEXT, 0, 1, 0x27, 0x10};
    size_t at;
    CHECK(writes(LABEL, TABLE, LONGEST_ROOM) == ODL_ACCEPTED);
    CHECK(results(WRITTEN, WRITTEN) && holds(canonical, WRITTEN));
    CHECK(writes(LABEL, TABLE, WRITTEN) == ODL_ACCEPTED);
    CHECK(results(WRITTEN, WRITTEN) && holds(canonical, WRITTEN));
    CHECK(writes(LABEL, TABLE, WRITTEN - 1) == ODL_ROOM_TOO_SHORT);
    CHECK(results(WRITTEN, WRITTEN) && untouched());
    CHECK(writes(LABEL, table, sizeof table - 3, LONGEST_ROOM) == ODL_IMPROPER_TABLE);
    CHECK(results(151, 0) && untouched()); /* the last row is lacking */
    CHECK(writes(label, 111, TABLE, LONGEST_ROOM) == ODL_IMPROPER_TABLE);
    CHECK(results(135, 0) && untouched()); /* the text ends past the label */
    CHECK(writes(TOO_LONG, TABLE, LONGEST_ROOM) == ODL_LABEL_TOO_LONG);
    CHECK(results(65535, 0) && untouched());

    memset(wide, 'A', sizeof wide);
    for (at = 0; at < 7; at++) {
        memcpy(rows + 10 * at, row, 10);
    }
    rows[70] = ODL_LAST;
    CHECK(writes(wide, sizeof wide, rows, sizeof rows, LONGEST_ROOM) == ODL_WRITTEN_TOO_LONG);
    CHECK(results(65535, 0) && untouched());
    rows[60] = ODL_LAST; /* one text less: six lines of 10,007 bytes, and END's 5 */
    CHECK(writes(wide, sizeof wide, rows, 63, LONGEST_ROOM) == ODL_ROOM_TOO_SHORT);
    CHECK(results(60047, 60047) && untouched());
}

/* A real's number and power, and how it is written. */
struct real {
    int64_t number;
    int power;
    const char *form;
};

/* The table of an attribute with this real, over a label of its name. */
static void real_table(uint8_t *rows, const struct real *it) {
    static const uint8_t last[] = {ODL_LAST, 0, 0};
    static const uint8_t name[] = {ODL_ATTRIBUTE, 0, 0, 0, 1, ODL_REAL};
    size_t at;
    memcpy(rows, name, 6);
    for (at = 0; at < 8; at++) {
        rows[6 + at] = (uint8_t)((uint64_t)it->number >> (56 - 8 * at));
    }
    rows[14] = (uint8_t)((unsigned)it->power >> 8);
    rows[15] = (uint8_t)it->power;
    memcpy(rows + 16, last, 3);
}

static void check_written_reals(void) {
    static const struct real reals[] = {
        {15, -1, "1.5"},
        {15, -3, "0.015"},
        {-5, -1, "-0.5"},
        {-15, 0, "-15.0"},
        {0, 0, "0.0"},
        {1, -18, "0.000000000000000001"},
        {INT64_C(-999999999999999999), -18, "-0.999999999999999999"},
        {INT64_C(999999999999999999), -1, "99999999999999999.9"},
        {1, -19, "1.E-19"},
        {15, -30, "15.E-30"},
        {-1, -999, "-1.E-999"},
        {1, 17, "100000000000000000.0"},
        {INT64_C(-999999999999999999), 0, "-999999999999999999.0"},
        {1, 18, "1.E18"},
        {INT64_C(999999999999999999), 1, "999999999999999999.E1"},
        {1, 999, "1.E999"},
    };
    uint8_t rows[19];
    char written[64];
    size_t at, wanted;
    for (at = 0; at < sizeof reals / sizeof *reals; at++) {
        real_table(rows, &reals[at]);
        wanted = (size_t)sprintf(written, "A = %s\r\nEND\r\n", reals[at].form);
        CHECK(writes("A", 1, rows, sizeof rows, LONGEST_ROOM) == ODL_ACCEPTED);
        CHECK(results(wanted, wanted) && holds(written, wanted));
        CHECK(writes("A", 1, rows, sizeof rows, wanted - 1) == ODL_ROOM_TOO_SHORT);
        CHECK(results(wanted, wanted) && untouched());
        /* Read back, all but row 99 is as it was. */
        CHECK(reads(written, wanted, LONGEST_ROOM) == ODL_ACCEPTED);
        CHECK(results(wanted - 2, 19) && memcmp(room, rows, 16) == 0);
    }
}

static void check_refused_reals(void) {
    static const struct real reals[] = {
        {10, 0, NULL},
        {0, -1, NULL},
        {INT64_C(1000000000000000001), 0, NULL},
        {1, 1000, NULL},
        {1, -1000, NULL},
    };
    uint8_t rows[19];
    size_t at;
    for (at = 0; at < sizeof reals / sizeof *reals; at++) {
        real_table(rows, &reals[at]);
        CHECK(writes("A", 1, rows, sizeof rows, LONGEST_ROOM) == ODL_IMPROPER_TABLE);
        CHECK(results(5, 0) && untouched());
    }
}

/* The table of an attribute with 1990-01-07, 10:00 or both, over a label of its
 * name. The row of the date or time stands at 5, its mark at 20. */
#define MARK 20
static void time_table(uint8_t *rows, uint8_t parts, int offset, uint8_t mark) {
    static const uint8_t name[] = {ODL_ATTRIBUTE, 0, 0, 0, 1, ODL_TIME};
    static const uint8_t date[] = {7, 198, 1, 7};
    static const uint8_t last[] = {ODL_LAST, 0, 0};
    memset(rows, 0, 24);
    memcpy(rows, name, 6);
    rows[6] = parts;
    if (parts & ODL_DATE_ONLY) {
        memcpy(rows + 7, date, 4);
    }
    if (parts & ODL_TIME_ONLY) {
        rows[11] = 10;
    }
    rows[18] = (uint8_t)((unsigned)offset >> 8);
    rows[19] = (uint8_t)offset;
    rows[MARK] = mark;
    memcpy(rows + 21, last, 3);
}

/* A zone in a label, its offset, the name and the number of its mark, and how
 * it is written. */
struct zone {
    const char *given;
    int offset;
    enum odl_zone mark;
    uint8_t number;
    const char *form;
};

static void check_zone(uint8_t parts, const struct zone *it) {
    const char *date = parts == ODL_DATE_AND_TIME ? "1990-01-07T" : "";
    uint8_t rows[24];
    char given[64], written[64];
    size_t length_given = (size_t)sprintf(given, "A=%s10:00%s END", date, it->given);
    size_t wanted = (size_t)sprintf(written, "A = %s10:00:00%s\r\nEND\r\n", date, it->form);
    time_table(rows, parts, it->offset, (uint8_t)it->mark);
    CHECK(reads(given, length_given, LONGEST_ROOM) == ODL_ACCEPTED);
    CHECK(results(length_given, 24) && memcmp(room, rows, 21) == 0 && room[MARK] == it->number);
    CHECK(writes("A", 1, rows, sizeof rows, LONGEST_ROOM) == ODL_ACCEPTED);
    CHECK(results(wanted, wanted) && holds(written, wanted));
    /* Read back, every time has a zone; all else but row 99 is as it was. */
    CHECK(reads(written, wanted, LONGEST_ROOM) == ODL_ACCEPTED);
    CHECK(results(wanted - 2, 24) && memcmp(room, rows, MARK) == 0);
    CHECK(room[MARK] == (it->offset == 0 ? ODL_Z : ODL_SIGNED_ZONE));
}

static void check_zones(void) {
    static const struct zone zones[] = {
        {"", 0, ODL_NO_ZONE, 0, "Z"},
        {"Z", 0, ODL_Z, 1, "Z"},
        {"z", 0, ODL_Z, 1, "Z"},
        {"+0", 0, ODL_SIGNED_ZONE, 2, "Z"},
        {"-00:00", 0, ODL_SIGNED_ZONE, 2, "Z"},
        {"+7", 420, ODL_SIGNED_ZONE, 2, "+07:00"},
        {"-00:30", -30, ODL_SIGNED_ZONE, 2, "-00:30"},
        {"+12:59", 779, ODL_SIGNED_ZONE, 2, "+12:59"},
        {"-12:59", -779, ODL_SIGNED_ZONE, 2, "-12:59"},
    };
    size_t at;
    for (at = 0; at < sizeof zones / sizeof *zones; at++) {
        check_zone(ODL_TIME_ONLY, &zones[at]);
        check_zone(ODL_DATE_AND_TIME, &zones[at]);
    }
}

/* Parts, offset and mark of a row that no proper table has. */
struct improper_zone {
    uint8_t parts;
    int offset;
    uint8_t mark;
};

static void check_refused_zones(void) {
    static const struct improper_zone zones[] = {
        {ODL_TIME_ONLY, 1, ODL_NO_ZONE},
        {ODL_TIME_ONLY, -1, ODL_Z},
        {ODL_TIME_ONLY, 0, 3},
        {ODL_TIME_ONLY, 60, 255},
        {ODL_DATE_AND_TIME, 256, ODL_NO_ZONE},
        {ODL_DATE_AND_TIME, -779, ODL_Z},
        {ODL_DATE_AND_TIME, 0, 3},
        {ODL_DATE_AND_TIME, 780, ODL_SIGNED_ZONE},
        {ODL_DATE_ONLY, 0, ODL_Z},
        {ODL_DATE_ONLY, 0, ODL_SIGNED_ZONE},
        {ODL_DATE_ONLY, 0, 3},
        {ODL_DATE_ONLY, 60, ODL_SIGNED_ZONE},
    };
    uint8_t rows[24];
    size_t at;
    for (at = 0; at < sizeof zones / sizeof *zones; at++) {
        time_table(rows, zones[at].parts, zones[at].offset, zones[at].mark);
        CHECK(writes("A", 1, rows, sizeof rows, LONGEST_ROOM) == ODL_IMPROPER_TABLE);
        CHECK(results(5, 0) && untouched());
        CHECK(texts("A", 1, rows, sizeof rows, 0, LONGEST_ROOM) == ODL_IMPROPER_TABLE);
        CHECK(results(5, 0) && untouched());
        CHECK(finds("A", 1, rows, sizeof rows, "A", 0) == ODL_IMPROPER_TABLE && results(5, 0));
        names("A", 1, rows, sizeof rows, 0);
        CHECK(results(0, 0));
    }
    /* Without the mark, the kind of the last row stands in its place. */
    time_table(rows, ODL_TIME_ONLY, 0, ODL_NO_ZONE);
    memmove(rows + MARK, rows + MARK + 1, 3);
    CHECK(writes("A", 1, rows, sizeof rows - 1, LONGEST_ROOM) == ODL_IMPROPER_TABLE);
    CHECK(results(5, 0) && untouched());
}

static void check_texts(void) {
    CHECK(texts(LABEL, TABLE, 135, LONGEST_ROOM) == ODL_ACCEPTED);
    CHECK(results(0, 7) && holds("Jupiter", 7));
    CHECK(texts(LABEL, TABLE, 135, 7) == ODL_ACCEPTED);
    CHECK(results(0, 7) && holds("Jupiter", 7));
    CHECK(texts(LABEL, TABLE, 135, 6) == ODL_ROOM_TOO_SHORT);
    CHECK(results(0, 7) && untouched());
    CHECK(texts(LABEL, TABLE, 145, LONGEST_ROOM) == ODL_NO_SUCH_ROW);
    CHECK(results(0, 0) && untouched());
    CHECK(texts(LABEL, TABLE, 136, LONGEST_ROOM) == ODL_NO_SUCH_ROW);
    CHECK(results(0, 0) && untouched());
    CHECK(texts(LABEL, table, sizeof table - 1, 135, LONGEST_ROOM) == ODL_IMPROPER_TABLE);
    CHECK(results(151, 0) && untouched()); /* the last row is cut short */
    CHECK(texts(TOO_LONG, TABLE, 135, LONGEST_ROOM) == ODL_LABEL_TOO_LONG);
    CHECK(results(65535, 0) && untouched());
}

static void check_lookups(void) {
    static const uint8_t *const name = (const uint8_t *)label + 114;
    CHECK(finds(LABEL, TABLE, "S", 59) == ODL_ACCEPTED && results(0, 140));
    CHECK(finds(LABEL, TABLE, "n", 59) == ODL_ACCEPTED && results(0, 130));
    CHECK(finds(LABEL, TABLE, "n", 5) == ODL_ACCEPTED && results(0, 130));
    CHECK(finds(LABEL, TABLE, "n", 140) == ODL_NAME_ABSENT && results(0, 0));
    CHECK(finds(LABEL, TABLE, "n", 0) == ODL_NAME_ABSENT && results(0, 0));
    CHECK(finds(LABEL, TABLE, "n", 10) == ODL_NAME_ABSENT && results(0, 0));
    CHECK(finds(LABEL, TABLE, "n", 150) == ODL_NAME_ABSENT && results(0, 0));
    CHECK(finds(LABEL, TABLE, "n", 151) == ODL_NAME_ABSENT && results(0, 0));
    CHECK(finds(LABEL, TABLE, "n", 135) == ODL_NO_SUCH_ROW && results(0, 0));
    CHECK(finds(label, 111, TABLE, "n", 59) == ODL_IMPROPER_TABLE && results(135, 0));
    CHECK(finds(TOO_LONG, TABLE, "n", 59) == ODL_LABEL_TOO_LONG && results(65535, 0));
    CHECK(untouched());
    /* A name that is a part of the label: buffers that are read may overlap. */
    prepare();
    CHECK(odl_find((const uint8_t *)LABEL, TABLE, name, 1, 59, &place, &length) == ODL_ACCEPTED);
    CHECK(results(0, 140));
}

static void check_names(void) {
    names(LABEL, TABLE, 0);
    CHECK(results(7, 10)); /* OBJECT */
    names(LABEL, TABLE, 5);
    CHECK(results(17, 18)); /* GROUP */
    names(LABEL, TABLE, 10);
    CHECK(results(20, 21)); /* pointer */
    names(LABEL, TABLE, 39);
    CHECK(results(30, 31)); /* unit */
    names(LABEL, TABLE, 140);
    CHECK(results(114, 115)); /* attribute */
    names(LABEL, TABLE, 145);
    CHECK(results(117, 120)); /* symbol */
    names(LABEL, TABLE, 135);
    CHECK(results(0, 0)); /* a text has no name */
    names(LABEL, TABLE, 146);
    CHECK(results(0, 0));
    names(label, 111, TABLE, 0);
    CHECK(results(0, 0));
    names(TOO_LONG, TABLE, 0);
    CHECK(results(0, 0));
}

static void check_null(void) {
    static const uint8_t last[] = {ODL_LAST, 0, 0};
    prepare();
    CHECK(odl_read(NULL, 0, NULL, 0, &place, &length) == ODL_ENDS_EARLY && results(0, 0));
    prepare();
    CHECK(odl_write(NULL, 0, NULL, 0, NULL, 0, &place, &length) == ODL_IMPROPER_TABLE);
    CHECK(results(0, 0));
    prepare();
    CHECK(odl_write(NULL, 0, last, 3, room, 5, &place, &length) == ODL_ACCEPTED);
    CHECK(results(5, 5) && holds("END\r\n", 5));
    prepare();
    CHECK(odl_text(NULL, 0, last, 3, 0, NULL, 0, &place, &length) == ODL_NO_SUCH_ROW);
    CHECK(results(0, 0));
    prepare();
    CHECK(odl_find(NULL, 0, last, 3, NULL, 0, 0, &place, &length) == ODL_NAME_ABSENT);
    CHECK(results(0, 0));
    prepare();
    odl_name(NULL, 0, NULL, 0, 0, &place, &length);
    CHECK(results(0, 0));
}

/* Every code that the header says a function has was answered by it above,
 * and no other. */
static void check_codes_answered(void) {
    static const int reading[] = {0, 1, 2, 3, 4, 5, 6, 7, 8, 9, 10, 11, 99};
    static const int writing[] = {0, 1, 11, 12, 13, 99};
    static const int text[] = {0, 1, 11, 12, 15, 99};
    static const int lookup[] = {0, 1, 12, 14, 15, 99};
    CHECK(read_codes == bits(reading));
    CHECK(write_codes == bits(writing));
    CHECK(text_codes == bits(text));
    CHECK(find_codes == bits(lookup));
}

int main(void) {
    check_accepted_reading();
    check_row_numbers();
    each_refusal(check_refused_reading);
    check_writing();
    check_written_reals();
    check_refused_reals();
    check_zones();
    check_refused_zones();
    check_texts();
    check_lookups();
    check_names();
    check_null();
    check_codes_answered();
    return ended();
}
