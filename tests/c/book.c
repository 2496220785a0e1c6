/* Takes sessions through include/odl.h: the counter, the answers, the book and
 * the lent room against values worked out by hand from the documents. */
#include "checks.h"
#include "refusals.h"

#define COUNTERS 8

/* The book, with one on either side of it that is not handed in. */
static struct odl_book books[3];
static struct odl_book *const book = &books[1];

static const uint32_t empty[COUNTERS] = {0, 0, 0, 0, 0, 0, 0, 0};
static const uint32_t some[COUNTERS] = {10, 2000, 3, 0, 50000, 6, 70, 81};
static const uint32_t full[COUNTERS] = {1, 2, 3, 4, 5, 6, 7, ODL_MOST_SESSIONS - 28};

/* True if the book holds these counts, and the memory beside it what it held. */
static int book_holds(const uint32_t *counts) {
    const uint8_t *bytes = (const uint8_t *)books;
    size_t at;
    for (at = 0; at < sizeof *books; at++) {
        if (bytes[at] != 0xA5 || bytes[2 * sizeof *books + at] != 0xA5) {
            return 0;
        }
    }
    return memcmp(book->counts, counts, sizeof *books) == 0;
}

/* True if the counter at this place is one more than in these counts, and all
 * others are equal. */
static int one_more(const uint32_t *counts, size_t at) {
    uint32_t after[COUNTERS];
    memcpy(after, counts, sizeof after);
    after[at]++;
    return book_holds(after);
}

static void hand_in(const uint32_t *counts) {
    memset(books, 0xA5, sizeof books);
    memcpy(book->counts, counts, sizeof *books);
}

static unsigned long take_codes;

static uint8_t takes_into(uint8_t *table, size_t table_len, const uint32_t *counts,
                          const void *label, size_t label_len) {
    prepare();
    hand_in(counts);
    return noted(&take_codes,
                 odl_take(book, label, label_len, table, table_len, &place, &length));
}

static uint8_t takes(const uint32_t *counts, const void *label, size_t label_len, size_t room_len) {
    return takes_into(room, room_len, counts, label, label_len);
}

/* True if results and room are as odl_read leaves them for this label. */
static int as_read(const void *label, size_t label_len) {
    uint8_t table[LONGEST_ROOM];
    size_t read_place, read_length;
    uint8_t code = odl_read(label, label_len, table, sizeof table, &read_place, &read_length);
    return code == ODL_ACCEPTED && results(read_place, read_length) && holds(table, read_length);
}

static void check_taken(const char *label, size_t at) {
    CHECK(takes(empty, label, strlen(label), LONGEST_ROOM) == ODL_ACCEPTED);
    CHECK(one_more(empty, at) && as_read(label, strlen(label)));
    CHECK(takes(some, label, strlen(label), LONGEST_ROOM) == ODL_ACCEPTED);
    CHECK(one_more(some, at) && as_read(label, strlen(label)));
}

/* What stands behind START_TIME, and the place of its counter. */
struct start {
    const char *value;
    enum odl_counts at;
};

static void check_starts(const struct start *starts, size_t count) {
    char label[128];
    size_t at;
    for (at = 0; at < count; at++) {
        sprintf(label, "START_TIME=%s END", starts[at].value);
        check_taken(label, starts[at].at);
    }
}

#define CHECK_STARTS(starts) check_starts(starts, sizeof starts / sizeof *starts)

/* Any 400 years are 20,871 weeks, so year 1 goes as 2001, and 9999 as 1999. */
static void check_weekdays(void) {
    static const struct start starts[] = {
        {"1979-07-08", ODL_AT_SUNDAY}, /* document 02 has this one */
        {"1979-07-09", ODL_AT_MONDAY},
        {"1979-07-10", ODL_AT_TUESDAY},
        {"1979-07-11", ODL_AT_WEDNESDAY},
        {"1979-07-12", ODL_AT_THURSDAY},
        {"1979-07-13", ODL_AT_FRIDAY},
        {"1979-07-14", ODL_AT_SATURDAY},
        {"1979-07-15", ODL_AT_SUNDAY},
        {"1979-7-8", ODL_AT_SUNDAY},
        {"1979-189", ODL_AT_SUNDAY}, /* 189 = 31 + 28 + 31 + 30 + 31 + 30 + 8 */
        {"1979-07-08T05:19:11", ODL_AT_SUNDAY},
        {"1979-189t5:19Z", ODL_AT_SUNDAY},
        {"1979-07-08T05:19:11.123456789", ODL_AT_SUNDAY},
        {"1979-01-01", ODL_AT_MONDAY}, /* 188 days before: 26 weeks and 6 days */
        {"1979-12-31", ODL_AT_MONDAY}, /* 52 weeks later */
        {"1980-01-01", ODL_AT_TUESDAY},
        {"2000-01-01", ODL_AT_SATURDAY}, /* 20 years of 52 weeks and 1 day, 5 leap days */
        {"2000-02-28", ODL_AT_MONDAY},
        {"2000-02-29", ODL_AT_TUESDAY},
        {"2000-060", ODL_AT_TUESDAY},
        {"2000-03-01", ODL_AT_WEDNESDAY},
        {"2000-366", ODL_AT_SUNDAY},
        {"2001-01-01", ODL_AT_MONDAY},
        {"1900-02-28", ODL_AT_WEDNESDAY}, /* no leap year */
        {"1900-03-01", ODL_AT_THURSDAY},
        {"2100-02-28", ODL_AT_SUNDAY}, /* no leap year */
        {"2100-03-01", ODL_AT_MONDAY},
        {"0001-01-01", ODL_AT_MONDAY},
        {"0001-365", ODL_AT_MONDAY},
        {"9999-01-01", ODL_AT_FRIDAY},
        {"9999-12-31", ODL_AT_FRIDAY},
    };
    CHECK_STARTS(starts);
}

/* The day is the tester's own, whatever day it was in UTC. */
static void check_offsets_not_applied(void) {
    static const struct start starts[] = {
        {"1979-07-08T23:30-12:59", ODL_AT_SUNDAY},
        {"1979-07-08T00:10+12:59", ODL_AT_SUNDAY},
        {"1979-07-08T23:59:59.999999999-0:1", ODL_AT_SUNDAY},
        {"1979-07-08T0:0+0:1", ODL_AT_SUNDAY},
        {"2000-02-29T23:00-2", ODL_AT_TUESDAY},
        {"2001-01-01T00:00+1", ODL_AT_MONDAY},
        {"0001-01-01T00:00+12:59", ODL_AT_MONDAY},
        {"9999-12-31T23:59-12:59", ODL_AT_FRIDAY},
    };
    CHECK_STARTS(starts);
}

/* Values that are not a single one with a date. */
static void check_undated_values(void) {
    static const struct start starts[] = {
        {"10:00", ODL_AT_UNDATED},
        {"10:00:00.5Z", ODL_AT_UNDATED},
        {"10:00+7", ODL_AT_UNDATED},
        {"19790708", ODL_AT_UNDATED},
        {"1979.189", ODL_AT_UNDATED},
        {"1979 <YEAR>", ODL_AT_UNDATED},
        {"\"1979-07-08\"", ODL_AT_UNDATED},
        {"'1979-07-08'", ODL_AT_UNDATED},
        {"UNK", ODL_AT_UNDATED},
        {"(1979-07-08)", ODL_AT_UNDATED},
        {"(1979-07-08, 1979-07-09)", ODL_AT_UNDATED},
        {"((1979-07-08))", ODL_AT_UNDATED},
        {"{1979-07-08}", ODL_AT_UNDATED},
        {"{}", ODL_AT_UNDATED},
    };
    CHECK_STARTS(starts);
}

/* Which START_TIME it is, if there is one. */
static void check_which_start(void) {
    check_taken("END", ODL_AT_UNDATED);
    check_taken("A=1979-07-08 END", ODL_AT_UNDATED);
    check_taken("START=1979-07-08 STOP_TIME=1979-07-08 END", ODL_AT_UNDATED);
    check_taken("START_TIMES=1979-07-08 END", ODL_AT_UNDATED);
    check_taken("^START_TIME=1979-07-08 END", ODL_AT_UNDATED);
    check_taken("A=START_TIME B=1979-07-08 END", ODL_AT_UNDATED);
    check_taken("OBJECT=X START_TIME=1979-07-08 END_OBJECT END", ODL_AT_UNDATED);
    check_taken("GROUP=START_TIME START_TIME=1979-07-08 END_GROUP END", ODL_AT_UNDATED);
    check_taken("/* START_TIME=1979-07-08 */\nEND", ODL_AT_UNDATED);
    check_taken("END START_TIME=1979-07-08", ODL_AT_UNDATED);
    check_taken("Start_time\n= /* own clock */\n 1979-07-08 END", ODL_AT_SUNDAY);
    check_taken("A=(1,2) B={C} start_time=1979-07-08 END", ODL_AT_SUNDAY);
    check_taken("START_TIME=1979-07-08 START_TIME=1979-07-09 END", ODL_AT_SUNDAY);
    check_taken("START_TIME=1979-07-08 START_TIME=10:00 END", ODL_AT_SUNDAY);
    check_taken("START_TIME=10:00 START_TIME=1979-07-08 END", ODL_AT_UNDATED);
    check_taken("START_TIME={} START_TIME=1979-07-08 END", ODL_AT_UNDATED);
    check_taken("^START_TIME=1979-07-09 START_TIME=1979-07-08 END", ODL_AT_SUNDAY);
    check_taken("OBJECT=X GROUP=Y START_TIME=1979-07-09 END_GROUP START_TIME=1979-07-10 "
                "END_OBJECT START_TIME=1979-07-08 END", ODL_AT_SUNDAY);
}

/* A label of 25 bytes and its table of 24; 1979 is 7 * 256 + 187. */
static const char label[] = "START_TIME=1979-07-08 END";
static const uint8_t table[] = {
    ODL_ATTRIBUTE, 0, 0, 0, 10,
    ODL_TIME, ODL_DATE_ONLY, 7, 187, 7, 8, 0, 0, 0, 0, 0, 0, 0, 0, 0, ODL_NO_ZONE,
    ODL_LAST, 0, 25,
};
#define LABEL label, sizeof label - 1

static void check_room(void) {
    CHECK(sizeof label - 1 == 25 && sizeof table == 24);
    CHECK(takes(some, LABEL, LONGEST_ROOM) == ODL_ACCEPTED && one_more(some, ODL_AT_SUNDAY));
    CHECK(results(25, 24) && holds(table, 24));
    CHECK(takes(some, LABEL, 24) == ODL_ACCEPTED && one_more(some, ODL_AT_SUNDAY));
    CHECK(results(25, 24) && holds(table, 24));
    CHECK(takes(some, LABEL, 23) == ODL_ROOM_TOO_SHORT && book_holds(some));
    CHECK(results(25, 24) && untouched());
    CHECK(takes(some, LABEL, 0) == ODL_ROOM_TOO_SHORT && book_holds(some));
    CHECK(results(25, 24) && untouched());
}

/* START_TIME behind 5,000 integers: 4 bytes of label and 14 of table each. */
static void check_long_table(void) {
    static char wide[ODL_LONGEST_LABEL];
    static uint8_t taken[5 * ODL_LONGEST_LABEL], read[5 * ODL_LONGEST_LABEL];
    size_t at, end = 4 * 5000 + 25, wanted = 14 * 5000 + 24;
    for (at = 0; at < 5000; at++) {
        memcpy(wide + 4 * at, "A=1 ", 4);
    }
    memcpy(wide + 4 * at, label, 25);
    CHECK(takes_into(taken, wanted - 1, some, wide, end) == ODL_ROOM_TOO_SHORT);
    CHECK(results(end, wanted) && book_holds(some));
    CHECK(memcmp(taken, read, sizeof taken) == 0);
    CHECK(takes_into(taken, wanted, some, wide, end) == ODL_ACCEPTED);
    CHECK(results(end, wanted) && one_more(some, ODL_AT_SUNDAY));
    CHECK(odl_read((const uint8_t *)wide, end, read, wanted, &place, &length) == ODL_ACCEPTED);
    CHECK(results(end, wanted) && memcmp(taken, read, sizeof taken) == 0);
}

static void check_longest_label(void) {
    static char longest[ODL_LONGEST_LABEL];
    uint8_t wanted[24];
    memcpy(wanted, table, 22);
    wanted[22] = wanted[23] = 255;
    memset(longest, ' ', sizeof longest);
    memcpy(longest, "START_TIME=1979-07-08", 21);
    memcpy(longest + sizeof longest - 3, "END", 3);
    CHECK(takes(some, longest, sizeof longest, LONGEST_ROOM) == ODL_ACCEPTED);
    CHECK(results(65535, 24) && holds(wanted, 24) && one_more(some, ODL_AT_SUNDAY));
}

/* The reader's own refusals come first, with a full book too. */
static void check_refused_taking(const struct refusal *it) {
    static const uint32_t *const counts[] = {empty, some, full};
    size_t at;
    for (at = 0; at < sizeof counts / sizeof *counts; at++) {
        uint8_t code = takes(counts[at], it->label, it->length, LONGEST_ROOM);
        CHECK(code == it->code && code == it->number);
        CHECK(results(it->place, 0) && untouched() && book_holds(counts[at]));
    }
}

/* Books whose counts come to 1,000,000 or more. In 32 bits the sums of the last
 * six would wrap: to 0, 0, 0, 8, 999,999 and 4,294,967,288. */
static void check_full_books(void) {
    static const uint32_t counts[][COUNTERS] = {
        {1, 2, 3, 4, 5, 6, 7, ODL_MOST_SESSIONS - 28},
        {1000000, 0, 0, 0, 0, 0, 0, 0},
        {0, 0, 0, 0, 0, 0, 1000000, 0},
        {0, 0, 0, 0, 0, 0, 0, 1000000},
        {125000, 125000, 125000, 125000, 125000, 125000, 125000, 125000},
        {999999, 0, 0, 0, 0, 0, 2, 0},
        {0, 0, 0, 0, 0, 0, UINT32_MAX, 0},
        {UINT32_MAX, 1, 0, 0, 0, 0, 0, 0},
        {0, 0, 0x80000000, 0, 0, 0, 0, 0x80000000},
        {0x40000000, 0x40000000, 0x40000000, 0x40000000, 0, 0, 0, 0},
        {0x20000001, 0x20000001, 0x20000001, 0x20000001,
         0x20000001, 0x20000001, 0x20000001, 0x20000001},
        {UINT32_MAX, 0, 0, 0, 0, 0, 0, 1000000},
        {UINT32_MAX, UINT32_MAX, UINT32_MAX, UINT32_MAX,
         UINT32_MAX, UINT32_MAX, UINT32_MAX, UINT32_MAX},
    };
    size_t at;
    for (at = 0; at < sizeof counts / sizeof *counts; at++) {
        uint8_t code = takes(counts[at], LABEL, LONGEST_ROOM);
        CHECK(code == ODL_BOOK_FULL && code == 16);
        CHECK(results(0, 0) && untouched() && book_holds(counts[at]));
        CHECK(takes(counts[at], "END", 3, LONGEST_ROOM) == ODL_BOOK_FULL);
        CHECK(results(0, 0) && untouched() && book_holds(counts[at]));
        /* The table fits, and does not. */
        CHECK(takes(counts[at], LABEL, 24) == ODL_BOOK_FULL);
        CHECK(results(0, 0) && untouched() && book_holds(counts[at]));
        CHECK(takes(counts[at], LABEL, 23) == ODL_ROOM_TOO_SHORT);
        CHECK(results(25, 24) && untouched() && book_holds(counts[at]));
    }
}

/* Books that have room for one session more. */
static void check_last_session(void) {
    static const uint32_t last[][COUNTERS] = {
        {999999, 0, 0, 0, 0, 0, 0, 0},
        {0, 0, 0, 0, 0, 0, 999999, 0},
        {0, 0, 0, 0, 0, 0, 0, 999999},
        {124999, 125000, 125000, 125000, 125000, 125000, 125000, 125000},
        {125000, 125000, 125000, 125000, 125000, 125000, 125000, 124999},
    };
    size_t at;
    for (at = 0; at < sizeof last / sizeof *last; at++) {
        uint32_t counts[COUNTERS];
        CHECK(takes(last[at], LABEL, LONGEST_ROOM) == ODL_ACCEPTED);
        CHECK(results(25, 24) && holds(table, 24) && one_more(last[at], ODL_AT_SUNDAY));
        memcpy(counts, book->counts, sizeof counts);
        CHECK(takes(counts, LABEL, LONGEST_ROOM) == ODL_BOOK_FULL);
        CHECK(results(0, 0) && untouched() && book_holds(counts));
    }
}

/* From the empty book the counters sum to the labels taken. */
static void check_history(void) {
    static const char *const labels[] = {
        "START_TIME=1979-07-08 END", "START_TIME=1979-07-09 END", "END", "END;",
        "START_TIME=1979-07-08T10:00 END", "START_TIME=1979-02-29 END", "START_TIME=10:00 END",
        "START_TIME=1979-07-14 END", "",
    };
    static const uint32_t after[COUNTERS] = {1, 0, 0, 0, 0, 1, 2, 2};
    size_t at, taken = 0;
    hand_in(empty);
    for (at = 0; at < sizeof labels / sizeof *labels; at++) {
        prepare();
        taken += odl_take(book, (const uint8_t *)labels[at], strlen(labels[at]), room,
                          LONGEST_ROOM, &place, &length) == ODL_ACCEPTED;
    }
    CHECK(taken == 6 && book_holds(after));
}

static void check_null(void) {
    static const uint32_t *const counts[] = {some, full};
    size_t at;
    for (at = 0; at < 2; at++) {
        CHECK(takes(counts[at], NULL, 0, LONGEST_ROOM) == ODL_ENDS_EARLY);
        CHECK(results(0, 0) && untouched() && book_holds(counts[at]));
        CHECK(takes_into(NULL, 0, counts[at], NULL, 0) == ODL_ENDS_EARLY);
        CHECK(results(0, 0) && book_holds(counts[at]));
        CHECK(takes_into(NULL, 0, counts[at], LABEL) == ODL_ROOM_TOO_SHORT);
        CHECK(results(25, 24) && book_holds(counts[at]));
    }
}

/* The header's numbers, and that a book is its eight counts. */
static void check_numbers(void) {
    CHECK(sizeof(struct odl_book) == 32 && ODL_MOST_SESSIONS == 1000000 && ODL_BOOK_FULL == 16);
    CHECK(ODL_AT_MONDAY == 0 && ODL_AT_TUESDAY == 1 && ODL_AT_WEDNESDAY == 2);
    CHECK(ODL_AT_THURSDAY == 3 && ODL_AT_FRIDAY == 4 && ODL_AT_SATURDAY == 5);
    CHECK(ODL_AT_SUNDAY == 6 && ODL_AT_UNDATED == 7);
}

/* Every code that the header says odl_take has was answered above, no other. */
static void check_codes_answered(void) {
    static const int taking[] = {0, 1, 2, 3, 4, 5, 6, 7, 8, 9, 10, 11, 16, 99};
    CHECK(take_codes == bits(taking));
}

int main(void) {
    check_numbers();
    check_weekdays();
    check_offsets_not_applied();
    check_undated_values();
    check_which_start();
    check_room();
    check_long_table();
    check_longest_label();
    each_refusal(check_refused_taking);
    check_full_books();
    check_last_session();
    check_history();
    check_null();
    check_codes_answered();
    return ended();
}
