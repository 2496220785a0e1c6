/* Prints the top-level attributes of a label file: name, value in words. */
#include <inttypes.h>
#include <stdio.h>
#include <stdlib.h>
#include <string.h>

#include "labels.h"
#include "odl.h"

static size_t table_len;

/* A number of `count` bytes, high byte first. */
static uint64_t number(const uint8_t *bytes, size_t count) {
    uint64_t value = 0;
    for (size_t i = 0; i < count; i++) {
        value = value << 8 | bytes[i];
    }
    return value;
}

/* The same, in two's complement. */
static int64_t signed_number(const uint8_t *bytes, size_t count) {
    uint64_t value = number(bytes, count);
    uint64_t half = (uint64_t)1 << (8 * count - 1);
    return value < half ? (int64_t)value : (int64_t)(value - half) - (int64_t)(half - 1) - 1;
}

/* The length of the row at this offset. */
static size_t row_length(size_t row) {
    switch (table[row]) {
    case ODL_ATTRIBUTE:
    case ODL_POINTER:
    case ODL_OBJECT:
    case ODL_GROUP:
    case ODL_TEXT:
    case ODL_SYMBOL:
        return 5;
    case ODL_INTEGER:
        return 9;
    case ODL_REAL:
        return 11;
    case ODL_TIME:
        return 16;
    case ODL_UNIT:
        return 7;
    case ODL_LAST:
        return 3;
    default:
        return 1;
    }
}

/* Prints the name that the library finds for a row, folded up. */
static void print_name(size_t row) {
    size_t start, end;
    odl_name(label, label_len, table, table_len, row, &start, &end);
    for (size_t i = start; i < end; i++) {
        int byte = label[i];
        putchar(byte >= 'a' && byte <= 'z' ? byte - 32 : byte);
    }
}

static void print_text(size_t row) {
    static uint8_t text[ODL_LONGEST_LABEL];
    size_t place, length;
    if (odl_text(label, label_len, table, table_len, row, text, sizeof text, &place, &length)
        == ODL_ACCEPTED) {
        printf("text \"");
        fwrite(text, 1, length, stdout);
        printf("\"");
    }
}

/* Prints a time's zone as it was given. */
static void print_zone(const uint8_t *body) {
    switch (body[14]) {
    case ODL_NO_ZONE:
        printf(", no zone given");
        break;
    case ODL_Z:
        printf(", UTC");
        break;
    default:
        printf(", %d min from UTC", (int)signed_number(body + 12, 2));
    }
}

static void print_time(const uint8_t *body) {
    int parts = body[0];
    if (parts & ODL_DATE_ONLY) {
        printf("date %04u-%02u-%02u", (unsigned)number(body + 1, 2), body[3], body[4]);
    }
    if (parts == ODL_DATE_AND_TIME) {
        printf(" ");
    }
    if (parts & ODL_TIME_ONLY) {
        printf("time %02u:%02u:%02u", body[5], body[6], body[7]);
        unsigned nanoseconds = (unsigned)number(body + 8, 4);
        if (nanoseconds != 0) {
            printf(" and %u ns", nanoseconds);
        }
        print_zone(body);
    }
}

static void print_unit(size_t row) {
    static const char *const joints[] = {"in", "times", "divided by"};
    printf(" %s ", joints[table[row + 1]]);
    print_name(row);
    int exponent = (int)signed_number(table + row + 6, 1);
    if (exponent != 1) {
        printf(" to the %d", exponent);
    }
}

/* Prints a value that stands in one row, with its units, and gives the offset
 * of the row after it. */
static size_t print_scalar(size_t row) {
    const uint8_t *body = table + row + 1;
    switch (table[row]) {
    case ODL_INTEGER:
        printf("integer %" PRId64, signed_number(body, 8));
        break;
    case ODL_REAL:
        printf("real %" PRId64 " times ten to the %d", signed_number(body, 8),
               (int)signed_number(body + 8, 2));
        break;
    case ODL_TIME:
        print_time(body);
        break;
    case ODL_TEXT:
        print_text(row);
        break;
    default:
        printf("symbol ");
        print_name(row);
    }
    row += row_length(row);
    while (table[row] == ODL_UNIT) {
        print_unit(row);
        row += row_length(row);
    }
    return row;
}

/* Prints a value of any sort and gives the offset of the row after it. */
static size_t print_value(size_t row) {
    if (table[row] != ODL_SEQUENCE && table[row] != ODL_SET) {
        return print_scalar(row);
    }
    int is_set = table[row] == ODL_SET;
    printf(is_set ? "set {" : "sequence (");
    row += row_length(row);
    for (int first = 1; table[row] != ODL_END_SEQUENCE && table[row] != ODL_END_SET; first = 0) {
        printf(first ? "" : "; ");
        row = print_value(row);
    }
    printf(is_set ? "}" : ")");
    return row + row_length(row);
}

/* Reads the file's label into the table. */
static int read_label(const char *name) {
    if (load(name) != EXIT_SUCCESS) {
        return EXIT_FAILURE;
    }
    size_t place;
    uint8_t code = odl_read(label, label_len, table, sizeof table, &place, &table_len);
    return code == ODL_ACCEPTED ? EXIT_SUCCESS : refused(name, code, place);
}

/* Prints the value of the attribute of this name outside all blocks. */
static int print_attribute(const char *name) {
    size_t place, at;
    uint8_t code = odl_find(label, label_len, table, table_len, (const uint8_t *)name,
                            strlen(name), 0, &place, &at);
    if (code != ODL_ACCEPTED) {
        return refused(name, code, place);
    }
    print_value(at + row_length(at));
    printf("\n");
    return EXIT_SUCCESS;
}

/* Prints name and value of each attribute outside all blocks. */
static int print_attributes(void) {
    size_t depth = 0;
    for (size_t row = 0; row < table_len; row += row_length(row)) {
        uint8_t kind = table[row];
        if (kind == ODL_OBJECT || kind == ODL_GROUP) {
            depth++;
        } else if (kind == ODL_END_OBJECT || kind == ODL_END_GROUP) {
            depth--;
        } else if (kind == ODL_ATTRIBUTE && depth == 0) {
            print_name(row);
            printf(" = ");
            print_value(row + row_length(row));
            printf("\n");
        }
    }
    return EXIT_SUCCESS;
}

int main(int count, char **words) {
    if (count < 2 || count > 3) {
        fprintf(stderr, "usage: attributes LABEL [NAME]\n");
        return EXIT_FAILURE;
    }
    if (read_label(words[1]) != EXIT_SUCCESS) {
        return EXIT_FAILURE;
    }
    return count == 3 ? print_attribute(words[2]) : print_attributes();
}
