/*
 * The cars' radio record at a desk: runway rows in, their record out in hexadecimal, and back.
 *
 *     radio write <ROWS >HEX
 *     radio read <HEX >ROWS
 *
 * Rows stand one a line, as in a notice; lines end with LF or CR LF, and the last may lack its end. Hexadecimal is two digits a byte in either
 * case, with any spacing between the bytes; it is written with one space.
 *
 * The exit status is 0 where rows or a record were written, 1 where they are refused, and 2 for wrong use or where reading or writing fails.
 */
#include <ctype.h>
#include <stdio.h>
#include <string.h>

#include "phengaryl.h"

/* exit statuses */
enum { WRITTEN = 0, REFUSED = 1, FAILED = 2 };

enum { MOST_ROWS = 8 };

static int refused(const char *what, uint8_t refusal)
{
    const char *why = "see the table of refusals";

    switch (refusal) {
    case PHENGARYL_INVALID_ROW:
        why = "a row is not valid";
        break;
    case PHENGARYL_RECORD_CUT_SHORT:
        why = "it is cut short";
        break;
    case PHENGARYL_NUMBER_FORM:
        why = "a number has a last group of zero after another, or a third group with its high bit set";
        break;
    case PHENGARYL_RADIO_VALUE:
        why = "a value or row is not valid, there is no row or over eight, a runway stands twice, or bytes are left over";
        break;
    }
    fprintf(stderr, "%s: refused %d, %s\n", what, refusal, why);
    return REFUSED;
}

static int failed(const char *what)
{
    fprintf(stderr, "%s\n", what);
    return FAILED;
}

/* ---- Rows */

/* A line without its end. `length` tells an over-long one, of which only the first bytes are kept. */
typedef struct line {
    size_t length;
    uint8_t bytes[PHENGARYL_LONGEST_TEXT + 1];
} line;

/* Reads the next line of standard input; false where there is none. */
static bool next_line(line *next)
{
    int byte = getchar();
    if (byte == EOF) {
        return false;
    }
    next->length = 0;
    for (; byte != EOF && byte != '\n'; byte = getchar()) {
        if (next->length < sizeof next->bytes) {
            next->bytes[next->length] = (uint8_t)byte;
        }
        next->length++;
    }
    bool fits = 0 < next->length && next->length <= sizeof next->bytes;
    if (byte == '\n' && fits && next->bytes[next->length - 1] == '\r') {
        next->length--;
    }
    return true;
}

static int write_record(void)
{
    static line next;
    phengaryl_rows rows = { 0 };

    while (next_line(&next)) {
        if (next.length > PHENGARYL_LONGEST_TEXT) {
            return failed("a line is longer than 4,096 bytes");
        }
        phengaryl_row_read read = phengaryl_read_row(next.bytes, next.length);
        if (read.refusal != PHENGARYL_TAKEN) {
            char what[64];
            snprintf(what, sizeof what, "row %d, byte %zu", rows.count + 1, read.place + 1);
            return refused(what, read.refusal);
        }
        /* a ninth is counted and not kept: the library refuses the count */
        if (rows.count < MOST_ROWS) {
            rows.rows[rows.count] = read.row;
        }
        if (rows.count <= MOST_ROWS) {
            rows.count++;
        }
    }
    if (ferror(stdin)) {
        return failed("standard input cannot be read");
    }

    uint8_t record[PHENGARYL_LONGEST_RADIO];
    phengaryl_written written = phengaryl_radio_write(rows, record, sizeof record);
    if (written.refusal != PHENGARYL_TAKEN) {
        return refused("rows", written.refusal);
    }
    for (size_t i = 0; i < written.length; i++) {
        printf(i == 0 ? "%02X" : " %02X", record[i]);
    }
    putchar('\n');
    return WRITTEN;
}

/* ---- A record */

static int next_unspaced(void)
{
    int c = getchar();
    while (isspace(c)) {
        c = getchar();
    }
    return c;
}

static int value_of(int digit)
{
    static const char digits[] = "0123456789abcdef";

    return (int)(strchr(digits, tolower(digit)) - digits);
}

static int read_record(void)
{
    /* one byte more than a record may have: with it there are bytes left over already */
    uint8_t record[PHENGARYL_LONGEST_RADIO + 1];
    size_t length = 0;

    for (int high = next_unspaced(); high != EOF && length < sizeof record; high = next_unspaced()) {
        int low = getchar();
        if (!isxdigit(high) || !isxdigit(low)) {
            return failed("what stands there is not hexadecimal, two digits a byte");
        }
        record[length++] = (uint8_t)(16 * value_of(high) + value_of(low));
    }
    if (ferror(stdin)) {
        return failed("standard input cannot be read");
    }

    phengaryl_radio radio = phengaryl_radio_read(record, length);
    if (radio.refusal != PHENGARYL_TAKEN) {
        return refused("record", radio.refusal);
    }
    for (size_t i = 0; i < radio.rows.count; i++) {
        uint8_t text[PHENGARYL_LONGEST_ROW];
        size_t size = phengaryl_write_row(radio.rows.rows[i], text, sizeof text);

        printf("%.*s\n", (int)size, (const char *)text);
    }
    return WRITTEN;
}

int main(int argc, char **argv)
{
    int status = FAILED;

    if (argc == 2 && strcmp(argv[1], "write") == 0) {
        status = write_record();
    } else if (argc == 2 && strcmp(argv[1], "read") == 0) {
        status = read_record();
    } else {
        fputs("usage: radio write <ROWS >HEX\n       radio read <HEX >ROWS\n", stderr);
    }
    return fflush(stdout) == 0 ? status : FAILED;
}
