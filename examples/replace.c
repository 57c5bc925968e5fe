/*
 * A desk computer is replaced: the new one is fed the last notice that the old one sent, and then has the same board.
 *
 *     replace
 *
 * The old computer opens a board, takes the reports below, and writes the board as a notice. The new one is told what the station knows, the
 * aerodrome, its runways and the desk that owns each, and opens a fresh board with them. It reads the notice and reports its rows, each by the
 * desk that owns its runway; their order does not matter, so here the last comes first. Then the two boards are compared, field by field.
 *
 * The exit status is 0 where the boards are equal, 1 where they differ or something is refused that must not be, and 2 where printing fails.
 */
#include <stdio.h>
#include <string.h>

#include "phengaryl.h"

/* exit statuses */
enum { RESTORED = 0, NOT_RESTORED = 1, FAILED = 2 };

enum { PLACES = 8 };

/* ---- What the station knows */

static const uint8_t aerodrome[4] = { 'X', 'Q', 'A', 'A' };

/* the tower desk, 1, has two of them, and the field desk, 2, the other */
static const phengaryl_runway_list runways = {
    .count = 3,
    .runways = { { 7, PHENGARYL_LEFT }, { 7, PHENGARYL_RIGHT }, { 16, PHENGARYL_NO_SIDE } },
    .owners = { 1, 2, 1 },
};

/* What the inspection cars called in, the desk that passed it on, and how the board has to answer. */
typedef struct report {
    uint32_t desk;
    const char *row;
    uint8_t answer;
} report;

/* the night to 1 January, on which 01010010 is later than 12312350 */
static const report reports[] = {
    { 1, "12312320 07L 6/6/6 DRY/DRY/DRY", PHENGARYL_TAKEN },
    { 2, "01010010 07R 5/5/5 100/100/75 NR/NR/NR FROST/FROST/FROST", PHENGARYL_TAKEN },
    { 1, "12312350 07L 3/5/5 75/25/25 12/NR/NR DRY SNOW/FROST/FROST 40", PHENGARYL_TAKEN },
    { 1, "01010015 07R 6/6/6 DRY/DRY/DRY", PHENGARYL_OTHERS_RUNWAY },
};

/* An earlier notice, on which the next is modelled. */
static const char model[] = "GG XQAAYNYX XQBBYOYX\n"
                            "010005 XQAAYNYX\n"
                            "SWXQ0107 XQAA 12312320\n"
                            "(SNOWTAM 0107\n"
                            "XQAA\n"
                            "12312320 07L 6/6/6 DRY/DRY/DRY\n"
                            "\n"
                            "DRIFTING SNOW. TWY A W SNOWBANK.\n"
                            "RWY 07L SWEPT 40M.)\n";

static const uint8_t *bytes_of(const char *text)
{
    return (const uint8_t *)text;
}

/* ---- The board */

/* Reports a row to a board, and tells what became of it: 0, or the refusal. */
static uint8_t report_row(const char *computer, phengaryl_board *board, uint32_t desk, phengaryl_row row)
{
    uint8_t text[PHENGARYL_LONGEST_ROW];

    phengaryl_answer answer = phengaryl_report(*board, desk, row);
    *board = answer.board;
    size_t length = phengaryl_write_row(row, text, sizeof text);
    printf("%s computer, desk %u: %.*s: ", computer, (unsigned)desk, (int)length, (const char *)text);
    if (answer.refusal != PHENGARYL_TAKEN) {
        printf("refused %u\n", answer.refusal);
    } else {
        printf("taken\n");
    }
    return answer.refusal;
}

/* The desk that owns a row's runway; 0, which is none, where it is not on the board. */
static uint32_t owner_of(const phengaryl_board *board, phengaryl_row row)
{
    for (int i = 0; i < board->count; i++) {
        if (board->runways[i].number == row.number && board->runways[i].side == row.side) {
            return board->owners[i];
        }
    }
    return 0;
}

/* ---- The old computer */

/* Takes the reports; false where one is answered otherwise than it has to be. A refused one leaves the board as it was. */
static bool keep(phengaryl_board *board)
{
    bool is_kept = true;

    for (size_t i = 0; i < sizeof reports / sizeof reports[0]; i++) {
        phengaryl_row_read read = phengaryl_read_row(bytes_of(reports[i].row), strlen(reports[i].row));
        is_kept = report_row("old", board, reports[i].desk, read.row) == reports[i].answer && is_kept;
    }
    return is_kept;
}

/* Writes the board as a notice, with the heading details, items and plain language of the model. */
static phengaryl_written write_notice(phengaryl_board board, uint8_t *notice, size_t size)
{
    phengaryl_record record = phengaryl_read(bytes_of(model), strlen(model)).record;
    phengaryl_details details = { record.addresses, record.filing, { 0 }, record.title.serial };

    memcpy(details.region, record.title.region, sizeof details.region);
    return phengaryl_write_board(board, details, record.items, record.language, notice, size);
}

/* ---- The new computer */

/* Reports the rows of a notice to a fresh board; false where the notice or one of them is refused. */
static bool restore(phengaryl_board *board, const uint8_t *notice, size_t length)
{
    static phengaryl_reading reading;

    reading = phengaryl_read(notice, length);
    for (int i = reading.record.rows.count; i > 0; i--) {
        phengaryl_row row = reading.record.rows.rows[i - 1];
        if (report_row("new", board, owner_of(board, row), row) != PHENGARYL_TAKEN) {
            return false;
        }
    }
    return reading.refusal == PHENGARYL_TAKEN;
}

/* ---- The two boards: all their places, those without a runway or a report too */

static bool same_runways(const phengaryl_board *one, const phengaryl_board *other)
{
    bool same = true;

    for (int i = 0; i < PLACES; i++) {
        same = same && one->runways[i].number == other->runways[i].number && one->runways[i].side == other->runways[i].side;
    }
    return same;
}

static bool same_third(phengaryl_third one, phengaryl_third other)
{
    return one.code == other.code && one.coverage == other.coverage && one.depth == other.depth && one.description == other.description;
}

/* Rows are not compared as bytes: what stands between the fields of a struct may be anything. */
static bool same_row(const phengaryl_row *one, const phengaryl_row *other)
{
    bool same = one->time == other->time && one->number == other->number && one->side == other->side && one->width == other->width;

    for (int i = 0; i < 3; i++) {
        same = same && same_third(one->thirds[i], other->thirds[i]);
    }
    return same;
}

static bool same_rows(const phengaryl_board *one, const phengaryl_board *other)
{
    bool same = true;

    for (int i = 0; i < PLACES; i++) {
        same = same && same_row(&one->rows[i], &other->rows[i]);
    }
    return same;
}

/* Tells of a field in which the boards differ. */
static bool compared(const char *field, bool same)
{
    if (!same) {
        printf("the boards differ: %s\n", field);
    }
    return same;
}

static bool same_boards(const phengaryl_board *one, const phengaryl_board *other)
{
    bool same = compared("aerodrome", memcmp(one->aerodrome, other->aerodrome, sizeof one->aerodrome) == 0);

    same = compared("count", one->count == other->count) && same;
    same = compared("runways", same_runways(one, other)) && same;
    same = compared("owners", memcmp(one->owners, other->owners, sizeof one->owners) == 0) && same;
    same = compared("latest", one->latest == other->latest) && same;
    return compared("rows", same_rows(one, other)) && same;
}

int main(void)
{
    static uint8_t notice[PHENGARYL_LONGEST_TEXT];

    phengaryl_board old_board = phengaryl_open(aerodrome, runways).board;
    bool is_kept = keep(&old_board);
    phengaryl_written written = write_notice(old_board, notice, sizeof notice);
    printf("the last notice:\n%.*s", (int)written.length, (const char *)notice);

    phengaryl_board new_board = phengaryl_open(aerodrome, runways).board;
    bool is_fed = restore(&new_board, notice, written.length);
    bool is_restored = same_boards(&old_board, &new_board) && is_kept && is_fed;
    if (!is_kept) {
        printf("a report is answered otherwise than it has to be\n");
    }
    if (!is_fed) {
        printf("the notice, or a row of it, is refused\n");
    }
    if (is_restored) {
        printf("the boards are equal in every field, newest %08lu\n", (unsigned long)new_board.latest);
    }
    if (fflush(stdout) != 0) {
        return FAILED;
    }
    return is_restored ? RESTORED : NOT_RESTORED;
}
