/*
 * A small terminal: keeps the board of an aerodrome while two desks pass on what the inspection cars call in, and writes it as a notice.
 *
 *     terminal MODEL AERODROME RUNWAY/DESK... <REPORTS >NOTICE
 *
 * The runways stand in rising order, each with the desk that owns it, 1 or 2, as 07L/1 07R/2. Reports are runway rows on standard input, one a
 * line, each behind the digit of the desk that sends it and one space; lines end with LF or CR LF, and the last may lack its end. Each is
 * answered on standard error: taken, with the row as the board shows it now, or refused; the time of the newest observation shown follows.
 * At the end the notice goes to standard output, with the heading details, items and plain language of the message in the file MODEL.
 *
 * The exit status is 0 where the notice is written, 1 where the board, the model or the notice is refused, and 2 for wrong use or where
 * reading or writing fails. A refused report changes neither the board nor the status.
 */
#include <stdio.h>
#include <string.h>

#include "phengaryl.h"

/* exit statuses */
enum { WRITTEN = 0, REFUSED = 1, FAILED = 2 };

/* The refusals in plain words, by their numbers. */
static const char *const words[] = {
    [PHENGARYL_TAKEN] = "taken",
    [PHENGARYL_TOO_LONG] = "the message is longer than 4,096 bytes",
    [PHENGARYL_LINE_1_OR_2] = "line 1 or 2 (addresses, filing time and originator) is missing or wrong",
    [PHENGARYL_LINE_3] = "line 3 (the heading) is missing or wrong",
    [PHENGARYL_OUTLINE] = "the outline of the message is wrong",
    [PHENGARYL_NO_ROW] = "the row's time is wrong or missing, or this is a report without a desk's digit",
    [PHENGARYL_NINTH_ROW] = "there are more than eight rows",
    [PHENGARYL_RUNWAY_TWICE] = "the same runway is reported twice",
    [PHENGARYL_WRONG_ITEMS] = "the awareness line is wrong",
    [PHENGARYL_WRONG_LANGUAGE] = "the plain language is wrong",
    [PHENGARYL_SERIALS_DIFFER] = "the two serials differ",
    [PHENGARYL_AERODROMES_DIFFER] = "the two aerodromes differ",
    [PHENGARYL_NOT_LATEST_TIME] = "the heading's time is not that of the latest row",
    [PHENGARYL_INVALID_RECORD] = "the record is not valid",
    [PHENGARYL_BUFFER_TOO_SHORT] = "the buffer is shorter than the text",
    [PHENGARYL_OUT_OF_RANGE] = "the observation is out of range",
    [PHENGARYL_CONTRADICTION] = "the observation contradicts itself",
    [PHENGARYL_WRONG_BOARD] = "the aerodrome, the list of runways or an owner is wrong",
    [PHENGARYL_NOT_ON_BOARD] = "the runway is not on the board",
    [PHENGARYL_INVALID_ROW] = "the row is not valid",
    [PHENGARYL_NOT_LATER] = "the report is not later than the row shown",
    [PHENGARYL_NO_REPORT] = "the board holds no report",
    [PHENGARYL_OTHERS_RUNWAY] = "the runway belongs to the other desk",
    [PHENGARYL_NO_DESK] = "there is no such desk",
    [PHENGARYL_WRONG_RUNWAY] = "the row's runway is wrong or missing",
    [PHENGARYL_WRONG_CODES] = "the row's codes are wrong or missing",
    [PHENGARYL_WRONG_COVERAGE_OR_DEPTH] = "the row's coverage or depth is wrong or missing",
    [PHENGARYL_WRONG_DESCRIPTIONS] = "the row's descriptions are wrong or missing",
    [PHENGARYL_WRONG_WIDTH] = "the row's width or what follows it is wrong",
};

static int refused(const char *what, uint8_t refusal)
{
    fprintf(stderr, "%s: refused %d, %s\n", what, refusal, words[refusal]);
    return REFUSED;
}

static int failed(const char *what)
{
    perror(what);
    return FAILED;
}

/* Reads the message of a file; false where the file cannot be read. */
static bool read_model(const char *path, phengaryl_reading *model)
{
    /* one byte more than a message may have, so that a longer one is refused for its length */
    static uint8_t message[PHENGARYL_LONGEST_TEXT + 1];

    FILE *file = fopen(path, "rb");
    if (file == NULL) {
        return false;
    }
    size_t length = fread(message, 1, sizeof message, file);
    bool is_read = !ferror(file);
    fclose(file);
    *model = phengaryl_read(message, length);
    return is_read;
}

/* ---- The board */

static bool is_digit(int c)
{
    return '0' <= c && c <= '9';
}

/* A runway and the desk that owns it. */
typedef struct owned_runway {
    phengaryl_runway runway;
    uint8_t owner;
} owned_runway;

/* A runway such as 07/1 or 07L/2. What is none becomes zeros, which the library refuses. */
static owned_runway runway_of(const char *text)
{
    static const char sides[] = "LCR";
    const owned_runway none = { { 0, PHENGARYL_NO_SIDE }, 0 };
    owned_runway owned = none;

    size_t length = strlen(text);
    if (length < 4 || length > 5 || !is_digit(text[0]) || !is_digit(text[1])) {
        return none;
    }
    if (text[length - 2] != '/' || !is_digit(text[length - 1])) {
        return none;
    }
    owned.runway.number = (uint8_t)(10 * (text[0] - '0') + (text[1] - '0'));
    owned.owner = (uint8_t)(text[length - 1] - '0');
    if (length == 5) {
        const char *side = strchr(sides, text[2]);
        if (side == NULL) {
            return none;
        }
        owned.runway.side = (uint8_t)(PHENGARYL_LEFT + (side - sides));
    }
    return owned;
}

static phengaryl_answer open_board(const char *name, char *const *runways, int count)
{
    enum { PLACES = 8 };
    phengaryl_runway_list list = { 0 };
    uint8_t aerodrome[4] = { 0 };

    /* a name of another length stays zeros, and nine runways are as wrong as more; the library refuses both */
    if (strlen(name) == sizeof aerodrome) {
        memcpy(aerodrome, name, sizeof aerodrome);
    }
    list.count = (uint8_t)(count <= PLACES ? count : PLACES + 1);
    for (int i = 0; i < count && i < PLACES; i++) {
        owned_runway owned = runway_of(runways[i]);
        list.runways[i] = owned.runway;
        list.owners[i] = owned.owner;
    }
    return phengaryl_open(aerodrome, list);
}

/* ---- Reports */

/* A line without its end. `length` tells an over-long one, of which only the first bytes are kept. */
typedef struct line {
    size_t length;
    uint8_t bytes[PHENGARYL_LONGEST_TEXT + 1];
} line;

/* Reads the next line of standard input; false where there is none. */
static bool next_line(line *next)
{
    int byte = getchar();
    if (byte == EOF) {
        return false;
    }
    next->length = 0;
    for (; byte != EOF && byte != '\n'; byte = getchar()) {
        if (next->length < sizeof next->bytes) {
            next->bytes[next->length] = (uint8_t)byte;
        }
        next->length++;
    }
    bool fits = 0 < next->length && next->length <= sizeof next->bytes;
    if (byte == '\n' && fits && next->bytes[next->length - 1] == '\r') {
        next->length--;
    }
    return true;
}

/* What a line has before its row: the digit of the desk that sends it, and a space. */
enum { START = 2 };

static bool has_start(const line *report)
{
    return report->length >= START && is_digit(report->bytes[0]) && report->bytes[1] == ' ';
}

/* What became of a line that was reported, and the row that it holds. */
static phengaryl_row_read report_line(phengaryl_board *board, const line *report)
{
    phengaryl_row_read read = { PHENGARYL_NO_ROW, 0, { 0 } };

    if (report->length <= PHENGARYL_LONGEST_TEXT && has_start(report)) {
        read = phengaryl_read_row(report->bytes + START, report->length - START);
    }
    if (read.refusal == PHENGARYL_TAKEN) {
        phengaryl_answer answer = phengaryl_report(*board, (uint32_t)(report->bytes[0] - '0'), read.row);
        *board = answer.board;
        read.refusal = answer.refusal;
    }
    return read;
}

static void answer_report(unsigned long number, phengaryl_row_read report)
{
    char what[32];
    uint8_t text[PHENGARYL_LONGEST_ROW];

    snprintf(what, sizeof what, "line %lu", number);
    if (report.refusal != PHENGARYL_TAKEN) {
        refused(what, report.refusal);
        return;
    }
    size_t length = phengaryl_write_row(report.row, text, sizeof text);
    fprintf(stderr, "%s: taken, %.*s\n", what, (int)length, (const char *)text);
}

static void take_reports(phengaryl_board *board)
{
    static line report;

    for (unsigned long number = 1; next_line(&report); number++) {
        answer_report(number, report_line(board, &report));
    }
}

/* ---- The notice */

static int write_notice(phengaryl_board board, const phengaryl_record *model)
{
    static uint8_t notice[PHENGARYL_LONGEST_TEXT];
    phengaryl_details details = { model->addresses, model->filing, { 0 }, model->title.serial };

    memcpy(details.region, model->title.region, sizeof details.region);
    phengaryl_written written = phengaryl_write_board(board, details, model->items, model->language, notice, sizeof notice);
    if (written.refusal != PHENGARYL_TAKEN) {
        return refused("notice", written.refusal);
    }
    if (fwrite(notice, 1, written.length, stdout) != written.length || fflush(stdout) != 0) {
        return failed("notice");
    }
    return WRITTEN;
}

int main(int argc, char **argv)
{
    static phengaryl_reading model;

    if (argc < 4) {
        fprintf(stderr, "usage: terminal MODEL AERODROME RUNWAY/DESK... <REPORTS >NOTICE\n");
        return FAILED;
    }
    if (!read_model(argv[1], &model)) {
        return failed(argv[1]);
    }
    if (model.refusal != PHENGARYL_TAKEN) {
        return refused("model", model.refusal);
    }
    phengaryl_answer opened = open_board(argv[2], argv + 3, argc - 3);
    if (opened.refusal != PHENGARYL_TAKEN) {
        return refused("board", opened.refusal);
    }
    take_reports(&opened.board);
    if (ferror(stdin)) {
        return failed("reports");
    }
    if (opened.board.latest != 0) {
        fprintf(stderr, "newest %08lu\n", (unsigned long)opened.board.latest);
    }
    int status = write_notice(opened.board, &model.record);
    return ferror(stderr) ? FAILED : status;
}
