/*
 * Phengaryl: runway notices (SNOWTAM) read, written, compared, assessed and kept on a board that two desks share, exactly as document 01 and
 * requests 1 to 7 and 11 of document 02 say.
 *
 * Every function here is proved to keep the promise that its comment gives in plain words; crates/phengaryl/src/lib.rt has it in full.
 * The functions keep nothing between calls, take no memory from the heap, print nothing and always return, so any thread may call them.
 * What is handed over is judged, never trusted: a record, row or board that breaks its rules is refused by number, whoever made it.
 *
 * What a caller owes: a pointer that goes with a length points to that many bytes and is never NULL, even where the length is 0; the other
 * pointers point to one object of their type, or to as many as their array says; what is written to overlaps nothing else that is handed over;
 * a `bool` is true or false.
 *
 * The library is target/staticlib/libphengaryl.a, for x86-64 Linux; build.sh proves and writes it, and install.sh installs it.
 * include/check.sh tells whether this file and the library's sources declare the same.
 */
#ifndef PHENGARYL_H
#define PHENGARYL_H

#include <stdbool.h>
#include <stddef.h>
#include <stdint.h>

#ifdef __cplusplus
extern "C" {
#endif

/* The version of this interface. The first number grows with every change that a program has to be compiled anew for. */
#define PHENGARYL_VERSION "4.3.0"

/* A longer message is refused (1), and the canonical text of an accepted one is never longer. */
#define PHENGARYL_LONGEST_TEXT 4096

/* No listing is longer: a first line of at most 17 bytes, and the canonical text. */
#define PHENGARYL_LONGEST_LISTING 4113

/* No row's text is longer. */
#define PHENGARYL_LONGEST_ROW 147

/* No radio record is longer: a count, and eight rows of at most 20 bytes. */
#define PHENGARYL_LONGEST_RADIO 161

/* What the desk prints for an input of so many bytes is never longer. */
#define PHENGARYL_LONGEST_DESK(input_length) (3 * (size_t)(input_length) + 1186)

/*
 * Refusal numbers, as document 01 and requests 1, 2, 5 and 7 of document 02 have them. 0 means accepted, taken or written.
 */
enum phengaryl_refusal {
    PHENGARYL_TAKEN = 0,
    /* Reading a message */
    PHENGARYL_TOO_LONG = 1,              /* the message is longer than 4,096 bytes */
    PHENGARYL_LINE_1_OR_2 = 2,           /* line 1 (priority and addresses) or line 2 (filing time and originator) is missing or wrong */
    PHENGARYL_LINE_3 = 3,                /* line 3 (the heading) is missing or wrong */
    PHENGARYL_OUTLINE = 4,               /* line 4 or 5 is wrong, there is no row, a line or the closing ) is missing, or bytes follow the end */
    PHENGARYL_NO_ROW = 5,                /* a row's time is wrong or missing; at the desk also: no desk's digit and space, nothing behind them, or the line is too long */
    PHENGARYL_NINTH_ROW = 6,             /* a ninth line that is not empty stands where only eight rows may */
    PHENGARYL_RUNWAY_TWICE = 7,          /* the same runway is reported twice */
    PHENGARYL_WRONG_ITEMS = 8,           /* the awareness line: an item is wrong, out of order, repeated, one too many, or the line is empty before the closing ) */
    PHENGARYL_WRONG_LANGUAGE = 9,        /* the plain language is wrong */
    PHENGARYL_SERIALS_DIFFER = 10,       /* the two serials differ */
    PHENGARYL_AERODROMES_DIFFER = 11,    /* the two aerodromes differ */
    PHENGARYL_NOT_LATEST_TIME = 12,      /* the heading's time is not that of the latest row, in season order */
    /* Writing */
    PHENGARYL_INVALID_RECORD = 13,       /* the record to be written is not valid */
    PHENGARYL_BUFFER_TOO_SHORT = 14,     /* the buffer is shorter than the text or the radio record */
    /* Assessing an observation */
    PHENGARYL_OUT_OF_RANGE = 15,         /* a number of the observation is out of range */
    PHENGARYL_CONTRADICTION = 16,        /* the observation contradicts itself */
    /* The board */
    PHENGARYL_WRONG_BOARD = 17,          /* the aerodrome, the list of runways or an owner is wrong, or a board handed in breaks its rules */
    PHENGARYL_NOT_ON_BOARD = 18,         /* the runway is not on the board */
    PHENGARYL_INVALID_ROW = 19,          /* the row is not valid */
    PHENGARYL_NOT_LATER = 20,            /* the report is not later in the season, 1 July to 30 June, than the row shown */
    PHENGARYL_NO_REPORT = 21,            /* the board holds no report */
    PHENGARYL_OTHERS_RUNWAY = 22,        /* the runway belongs to the other desk */
    PHENGARYL_NO_DESK = 23,              /* there is no such desk */
    /* The groups of a row behind its time */
    PHENGARYL_WRONG_RUNWAY = 24,         /* the runway is wrong or missing */
    PHENGARYL_WRONG_CODES = 25,          /* the codes are wrong or missing */
    PHENGARYL_WRONG_COVERAGE_OR_DEPTH = 26, /* coverage or depth is wrong, missing, forbidden by its description, or left out where the row may not be short */
    PHENGARYL_WRONG_DESCRIPTIONS = 27,   /* the descriptions are wrong or missing */
    PHENGARYL_WRONG_WIDTH = 28,          /* the width, or what follows it or the descriptions, is wrong */
    /* Two rows */
    PHENGARYL_RUNWAYS_DIFFER = 29,       /* the rows are of different runways */
    /* The radio record */
    PHENGARYL_RECORD_CUT_SHORT = 30,     /* the record ends before all of its numbers */
    PHENGARYL_NUMBER_FORM = 31,          /* a number has a last group of zero behind another, or a third group with its high bit set */
    PHENGARYL_RADIO_VALUE = 32           /* a number or a row is not valid, there is no row, there are over eight, a runway is told twice, or bytes are left over */
};

/*
 * The fifteen descriptions of a surface, in document 01's order; 0 stands for NR, not reported.
 */
enum phengaryl_description {
    PHENGARYL_NR = 0,
    PHENGARYL_COMPACTED_SNOW = 1,
    PHENGARYL_DRY_SNOW = 2,
    PHENGARYL_DRY_SNOW_ON_TOP_OF_COMPACTED_SNOW = 3,
    PHENGARYL_DRY_SNOW_ON_TOP_OF_ICE = 4,
    PHENGARYL_FROST = 5,
    PHENGARYL_ICE = 6,
    PHENGARYL_SLUSH = 7,
    PHENGARYL_STANDING_WATER = 8,
    PHENGARYL_WATER_ON_TOP_OF_COMPACTED_SNOW = 9,
    PHENGARYL_WET = 10,
    PHENGARYL_WET_ICE = 11,
    PHENGARYL_WET_SNOW = 12,
    PHENGARYL_WET_SNOW_ON_TOP_OF_COMPACTED_SNOW = 13,
    PHENGARYL_WET_SNOW_ON_TOP_OF_ICE = 14,
    PHENGARYL_DRY = 15
};

/*
 * The side of a runway.
 */
enum phengaryl_side {
    PHENGARYL_NO_SIDE = 0,
    PHENGARYL_LEFT = 1,
    PHENGARYL_CENTRE = 2,
    PHENGARYL_RIGHT = 3
};

/* ---- Surfaces and rows */

/* What is reported of a third of a runway. */
typedef struct phengaryl_third {
    uint8_t code;                        /* 0 to 6 */
    uint8_t coverage;                    /* 25, 50, 75, 100 per cent; 0 for NR */
    uint16_t depth;                      /* millimetres, to 999; 0 for NR */
    uint8_t description;                 /* enum phengaryl_description; 0 for NR */
} phengaryl_third;

/* What is seen on a third of a runway. The numbers are as wide as an int, so that none is cut down to one that would be taken. */
typedef struct phengaryl_observation {
    uint32_t kind;                       /* enum phengaryl_description, 1 to 15 */
    uint32_t cover;                      /* 0 to 100 per cent */
    uint32_t depth;                      /* 0 to 999 millimetres */
    int32_t temperature;                 /* of the outside air, in tenths of a degree Celsius, -600 to 600 */
    bool slippery;                       /* for WET only */
} phengaryl_observation;

/* What is to be reported of an observation. */
typedef struct phengaryl_assessment {
    uint8_t refusal;                     /* 0, 15 or 16 */
    phengaryl_third third;               /* zeros where it is refused */
} phengaryl_assessment;

/* A runway row. */
typedef struct phengaryl_row {
    uint32_t time;                       /* of the observation, MMDDhhmm as a number */
    uint8_t number;                      /* of the runway, 1 to 18 */
    uint8_t side;                        /* enum phengaryl_side */
    phengaryl_third thirds[3];
    uint8_t width;                       /* in metres, 1 to 99; 0 where it is missing */
} phengaryl_row;

/* A row that was read. */
typedef struct phengaryl_row_read {
    uint8_t refusal;                     /* 0, 5, or 24 to 28 */
    size_t place;                        /* the first byte of the group at fault; 0 where it is taken */
    phengaryl_row row;                   /* zeros where it is refused */
} phengaryl_row_read;

/* How far a row agrees with Table 1. */
typedef struct phengaryl_agreement {
    uint8_t refusal;                     /* 0 or 19 */
    uint8_t count;                       /* how many thirds have a code that Table 1 does not allow; 0 where it is refused */
} phengaryl_agreement;

/* What a new row changes. */
typedef struct phengaryl_change {
    uint8_t refusal;                     /* 0, 19 or 29 */
    bool counts[3];                      /* whether the change of each third counts; false where it is refused */
    bool due;                            /* whether a new notice is due; false where it is refused */
} phengaryl_change;

/* ---- The notice: a record and its parts. Arrays hold zeros past the count. */

/* Line 1. */
typedef struct phengaryl_addresses {
    uint8_t priority;                    /* 1 GG, 2 DD */
    uint8_t count;                       /* 1 to 8 addresses */
    uint8_t letters[64];                 /* eight letters for each */
} phengaryl_addresses;

/* Line 2. */
typedef struct phengaryl_filing {
    uint32_t time;                       /* DDhhmm as a number */
    uint8_t originator[8];               /* eight letters */
} phengaryl_filing;

/* Line 3. The heading's time is that of the latest row, so it is not told. */
typedef struct phengaryl_title {
    uint8_t region[2];                   /* two letters */
    uint16_t serial;                     /* 1 to 9999 */
    uint8_t aerodrome[4];                /* four letters */
} phengaryl_title;

/* The rows of a notice or of a radio record, no runway twice. */
typedef struct phengaryl_rows {
    uint8_t count;                       /* 1 to 8 */
    phengaryl_row rows[8];
} phengaryl_rows;

/* An item of the awareness line; a field that its letter has no use for is 0. */
typedef struct phengaryl_item {
    uint16_t amount;                     /* I: the length, 100 to 9999 metres; M: the distance, 1 to 99 metres */
    uint8_t letter;                      /* 'I' to 'P', or 'R' */
    uint8_t number;                      /* I K L M O: the runway, 1 to 18, and to 36 in I */
    uint8_t side;                        /* I K L M O: enum phengaryl_side */
    uint8_t edge;                        /* M: 1 L, 2 R, 3 LR */
    uint8_t count;                       /* N P: how many taxiways, to 8; P with none is ALL TWY */
    uint8_t taxiways[24];                /* N P: three bytes for each: its 1 to 3 capitals and digits, zeros behind them */
    uint8_t name[16];                    /* R: the apron's name, zeros behind it; none is ALL APRON */
} phengaryl_item;

/* The awareness line. */
typedef struct phengaryl_items {
    uint8_t count;                       /* 0 to 32 */
    phengaryl_item items[32];
} phengaryl_items;

/* The plain language. */
typedef struct phengaryl_language {
    uint16_t length;                     /* 0 to 400 */
    uint8_t bytes[400];
} phengaryl_language;

/* A whole notice. */
typedef struct phengaryl_record {
    phengaryl_addresses addresses;
    phengaryl_filing filing;
    phengaryl_title title;
    phengaryl_rows rows;
    phengaryl_items items;
    phengaryl_language language;
} phengaryl_record;

/* A message that was read. */
typedef struct phengaryl_reading {
    uint8_t refusal;                     /* 0, 1 to 12, or 24 to 28 */
    size_t place;                        /* the byte that the refusal is about; 0 where it is taken */
    phengaryl_record record;             /* zeros where it is refused */
} phengaryl_reading;

/* What became of a writing. */
typedef struct phengaryl_written {
    uint8_t refusal;                     /* 0, or the number of the first thing that is wrong */
    size_t length;                       /* how many bytes of the buffer were filled; 0 where it is refused, and then none was touched */
} phengaryl_written;

/* ---- The radio record */

/* A radio record that was read. */
typedef struct phengaryl_radio {
    uint8_t refusal;                     /* 0, or 30 to 32 */
    phengaryl_rows rows;                 /* zeros past the count; all zeros where it is refused */
} phengaryl_radio;

/* ---- The board */

/* A runway. */
typedef struct phengaryl_runway {
    uint8_t number;                      /* 1 to 18 */
    uint8_t side;                        /* enum phengaryl_side */
} phengaryl_runway;

/* Runways in rising order, by number and then by side, and the desk that owns each; zeros past the count. */
typedef struct phengaryl_runway_list {
    uint8_t count;                       /* 1 to 8 */
    phengaryl_runway runways[8];
    uint8_t owners[8];                   /* desk 1 or 2; one may own them all */
} phengaryl_runway_list;

/* A board. It may be kept and copied as it is; a place whose row is all zeros has no report yet. */
typedef struct phengaryl_board {
    uint8_t aerodrome[4];                /* four letters */
    uint8_t count;                       /* 1 to 8 runways, in rising order */
    phengaryl_runway runways[8];
    uint8_t owners[8];                   /* the desk that owns each, 1 or 2 */
    uint32_t latest;                     /* the time of the row observed last in the season, MMDDhhmm as a number; 0 where none is shown */
    phengaryl_row rows[8];               /* the row shown for each */
} phengaryl_board;

/* What became of an opening or a report. */
typedef struct phengaryl_answer {
    uint8_t refusal;                     /* 0, or the number of the first thing that is wrong */
    phengaryl_board board;               /* the board afterwards; a refused report leaves it as it was, a refused opening gives zeros */
} phengaryl_answer;

/* What the heading of a board's notice says besides the aerodrome and the time. */
typedef struct phengaryl_details {
    phengaryl_addresses addresses;
    phengaryl_filing filing;
    uint8_t region[2];
    uint16_t serial;
} phengaryl_details;

/* ---- Messages and records */

/*
 * Reads a message: its record, or the number of the first thing that is wrong with it, 1 to 12 or 24 to 28, and its place.
 */
phengaryl_reading phengaryl_read(const uint8_t *message, size_t length);

/*
 * Writes a record as a message in canonical form. 13 where the record is not valid, then 14 where the buffer is too short.
 * Later bytes of `out` stay as they were. PHENGARYL_LONGEST_TEXT bytes always suffice.
 */
phengaryl_written phengaryl_write(phengaryl_record record, uint8_t *out, size_t size);

/*
 * Writes an accepted message anew in canonical form: the number of the reading where the message is refused, then 14.
 * Later bytes of `out` stay as they were. PHENGARYL_LONGEST_TEXT bytes always suffice.
 */
phengaryl_written phengaryl_rewrite(const uint8_t *message, size_t length, uint8_t *out, size_t size);

/*
 * Answers whether two messages tell the same: both are accepted, and they say the same, however they are typed. A refused message tells the same
 * as none, not even as itself.
 */
bool phengaryl_same(const uint8_t *one, size_t one_length, const uint8_t *other, size_t other_length);

/*
 * Puts what the lister prints of a message into `out`: a line `ACCEPTED rows items disagreeing` and the canonical text, or a line `REFUSED n`.
 * Answers how many bytes that is. Where it is more than `size`, only the first `size` bytes were put; bytes behind the text stay as they were.
 * PHENGARYL_LONGEST_LISTING bytes always suffice.
 */
size_t phengaryl_list(const uint8_t *message, size_t length, uint8_t *out, size_t size);

/* ---- Observations and rows */

/*
 * Assesses an observation: the third that is to be reported, or 15, or 16.
 */
phengaryl_assessment phengaryl_assess(phengaryl_observation observation);

/*
 * Counts the thirds of a row whose code is not one that Table 1 allows; 19 where the row is not valid.
 */
phengaryl_agreement phengaryl_disagreeing(phengaryl_row row);

/*
 * Tells which thirds of a new row count, and whether a new notice is due. A third counts where its code, coverage or description differs, where one
 * depth is NR and the other is a number, or where the depths differ by what Table 3 has or more: 3 mm of STANDING WATER or SLUSH, 5 of WET SNOW, 20
 * of DRY SNOW. A notice is due where a third counts or the width differs; the times don't matter. 19 where either row is not valid, 29 where they
 * are of different runways. The answer is the same with the rows exchanged.
 */
phengaryl_change phengaryl_due(phengaryl_row old_row, phengaryl_row new_row);

/*
 * Reads the text of a row, without its line end: the row, or 5 or 24 to 28 and the place of the
 * group at fault. A text of any length is read; it is the desk that refuses a line over 4,096 bytes.
 */
phengaryl_row_read phengaryl_read_row(const uint8_t *text, size_t length);

/*
 * Writes a row in canonical form, without a line end, and answers how many bytes were filled; later bytes of `out` stay as they were.
 * 0 where the row is not valid or the buffer is too short: then no byte is touched. PHENGARYL_LONGEST_ROW bytes always suffice.
 */
size_t phengaryl_write_row(phengaryl_row row, uint8_t *out, size_t size);

/* ---- The radio record of the inspection cars */

/*
 * Writes rows as a radio record: numbers in groups of seven bits, low group first, the high bit set on all but the last group. They are the count,
 * and for each row the minutes since 1 January 00:00 of a leap year, the runway's number times four plus its side, three codes, three coverages in
 * quarters, 0 for NR, three depths, three descriptions and the width. 32 where there is no row or the count is over eight, 19 where a row is not
 * valid, 32 where a runway is told twice, 14 where the buffer is too short. The order of the rows is kept; rows past the count are not looked at.
 * Later bytes of `out` stay as they were. PHENGARYL_LONGEST_RADIO bytes always suffice.
 */
phengaryl_written phengaryl_radio_write(phengaryl_rows rows, uint8_t *out, size_t size);

/*
 * Reads a radio record: its rows, or the first thing from the left that is wrong: 30 where the record is cut short, 31 where a number has a
 * last group of zero behind another or a third group with its high bit set, 32 where a number may not be told there, a row is not valid, a runway is told twice, or bytes are left over.
 * What is wrong with one number is told at once, what is wrong with the whole row behind its width. Written again, the rows are the same record.
 */
phengaryl_radio phengaryl_radio_read(const uint8_t *record, size_t length);

/* ---- The board */

/*
 * Opens a board for the runways of an aerodrome, each with its owner, none reported yet; 17 where the aerodrome or the list is wrong.
 */
phengaryl_answer phengaryl_open(const uint8_t aerodrome[4], phengaryl_runway_list list);

/*
 * Reports a row to a board: it is shown if the desk that sends it owns its runway and it is later than the row shown there. 17 where the board
 * breaks its rules, 23 where there is no such desk, 19 where the row is not valid, 18 where its runway is not on the board, 22 where it belongs
 * to the other desk, 20 where the row is not later. So neither desk's reports change the other's answers, or the rows of the other's runways.
 * The desk is as wide as an int, so that no number is cut down to one that would be taken.
 */
phengaryl_answer phengaryl_report(phengaryl_board board, uint32_t desk, phengaryl_row row);

/*
 * Answers whether a board keeps its rules, that is, whether reports to it and its writing are not refused by 17.
 */
bool phengaryl_valid_board(phengaryl_board board);

/*
 * Writes a board as a notice: its rows in board order, with the stored time in the heading. 17 where the board breaks its rules, 21 where it
 * holds no report, 13 where the details, items or plain language are not valid, 14 where the buffer is too short.
 * Later bytes of `out` stay as they were. PHENGARYL_LONGEST_TEXT bytes always suffice. The notice carries the board: its rows, read and reported in
 * any order, each by its runway's owner, to a fresh board of the same opening make this board again.
 */
phengaryl_written phengaryl_write_board(phengaryl_board board, phengaryl_details details, phengaryl_items items, phengaryl_language language,
                                        uint8_t *out, size_t size);

/* ---- The desk's text */

/*
 * Puts what the desk prints for a whole input into `out`. The input is a line with the aerodrome and its runways, each with its owner as in `07L/1`,
 * and then one runway row a line behind the digit of the desk that sends it and one space. The text is `REFUSED 17` where no board is opened; else
 * `OPEN`, then 0 or the refusal number of each row line, and at the end the rows shown, in board order and without a desk. Answers how many bytes the
 * text has, but never more than `size` + 65536: a longer text is told as that. Where it is more than `size`, only the first `size` bytes were put;
 * bytes behind the text stay as they were. PHENGARYL_LONGEST_DESK(length) bytes always suffice.
 */
size_t phengaryl_desk(const uint8_t *input, size_t length, uint8_t *out, size_t size);

/*
 * Writes the board that the desk keeps after a whole input as a notice, with the heading details, items and plain language of the message
 * `model`, answers 0 and stores how many bytes were filled. 17 where the input opens no board, 21 where the board holds no report, 13 where
 * `model` is refused, 14 where the buffer is too short: then no byte of `out` is touched and 0 is stored.
 * PHENGARYL_LONGEST_TEXT bytes always suffice.
 */
uint8_t phengaryl_board_notice(const uint8_t *desk, size_t desk_length, const uint8_t *model, size_t model_length, uint8_t *out, size_t size,
                               size_t *filled);

#ifdef __cplusplus
}
#endif

#endif
