/*
 * desk.h - filing files: read, judged, replaced, verified, shown, set, listed and counted.
 *
 * A filing file is one header and n stations, 0 <= n <= 298, each a record of 219 bytes, with
 * nothing between them. Its sheet has 5n + 10 bytes: for each station its code, its twin (two
 * bytes) and its clash (two bytes), then the trailer: distance from the sheet's end back to its
 * first row (two bytes), width 5, header code, lowest bad row or 0 (two bytes), number of bad rows
 * (two bytes), "2C". Numbers of two bytes have the high one first.
 *
 * A twin is the lowest station before this one that bears its 13X, a clash the lowest before it
 * whose operator and site, places 6 to 11 of 13X, are the same while the value of 4C or of 9Y is
 * another, neither of the two breaking a rule; 0 if there is none. Sheets of older forms end in "2A"
 * (2n + 8 bytes) or "2B" (3n + 10 bytes) and say nothing of clashes. By their length or their mark
 * they are refused with 3 or 4: judge the file again.
 *
 * Every function but desk_carriage_number and desk_rules returns the number of its refusal,
 * DESK_DONE (0) if there is none. Where more than one refusal applies the lowest number is given,
 * unless the function says otherwise. A refused call changes no lent byte. The answers behind
 * `code`, `rows`, `found`, `offset`, `length` and `count` are always written; `code` is 0 with any refusal
 * but DESK_REFUSED_RULE_BROKEN (9).
 *
 * Each pointer and the length after it are one lent slice. No pointer may be NULL, even where the
 * length is 0, and no two slices of a call may overlap. No pointer is kept after the call, and
 * calls share no state.
 */
#ifndef DESK_H
#define DESK_H

#include <stddef.h>
#include <stdint.h>

#ifdef __cplusplus
extern "C" {
#endif

/* Lengths in bytes, and the most stations that a file holds. */
#define DESK_RECORD_LENGTH 219u
#define DESK_MAX_STATIONS 298u
#define DESK_MAX_FILE_LENGTH 65481u
#define DESK_SHEET_LENGTH(stations) (5u * (stations) + 10u)

/* The longest line that is written: 219 columns, 29 semicolons and the line feed. */
#define DESK_MAX_LINE_LENGTH 249u

/* The length of a save in a trace. */
#define DESK_SAVE_LENGTH 222u

/* The numbers of the refusals. */
enum desk_refusal {
    DESK_DONE = 0,                       /* not refused */
    DESK_REFUSED_FILE_TOO_LONG = 1,      /* the file is longer than 65,481 bytes */
    DESK_REFUSED_FILE_NOT_RECORDS = 2,   /* the file's length is zero or no multiple of 219 */
    DESK_REFUSED_SHEET_LENGTH = 3,       /* the lent sheet is not exactly 5n + 10 bytes */
    DESK_REFUSED_SHEET_TRAILER = 4,      /* the trailer lacks "2C", width 5 or distance 5n + 10 */
    DESK_REFUSED_NO_SUCH_RECORD = 5,     /* the record number is above n (0 is the header) */
    DESK_REFUSED_RECORD_LENGTH = 6,      /* the record offered is not 219 bytes */
    DESK_REFUSED_BUFFER_LENGTH = 7,      /* the buffer to write into is not 219 bytes */
    DESK_REFUSED_NO_SUCH_FIELD = 8,      /* stations have fields 1 to 30, the header 1 to 14 */
    DESK_REFUSED_RULE_BROKEN = 9,        /* a record or value breaks a rule; its code comes too */
    DESK_REFUSED_NOT_A_LINE = 10,        /* not its semicolons and one line feed, the last byte */
    DESK_REFUSED_FIELD_TOO_LONG = 11,    /* a field of the line is longer than its columns */
    DESK_REFUSED_BUFFER_TOO_SHORT = 12,  /* the lent buffer is shorter than the line */
    /* 13 is given by no call */
    DESK_REFUSED_NOT_TWELVE_DIGITS = 14, /* the vehicle number has not twelve digits */
    DESK_REFUSED_LAST_DIGIT_WRONG = 15,  /* the vehicle number's last digit is wrong */
    DESK_REFUSED_NOT_MOBILE = 16,        /* the defaults are not an accepted ML station */
    DESK_REFUSED_TOO_FEW_ROWS = 17       /* fewer rows are lent than operators are found */
};

/* The bytes of a row of desk_operators, and the most operators that a file can have. */
#define DESK_OPERATOR_WIDTH 22u
#define DESK_MAX_OPERATORS 100u

/* What desk_verify finds. */
enum desk_found {
    DESK_FOUND_NOTHING = 0,  /* the call is refused */
    DESK_FOUND_RIGHT = 1,    /* it is the sheet that the file is judged to */
    DESK_FOUND_WRONG = 2     /* it is not */
};

/*
 * Judges a file and fills its sheet.
 * Refusals: 1, 2, 3.
 */
uint8_t desk_judge(const uint8_t *file, size_t file_length,
                   uint8_t *sheet, size_t sheet_length);

/*
 * Puts a record into the file as number `number`, 0 being the header, and mends the sheet: row
 * `number` and every later row whose operator and site, places 6 to 11 of 13X, equal the old or the
 * new ones are written, the trailer follows. Records that break rules are put in as well. `rows` is the number of rows written, 0
 * for the header and on a refusal.
 * Refusals: 1 to 6.
 */
uint8_t desk_replace(uint8_t *file, size_t file_length,
                     uint8_t *sheet, size_t sheet_length,
                     size_t number,
                     const uint8_t *record, size_t record_length,
                     size_t *rows);

/*
 * Tells whether a sheet is the one that the file is judged to, without changing either: `found` is
 * DESK_FOUND_RIGHT if every byte is right, and DESK_FOUND_WRONG if not; then `offset` is that of the
 * first wrong byte, from 0. `offset` is 0 otherwise. A sheet that desk_judge filled and desk_replace
 * mended is always right. A trailer of other bytes is no refusal here: it is wrong at its offset.
 * Refusals: 1, 2, 3; `found` is then DESK_FOUND_NOTHING.
 */
uint8_t desk_verify(const uint8_t *file, size_t file_length,
                    const uint8_t *sheet, size_t sheet_length,
                    uint8_t *found, size_t *offset);

/*
 * Writes a row of DESK_OPERATOR_WIDTH bytes for each operator that has a station with code 0,
 * ascending by code, one after the other from the start of `out`: bytes 0 and 1 are the operator's
 * code, two digits (places 6 and 7 of 13X), 2 and 3 the number of its stations with code 0, 4 and 5
 * of those with a transmit frequency, 6 to 13 the lowest and 14 to 21 the highest of these in
 * hundredths of a hertz. Numbers have their high byte first, as in a sheet. Bytes 6 to 21 are spaces
 * where no station has a transmit frequency; no frequency has such bytes. `count` is the number of
 * rows, 0 on a refusal. Bytes past the last row keep what they held; what is left of `out` behind
 * its last whole row is no room. DESK_OPERATOR_WIDTH times DESK_MAX_OPERATORS bytes are enough for
 * any file.
 * Refusals: 1, 2, 17.
 */
uint8_t desk_operators(const uint8_t *file, size_t file_length,
                       uint8_t *out, size_t out_length,
                       size_t *count);

/*
 * Finds field `field` of record `number`, 0 being the header, in the file: its first byte stands
 * at `offset` from the file's start and it has `length` bytes. Both are 0 on a refusal.
 * Refusals: 1, 2, 5, 8.
 */
uint8_t desk_show(const uint8_t *file, size_t file_length,
                  size_t number, size_t field,
                  size_t *offset, size_t *length);

/*
 * Judges one record as a station; `code` is that of its first broken rule, 1 to 39.
 * Refusals: 6, 9.
 */
uint8_t desk_station_code(const uint8_t *record, size_t record_length, uint8_t *code);

/*
 * The same, and `kind` is that of what is wrong with the field of the code: 1 a byte that the field admits at no place, 2 a number, place
 * or date outside its range or a unit at odds with its frequency, 3 what cannot be read, 4 a rule between fields (codes 31 to 39), and 0
 * where no rule is broken or the record is refused with 6. docs/RULES.md says for each code what each kind means. Refusals: 6, 9.
 */
uint8_t desk_station_kind(const uint8_t *record, size_t record_length, uint8_t *code, uint8_t *kind);

/*
 * The same from the second judge, which walks the table of docs/TABLE.md: the answers of desk_station_kind on every record.
 */
uint8_t desk_station_second(const uint8_t *record, size_t record_length, uint8_t *code, uint8_t *kind);

/*
 * Judges one record as a header; `code` is that of its first broken rule, 1 to 14.
 * Refusals: 6, 9.
 */
uint8_t desk_header_code(const uint8_t *record, size_t record_length, uint8_t *code);

/*
 * Reads a station and writes it into `out` in the one spelling.
 * Refusals: 6 (record), 7 (out), 9.
 */
uint8_t desk_respell_station(const uint8_t *record, size_t record_length,
                             uint8_t *out, size_t out_length, uint8_t *code);

/*
 * Reads a header and writes it into `out` in the one spelling. The fax, columns 147 to 166, is judged and
 * not kept: spaces are written there, whatever the record has.
 * Refusals: 6 (record), 7 (out), 9.
 */
uint8_t desk_respell_header(const uint8_t *record, size_t record_length,
                            uint8_t *out, size_t out_length, uint8_t *code);

/*
 * The setters read the station of a record, change one value and write the station back into the
 * same record in the one spelling. With `filled` 0 the value becomes blank and the number is not
 * looked at; with any other `filled` it becomes the number. A record that breaks rules is refused
 * with its own first code, even where the new value would mend it; otherwise `code` is that of
 * the first rule that the changed station breaks.
 * Refusals: 6, 9.
 */

/* Sets the power 8B1, in tenths of dBW. */
uint8_t desk_set_power(uint8_t *record, size_t record_length,
                       uint8_t filled, int64_t tenths, uint8_t *code);

/* Sets the azimuth 9A, in tenths of a degree. */
uint8_t desk_set_azimuth(uint8_t *record, size_t record_length,
                         uint8_t filled, int64_t tenths, uint8_t *code);

/* Sets the elevation 9B, in tenths of a degree. */
uint8_t desk_set_elevation(uint8_t *record, size_t record_length,
                           uint8_t filled, int64_t tenths, uint8_t *code);

/* Sets the height above sea 4Z, in metres. */
uint8_t desk_set_height(uint8_t *record, size_t record_length,
                        uint8_t filled, int64_t metres, uint8_t *code);

/* Sets the height above ground 9Y, in metres; it is never blank. */
uint8_t desk_set_ground(uint8_t *record, size_t record_length,
                        int64_t metres, uint8_t *code);

/*
 * Runs the day again: judges the morning's list into the sheet, and then runs the saves of a trace
 * on both, one after the other, as desk_replace does. A save has DESK_SAVE_LENGTH bytes: three digits
 * for the record's number, 000 being the header, then the record. One whose number is above n is
 * counted in `refused` and the run goes on, every other in `accepted`. A save whose first three bytes
 * are not digits stops the run, and so does a last one cut short; `stopped` is its number, counted
 * from 1, or 0, it is counted in neither, and the saves before it stand. A trace may be handed over
 * in parts of whole saves, each call on what the one before left: lists and sheets end the same and
 * counts add up. On a refusal all three numbers are 0.
 * Refusals: 1, 2, 3.
 */
uint8_t desk_replay(uint8_t *file, size_t file_length,
                    uint8_t *sheet, size_t sheet_length,
                    const uint8_t *trace, size_t trace_length,
                    size_t *accepted, size_t *refused, size_t *stopped);

/*
 * A line of a semicolon list is a station's thirty fields in column order, joined by semicolons
 * and ended by a line feed.
 */

/*
 * Reads the station of a record and writes it into `line` as a line: each field in the one
 * spelling, without its leading and trailing spaces; only 13Z keeps them. `length` is the line's
 * length, its line feed included, and 0 on a refusal; bytes of `line` after it stay. A buffer of
 * DESK_MAX_LINE_LENGTH has room for every line.
 * Refusals, in this order: 6, 9, 12.
 */
uint8_t desk_list_out(const uint8_t *record, size_t record_length,
                      uint8_t *line, size_t line_length,
                      size_t *length, uint8_t *code);

/*
 * Reads the station of a line, its line feed included, and writes it into `record` in the one
 * spelling. A field may have any spelling that a record may have; one shorter than its columns is
 * padded with spaces, whole numbers and decimals on the left, all others on the right.
 * Refusals, in this order: 7, 10, 11, 9.
 */
uint8_t desk_list_in(const uint8_t *line, size_t line_length,
                     uint8_t *record, size_t record_length, uint8_t *code);

/*
 * Why a line is refused with 10, 11 or 9. These calls take any bytes and change none.
 */

/*
 * The marks of a line: how many semicolons and line feeds it has, and in `ended` 1 if its last
 * byte is a line feed, else 0. A line is refused with 10 exactly if they are not 29, 1 and 1.
 * Refusals: 10.
 */
uint8_t desk_line_marks(const uint8_t *line, size_t line_length,
                        size_t *semicolons, size_t *feeds, uint8_t *ended);

/*
 * The first of a line's thirty fields that is longer than its columns: its number from 1, how
 * many bytes it has and how many it may have; all three are 0 if there is none. A line whose
 * marks are right is refused with 11 exactly if there is such a field.
 * Refusals: 11.
 */
uint8_t desk_long_field(const uint8_t *line, size_t line_length,
                        size_t *number, size_t *length, size_t *most);

/*
 * How reading a line ends, and with 9 what is wrong with the field of the code: `code` is that of the first broken rule, 1 to 39, and `kind`
 * is numbered as `desk_station_kind` does it; both are 0 with every other answer.
 * Refusals: 10, 11, 9.
 */
uint8_t desk_line_kind(const uint8_t *line, size_t line_length, uint8_t *code, uint8_t *kind);

/*
 * Carriage repeaters: a mobile station named by the UIC number of its vehicle.
 */

/*
 * Writes the station of a carriage into `record` in the one spelling: the station of the record
 * `defaults`, with 9999_, the number and _R as its name, and with 1A, its unit, 8B1 and 13X as the
 * line gives them, padded as in desk_list_in. The line is number;frequency;unit;power;13X and a
 * line feed. 6 is asked of `defaults`, 10 asks for four semicolons, a number that is too long is
 * 14, and 9 comes with the code of the station that is made.
 * Refusals, in this order: 7, 6, 10, 11, 14, 15, 16, 9.
 */
uint8_t desk_carriage(const uint8_t *line, size_t line_length,
                      const uint8_t *defaults, size_t defaults_length,
                      uint8_t *record, size_t record_length, uint8_t *code);

/*
 * The vehicle number in a station's name of 20 bytes: returns its length, 12, and writes the
 * offset at which it begins; both are 0 for any bytes that are not the name of a carriage, or
 * where the number's last digit is wrong. This call has no refusal.
 */
size_t desk_carriage_number(const uint8_t *name, size_t name_length, size_t *offset);

/*
 * The number of the rules that records are judged by: 1 for those of document 01, 2 since dates
 * have to be days of the calendar. It is counted up by each change of a rule, and a sheet does not
 * say by which rules it was judged: keep this number beside each sheet that you store, and judge
 * the file again with desk_judge where the number kept is another or there is none. A new form of
 * the sheet changes no rule of a record: its length and its mark tell it. This call has no refusal.
 */
uint32_t desk_rules(void);

#ifdef __cplusplus
}
#endif

#endif /* DESK_H */
