/*
 * The desk from C: a filing judged, a field shown, a station replaced, the sheet mended with its
 * twin gone and a clash come, and verified, a station as a line of a semicolon list, and the page
 * of the operators.
 *
 *     tools/hostlib target/host
 *     cc -Iinclude docs/example.c target/host/libdesk_c.a -o target/host/example
 *     target/host/example tests/desk/two_stations.in
 */
#include "desk.h"

#include <inttypes.h>
#include <stdio.h>
#include <string.h>

static uint8_t file[DESK_MAX_FILE_LENGTH + 1];
static uint8_t sheet[DESK_SHEET_LENGTH(DESK_MAX_STATIONS)];

/* Prints the bytes of a sheet. */
static void print_bytes(const uint8_t *bytes, size_t length)
{
    for (size_t i = 0; i < length; i++)
        printf("%02X%c", bytes[i], i + 1 < length ? ' ' : '\n');
}

/* The number in bytes, high byte first. */
static uint64_t number(const uint8_t *bytes, size_t length)
{
    uint64_t value = 0;
    for (size_t i = 0; i < length; i++)
        value = value << 8 | bytes[i];
    return value;
}

int main(int count, char **words)
{
    FILE *input = count == 2 ? fopen(words[1], "rb") : NULL;
    if (input == NULL) {
        fprintf(stderr, "usage: example FILE\n");
        return 2;
    }
    size_t length = fread(file, 1, sizeof file, input);
    fclose(input);

    /* A sheet has five bytes for each station and ten more. */
    size_t stations = length / DESK_RECORD_LENGTH > 0 ? length / DESK_RECORD_LENGTH - 1 : 0;
    size_t sheet_length = DESK_SHEET_LENGTH(stations);
    if (sheet_length > sizeof sheet)
        sheet_length = sizeof sheet;
    uint8_t refusal = desk_judge(file, length, sheet, sheet_length);
    if (refusal != DESK_DONE) {
        printf("refused %u\n", refusal);
        return 1;
    }
    print_bytes(sheet, sheet_length);

    /* Field 30 of station 1 is its reference, 13X. */
    size_t offset, field_length;
    if (desk_show(file, length, 1, 30, &offset, &field_length) != DESK_DONE)
        return 1;
    printf("%.*s\n", (int)field_length, (const char *)file + offset);

    /* Station 1 gets another reference, and the sheet is mended. */
    uint8_t record[DESK_RECORD_LENGTH];
    memcpy(record, file + DESK_RECORD_LENGTH, sizeof record);
    record[DESK_RECORD_LENGTH - 1] = '2';
    size_t rows;
    refusal = desk_replace(file, length, sheet, sheet_length, 1, record, sizeof record, &rows);
    printf("refused %u, rows %zu\n", refusal, rows);
    print_bytes(sheet, sheet_length);

    /* Two metres higher it stands apart from station 2 of the same site, whose row has the clash. */
    uint8_t code;
    desk_set_ground(record, sizeof record, 32, &code);
    refusal = desk_replace(file, length, sheet, sheet_length, 1, record, sizeof record, &rows);
    printf("refused %u, rows %zu\n", refusal, rows);
    print_bytes(sheet, sheet_length);

    /* It is the sheet that the file is judged to; without the clash it is wrong at that byte. */
    uint8_t found;
    refusal = desk_verify(file, length, sheet, sheet_length, &found, &offset);
    printf("refused %u, %s\n", refusal, found == DESK_FOUND_RIGHT ? "right" : "wrong");
    sheet[9] = 0;
    refusal = desk_verify(file, length, sheet, sheet_length, &found, &offset);
    printf("refused %u, %s at %zu\n", refusal, found == DESK_FOUND_WRONG ? "wrong" : "right", offset);

    /* An azimuth of 360.0 breaks rule 17, and the record keeps its bytes. */
    refusal = desk_set_azimuth(record, sizeof record, 1, 3600, &code);
    printf("refused %u, code %u\n", refusal, code);

    /* Station 2 as a line; its line feed is the last byte. */
    uint8_t line[DESK_MAX_LINE_LENGTH];
    size_t line_length;
    const uint8_t *station = file + 2 * DESK_RECORD_LENGTH;
    refusal = desk_list_out(station, DESK_RECORD_LENGTH, line, sizeof line, &line_length, &code);
    printf("refused %u, length %zu\n", refusal, line_length);
    fwrite(line, 1, line_length, stdout);

    /* The line is the same station: back in a record it is the station's one spelling. */
    uint8_t spelled[DESK_RECORD_LENGTH];
    desk_respell_station(station, DESK_RECORD_LENGTH, spelled, sizeof spelled, &code);
    refusal = desk_list_in(line, line_length, record, sizeof record, &code);
    printf("refused %u, %s\n", refusal,
           memcmp(record, spelled, sizeof record) == 0 ? "the same station" : "another station");

    /* With one of its semicolons gone it is no line. */
    *(uint8_t *)memchr(line, ';', line_length) = ' ';
    refusal = desk_list_in(line, line_length, record, sizeof record, &code);
    printf("refused %u, code %u\n", refusal, code);

    /* Each operator has a row; its frequencies are spaces where none of its stations transmits. */
    uint8_t page[DESK_MAX_OPERATORS * DESK_OPERATOR_WIDTH];
    size_t operators;
    refusal = desk_operators(file, length, page, sizeof page, &operators);
    printf("refused %u, operators %zu\n", refusal, operators);
    for (size_t i = 0; i < operators; i++) {
        const uint8_t *row = page + i * DESK_OPERATOR_WIDTH;
        printf("%c%c: %" PRIu64 " stations", row[0], row[1], number(row + 2, 2));
        if (number(row + 4, 2) > 0)
            printf(", %" PRIu64 " to %" PRIu64 " hundredths of a hertz", number(row + 6, 8),
                   number(row + 14, 8));
        putchar('\n');
    }
    return 0;
}
