/* Permission sheets in C and C++: tapes byte by byte, what is refused with 32 and 33, and the macros that tell them apart. */
#include <stdlib.h>
#include <string.h>

#include "keeper.h"
#include "tests.h"

enum { FILLER = 0xA5, ROOM = 200 };

/* A buffer that no byte of a tape has been written to. */
static uint8_t tape[ROOM];

/* Imports a text into so many bytes of the buffer, which is filled anew. */
static uint64_t imported(const char *text, size_t room)
{
    memset(tape, FILLER, sizeof tape);
    return keeper_import((const uint8_t *)text, strlen(text), tape, room);
}

/* Whether the buffer is untouched from a place on. */
static bool untouched(size_t from)
{
    size_t i;
    for (i = from; i < sizeof tape; i++) {
        if (tape[i] != FILLER) {
            return false;
        }
    }
    return true;
}

/* ---- tapes ---- */

/* Three rows: role 2 with privileges 0 and 63, role 63 with none, and role 0, which no call names. */
static const char sheet[] = "\"\",0,\"9\",63\r\n2,1,0,1\r\n\"63\",0,\"0\",0\r\n0,0,1,0\r\n";
static const char sheet_tape[] =
    "\x02\x02\0\0\0\0\0\0" "\x01\0\0\0\0\0\0\x80" "\0\0\0\0\0\0\0\0" "\0\0\0\0\0\0\0\0"
    "\x02\x3f\0\0\0\0\0\0" "\0\0\0\0\0\0\0\0" "\0\0\0\0\0\0\0\0" "\0\0\0\0\0\0\0\0"
    "\x02\0\0\0\0\0\0\0" "\0\x02\0\0\0\0\0\0" "\0\0\0\0\0\0\0\0" "\0\0\0\0\0\0\0\0";

static void a_sheet_becomes_its_tape_byte_by_byte(void)
{
    CHECK(sizeof sheet_tape == 3 * KEEPER_RECORD + 1);
    CHECK(imported(sheet, 3 * KEEPER_RECORD) == 3 * KEEPER_RECORD);
    CHECK(memcmp(tape, sheet_tape, 3 * KEEPER_RECORD) == 0);
    CHECK(untouched(3 * KEEPER_RECORD));
}

static void a_longer_buffer_is_untouched_behind_the_tape(void)
{
    CHECK(imported(sheet, ROOM) == 3 * KEEPER_RECORD);
    CHECK(memcmp(tape, sheet_tape, 3 * KEEPER_RECORD) == 0);
    CHECK(untouched(3 * KEEPER_RECORD));
}

static void the_records_are_those_of_the_inline_functions(void)
{
    keeper_record first = keeper_record_add_by_privileges(2, keeper_single(0) | keeper_single(63));
    keeper_record second = keeper_record_add_by_privileges(63, 0);
    CHECK(imported(sheet, ROOM) == 3 * KEEPER_RECORD);
    CHECK(memcmp(tape, first.bytes, KEEPER_RECORD) == 0);
    CHECK(memcmp(tape + KEEPER_RECORD, second.bytes, KEEPER_RECORD) == 0);
}

static void a_state_takes_the_tape(void)
{
    uint64_t block[KEEPER_WORDS];
    uint64_t given = imported(",0,1\r\n2,1,0\r\n3,1,1", ROOM), at;
    CHECK(keeper_fresh(block, KEEPER_WORDS) == 0);
    for (at = 0; at < given; at += KEEPER_RECORD) {
        CHECK(keeper_call(block, KEEPER_WORDS, tape + at, KEEPER_RECORD) == 0);
    }
    CHECK(keeper_effective(block, KEEPER_WORDS, 2) == 1 && keeper_effective(block, KEEPER_WORDS, 3) == 3);
    CHECK(keeper_edge_count(block, KEEPER_WORDS) == 3);
}

static void a_heading_alone_is_an_empty_tape(void)
{
    CHECK(imported(",0", 0) == 0 && untouched(0));
    CHECK(imported(",0\r\n", ROOM) == 0 && untouched(0));
    CHECK(keeper_import((const uint8_t *)",0", 2, NULL, 0) == 0);
    CHECK(KEEPER_IS_TAPE(imported(",0", 0)));
}

/* ---- 33 ---- */

static void a_buffer_one_byte_short_is_refused_with_33_and_untouched(void)
{
    size_t room;
    for (room = 0; room < 3 * KEEPER_RECORD; room++) {
        uint64_t given = imported(sheet, room);
        CHECK(given == KEEPER_NOT_IMPORTED);
        CHECK(!KEEPER_IS_TAPE(given) && KEEPER_IMPORT_NUMBER(given) == KEEPER_SHORT_TAPE && KEEPER_ROW(given) == 0);
        CHECK(untouched(0));
    }
    CHECK(keeper_import((const uint8_t *)sheet, strlen(sheet), NULL, 0) == KEEPER_NOT_IMPORTED);
}

/* ---- 32 ---- */

/* A text is refused with 32 at a row, with and without room for a tape, and the buffer is untouched. */
static void refused(const char *text, uint64_t row)
{
    static const size_t rooms[] = { 0, 1, KEEPER_RECORD, ROOM };
    size_t i;
    for (i = 0; i < sizeof rooms / sizeof rooms[0]; i++) {
        uint64_t given = imported(text, rooms[i]);
        CHECK(given == KEEPER_NOT_IMPORTED + row);
        CHECK(!KEEPER_IS_TAPE(given) && KEEPER_IMPORT_NUMBER(given) == KEEPER_BAD_SHEET && KEEPER_ROW(given) == row);
        CHECK(untouched(0));
    }
}

static void a_text_that_is_no_sheet_is_refused_with_32_at_its_row(void)
{
    refused("", 1);
    refused("\r\n", 1);
    refused("0,1\r\n", 1);
    refused(",64\r\n", 1);
    refused(",01\r\n", 1);
    refused(",1,1\r\n", 1);
    refused(",0,1\n2,1,1\n", 1);
    refused(",0\r\n2\r\n", 2);
    refused(",0\r\n2,1,1\r\n", 2);
    refused(",0\r\n2,2\r\n", 2);
    refused(",0\r\n64,1\r\n", 2);
    refused(",0\r\n2,\"1\r\n", 2);
    refused(",0\r\n2,1\r\n\r\n", 3);
    refused(",0\r\n2,1\r\n3, 1", 3);
}

static void empty_text_may_be_null(void)
{
    CHECK(keeper_import(NULL, 0, NULL, 0) == KEEPER_NOT_IMPORTED + 1);
    CHECK(keeper_import(NULL, 0, tape, sizeof tape) == KEEPER_NOT_IMPORTED + 1);
}

static void a_zero_byte_does_not_end_the_text(void)
{
    static const char text[] = ",0\r\n2,1\0\r\n";
    CHECK(keeper_import((const uint8_t *)text, sizeof text - 1, tape, sizeof tape) == KEEPER_NOT_IMPORTED + 2);
}

/* ---- wide rows and room ---- */

enum { ROWS = 70000, ROW = 5 };

/* A sheet of one column and of as many rows as are asked for; the caller frees it. */
static uint8_t *long_sheet(size_t rows, size_t *length)
{
    uint8_t *text;
    size_t i;
    *length = 2 + rows * ROW;
    text = (uint8_t *)malloc(*length);
    if (text == NULL) {
        exit(1);
    }
    memcpy(text, ",0", 2);
    for (i = 0; i < rows; i++) {
        memcpy(text + 2 + i * ROW, "\r\n2,1", ROW);
    }
    return text;
}

static void a_row_above_65535_has_its_number_and_no_length_is_like_it(void)
{
    size_t length, room;
    uint8_t *text = long_sheet(ROWS, &length), *space;
    uint64_t given;
    room = KEEPER_TAPE_ROOM(length);
    space = (uint8_t *)malloc(room);
    if (space == NULL) {
        exit(1);
    }
    given = keeper_import(text, length, space, room);
    CHECK(KEEPER_IS_TAPE(given) && given == (uint64_t)ROWS * KEEPER_RECORD);
    text[length - 1] = '2';
    given = keeper_import(text, length, space, room);
    CHECK(!KEEPER_IS_TAPE(given) && KEEPER_IMPORT_NUMBER(given) == KEEPER_BAD_SHEET && KEEPER_ROW(given) == ROWS + 1);
    free(space);
    free(text);
}

static void the_room_takes_the_tape_of_every_sheet(void)
{
    size_t rows, length;
    CHECK(KEEPER_TAPE_ROOM(0) == 0 && KEEPER_TAPE_ROOM(4) == 0 && KEEPER_TAPE_ROOM(5) == KEEPER_RECORD);
    for (rows = 0; rows < 6; rows++) {
        uint8_t *text = long_sheet(rows, &length);
        CHECK(keeper_import(text, length, tape, KEEPER_TAPE_ROOM(length)) == rows * KEEPER_RECORD);
        free(text);
    }
}

int main(void)
{
    RUN(a_sheet_becomes_its_tape_byte_by_byte);
    RUN(a_longer_buffer_is_untouched_behind_the_tape);
    RUN(the_records_are_those_of_the_inline_functions);
    RUN(a_state_takes_the_tape);
    RUN(a_heading_alone_is_an_empty_tape);
    RUN(a_buffer_one_byte_short_is_refused_with_33_and_untouched);
    RUN(a_text_that_is_no_sheet_is_refused_with_32_at_its_row);
    RUN(empty_text_may_be_null);
    RUN(a_zero_byte_does_not_end_the_text);
    RUN(a_row_above_65535_has_its_number_and_no_length_is_like_it);
    RUN(the_room_takes_the_tape_of_every_sheet);
    return failed_tests > 0;
}
