/* The role keeper for C and C++: may this seat use this privilege?
 *
 *     uint64_t block[KEEPER_WORDS];
 *     if (keeper_fresh(block, KEEPER_WORDS) != 0) { .. }
 *     if (KEEPER_REFUSED(keeper_call_record(block, KEEPER_WORDS, keeper_record_add_by_privileges(2, 3)))) { .. }
 *     if (keeper_may(block, KEEPER_WORDS, 5, 1)) { .. }
 *
 * Link target/staticlib/libkeeper.a, which `rt staticlib keeper` writes for x86-64 Linux.
 * The functions that end in `);` below are proved: each gives exactly what its definition says, for any block, any
 * lengths and any bytes. The inline functions and the macros are not proved; tests/c compares them with the others.
 *
 * The block. The caller owns 321 words of 64 bits that hold the whole state; nothing is allocated, and nothing is to be
 * freed. Word 0 has the ordinary roles, words 1 to 64 the effective sets of roles 0 to 63, words 65 to 128 under each
 * privilege the higher ones in conflict with it, words 129 to 192 the roles of seats 0 to 63: these 193 words an image
 * keeps. Words 193 to 256 have under each role the higher ones that it excludes, words 257 to 320 the active roles of
 * seats 0 to 63: no image keeps these, and keeper_fresh and an accepted keeper_load clear them. A set is a word with
 * member n at bit n. A copy of the words is a copy of the state.
 * - keeper_fresh comes first, or a keeper_load that is accepted. A block that nobody has initialised holds whatever its
 *   words say, and keeper_may answers by them. A refused load keeps the words as they are, so it initialises nothing.
 * - In a longer block the words from 321 on are never touched. A shorter one holds no state: nothing is touched, an answer
 *   is then KEEPER_NO_STATE, a set or a count 0, and a test false.
 *
 * Pointers. Each comes with its length, in words for a block and in bytes elsewhere, and that much must be there; null is
 * fine with length 0. A block is aligned as a uint64_t is; bytes need no alignment. A block or a buffer that is written
 * must not overlap what else is given to the same call. No pointer is kept after the call.
 *
 * Numbers. Roles, privileges and seats are numbered 0 to 63. keeper_may, keeper_may_active and the functions that make a
 * record take any number, and no number above 63 is taken for another: it is answered no, or refused with 2. Where a
 * parameter is a uint8_t, C narrows a larger number before the call, so that 256 would arrive as 0: test it first, or let
 * -Wconversion tell. A byte above 63 has no role, privilege or seat: its set is empty, and its test false.
 *
 * Threads. There is no global state. Calls on different blocks may run at once; on one block either any number of calls
 * that take it as const, or one other call. A call takes at most KEEPER_STACK bytes of stack, as measured by tests/c, and
 * always returns.
 *
 * Byte order. A block's words are the machine's own; what is to be kept or sent is an image. Records and images are
 * little-endian bytes everywhere.
 */
#ifndef KEEPER_H
#define KEEPER_H

#include <stdbool.h>
#include <stddef.h>
#include <stdint.h>

#ifdef __cplusplus
extern "C" {
#endif

/* The version: of the names and meanings here, of the record and of the image. */
#define KEEPER_VERSION "0.1.0"

/* How many words a state takes. */
#define KEEPER_WORDS 321

/* How many bytes a record has. */
#define KEEPER_RECORD 32

/* How many bytes the longest image has: a buffer of so many takes every image. */
#define KEEPER_LONGEST_IMAGE 5182

/* How many bytes of stack a call takes at the most. */
#define KEEPER_STACK 16384

/* The compiler warns where what a function gives is ignored. */
#if defined(__GNUC__) || defined(__clang__)
#define KEEPER_HEED __attribute__((__warn_unused_result__))
#elif defined(__cplusplus) && __cplusplus >= 201703L
#define KEEPER_HEED [[nodiscard]]
#else
#define KEEPER_HEED
#endif

/* ---- answers ----
 *
 * An answer is 0 for accepted, 1 or 0 for an ask's yes or no, or 256 times a refusal's number plus its place. So
 * `if (keeper_ask(..))` is a mistake: a refusal is not 0 either. Ask keeper_may, or compare with 1; likewise
 * keeper_may_active for keeper_ask_active.
 * What keeper_save and keeper_image_length give is a length where it is below KEEPER_NOT_SAVED, and otherwise
 * KEEPER_NOT_SAVED plus an answer, which is no image's length. What keeper_import gives stands under "sheets" below.
 */

/* The answer for a block of fewer than KEEPER_WORDS words. */
#define KEEPER_NO_STATE 65535

/* What is added to the answer where there is no length. */
#define KEEPER_NOT_SAVED 65536

/* Whether an answer is a refusal, or KEEPER_NO_STATE. */
#define KEEPER_REFUSED(answer) ((answer) >= 256u)

/* Whether what was given is a length. */
#define KEEPER_IS_LENGTH(given) ((given) < (uint32_t)KEEPER_NOT_SAVED)

/* The number of a refusal, and its place; of what is no length too. */
#define KEEPER_NUMBER(answer) ((answer) / 256u % 256u)
#define KEEPER_PLACE(answer) ((answer) % 256u)

/* The refusals, in their order: among several the first one here is the answer; all of them leave block and
 * buffer untouched. 32 and 33 are importing's own, 32 before 33, and no other function gives them.
 * "First" means a, then b, then the juniors, then the seniors, a set read from bit 0. */
enum keeper_refusal {
    /* Not 32 bytes, a kind outside 1 to 15, a non-zero unused field, b above 1 in kind 3. Place 0. */
    KEEPER_MALFORMED = 1,
    /* A number above 63. Place: the first. */
    KEEPER_UNKNOWN_NUMBER = 2,
    /* MinRole (0) or MaxRole (1) named as role, junior or senior. Place: the first. */
    KEEPER_END_ROLE = 3,
    /* A privilege in conflict with itself. Place: it. */
    KEEPER_SAME_PRIVILEGE = 4,
    /* A role as its own junior or senior, or to exclude itself. Place: it. */
    KEEPER_SAME_ROLE = 5,
    /* No image ends these bytes: fewer than 16, or a distance that is wrong. Place 0. */
    KEEPER_NO_IMAGE = 6,
    /* An entry of the image is out of range, out of order, empty, or names an absent role. Place 0. */
    KEEPER_BAD_ENTRY = 7,
    /* The image's roles are empty or equal, hold a declared pair, or MaxRole lacks something. Place 0. */
    KEEPER_BAD_CONTENTS = 8,
    /* The buffer is shorter than the image. Place 0. */
    KEEPER_SHORT_BUFFER = 9,
    /* The role to be added is present. Place: it. */
    KEEPER_ROLE_PRESENT = 20,
    /* Another named role is absent. Place: the first. */
    KEEPER_ROLE_ABSENT = 21,
    /* Already so: granted, below, declared, assigned, excluded, active. Place: a. */
    KEEPER_ALREADY_SO = 22,
    /* Not so: not held at all, no drawn edge, not declared, not assigned, not active. Place: a. */
    KEEPER_NOT_SO = 23,
    /* The role has the privilege through a junior: effective but not direct. Place: the role. */
    KEEPER_THROUGH_JUNIOR = 31,
    /* A seat has the role to be removed. Place: the lowest such seat. */
    KEEPER_ROLE_ASSIGNED = 24,
    /* A circle. Place: a in kind 6, the lowest such junior in kind 1. */
    KEEPER_CIRCLE = 25,
    /* The edge is removed, and the junior's set is still included in the senior's. Place: the senior. */
    KEEPER_STILL_INCLUDED = 26,
    /* An ordinary role would be empty. Place: the lowest such role. */
    KEEPER_EMPTY_ROLE = 27,
    /* Two ordinary roles would be equal. Place: the lowest role with a twin. */
    KEEPER_EQUAL_ROLES = 28,
    /* A role other than MaxRole would hold a declared pair. Place: the lowest such role. */
    KEEPER_ROLE_CONFLICT = 29,
    /* A seat would hold a declared pair. Place: the lowest such seat. */
    KEEPER_SEAT_CONFLICT = 30,
    /* No role of the seat reaches the role to be switched on: none is it or lies above it. Place: the seat. */
    KEEPER_NOT_REACHED = 34,
    /* Two roles that exclude each other would be joined by a path, or one seat's active roles would reach both. Place: the
     * lower role of the lowest such pair. */
    KEEPER_EXCLUDED = 35,
    /* A text that is no sheet, or a number in it that is out of range. Place: the first such row, the heading being 1. */
    KEEPER_BAD_SHEET = 32,
    /* The buffer is shorter than the tape. Place 0. */
    KEEPER_SHORT_TAPE = 33
};

/* Gives a refusal's text by its number, for a person to read; for any other number a text too. */
static inline const char *keeper_refusal_text(uint32_t number)
{
    switch (number) {
    case 0: return "not refused";
    case KEEPER_MALFORMED: return "the record is malformed";
    case KEEPER_UNKNOWN_NUMBER: return "a number is above 63";
    case KEEPER_END_ROLE: return "an end role is named";
    case KEEPER_SAME_PRIVILEGE: return "a privilege cannot be in conflict with itself";
    case KEEPER_SAME_ROLE: return "a role cannot be its own junior or senior, or exclude itself";
    case KEEPER_NO_IMAGE: return "no image ends these bytes";
    case KEEPER_BAD_ENTRY: return "an entry of the image is wrong";
    case KEEPER_BAD_CONTENTS: return "the roles, conflicts or seats of the image do not go together";
    case KEEPER_SHORT_BUFFER: return "the buffer is shorter than the image";
    case KEEPER_ROLE_PRESENT: return "the role is present";
    case KEEPER_ROLE_ABSENT: return "a role is absent";
    case KEEPER_ALREADY_SO: return "it is already so";
    case KEEPER_NOT_SO: return "it is not so";
    case KEEPER_THROUGH_JUNIOR: return "the role has the privilege through a junior";
    case KEEPER_ROLE_ASSIGNED: return "a seat has the role";
    case KEEPER_CIRCLE: return "the roles would lie in a circle";
    case KEEPER_STILL_INCLUDED: return "the junior would still be included in the senior";
    case KEEPER_EMPTY_ROLE: return "a role would be empty";
    case KEEPER_EQUAL_ROLES: return "two roles would be equal";
    case KEEPER_ROLE_CONFLICT: return "a role would hold privileges in conflict";
    case KEEPER_SEAT_CONFLICT: return "a seat would hold privileges in conflict";
    case KEEPER_NOT_REACHED: return "no role of the seat reaches the role";
    case KEEPER_EXCLUDED: return "two roles that exclude each other would be joined by a path or by a seat's active roles";
    case KEEPER_BAD_SHEET: return "a row is not one of a sheet, or has a number out of range";
    case KEEPER_SHORT_TAPE: return "the buffer is shorter than the tape";
    case KEEPER_NO_STATE / 256: return "the block is too short for a state";
    default: return "no refusal has this number";
    }
}

/* ---- the state ---- */

/* Makes the state a fresh one: no ordinary role, no conflict, no seat with a role, no roles that exclude each other, no
 * active role. Gives 0, or KEEPER_NO_STATE. */
KEEPER_HEED uint32_t keeper_fresh(uint64_t *block, size_t words);

/* Takes a record of any bytes and gives its answer; where it is refused the state stays. */
KEEPER_HEED uint32_t keeper_call(uint64_t *block, size_t words, const uint8_t *bytes, size_t length);

/* Tells whether the seat may use the privilege: true exactly where a record that asks, given next, is answered yes. Its
 * assigned roles decide, active or not. False for every number above 63 and for a short block. */
KEEPER_HEED bool keeper_may(const uint64_t *block, size_t words, uint32_t seat, uint32_t privilege);

/* Gives what a record that asks would be answered: 1 for yes, 0 for no, a refusal with 2, or KEEPER_NO_STATE. For those who
 * want the refusal; it is no test, and both numbers are bytes. */
KEEPER_HEED uint32_t keeper_ask(const uint64_t *block, size_t words, uint8_t seat, uint8_t privilege);

/* Tells whether the seat may use the privilege by its active roles alone: true exactly where one of them is, or lies above,
 * a role that has the privilege. False for every number above 63 and for a short block. No record asks this. */
KEEPER_HEED bool keeper_may_active(const uint64_t *block, size_t words, uint32_t seat, uint32_t privilege);

/* Gives the same as an answer: 1 for yes, 0 for no, a refusal with 2, or KEEPER_NO_STATE. It is to keeper_may_active what
 * keeper_ask is to keeper_may. */
KEEPER_HEED uint32_t keeper_ask_active(const uint64_t *block, size_t words, uint8_t seat, uint8_t privilege);

/* Gives how many of the asks, two bytes each, a seat and a privilege, are answered yes; a byte left over asks nothing. */
KEEPER_HEED uint64_t keeper_count_yes(const uint64_t *block, size_t words, const uint8_t *asks, size_t length);

/* ---- images ---- */

/* Writes the image to the buffer's front, touches nothing behind it, and gives its length. Where there is none it touches
 * nothing, and gives KEEPER_NOT_SAVED plus the refusal with 9, or plus KEEPER_NO_STATE. The roles that exclude each other
 * and the active roles are not in it. */
KEEPER_HEED uint32_t keeper_save(const uint64_t *block, size_t words, uint8_t *buffer, size_t length);

/* Loads the image that ends the bytes, whatever stands before it, and gives 0: then no roles exclude each other, and no role
 * is active. Or gives a refusal with 6, 7 or 8, or KEEPER_NO_STATE, and the state stays with all its words. An image with
 * other bytes behind it is none: give the length that was saved. */
KEEPER_HEED uint32_t keeper_load(uint64_t *block, size_t words, const uint8_t *bytes, size_t length);

/* Gives the length of the image that ends the bytes, so that it starts so many bytes before their end. Where loading would
 * refuse them gives KEEPER_NOT_SAVED plus that refusal. */
KEEPER_HEED uint32_t keeper_image_length(const uint8_t *bytes, size_t length);

/* ---- sheets ----
 *
 * A sheet is RFC 4180 text: a heading of an empty field and then privilege numbers, strictly ascending, and rows of a role
 * number and then 0 or 1 for each privilege of the heading. Numbers are 0 to 63 in base ten without leading zeros; a field
 * may stand between quotes; CR LF alone ends a line, and may be missing at the end. docs/REFERENCE.md says it whole.
 *
 *     uint8_t *tape = malloc(KEEPER_TAPE_ROOM(length));
 *     uint64_t at, given = keeper_import(text, length, tape, KEEPER_TAPE_ROOM(length));
 *     if (!KEEPER_IS_TAPE(given)) { .. row KEEPER_ROW(given) is wrong .. }
 *     else for (at = 0; at < given; at += KEEPER_RECORD) { .. keeper_call(block, KEEPER_WORDS, tape + at, KEEPER_RECORD) .. }
 *
 * What keeper_import gives is the tape's length where it is below KEEPER_NOT_IMPORTED, and otherwise KEEPER_NOT_IMPORTED
 * plus a place: a row from 1 on, wide as the text is long, for a refusal with 32, and 0 for one with 33. It is no answer:
 * KEEPER_REFUSED, KEEPER_NUMBER and KEEPER_PLACE are not for it.
 */

/* What is added to the place where there is no tape: 2 to the 63. */
#define KEEPER_NOT_IMPORTED UINT64_C(9223372036854775808)

/* Whether what was given is the length of a tape. */
#define KEEPER_IS_TAPE(given) ((given) < KEEPER_NOT_IMPORTED)

/* The refusal's number, KEEPER_BAD_SHEET or KEEPER_SHORT_TAPE, and its place, the row or 0, of what is no such length. */
#define KEEPER_IMPORT_NUMBER(given) ((uint32_t)((given) == KEEPER_NOT_IMPORTED ? KEEPER_SHORT_TAPE : KEEPER_BAD_SHEET))
#define KEEPER_ROW(given) ((given) % KEEPER_NOT_IMPORTED)

/* How many bytes take the tape of every sheet of so many bytes: a row behind the heading has five at least, with the line
 * end before it. It is 0 for fewer than five bytes, and a buffer of length 0 may be null. */
#define KEEPER_TAPE_ROOM(length) ((size_t)(length) / 5 * KEEPER_RECORD)

/* Writes the tape of a sheet to the buffer's front, a record of kind 2 for each row behind the heading, in row order;
 * touches nothing behind it, and gives its length. Where there is none it touches nothing, and gives KEEPER_NOT_IMPORTED plus
 * the first row that is wrong, 1 for empty text; or KEEPER_NOT_IMPORTED itself where the text is a sheet and its tape is
 * longer than the buffer. No state is concerned: a record for role 0, or for a role named twice, is refused when it is
 * given to keeper_call. */
KEEPER_HEED uint64_t keeper_import(const uint8_t *text, size_t text_length, uint8_t *tape, size_t tape_length);

/* ---- what a state shows ----
 *
 * Roles, privileges and seats are bytes here: one above 63 shows nothing, and a number above 255 is narrowed before the call.
 */

/* Gives the number of drawn edges. */
KEEPER_HEED uint32_t keeper_edge_count(const uint64_t *block, size_t words);

/* Gives the effective privileges of a role. */
KEEPER_HEED uint64_t keeper_effective(const uint64_t *block, size_t words, uint8_t role);

/* Gives the direct privileges of a role: its effective ones that no immediate junior has. */
KEEPER_HEED uint64_t keeper_direct(const uint64_t *block, size_t words, uint8_t role);

/* Gives the immediate juniors of a role. */
KEEPER_HEED uint64_t keeper_juniors(const uint64_t *block, size_t words, uint8_t role);

/* Gives the immediate seniors of a role. */
KEEPER_HEED uint64_t keeper_seniors(const uint64_t *block, size_t words, uint8_t role);

/* Tells whether the first role lies below the second. */
KEEPER_HEED bool keeper_is_below(const uint64_t *block, size_t words, uint8_t junior, uint8_t senior);

/* Tells whether the conflict of two privileges is declared. */
KEEPER_HEED bool keeper_is_declared(const uint64_t *block, size_t words, uint8_t first, uint8_t second);

/* Gives the roles of a seat. */
KEEPER_HEED uint64_t keeper_seat_roles(const uint64_t *block, size_t words, uint8_t seat);

/* Gives what a seat holds: the union of the effective privileges of its roles. */
KEEPER_HEED uint64_t keeper_seat_holds(const uint64_t *block, size_t words, uint8_t seat);

/* Gives the active roles of a seat. */
KEEPER_HEED uint64_t keeper_active_roles(const uint64_t *block, size_t words, uint8_t seat);

/* Tells whether two roles exclude each other, in either order. */
KEEPER_HEED bool keeper_is_excluded(const uint64_t *block, size_t words, uint8_t first, uint8_t second);

/* ---- records, made by inline functions that are not proved ---- */

/* The kinds of record. */
enum keeper_kind {
    KEEPER_ADD_BY_PLACE = 1,
    KEEPER_ADD_BY_PRIVILEGES = 2,
    KEEPER_REMOVE_ROLE = 3,
    KEEPER_GRANT = 4,
    KEEPER_WITHDRAW = 5,
    KEEPER_ADD_EDGE = 6,
    KEEPER_REMOVE_EDGE = 7,
    KEEPER_DECLARE = 8,
    KEEPER_LIFT = 9,
    KEEPER_ASSIGN = 10,
    KEEPER_UNASSIGN = 11,
    KEEPER_ASK = 12,
    KEEPER_EXCLUDE = 13,
    KEEPER_ACTIVATE = 14,
    KEEPER_DEACTIVATE = 15
};

/* A record: byte 0 the kind, byte 1 a, byte 2 b, bytes 3 to 7 zero, then three little-endian sets. */
typedef struct keeper_record {
    uint8_t bytes[KEEPER_RECORD];
} keeper_record;

/* The set whose only member is n; for a number above 63 the empty set. */
static inline uint64_t keeper_single(uint32_t n)
{
    return n < 64 ? (uint64_t)1 << n : 0;
}

/* A number as a record's byte: one that no byte holds becomes 255, which is refused as it would be. */
static inline uint8_t keeper_record_byte(uint32_t n)
{
    return n < 255 ? (uint8_t)n : (uint8_t)255;
}

/* The record of a kind with these fields. */
static inline keeper_record keeper_record_of(enum keeper_kind kind, uint32_t a, uint32_t b, uint64_t x, uint64_t y, uint64_t z)
{
    keeper_record record = { { 0 } };
    int i;
    record.bytes[0] = (uint8_t)kind;
    record.bytes[1] = keeper_record_byte(a);
    record.bytes[2] = keeper_record_byte(b);
    for (i = 0; i < 8; i++) {
        record.bytes[8 + i] = (uint8_t)(x >> (8 * i) & 255);
        record.bytes[16 + i] = (uint8_t)(y >> (8 * i) & 255);
        record.bytes[24 + i] = (uint8_t)(z >> (8 * i) & 255);
    }
    return record;
}

/* Adds a role with direct privileges between juniors and seniors. */
static inline keeper_record keeper_record_add_by_place(uint32_t role, uint64_t direct, uint64_t juniors, uint64_t seniors)
{
    return keeper_record_of(KEEPER_ADD_BY_PLACE, role, 0, direct, juniors, seniors);
}

/* Adds a role with these effective privileges. */
static inline keeper_record keeper_record_add_by_privileges(uint32_t role, uint64_t privileges)
{
    return keeper_record_of(KEEPER_ADD_BY_PRIVILEGES, role, 0, privileges, 0, 0);
}

/* Removes a role; its direct privileges are dropped, or become direct in each immediate senior. */
static inline keeper_record keeper_record_remove_role(uint32_t role, bool to_seniors)
{
    return keeper_record_of(KEEPER_REMOVE_ROLE, role, to_seniors ? 1 : 0, 0, 0, 0);
}

/* Grants a privilege to a role. */
static inline keeper_record keeper_record_grant(uint32_t role, uint32_t privilege)
{
    return keeper_record_of(KEEPER_GRANT, role, privilege, 0, 0, 0);
}

/* Withdraws a direct privilege from a role. */
static inline keeper_record keeper_record_withdraw(uint32_t role, uint32_t privilege)
{
    return keeper_record_of(KEEPER_WITHDRAW, role, privilege, 0, 0, 0);
}

/* Adds an edge from a junior to a senior. */
static inline keeper_record keeper_record_add_edge(uint32_t junior, uint32_t senior)
{
    return keeper_record_of(KEEPER_ADD_EDGE, junior, senior, 0, 0, 0);
}

/* Removes the edge from a junior to a senior. */
static inline keeper_record keeper_record_remove_edge(uint32_t junior, uint32_t senior)
{
    return keeper_record_of(KEEPER_REMOVE_EDGE, junior, senior, 0, 0, 0);
}

/* Declares the conflict of two privileges. */
static inline keeper_record keeper_record_declare(uint32_t first, uint32_t second)
{
    return keeper_record_of(KEEPER_DECLARE, first, second, 0, 0, 0);
}

/* Lifts the conflict of two privileges. */
static inline keeper_record keeper_record_lift(uint32_t first, uint32_t second)
{
    return keeper_record_of(KEEPER_LIFT, first, second, 0, 0, 0);
}

/* Assigns a role to a seat. */
static inline keeper_record keeper_record_assign(uint32_t seat, uint32_t role)
{
    return keeper_record_of(KEEPER_ASSIGN, seat, role, 0, 0, 0);
}

/* Unassigns a role from a seat. */
static inline keeper_record keeper_record_unassign(uint32_t seat, uint32_t role)
{
    return keeper_record_of(KEEPER_UNASSIGN, seat, role, 0, 0, 0);
}

/* Asks whether a seat may use a privilege. */
static inline keeper_record keeper_record_ask(uint32_t seat, uint32_t privilege)
{
    return keeper_record_of(KEEPER_ASK, seat, privilege, 0, 0, 0);
}

/* Makes two roles exclude each other, until one of them is removed. */
static inline keeper_record keeper_record_exclude(uint32_t first, uint32_t second)
{
    return keeper_record_of(KEEPER_EXCLUDE, first, second, 0, 0, 0);
}

/* Switches a role on at a seat: it becomes one of the seat's active roles. */
static inline keeper_record keeper_record_activate(uint32_t seat, uint32_t role)
{
    return keeper_record_of(KEEPER_ACTIVATE, seat, role, 0, 0, 0);
}

/* Switches an active role of a seat off. */
static inline keeper_record keeper_record_deactivate(uint32_t seat, uint32_t role)
{
    return keeper_record_of(KEEPER_DEACTIVATE, seat, role, 0, 0, 0);
}

/* Takes a record that one of these made, and gives its answer. */
KEEPER_HEED static inline uint32_t keeper_call_record(uint64_t *block, size_t words, keeper_record record)
{
    return keeper_call(block, words, record.bytes, sizeof record.bytes);
}

#ifdef __cplusplus
}
#endif

#endif
