/* How much stack the calls take: each runs on a stack that is painted before, on the states on which it goes deepest. */
#include <string.h>
#include <ucontext.h>

#include "keeper.h"
#include "tests.h"

enum { ROOM = 1 << 18, PAINT = 0xA5 };

static unsigned char room[ROOM];
static ucontext_t here, there;

static uint64_t block[KEEPER_WORDS];
static uint8_t image[KEEPER_LONGEST_IMAGE];
static uint32_t image_length;
static keeper_record record;
static uint8_t sheet[1 << 14];
static size_t sheet_length;
static uint8_t tape[KEEPER_TAPE_ROOM(sizeof sheet)];
static uint64_t given;

/* ---- what runs on the painted stack ---- */

static void nothing(void) { given = 0; }
static void fresh(void) { given = keeper_fresh(block, KEEPER_WORDS); }
static void call(void) { given = keeper_call(block, KEEPER_WORDS, record.bytes, KEEPER_RECORD); }
static void load(void) { given = keeper_load(block, KEEPER_WORDS, image, image_length); }
static void save(void) { given = keeper_save(block, KEEPER_WORDS, image, sizeof image); }
static void import_sheet(void) { given = keeper_import(sheet, sheet_length, tape, sizeof tape); }
static void measured(void) { given = keeper_image_length(image, image_length); }
static void may(void) { given = keeper_may(block, KEEPER_WORDS, 5, 1); }
static void ask(void) { given = keeper_ask(block, KEEPER_WORDS, 5, 1); }
static void may_active(void) { given = keeper_may_active(block, KEEPER_WORDS, 5, 1); }
static void ask_active(void) { given = keeper_ask_active(block, KEEPER_WORDS, 5, 1); }
static void count_yes(void) { given = keeper_count_yes(block, KEEPER_WORDS, image, sizeof image); }
static void edge_count(void) { given = keeper_edge_count(block, KEEPER_WORDS); }
static void effective(void) { given = keeper_effective(block, KEEPER_WORDS, 2); }
static void direct(void) { given = keeper_direct(block, KEEPER_WORDS, 2); }
static void juniors(void) { given = keeper_juniors(block, KEEPER_WORDS, 2); }
static void seniors(void) { given = keeper_seniors(block, KEEPER_WORDS, 63); }
static void is_below(void) { given = keeper_is_below(block, KEEPER_WORDS, 63, 2); }
static void is_declared(void) { given = keeper_is_declared(block, KEEPER_WORDS, 1, 2); }
static void seat_roles(void) { given = keeper_seat_roles(block, KEEPER_WORDS, 5); }
static void seat_holds(void) { given = keeper_seat_holds(block, KEEPER_WORDS, 5); }
static void active_roles(void) { given = keeper_active_roles(block, KEEPER_WORDS, 5); }
static void is_excluded(void) { given = keeper_is_excluded(block, KEEPER_WORDS, 2, 3); }

/* ---- how deep ---- */

/* How many bytes of the painted stack a run touches. */
static size_t touched(void (*run_there)(void))
{
    size_t left = 0;
    memset(room, PAINT, sizeof room);
    getcontext(&there);
    there.uc_stack.ss_sp = room;
    there.uc_stack.ss_size = sizeof room;
    there.uc_link = &here;
    makecontext(&there, run_there, 0);
    swapcontext(&here, &there);
    while (left < sizeof room && room[left] == PAINT) {
        left++;
    }
    return sizeof room - left;
}

static size_t most;

/* What the run gives stays in `given`, so it comes last. */
static void measure(void (*run_there)(void))
{
    size_t bare = touched(nothing);
    size_t deep = touched(run_there) - bare;
    CHECK(deep <= KEEPER_STACK);
    most = deep > most ? deep : most;
}

static void take(keeper_record next)
{
    record = next;
    measure(call);
    CHECK(given == 0);
}

/* A chain of 62 roles, role 63 the lowest and role 2 the highest: closing goes down from the lowest number, so through all of them. */
static void the_deepest_chain(void)
{
    uint32_t n;
    measure(fresh);
    for (n = 1; n < 63; n++) {
        take(keeper_record_add_by_privileges(64 - n, keeper_single(n) - 1));
    }
    take(keeper_record_assign(5, 40));
    take(keeper_record_grant(63, 63));
    take(keeper_record_withdraw(63, 63));
    take(keeper_record_remove_edge(63, 62));
    take(keeper_record_add_edge(63, 62));
    take(keeper_record_declare(62, 63));
    take(keeper_record_lift(62, 63));
    take(keeper_record_remove_role(30, true));
    take(keeper_record_add_by_place(30, keeper_single(63), keeper_single(31), keeper_single(29)));
    take(keeper_record_ask(5, 63));
    take(keeper_record_activate(5, 63));
    take(keeper_record_deactivate(5, 63));
    take(keeper_record_activate(5, 40));
    take(keeper_record_unassign(5, 40));
}

/* Of 62 roles that hold one privilege each, roles 2 to 61 exclude the next one; every seat has one of them active, and role 63. */
static void the_fullest_sitting(void)
{
    uint32_t n, m;
    measure(fresh);
    for (n = 2; n < 64; n++) {
        take(keeper_record_add_by_privileges(n, keeper_single(n)));
    }
    for (n = 2; n < 62; n++) {
        take(keeper_record_exclude(n, n + 1));
    }
    for (n = 0; n < 64; n++) {
        m = 2 + n % 61;
        take(keeper_record_assign(n, m));
        take(keeper_record_assign(n, 63));
        take(keeper_record_activate(n, m));
        take(keeper_record_activate(n, 63));
    }
    record = keeper_record_add_edge(61, 62);
    measure(call);
    CHECK(given == 256 * KEEPER_EXCLUDED + 61);
    take(keeper_record_grant(63, 0));
    take(keeper_record_deactivate(5, 63));
    take(keeper_record_unassign(6, 63));
    CHECK(keeper_active_roles(block, KEEPER_WORDS, 6) == keeper_single(8));
}

static void what_a_full_state_shows_and_saves(void)
{
    void (*const shown[])(void) = { measured, may, ask, may_active, ask_active, count_yes, edge_count, effective, direct, juniors, seniors, is_below, is_declared, seat_roles, seat_holds, active_roles, is_excluded };
    size_t i;
    measure(save);
    image_length = (uint32_t)given;
    for (i = 0; i < sizeof shown / sizeof shown[0]; i++) {
        measure(shown[i]);
    }
    measure(load);
    CHECK(given == 0);
}

static void put(const char *text)
{
    memcpy(sheet + sheet_length, text, strlen(text));
    sheet_length += strlen(text);
}

/* A field between quotes, behind others of its row. */
static void put_number(unsigned n)
{
    char text[8];
    snprintf(text, sizeof text, ",\"%u\"", n);
    put(text);
}

/* The widest heading, every field of the rows between quotes, and then a row that is wrong. */
static void the_widest_sheet(void)
{
    unsigned row, n;
    for (n = 0; n < 64; n++) {
        put_number(n);
    }
    for (row = 0; row < 40; row++) {
        put("\r\n63");
        for (n = 0; n < 64; n++) {
            put_number(n % 2);
        }
    }
    measure(import_sheet);
    CHECK(given == 40 * KEEPER_RECORD);
    put("\r\n63");
    measure(import_sheet);
    CHECK(KEEPER_ROW(given) == 42);
}

int main(void)
{
    RUN(the_deepest_chain);
    RUN(what_a_full_state_shows_and_saves);
    RUN(the_fullest_sitting);
    RUN(what_a_full_state_shows_and_saves);
    RUN(the_widest_sheet);
    printf("at most %u bytes of stack\n", (unsigned)most);
    return failed_tests > 0;
}
