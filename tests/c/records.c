/* Records of every kind as the header's inline functions make them: their bytes, what keeper_call makes of them, and what it
 * answers where a number is above 63.
 */
#include <string.h>

#include "keeper.h"
#include "tests.h"

static uint64_t block[KEEPER_WORDS];

static uint32_t take(keeper_record record)
{
    return keeper_call_record(block, KEEPER_WORDS, record);
}

static uint64_t effective(uint8_t role)
{
    return keeper_effective(block, KEEPER_WORDS, role);
}

/* Roles 2 {0}, 3 {1}, 4 {0,1,2}; role 4 lies above the others. */
static void start(void)
{
    CHECK(keeper_fresh(block, KEEPER_WORDS) == 0);
    CHECK(take(keeper_record_add_by_privileges(2, 1)) == 0);
    CHECK(take(keeper_record_add_by_privileges(3, 2)) == 0);
    CHECK(take(keeper_record_add_by_privileges(4, 7)) == 0);
    CHECK(keeper_edge_count(block, KEEPER_WORDS) == 5);
}

/* ---- the bytes ---- */

static void same(keeper_record made, const char *expected)
{
    CHECK(memcmp(made.bytes, expected, sizeof made.bytes) == 0);
}

static void a_record_is_laid_out_as_the_scope_says(void)
{
    uint64_t x = 0x0807060504030201u, y = 0x8000000000000000u, z = 0x00000000000000ffu;
    CHECK(sizeof(keeper_record) == KEEPER_RECORD);
    same(keeper_record_add_by_place(63, x, y, z),
        "\x01\x3f\x00\0\0\0\0\0" "\x01\x02\x03\x04\x05\x06\x07\x08" "\0\0\0\0\0\0\0\x80" "\xff\0\0\0\0\0\0\0");
    same(keeper_record_add_by_privileges(7, x), "\x02\x07\x00\0\0\0\0\0" "\x01\x02\x03\x04\x05\x06\x07\x08" "\0\0\0\0\0\0\0\0" "\0\0\0\0\0\0\0\0");
    same(keeper_record_remove_role(7, false), "\x03\x07\x00\0\0\0\0\0" "\0\0\0\0\0\0\0\0" "\0\0\0\0\0\0\0\0" "\0\0\0\0\0\0\0\0");
    same(keeper_record_remove_role(7, true), "\x03\x07\x01\0\0\0\0\0" "\0\0\0\0\0\0\0\0" "\0\0\0\0\0\0\0\0" "\0\0\0\0\0\0\0\0");
    same(keeper_record_grant(7, 9), "\x04\x07\x09\0\0\0\0\0" "\0\0\0\0\0\0\0\0" "\0\0\0\0\0\0\0\0" "\0\0\0\0\0\0\0\0");
    same(keeper_record_withdraw(7, 9), "\x05\x07\x09\0\0\0\0\0" "\0\0\0\0\0\0\0\0" "\0\0\0\0\0\0\0\0" "\0\0\0\0\0\0\0\0");
    same(keeper_record_add_edge(7, 9), "\x06\x07\x09\0\0\0\0\0" "\0\0\0\0\0\0\0\0" "\0\0\0\0\0\0\0\0" "\0\0\0\0\0\0\0\0");
    same(keeper_record_remove_edge(7, 9), "\x07\x07\x09\0\0\0\0\0" "\0\0\0\0\0\0\0\0" "\0\0\0\0\0\0\0\0" "\0\0\0\0\0\0\0\0");
    same(keeper_record_declare(7, 9), "\x08\x07\x09\0\0\0\0\0" "\0\0\0\0\0\0\0\0" "\0\0\0\0\0\0\0\0" "\0\0\0\0\0\0\0\0");
    same(keeper_record_lift(7, 9), "\x09\x07\x09\0\0\0\0\0" "\0\0\0\0\0\0\0\0" "\0\0\0\0\0\0\0\0" "\0\0\0\0\0\0\0\0");
    same(keeper_record_assign(7, 9), "\x0a\x07\x09\0\0\0\0\0" "\0\0\0\0\0\0\0\0" "\0\0\0\0\0\0\0\0" "\0\0\0\0\0\0\0\0");
    same(keeper_record_unassign(7, 9), "\x0b\x07\x09\0\0\0\0\0" "\0\0\0\0\0\0\0\0" "\0\0\0\0\0\0\0\0" "\0\0\0\0\0\0\0\0");
    same(keeper_record_ask(7, 9), "\x0c\x07\x09\0\0\0\0\0" "\0\0\0\0\0\0\0\0" "\0\0\0\0\0\0\0\0" "\0\0\0\0\0\0\0\0");
    same(keeper_record_exclude(7, 9), "\x0d\x07\x09\0\0\0\0\0" "\0\0\0\0\0\0\0\0" "\0\0\0\0\0\0\0\0" "\0\0\0\0\0\0\0\0");
    same(keeper_record_activate(7, 9), "\x0e\x07\x09\0\0\0\0\0" "\0\0\0\0\0\0\0\0" "\0\0\0\0\0\0\0\0" "\0\0\0\0\0\0\0\0");
    same(keeper_record_deactivate(7, 9), "\x0f\x07\x09\0\0\0\0\0" "\0\0\0\0\0\0\0\0" "\0\0\0\0\0\0\0\0" "\0\0\0\0\0\0\0\0");
}

static void a_single_has_its_member(void)
{
    uint32_t n;
    for (n = 0; n < 64; n++) {
        CHECK(keeper_single(n) >> n == 1);
    }
    CHECK(keeper_single(64) == 0 && keeper_single((uint32_t)-1) == 0);
}

/* ---- what each kind does ---- */

static void kind_1_adds_between_juniors_and_seniors(void)
{
    start();
    CHECK(take(keeper_record_add_by_place(63, keeper_single(63), keeper_single(2) | keeper_single(3), keeper_single(4))) == 0);
    CHECK(effective(63) == (keeper_single(63) | 3));
    CHECK(keeper_juniors(block, KEEPER_WORDS, 63) == 12 && keeper_seniors(block, KEEPER_WORDS, 63) == 16);
    CHECK(effective(4) == (keeper_single(63) | 7));
}

static void kind_2_adds_with_an_effective_set(void)
{
    start();
    CHECK(take(keeper_record_add_by_privileges(5, keeper_single(40) | 1)) == 0);
    CHECK(effective(5) == (keeper_single(40) | 1));
    CHECK(keeper_juniors(block, KEEPER_WORDS, 5) == 4);
}

static void kind_3_drops_or_hands_on(void)
{
    start();
    CHECK(take(keeper_record_remove_role(2, false)) == 0);
    CHECK(effective(4) == 6);
    start();
    CHECK(take(keeper_record_remove_role(2, true)) == 0);
    CHECK(effective(4) == 7 && keeper_direct(block, KEEPER_WORDS, 4) == 5);
    CHECK(take(keeper_record_remove_role(2, true)) == 256 * KEEPER_ROLE_ABSENT + 2);
}

static void kinds_4_and_5_grant_and_withdraw(void)
{
    start();
    CHECK(take(keeper_record_grant(2, 63)) == 0);
    CHECK(effective(2) == (keeper_single(63) | 1) && effective(4) == (keeper_single(63) | 7));
    CHECK(take(keeper_record_grant(2, 63)) == 256 * KEEPER_ALREADY_SO + 2);
    CHECK(take(keeper_record_withdraw(2, 63)) == 0);
    CHECK(effective(2) == 1 && effective(4) == 7);
    CHECK(take(keeper_record_withdraw(2, 63)) == 256 * KEEPER_NOT_SO + 2);
    CHECK(take(keeper_record_withdraw(4, 0)) == 256 * KEEPER_THROUGH_JUNIOR + 4 && effective(4) == 7);
}

static void kinds_6_and_7_add_and_remove_an_edge(void)
{
    start();
    CHECK(take(keeper_record_add_edge(2, 3)) == 0);
    CHECK(keeper_is_below(block, KEEPER_WORDS, 2, 3) && effective(3) == 3);
    CHECK(take(keeper_record_add_edge(3, 2)) == 256 * KEEPER_CIRCLE + 3);
    CHECK(take(keeper_record_remove_edge(2, 3)) == 0);
    CHECK(!keeper_is_below(block, KEEPER_WORDS, 2, 3) && effective(3) == 2);
}

static void kinds_8_and_9_declare_and_lift(void)
{
    start();
    CHECK(take(keeper_record_declare(62, 61)) == 0);
    CHECK(keeper_is_declared(block, KEEPER_WORDS, 61, 62));
    CHECK(take(keeper_record_declare(0, 2)) == 256 * KEEPER_ROLE_CONFLICT + 4);
    CHECK(take(keeper_record_lift(61, 62)) == 0);
    CHECK(!keeper_is_declared(block, KEEPER_WORDS, 61, 62));
    CHECK(take(keeper_record_lift(61, 62)) == 256 * KEEPER_NOT_SO + 61);
}

static void kinds_10_to_12_assign_unassign_and_ask(void)
{
    start();
    CHECK(take(keeper_record_assign(63, 3)) == 0);
    CHECK(keeper_seat_roles(block, KEEPER_WORDS, 63) == 8 && keeper_seat_holds(block, KEEPER_WORDS, 63) == 2);
    CHECK(take(keeper_record_ask(63, 1)) == 1 && keeper_may(block, KEEPER_WORDS, 63, 1));
    CHECK(take(keeper_record_ask(63, 0)) == 0 && !keeper_may(block, KEEPER_WORDS, 63, 0));
    CHECK(take(keeper_record_remove_role(3, false)) == 256 * KEEPER_ROLE_ASSIGNED + 63);
    CHECK(take(keeper_record_unassign(63, 3)) == 0);
    CHECK(keeper_seat_roles(block, KEEPER_WORDS, 63) == 0 && !keeper_may(block, KEEPER_WORDS, 63, 1));
}

static uint64_t active(uint8_t seat)
{
    return keeper_active_roles(block, KEEPER_WORDS, seat);
}

static void kind_13_makes_two_roles_exclude_each_other(void)
{
    start();
    CHECK(take(keeper_record_exclude(3, 2)) == 0);
    CHECK(keeper_is_excluded(block, KEEPER_WORDS, 2, 3) && keeper_is_excluded(block, KEEPER_WORDS, 3, 2));
    CHECK(!keeper_is_excluded(block, KEEPER_WORDS, 2, 4) && !keeper_is_excluded(block, KEEPER_WORDS, 2, 2));
    CHECK(take(keeper_record_exclude(2, 3)) == 256 * KEEPER_ALREADY_SO + 2);
    CHECK(take(keeper_record_exclude(2, 2)) == 256 * KEEPER_SAME_ROLE + 2);
    CHECK(take(keeper_record_exclude(2, 4)) == 256 * KEEPER_EXCLUDED + 2);
    CHECK(take(keeper_record_add_edge(3, 2)) == 256 * KEEPER_EXCLUDED + 2);
    CHECK(take(keeper_record_grant(3, 0)) == 256 * KEEPER_EXCLUDED + 2 && effective(3) == 2);
    CHECK(take(keeper_record_remove_role(3, false)) == 0);
    CHECK(!keeper_is_excluded(block, KEEPER_WORDS, 2, 3));
}

static void kinds_14_and_15_switch_a_role_on_and_off(void)
{
    start();
    CHECK(take(keeper_record_activate(63, 2)) == 256 * KEEPER_NOT_REACHED + 63);
    CHECK(take(keeper_record_assign(63, 4)) == 0);
    CHECK(take(keeper_record_activate(63, 2)) == 0 && active(63) == 4);
    CHECK(take(keeper_record_activate(63, 2)) == 256 * KEEPER_ALREADY_SO + 63);
    CHECK(keeper_may_active(block, KEEPER_WORDS, 63, 0) && !keeper_may_active(block, KEEPER_WORDS, 63, 1));
    CHECK(take(keeper_record_exclude(2, 3)) == 0);
    CHECK(take(keeper_record_activate(63, 3)) == 256 * KEEPER_EXCLUDED + 2 && active(63) == 4);
    CHECK(take(keeper_record_deactivate(63, 2)) == 0 && active(63) == 0);
    CHECK(take(keeper_record_deactivate(63, 2)) == 256 * KEEPER_NOT_SO + 63);
    CHECK(!keeper_may_active(block, KEEPER_WORDS, 63, 0) && keeper_may(block, KEEPER_WORDS, 63, 0));
    CHECK(take(keeper_record_activate(63, 3)) == 0 && active(63) == 8);
}

static void an_active_role_that_no_role_of_the_seat_reaches_is_switched_off(void)
{
    start();
    CHECK(take(keeper_record_assign(63, 4)) == 0);
    CHECK(take(keeper_record_activate(63, 2)) == 0 && take(keeper_record_activate(63, 4)) == 0);
    CHECK(take(keeper_record_assign(63, 3)) == 0);
    CHECK(take(keeper_record_activate(63, 3)) == 0);
    CHECK(take(keeper_record_unassign(63, 4)) == 0 && active(63) == 8);
    CHECK(take(keeper_record_assign(63, 4)) == 0 && active(63) == 8);
}

/* ---- numbers ---- */

/* The answer to a record with a number above 63: refused with 2 at that number, or at 255 where no byte holds it. */
static uint32_t unknown(uint32_t n)
{
    return 256 * KEEPER_UNKNOWN_NUMBER + (n < 255 ? n : 255);
}

static void a_number_above_63_is_refused_and_taken_for_no_other(void)
{
    static const uint32_t far[] = { 64, 65, 255, 256, 258, 259, 512, 65536, 0x80000002u, 0xffffffffu };
    uint64_t before[KEEPER_WORDS];
    size_t i;
    start();
    memcpy(before, block, sizeof block);
    for (i = 0; i < sizeof far / sizeof far[0]; i++) {
        uint32_t n = far[i];
        CHECK(take(keeper_record_add_by_place(n, 32, 0, 0)) == unknown(n));
        CHECK(take(keeper_record_add_by_privileges(n, 32)) == unknown(n));
        CHECK(take(keeper_record_remove_role(n, false)) == unknown(n));
        CHECK(take(keeper_record_grant(n, 5)) == unknown(n) && take(keeper_record_grant(2, n)) == unknown(n));
        CHECK(take(keeper_record_withdraw(n, 0)) == unknown(n) && take(keeper_record_withdraw(2, n)) == unknown(n));
        CHECK(take(keeper_record_add_edge(n, 3)) == unknown(n) && take(keeper_record_add_edge(2, n)) == unknown(n));
        CHECK(take(keeper_record_remove_edge(n, 4)) == unknown(n) && take(keeper_record_remove_edge(2, n)) == unknown(n));
        CHECK(take(keeper_record_declare(n, 5)) == unknown(n) && take(keeper_record_declare(5, n)) == unknown(n));
        CHECK(take(keeper_record_lift(n, 5)) == unknown(n) && take(keeper_record_lift(5, n)) == unknown(n));
        CHECK(take(keeper_record_assign(n, 2)) == unknown(n) && take(keeper_record_assign(5, n)) == unknown(n));
        CHECK(take(keeper_record_unassign(n, 2)) == unknown(n) && take(keeper_record_unassign(5, n)) == unknown(n));
        CHECK(take(keeper_record_ask(n, 2)) == unknown(n) && take(keeper_record_ask(5, n)) == unknown(n));
        CHECK(take(keeper_record_exclude(n, 2)) == unknown(n) && take(keeper_record_exclude(2, n)) == unknown(n));
        CHECK(take(keeper_record_activate(n, 2)) == unknown(n) && take(keeper_record_activate(5, n)) == unknown(n));
        CHECK(take(keeper_record_deactivate(n, 2)) == unknown(n) && take(keeper_record_deactivate(5, n)) == unknown(n));
    }
    CHECK(memcmp(before, block, sizeof block) == 0);
}

int main(void)
{
    RUN(a_record_is_laid_out_as_the_scope_says);
    RUN(a_single_has_its_member);
    RUN(kind_1_adds_between_juniors_and_seniors);
    RUN(kind_2_adds_with_an_effective_set);
    RUN(kind_3_drops_or_hands_on);
    RUN(kinds_4_and_5_grant_and_withdraw);
    RUN(kinds_6_and_7_add_and_remove_an_edge);
    RUN(kinds_8_and_9_declare_and_lift);
    RUN(kinds_10_to_12_assign_unassign_and_ask);
    RUN(kind_13_makes_two_roles_exclude_each_other);
    RUN(kinds_14_and_15_switch_a_role_on_and_off);
    RUN(an_active_role_that_no_role_of_the_seat_reaches_is_switched_off);
    RUN(a_number_above_63_is_refused_and_taken_for_no_other);
    return failed_tests > 0;
}
