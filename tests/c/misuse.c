/* Wrong uses of the exported functions, in C and C++: each is answered, and none is taken for a yes or for a length. */
#include <string.h>

#include "keeper.h"
#include "tests.h"

/* The words of a short block, and how many of a state's words an image keeps. */
enum { SHORT = KEEPER_WORDS - 1, SAVED = 193, FILLER = 0xA5 };

/* Role 2 has privileges 0 and 1, and seats 0 and 5 have role 2; at seat 5 it is active, and it excludes role 3 {4}. */
static void sample(uint64_t *block)
{
    CHECK(keeper_fresh(block, KEEPER_WORDS) == 0);
    CHECK(keeper_call_record(block, KEEPER_WORDS, keeper_record_add_by_privileges(2, keeper_single(0) | keeper_single(1))) == 0);
    CHECK(keeper_call_record(block, KEEPER_WORDS, keeper_record_assign(0, 2)) == 0);
    CHECK(keeper_call_record(block, KEEPER_WORDS, keeper_record_assign(5, 2)) == 0);
    CHECK(keeper_call_record(block, KEEPER_WORDS, keeper_record_activate(5, 2)) == 0);
    CHECK(keeper_call_record(block, KEEPER_WORDS, keeper_record_add_by_privileges(3, keeper_single(4))) == 0);
    CHECK(keeper_call_record(block, KEEPER_WORDS, keeper_record_exclude(2, 3)) == 0);
}

/* ---- an ask taken for a test ---- */

static void an_ask_for_seat_64_is_not_0_and_may_is_false(void)
{
    uint64_t block[KEEPER_WORDS];
    sample(block);
    CHECK(keeper_ask(block, KEEPER_WORDS, 64, 1) == 256 * KEEPER_UNKNOWN_NUMBER + 64);
    CHECK(!keeper_may(block, KEEPER_WORDS, 64, 1));
    CHECK(keeper_ask(block, KEEPER_WORDS, 5, 64) == 256 * KEEPER_UNKNOWN_NUMBER + 64);
    CHECK(!keeper_may(block, KEEPER_WORDS, 5, 64));
}

static void an_ask_for_seat_256_is_seat_0s_and_may_is_false(void)
{
    uint64_t block[KEEPER_WORDS];
    int seat = 256, privilege = 257;
    sample(block);
    CHECK(keeper_ask(block, KEEPER_WORDS, (uint8_t)seat, 1) == 1);
    CHECK(!keeper_may(block, KEEPER_WORDS, (uint32_t)seat, 1));
    CHECK(keeper_ask(block, KEEPER_WORDS, 5, (uint8_t)privilege) == 1);
    CHECK(!keeper_may(block, KEEPER_WORDS, 5, (uint32_t)privilege));
}

static void an_ask_of_a_short_block_is_not_0_and_may_is_false(void)
{
    uint64_t block[KEEPER_WORDS];
    sample(block);
    CHECK(keeper_ask(block, SHORT, 5, 1) == KEEPER_NO_STATE);
    CHECK(!keeper_may(block, SHORT, 5, 1));
    CHECK(keeper_ask(NULL, 0, 5, 1) == KEEPER_NO_STATE);
    CHECK(!keeper_may(NULL, 0, 5, 1));
}

static void may_is_true_exactly_where_the_ask_is_1(void)
{
    uint64_t block[KEEPER_WORDS];
    uint32_t seat, privilege;
    sample(block);
    for (seat = 0; seat < 600; seat++) {
        for (privilege = 0; privilege < 600; privilege++) {
            bool known = seat < 256 && privilege < 256;
            bool yes = known && keeper_ask(block, KEEPER_WORDS, (uint8_t)seat, (uint8_t)privilege) == 1;
            CHECK(keeper_may(block, KEEPER_WORDS, seat, privilege) == yes);
            CHECK(yes == ((seat == 0 || seat == 5) && privilege < 2));
        }
    }
    CHECK(!keeper_may(block, KEEPER_WORDS, (uint32_t)-1, 1));
    CHECK(!keeper_may(block, KEEPER_WORDS, 5, (uint32_t)-1));
}

/* ---- the question by active roles ---- */

static void the_question_by_active_roles_says_yes_no_or_2(void)
{
    uint64_t block[KEEPER_WORDS];
    sample(block);
    CHECK(keeper_ask_active(block, KEEPER_WORDS, 5, 1) == 1 && keeper_may_active(block, KEEPER_WORDS, 5, 1));
    CHECK(keeper_ask_active(block, KEEPER_WORDS, 5, 2) == 0 && !keeper_may_active(block, KEEPER_WORDS, 5, 2));
    CHECK(keeper_ask_active(block, KEEPER_WORDS, 0, 1) == 0 && !keeper_may_active(block, KEEPER_WORDS, 0, 1));
    CHECK(keeper_ask_active(block, KEEPER_WORDS, 64, 65) == 256 * KEEPER_UNKNOWN_NUMBER + 64);
    CHECK(keeper_ask_active(block, KEEPER_WORDS, 5, 65) == 256 * KEEPER_UNKNOWN_NUMBER + 65);
    CHECK(!keeper_may_active(block, KEEPER_WORDS, 64, 1) && !keeper_may_active(block, KEEPER_WORDS, 5, 64));
}

static void the_question_about_seat_261_is_seat_5s_and_may_active_is_false(void)
{
    uint64_t block[KEEPER_WORDS];
    int seat = 256 + 5, privilege = 256 + 1;
    sample(block);
    CHECK(keeper_ask_active(block, KEEPER_WORDS, (uint8_t)seat, 1) == 1);
    CHECK(!keeper_may_active(block, KEEPER_WORDS, (uint32_t)seat, 1));
    CHECK(keeper_ask_active(block, KEEPER_WORDS, 5, (uint8_t)privilege) == 1);
    CHECK(!keeper_may_active(block, KEEPER_WORDS, 5, (uint32_t)privilege));
    CHECK(!keeper_may_active(block, KEEPER_WORDS, (uint32_t)-1, 1) && !keeper_may_active(block, KEEPER_WORDS, 5, (uint32_t)-1));
}

static void the_question_to_a_short_block_is_not_0_and_may_active_is_false(void)
{
    uint64_t block[KEEPER_WORDS];
    sample(block);
    CHECK(keeper_ask_active(block, SHORT, 5, 1) == KEEPER_NO_STATE && !keeper_may_active(block, SHORT, 5, 1));
    CHECK(keeper_ask_active(NULL, 0, 5, 1) == KEEPER_NO_STATE && !keeper_may_active(NULL, 0, 5, 1));
    CHECK(keeper_active_roles(block, SHORT, 5) == 0 && keeper_active_roles(NULL, 0, 5) == 0);
    CHECK(!keeper_is_excluded(block, SHORT, 2, 3) && !keeper_is_excluded(NULL, 0, 2, 3));
}

static void may_active_is_true_exactly_where_the_question_is_1(void)
{
    uint64_t block[KEEPER_WORDS];
    uint32_t seat, privilege;
    sample(block);
    for (seat = 0; seat < 600; seat++) {
        for (privilege = 0; privilege < 600; privilege++) {
            bool known = seat < 256 && privilege < 256;
            bool yes = known && keeper_ask_active(block, KEEPER_WORDS, (uint8_t)seat, (uint8_t)privilege) == 1;
            CHECK(keeper_may_active(block, KEEPER_WORDS, seat, privilege) == yes);
            CHECK(yes == (seat == 5 && privilege < 2));
        }
    }
}

/* ---- blocks ---- */

static void an_uninitialised_block_says_what_its_words_say(void)
{
    uint64_t block[KEEPER_WORDS];
    uint8_t bytes[16] = { 0 };
    memset(block, 0xFF, sizeof block);
    CHECK(keeper_may(block, KEEPER_WORDS, 5, 1) && keeper_may_active(block, KEEPER_WORDS, 5, 1));
    CHECK(keeper_load(block, KEEPER_WORDS, bytes, sizeof bytes) == 256 * KEEPER_NO_IMAGE);
    CHECK(keeper_may(block, KEEPER_WORDS, 5, 1) && keeper_may_active(block, KEEPER_WORDS, 5, 1));
    CHECK(keeper_fresh(block, KEEPER_WORDS) == 0);
    CHECK(!keeper_may(block, KEEPER_WORDS, 5, 1) && !keeper_may_active(block, KEEPER_WORDS, 5, 1));
}

static void a_short_block_is_told_by_every_answer(void)
{
    uint64_t block[KEEPER_WORDS], before[KEEPER_WORDS];
    keeper_record record = keeper_record_add_by_privileges(4, 4);
    uint8_t image[KEEPER_LONGEST_IMAGE];
    uint32_t length;
    sample(block);
    memcpy(before, block, sizeof block);
    length = keeper_save(block, KEEPER_WORDS, image, sizeof image);
    CHECK(SHORT == 320);
    CHECK(keeper_fresh(block, SHORT) == KEEPER_NO_STATE);
    CHECK(keeper_call_record(block, SHORT, record) == KEEPER_NO_STATE);
    CHECK(keeper_load(block, SHORT, image, length) == KEEPER_NO_STATE);
    CHECK(KEEPER_REFUSED(keeper_fresh(block, SHORT)));
    CHECK(memcmp(before, block, sizeof block) == 0);
}

static void words_behind_the_state_stay(void)
{
    uint64_t block[KEEPER_WORDS + 1];
    block[KEEPER_WORDS] = FILLER;
    sample(block);
    CHECK(keeper_may(block, KEEPER_WORDS + 1, 5, 1));
    CHECK(block[KEEPER_WORDS] == FILLER);
}

static void a_byte_above_63_shows_nothing(void)
{
    uint64_t block[KEEPER_WORDS];
    int n;
    memset(block, 0xFF, sizeof block);
    for (n = 64; n < 256; n++) {
        uint8_t far = (uint8_t)n;
        CHECK(keeper_effective(block, KEEPER_WORDS, far) == 0);
        CHECK(keeper_direct(block, KEEPER_WORDS, far) == 0);
        CHECK(keeper_juniors(block, KEEPER_WORDS, far) == 0);
        CHECK(keeper_seniors(block, KEEPER_WORDS, far) == 0);
        CHECK(!keeper_is_below(block, KEEPER_WORDS, 2, far) && !keeper_is_below(block, KEEPER_WORDS, far, 2));
        CHECK(!keeper_is_declared(block, KEEPER_WORDS, 2, far) && !keeper_is_declared(block, KEEPER_WORDS, far, 2));
        CHECK(keeper_seat_roles(block, KEEPER_WORDS, far) == 0);
        CHECK(keeper_seat_holds(block, KEEPER_WORDS, far) == 0);
        CHECK(keeper_active_roles(block, KEEPER_WORDS, far) == 0);
        CHECK(!keeper_is_excluded(block, KEEPER_WORDS, 2, far) && !keeper_is_excluded(block, KEEPER_WORDS, far, 2));
    }
}

/* ---- null ---- */

static void null_with_length_0_is_fine(void)
{
    uint64_t block[KEEPER_WORDS];
    sample(block);
    CHECK(keeper_call(block, KEEPER_WORDS, NULL, 0) == 256 * KEEPER_MALFORMED);
    CHECK(keeper_load(block, KEEPER_WORDS, NULL, 0) == 256 * KEEPER_NO_IMAGE);
    CHECK(keeper_image_length(NULL, 0) == KEEPER_NOT_SAVED + 256 * KEEPER_NO_IMAGE);
    CHECK(keeper_save(block, KEEPER_WORDS, NULL, 0) == KEEPER_NOT_SAVED + 256 * KEEPER_SHORT_BUFFER);
    CHECK(keeper_count_yes(block, KEEPER_WORDS, NULL, 0) == 0);
    CHECK(keeper_import(NULL, 0, NULL, 0) == KEEPER_NOT_IMPORTED + 1);
    CHECK(keeper_fresh(NULL, 0) == KEEPER_NO_STATE);
    CHECK(keeper_call(NULL, 0, NULL, 0) == KEEPER_NO_STATE);
    CHECK(keeper_edge_count(NULL, 0) == 0);
    CHECK(keeper_may(block, KEEPER_WORDS, 5, 1));
}

/* ---- images ---- */

static void a_save_of_a_short_block_gives_no_length(void)
{
    uint64_t block[KEEPER_WORDS];
    uint8_t buffer[70000], untouched[70000];
    uint32_t given;
    sample(block);
    memset(buffer, FILLER, sizeof buffer);
    memset(untouched, FILLER, sizeof untouched);
    given = keeper_save(block, SHORT, buffer, sizeof buffer);
    CHECK(given == KEEPER_NOT_SAVED + KEEPER_NO_STATE);
    CHECK(!KEEPER_IS_LENGTH(given));
    CHECK(given > sizeof buffer);
    CHECK(memcmp(buffer, untouched, sizeof buffer) == 0);
}

static void a_save_into_a_short_buffer_gives_no_length(void)
{
    uint64_t block[KEEPER_WORDS];
    uint8_t buffer[KEEPER_LONGEST_IMAGE], untouched[KEEPER_LONGEST_IMAGE];
    uint32_t whole, given;
    size_t length;
    sample(block);
    memset(untouched, FILLER, sizeof untouched);
    whole = keeper_save(block, KEEPER_WORDS, buffer, sizeof buffer);
    CHECK(KEEPER_IS_LENGTH(whole));
    for (length = 0; length < whole; length++) {
        memset(buffer, FILLER, sizeof buffer);
        given = keeper_save(block, KEEPER_WORDS, buffer, length);
        CHECK(!KEEPER_IS_LENGTH(given));
        CHECK(KEEPER_NUMBER(given) == KEEPER_SHORT_BUFFER && KEEPER_PLACE(given) == 0);
        CHECK(memcmp(buffer, untouched, sizeof buffer) == 0);
    }
}

static void an_image_behind_other_bytes_loads(void)
{
    uint64_t block[KEEPER_WORDS], loaded[KEEPER_WORDS];
    uint8_t bytes[100 + KEEPER_LONGEST_IMAGE];
    uint32_t length;
    sample(block);
    memset(bytes, FILLER, sizeof bytes);
    length = keeper_save(block, KEEPER_WORDS, bytes + 100, KEEPER_LONGEST_IMAGE);
    CHECK(keeper_fresh(loaded, KEEPER_WORDS) == 0);
    CHECK(keeper_load(loaded, KEEPER_WORDS, bytes, 100 + length) == 0);
    CHECK(keeper_image_length(bytes, 100 + length) == length);
    CHECK(memcmp(block, loaded, SAVED * sizeof block[0]) == 0);
}

/* An accepted load clears exclusions and active roles; a refused one keeps them with all the rest. */
static void a_load_clears_what_no_image_keeps(void)
{
    uint64_t block[KEEPER_WORDS], before[KEEPER_WORDS];
    uint8_t image[KEEPER_LONGEST_IMAGE];
    uint32_t length;
    size_t i;
    sample(block);
    memcpy(before, block, sizeof block);
    length = keeper_save(block, KEEPER_WORDS, image, sizeof image);
    CHECK(keeper_load(block, KEEPER_WORDS, image, length - 1) == 256 * KEEPER_NO_IMAGE);
    CHECK(memcmp(before, block, sizeof block) == 0);
    CHECK(keeper_load(block, KEEPER_WORDS, image, length) == 0);
    CHECK(memcmp(before, block, SAVED * sizeof block[0]) == 0);
    for (i = SAVED; i < KEEPER_WORDS; i++) {
        CHECK(block[i] == 0);
    }
    CHECK(keeper_may(block, KEEPER_WORDS, 5, 1) && !keeper_may_active(block, KEEPER_WORDS, 5, 1));
}

static void an_image_before_other_bytes_is_refused_and_the_state_stays(void)
{
    uint64_t block[KEEPER_WORDS], before[KEEPER_WORDS];
    uint8_t buffer[KEEPER_LONGEST_IMAGE] = { 0 };
    uint32_t length;
    size_t more;
    sample(block);
    memcpy(before, block, sizeof block);
    length = keeper_save(block, KEEPER_WORDS, buffer, sizeof buffer);
    for (more = 1; more < 40; more++) {
        uint32_t answer = keeper_load(block, KEEPER_WORDS, buffer, length + more);
        CHECK(KEEPER_NUMBER(answer) == KEEPER_NO_IMAGE && KEEPER_PLACE(answer) == 0);
        CHECK(keeper_image_length(buffer, length + more) == KEEPER_NOT_SAVED + answer);
        CHECK(memcmp(before, block, sizeof block) == 0);
    }
}

/* ---- sheets ---- */

/* Whatever stands in the place of a tape's length ends no loop over the tape soon, so it is larger than every buffer. */
static void a_refused_import_gives_no_length(void)
{
    static const uint8_t sheet[] = { ',', '0', '\r', '\n', '2', ',', '1' };
    uint8_t tape[KEEPER_TAPE_ROOM(sizeof sheet)], untouched[KEEPER_TAPE_ROOM(sizeof sheet)];
    uint64_t refused, given;
    memset(tape, FILLER, sizeof tape);
    memset(untouched, FILLER, sizeof untouched);
    refused = keeper_import(sheet, sizeof sheet - 1, tape, sizeof tape);
    CHECK(!KEEPER_IS_TAPE(refused) && refused > SIZE_MAX / 2);
    CHECK(KEEPER_IMPORT_NUMBER(refused) == KEEPER_BAD_SHEET && KEEPER_ROW(refused) == 2);
    given = keeper_import(sheet, sizeof sheet, tape, sizeof tape - 1);
    CHECK(!KEEPER_IS_TAPE(given) && given > SIZE_MAX / 2);
    CHECK(KEEPER_IMPORT_NUMBER(given) == KEEPER_SHORT_TAPE && KEEPER_ROW(given) == 0);
    CHECK(memcmp(tape, untouched, sizeof tape) == 0);
    given = keeper_import(sheet, sizeof sheet, tape, sizeof tape);
    CHECK(KEEPER_IS_TAPE(given) && given == sizeof tape);
}

/* ---- answers ---- */

static void a_refusal_has_its_number_and_place(void)
{
    uint64_t block[KEEPER_WORDS];
    uint32_t answer;
    sample(block);
    answer = keeper_call_record(block, KEEPER_WORDS, keeper_record_assign(7, 9));
    CHECK(KEEPER_REFUSED(answer));
    CHECK(KEEPER_NUMBER(answer) == KEEPER_ROLE_ABSENT && KEEPER_PLACE(answer) == 9);
    answer = keeper_call_record(block, KEEPER_WORDS, keeper_record_ask(5, 1));
    CHECK(answer == 1 && !KEEPER_REFUSED(answer));
    answer = keeper_call_record(block, KEEPER_WORDS, keeper_record_ask(5, 2));
    CHECK(answer == 0 && !KEEPER_REFUSED(answer));
    CHECK(KEEPER_REFUSED((uint32_t)KEEPER_NO_STATE));
}

static void every_refusal_has_a_text_of_its_own(void)
{
    uint32_t n, m;
    for (n = 0; n < 300; n++) {
        bool known = n <= 9 || (20 <= n && n <= 35) || n == KEEPER_NUMBER((uint32_t)KEEPER_NO_STATE);
        CHECK((strcmp(keeper_refusal_text(n), "no refusal has this number") != 0) == known);
        for (m = 0; known && m < n; m++) {
            CHECK(strcmp(keeper_refusal_text(n), keeper_refusal_text(m)) != 0);
        }
    }
}

int main(void)
{
    RUN(an_ask_for_seat_64_is_not_0_and_may_is_false);
    RUN(an_ask_for_seat_256_is_seat_0s_and_may_is_false);
    RUN(an_ask_of_a_short_block_is_not_0_and_may_is_false);
    RUN(may_is_true_exactly_where_the_ask_is_1);
    RUN(the_question_by_active_roles_says_yes_no_or_2);
    RUN(the_question_about_seat_261_is_seat_5s_and_may_active_is_false);
    RUN(the_question_to_a_short_block_is_not_0_and_may_active_is_false);
    RUN(may_active_is_true_exactly_where_the_question_is_1);
    RUN(an_uninitialised_block_says_what_its_words_say);
    RUN(a_short_block_is_told_by_every_answer);
    RUN(words_behind_the_state_stay);
    RUN(a_byte_above_63_shows_nothing);
    RUN(null_with_length_0_is_fine);
    RUN(a_save_of_a_short_block_gives_no_length);
    RUN(a_save_into_a_short_buffer_gives_no_length);
    RUN(an_image_behind_other_bytes_loads);
    RUN(a_load_clears_what_no_image_keeps);
    RUN(an_image_before_other_bytes_is_refused_and_the_state_stays);
    RUN(a_refused_import_gives_no_length);
    RUN(a_refusal_has_its_number_and_place);
    RUN(every_refusal_has_a_text_of_its_own);
    return failed_tests > 0;
}
