/* The role keeper from C: from the first role to a yes, and to a yes by the roles that a seat has switched on.
 *
 *     cc -Iinclude examples/c/ask.c target/staticlib/libkeeper.a -o ask
 *
 * The block is the caller's and holds the whole state, so nothing is allocated and nothing is to be freed.
 * keeper_may and keeper_may_active answer the questions; what changes the state answers with 0, or with a refusal's number
 * and place.
 */
#include <stdio.h>

#include "keeper.h"

/* Says whether a call is accepted, and otherwise by which refusal it is not. */
static void tell(const char *what, uint32_t answer)
{
    if (KEEPER_REFUSED(answer)) {
        printf("%s: refused with %u, place %u\n", what, (unsigned)KEEPER_NUMBER(answer), (unsigned)KEEPER_PLACE(answer));
    } else {
        printf("%s: accepted\n", what);
    }
}

/* Gives a record to the keeper, and says what it answers. */
static void call(uint64_t *block, const char *what, keeper_record record)
{
    tell(what, keeper_call_record(block, KEEPER_WORDS, record));
}

/* Asks whether a seat may use a privilege. */
static void ask(const uint64_t *block, uint32_t seat, uint32_t privilege)
{
    const char *answer = keeper_may(block, KEEPER_WORDS, seat, privilege) ? "yes" : "no";
    printf("may seat %u use privilege %u? %s\n", (unsigned)seat, (unsigned)privilege, answer);
}

/* Asks whether a seat may use a privilege by its active roles alone. */
static void ask_active(const uint64_t *block, uint32_t seat, uint32_t privilege)
{
    const char *answer = keeper_may_active(block, KEEPER_WORDS, seat, privilege) ? "yes" : "no";
    printf("may seat %u use privilege %u by its active roles? %s\n", (unsigned)seat, (unsigned)privilege, answer);
}

int main(void)
{
    uint64_t block[KEEPER_WORDS];

    tell("a fresh state", keeper_fresh(block, KEEPER_WORDS));
    call(block, "role 2 with privileges 0 and 1", keeper_record_add_by_privileges(2, keeper_single(0) | keeper_single(1)));
    call(block, "seat 5 gets role 2", keeper_record_assign(5, 2));
    call(block, "seat 5 gets role 3, which is absent", keeper_record_assign(5, 3));
    ask(block, 5, 1);
    ask(block, 5, 2);
    ask_active(block, 5, 1);
    call(block, "seat 5 switches on role 2", keeper_record_activate(5, 2));
    ask_active(block, 5, 1);
    return 0;
}
