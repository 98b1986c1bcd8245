/* The role keeper from C: from a permission sheet to a graph of roles.
 *
 *     cc -Iinclude examples/c/sheet.c target/staticlib/libkeeper.a -o sheet && ./sheet examples/sheets/bench.csv
 *
 * keeper_import writes a record for each row of the sheet, or gives the first row that is wrong; it concerns no state. The
 * records then go to a state one by one, which may refuse some of them.
 */
#include <stdio.h>

#include "keeper.h"

enum { LONGEST = 100000 };

/* The sheet, and its tape: there is room for that of any sheet of so many bytes. */
static uint8_t text[LONGEST];
static uint8_t tape[KEEPER_TAPE_ROOM(LONGEST)];

/* Reads a file of less than LONGEST bytes and gives their number; for any other gives LONGEST. */
static size_t read_sheet(const char *name)
{
    FILE *file = fopen(name, "rb");
    size_t length = file == NULL ? LONGEST : fread(text, 1, LONGEST, file);
    if (file != NULL) {
        fclose(file);
    }
    return length;
}

/* Gives a record to the keeper, and says what it answers. */
static void call(uint64_t *block, const uint8_t *record)
{
    uint32_t answer = keeper_call(block, KEEPER_WORDS, record, KEEPER_RECORD);
    if (KEEPER_REFUSED(answer)) {
        printf("role %u: refused with %u, place %u\n", (unsigned)record[1], (unsigned)KEEPER_NUMBER(answer), (unsigned)KEEPER_PLACE(answer));
    } else {
        printf("role %u: accepted\n", (unsigned)record[1]);
    }
}

int main(int count, char **words)
{
    uint64_t block[KEEPER_WORDS], given, at;
    size_t length = count == 2 ? read_sheet(words[1]) : LONGEST;

    if (length == LONGEST || KEEPER_REFUSED(keeper_fresh(block, KEEPER_WORDS))) {
        fputs("usage: sheet SHEET.csv\n", stderr);
        return 2;
    }
    given = keeper_import(text, length, tape, sizeof tape);
    if (!KEEPER_IS_TAPE(given)) {
        printf("refused with %u, row %lu\n", (unsigned)KEEPER_IMPORT_NUMBER(given), (unsigned long)KEEPER_ROW(given));
        return 1;
    }
    for (at = 0; at < given; at += KEEPER_RECORD) {
        call(block, tape + at);
    }
    printf("%u edges\n", (unsigned)keeper_edge_count(block, KEEPER_WORDS));
    return 0;
}
