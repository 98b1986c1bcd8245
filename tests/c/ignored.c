/* Ignores an answer: with warnings as errors this must not compile. */
#include "keeper.h"

int main(void)
{
    uint64_t block[KEEPER_WORDS];
    keeper_fresh(block, KEEPER_WORDS);
    return 0;
}
