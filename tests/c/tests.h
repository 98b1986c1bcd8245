/* Tests in C and C++: facts that are checked, and a line for each test. */
#ifndef TESTS_H
#define TESTS_H

#include <stdio.h>

static int false_facts;
static int failed_tests;

static void check(bool fact, const char *text, int line)
{
    if (!fact) {
        printf("line %d: %s\n", line, text);
        false_facts++;
    }
}

#define CHECK(fact) check((fact), #fact, __LINE__)

static void run(const char *name, void (*test)(void))
{
    false_facts = 0;
    test();
    if (false_facts > 0) {
        failed_tests++;
    }
    printf("%s: %s\n", false_facts == 0 ? "ok" : "FAILED", name);
}

#define RUN(test) run(#test, test)

#endif
