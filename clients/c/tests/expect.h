/* Expectations of a test. If one does not hold, the test says where and ends. */
#ifndef DIRWOLLEU_TESTS_EXPECT_H
#define DIRWOLLEU_TESTS_EXPECT_H

#include <inttypes.h>
#include <stdbool.h>
#include <stdio.h>
#include <stdlib.h>

#define EXPECT(condition) expect(condition, __FILE__, __LINE__, #condition)
#define EXPECT_NUMBER(wanted, number) expect_number((int64_t)(wanted), (int64_t)(number), __FILE__, __LINE__, #number)

static inline void expect(bool is_so, const char *file, int line, const char *condition)
{
    if (!is_so) {
        fprintf(stderr, "%s:%d: it is not so that %s\n", file, line, condition);
        exit(EXIT_FAILURE);
    }
}

static inline void expect_number(int64_t wanted, int64_t came, const char *file, int line, const char *number)
{
    if (came != wanted) {
        fprintf(stderr, "%s:%d: %s is %" PRId64 " and not %" PRId64 "\n", file, line, number, came, wanted);
        exit(EXIT_FAILURE);
    }
}

#endif
