/* What the written program needs beside its calls: it runs each as the header has it, or with two arguments of one type
 * swapped, which the answers have to show. */
#include <stdio.h>
#include <string.h>

/* All numbers of a list but `own` behind its margin. */
#define SAME(list, expected, margin, own)                                                                            \
    (sizeof(list) == sizeof(expected) && memcmp(list, expected, (margin) * sizeof *(list)) == 0 &&                    \
     memcmp((list) + (margin) + (own), (expected) + (margin) + (own),                                                \
            sizeof(list) - ((margin) + (own)) * sizeof *(list)) == 0)

struct call {
    const char *function;
    int (*answers)(int swapped); /* whether by the known answer; 0 for no swap, else which of them, from 1 */
    const char *const *swaps;    /* names of the two, up to NULL */
};

/* Whether any call of a function shows that swap. The calls of one stand together. */
static int shown(const struct call *calls, size_t count, const char *function, int swapped)
{
    for (size_t k = 0; k < count; k++) {
        if (strcmp(calls[k].function, function) == 0 && !calls[k].answers(swapped))
            return 1;
    }
    return 0;
}

static int tell(int passed, int failed)
{
    printf("%d passed, %d failed\n", passed, failed);
    return failed == 0 ? 0 : 1;
}

static int run_swapped(const struct call *calls, size_t count)
{
    int passed = 0, failed = 0;
    for (size_t k = 0; k < count; k++) {
        if (k > 0 && strcmp(calls[k].function, calls[k - 1].function) == 0)
            continue;
        for (int swap = 0; calls[k].swaps[swap] != NULL; swap++) {
            if (shown(calls, count, calls[k].function, swap + 1)) {
                passed++;
            } else {
                failed++;
                printf("FAILED %s: no answer shows a swap of %s\n", calls[k].function, calls[k].swaps[swap]);
            }
        }
    }
    return tell(passed, failed);
}

static int run_declared(const struct call *calls, size_t count)
{
    int passed = 0, failed = 0;
    for (size_t k = 0; k < count; k++) {
        if (calls[k].answers(0)) {
            passed++;
        } else {
            failed++;
            printf("FAILED %s, call %zu\n", calls[k].function, k);
        }
    }
    return tell(passed, failed);
}

static int run(const struct call *calls, size_t count, int swapped)
{
    return swapped ? run_swapped(calls, count) : run_declared(calls, count);
}
