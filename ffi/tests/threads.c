/* Eight threads call at the same time, each on its own buffers and on texts that all share. Exit status 0 if every
 * result is right. */
#include <miniserde.h>
#include <pthread.h>
#include <stdio.h>
#include <string.h>

static const char *const CASES[][2] = {
    {" {\"b\": [1, 2.50], \"a\": \"\\u00e9\", \"b\": -0}", "{\"a\":\"é\",\"b\":0}"},
    {"[ [ ], { } ]", "[[],{}]"},
    {"{\"z\":{\"y\":1,\"x\":2},\"a\":\"\\/\"}", "{\"a\":\"/\",\"z\":{\"x\":2,\"y\":1}}"},
    {"1e2", "1e2"},
    {"[1,", NULL},
};
enum { THREADS = 8, ROUNDS = 4000 };

static int is_right(const char *text, const char *wanted)
{
    char out[64];
    size_t len = strlen(text), written;
    miniserde_status status = miniserde_canonical(text, len, out, sizeof out, &written);
    if (!wanted)
        return status == MINISERDE_INVALID && miniserde_is_json(text, len) == MINISERDE_INVALID;
    return status == MINISERDE_OK && written == strlen(wanted) && memcmp(out, wanted, written) == 0
        && miniserde_is_json(text, len) == MINISERDE_OK && miniserde_equal(text, len, wanted, written) == MINISERDE_OK;
}

static void *work(void *faults)
{
    for (size_t round = 0; round < ROUNDS; round++) {
        const char *const *one = CASES[round % (sizeof CASES / sizeof CASES[0])];
        *(long *)faults += !is_right(one[0], one[1]);
    }
    return NULL;
}

int main(void)
{
    pthread_t threads[THREADS];
    long faults[THREADS] = {0}, all = 0;
    for (int at = 0; at < THREADS; at++)
        if (pthread_create(&threads[at], NULL, work, &faults[at]))
            return 2;
    for (int at = 0; at < THREADS; at++) {
        pthread_join(threads[at], NULL);
        all += faults[at];
    }
    printf("%d threads, %d rounds each, %ld failed\n", THREADS, ROUNDS, all);
    return all != 0;
}
