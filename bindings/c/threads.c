/* Four threads make all calls on the same inputs at the same time, and each answer must be that of a call made alone: ./threads ROUNDS FILE.. */
#include <pthread.h>

#include "calls.h"

enum { THREADS = 4, FILES = 64 };
static input inputs[FILES];
static uint8_t statuses[FILES][CALLS_COUNT];
static witc_answer wanted[FILES][CALLS_COUNT];
static int files, rounds;

/* The calls of one thread, which begins at a file of its own. Returns how many differ. */
static void *run(void *number) {
    size_t wrong = 0;
    for (int round = 0; round < rounds; round++) {
        for (int step = 0; step < files; step++) {
            int i = (step + (int)(size_t)number * 7) % files;
            for (int n = 0; n < CALLS_COUNT; n++) {
                witc_answer answer = WITC_NO_ANSWER;
                uint8_t status = CALLS[n](inputs[i].at, inputs[i].length, &answer);
                if (status != statuses[i][n] || !are_equal(&answer, &wanted[i][n])) wrong++;
                witc_free(&answer);
            }
        }
    }
    return (void *)wrong;
}

int main(int count, char **words) {
    if (count < 3 || count > FILES + 2) return 2;
    rounds = atoi(words[1]);
    for (files = 0; files < count - 2; files++) {
        inputs[files] = read_file(words[files + 2]);
        for (int n = 0; n < CALLS_COUNT; n++) statuses[files][n] = CALLS[n](inputs[files].at, inputs[files].length, &wanted[files][n]);
    }
    pthread_t threads[THREADS];
    size_t wrong = 0;
    for (size_t t = 0; t < THREADS; t++) {
        if (pthread_create(&threads[t], NULL, run, (void *)t)) return 4;
    }
    for (int t = 0; t < THREADS; t++) {
        void *found;
        pthread_join(threads[t], &found);
        wrong += (size_t)found;
    }
    for (int i = 0; i < files; i++) {
        for (int n = 0; n < CALLS_COUNT; n++) witc_free(&wanted[i][n]);
        free(inputs[i].at);
    }
    printf("%d calls in %d threads, %zu answers differ\n", THREADS * rounds * files * CALLS_COUNT, THREADS, wrong);
    return wrong != 0;
}
