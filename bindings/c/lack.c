/* Out of memory at each allocation of each call: ./lack FILE.. Linked with -Wl,--wrap=malloc,--wrap=realloc,--wrap=free and the static archive.
 *
 * Allocation number N fails, with all after it, or alone. A call must return WITC_NO_MEMORY and no bytes, or what it returns undisturbed. After it no block may be
 * left, which a count says.
 */
#include "calls.h"

void *__real_malloc(size_t size);
void *__real_realloc(void *at, size_t size);
void __real_free(void *at);

static long requests, failing = -1, blocks;
static int alone;

static int fails(void) {
    long number = requests++;
    return failing >= 0 && (alone ? number == failing : number >= failing);
}

void *__wrap_malloc(size_t size) {
    void *at = fails() ? NULL : __real_malloc(size);
    if (at) blocks++;
    return at;
}

void *__wrap_realloc(void *at, size_t size) {
    void *new = fails() ? NULL : __real_realloc(at, size);
    if (new && !at) blocks++;
    return new;
}

void __wrap_free(void *at) {
    if (at) blocks--;
    __real_free(at);
}

/* Makes one call as often as it allocates, and once more. Returns how much is wrong. */
static long tried(plain_call *call, input it, long *calls) {
    long wrong = 0;
    witc_answer wanted = WITC_NO_ANSWER;
    uint8_t said = call(it.at, it.length, &wanted);
    for (long n = 0, reached = 1; reached; n++) {
        witc_answer answer = WITC_NO_ANSWER;
        long before = blocks;
        requests = 0;
        failing = n;
        uint8_t status = call(it.at, it.length, &answer);
        failing = -1;
        reached = requests > n;
        int is_empty = !answer.length && !answer.at && !answer.owner;
        if (status == WITC_NO_MEMORY ? !reached || answer.why.code != WITC_OUT_OF_MEMORY || !is_empty : status != said || !are_equal(&answer, &wanted)) wrong++;
        witc_free(&answer);
        witc_free(&answer);
        if (blocks != before || answer.length || answer.at || answer.owner) wrong++;
        ++*calls;
    }
    witc_free(&wanted);
    return wrong;
}

int main(int count, char **words) {
    long wrong = 0, calls = 0;
    for (alone = 0; alone < 2; alone++) {
        for (int i = 1; i < count; i++) {
            input it = read_file(words[i]);
            for (int n = 0; n < CALLS_COUNT; n++) wrong += tried(CALLS[n], it, &calls);
            free(it.at);
        }
    }
    printf("%ld calls with an allocation that fails, %ld wrong\n", calls, wrong);
    return wrong != 0;
}
