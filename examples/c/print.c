/* Does what `witc print`, `module`, `strip` and `compat PREV NEW` do, by the library; a refusal goes to standard error. Behind `./install PREFIX`, with PREFIX/lib/pkgconfig in PKG_CONFIG_PATH:
 *
 *     cc examples/c/print.c $(pkg-config --cflags --libs witc) -o print
 *     ./print print < package.wasm
 */
#include <stdio.h>
#include <stdlib.h>
#include <string.h>

#include "witc.h"

/* All of standard input, or NULL where it can't be read or held. */
static uint8_t *read_all(size_t *length) {
    size_t room = 0;
    uint8_t *bytes = NULL;
    *length = 0;
    for (;;) {
        if (*length == room) {
            uint8_t *more = realloc(bytes, room = room ? 2 * room : 65536);
            if (!more) {
                free(bytes);
                return NULL;
            }
            bytes = more;
        }
        size_t count = fread(bytes + *length, 1, room - *length, stdin);
        if (count == 0) break;
        *length += count;
    }
    if (ferror(stdin)) {
        free(bytes);
        return NULL;
    }
    return bytes;
}

int main(int count, char **words) {
    size_t length;
    witc_answer answer = WITC_NO_ANSWER;
    uint8_t status;
    int prints = count == 2 && !strcmp(words[1], "print");
    int binds = count == 2 && !strcmp(words[1], "module");
    int strips = count == 2 && !strcmp(words[1], "strip");
    int compares = count == 4 && !strcmp(words[1], "compat");
    if (!prints && !binds && !strips && !compares) {
        fputs("usage: print print | module | strip | compat PREV NEW\n", stderr);
        return 2;
    }
    uint8_t *bytes = read_all(&length);
    if (!bytes) {
        fputs("the input can't be read\n", stderr);
        return 1;
    }
    if (prints) {
        status = witc_package_text(bytes, length, &answer);
    } else if (binds) {
        status = witc_module_text(bytes, length, &answer);
    } else if (strips) {
        status = witc_module_strip(bytes, length, &answer);
    } else {
        status = witc_compat(bytes, length, words[2], strlen(words[2]), words[3], strlen(words[3]), &answer);
    }
    free(bytes);
    if (status == WITC_DONE) {
        if (answer.length > 0 && fwrite(answer.at, 1, answer.length, stdout) < answer.length) status = WITC_REFUSED;
        if (compares) puts("compatible");
    } else if (status == WITC_NO_MEMORY) {
        fputs("out of memory\n", stderr);
    } else {
        fprintf(stderr, "%.*s [code %u, detail %u]\n", (int)answer.length, (const char *)answer.at, (unsigned)answer.why.code, (unsigned)answer.why.detail);
    }
    witc_free(&answer);
    return status;
}
