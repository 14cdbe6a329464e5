/* What the header adds to the library: ./test EXAMPLES, where EXAMPLES is the folder examples. */
#include <stdio.h>

#include "calls.h"

static const uint8_t EMPTY[8] = {0, 0x61, 0x73, 0x6d, 1, 0, 0, 0};
static const char *folder;

static input sample(const char *name) {
    char path[4096];
    snprintf(path, sizeof path, "%s/%s", folder, name);
    return read_file(path);
}

static void want_at(int holds, int line) {
    if (holds) return;
    fprintf(stderr, "test.c:%d: not so\n", line);
    exit(1);
}
#define want(holds) want_at(holds, __LINE__)

static int is(const witc_answer *answer, const void *bytes, size_t length) {
    return answer->length == length && (length == 0 || !memcmp(answer->at, bytes, length));
}

/* Whether a call has refused a null pointer, with a message that witc_free takes. */
static int refuses_null(uint8_t status, witc_answer *answer) {
    int held = status == WITC_BAD_ARGUMENT && answer->why.code == WITC_NULL_WITH_LENGTH && answer->why.offset == WITC_NOWHERE && answer->length > 0;
    witc_free(answer);
    return held && !answer->at && answer->length == 0;
}

static void null_pointers(void) {
    witc_answer answer = WITC_NO_ANSWER;
    const char *world = "service";
    want(refuses_null(witc_package_text(NULL, 1, &answer), &answer));
    want(refuses_null(witc_package_text_within(NULL, 1, 9, &answer), &answer));
    want(refuses_null(witc_package_json(NULL, SIZE_MAX, &answer), &answer));
    want(refuses_null(witc_package_bytes(NULL, 1, 0, &answer), &answer));
    want(refuses_null(witc_world_text_within(NULL, 1, 9, &answer), &answer));
    want(refuses_null(witc_module_text_within(NULL, 1, 9, &answer), &answer));
    want(refuses_null(witc_module_strip(NULL, 8, &answer), &answer));
    want(refuses_null(witc_module_section(NULL, 8, 0, &answer), &answer));
    want(refuses_null(witc_module_sections(NULL, 8, &answer), &answer));
    want(refuses_null(witc_embed(NULL, 8, world, 7, WITC_UTF8, 0, &answer), &answer));
    want(refuses_null(witc_embed(EMPTY, 8, NULL, 7, WITC_UTF8, 0, &answer), &answer));
    want(refuses_null(witc_attach(NULL, 8, EMPTY, 8, world, 7, WITC_UTF8, 0, &answer), &answer));
    want(refuses_null(witc_attach(EMPTY, 8, NULL, 8, world, 7, WITC_UTF8, 0, &answer), &answer));
    want(refuses_null(witc_attach(EMPTY, 8, EMPTY, 8, NULL, 7, WITC_UTF8, 0, &answer), &answer));
    want(refuses_null(witc_compat(EMPTY, 8, NULL, 7, world, 7, &answer), &answer));
    want(refuses_null(witc_compat(EMPTY, 8, world, 7, NULL, 7, &answer), &answer));
    want(refuses_null(witc_same_world(EMPTY, 8, world, 7, NULL, 8, world, 7, &answer), &answer));
    want(refuses_null(witc_same_world(EMPTY, 8, world, 7, EMPTY, 8, NULL, 7, &answer), &answer));
    want(refuses_null(witc_texts_package(NULL, 1, 1, &answer), &answer));
    for (int n = 0; n < 2; n++) {
        witc_text texts[2] = {{EMPTY, 8, EMPTY, 1}, {EMPTY, 8, EMPTY, 1}};
        *(n ? &texts[1].at : &texts[1].name) = NULL;
        want(refuses_null(witc_texts_package(texts, 2, 2, &answer), &answer));
    }
    want(witc_kinds(NULL, 1) == WITC_KIND_UNKNOWN && witc_kinds(NULL, 0) == 0);
    want(witc_package_text(NULL, 0, &answer) == WITC_REFUSED && answer.why.code == WITC_NO_READING);
    witc_free(&answer);
    witc_free(&answer);
    witc_free(NULL);
}

/* Each number but 0 asks for canonical names. */
static void canonical_names(void) {
    input package = sample("packages/clock.wasm");
    witc_answer plain = WITC_NO_ANSWER, one = WITC_NO_ANSWER, other = WITC_NO_ANSWER;
    want(witc_package_bytes(package.at, package.length, 0, &plain) == WITC_DONE);
    want(witc_package_bytes(package.at, package.length, 1, &one) == WITC_DONE && !is(&one, plain.at, plain.length));
    for (uint32_t canonical = 2; canonical != 0; canonical <<= 1) {
        want(witc_package_bytes(package.at, package.length, canonical, &other) == WITC_DONE && are_equal(&other, &one));
        witc_free(&other);
    }
    witc_free(&plain);
    witc_free(&one);
    want(witc_embed(package.at, package.length, "clock", 5, WITC_UTF8, 0, &plain) == WITC_DONE);
    want(witc_embed(package.at, package.length, "clock", 5, WITC_UTF8, 1, &one) == WITC_DONE && !is(&one, plain.at, plain.length));
    want(witc_embed(package.at, package.length, "clock", 5, WITC_UTF8, 256, &other) == WITC_DONE && are_equal(&other, &one));
    witc_free(&plain);
    witc_free(&one);
    witc_free(&other);
    free(package.at);
}

static void arguments(void) {
    witc_answer answer = WITC_NO_ANSWER;
    want(witc_embed(NULL, 0, "\xff", 1, 3, 0, &answer) == WITC_BAD_ARGUMENT && answer.why.code == WITC_NOT_UTF8);
    witc_free(&answer);
    want(witc_embed(NULL, 0, "a", 1, 3, 0, &answer) == WITC_BAD_ARGUMENT && answer.why.code == WITC_BAD_ENCODING);
    witc_free(&answer);
    want(witc_attach(NULL, 0, NULL, 0, "\xff", 1, 3, 0, &answer) == WITC_BAD_ARGUMENT && answer.why.code == WITC_NOT_UTF8);
    witc_free(&answer);
    want(witc_attach(NULL, 0, NULL, 0, "a", 1, UINT32_MAX, 0, &answer) == WITC_BAD_ARGUMENT && answer.why.code == WITC_BAD_ENCODING);
    witc_free(&answer);
    for (uint32_t code = 0; code < 30; code++) want(witc_is_no(code) == (code == 13 || code == 14 || code == 15 || code == 16));
}

/* Of two worlds that differ, the first one's name is the subject; of a world that isn't there, its own name. */
static void subjects(void) {
    input package = sample("packages/services.wasm");
    witc_answer answer = WITC_NO_ANSWER;
    want(witc_same_world(package.at, package.length, "service", 7, package.at, package.length, "service-next", 12, &answer) == WITC_REFUSED);
    want(answer.why.code == WITC_DIFFERS && answer.why.subject == 7 && !memcmp(answer.at + answer.length - 7, "service", 7));
    witc_free(&answer);
    want(witc_same_world(package.at, package.length, "service-next", 12, package.at, package.length, "service", 7, &answer) == WITC_REFUSED);
    want(answer.why.code == WITC_DIFFERS && answer.why.subject == 12 && !memcmp(answer.at + answer.length - 12, "service-next", 12));
    witc_free(&answer);
    want(witc_same_world(package.at, package.length, "service", 7, package.at, package.length, "nobody", 6, &answer) == WITC_BAD_ARGUMENT);
    want(answer.why.code == WITC_NO_SUCH_WORLD && answer.why.subject == 6 && !memcmp(answer.at + answer.length - 6, "nobody", 6));
    witc_free(&answer);
    want(witc_same_world(package.at, package.length, "service", 7, package.at, package.length, "service", 7, &answer) == WITC_DONE && answer.length == 0);
    witc_free(&answer);
    free(package.at);
}

/* The sections of a module with the worlds of two packages, in order, each as witc_module_section gives it. */
static void sections(void) {
    input services = sample("packages/services.wasm"), clock = sample("packages/clock.wasm");
    witc_answer one = WITC_NO_ANSWER, both = WITC_NO_ANSWER, all = WITC_NO_ANSWER, wanted = WITC_NO_ANSWER;
    witc_section section = WITC_NO_SECTION;
    want(witc_attach(EMPTY, 8, services.at, services.length, "service", 7, WITC_UTF8, 0, &one) == WITC_DONE);
    want(witc_attach(one.at, one.length, clock.at, clock.length, "clock", 5, WITC_UTF16, 0, &both) == WITC_DONE);
    want(witc_module_sections(both.at, both.length, &all) == WITC_DONE);
    want(witc_next_section(&all, &section));
    want(witc_embed(services.at, services.length, "service", 7, WITC_UTF8, 0, &wanted) == WITC_DONE && is(&wanted, section.at, section.length));
    witc_free(&wanted);
    want(witc_next_section(&all, &section));
    want(witc_embed(clock.at, clock.length, "clock", 5, WITC_UTF16, 0, &wanted) == WITC_DONE && is(&wanted, section.at, section.length));
    witc_free(&wanted);
    want(!witc_next_section(&all, &section) && !witc_next_section(&all, &section));
    witc_free(&all);
    want(witc_module_sections(EMPTY, 8, &all) == WITC_DONE);
    section.at = NULL;
    want(all.length == 0 && !witc_next_section(&all, &section));
    witc_free(&all);
    witc_free(&one);
    witc_free(&both);
    free(services.at);
    free(clock.at);
}

/* Sections without bytes, and bytes that end too early, as no answer does. */
static void sections_of_bytes(void) {
    static const uint8_t bytes[] = {0, 0, 0, 0, 2, 0, 0, 0, 'a', 'b', 0, 0, 0, 0, 0, 1, 0, 0};
    witc_answer all = WITC_NO_ANSWER;
    witc_section section = WITC_NO_SECTION;
    all.at = bytes;
    all.length = 14;
    want(witc_next_section(&all, &section) && section.length == 0);
    want(witc_next_section(&all, &section) && section.length == 2 && section.at == bytes + 8);
    want(witc_next_section(&all, &section) && section.length == 0);
    want(!witc_next_section(&all, &section));
    all.length = sizeof bytes;
    want(!witc_next_section(&all, &section));
    all.length = 9;
    section.at = NULL;
    want(witc_next_section(&all, &section) && !witc_next_section(&all, &section));
}

/* A bound of as many bytes as the text has is enough, and one less isn't. */
static void bounds(const char *text, const char *bytes, uint8_t (*call)(const uint8_t *, size_t, size_t, witc_answer *)) {
    input given = sample(bytes), wanted = sample(text);
    witc_answer answer = WITC_NO_ANSWER;
    for (int n = 0; n < 2; n++) {
        want(call(given.at, given.length, n ? SIZE_MAX : wanted.length, &answer) == WITC_DONE && is(&answer, wanted.at, wanted.length));
        witc_free(&answer);
        want(call(given.at, given.length, n ? 0 : wanted.length - 1, &answer) == WITC_REFUSED && answer.why.code == WITC_TEXT_TOO_LONG);
        want(answer.why.offset == WITC_NOWHERE && answer.why.subject == 0 && answer.why.detail == 0);
        witc_free(&answer);
    }
    want(call(EMPTY, 4, 0, &answer) == WITC_REFUSED && answer.why.code != WITC_TEXT_TOO_LONG);
    witc_free(&answer);
    free(given.at);
    free(wanted.at);
}

static witc_text text_of(const char *text, size_t length, const char *name) {
    witc_text it = {(const uint8_t *)text, length, (const uint8_t *)name, name ? strlen(name) : 0};
    return it;
}

/* Whether texts are refused so. */
static int refuses_texts(const witc_text *texts, size_t count, size_t own, uint8_t status, witc_why why, const char *message) {
    witc_answer answer = WITC_NO_ANSWER;
    int held = witc_texts_package(texts, count, own, &answer) == status && is(&answer, message, strlen(message)) && answer.why.code == why.code &&
               answer.why.detail == why.detail && answer.why.offset == why.offset && answer.why.subject == 0;
    witc_free(&answer);
    return held;
}

static witc_why why_of(uint32_t code, uint32_t detail, size_t offset) {
    witc_why why = {0, 0, 0, 0};
    why.offset = offset, why.code = code, why.detail = detail;
    return why;
}

/* A package of its text, and of two texts of which one uses the other, in either order and nested. */
static void texts(void) {
    input clock = sample("packages/clock.wit"), files = sample("packages/files.wit"), package = sample("packages/clock.wasm");
    witc_answer answer = WITC_NO_ANSWER, printed = WITC_NO_ANSWER;
    witc_text both[2] = {text_of((const char *)files.at, files.length, "files.wit"), text_of((const char *)clock.at, clock.length, NULL)};
    want(witc_texts_package(&both[1], 1, 1, &answer) == WITC_DONE && is(&answer, package.at, package.length));
    witc_free(&answer);
    want(witc_texts_package(both, 2, 1, &answer) == WITC_DONE);
    want(witc_package_text(answer.at, answer.length, &printed) == WITC_DONE && is(&printed, files.at, files.length));
    witc_free(&answer);
    witc_free(&printed);
    want(refuses_texts(both, 1, 1, WITC_REFUSED, why_of(WITC_BAD_TEXT, 0, 54), "files.wit: line 4, column 7: no text has this package"));
    want(refuses_texts(both, 2, 2, WITC_REFUSED, why_of(WITC_TWO_PACKAGES, 1, WITC_NOWHERE), "files.wit and text 1 begin with two packages"));
    free(clock.at);
    free(files.at);
    free(package.at);
}

/* The names are looked at first, then the number of own texts, then the texts. */
static void refused_texts(void) {
    const char *bad = "package a:b;\n// \xc3\xa9\ninterface \xc3\xa9 {}", *count = "the number of own texts isn't 1 to the number of all texts";
    witc_text it[3] = {text_of("package a:b;", 12, "a.wit"), text_of("\xff", 1, ""), text_of("", 0, "\xff")};
    witc_text place = text_of(bad, strlen(bad), NULL), empty = text_of(NULL, 0, "empty.wit");
    want(refuses_texts(it, 3, 4, WITC_BAD_ARGUMENT, why_of(WITC_NOT_UTF8, 2, WITC_NOWHERE), "the name of text 2 isn't UTF-8"));
    want(refuses_texts(it, 2, 3, WITC_BAD_ARGUMENT, why_of(WITC_BAD_COUNT, 0, WITC_NOWHERE), count));
    want(refuses_texts(it, 2, 0, WITC_BAD_ARGUMENT, why_of(WITC_BAD_COUNT, 0, WITC_NOWHERE), count));
    want(refuses_texts(NULL, 0, 0, WITC_BAD_ARGUMENT, why_of(WITC_BAD_COUNT, 0, WITC_NOWHERE), count));
    want(refuses_texts(NULL, 0, 1, WITC_BAD_ARGUMENT, why_of(WITC_BAD_COUNT, 0, WITC_NOWHERE), count));
    want(refuses_texts(it, 2, SIZE_MAX, WITC_BAD_ARGUMENT, why_of(WITC_BAD_COUNT, 0, WITC_NOWHERE), count));
    want(refuses_texts(it, 2, 2, WITC_BAD_ARGUMENT, why_of(WITC_NOT_UTF8, 1, WITC_NOWHERE), "text 1 isn't UTF-8"));
    want(refuses_texts(&place, 1, 1, WITC_REFUSED, why_of(WITC_BAD_TEXT, 0, 29), "text 0: line 3, column 11: no token begins here"));
    want(refuses_texts(&empty, 1, 1, WITC_REFUSED, why_of(WITC_BAD_TEXT, 0, 0), "empty.wit: line 1, column 1: no `package` in this text, nor in another of its folder"));
}

int main(int count, char **words) {
    if (count != 2) return 2;
    folder = words[1];
    null_pointers();
    canonical_names();
    arguments();
    subjects();
    sections();
    sections_of_bytes();
    texts();
    refused_texts();
    bounds("packages/files.wit", "packages/files.wasm", witc_package_text_within);
    bounds("modules/service.wit", "modules/service.wasm", witc_module_text_within);
    puts("c: passed");
    return 0;
}
