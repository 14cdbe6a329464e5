/* The calls that the tests in C make, each of one input, and the inputs as files. */
#include <stdio.h>
#include <stdlib.h>
#include <string.h>

#include "witc.h"

typedef uint8_t plain_call(const uint8_t *bytes, size_t length, witc_answer *answer);

static uint8_t compat_of_services(const uint8_t *bytes, size_t length, witc_answer *answer) {
    return witc_compat(bytes, length, "service", 7, "service-next", 12, answer);
}

static uint8_t compat_with_nobody(const uint8_t *bytes, size_t length, witc_answer *answer) {
    return witc_compat(bytes, length, "service", 7, "nobody", 6, answer);
}

static uint8_t compat_of_no_names(const uint8_t *bytes, size_t length, witc_answer *answer) {
    return witc_compat(bytes, length, "\xff", 1, NULL, 0, answer);
}

static uint8_t canonical_bytes(const uint8_t *bytes, size_t length, witc_answer *answer) { return witc_package_bytes(bytes, length, 1, answer); }

static uint8_t first_section(const uint8_t *bytes, size_t length, witc_answer *answer) { return witc_module_section(bytes, length, 0, answer); }

static uint8_t short_package_text(const uint8_t *bytes, size_t length, witc_answer *answer) { return witc_package_text_within(bytes, length, 300, answer); }

static uint8_t short_world_text(const uint8_t *bytes, size_t length, witc_answer *answer) { return witc_world_text_within(bytes, length, 300, answer); }

static uint8_t short_module_text(const uint8_t *bytes, size_t length, witc_answer *answer) { return witc_module_text_within(bytes, length, 300, answer); }

static uint8_t service_embedded(const uint8_t *bytes, size_t length, witc_answer *answer) {
    return witc_embed(bytes, length, "service", 7, WITC_UTF16, 0, answer);
}

static uint8_t nobody_embedded(const uint8_t *bytes, size_t length, witc_answer *answer) {
    return witc_embed(bytes, length, "nobody", 6, WITC_UTF8, 0, answer);
}

static uint8_t service_attached(const uint8_t *bytes, size_t length, witc_answer *answer) {
    static const uint8_t empty[8] = {0, 0x61, 0x73, 0x6d, 1, 0, 0, 0};
    return witc_attach(empty, 8, bytes, length, "service", 7, WITC_UTF8, 0, answer);
}

static uint8_t same_service(const uint8_t *bytes, size_t length, witc_answer *answer) {
    return witc_same_world(bytes, length, "service", 7, bytes, length, "service", 7, answer);
}

static uint8_t other_service(const uint8_t *bytes, size_t length, witc_answer *answer) {
    return witc_same_world(bytes, length, "service", 7, bytes, length, "service-next", 12, answer);
}

/* The input as a WIT text, or as the name of one. */
static uint8_t package_of_input(const uint8_t *bytes, size_t length, witc_answer *answer) {
    witc_text texts[1];
    texts[0].at = bytes, texts[0].length = length;
    texts[0].name = (const uint8_t *)"input", texts[0].name_length = 5;
    return witc_texts_package(texts, 1, 1, answer);
}

static uint8_t package_named_input(const uint8_t *bytes, size_t length, witc_answer *answer) {
    static const char text[] = "package a:b;";
    witc_text texts[1];
    texts[0].at = (const uint8_t *)text, texts[0].length = sizeof text - 1;
    texts[0].name = bytes, texts[0].name_length = length;
    return witc_texts_package(texts, 1, 1, answer);
}

/* A package of two texts, of which one uses the other, and the second has no name. */
static const char APP[] = "package a:app;\n\nworld app {\n  import a:log/log;\n  use a:log/log.{level};\n  import at: func() -> level;\n}\n";
static const char LOG[] = "package a:log;\n\ninterface log {\n  enum level { low, high }\n  write: func(level: level, line: string);\n}\n";

static uint8_t package_of_two(const uint8_t *bytes, size_t length, witc_answer *answer) {
    witc_text texts[2];
    (void)bytes, (void)length;
    texts[0].at = (const uint8_t *)APP, texts[0].length = sizeof APP - 1;
    texts[0].name = (const uint8_t *)"app.wit", texts[0].name_length = 7;
    texts[1].at = (const uint8_t *)LOG, texts[1].length = sizeof LOG - 1;
    texts[1].name = NULL, texts[1].name_length = 0;
    return witc_texts_package(texts, 2, 1, answer);
}

static plain_call *const CALLS[] = {
    witc_package_text,    witc_package_json,    canonical_bytes,      short_package_text,   witc_world_text,      witc_world_json,
    witc_world_package,   short_world_text,     witc_module_text,     witc_module_json,     short_module_text,    witc_module_package,
    witc_module_strip,    first_section,        witc_module_sections, service_embedded,     nobody_embedded,      service_attached,
    same_service,         other_service,        compat_of_services,   compat_with_nobody,   compat_of_no_names,   package_of_input,
    package_named_input,  package_of_two,
};
enum { CALLS_COUNT = sizeof CALLS / sizeof *CALLS };

typedef struct input {
    uint8_t *at;
    size_t length;
} input;

/* The bytes of a file, without room behind them. No bytes are a null pointer. */
static input read_file(const char *name) {
    input it = {NULL, 0};
    FILE *file = fopen(name, "rb");
    if (!file || fseek(file, 0, SEEK_END)) exit(4);
    it.length = (size_t)ftell(file);
    rewind(file);
    if (it.length > 0) it.at = malloc(it.length);
    if (it.length > 0 && (!it.at || fread(it.at, 1, it.length, file) < it.length)) exit(4);
    fclose(file);
    return it;
}

/* Whether two answers have the same bytes and numbers. */
static int are_equal(const witc_answer *a, const witc_answer *b) {
    return a->why.code == b->why.code && a->why.detail == b->why.detail && a->why.offset == b->why.offset && a->why.subject == b->why.subject &&
           a->length == b->length && (a->length == 0 || !memcmp(a->at, b->at, a->length));
}
