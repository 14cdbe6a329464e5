/* WIT packages, worlds and core modules, in binary form and as text, for C (C99 or later) and C++. Link with `pkg-config --libs witc`; witc.hpp has the
 * same for C++17.
 *
 * Each call takes bytes as a pointer and a length. It returns a status, and puts bytes of its own into an answer:
 *
 *     witc_answer answer = WITC_NO_ANSWER;
 *     if (witc_module_text(bytes, length, &answer) != WITC_DONE) fprintf(stderr, "%.*s\n", (int)answer.length, (const char *)answer.at);
 *     else if (answer.length > 0) fwrite(answer.at, 1, answer.length, stdout);
 *     witc_free(&answer);
 *
 * It reads three kinds of bytes:
 *
 *   - a package: a WIT package as a component, as `wasm-tools component wit --wasm` writes it;
 *   - a world: the data of one `component-type` section, as wit-bindgen embeds it: one world, with all that it uses;
 *   - a module: a core module, with what its `component-type` sections bind together.
 *
 * witc_kinds tells which of them bytes are. Each can be turned into WIT text, and into the bytes of a package, which every call on packages takes.
 * Each can be listed as JSON, too. witc_texts_package turns WIT texts into the bytes of a package. Documentation and stability are not read, and other
 * components are refused.
 *
 * Bound the text of bytes from strangers. A package of 160 bytes can have a text of 46 MB: 22 tuples, each with the one before twice. With 100 tuples a text
 * would never end. The calls with `within` in their name take the greatest length that you want. JSON and bytes stay small, so they need no bound.
 *
 * For each call:
 *
 *   - `bytes` must point to `length` readable bytes that stay unchanged during the call. It may be null if `length` is 0. With another length a null pointer is
 *     refused (WITC_NULL_WITH_LENGTH), and nothing is read. The same holds of names, which are UTF-8 without a zero at their end, and of the other inputs.
 *   - `answer` must point to a witc_answer that is WITC_NO_ANSWER, or that only these functions have written. Each call overwrites it without freeing it;
 *     call witc_free first.
 *   - Free each answer once, where it was written or where it was moved to, also after a refusal: its message is memory too. Don't use a copy of it after
 *     that. Only read its bytes.
 *   - malloc, realloc and free must be one allocator, and align as C requires. Don't call these functions from a signal handler, nor between fork and exec in
 *     a program with threads.
 *
 * The calls keep no state between them. So threads may call them at the same time, on the same bytes too, each with an answer of its own.
 */
#ifndef WITC_H
#define WITC_H

#include <stddef.h>
#include <stdint.h>
#include <stdlib.h>

#ifdef __cplusplus
extern "C" {
#endif

/* The version of this interface. The name of the shared library ends with it. witc_abi() returns that of the library. */
#define WITC_ABI 2

/* The statuses. Names, and the number of an encoding, are looked at before any bytes. */
#define WITC_DONE 0         /* The call succeeded. The answer is the result. */
#define WITC_REFUSED 1      /* The bytes, the texts, the worlds, or what would come of them, are refused. `why.code` says why, and the answer is a message. */
#define WITC_BAD_ARGUMENT 2 /* A world, a section or an encoding doesn't exist, a name or a text isn't UTF-8, there can't be so many own texts, or a pointer is
                             * null: `why.code` is 17 to 20, 22 or 25. The answer is a message. */
#define WITC_NO_MEMORY 3    /* Out of memory. There is no answer. */

/* The codes. In brackets: what else is set, of `detail`, `offset` and `subject`. What isn't set is 0, WITC_NOWHERE and 0. */
#define WITC_OK 0
#define WITC_OUT_OF_MEMORY 1
#define WITC_TOO_LARGE 2               /* A count or a length doesn't fit in 32 bits. */
#define WITC_CANONICAL_CLASH 3         /* Two imports, or two exports, have the same canonical name [subject]. */
#define WITC_NO_READING 4              /* The bytes mean no package, or no single world [detail: a cause; offset]. */
#define WITC_ENCODING_MISSING 5        /* A section of bindings has no string encoding. */
#define WITC_ENCODING_UNKNOWN_FORMAT 6 /* The section of the string encoding is empty. */
#define WITC_ENCODING_VERSION 7        /* The section of the string encoding has another format [detail: its byte]. */
#define WITC_BAD_STRING_ENCODING 8     /* No string encoding has this number [detail: its byte]. */
#define WITC_HISTORICAL 9              /* A section in the format from before there were versions. */
#define WITC_NOT_A_MODULE 10
#define WITC_BAD_MODULE 11             /* No well-formed section begins here [offset]. */
#define WITC_CLASH 12                  /* Two sections disagree [detail: in what; subject]. */
#define WITC_OTHER_PACKAGE 13          /* The worlds to compare are of packages with different names. */
#define WITC_TWICE_WITHOUT_VERSION 14  /* A world has two versions of an interface [subject]. */
#define WITC_MISSING 15                /* A world lacks an item [subject]. */
#define WITC_DIFFERS 16                /* Two worlds differ in an item [subject]; of witc_same_world: they differ [subject: the first world's name]. */
#define WITC_NO_SUCH_WORLD 17          /* [subject] */
#define WITC_NOT_UTF8 18 /* A name, or a WIT text [detail: of a text or its name, the number of the text]. */
#define WITC_BAD_ENCODING 19
#define WITC_NO_SUCH_SECTION 20
#define WITC_TEXT_TOO_LONG 21    /* The text is longer than the length that the caller has set. */
#define WITC_NULL_WITH_LENGTH 22 /* A pointer is null, and its length isn't 0. */
#define WITC_BAD_TEXT 23         /* A WIT text is refused [detail: the number of the text; offset: in it], or all of them for a rule [no offset]. */
#define WITC_TWO_PACKAGES 24     /* An own text begins with another package than the first [detail: the number of the text]. */
#define WITC_BAD_COUNT 25        /* The number of own texts isn't 1 to the number of all texts. */

/* The causes of WITC_NO_READING. Take them as advice: it is proved that the bytes mean nothing and that the offset is at most their length, but not that the
 * cause is the right one. */
#define WITC_CAUSE_TRUNCATED 1
#define WITC_CAUSE_BAD_NUMBER 2
#define WITC_CAUSE_BAD_UTF8 3
#define WITC_CAUSE_BAD_PREAMBLE 4
#define WITC_CAUSE_UNKNOWN_SECTION 5
#define WITC_CAUSE_UNKNOWN_FORM 6
#define WITC_CAUSE_OUT_OF_SCOPE 7
#define WITC_CAUSE_BAD_NAME 8
#define WITC_CAUSE_NOT_WIT 9
#define WITC_CAUSE_DISAGREE 10
#define WITC_CAUSE_TOO_DEEP 11
#define WITC_CAUSE_TRAILING 12
#define WITC_CAUSE_NO_PACKAGE 13

/* What two sections clash in. */
#define WITC_CLASH_INTERFACE 1
#define WITC_CLASH_WORLD 2
#define WITC_CLASH_IMPORT 3
#define WITC_CLASH_EXPORT 4
#define WITC_CLASH_ENCODING 5

/* String encodings. */
#define WITC_UTF8 0
#define WITC_UTF16 1
#define WITC_LATIN1_UTF16 2

/* The result of witc_kinds: a sum of these, or WITC_KIND_UNKNOWN. */
#define WITC_IS_PACKAGE 1
#define WITC_IS_WORLD 2
#define WITC_IS_MODULE 4
#define WITC_KIND_UNKNOWN 128 /* Out of memory, a list of bindings would get too long, or the pointer is null and the length isn't 0. */

#define WITC_NOWHERE SIZE_MAX

/* Why a call returns its status. */
typedef struct witc_why {
    size_t offset;  /* in the bytes, at most their length, or WITC_NOWHERE; WITC_NO_READING of a module: in the data of the section; WITC_BAD_TEXT: in
                     * the text */
    size_t subject; /* the last `subject` bytes of the message are the name that it is about */
    uint32_t code;
    uint32_t detail;
} witc_why;

/* `length` bytes at `at`, which don't end with a zero. The caller owns them until it passes them to witc_free, which leaves `why` as it is. Only witc_free
 * uses `owner`. */
typedef struct witc_answer {
    const uint8_t *at;
    size_t length;
    uint8_t *owner;
    witc_why why;
} witc_answer;

#define WITC_NO_ANSWER { NULL, 0, NULL, { WITC_NOWHERE, 0, 0, 0 } }

/* A WIT text: `length` bytes of UTF-8 at `at`, and the name by which messages call it, as a path. A pointer may be null if its length is 0. A text without a
 * name is called `text N`, by its number from 0. */
typedef struct witc_text {
    const uint8_t *at;
    size_t length;
    const uint8_t *name;
    size_t name_length;
} witc_text;

/* Frees the bytes of an answer: after it, `at` is null and `length` is 0. So calling it again does nothing. A null pointer is no answer, and nothing is done:
 * the macro looks at that, since the function of the library, which has the same name, must not be called with null. */
void witc_free(witc_answer *answer);
static inline void witc_free_answer(witc_answer *answer) {
    if (answer) witc_free(answer);
}
#define witc_free(answer) witc_free_answer(answer)

/* The version of the library's interface. */
uint32_t witc_abi(void);

/* The functions of the library. Here no pointer may be null, even if its length is 0, and none in a witc_text. */
uint8_t witc_package_text_slice(const uint8_t *bytes, size_t length, witc_answer *answer, witc_why *why);
uint8_t witc_package_text_within_slice(const uint8_t *bytes, size_t length, size_t most, witc_answer *answer, witc_why *why);
uint8_t witc_package_bytes_slice(const uint8_t *bytes, size_t length, uint32_t canonical, witc_answer *answer, witc_why *why);
uint8_t witc_package_json_slice(const uint8_t *bytes, size_t length, witc_answer *answer, witc_why *why);
uint8_t witc_world_text_slice(const uint8_t *bytes, size_t length, witc_answer *answer, witc_why *why);
uint8_t witc_world_text_within_slice(const uint8_t *bytes, size_t length, size_t most, witc_answer *answer, witc_why *why);
uint8_t witc_world_json_slice(const uint8_t *bytes, size_t length, witc_answer *answer, witc_why *why);
uint8_t witc_world_package_slice(const uint8_t *bytes, size_t length, witc_answer *answer, witc_why *why);
uint8_t witc_module_text_slice(const uint8_t *bytes, size_t length, witc_answer *answer, witc_why *why);
uint8_t witc_module_text_within_slice(const uint8_t *bytes, size_t length, size_t most, witc_answer *answer, witc_why *why);
uint8_t witc_module_json_slice(const uint8_t *bytes, size_t length, witc_answer *answer, witc_why *why);
uint8_t witc_module_package_slice(const uint8_t *bytes, size_t length, witc_answer *answer, witc_why *why);
uint8_t witc_module_strip_slice(const uint8_t *bytes, size_t length, witc_answer *answer, witc_why *why);
uint8_t witc_module_section_slice(const uint8_t *bytes, size_t length, size_t number, witc_answer *answer, witc_why *why);
uint8_t witc_module_sections_slice(const uint8_t *bytes, size_t length, witc_answer *answer, witc_why *why);
uint8_t witc_embed_slices(const uint8_t *bytes, size_t length, const uint8_t *name, size_t name_length, uint32_t encoding, uint32_t canonical,
                          witc_answer *answer, witc_why *why);
uint8_t witc_attach_slices(const uint8_t *module, size_t module_length, const uint8_t *bytes, size_t length, const uint8_t *name, size_t name_length,
                           uint32_t encoding, uint32_t canonical, witc_answer *answer, witc_why *why);
uint8_t witc_compat_slices(const uint8_t *bytes, size_t length, const uint8_t *prev, size_t prev_length, const uint8_t *next, size_t next_length,
                           witc_answer *answer, witc_why *why);
uint8_t witc_same_world_slices(const uint8_t *bytes, size_t length, const uint8_t *name, size_t name_length, const uint8_t *other, size_t other_length,
                               const uint8_t *other_name, size_t other_name_length, witc_answer *answer, witc_why *why);
uint8_t witc_texts_package_slice(const witc_text *texts, size_t count, size_t own, witc_answer *answer, witc_why *why);
uint8_t witc_kinds_slice(const uint8_t *bytes, size_t length);

/* Replaces a null pointer by one that is not null. */
static inline const uint8_t *witc_some(const void *bytes) {
    static const uint8_t none[1] = {0};
    return bytes ? (const uint8_t *)bytes : none;
}

/* Whether a pointer is null, and its length isn't 0. */
static inline int witc_lacks(const void *bytes, size_t length) { return !bytes && length > 0; }

/* Refuses such a pointer. The message is no memory that is to be freed, and witc_free sees that. */
static inline uint8_t witc_refuse_null(witc_answer *answer) {
    static const char message[] = "a pointer is null, and its length isn't 0";
    witc_answer refused = WITC_NO_ANSWER;
    refused.at = (const uint8_t *)message;
    refused.length = sizeof message - 1;
    refused.why.code = WITC_NULL_WITH_LENGTH;
    *answer = refused;
    return WITC_BAD_ARGUMENT;
}

/* Answers that memory ran out. */
static inline uint8_t witc_lack_memory(witc_answer *answer) {
    witc_answer lacking = WITC_NO_ANSWER;
    lacking.why.code = WITC_OUT_OF_MEMORY;
    *answer = lacking;
    return WITC_NO_MEMORY;
}

/* Whether a code is the answer no of witc_compat: the worlds are read, and `next` can't replace `prev`. */
static inline int witc_is_no(uint32_t code) { return code >= WITC_OTHER_PACKAGE && code <= WITC_DIFFERS; }

#define WITC_CALL(name)                                                                                  \
    static inline uint8_t name(const uint8_t *bytes, size_t length, witc_answer *answer) {               \
        if (witc_lacks(bytes, length)) return witc_refuse_null(answer);                                  \
        return name##_slice(witc_some(bytes), length, answer, &answer->why);                             \
    }

/* The same with a bound: a text of more than `most` bytes is refused with WITC_TEXT_TOO_LONG. */
#define WITC_CALL_WITHIN(name)                                                                           \
    static inline uint8_t name(const uint8_t *bytes, size_t length, size_t most, witc_answer *answer) {  \
        if (witc_lacks(bytes, length)) return witc_refuse_null(answer);                                  \
        return name##_slice(witc_some(bytes), length, most, answer, &answer->why);                       \
    }

/* Prints a package as text. */
WITC_CALL(witc_package_text)
WITC_CALL_WITHIN(witc_package_text_within)

/* Lists a package as JSON, for tools that read data: its packages, worlds, interfaces and types, each by its number. */
WITC_CALL(witc_package_json)

/* Prints a world as text: its package, with the packages that it uses nested in it. */
WITC_CALL(witc_world_text)
WITC_CALL_WITHIN(witc_world_text_within)

/* Lists a world as JSON, with all that it uses. */
WITC_CALL(witc_world_json)

/* Turns a world into the bytes of its package. */
WITC_CALL(witc_world_package)

/* Merges the worlds in the sections of a core module, and prints them as text: the package `root:root`, with all others nested in it. */
WITC_CALL(witc_module_text)
WITC_CALL_WITHIN(witc_module_text_within)

/* Merges them in the same way, and lists them as JSON, with the string encoding of each function. */
WITC_CALL(witc_module_json)

/* Merges them in the same way, and turns them into the bytes of the package `root:root`. */
WITC_CALL(witc_module_package)

/* Removes these sections from a core module. A module without such sections is returned unchanged. */
WITC_CALL(witc_module_strip)

/* Returns the data of one of these sections, by its number among them, from 0: what witc_world_text takes. Past the last one the code is
 * WITC_NO_SUCH_SECTION. It walks the module from its beginning, so witc_module_sections is better for a loop. */
static inline uint8_t witc_module_section(const uint8_t *bytes, size_t length, size_t number, witc_answer *answer) {
    if (witc_lacks(bytes, length)) return witc_refuse_null(answer);
    return witc_module_section_slice(witc_some(bytes), length, number, answer, &answer->why);
}

/* Returns the data of all these sections, in order, each behind its length in four bytes, the least first. witc_next_section walks them:
 *
 *     witc_section section = WITC_NO_SECTION;
 *     while (witc_next_section(&answer, &section)) use(section.at, section.length);
 */
WITC_CALL(witc_module_sections)

/* The data of a section, in the bytes of an answer of witc_module_sections. It is there until that answer is freed. */
typedef struct witc_section {
    const uint8_t *at;
    size_t length;
} witc_section;

#define WITC_NO_SECTION { NULL, 0 }

/* Goes on to the next section, or to the first from WITC_NO_SECTION. Returns 0 behind the last one, and leaves `section` as it is. */
static inline int witc_next_section(const witc_answer *sections, witc_section *section) {
    size_t from = section->at ? (size_t)(section->at - sections->at) + section->length : 0, length;
    const uint8_t *at = sections->at;
    if (sections->length - from < 4) return 0;
    at += from;
    length = at[0] | (size_t)at[1] << 8 | (size_t)at[2] << 16 | (size_t)at[3] << 24;
    if (sections->length - from - 4 < length) return 0;
    section->at = at + 4;
    section->length = length;
    return 1;
}

/* Encodes a package again, with canonical names if `canonical` isn't 0. The result means the same, and has no documentation and no custom sections. */
static inline uint8_t witc_package_bytes(const uint8_t *bytes, size_t length, uint32_t canonical, witc_answer *answer) {
    if (witc_lacks(bytes, length)) return witc_refuse_null(answer);
    return witc_package_bytes_slice(witc_some(bytes), length, canonical, answer, &answer->why);
}

/* Makes the data of a `component-type` section that carries the package's world of this name. */
static inline uint8_t witc_embed(const uint8_t *bytes, size_t length, const char *world, size_t world_length, uint32_t encoding, uint32_t canonical,
                                 witc_answer *answer) {
    if (witc_lacks(bytes, length) || witc_lacks(world, world_length)) return witc_refuse_null(answer);
    return witc_embed_slices(witc_some(bytes), length, witc_some(world), world_length, encoding, canonical, answer, &answer->why);
}

/* Adds such a section to a core module, at its end, with the name `component-type:WORLD`. What witc_module_text refuses of the module itself is refused first,
 * with the offset in that module. Then the result is refused if witc_module_text refuses it. */
static inline uint8_t witc_attach(const uint8_t *module, size_t module_length, const uint8_t *bytes, size_t length, const char *world, size_t world_length,
                                  uint32_t encoding, uint32_t canonical, witc_answer *answer) {
    if (witc_lacks(module, module_length) || witc_lacks(bytes, length) || witc_lacks(world, world_length)) return witc_refuse_null(answer);
    return witc_attach_slices(witc_some(module), module_length, witc_some(bytes), length, witc_some(world), world_length, encoding, canonical, answer,
                              &answer->why);
}

/* Whether the package's world `next` can replace its world `prev`: WITC_DONE without bytes if it can. If it can't, WITC_REFUSED with a code that witc_is_no
 * holds of, and the first item in the way as the subject. A world that has two versions of an interface can't be compared, not even with itself. */
static inline uint8_t witc_compat(const uint8_t *bytes, size_t length, const char *prev, size_t prev_length, const char *next, size_t next_length,
                                  witc_answer *answer) {
    if (witc_lacks(bytes, length) || witc_lacks(prev, prev_length) || witc_lacks(next, next_length)) return witc_refuse_null(answer);
    return witc_compat_slices(witc_some(bytes), length, witc_some(prev), prev_length, witc_some(next), next_length, answer, &answer->why);
}

/* Whether a world of one package means exactly what a world of another package does: WITC_DONE without bytes if so, WITC_REFUSED with WITC_DIFFERS if not. */
static inline uint8_t witc_same_world(const uint8_t *bytes, size_t length, const char *world, size_t world_length, const uint8_t *other, size_t other_length,
                                      const char *other_world, size_t other_world_length, witc_answer *answer) {
    if (witc_lacks(bytes, length) || witc_lacks(world, world_length) || witc_lacks(other, other_length) || witc_lacks(other_world, other_world_length))
        return witc_refuse_null(answer);
    return witc_same_world_slices(witc_some(bytes), length, witc_some(world), world_length, witc_some(other), other_length, witc_some(other_world),
                                  other_world_length, answer, &answer->why);
}

/* Turns WIT texts into the bytes of a package: the one with which the first `own` of them begin. The others are of packages that these use. All packages that
 * are used stand among the texts, in any order, each as a text's own or nested in one. An own text may name no package, if another one does. A text that is
 * refused has WITC_BAD_TEXT, and the message names the text, the line and the column. The names are looked at first, then `own`, and then the texts. Without
 * own texts the code is WITC_BAD_COUNT.
 *
 *     witc_text texts[] = {{clock, clock_length, (const uint8_t *)"clock.wit", 9}};
 *     uint8_t status = witc_texts_package(texts, 1, 1, &answer);
 */
static inline uint8_t witc_texts_package(const witc_text *texts, size_t count, size_t own, witc_answer *answer) {
    static const witc_text none = {(const uint8_t *)"", 0, (const uint8_t *)"", 0};
    witc_text *whole;
    uint8_t status;
    size_t i, nulls = 0;
    if (witc_lacks(texts, count)) return witc_refuse_null(answer);
    for (i = 0; i < count; i++) {
        if (witc_lacks(texts[i].at, texts[i].length) || witc_lacks(texts[i].name, texts[i].name_length)) return witc_refuse_null(answer);
        if (!texts[i].at || !texts[i].name) nulls++;
    }
    if (nulls == 0) return witc_texts_package_slice(count > 0 ? texts : &none, count, own, answer, &answer->why);
    /* The library takes no null pointers, so the list is copied. */
    whole = count > SIZE_MAX / sizeof *whole ? NULL : (witc_text *)malloc(count * sizeof *whole);
    if (!whole) return witc_lack_memory(answer);
    for (i = 0; i < count; i++) {
        whole[i] = texts[i];
        whole[i].at = witc_some(texts[i].at);
        whole[i].name = witc_some(texts[i].name);
    }
    status = witc_texts_package_slice(whole, count, own, answer, &answer->why);
    free(whole);
    return status;
}

/* Which kinds the bytes are. It has no answer, so nothing is to be freed. It reads the bytes up to three times. */
static inline uint8_t witc_kinds(const uint8_t *bytes, size_t length) {
    return witc_lacks(bytes, length) ? WITC_KIND_UNKNOWN : witc_kinds_slice(witc_some(bytes), length);
}

#undef WITC_CALL
#undef WITC_CALL_WITHIN

#ifdef __cplusplus
}
#endif

#endif
