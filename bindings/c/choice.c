/* Tests how the library for x86-64 chooses its level, choose.c and processor.h, on a made-up processor and over calls
 * of both levels that only note how they were called. So it runs on any processor. */
#include "data_url.h"
#include <stdio.h>
#include <string.h>

/* The compiler may be one that cannot return by a jump. */
#define PROCESSOR_IS_MADE_UP
#define __attribute__(attributes)
#include "choose.c"
#undef __attribute__

/* What cpuid answers for the leaves 0, 1, 7, 0x80000000 and 0x80000001, and xgetbv. */
struct made_up {
    uint32_t leaves, features, more, extended_leaves, extended, saved;
};

/* FMA, MOVBE, OSXSAVE, AVX and F16C; BMI1, AVX2 and BMI2; LZCNT; SSE's and AVX's registers. */
#define FEATURES (1u << 12 | 1u << 22 | 1u << 27 | 1u << 28 | 1u << 29)
#define MORE (1u << 3 | 1u << 5 | 1u << 8)

/* SSE3, SSSE3, SSE4.1, SSE4.2 and POPCNT. */
#define LEVEL_2 (1u << 0 | 1u << 9 | 1u << 19 | 1u << 20 | 1u << 23)

static const struct made_up whole = {7, FEATURES, MORE, 0x80000001, 1u << 5, 6};
static struct made_up here;
static int asked, wrong, checks;

static void expect(bool is_right, const char *what, const char *name) {
    checks++;
    if (is_right) return;
    wrong++;
    printf("choice: %s: %s\n", name, what);
}

/* A processor answers for a leaf above its highest one too, with words that say nothing: here with all bits. */
static struct registers cpuid(uint32_t leaf) {
    const uint32_t all = ~(uint32_t)0;
    struct registers words = {all, all, all, all};
    asked++;
    if (leaf == 0) words.a = here.leaves;
    if (leaf == 1) words.c = here.features;
    if (leaf == 7 && here.leaves >= 7) words.b = here.more;
    if (leaf == 0x80000000) words.a = here.extended_leaves;
    if (leaf == 0x80000001 && here.extended_leaves >= leaf) words.c = here.extended;
    return words;
}

/* The instruction is there only if the system has said that it uses it: bit 27 of the features. */
static uint32_t saved(void) {
    expect((here.features & 1u << 27) != 0, "xgetbv is used", "a system without it");
    return here.saved;
}

/* What the last call of either level got. */
static struct {
    int level;
    const char *name;
    const void *state, *text, *out;
    size_t len, room;
} got;

static void note(
    int level, const char *name, const void *state, const void *text, size_t len, const void *out, size_t room) {
    got.level = level, got.name = name, got.state = state;
    got.text = text, got.len = len, got.out = out, got.room = room;
}

static const struct data_url_answer answer = {41, 42};
static const struct data_url_fed fed = {51, 52, 53};
static const struct data_url_opened opened = {61, true, 62, 63, 64};

/* Both levels of a call with a text, of one with a state too, and of one with a state alone. */
#define STUB(level, result, given, name, parameters, state, text, len) \
    result v##level##_##name parameters { \
        note(level, #name, state, text, len, out, room); \
        return given; \
    }
#define TEXT(result, given, name) \
    STUB(2, result, given, name, (bytes text, size_t len, uint8_t *out, size_t room), NULL, text, len) \
    STUB(3, result, given, name, (bytes text, size_t len, uint8_t *out, size_t room), NULL, text, len)
#define PART(result, given, name, type) \
    STUB(2, result, given, name, (struct type *at, bytes text, size_t len, uint8_t *out, size_t room), at, text, len) \
    STUB(3, result, given, name, (struct type *at, bytes text, size_t len, uint8_t *out, size_t room), at, text, len)
#define END(result, given, name, type) \
    STUB(2, result, given, name, (struct type *at, uint8_t *out, size_t room), at, NULL, 0) \
    STUB(3, result, given, name, (struct type *at, uint8_t *out, size_t room), at, NULL, 0)

/* Calls with a text: those of each result. */
#define ANSWERS(each) \
    each(dataurl_body) each(dataurl_mime) each(dataurl_fragment) each(dataurl_type) each(dataurl_type_parts) \
    each(dataurl_type_parts_utf8) each(dataurl_base64)
#define OPENINGS(each) each(dataurl_open) each(dataurl_open_utf8) each(dataurl_open_parts) each(dataurl_open_parts_utf8)

#define TEXT_ANSWER(name) TEXT(struct data_url_answer, answer, name)
#define TEXT_OPENED(name) TEXT(struct data_url_opened, opened, name)
ANSWERS(TEXT_ANSWER)
OPENINGS(TEXT_OPENED)
TEXT(struct data_url_fed, fed, dataurl_fragment_next)
PART(struct data_url_answer, answer, dataurl_body_next, data_url_body_state)
PART(struct data_url_fed, fed, dataurl_base64_feed, data_url_base64_state)
END(struct data_url_answer, answer, dataurl_base64_finish, data_url_base64_state)

/* What each call is given: pointers and numbers that all differ. */
static const uint8_t text[5];
static uint8_t out[7];
static struct data_url_body_state body;
static struct data_url_base64_state base64;

static void expect_call(int level, const char *name, const void *state, bool has_text) {
    expect(got.level == level, "the call is of the other level", name);
    expect(got.name && strcmp(got.name, name) == 0, "another call was called", name);
    expect(got.state == state, "the state is another one", name);
    expect(got.text == (has_text ? text : NULL) && got.len == (has_text ? sizeof text : 0), "the text is another one",
        name);
    expect(got.out == out && got.room == sizeof out, "the output is another one", name);
    memset(&got, 0, sizeof got);
}

static void expect_answer(struct data_url_answer it, const char *name) {
    expect(it.status == answer.status && it.len == answer.len, "the answer is another one", name);
}

static void expect_fed(struct data_url_fed it, const char *name) {
    expect(it.status == fed.status && it.len == fed.len && it.read == fed.read, "the answer is another one", name);
}

static void expect_opened(struct data_url_opened it, const char *name) {
    bool is_same = it.status == opened.status && it.is_base64 == opened.is_base64 && it.len == opened.len;
    expect(is_same && it.tail == opened.tail && it.tail_len == opened.tail_len, "the answer is another one", name);
}

/* Each call goes to one level, with its arguments, and returns what that returned. */
static void expect_calls(int level) {
#define CALL_ANSWER(name) \
    expect_answer(name(text, sizeof text, out, sizeof out), #name); \
    expect_call(level, #name, NULL, true);
#define CALL_OPENED(name) \
    expect_opened(name(text, sizeof text, out, sizeof out), #name); \
    expect_call(level, #name, NULL, true);
    ANSWERS(CALL_ANSWER)
    OPENINGS(CALL_OPENED)
    expect_fed(dataurl_fragment_next(text, sizeof text, out, sizeof out), "dataurl_fragment_next");
    expect_call(level, "dataurl_fragment_next", NULL, true);
    expect_answer(dataurl_body_next(&body, text, sizeof text, out, sizeof out), "dataurl_body_next");
    expect_call(level, "dataurl_body_next", &body, true);
    expect_fed(dataurl_base64_feed(&base64, text, sizeof text, out, sizeof out), "dataurl_base64_feed");
    expect_call(level, "dataurl_base64_feed", &base64, true);
    expect_answer(dataurl_base64_finish(&base64, out, sizeof out), "dataurl_base64_finish");
    expect_call(level, "dataurl_base64_finish", &base64, false);
}

/* On a processor the first call asks it and takes its level, and the next ones do not ask. */
static void expect_level(struct made_up processor, int wanted, const char *name) {
    here = processor;
    expect(dataurl_force_level(0), "the level is not asked for again", name);
    asked = 0;
    dataurl_body(text, sizeof text, out, sizeof out);
    expect(got.level == wanted && asked > 0, "the first call has another level", name);
    asked = 0;
    dataurl_body(text, sizeof text, out, sizeof out);
    expect(got.level == wanted && asked == 0, "the second call has another level, or asks", name);
    expect(dataurl_force_level(3) == (wanted == 3), "level 3 can be forced, or not", name);
    expect(dataurl_force_level(2) && !dataurl_force_level(1) && !dataurl_force_level(4), "other levels can be forced",
        name);
}

int main(void) {
    struct made_up it;
    int bit;
    here = whole;
    expect_calls(3);
    expect(dataurl_force_level(2), "there is no level 2", "dataurl_force_level");
    expect_calls(2);
    expect(dataurl_force_level(3), "there is no level 3", "dataurl_force_level");
    expect_calls(3);
    expect_level(whole, 3, "the whole processor");
    for (bit = 0; bit < 32; bit++) {
        const uint32_t mask = 1u << bit;
        it = whole, it.features = ~mask;
        expect_level(it, FEATURES & mask ? 2 : 3, "a bit of leaf 1");
        expect(has_v2() == !(LEVEL_2 & mask), "level 2 is there, or not", "a bit of leaf 1");
        it = whole, it.more = ~mask;
        expect_level(it, MORE & mask ? 2 : 3, "a bit of leaf 7");
        it = whole, it.extended = ~mask;
        expect_level(it, bit == 5 ? 2 : 3, "a bit of leaf 0x80000001");
        it = whole, it.saved = ~mask;
        expect_level(it, bit == 1 || bit == 2 ? 2 : 3, "the registers that the system saves");
    }
    it = whole, it.leaves = 6;
    expect_level(it, 2, "a processor without leaf 7");
    it = whole, it.leaves = 22;
    expect_level(it, 3, "a processor with more leaves");
    it = whole, it.extended_leaves = 0x80000000;
    expect_level(it, 2, "a processor without leaf 0x80000001");
    it = whole, it.extended_leaves = 1;
    expect_level(it, 2, "a processor without leaves from 0x80000000");
    it = whole, it.features = 0, it.saved = 0;
    expect_level(it, 2, "a system that saves nothing");
    printf("c: %d checks of the choice, %d wrong\n", checks, wrong);
    return wrong != 0;
}
