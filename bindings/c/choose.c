/* The exports of the archive for x86-64. It has each of them twice: built for x86-64-v2, with v2_ before its name,
 * and for x86-64-v3, with v3_. The functions here call the one that the processor has the instructions for.
 * bindings/build fails if an export is missing here. */
#include "data_url.h"
#include "processor.h"

typedef const uint8_t *bytes;

/* The level, 2 or 3; 0 before the first call. All threads find the same level, so it does not matter which one writes
 * it. */
static int level;

/* For tests. Later calls use this level, 2 or 3, or for 0 that of the processor. If the processor does not have it,
 * nothing changes and the answer is false. */
bool dataurl_force_level(int wanted) {
    if (wanted != 0 && wanted != 2 && !(wanted == 3 && has_v3())) return false;
    __atomic_store_n(&level, wanted, __ATOMIC_RELAXED);
    return true;
}

/* Asks the processor, and keeps the answer. */
__attribute__((noinline, cold)) static int find_level(void) {
    int found = has_v3() ? 3 : 2;
    __atomic_store_n(&level, found, __ATOMIC_RELAXED);
    return found;
}

/* Most processors have level 3, so it comes first. */
static bool is_v3(void) {
    int known = __atomic_load_n(&level, __ATOMIC_RELAXED);
    if (__builtin_expect(known == 3, true)) return true;
    return known == 0 && find_level() == 3;
}

/* Returns the result of a call by a jump. Without it, a result in memory would be passed on by a call. */
#define JUMP __attribute__((musttail)) return

/* Defines an export, with its parameters as they are declared and as they are passed on. */
#define FORWARD(result, name, parameters, passed) \
    result v2_##name parameters; \
    result v3_##name parameters; \
    result name parameters { \
        if (is_v3()) JUMP v3_##name passed; \
        JUMP v2_##name passed; \
    }

#define FORWARD_TEXT(result, name) \
    FORWARD(result, name, (bytes text, size_t len, uint8_t *out, size_t room), (text, len, out, room))

#define FORWARD_PART(result, name, state) \
    FORWARD( \
        result, name, (struct state *at, bytes text, size_t len, uint8_t *out, size_t room), (at, text, len, out, room))

FORWARD_TEXT(struct data_url_answer, dataurl_body)
FORWARD_TEXT(struct data_url_answer, dataurl_mime)
FORWARD_TEXT(struct data_url_answer, dataurl_fragment)
FORWARD_TEXT(struct data_url_fed, dataurl_fragment_next)
FORWARD_TEXT(struct data_url_answer, dataurl_type)
FORWARD_TEXT(struct data_url_answer, dataurl_type_parts)
FORWARD_TEXT(struct data_url_answer, dataurl_type_parts_utf8)
FORWARD_TEXT(struct data_url_answer, dataurl_base64)
FORWARD_TEXT(struct data_url_opened, dataurl_open)
FORWARD_TEXT(struct data_url_opened, dataurl_open_utf8)
FORWARD_TEXT(struct data_url_opened, dataurl_open_parts)
FORWARD_TEXT(struct data_url_opened, dataurl_open_parts_utf8)
FORWARD_PART(struct data_url_answer, dataurl_body_next, data_url_body_state)
FORWARD_PART(struct data_url_fed, dataurl_base64_feed, data_url_base64_state)
FORWARD(struct data_url_answer, dataurl_base64_finish,
        (struct data_url_base64_state *state, uint8_t *out, size_t room), (state, out, room))
