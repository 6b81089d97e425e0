/* The functions of data_url.h over the proved calls, whose pointers may not be null: a pointer to no bytes is
 * replaced by one that is not null. A state that is null is replaced by one that the calls refuse, and so is one of a
 * body whose flag is neither 0 nor 1, which the proved call takes as 1. Nothing else happens here. */
#include "data_url.h"

typedef const uint8_t *bytes;

struct data_url_answer dataurl_body(bytes url, size_t len, uint8_t *out, size_t room);
struct data_url_answer dataurl_mime(bytes url, size_t len, uint8_t *out, size_t room);
struct data_url_answer dataurl_fragment(bytes url, size_t len, uint8_t *out, size_t room);
struct data_url_answer dataurl_type(bytes text, size_t len, uint8_t *out, size_t room);
struct data_url_answer dataurl_base64(bytes text, size_t len, uint8_t *out, size_t room);
struct data_url_answer dataurl_type_parts(bytes text, size_t len, uint8_t *out, size_t room);
struct data_url_opened dataurl_open(bytes url, size_t len, uint8_t *out, size_t room);
struct data_url_opened dataurl_open_parts(bytes url, size_t len, uint8_t *out, size_t room);
struct data_url_answer dataurl_body_next(
    struct data_url_body_state *state, bytes tail, size_t len, uint8_t *out, size_t room);
struct data_url_fed dataurl_base64_feed(
    struct data_url_base64_state *state, bytes input, size_t len, uint8_t *out, size_t room);
struct data_url_answer dataurl_base64_finish(struct data_url_base64_state *state, uint8_t *out, size_t room);

static uint8_t nothing;

static bytes text(const void *text, size_t len) { return len == 0 ? &nothing : (bytes)text; }

static uint8_t *output(void *out, size_t room) { return room == 0 ? &nothing : (uint8_t *)out; }

/* States with more symbols left over than three, which the calls refuse. A call that refuses a state writes nothing
 * to it. */
static const struct data_url_body_state bad_body = {0, {0, 0, 0}, 255, 0, 0};
static const struct data_url_base64_state bad_base64 = {{0, 0, 0}, 255, 0};

static struct data_url_body_state *body_state(struct data_url_body_state *state) {
    return state && state->is_base64 < 2 ? state : (struct data_url_body_state *)&bad_body;
}

static struct data_url_base64_state *base64_state(struct data_url_base64_state *state) {
    return state ? state : (struct data_url_base64_state *)&bad_base64;
}

struct data_url_answer data_url_body(const void *url, size_t len, void *out, size_t room) {
    return dataurl_body(text(url, len), len, output(out, room), room);
}

struct data_url_answer data_url_mime(const void *url, size_t len, void *out, size_t room) {
    return dataurl_mime(text(url, len), len, output(out, room), room);
}

struct data_url_answer data_url_fragment(const void *url, size_t len, void *out, size_t room) {
    return dataurl_fragment(text(url, len), len, output(out, room), room);
}

struct data_url_answer data_url_type(const void *type, size_t len, void *out, size_t room) {
    return dataurl_type(text(type, len), len, output(out, room), room);
}

struct data_url_answer data_url_base64(const void *base64, size_t len, void *out, size_t room) {
    return dataurl_base64(text(base64, len), len, output(out, room), room);
}

struct data_url_opened data_url_open(const void *url, size_t len, void *out, size_t room) {
    return dataurl_open(text(url, len), len, output(out, room), room);
}

struct data_url_opened data_url_open_parts(const void *url, size_t len, void *out, size_t room) {
    return dataurl_open_parts(text(url, len), len, output(out, room), room);
}

struct data_url_answer data_url_type_parts(const void *type, size_t len, void *out, size_t room) {
    return dataurl_type_parts(text(type, len), len, output(out, room), room);
}

struct data_url_answer data_url_body_next(
    struct data_url_body_state *state, const void *tail, size_t len, void *out, size_t room) {
    return dataurl_body_next(body_state(state), text(tail, len), len, output(out, room), room);
}

struct data_url_fed data_url_base64_feed(
    struct data_url_base64_state *state, const void *input, size_t len, void *out, size_t room) {
    return dataurl_base64_feed(base64_state(state), text(input, len), len, output(out, room), room);
}

struct data_url_answer data_url_base64_finish(struct data_url_base64_state *state, void *out, size_t room) {
    return dataurl_base64_finish(base64_state(state), output(out, room), room);
}
