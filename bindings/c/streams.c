/* Tests of the calls that decode in parts. The vectors, as vectors.py prints them, come on standard input: each body
 * by rooms of every small size, each text of base64 in every two pieces. Then 100,000 random texts in random pieces,
 * against the calls for whole texts, and 1,000 states that no call made. Build it with
 * -Wl,--wrap=malloc,--wrap=realloc. */
#include "data_url.h"

#include <stdio.h>
#include <stdlib.h>
#include <string.h>

enum { FILLED = 0xA5, MARGIN = 16, MOST = 1 << 16 };

static long checks, wrong, allocations;

void *__real_malloc(size_t size);
void *__real_realloc(void *block, size_t size);
void *__wrap_malloc(size_t size);
void *__wrap_realloc(void *block, size_t size);

void *__wrap_malloc(size_t size) {
    allocations++;
    return __real_malloc(size);
}

void *__wrap_realloc(void *block, size_t size) {
    allocations++;
    return __real_realloc(block, size);
}

static void check(int is_right, const char *what, const void *text, size_t len) {
    checks++;
    if (!is_right && wrong++ < 20) printf("wrong: %s: %.*s\n", what, (int)(len < 60 ? len : 60), (const char *)text);
}

/* The bytes of several calls, one after another, and the last status. */
struct joined {
    uint32_t status;
    size_t len;
    uint8_t bytes[MOST];
};

static struct joined parts, whole;

static uint8_t room_bytes[MOST + MARGIN];

/* An output of a size, to which nothing is written yet. */
static uint8_t *fresh(size_t room) {
    memset(room_bytes, FILLED, room + MARGIN);
    return room_bytes;
}

/* Appends what a call wrote, and checks that it wrote nothing after these bytes. */
static void add(size_t len, size_t room, const void *text, size_t text_len) {
    int is_kept = len <= room;
    for (size_t i = len; is_kept && i < room + MARGIN; i++) is_kept = room_bytes[i] == FILLED;
    check(is_kept, "bytes after the answer", text, text_len);
    if (!is_kept || parts.len + len > MOST) abort();
    memcpy(parts.bytes + parts.len, room_bytes, len);
    parts.len += len;
}

/* Numbers that look random, the same at each run. */
static uint64_t numbers = 7;

static size_t below(size_t end) {
    numbers = numbers * 6364136223846793005u + 1442695040888963407u;
    return (size_t)(numbers >> 33) % end;
}

/* A size for a call: the given one, or for 0 a random one. */
static size_t size_of(size_t room) { return room ? room : 4 + below(40); }

/* Decodes a body in parts, with rooms of a size or, for 0, of random sizes. */
static void read_parts(const uint8_t *tail, size_t len, bool is_base64, size_t size) {
    struct data_url_body_state state = DATA_URL_BODY_STATE(is_base64);
    parts.len = 0;
    parts.status = DATA_URL_MORE;
    for (size_t calls = 0; parts.status == DATA_URL_MORE; calls++) {
        size_t room = size ? size : 8 + below(40), from = state.from;
        struct data_url_answer part = data_url_body_next(&state, tail, len, fresh(room), room);
        add(part.len, room, tail, len);
        parts.status = part.status;
        check(part.status != DATA_URL_MORE || state.from > from, "no progress", tail, len);
        if (calls > len + 2) abort();
    }
    struct data_url_answer after = data_url_body_next(&state, tail, len, fresh(8), 8);
    check(after.status == DATA_URL_BAD_STATE && after.len == 0, "a call after the end", tail, len);
}

/* Feeds a stretch of a text, with rooms of a size or of random sizes. */
static void feed_part(struct data_url_base64_state *state, const uint8_t *text, size_t len, size_t size) {
    size_t at = 0;
    while (parts.status == DATA_URL_DONE && at < len) {
        size_t room = size_of(size);
        struct data_url_fed fed = data_url_base64_feed(state, text + at, len - at, fresh(room), room);
        add(fed.len, room, text, len);
        parts.status = fed.status;
        check(fed.status != DATA_URL_DONE || (fed.read > 0 && fed.read <= len - at), "read", text, len);
        if (fed.read == 0 && fed.status == DATA_URL_DONE) abort();
        at += fed.read;
    }
}

/* Decodes base64 in two pieces. */
static void feed_parts(const uint8_t *text, size_t len, size_t cut, size_t size) {
    struct data_url_base64_state state = DATA_URL_BASE64_STATE;
    parts.len = 0;
    parts.status = DATA_URL_DONE;
    feed_part(&state, text, cut, size);
    feed_part(&state, text + cut, len - cut, size);
    if (parts.status == DATA_URL_DONE) {
        struct data_url_answer end = data_url_base64_finish(&state, fresh(4), 4);
        add(end.len, 4, text, len);
        parts.status = end.status;
    }
    check(data_url_base64_finish(&state, fresh(4), 4).status == DATA_URL_BAD_STATE, "an end after the end", text, len);
}

static void is_whole(const char *what, const uint8_t *text, size_t len) {
    int is_same =
        parts.status == whole.status && parts.len == whole.len && memcmp(parts.bytes, whole.bytes, whole.len) == 0;
    check(is_same, what, text, len);
}

/* Checks a body that is decoded in parts, and that nothing is allocated for it. */
static void url_parts(const uint8_t *url, size_t len, struct data_url_opened opened, size_t most) {
    long before = allocations;
    for (size_t size = 8; size <= most; size++) {
        read_parts(url + opened.tail, opened.tail_len, opened.is_base64, size);
        is_whole("a body in parts", url, len);
    }
    read_parts(url + opened.tail, opened.tail_len, opened.is_base64, 0);
    is_whole("a body in random parts", url, len);
    check(allocations == before, "memory", url, len);
}

static void base64_parts(const uint8_t *text, size_t len) {
    long before = allocations;
    for (size_t cut = 0; cut <= len; cut++) {
        feed_parts(text, len, cut, cut % 2 ? 64 : 4 + cut % 13);
        is_whole("base64 in two pieces", text, len);
    }
    feed_parts(text, len, len, len + 4);
    is_whole("base64 at once", text, len);
    check(allocations == before, "memory", text, len);
}

/* The bytes of hexadecimal digits. */
static size_t bytes_of(const char *digits, uint8_t *bytes) {
    size_t len = digits[0] == '-' ? 0 : strlen(digits) / 2;
    for (size_t i = 0; i < len; i++) {
        unsigned byte;
        if (sscanf(digits + 2 * i, "%2x", &byte) != 1) abort();
        bytes[i] = (uint8_t)byte;
    }
    return len;
}

/* One vector: its kind, status, input, MIME type and bytes. */
static void vector(char kind, uint32_t status, const char *input, const char *mime, const char *answer) {
    static uint8_t text[MOST], printed[MOST], room[MOST];
    size_t len = bytes_of(input, text), printed_len = bytes_of(mime, printed);
    whole.status = status;
    whole.len = bytes_of(answer, whole.bytes);
    if (kind == 'b') {
        base64_parts(text, len);
        return;
    }
    struct data_url_opened opened = data_url_open(text, len, room, MOST);
    if (status == DATA_URL_NOT_A_DATA_URL || status == DATA_URL_NO_COMMA) {
        check(opened.status == status && opened.len == 0, "refused", text, len);
        return;
    }
    int is_mime = opened.len == printed_len && memcmp(room, printed, printed_len) == 0;
    check(opened.status == DATA_URL_DONE && is_mime, "opened", text, len);
    check(data_url_open(text, len, NULL, 0).status == DATA_URL_OUTPUT_TOO_SMALL, "no room", text, len);
    url_parts(text, len, opened, 24);
}

static void vectors(void) {
    static char line[4 * MOST], input[MOST], mime[MOST], answer[MOST];
    char kind;
    unsigned status;
    long count = 0;
    while (fgets(line, sizeof line, stdin)) {
        if (sscanf(line, "%c %u %65535s %65535s %65535s", &kind, &status, input, mime, answer) != 5) abort();
        vector(kind, status, input, mime, answer);
        count++;
    }
    check(count >= 300, "too few vectors", "", 0);
    printf("c: %ld vectors in parts\n", count);
}

/* A text of units that are picked at random. */
static size_t random_text(const char *const *units, size_t count, uint8_t *text, size_t most) {
    size_t len = 0;
    while (len < most) {
        const char *unit = units[below(count)];
        memcpy(text + len, unit, strlen(unit));
        len += strlen(unit);
    }
    return len;
}

/* A random URL and a random text of base64, whole and in parts. */
static void random_texts(void) {
    static const char *const body[] = {
        "a", "%", "%4", "1", "%41", "\t", "\n", "#", "\xc3\xa9", "%\t4\n1", "Q", "=", " ", "JD", "%3d"};
    static const char *const symbols[] = {"Q", "U", "J", "D", "\n", " ", "QUJD", "QUJDQUJDQUJDQUJD", "=", "!"};
    static uint8_t text[1024];
    size_t head = below(2) ? sprintf((char *)text, "data:,") : sprintf((char *)text, "data:;base64,");
    size_t len = head + random_text(body, below(3) ? 11 : 15, text + head, below(120));
    struct data_url_opened opened = data_url_open(text, len, NULL, 0);
    struct data_url_answer answer = data_url_body(text, len, whole.bytes, MOST);
    whole.status = answer.status;
    whole.len = answer.len;
    read_parts(text + opened.tail, opened.tail_len, opened.is_base64, 0);
    is_whole("a random body", text, len);
    len = random_text(symbols, 7 + below(4), text, below(200));
    answer = data_url_base64(text, len, whole.bytes, MOST);
    whole.status = answer.status;
    whole.len = answer.len;
    feed_parts(text, len, below(len + 1), 0);
    is_whole("random base64", text, len);
}

/* States that no call made: a status, and nothing written outside the output. */
static void random_states(void) {
    static const char tail[] = "QUJD%41\xc3\xa9#f";
    size_t len = strlen(tail);
    for (int i = 0; i < 1000; i++) {
        struct data_url_body_state state;
        struct data_url_base64_state left;
        uint8_t noise[sizeof state];
        for (size_t k = 0; k < sizeof noise; k++) noise[k] = (uint8_t)(below(2) ? below(256) : below(5));
        memcpy(&state, noise, sizeof state);
        memcpy(&left, noise, sizeof left);
        if (i % 2) state.from = below(2 * len);
        parts.len = 0;
        size_t room = below(12);
        struct data_url_answer part = data_url_body_next(&state, tail, len, fresh(room), room);
        add(part.status == DATA_URL_OUTPUT_TOO_SMALL ? 0 : part.len, room, tail, len);
        check(state.is_base64 < 2 || part.status == DATA_URL_BAD_STATE, "a flag that no call made", tail, len);
        struct data_url_fed fed = data_url_base64_feed(&left, tail, len, fresh(room), room);
        add(fed.status == DATA_URL_OUTPUT_TOO_SMALL ? 0 : fed.len, room, tail, len);
        struct data_url_answer end = data_url_base64_finish(&left, fresh(room), room);
        add(end.status == DATA_URL_OUTPUT_TOO_SMALL ? 0 : end.len, room, tail, len);
    }
}

int main(int argc, char **argv) {
    (void)argv;
    /* With an argument fewer texts, for valgrind. */
    int count = argc > 1 ? 300 : 100000;
    vectors();
    for (int i = 0; i < count; i++) random_texts();
    random_states();
    printf("c: %ld checks in parts, %ld wrong\n", checks, wrong);
    return wrong ? 1 : 0;
}
