/* Tests of the calls of data_url.h, and of the exports that only Rust uses: worked examples, empty and null inputs,
 * outputs that are too small, bytes that are not UTF-8, long bodies, MIME types in parts, how often each call
 * allocates, and each allocation made to fail in turn. Build it with -Wl,--wrap=malloc,--wrap=realloc. */
#include "data_url.h"

#include <ctype.h>
#include <stdio.h>
#include <stdlib.h>
#include <string.h>

typedef struct data_url_answer (*Call)(const void *, size_t, void *, size_t);

enum { FILLED = 0xA5, MARGIN = 8 };

static int checks, wrong;
/* The allocation that fails, counted from 1; 0 for none. */
static long refused, allocations;

void *__real_malloc(size_t size);
void *__real_realloc(void *block, size_t size);
void *__wrap_malloc(size_t size);
void *__wrap_realloc(void *block, size_t size);

void *__wrap_malloc(size_t size) {
    return ++allocations == refused ? NULL : __real_malloc(size);
}

void *__wrap_realloc(void *block, size_t size) {
    return ++allocations == refused ? NULL : __real_realloc(block, size);
}

static void check(int is_right, const char *what, const char *about) {
    checks++;
    if (!is_right) {
        wrong++;
        printf("wrong: %s: %.60s\n", what, about);
    }
}

/* Whether `len` bytes are as `filled_room` left them. */
static int is_filled(const uint8_t *bytes, size_t len) {
    for (size_t i = 0; i < len; i++)
        if (bytes[i] != FILLED) return 0;
    return 1;
}

static uint8_t *filled_room(size_t room) {
    uint8_t *out = __real_malloc(room + 1);
    if (!out) abort();
    memset(out, FILLED, room + 1);
    return out;
}

static int is(struct data_url_answer answer, uint32_t status, size_t len) {
    return answer.status == status && answer.len == len;
}

/* One call with an output of this size: the whole answer, or an output that is too small and unchanged. */
static void try_room(
    Call call, const void *text, size_t len, size_t room, uint32_t status, const void *want, size_t want_len) {
    uint8_t *out = filled_room(room);
    struct data_url_answer answer = call(text, len, room ? out : NULL, room);
    if (room < want_len) {
        check(is(answer, DATA_URL_OUTPUT_TOO_SMALL, want_len) && is_filled(out, room + 1), "too small", text);
    } else {
        check(is(answer, status, want_len), "answer", text);
        check(want_len == 0 || memcmp(out, want, want_len) == 0, "bytes", text);
        check(is_filled(out + want_len, room + 1 - want_len), "after the answer", text);
    }
    free(out);
}

/* A call with an output of each size, up to some bytes more than are needed. */
static void gives_bytes(Call call, const void *text, size_t len, uint32_t status, const void *want, size_t want_len) {
    for (size_t room = 0; room <= want_len + MARGIN; room++)
        try_room(call, text, len, room, status, want, want_len);
}

static void gives(Call call, const char *text, uint32_t status, const char *want) {
    gives_bytes(call, text, strlen(text), status, want, strlen(want));
}

static void worked_urls(void) {
    gives(data_url_body, "data:,Hello%20World!", DATA_URL_DONE, "Hello World!");
    gives(data_url_mime, "data:,Hello%20World!", DATA_URL_DONE, "text/plain;charset=US-ASCII");
    gives(data_url_fragment, "data:,Hello%20World!", DATA_URL_NO_FRAGMENT, "");
    gives(data_url_body, "data:;charset=x;base64,Y%51%3D=#x y", DATA_URL_DONE, "a");
    gives(data_url_mime, "data:;charset=x;base64,Y%51%3D=#x y", DATA_URL_DONE, "text/plain;charset=x");
    gives(data_url_fragment, "data:;charset=x;base64,Y%51%3D=#x y", DATA_URL_DONE, "x%20y");
    gives(data_url_fragment, "data:,#", DATA_URL_DONE, "");
    gives(data_url_fragment, "data:,#a\t`\u00e9", DATA_URL_DONE, "a%60%C3%A9");
    gives(data_url_body, "data:,%4\t1", DATA_URL_DONE, "A");
    gives(data_url_body, "data:,%zz%4", DATA_URL_DONE, "%zz%4");
    gives(data_url_body, "data:?;base64 ,QQ", DATA_URL_DONE, "QQ");
    gives(data_url_mime, "data:a/b;c= ?x,Y", DATA_URL_DONE, "a/b;c=\"%20?x\"");
    gives(data_url_mime, "data:text/plain;x=\u00e9,\u00e9", DATA_URL_DONE, "text/plain;x=%C3%A9");
    gives(data_url_body, "data:text/plain;x=\u00e9,\u00e9", DATA_URL_DONE, "\u00e9");
    gives_bytes(data_url_body, "\0 DA\tTA:\n,x \x1f", 13, DATA_URL_DONE, "x", 1);
    gives_bytes(data_url_body, "data:,a\0b%00", 12, DATA_URL_DONE, "a\0b\0", 4);
}

static void worked_texts(void) {
    gives(data_url_type, "TEXT/HTML;a=\"b;c\";d=;e=\"\"", DATA_URL_DONE, "text/html;a=\"b;c\";e=\"\"");
    gives(data_url_type, "x/x;a=1;A=2", DATA_URL_DONE, "x/x;a=1");
    gives(data_url_type, "x/x;a=\"\\", DATA_URL_DONE, "x/x;a=\"\\\\\"");
    gives(data_url_type, "x/x;a=\"\u00e9\"", DATA_URL_DONE, "x/x;a=\"\u00e9\"");
    gives(data_url_base64, "Y Q = =", DATA_URL_DONE, "a");
    gives(data_url_base64, "YR", DATA_URL_DONE, "a");
    gives(data_url_base64, "QUJD\nQUJD", DATA_URL_DONE, "ABCABC");
}

static void refusals(void) {
    const Call of_urls[] = {data_url_body, data_url_mime, data_url_fragment};
    for (size_t i = 0; i < sizeof of_urls / sizeof *of_urls; i++) {
        gives(of_urls[i], "da ta:,x", DATA_URL_NOT_A_DATA_URL, "");
        gives(of_urls[i], "data", DATA_URL_NOT_A_DATA_URL, "");
        gives(of_urls[i], "data:#,x", DATA_URL_NO_COMMA, "");
        gives(of_urls[i], "data:,\xff", DATA_URL_NOT_UTF8, "");
        gives(of_urls[i], "data:,\xed\xa0\x80", DATA_URL_NOT_UTF8, "");
        gives(of_urls[i], "\xc3", DATA_URL_NOT_UTF8, "");
    }
    gives(data_url_type, "text", DATA_URL_NOT_A_MIME_TYPE, "");
    gives(data_url_type, "a/b c", DATA_URL_NOT_A_MIME_TYPE, "");
    gives(data_url_type, "a/b;c=\x80", DATA_URL_NOT_UTF8, "");
}

static void faults(void) {
    gives(data_url_base64, "ab=", DATA_URL_BASE64_PADDING, "");
    gives(data_url_base64, "QUJD=", DATA_URL_BASE64_PADDING, "ABC");
    gives(data_url_base64, "a", DATA_URL_BASE64_LONE_SYMBOL, "");
    gives(data_url_base64, "ab==c", DATA_URL_BASE64_SYMBOL_AFTER_PADDING, "");
    gives(data_url_base64, "QUJD!", DATA_URL_BASE64_UNEXPECTED_SYMBOL + '!', "ABC");
    gives(data_url_base64, "\xff", DATA_URL_BASE64_UNEXPECTED_SYMBOL + 0xff, "");
    gives_bytes(data_url_base64, "QUJD\0", 5, DATA_URL_BASE64_UNEXPECTED_SYMBOL, "ABC", 3);
    gives(data_url_body, "data:;base64,QUJD!#x", DATA_URL_BASE64_UNEXPECTED_SYMBOL + '!', "ABC");
    gives(data_url_fragment, "data:;base64,QUJD!#x", DATA_URL_BASE64_UNEXPECTED_SYMBOL + '!', "");
    gives(data_url_mime, "data:;base64,QUJD!#x", DATA_URL_DONE, "text/plain;charset=US-ASCII");
    gives(data_url_body, "data:;base64,QUJDQ", DATA_URL_BASE64_LONE_SYMBOL, "ABC");
    check(data_url_is_base64_fault(DATA_URL_BASE64_PADDING) && !data_url_is_base64_fault(DATA_URL_NO_FRAGMENT),
        "faults", "");
    check(data_url_is_unexpected_symbol(DATA_URL_BASE64_UNEXPECTED_SYMBOL) &&
              !data_url_is_unexpected_symbol(DATA_URL_BASE64_SYMBOL_AFTER_PADDING),
        "symbols", "");
    check(data_url_unexpected_symbol(DATA_URL_BASE64_UNEXPECTED_SYMBOL + 0xff) == 0xff, "the symbol", "");
}

/* The exports that only Rust uses. No pointer is null. The texts of those whose names end in _utf8 are UTF-8. */
struct data_url_opened dataurl_open_utf8(const void *url, size_t len, void *out, size_t room);
struct data_url_opened dataurl_open_parts_utf8(const void *url, size_t len, void *out, size_t room);
struct data_url_answer dataurl_type_parts_utf8(const void *type, size_t len, void *out, size_t room);
struct data_url_fed dataurl_fragment_next(const void *text, size_t len, void *out, size_t room);

/* What the last call that opens a URL returned. */
static struct data_url_opened last_opened;

static uint8_t no_room;

static struct data_url_answer as_answer(struct data_url_opened opened) {
    struct data_url_answer answer = {opened.status, opened.len};
    last_opened = opened;
    return answer;
}

static struct data_url_answer open_printed(const void *url, size_t len, void *out, size_t room) {
    return as_answer(data_url_open(url, len, out, room));
}

static struct data_url_answer open_parts(const void *url, size_t len, void *out, size_t room) {
    return as_answer(data_url_open_parts(url, len, out, room));
}

static struct data_url_answer rust_open_printed(const void *url, size_t len, void *out, size_t room) {
    return as_answer(dataurl_open_utf8(url, len, out ? out : &no_room, room));
}

static struct data_url_answer rust_open_parts(const void *url, size_t len, void *out, size_t room) {
    return as_answer(dataurl_open_parts_utf8(url, len, out ? out : &no_room, room));
}

static struct data_url_answer rust_type_parts(const void *type, size_t len, void *out, size_t room) {
    return dataurl_type_parts_utf8(type, len, out ? out : &no_room, room);
}

/* No bytes at all, with a pointer and with none. */
static void nothing(void) {
    const void *empty[] = {NULL, "?"};
    for (size_t i = 0; i < sizeof empty / sizeof *empty; i++) {
        uint8_t out[4] = {FILLED, FILLED, FILLED, FILLED};
        for (size_t room = 0; room <= sizeof out; room += sizeof out) {
            void *to = room ? out : NULL;
            check(is(data_url_body(empty[i], 0, to, room), DATA_URL_NOT_A_DATA_URL, 0), "no text", "body");
            check(is(data_url_mime(empty[i], 0, to, room), DATA_URL_NOT_A_DATA_URL, 0), "no text", "mime");
            check(is(data_url_fragment(empty[i], 0, to, room), DATA_URL_NOT_A_DATA_URL, 0), "no text", "fragment");
            check(is(data_url_type(empty[i], 0, to, room), DATA_URL_NOT_A_MIME_TYPE, 0), "no text", "type");
            check(is(data_url_base64(empty[i], 0, to, room), DATA_URL_DONE, 0), "no text", "base64");
            check(is(open_printed(empty[i], 0, to, room), DATA_URL_NOT_A_DATA_URL, 0), "no text", "open");
            check(is(open_parts(empty[i], 0, to, room), DATA_URL_NOT_A_DATA_URL, 0), "no text", "open_parts");
            check(is(data_url_type_parts(empty[i], 0, to, room), DATA_URL_NOT_A_MIME_TYPE, 0), "no text", "type_parts");
        }
        check(is_filled(out, sizeof out), "no text", "output");
    }
}

/* Outputs that are not initialised: valgrind reports where they are read. */
static void fresh_outputs(void) {
    const char *texts[] = {"data:,Hello%20World!#f", "data:;base64,QUJD!", "data:", "QUJDQ", "a/b;c=d"};
    const Call calls[] = {
        data_url_body, data_url_mime, data_url_fragment, data_url_type, data_url_base64, data_url_type_parts,
        open_printed, open_parts, rust_open_printed, rust_open_parts, rust_type_parts};
    for (size_t i = 0; i < sizeof texts / sizeof *texts; i++)
        for (size_t j = 0; j < sizeof calls / sizeof *calls; j++) {
            uint8_t *out = __real_malloc(64);
            if (!out) abort();
            struct data_url_answer answer = calls[j](texts[i], strlen(texts[i]), out, 64);
            size_t bits = 0;
            for (size_t k = 0; k < answer.len; k++) bits |= out[k];
            check(answer.len <= 64 && (bits != 0) == (answer.len != 0), "fresh output", texts[i]);
            free(out);
        }
}

/* A text: a head, one unit repeated `times` times, and an end. */
static uint8_t *repeated(const char *head, const char *unit, size_t times, const char *end, size_t *len) {
    size_t head_len = strlen(head), unit_len = strlen(unit), end_len = strlen(end);
    uint8_t *text = __real_malloc(head_len + unit_len * times + end_len);
    if (!text) abort();
    memcpy(text, head, head_len);
    for (size_t i = 0; i < times; i++) memcpy(text + head_len + i * unit_len, unit, unit_len);
    memcpy(text + head_len + unit_len * times, end, end_len);
    *len = head_len + unit_len * times + end_len;
    return text;
}

/* The answer is one unit, repeated `times` times. */
static void gives_repeated(
    Call call, const char *head, const char *unit, const char *end, uint32_t status, const char *want, size_t times) {
    size_t len, want_len;
    uint8_t *text = repeated(head, unit, times, end, &len);
    uint8_t *wanted = repeated("", want, times, "", &want_len);
    try_room(call, text, len, want_len, status, wanted, want_len);
    try_room(call, text, len, want_len - 1, status, wanted, want_len);
    free(wanted);
    free(text);
}

static void long_bodies(void) {
    const size_t mebibyte = 1 << 20;
    gives_repeated(data_url_body, "data:,", "x", "", DATA_URL_DONE, "x", mebibyte);
    gives_repeated(data_url_body, "data:,", "%2C", "#f", DATA_URL_DONE, ",", mebibyte);
    gives_repeated(data_url_body, "data:,", "%", "", DATA_URL_DONE, "%", mebibyte);
    gives_repeated(data_url_body, "data:;base64,", "QUJD", "", DATA_URL_DONE, "ABC", mebibyte / 3);
    gives_repeated(
        data_url_body, "data:;base64,", "QUJD", "!", DATA_URL_BASE64_UNEXPECTED_SYMBOL + '!', "ABC", mebibyte / 3);
    gives_repeated(data_url_fragment, "data:,#", "`", "", DATA_URL_DONE, "%60", mebibyte / 3);
    gives_repeated(data_url_base64, "", "Q U J\nD", "", DATA_URL_DONE, "ABC", mebibyte / 3);
}

/* A MIME type with 5,000 parameters. */
static void many_parameters(void) {
    size_t len = 0;
    char *type = __real_malloc(5000 * 16), *url = __real_malloc(5000 * 16);
    if (!type || !url) abort();
    len += sprintf(type, "a/b");
    for (int i = 0; i < 5000; i++) len += sprintf(type + len, ";p%d=v", i);
    size_t url_len = sprintf(url, "data:%s,", type);
    try_room(data_url_type, type, len, len, DATA_URL_DONE, type, len);
    try_room(data_url_mime, url, url_len, len, DATA_URL_DONE, type, len);
    try_room(data_url_mime, url, url_len, len - 1, DATA_URL_DONE, type, len);
    free(type);
    free(url);
}

/* An output of exactly this size, so that valgrind and the sanitizers see each byte that is written after it. */
static uint8_t *exact_room(size_t room) {
    uint8_t *out = __real_malloc(room);
    if (!out) abort();
    return out;
}

/* Room for the largest MIME type here, as text and in parts. */
enum { MOST = 1 << 14, MANY = 300 };

/* Writes a MIME type in parts. It is given with a '|' between the parts. Returns how many bytes they have. */
static size_t parts_from(const char *shown, uint8_t *out) {
    size_t at = 0;
    while (shown) {
        const char *end = strchr(shown, '|');
        uint64_t len = end ? (uint64_t)(end - shown) : strlen(shown);
        for (int i = 0; i < 8; i++) out[at++] = (uint8_t)(len >> 8 * i);
        memcpy(out + at, shown, len);
        at += len;
        shown = end ? end + 1 : NULL;
    }
    return at;
}

/* The inverse, by data_url_part_next. */
static size_t shown_from(const void *parts, size_t len, char *out) {
    size_t at = 0;
    while (len > 0) {
        struct data_url_part part = data_url_part_next(&parts, &len);
        if (at > 0) out[at++] = '|';
        memcpy(out + at, part.text, part.len);
        at += part.len;
    }
    return at;
}

static int is_token(struct data_url_part part) {
    for (size_t i = 0; i < part.len; i++)
        if (!isalnum((uint8_t)part.text[i]) && !memchr("!#$%&'*+-.^_`|~", part.text[i], 15)) return 0;
    return part.len > 0;
}

/* Writes a value, quoted where necessary. */
static size_t value_from(struct data_url_part value, char *out) {
    int is_quoted = !is_token(value);
    size_t at = 0;
    if (is_quoted) out[at++] = '"';
    for (size_t i = 0; i < value.len; i++) {
        if (value.text[i] == '"' || value.text[i] == '\\') out[at++] = '\\';
        out[at++] = value.text[i];
    }
    if (is_quoted) out[at++] = '"';
    return at;
}

/* Prints a MIME type that is in parts (MIME Sniffing Standard, section 4.5). */
static size_t printed_from(const void *parts, size_t len, char *out) {
    struct data_url_part type = data_url_part_next(&parts, &len), subtype = data_url_part_next(&parts, &len);
    size_t at = (size_t)sprintf(out, "%.*s/%.*s", (int)type.len, type.text, (int)subtype.len, subtype.text);
    while (len > 0) {
        struct data_url_part name = data_url_part_next(&parts, &len);
        at += (size_t)sprintf(out + at, ";%.*s=", (int)name.len, name.text);
        at += value_from(data_url_part_next(&parts, &len), out + at);
    }
    return at;
}

/* What calls write for a MIME type: its parts, and its printed text. */
struct wanted {
    uint8_t parts[MOST];
    char printed[MOST];
    size_t parts_len, printed_len;
};

/* Sets what is wanted, and takes the parts out again by data_url_part_next. */
static struct wanted *want_parts(const char *shown) {
    static struct wanted wanted;
    static char again[MOST];
    wanted.parts_len = parts_from(shown, wanted.parts);
    wanted.printed_len = printed_from(wanted.parts, wanted.parts_len, wanted.printed);
    size_t len = shown_from(wanted.parts, wanted.parts_len, again);
    check(len == strlen(shown) && memcmp(again, shown, len) == 0, "parts one by one", shown);
    return &wanted;
}

/* A call with a text and an output of exactly their sizes, and with an output that is too small by one byte. */
static void gives_exactly(Call call, const char *text, const void *want, size_t want_len) {
    size_t len = strlen(text);
    for (size_t missing = 0; missing <= 1; missing++) {
        uint8_t *copy = exact_room(len), *out = exact_room(want_len - missing);
        memcpy(copy, text, len);
        struct data_url_answer answer = call(copy, len, out, want_len - missing);
        check(is(answer, missing ? DATA_URL_OUTPUT_TOO_SMALL : DATA_URL_DONE, want_len), "exact room", text);
        check(missing || memcmp(out, want, want_len) == 0, "bytes in the exact room", text);
        free(copy);
        free(out);
    }
}

/* The next size of an output. A large one is not tried in every size. */
static size_t next_room(size_t room, size_t want_len) {
    return want_len > 1000 && room < want_len - 1 ? want_len - 1 : room + 1;
}

/* A MIME type is parsed to these parts, with outputs of each size. */
static void type_is(const char *text, const char *shown) {
    const Call calls[] = {data_url_type_parts, rust_type_parts, data_url_type};
    const struct wanted *wanted = want_parts(shown);
    for (size_t i = 0; i < 3; i++) {
        const void *want = i < 2 ? (const void *)wanted->parts : wanted->printed;
        size_t want_len = i < 2 ? wanted->parts_len : wanted->printed_len;
        for (size_t room = 0; room <= want_len + MARGIN; room = next_room(room, want_len))
            try_room(calls[i], text, strlen(text), room, DATA_URL_DONE, want, want_len);
        gives_exactly(calls[i], text, want, want_len);
    }
}

/* Whether the last call found this tail in a URL. */
static int is_tail(const char *url, const char *tail, bool is_base64) {
    return last_opened.tail_len == strlen(tail) && last_opened.tail + last_opened.tail_len <= strlen(url) &&
           url[last_opened.tail - 1] == ',' && memcmp(url + last_opened.tail, tail, strlen(tail)) == 0 &&
           last_opened.is_base64 == is_base64;
}

/* A URL has a MIME type with these parts, and this tail, with outputs of each size. */
static void url_is(const char *url, const char *shown, const char *tail, bool is_base64) {
    const Call calls[] = {open_parts, rust_open_parts, open_printed, rust_open_printed, data_url_mime};
    const struct wanted *wanted = want_parts(shown);
    for (size_t i = 0; i < 5; i++) {
        const void *want = i < 2 ? (const void *)wanted->parts : wanted->printed;
        size_t want_len = i < 2 ? wanted->parts_len : wanted->printed_len;
        for (size_t room = 0; room <= want_len + MARGIN; room = next_room(room, want_len)) {
            memset(&last_opened, 0, sizeof last_opened);
            try_room(calls[i], url, strlen(url), room, DATA_URL_DONE, want, want_len);
            check(calls[i] == data_url_mime || is_tail(url, tail, is_base64), "tail", url);
        }
        gives_exactly(calls[i], url, want, want_len);
    }
}

/* Each of the eight bytes of a length counts. There is no text of such a length, so only the length is looked at. */
static void parts_one_by_one(void) {
    for (int i = 0; i < 8; i++) {
        uint8_t bytes[8] = {0};
        const void *parts = bytes;
        size_t part_len = (size_t)0x1a << 8 * i, len = 8 + part_len;
        bytes[i] = 0x1a;
        struct data_url_part part = data_url_part_next(&parts, &len);
        check(part.len == part_len && len == 0, "a length of eight bytes", "part_next");
        check((const uint8_t *)part.text == bytes + 8, "the text after its length", "part_next");
    }
}

/* Types, subtypes and names. */
static void types_in_parts(void) {
    type_is("a/b", "a|b");
    type_is("\t TEXT/Html\r\n", "text|html");
    type_is("!#$%&'*+-.^_`~/0", "!#$%&'*+-.^_`~|0");
    type_is("text/html;charset=utf-8", "text|html|charset|utf-8");
    type_is("text/html; \tCharSet=UTF-8 ;x=Y", "text|html|charset|UTF-8|x|Y");
    type_is("a/b;c=1;C=2;d=3;c=\"4\"", "a|b|c|1|d|3");
    type_is("a/b ;;c;d=;=e; f =g;h(=i;j=k", "a|b|j|k");
    const char *refused[] = {"", "a", "a/", "/b", "a/ ;c=d", "a b/c", "a/b c", "a;b/c", "\u00e9/b", "a/\u00e9"};
    for (size_t i = 0; i < sizeof refused / sizeof *refused; i++) {
        gives(data_url_type_parts, refused[i], DATA_URL_NOT_A_MIME_TYPE, "");
        gives(rust_type_parts, refused[i], DATA_URL_NOT_A_MIME_TYPE, "");
    }
    gives(data_url_type_parts, "a/b;c=\x80", DATA_URL_NOT_UTF8, "");
    gives(data_url_type_parts, "\xff", DATA_URL_NOT_UTF8, "");
    gives(data_url_type_parts, "a/b;c=\xc3", DATA_URL_NOT_UTF8, "");
}

static void values_in_parts(void) {
    type_is("a/b;c=\"d;e\";f=g", "a|b|c|d;e|f|g");
    type_is("a/b;c=\"d\\\"e\\\\f\\g\"", "a|b|c|d\"e\\fg");
    type_is("a/b;c=\"\";d=e", "a|b|c||d|e");
    type_is("a/b;c=\"d", "a|b|c|d");
    type_is("a/b;c=\"d\\", "a|b|c|d\\");
    type_is("a/b;c=\"d\"e;f=g", "a|b|c|d|f|g");
    type_is("a/b;c= d", "a|b|c| d");
    type_is("a/b;c= \"d\"", "a|b|c| \"d\"");
    type_is("a/b;c=d \t;e=\"f \"", "a|b|c|d|e|f ");
    type_is("a/b;c=\u00e9;d=\"\u00ff\"", "a|b|c|\u00e9|d|\u00ff");
    type_is("a/b;c=\u0100;d=\"\u20ac\";e=\x7f;f=g", "a|b|f|g");
    type_is("a/b;c=\u0100;c=d", "a|b|c|d");
    static char text[MOST / 4], shown[MOST / 4];
    const int lengths[] = {255, 256, 257, 4000};
    for (size_t i = 0; i < sizeof lengths / sizeof *lengths; i++) {
        sprintf(text, "a/b;c=%0*d", lengths[i], 7);
        sprintf(shown, "a|b|c|%0*d", lengths[i], 7);
        type_is(text, shown);
    }
}

static void urls_in_parts(void) {
    const char *none = "text|plain|charset|US-ASCII";
    url_is("data:,x", none, "x", false);
    url_is("data:,", none, "", false);
    url_is(" DATA: ,x y#z \n", none, "x y#z", false);
    url_is("data:;base64,", none, "", true);
    url_is("data:;base64,#f", none, "#f", true);
    url_is("data:text,x", none, "x", false);
    url_is("data:a/b?c,x", none, "x", false);
    url_is("data:a/b,,x", "a|b", ",x", false);
    url_is("data:TEXT/Html;Charset=UTF-8,x", "text|html|charset|UTF-8", "x", false);
    url_is("data:a/b;base64,QQ", "a|b", "QQ", true);
    url_is("data:a/b; BASE64 ,QQ", "a|b", "QQ", true);
    url_is("data:a/b;base64;c=d,x", "a|b|c|d", "x", false);
    url_is("data:;charset=x;base64,QQ", "text|plain|charset|x", "QQ", true);
    url_is("data:a/b;base64=c,x", "a|b|base64|c", "x", false);
    url_is("data:a/b;c= d,x", "a|b|c| d", "x", false);
    url_is("data:a/b;c=\"d\\\"e\";C=f,x", "a|b|c|d\"e", "x", false);
    url_is("data:a/b;c=\"d,e\",x", "a|b|c|d", "e\",x", false);
    url_is("d\tata:a/b;\tc\n=\rd,x", "a|b|c|d", "x", false);
    url_is("data:a/b;c=\u00e9\x7f\x01,\u00e9", "a|b|c|%C3%A9%7F%01", "\u00e9", false);
    url_is("data:a/b;c= ?< ,x", "a|b|c|%20?%3C%20", "x", false);
    url_is("data:a/b;c= ?<\">;base64,x", "a|b|c|%20?%3C%22%3E", "x", true);
}

/* Texts that are no data: URLs. Those that only Rust uses are not called with bytes that are not UTF-8. */
static void urls_refused(void) {
    const struct {
        const char *text;
        uint32_t status;
    } refused[] = {
        {"", DATA_URL_NOT_A_DATA_URL},         {"data", DATA_URL_NOT_A_DATA_URL},
        {"a/b,x", DATA_URL_NOT_A_DATA_URL},    {"da ta:,x", DATA_URL_NOT_A_DATA_URL},
        {"https:,x", DATA_URL_NOT_A_DATA_URL}, {"data:", DATA_URL_NO_COMMA},
        {"data:a/b", DATA_URL_NO_COMMA},       {"data:a/b#,x", DATA_URL_NO_COMMA},
        {"data:,\xff", DATA_URL_NOT_UTF8},     {"data:\xed\xa0\x80,x", DATA_URL_NOT_UTF8},
        {"\xc3", DATA_URL_NOT_UTF8},           {"data:a/b;c=\x80", DATA_URL_NOT_UTF8},
    };
    const Call calls[] = {open_printed, open_parts, rust_open_printed, rust_open_parts};
    for (size_t i = 0; i < sizeof refused / sizeof *refused; i++)
        for (size_t j = 0; j < (refused[i].status == DATA_URL_NOT_UTF8 ? 2 : 4); j++) {
            memset(&last_opened, FILLED, sizeof last_opened);
            gives(calls[j], refused[i].text, refused[i].status, "");
            int is_none = !last_opened.tail && !last_opened.tail_len && !last_opened.is_base64;
            check(is_none, "fields of no URL", refused[i].text);
        }
}

/* Writes a head, a unit for each number below a count, and an end. */
static char *listed(char *out, const char *head, const char *unit, int count, const char *end) {
    size_t at = (size_t)sprintf(out, "%s", head);
    for (int i = 0; i < count; i++) at += (size_t)sprintf(out + at, unit, i, i);
    sprintf(out + at, "%s", end);
    return out;
}

/* As many parameters as are kept without allocation, one more, and many; and names that are doubled. */
static void many_in_parts(void) {
    static char text[MOST], shown[MOST];
    const int counts[] = {7, 8, 9, 17, 33, MANY};
    for (size_t i = 0; i < sizeof counts / sizeof *counts; i++) {
        int n = counts[i];
        type_is(listed(text, "A/b", ";p%d=v%d", n, ""), listed(shown, "a|b", "|p%d|v%d", n, ""));
        type_is(listed(text, "A/b", ";p%d=v%d", n, ";P0=x;p6=y"), shown);
        type_is(listed(text, "A/b", ";q %d=;p%d=v", n, ";z=z"), listed(shown, "a|b", "|p%d|v", n, "|z|z"));
        url_is(listed(text, "data:A/b", ";p%d=v", n, ",x"), listed(shown, "a|b", "|p%d|v", n, ""), "x", false);
        listed(shown, "a|b", "|p%d|%%C3%%A9", n, "");
        url_is(listed(text, "data:A/b", ";p%d=\u00e9", n, ";base64,"), shown, "", true);
    }
}

/* Encodes a fragment in parts, with outputs of a size. */
static void encodes_in(size_t room, const char *text, const char *want) {
    char all[128];
    size_t len = strlen(text), at = 0, all_len = 0;
    struct data_url_fed part;
    do {
        uint8_t *rest = exact_room(len - at), *out = filled_room(room);
        memcpy(rest, text + at, len - at);
        part = dataurl_fragment_next(rest, len - at, out, room);
        if (part.len > room || all_len + part.len > sizeof all || part.read > len - at) abort();
        check(is_filled(out + part.len, room + 1 - part.len), "after the part", text);
        check(part.status == DATA_URL_DONE || part.len + 3 > room, "part that is full", text);
        memcpy(all + all_len, out, part.len);
        all_len += part.len;
        at += part.read;
        free(rest);
        free(out);
    } while (part.status == DATA_URL_MORE && part.read > 0);
    check(part.status == DATA_URL_DONE && at == len, "end of a fragment", text);
    check(all_len == strlen(want) && memcmp(all, want, all_len) == 0, "fragment", text);
}

static void encodes(const char *text, const char *want) {
    for (size_t room = 0; room < 3; room++) {
        uint8_t *out = filled_room(room);
        struct data_url_fed part = dataurl_fragment_next(text, strlen(text), out, room);
        check(part.status == DATA_URL_OUTPUT_TOO_SMALL && part.len == 0 && part.read == 0, "room below 3", text);
        check(is_filled(out, room + 1), "output below 3", text);
        free(out);
    }
    for (size_t room = 3; room <= strlen(want) + MARGIN; room++) encodes_in(room, text, want);
}

static void fragments_in_parts(void) {
    encodes("", "");
    encodes("x", "x");
    encodes("x y", "x%20y");
    encodes("\t\r\n", "");
    encodes("a\t`\u00e9", "a%60%C3%A9");
    encodes("<\">#?%zz{}|\\^'", "%3C%22%3E#?%zz{}|\\^'");
    encodes("\x01\x1f\x7f~", "%01%1F%7F~");
    encodes("\xff\x80", "%FF%80");
    encodes("abcdefghijklmnopqrstuvwxyz0123456789-ABCDEFG H", "abcdefghijklmnopqrstuvwxyz0123456789-ABCDEFG%20H");
}

/* A call that allocates `count` times. Each of these allocations fails in turn, and then none. */
static void allocates(Call call, const char *text, size_t room, long count, uint32_t status, size_t len) {
    for (long n = 1; n <= count + 1; n++) {
        uint8_t *out = filled_room(room);
        memset(&last_opened, 0, sizeof last_opened);
        allocations = 0;
        refused = n;
        struct data_url_answer answer = call(text, strlen(text), out, room);
        refused = 0;
        if (n > count) {
            check(is(answer, status, len), "with memory", text);
            check(allocations == count, "number of allocations", text);
        } else {
            check(is(answer, DATA_URL_OUT_OF_MEMORY, 0) && is_filled(out, room + 1), "without memory", text);
            check(!last_opened.tail && !last_opened.tail_len && !last_opened.is_base64, "fields without memory", text);
        }
        free(out);
    }
}

/* The calls that allocate for a short text. */
static void failing_allocations(void) {
    allocates(data_url_body, "data:a/b,x", 64, 2, DATA_URL_DONE, 1);
    allocates(data_url_body, "data:a/b;c=d,x", 64, 5, DATA_URL_DONE, 1);
    allocates(data_url_body, "data:,x", 64, 5, DATA_URL_DONE, 1);
    allocates(data_url_body, "data:,%41", 1, 6, DATA_URL_DONE, 1);
    allocates(data_url_body, "data:;base64,QUJD!", 64, 5, DATA_URL_BASE64_UNEXPECTED_SYMBOL + '!', 3);
    allocates(data_url_body, "data:;base64,QUJD!", 3, 6, DATA_URL_BASE64_UNEXPECTED_SYMBOL + '!', 3);
    allocates(data_url_mime, "data:a/b,x", 64, 3, DATA_URL_DONE, 3);
    allocates(data_url_mime, "data:a/b;c=d,x", 64, 6, DATA_URL_DONE, 7);
    allocates(data_url_mime, "data:a/b;c=?,x", 64, 7, DATA_URL_DONE, 9);
    allocates(data_url_fragment, "data:a/b,#f", 64, 3, DATA_URL_DONE, 1);
    allocates(data_url_fragment, "data:,#f", 64, 6, DATA_URL_DONE, 1);
    allocates(data_url_fragment, "data:,#", 64, 5, DATA_URL_DONE, 0);
    allocates(data_url_fragment, "data:,x", 64, 5, DATA_URL_NO_FRAGMENT, 0);
    allocates(data_url_fragment, "data:,#a b", 64, 7, DATA_URL_DONE, 5);
    allocates(data_url_type, "a/b", 64, 3, DATA_URL_DONE, 3);
    allocates(data_url_type, "a/b;c=d", 64, 6, DATA_URL_DONE, 7);
    allocates(data_url_type, "a/b;c=d", 0, 6, DATA_URL_OUTPUT_TOO_SMALL, 7);
    allocates(data_url_type, "a", 64, 0, DATA_URL_NOT_A_MIME_TYPE, 0);
    allocates(data_url_base64, "QUJD", 64, 1, DATA_URL_DONE, 3);
    allocates(data_url_base64, "", 64, 0, DATA_URL_DONE, 0);
    const Call opens[] = {open_printed, rust_open_printed};
    for (size_t i = 0; i < 2; i++) {
        allocates(opens[i], "data:a/b,x", 64, 3, DATA_URL_DONE, 3);
        allocates(opens[i], "data:a/b;c=d,x", 64, 6, DATA_URL_DONE, 7);
        allocates(opens[i], "data:;base64,x", 64, 6, DATA_URL_DONE, 27);
        allocates(opens[i], "data:a/b;c=\u00e9,x", 64, 7, DATA_URL_DONE, 12);
    }
    const Call of_urls[] = {data_url_body, data_url_mime, data_url_fragment, open_printed, open_parts, rust_open_parts};
    for (size_t i = 0; i < sizeof of_urls / sizeof *of_urls; i++) {
        allocates(of_urls[i], "data:#", 64, 0, DATA_URL_NO_COMMA, 0);
        allocates(of_urls[i], "http:,x", 64, 0, DATA_URL_NOT_A_DATA_URL, 0);
    }
}

/* A MIME type in parts allocates `count` times, whether or not there is room, and whether C or Rust calls. */
static void parts_allocate(const Call *calls, const char *text, long count, const char *shown) {
    size_t len = want_parts(shown)->parts_len;
    for (size_t i = 0; i < 2; i++) {
        allocates(calls[i], text, len, count, DATA_URL_DONE, len);
        allocates(calls[i], text, len - 1, count, DATA_URL_OUTPUT_TOO_SMALL, len);
    }
}

static void failing_allocations_in_parts(void) {
    const Call types[] = {data_url_type_parts, rust_type_parts}, opens[] = {open_parts, rust_open_parts};
    static char text[MOST], shown[MOST];
    parts_allocate(types, "a/b", 0, "a|b");
    parts_allocate(types, "A/B;c=\"d\\\"e\";f=g;F=h", 0, "a|b|c|d\"e|f|g");
    parts_allocate(opens, "data:,x", 0, "text|plain|charset|US-ASCII");
    parts_allocate(opens, "data:A/b;c=\"d e\";base64,x", 0, "a|b|c|d e");
    parts_allocate(opens, "data:a/b;c=\u00e9,x", 1, "a|b|c|%C3%A9");
    parts_allocate(opens, "data:a/b;\tc=d,x", 1, "a|b|c|d");
    parts_allocate(opens, "data:a/b;c=?,x", 1, "a|b|c|?");
    for (int n = 61; n < 100; n += 38) {
        listed(shown, "a|b|c|", "%%C3%%A9", n, "");
        parts_allocate(opens, listed(text, "data:a/b;c=", "\u00e9", n, ",x"), n == 61 ? 1 : 2, shown);
    }
    const struct {
        int parameters;
        long count;
    } many[] = {{8, 0}, {9, 20}, {MANY, 801}};
    for (size_t i = 0; i < 3; i++) {
        int n = many[i].parameters;
        listed(shown, "a|b", "|p%d|v", n, "");
        parts_allocate(types, listed(text, "a/b", ";p%d=v", n, ""), many[i].count, shown);
        parts_allocate(types, listed(text, "a/b", ";p%d=v", n, ";P0=w;q=;p7=x;r"), many[i].count, shown);
        parts_allocate(opens, listed(text, "data:a/b", ";p%d=v", n, ","), many[i].count, shown);
    }
    parts_allocate(opens, listed(text, "data:a/b;\t", ";p%d=v", 9, ","), 21, listed(shown, "a|b", "|p%d|v", 9, ""));
}

/* The calls that never allocate. */
static void no_allocations(void) {
    uint8_t out[64];
    struct data_url_body_state body = DATA_URL_BODY_STATE(true);
    struct data_url_base64_state base64 = DATA_URL_BASE64_STATE;
    allocations = 0;
    check(is(data_url_body_next(&body, "QU%4AD", 6, out, sizeof out), DATA_URL_DONE, 3), "answer", "body_next");
    check(data_url_base64_feed(&base64, "QUJDQU", 6, out, sizeof out).len == 3, "answer", "base64_feed");
    check(is(data_url_base64_finish(&base64, out, sizeof out), DATA_URL_DONE, 1), "answer", "base64_finish");
    check(dataurl_fragment_next("a b\u00e9", 5, out, sizeof out).len == 11, "answer", "fragment_next");
    check(allocations == 0, "number of allocations", "the calls that take a state, and fragment_next");
}

/* A state of a body that is refused: nothing is written, and a state that is there stays as it was. */
static void refuses_body(struct data_url_body_state *state, const char *what) {
    struct data_url_body_state before = state ? *state : (struct data_url_body_state)DATA_URL_BODY_STATE(false);
    for (size_t room = 0; room <= 16; room += 8) {
        uint8_t *out = filled_room(room);
        check(is(data_url_body_next(state, "QUJD", 4, out, room), DATA_URL_BAD_STATE, 0), "bad state", what);
        check(is_filled(out, room + 1), "output", what);
        check(!state || memcmp(&before, state, offsetof(struct data_url_body_state, is_base64) + 1) == 0,
            "bad state is changed", what);
        free(out);
    }
}

/* The same for a text of base64. */
static void refuses_base64(struct data_url_base64_state *state, const char *what) {
    struct data_url_base64_state before = state ? *state : (struct data_url_base64_state)DATA_URL_BASE64_STATE;
    for (size_t room = 0; room <= 16; room += 8) {
        uint8_t *out = filled_room(room);
        struct data_url_fed fed = data_url_base64_feed(state, "QUJD", 4, out, room);
        check(fed.status == DATA_URL_BAD_STATE && fed.len == 0 && fed.read == 0, "bad state, fed", what);
        check(is(data_url_base64_finish(state, out, room), DATA_URL_BAD_STATE, 0), "bad state, finished", what);
        check(is_filled(out, room + 1), "output", what);
        check(!state || memcmp(&before, state, sizeof before) == 0, "bad state is changed", what);
        free(out);
    }
}

/* States that are null, or that no call returned. */
static void bad_states(void) {
    refuses_body(NULL, "null");
    refuses_base64(NULL, "null");
    for (unsigned flag = 2; flag < 256; flag++) {
        struct data_url_body_state state = DATA_URL_BODY_STATE(true);
        state.is_base64 = (uint8_t)flag;
        refuses_body(&state, "a flag that is neither 0 nor 1");
    }
    for (int pending = 4; pending < 256; pending++) {
        struct data_url_body_state body = DATA_URL_BODY_STATE(true);
        struct data_url_base64_state base64 = DATA_URL_BASE64_STATE;
        body.pending = base64.pending = (uint8_t)pending;
        refuses_body(&body, "more symbols left over than three");
        refuses_base64(&base64, "more symbols left over than three");
    }
    struct data_url_body_state after = DATA_URL_BODY_STATE(false);
    after.from = 5;
    refuses_body(&after, "a place after the tail");
}

/* Tails that are not UTF-8 are decoded as the bytes that they are. */
static void other_tails(void) {
    uint8_t out[16];
    struct data_url_body_state plain = DATA_URL_BODY_STATE(false), base64 = DATA_URL_BODY_STATE(true);
    struct data_url_answer part = data_url_body_next(&plain, "a\xff%fe\xc3#\xff", 8, out, sizeof out);
    check(is(part, DATA_URL_DONE, 4) && memcmp(out, "a\xff\xfe\xc3", 4) == 0, "a tail", "not UTF-8");
    part = data_url_body_next(&base64, "QUJD\xff", 5, out, sizeof out);
    check(is(part, DATA_URL_BASE64_UNEXPECTED_SYMBOL + 0xff, 3) && memcmp(out, "ABC", 3) == 0, "base64", "not UTF-8");
}

/* Whether an answer is the first bytes of these, all of which fit. */
static int begins(const uint8_t *out, size_t len, size_t room, const char *want) {
    return len <= room && len <= strlen(want) && memcmp(out, want, len) == 0;
}

static void whole_text_in(size_t room, Call call, const char *text, const char *want) {
    uint8_t *out = exact_room(room);
    struct data_url_answer answer = call(text, strlen(text), out, room);
    int fits = room >= strlen(want);
    check(is(answer, fits ? DATA_URL_DONE : DATA_URL_OUTPUT_TOO_SMALL, strlen(want)), "small room", text);
    check(!fits || begins(out, answer.len, room, want), "bytes in a small room", text);
    free(out);
}

static void opened_in(size_t room) {
    uint8_t *out = exact_room(room);
    struct data_url_opened opened = data_url_open("data:a/b;base64,x", 17, out, room);
    check(opened.status == (room < 3 ? DATA_URL_OUTPUT_TOO_SMALL : DATA_URL_DONE) && opened.len == 3, "small room",
        "open");
    check(opened.tail == 16 && opened.tail_len == 1 && opened.is_base64, "fields with a small room", "open");
    check(room < 3 || memcmp(out, "a/b", 3) == 0, "bytes in a small room", "open");
    free(out);
}

static void body_part_in(size_t room) {
    uint8_t *out = exact_room(room);
    struct data_url_body_state state = DATA_URL_BODY_STATE(false);
    struct data_url_answer part = data_url_body_next(&state, "abcdefgh%41i", 12, out, room);
    if (room < 8) {
        check(is(part, DATA_URL_OUTPUT_TOO_SMALL, 0) && state.from == 0, "small room", "body_next");
    } else {
        check(part.status == DATA_URL_MORE && begins(out, part.len, room, "abcdefghAi"), "room of 8", "body_next");
    }
    free(out);
}

static void base64_part_in(size_t room) {
    uint8_t *out = exact_room(room);
    struct data_url_base64_state state = DATA_URL_BASE64_STATE;
    struct data_url_fed fed = data_url_base64_feed(&state, "QUJDREVGR0hJ", 12, out, room);
    if (room < 4) {
        check(fed.status == DATA_URL_OUTPUT_TOO_SMALL && fed.len == 0 && fed.read == 0, "small room", "base64_feed");
    } else {
        check(fed.status == DATA_URL_DONE && fed.read > 0 && begins(out, fed.len, room, "ABCDEFGHI"), "room",
            "base64_feed");
    }
    free(out);
}

static void base64_end_in(size_t room) {
    uint8_t *out = exact_room(room), none[8];
    struct data_url_base64_state state = DATA_URL_BASE64_STATE;
    struct data_url_fed fed = data_url_base64_feed(&state, "QU", 2, none, sizeof none);
    struct data_url_fed more = data_url_base64_feed(&state, "I", 1, none, sizeof none);
    check(fed.len == 0 && more.len == 0, "symbols that are left", "base64_finish");
    struct data_url_answer last = data_url_base64_finish(&state, out, room);
    check(is(last, room < 2 ? DATA_URL_OUTPUT_TOO_SMALL : DATA_URL_DONE, 2), "small room", "base64_finish");
    check(room < 2 || begins(out, last.len, room, "AB"), "bytes in a small room", "base64_finish");
    free(out);
}

/* Each call with a room of 0 to 8 bytes. */
static void small_rooms(void) {
    for (size_t room = 0; room <= 8; room++) {
        whole_text_in(room, data_url_body, "data:,abc%41ef", "abcAef");
        whole_text_in(room, data_url_mime, "data:a/b;c=d,", "a/b;c=d");
        whole_text_in(room, data_url_fragment, "data:,#a b", "a%20b");
        whole_text_in(room, data_url_type, "A/b;c=d", "a/b;c=d");
        whole_text_in(room, data_url_base64, "QUJDREVG", "ABCDEF");
        opened_in(room);
        body_part_in(room);
        base64_part_in(room);
        base64_end_in(room);
    }
}

int main(void) {
    check(data_url_is_supported(), "the processor is too old", "");
    worked_urls();
    worked_texts();
    refusals();
    faults();
    nothing();
    fresh_outputs();
    long_bodies();
    many_parameters();
    parts_one_by_one();
    types_in_parts();
    values_in_parts();
    urls_in_parts();
    urls_refused();
    many_in_parts();
    fragments_in_parts();
    failing_allocations();
    failing_allocations_in_parts();
    no_allocations();
    bad_states();
    other_tails();
    small_rooms();
    printf("c: %d checks, %d wrong\n", checks, wrong);
    return wrong ? 1 : 0;
}
