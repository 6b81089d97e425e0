/* data_url.h - data: URLs, MIME types and forgiving base64
 *
 * SYNOPSIS
 *
 *     #include "data_url.h"
 *     #include <stdio.h>
 *     #include <string.h>
 *
 *     int main(void) {
 *         const char *url = "data:text/plain;base64,SGVsbG8h#part";
 *         char body[64];
 *         if (!data_url_is_supported()) {
 *             fputs("This processor is too old.\n", stderr);
 *             return 1;
 *         }
 *         struct data_url_answer got = data_url_body(url, strlen(url), body, sizeof body);
 *         if (got.status != DATA_URL_DONE) return 1;
 *         printf("%.*s, %zu bytes\n", (int)got.len, body, got.len);
 *     }
 *
 * Build it with `cc program.c -ldata_url`.
 *
 * WHOLE TEXTS. Each of these takes a text and an output, and returns a status and a length:
 *
 *     data_url_body      the body of a data: URL (Fetch Standard, section 6)
 *     data_url_mime      its MIME type, printed (MIME Sniffing Standard, section 4.5)
 *     data_url_fragment  its fragment, percent-encoded (URL Standard, section 4.4, fragment state)
 *     data_url_type      a MIME type, parsed and printed (MIME Sniffing Standard, sections 4.4 and 4.5)
 *     data_url_base64    base64, decoded (Infra Standard, forgiving-base64 decode)
 *
 * IN PARTS. A long body goes to a file in a few kilobytes, and nothing is allocated for it:
 *
 *     data_url_open           reads the header of a URL: its MIME type, whether its body is base64, where its tail
 *                             begins
 *     data_url_open_parts     the same, with the MIME type in parts: type, subtype, each name and each value
 *     data_url_type_parts     a MIME type, parsed, in such parts
 *     data_url_body_next      the next bytes of a body, from the tail
 *     data_url_base64_feed    the next part of a text of base64
 *     data_url_base64_finish  the end of that text
 *
 * This program writes the body of the URL on standard input:
 *
 *     #include "data_url.h"
 *     #include <stdio.h>
 *     #include <stdlib.h>
 *
 *     static uint32_t write_body(const char *url, size_t len, FILE *file) {
 *         static char buffer[65536];
 *         struct data_url_opened opened = data_url_open(url, len, NULL, 0);
 *         if (opened.status != DATA_URL_DONE && opened.status != DATA_URL_OUTPUT_TOO_SMALL) return opened.status;
 *         struct data_url_body_state state = DATA_URL_BODY_STATE(opened.is_base64);
 *         struct data_url_answer part;
 *         do {
 *             part = data_url_body_next(&state, url + opened.tail, opened.tail_len, buffer, sizeof buffer);
 *             if (part.status == DATA_URL_OUTPUT_TOO_SMALL) return part.status;
 *             fwrite(buffer, 1, part.len, file);
 *         } while (part.status == DATA_URL_MORE && !ferror(file));
 *         return part.status;
 *     }
 *
 *     int main(void) {
 *         if (!data_url_is_supported()) return 1;
 *         size_t len = 0, room = 1 << 16, got;
 *         char *url = (char *)malloc(room);
 *         while (url && (got = fread(url + len, 1, room - len, stdin)) > 0) {
 *             if ((len += got) < room) continue;
 *             char *more = (char *)realloc(url, room *= 2);
 *             if (!more) free(url);
 *             url = more;
 *         }
 *         if (!url || ferror(stdin)) return 3;
 *         uint32_t status = write_body(url, len, stdout);
 *         free(url);
 *         return status == DATA_URL_DONE && fflush(stdout) == 0 && !ferror(stdout) ? 0 : 1;
 *     }
 *
 * and this one the bytes of the base64 on standard input:
 *
 *     #include "data_url.h"
 *     #include <stdio.h>
 *
 *     static uint32_t decode(FILE *from, FILE *to) {
 *         static char text[4096], buffer[4096];
 *         struct data_url_base64_state state = DATA_URL_BASE64_STATE;
 *         size_t len, at;
 *         while ((len = fread(text, 1, sizeof text, from)) > 0) {
 *             for (at = 0; at < len;) {
 *                 struct data_url_fed fed = data_url_base64_feed(&state, text + at, len - at, buffer, sizeof buffer);
 *                 if (fed.status == DATA_URL_OUTPUT_TOO_SMALL) return fed.status;
 *                 fwrite(buffer, 1, fed.len, to);
 *                 if (fed.status != DATA_URL_DONE) return fed.status;
 *                 at += fed.read;
 *             }
 *         }
 *         struct data_url_answer last = data_url_base64_finish(&state, buffer, sizeof buffer);
 *         if (last.status == DATA_URL_DONE) fwrite(buffer, 1, last.len, to);
 *         return last.status;
 *     }
 *
 *     int main(void) {
 *         if (!data_url_is_supported()) return 1;
 *         uint32_t status = decode(stdin, stdout);
 *         return status == DATA_URL_DONE && !ferror(stdin) && fflush(stdout) == 0 && !ferror(stdout) ? 0 : 1;
 *     }
 *
 * This program writes the type, the subtype and the charset of the Content-Type that is its argument:
 *
 *     #include "data_url.h"
 *     #include <stdio.h>
 *     #include <string.h>
 *
 *     static void print(const char *what, struct data_url_part part) {
 *         printf("%s: %.*s\n", what, (int)part.len, part.text);
 *     }
 *
 *     int main(int count, char **arguments) {
 *         const char *type = count > 1 ? arguments[1] : "";
 *         char buffer[1024];
 *         const void *parts = buffer;
 *         if (!data_url_is_supported()) return 1;
 *         struct data_url_answer got = data_url_type_parts(type, strlen(type), buffer, sizeof buffer);
 *         if (got.status != DATA_URL_DONE) return 1;
 *         print("type", data_url_part_next(&parts, &got.len));
 *         print("subtype", data_url_part_next(&parts, &got.len));
 *         while (got.len > 0) {
 *             struct data_url_part name = data_url_part_next(&parts, &got.len);
 *             struct data_url_part value = data_url_part_next(&parts, &got.len);
 *             if (name.len == 7 && memcmp(name.text, "charset", 7) == 0) print("charset", value);
 *         }
 *         return fflush(stdout) == 0 ? 0 : 1;
 *     }
 *
 * TEXTS. A text is `len` bytes at a pointer. It need not end with a NUL, and may contain one. Any bytes are allowed.
 * The pointer may be null if `len` is 0. The text is only read, and only until the call returns.
 *
 * OUTPUTS. An output is room for `room` bytes at a pointer, which may be null if `room` is 0. It must not overlap
 * the text. What it holds before the call is never read. A call writes the first `len` bytes and leaves the rest as
 * it was. With the status DATA_URL_OUTPUT_TOO_SMALL it writes nothing.
 *
 * STATES. A state is the caller's, and is written by the calls that take it. No other argument of a call may overlap
 * it: not the text, and not the output. It may be null, and then the call returns DATA_URL_BAD_STATE.
 *
 * NULL. No pointer may be null but these: to a text of no bytes, to an output with no room, and to a state. What
 * data_url_part_next takes may not be null, and its two arguments may not overlap each other or the parts.
 *
 * LENGTHS. `len` of an answer is how many bytes were written, but for one status: with DATA_URL_OUTPUT_TOO_SMALL
 * nothing was written, and `len` is the room that is needed. A second call with that much room succeeds. So a call
 * with no room asks for the length. data_url_body_next and data_url_base64_feed write as much as there is room for:
 * their `len` is always how many bytes were written. A body is never longer than its URL, and decoded base64 never
 * longer than its text.
 *
 * INVALID BASE64. The bytes before the first fault are written, with the status of the fault. data_url_fragment
 * writes none. data_url_mime, data_url_open and data_url_open_parts do not decode the body and so find no fault in it.
 *
 * MEMORY AND THREADS. The library keeps no pointer, and no state but which instructions the processor has. So calls
 * may run on many threads at once. What a call allocates, with malloc and realloc, it frees before it returns. Do not
 * call the library from a signal handler.
 *
 * ALLOCATIONS. These are the calls of malloc and realloc for a short text, whose MIME type has no parameter or one. A
 * header without a MIME type counts as one with a parameter, which is charset=US-ASCII.
 *
 *     data_url_body_next, data_url_base64_feed, data_url_base64_finish    0
 *     data_url_open_parts, data_url_type_parts                            0
 *     data_url_base64                                                     1
 *     data_url_body                                                       2, or 5 with a parameter
 *     data_url_mime, data_url_type, data_url_open, data_url_fragment      3, or 6 with a parameter
 *
 * The first three never allocate. The next two do for a MIME type with more than 8 parameters, 20 times for 9 short
 * ones. All calls that read the header of a URL take one more if it has a '?', a tab, a newline or a byte to
 * percent-encode, and two if such a header is longer than 128 bytes and grows. data_url_body takes one more, as long as
 * the tail, if the room is less than that. The other calls take more for a longer text, for more parameters, and where
 * a value or a fragment is escaped. data_url_base64 and data_url_fragment take one less for an empty result.
 *
 * PLATFORMS. Linux on x86-64 (level x86-64-v2 or higher) and aarch64. C99, C++11 and later. The library for x86-64
 * has each call for x86-64-v2 and for x86-64-v3. The first call asks the processor which of them it can run.
 *
 * OLD PROCESSORS. On a processor that is older than the library needs, a call ends the program with an illegal
 * instruction. These are processors for x86-64 without SSE4.2 or POPCNT: most from before 2009, and some small ones
 * until 2013. data_url_is_supported runs on them too, and says so. Ask it before the first call, where a program may
 * come to such a processor.
 *
 * The functions add two things to calls that are proved: a pointer to no bytes may be null, and a state that is
 * null, or whose is_base64 is neither 0 nor 1, is DATA_URL_BAD_STATE.
 */
#ifndef DATA_URL_H
#define DATA_URL_H

#include <stdbool.h>
#include <stddef.h>
#include <stdint.h>

#define DATA_URL_VERSION "0.2.0"

#ifdef __cplusplus
extern "C" {
#endif

/* How a call ended. */
enum data_url_status {
    DATA_URL_DONE = 0,
    /* The text does not begin with "data:". */
    DATA_URL_NOT_A_DATA_URL = 1,
    /* There is no comma before the fragment. */
    DATA_URL_NO_COMMA = 2,
    /* malloc or realloc failed. */
    DATA_URL_OUT_OF_MEMORY = 3,
    /* The text is not UTF-8. */
    DATA_URL_NOT_UTF8 = 4,
    /* The output is too small, and nothing was written. */
    DATA_URL_OUTPUT_TOO_SMALL = 5,
    /* The text is not a MIME type. */
    DATA_URL_NOT_A_MIME_TYPE = 6,
    /* The URL has no '#'. An empty fragment after a '#' is DATA_URL_DONE with length 0. */
    DATA_URL_NO_FRAGMENT = 7,
    /* Base64 with a number of '=' that does not fit the symbols. */
    DATA_URL_BASE64_PADDING = 8,
    /* Base64 with one symbol left over after the groups of four. */
    DATA_URL_BASE64_LONE_SYMBOL = 9,
    /* Base64 with a symbol after a '='. */
    DATA_URL_BASE64_SYMBOL_AFTER_PADDING = 10,
    /* There are more bytes: call again. */
    DATA_URL_MORE = 11,
    /* The state is null or cannot be right, or its text has ended. Nothing was done. */
    DATA_URL_BAD_STATE = 12,
    /* Base64 with a byte that is neither whitespace nor '=' nor a symbol: this plus the byte, 256 to 511. */
    DATA_URL_BASE64_UNEXPECTED_SYMBOL = 256
};

/* Whether this processor has the instructions that the other calls need. If not, do not call them. The answer does not
 * change, so it need not be asked for again. */
bool data_url_is_supported(void);

struct data_url_answer {
    /* One of enum data_url_status, or DATA_URL_BASE64_UNEXPECTED_SYMBOL plus a byte. */
    uint32_t status;
    /* How many bytes were written to the output. With DATA_URL_OUTPUT_TOO_SMALL, none were: then it is the room that is
     * needed or, from data_url_body_next, 0. */
    size_t len;
};

/* Whether a status says that base64 is not valid. */
static inline bool data_url_is_base64_fault(uint32_t status) {
    return (status >= DATA_URL_BASE64_PADDING && status <= DATA_URL_BASE64_SYMBOL_AFTER_PADDING) ||
           status >= DATA_URL_BASE64_UNEXPECTED_SYMBOL;
}

/* Whether a status says that base64 has an unexpected byte. */
static inline bool data_url_is_unexpected_symbol(uint32_t status) {
    return status >= DATA_URL_BASE64_UNEXPECTED_SYMBOL;
}

/* That byte. */
static inline uint8_t data_url_unexpected_symbol(uint32_t status) {
    return (uint8_t)(status - DATA_URL_BASE64_UNEXPECTED_SYMBOL);
}

/* Decodes the body of a data: URL.
 *
 * url, len    the URL
 * out, room   receives the body; fastest if the room is at least as long as the URL, since no copy is made then
 * Returns DATA_URL_DONE; DATA_URL_NOT_UTF8, _NOT_A_DATA_URL, _NO_COMMA, _OUT_OF_MEMORY with length 0;
 * DATA_URL_OUTPUT_TOO_SMALL with the length that is needed; a fault of base64, with the bytes before it. */
struct data_url_answer data_url_body(const void *url, size_t len, void *out, size_t room);

/* Prints the MIME type of a data: URL: that of its header or, if the header has none, text/plain;charset=US-ASCII.
 *
 * url, len    the URL
 * out, room   receives the MIME type, in UTF-8
 * Returns DATA_URL_DONE; DATA_URL_NOT_UTF8, _NOT_A_DATA_URL, _NO_COMMA, _OUT_OF_MEMORY with length 0;
 * DATA_URL_OUTPUT_TOO_SMALL with the length that is needed. */
struct data_url_answer data_url_mime(const void *url, size_t len, void *out, size_t room);

/* Percent-encodes the fragment of a data: URL, without its '#'. The body is decoded first.
 *
 * url, len    the URL
 * out, room   receives the fragment
 * Returns DATA_URL_DONE; DATA_URL_NO_FRAGMENT, _NOT_UTF8, _NOT_A_DATA_URL, _NO_COMMA, _OUT_OF_MEMORY, or a fault of
 * base64, with length 0; DATA_URL_OUTPUT_TOO_SMALL with the length that is needed. */
struct data_url_answer data_url_fragment(const void *url, size_t len, void *out, size_t room);

/* Parses a MIME type and prints it: type, subtype and names in lower case, each name once, values quoted where
 * necessary.
 *
 * type, len   the MIME type
 * out, room   receives the printed MIME type, in UTF-8
 * Returns DATA_URL_DONE; DATA_URL_NOT_A_MIME_TYPE, _NOT_UTF8, _OUT_OF_MEMORY with length 0;
 * DATA_URL_OUTPUT_TOO_SMALL with the length that is needed. */
struct data_url_answer data_url_type(const void *type, size_t len, void *out, size_t room);

/* Decodes a text of base64.
 *
 * base64, len the text, which may be any bytes
 * out, room   receives the bytes
 * Returns DATA_URL_DONE; DATA_URL_OUT_OF_MEMORY with length 0; DATA_URL_OUTPUT_TOO_SMALL with the length that is
 * needed; a fault of base64, with the bytes before it. */
struct data_url_answer data_url_base64(const void *base64, size_t len, void *out, size_t room);

/* What data_url_open and data_url_open_parts return. */
struct data_url_opened {
    uint32_t status;
    /* Whether the body is base64. False if there is no URL. */
    bool is_base64;
    /* How many bytes the MIME type has, printed or in parts. With DATA_URL_OUTPUT_TOO_SMALL it was not written. 0 if
     * there is no URL. */
    size_t len;
    /* The tail, which is the text after the comma: where it begins in the URL, and how many bytes it has. They are
     * set with DATA_URL_DONE and DATA_URL_OUTPUT_TOO_SMALL, and 0 with any other status. */
    size_t tail;
    size_t tail_len;
};

/* Reads the header of a data: URL. The body is not decoded.
 *
 * url, len    the URL
 * out, room   receives the printed MIME type, as from data_url_mime
 * Returns what data_url_mime returns. With DATA_URL_DONE and DATA_URL_OUTPUT_TOO_SMALL the other fields are set too. */
struct data_url_opened data_url_open(const void *url, size_t len, void *out, size_t room);

/* Reads the header of a data: URL, and writes its MIME type in parts: the type, the subtype, and the name and the
 * value of each parameter. data_url_part_next takes them one by one.
 *
 * url, len    the URL
 * out, room   receives the parts; 256 bytes are enough for nearly all
 * Returns what data_url_open returns; its len is that of the parts together. */
struct data_url_opened data_url_open_parts(const void *url, size_t len, void *out, size_t room);

/* Parses a MIME type, and writes it in parts, as data_url_open_parts does.
 *
 * type, len   the MIME type
 * out, room   receives the parts
 * Returns what data_url_type returns; its len is that of the parts together. */
struct data_url_answer data_url_type_parts(const void *type, size_t len, void *out, size_t room);

/* A part of a MIME type: a text in UTF-8, which does not end with a NUL. */
struct data_url_part {
    const char *text;
    size_t len;
};

/* Takes the next part from what data_url_open_parts or data_url_type_parts wrote. Each comes after its length, which
 * takes eight bytes, the lowest first.
 *
 * parts, len  the parts that are left, and how many bytes they have together; the part is taken from them. There is
 *             a next part as long as len is not 0. Parts come in pairs: the type and the subtype, then each name and
 *             its value. */
static inline struct data_url_part data_url_part_next(const void **parts, size_t *len) {
    const uint8_t *bytes = (const uint8_t *)*parts;
    struct data_url_part part;
    size_t at;
    part.len = 0;
    for (at = 8; at > 0; at--) part.len = part.len << 8 | bytes[at - 1];
    part.text = (const char *)bytes + 8;
    *parts = bytes + 8 + part.len;
    *len -= 8 + part.len;
    return part;
}

/* How far a body was decoded. It begins as DATA_URL_BODY_STATE(opened.is_base64). */
struct data_url_body_state {
    size_t from;
    uint8_t symbols[3];
    uint8_t pending;
    uint8_t padding;
    uint8_t is_base64;
};

/* The state at the start of a body, as an initialiser. */
#define DATA_URL_BODY_STATE(is_base64) {0, {0, 0, 0}, 0, 0, (uint8_t)((is_base64) ? 1 : 0)}

/* Decodes the next bytes of a body. Call it with the same tail until the status is not DATA_URL_MORE.
 *
 * state       how far the body was decoded
 * tail, len   the tail: url + opened.tail, opened.tail_len
 * out, room   receives the next bytes; the room may differ from call to call, and must be 8 or more. 4 KiB are fast
 * Returns DATA_URL_MORE; DATA_URL_DONE with the last bytes; a fault of base64, with the bytes before it;
 * DATA_URL_OUTPUT_TOO_SMALL if the room is less than 8; DATA_URL_BAD_STATE if the state is null, its place is after
 * the tail, it has left what base64 cannot leave, or the body has ended. With the last two the length is 0, and the
 * state stays as it was. From another state that no call returned, the tail is decoded from its place on. A tail
 * that is not UTF-8 is decoded as the bytes that it is. */
struct data_url_answer data_url_body_next(
    struct data_url_body_state *state, const void *tail, size_t len, void *out, size_t room);

/* What a text of base64 has left. It begins as DATA_URL_BASE64_STATE. */
struct data_url_base64_state {
    uint8_t symbols[3];
    uint8_t pending;
    uint8_t padding;
};

/* The state at the start of a text, as an initialiser. */
#define DATA_URL_BASE64_STATE {{0, 0, 0}, 0, 0}

/* What data_url_base64_feed returns. */
struct data_url_fed {
    uint32_t status;
    /* How many bytes were written to the output. 0 with DATA_URL_OUTPUT_TOO_SMALL and DATA_URL_BAD_STATE. */
    size_t len;
    /* How many bytes of the input were read. 0 with DATA_URL_OUTPUT_TOO_SMALL and DATA_URL_BAD_STATE. After a fault
     * it does not say where the fault is. */
    size_t read;
};

/* Decodes the next part of a text of base64. All of the input is read if the room is 3 bytes more than its length;
 * otherwise as much as there is room for. Feed the rest, from input + read, next.
 *
 * state       what the text has left
 * input, len  the next part of the text
 * out, room   receives the bytes of the groups of four symbols that are complete; the room must be 4 or more
 * Returns DATA_URL_DONE; a fault of base64, with the bytes before it; DATA_URL_OUTPUT_TOO_SMALL if the room is less
 * than 4; DATA_URL_BAD_STATE. With the last two nothing is written or read, and the state stays as it was. */
struct data_url_fed data_url_base64_feed(
    struct data_url_base64_state *state, const void *input, size_t len, void *out, size_t room);

/* Ends a text of base64.
 *
 * state       what the text has left
 * out, room   receives the last bytes, at most 2
 * Returns DATA_URL_DONE; DATA_URL_BASE64_PADDING or DATA_URL_BASE64_LONE_SYMBOL with length 0;
 * DATA_URL_OUTPUT_TOO_SMALL with the length that is needed; DATA_URL_BAD_STATE. With the last two the state stays as
 * it was. */
struct data_url_answer data_url_base64_finish(struct data_url_base64_state *state, void *out, size_t room);

#ifdef __cplusplus
}
#endif

#endif
