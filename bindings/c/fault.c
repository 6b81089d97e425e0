/* Tests how far a body of base64 is read past its first fault: at most some 4 KiB. The tail has 64 MiB. Only the
 * first 8 KiB may be read, and the fault is in the middle of them. The output has room for the whole body. */
#define _GNU_SOURCE
#include "data_url.h"

#include <stdio.h>
#include <string.h>
#include <sys/mman.h>

enum { FAULT = 4000, READABLE = 8 << 10, TAIL = 64 << 20 };

static int wrong;

static uint8_t *mapped(void) {
    return mmap(NULL, TAIL, PROT_READ | PROT_WRITE, MAP_PRIVATE | MAP_ANONYMOUS | MAP_NORESERVE, -1, 0);
}

/* Checks that a tail with this start and a `!` further on is refused there, after the bytes of the groups before it. */
static void refuses(const char *start, size_t symbols) {
    struct data_url_body_state state = DATA_URL_BODY_STATE(true);
    struct data_url_answer got;
    uint8_t *tail = mapped(), *out = mapped();
    if (tail == MAP_FAILED || out == MAP_FAILED) {
        perror("mmap");
        wrong++;
        return;
    }
    memset(tail, 'A', READABLE);
    memcpy(tail, start, strlen(start));
    tail[FAULT] = '!';
    if (mprotect(tail + READABLE, TAIL - READABLE, PROT_NONE) != 0) {
        perror("mprotect");
        wrong++;
    }
    got = data_url_body_next(&state, tail, TAIL, out, TAIL);
    symbols += FAULT - strlen(start);
    if (got.status != DATA_URL_BASE64_UNEXPECTED_SYMBOL + '!' || got.len != symbols / 4 * 3) {
        printf("wrong: %s: status %u, %zu bytes\n", start, (unsigned)got.status, got.len);
        wrong++;
    }
    munmap(tail, TAIL);
    munmap(out, TAIL);
}

int main(void) {
    refuses("QUJD", 4);
    refuses("QUJD%51UJD", 8);
    refuses("%51UJD QUJD", 8);
    return wrong != 0;
}
