/* Calls two libraries that were made with the kit, in one program. The second has `other_` before the names of its
 * calls. */
#include "data_url.h"
#include <stdio.h>
#include <string.h>

struct data_url_answer other_data_url_body(const void *url, size_t len, void *out, size_t room);

int main(void) {
    const char *url = "data:text/plain;base64,SGVsbG8h#part";
    char body[64], other[64];
    struct data_url_answer got = data_url_body(url, strlen(url), body, sizeof body);
    struct data_url_answer again = other_data_url_body(url, strlen(url), other, sizeof other);
    if (got.status != DATA_URL_DONE || again.status != DATA_URL_DONE || got.len != again.len) return 1;
    if (memcmp(body, other, got.len) != 0) return 1;
    printf("%.*s, %zu bytes twice\n", (int)got.len, body, got.len);
}
