#include "data_url.h"
#include <stdio.h>
#include <string.h>

int main(void) {
    const char *url = "data:text/plain;base64,SGVsbG8h#part";
    char body[64];
    if (!data_url_is_supported()) {
        fputs("This processor is too old.\n", stderr);
        return 1;
    }
    struct data_url_answer got = data_url_body(url, strlen(url), body, sizeof body);
    if (got.status != DATA_URL_DONE) return 1;
    printf("%.*s, %zu bytes\n", (int)got.len, body, got.len);
}
