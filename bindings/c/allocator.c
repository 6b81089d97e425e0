/* The allocator that the proved calls use, over the C library's. A request for 0 bytes is one for `align` bytes, so
 * that no pointer is null; after a failure the pointer is to a byte that nobody uses. */
#include <stddef.h>

void *malloc(size_t size);
void *realloc(void *block, size_t size);
void free(void *block);

struct given {
    unsigned long is_given;
    void *block;
};

static char nothing;

static struct given given(void *block) {
    struct given it = {block != NULL, block != NULL ? block : &nothing};
    return it;
}

struct given rattle_alloc(size_t size, size_t align) { return given(malloc(size != 0 ? size : align)); }

struct given rattle_realloc(void *block, size_t kept, size_t size, size_t align) {
    (void)kept;
    return given(realloc(block, size != 0 ? size : align));
}

void rattle_dealloc(void *block) { free(block); }
