/* The heap of proved code: the kit's three functions over malloc, which its own archive has for x86-64 alone. */
#include <assert.h>
#include <stddef.h>
#include <stdint.h>
#include <stdlib.h>

struct tried { uint8_t is_made; void *at; };
static max_align_t nothing;

struct tried rattle_alloc(size_t size, size_t align) {
    assert(align <= _Alignof(max_align_t)); /* what malloc gives */
    void *at = malloc(size ? size : align);
    return (struct tried){at != NULL, at ? at : &nothing};
}

struct tried rattle_realloc(void *old, size_t kept, size_t size, size_t align) {
    assert(align <= _Alignof(max_align_t));
    (void)kept;
    void *at = realloc(old, size ? size : align);
    return (struct tried){at != NULL, at ? at : &nothing};
}

void rattle_dealloc(void *at) { free(at); }
