/* Memory for the library, from the C library, as C or as C++. Where a program has an allocator of its own, it
 * defines these three over that: blocks aligned to 16, and `ok` false where there is no memory. */
#include <stdbool.h>
#include <stdlib.h>

#ifdef __cplusplus
extern "C" {
#endif

typedef struct p2p_block {
    bool ok;
    void *at;
} p2p_block;

static char nowhere;

static p2p_block block_of(void *at) {
    p2p_block block = {at != NULL, at != NULL ? at : &nowhere};
    return block;
}

p2p_block rattle_alloc(size_t size, size_t align) { return block_of(malloc(size != 0 ? size : align)); }

p2p_block rattle_realloc(void *at, size_t kept, size_t size, size_t align) {
    (void)kept;
    return block_of(realloc(at, size != 0 ? size : align));
}

void rattle_dealloc(void *at) { free(at); }

#ifdef __cplusplus
}
#endif
