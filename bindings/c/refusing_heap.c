/* Memory over malloc of which an allocation can be refused, for the tests of each language. */
#include <stdbool.h>
#include <stdlib.h>

long p2p_test_until_refusal = -1; /* so many allocations still go through; none is refused below 0 */
long p2p_test_blocks = 0;         /* that are not given back */
size_t p2p_test_largest = 0;      /* the most bytes that were asked for at once */

typedef struct p2p_block {
    bool ok;
    void *at;
} p2p_block;

static char nowhere;

static bool is_refused(void) { return p2p_test_until_refusal >= 0 && p2p_test_until_refusal-- == 0; }

static p2p_block block_of(void *at) {
    p2p_block block = {at != NULL, at != NULL ? at : &nowhere};
    return block;
}

static void note(size_t size) {
    if (size > p2p_test_largest) p2p_test_largest = size;
}

p2p_block rattle_alloc(size_t size, size_t align) {
    note(size);
    if (is_refused()) return block_of(NULL);
    p2p_block block = block_of(malloc(size != 0 ? size : align));
    p2p_test_blocks += block.ok;
    return block;
}

p2p_block rattle_realloc(void *at, size_t kept, size_t size, size_t align) {
    (void)kept;
    note(size);
    return is_refused() ? block_of(NULL) : block_of(realloc(at, size != 0 ? size : align));
}

void rattle_dealloc(void *at) {
    p2p_test_blocks--;
    free(at);
}
