/* A file of its own of the test of memories: both files number their memories by the header's one counter. */
#include "partial.h"

uint32_t make_elsewhere(const uint64_t *initial, size_t components, partial_memory *memory);

/* Makes a memory of one port. */
uint32_t make_elsewhere(const uint64_t *initial, size_t components, partial_memory *memory)
{
    return partial_memory_new(initial, components, 1, memory);
}
