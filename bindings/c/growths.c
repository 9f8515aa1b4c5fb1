/* Refuses in turn each growth of each call of partial.h that may want memory: the call
 * answers 6, its handles are as the header says, and what is left over is freed. Writes a
 * line for each test that failed, and then the counts. */
#include "partial.h"

#include <errno.h>
#include <stdio.h>
#include <stdlib.h>

/* The C library's own, under the names that it keeps for those who stand in front of it. */
void *__libc_malloc(size_t size);
void *__libc_realloc(void *block, size_t size);
void __libc_free(void *block);

static int passed;
static int failed;

/* How many blocks are there, how often memory was asked for since `refuse`, and which of these is refused. */
static long blocks;
static long asked;
static long refused;

static int is_refused(void)
{
    if (++asked != refused) {
        return 0;
    }
    errno = ENOMEM;
    return 1;
}

void *malloc(size_t size)
{
    void *block = is_refused() ? NULL : __libc_malloc(size);
    blocks += block != NULL;
    return block;
}

void *realloc(void *block, size_t size)
{
    if (is_refused()) {
        return NULL;
    }
    void *moved = __libc_realloc(block, size);
    blocks += block == NULL && moved != NULL;
    return moved;
}

void free(void *block)
{
    blocks -= block != NULL;
    __libc_free(block);
}

static void check(int holds, const char *name, long growth)
{
    if (holds) {
        passed++;
    } else {
        failed++;
        printf("failed: %s, growth %ld\n", name, growth);
    }
}

static void refuse(long growth)
{
    asked = 0;
    refused = growth;
}

static const partial_sizes sizes = {8, 8, 200};
static const uint64_t initial[2] = {3, 4};

static int reads(partial_handle *port, uint64_t value)
{
    partial_read_answer answer = {0, 0};
    return partial_opening_read(port, 1, &answer) == 0 && answer.value == value;
}

/* Each of these makes its call once with that growth refused, and returns whether it was answered. */

static int open_without(long growth)
{
    partial_handle memory = PARTIAL_EMPTY;
    refuse(growth);
    uint32_t code = partial_opening_open(initial, 2, &sizes, 3, &memory);
    refuse(0);
    check(code == 0 || code == PARTIAL_OUT_OF_MEMORY, "an opening is answered or refused for memory", growth);
    check((code == 0) == (memory.held != NULL), "a refused opening leaves the handle empty", growth);
    partial_opening_free(&memory);
    return code == 0;
}

static int take_without(long growth)
{
    partial_handle memory = PARTIAL_EMPTY;
    partial_handle port = PARTIAL_EMPTY;
    partial_opening_open(initial, 2, &sizes, 1, &memory);
    refuse(growth);
    uint32_t code = partial_opening_take_port(&memory, &port);
    refuse(0);
    check(code == 0 || code == PARTIAL_OUT_OF_MEMORY, "a port is taken or refused for memory", growth);
    check((code == 0) == (port.held != NULL), "a refused taking leaves the handle empty", growth);
    if (code != 0) {
        check(partial_opening_take_port(&memory, &port) == 0, "and the port in its memory", growth);
    }
    check(reads(&port, 4), "the port reads", growth);
    partial_opening_free(&port);
    partial_opening_free(&memory);
    return code == 0;
}

static int give_without(long growth)
{
    partial_handle memory = PARTIAL_EMPTY;
    partial_handle port = PARTIAL_EMPTY;
    partial_opening_open(initial, 2, &sizes, 1, &memory);
    partial_opening_take_port(&memory, &port);
    refuse(growth);
    uint32_t code = partial_opening_give_port(&memory, &port);
    refuse(0);
    check(code == 0 || code == PARTIAL_OUT_OF_MEMORY, "a port is returned or refused for memory", growth);
    if (code != 0) {
        check(reads(&port, 4), "a refused port is as it was", growth);
        check(partial_opening_give_port(&memory, &port) == 0, "and is returned then", growth);
    }
    check(partial_opening_close(&memory) == 0, "the memory closes", growth);
    partial_opening_free(&memory);
    return code == 0;
}

static int close_without(long growth)
{
    partial_handle memory = PARTIAL_EMPTY;
    partial_opening_open(initial, 2, &sizes, 2, &memory);
    refuse(growth);
    uint32_t code = partial_opening_close(&memory);
    refuse(0);
    check(code == 0 || code == PARTIAL_OUT_OF_MEMORY, "a memory closes or is refused for memory", growth);
    check((code == 0) == (memory.held != NULL), "a lost memory leaves the handle empty", growth);
    partial_opening_free(&memory);
    return code == 0;
}

static int reopen_without(long growth)
{
    partial_handle memory = PARTIAL_EMPTY;
    partial_handle again = PARTIAL_EMPTY;
    uint64_t values[2] = {0, 0};
    partial_opening_open(initial, 2, &sizes, 1, &memory);
    partial_opening_close(&memory);
    refuse(growth);
    uint32_t code = partial_opening_reopen(&memory, 3, &sizes, 2, &again);
    refuse(0);
    check(code == 0 || code == PARTIAL_OUT_OF_MEMORY, "a memory reopens or is refused for memory", growth);
    check((code == 0) == (again.held != NULL), "a refused reopening leaves the handle empty", growth);
    check(partial_opening_values(&memory, values, 2) == 0 && values[1] == 4, "and the closed memory", growth);
    partial_opening_free(&again);
    partial_opening_free(&memory);
    return code == 0;
}

/* The same for long-lived memories. */

static const partial_arena arena = {8, 64};

static int new_without(long growth)
{
    partial_memory memory = PARTIAL_EMPTY;
    refuse(growth);
    uint32_t code = partial_memory_new_with(initial, 2, 3, &arena, &memory);
    refuse(0);
    check(code == 0 || code == PARTIAL_OUT_OF_MEMORY, "a memory is made or refused for memory", growth);
    check((code == 0) == (memory.held != NULL), "a refused making leaves the handle empty", growth);
    partial_memory_free(&memory);
    return code == 0;
}

static int take_long_without(long growth)
{
    partial_memory memory = PARTIAL_EMPTY;
    partial_port port = PARTIAL_EMPTY;
    partial_read_answer answer = {0, 0};
    partial_memory_new_with(initial, 2, 1, &arena, &memory);
    refuse(growth);
    uint32_t code = partial_memory_take_port(&memory, &port);
    refuse(0);
    check(code == 0 || code == PARTIAL_OUT_OF_MEMORY, "a memory's port is taken or refused for memory", growth);
    check((code == 0) == (port.held != NULL), "a refused taking leaves the handle of the port empty", growth);
    if (code != 0) {
        check(partial_memory_take_port(&memory, &port) == 0, "and the port in the memory", growth);
    }
    check(partial_port_read(&port, 1, &answer) == 0 && answer.value == 4, "the memory's port reads", growth);
    partial_port_free(&port);
    partial_memory_free(&memory);
    return code == 0;
}

static int give_long_without(long growth)
{
    partial_memory memory = PARTIAL_EMPTY;
    partial_port port = PARTIAL_EMPTY;
    uint64_t values[2] = {0, 0};
    partial_memory_new_with(initial, 2, 1, &arena, &memory);
    partial_memory_take_port(&memory, &port);
    refuse(growth);
    uint32_t code = partial_memory_give_port(&memory, &port);
    refuse(0);
    check(code == 0 || code == PARTIAL_OUT_OF_MEMORY, "a port is returned or refused for memory", growth);
    if (code != 0) {
        check(partial_memory_give_port(&memory, &port) == 0, "a refused port is returned then", growth);
    }
    check(partial_memory_close(&memory, values, 2) == 0 && values[1] == 4, "its memory closes", growth);
    return code == 0;
}

static int close_long_without(long growth)
{
    partial_memory memory = PARTIAL_EMPTY;
    partial_port port = PARTIAL_EMPTY;
    uint64_t values[2] = {5, 5};
    partial_memory_new_with(initial, 2, 2, &arena, &memory);
    refuse(growth);
    uint32_t code = partial_memory_close(&memory, values, 2);
    refuse(0);
    check(code == 0 || code == PARTIAL_OUT_OF_MEMORY, "a memory is closed or refused for memory", growth);
    check((code == 0) == (memory.held == NULL), "a refused close loses nothing", growth);
    if (code != 0) {
        check(values[0] == 5 && values[1] == 5, "and leaves the caller's values", growth);
        check(partial_memory_take_port(&memory, &port) == PARTIAL_HOLDS_NONE, "the memory gives out no port then", growth);
        check(partial_memory_close(&memory, values, 1) == PARTIAL_LENGTH, "and isn't closed into other room", growth);
        check(partial_memory_close(&memory, values, 2) == 0, "but is closed later", growth);
    }
    check(values[0] == 3 && values[1] == 4, "its values are given", growth);
    return code == 0;
}

/* Frees a memory whose close was refused. */
static int free_long_without(long growth)
{
    partial_memory memory = PARTIAL_EMPTY;
    uint64_t values[2] = {5, 5};
    partial_memory_new_with(initial, 2, 2, &arena, &memory);
    refuse(growth);
    uint32_t code = partial_memory_close(&memory, values, 2);
    refuse(0);
    partial_memory_free(&memory);
    check(memory.held == NULL, "a memory is freed after its close", growth);
    return code == 0;
}

/* Refuses each growth of a call, until the call is answered. */
static void each_growth(int (*made_without)(long), const char *name)
{
    long before = blocks;
    long growth = 1;
    while (growth < 100 && !made_without(growth)) {
        growth++;
    }
    check(growth > 1 && growth < 100, name, growth);
    check(blocks == before, "each block is freed", growth);
}

int main(void)
{
    each_growth(open_without, "an opening takes memory");
    each_growth(take_without, "taking a port takes memory");
    each_growth(close_without, "a close takes memory");
    each_growth(reopen_without, "a reopening takes memory");
    /* The list of returned ports has room for a port that was taken out of it. */
    check(give_without(1), "a port is returned without a growth", 1);
    each_growth(new_without, "making a memory takes memory");
    each_growth(take_long_without, "taking a memory's port takes memory");
    each_growth(close_long_without, "closing a memory takes memory");
    each_growth(free_long_without, "a memory is freed whose close was refused");
    check(give_long_without(1), "a memory's port is returned without a growth", 1);
    printf("%d passed, %d failed\n", passed, failed);
    return failed != 0;
}
