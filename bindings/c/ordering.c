/*
 * What an update publishes, for the thread sanitizer: `ordering applied` or `ordering lost`.
 *
 * In each round two threads update one component, side by side. The first has written a
 * cell before, by a plain store. Then it says how its update ended, by a relaxed atomic,
 * which orders nothing. The second looks at the component and reads the cell:
 *
 * - `applied`: when the update of the first thread was applied. What the component shows
 *   then is the value of that update, or a later one, so the store happens before the read,
 *   and nothing is reported.
 * - `lost`: when it was lost, and what the component shows is the update that overwrote it.
 *   A lost update publishes nothing, so the read is a race, and is reported.
 *
 * tests/ordering.sh and bindings/sanitize.sh build and run both. Without the sanitizer they
 * say how often the cell was read. The status is 2 when it never was.
 */
#include "partial.h"

#include <pthread.h>
#include <sched.h>
#include <stdio.h>
#include <stdlib.h>
#include <string.h>

enum { ROUNDS = 20000, APPLIED = 1, LOST = 2 };

static partial_port ports[2] = {PARTIAL_EMPTY, PARTIAL_EMPTY};
static uint64_t cells[ROUNDS];
static uint32_t ended[ROUNDS];
static uint64_t arrived;
static uint32_t wanted;
static uint64_t reads;

static void expect(int holds, const char *what)
{
    if (!holds) {
        fprintf(stderr, "ordering: failed: %s\n", what);
        exit(1);
    }
}

/* Waits until both threads have reached this round. */
static void meet(uint64_t round)
{
    __atomic_add_fetch(&arrived, 1, __ATOMIC_SEQ_CST);
    while (__atomic_load_n(&arrived, __ATOMIC_SEQ_CST) < 2 * (round + 1)) {
        sched_yield();
    }
}

/* The value that a thread gives the component in a round. */
static uint64_t value_of(uint64_t round, uint64_t thread)
{
    return 2 * round + thread + 1;
}

/* Updates the component, and returns how that ended. */
static uint32_t update(uint64_t round, uint64_t thread)
{
    partial_update_answer answer;
    expect(partial_port_update(&ports[thread], 0, value_of(round, thread), &answer) == 0,
           "an update is answered");
    return answer.applied ? APPLIED : LOST;
}

static void *write_cells(void *unused)
{
    for (uint64_t round = 0; round < ROUNDS; round++) {
        meet(round);
        cells[round] = round + 1;
        __atomic_store_n(&ended[round], update(round, 0), __ATOMIC_RELAXED);
    }
    return unused;
}

static void *read_cells(void *unused)
{
    for (uint64_t round = 0; round < ROUNDS; round++) {
        uint32_t how;
        partial_read_answer seen;
        meet(round);
        update(round, 1);
        while ((how = __atomic_load_n(&ended[round], __ATOMIC_RELAXED)) == 0) {
            sched_yield();
        }
        expect(partial_port_read(&ports[1], 0, &seen) == 0, "a read is answered");
        expect(seen.value == value_of(round, 1) ||
                   (how == APPLIED && seen.value == value_of(round, 0)),
               "the component shows an applied update of this round");
        if (how == wanted) {
            expect(cells[round] == round + 1, "the cell has its value");
            reads++;
        }
    }
    return unused;
}

int main(int count, char **words)
{
    const uint64_t initial = 0;
    partial_memory memory = PARTIAL_EMPTY;
    pthread_t threads[2];
    if (count != 2 || (strcmp(words[1], "applied") && strcmp(words[1], "lost"))) {
        fprintf(stderr, "usage: ordering applied|lost\n");
        return 1;
    }
    wanted = strcmp(words[1], "lost") ? APPLIED : LOST;
    expect(partial_memory_new(&initial, 1, 2, &memory) == 0, "a memory is made");
    for (int k = 0; k < 2; k++) {
        expect(partial_memory_take_port(&memory, &ports[k]) == 0, "a port is taken");
    }
    expect(!pthread_create(&threads[0], NULL, write_cells, NULL), "a thread starts");
    expect(!pthread_create(&threads[1], NULL, read_cells, NULL), "a thread starts");
    for (int k = 0; k < 2; k++) {
        expect(!pthread_join(threads[k], NULL), "a thread ends");
        partial_port_free(&ports[k]);
    }
    partial_memory_free(&memory);
    printf("%s: %llu of %d cells were read\n", words[1], (unsigned long long)reads, ROUNDS);
    return reads == 0 ? 2 : 0;
}
