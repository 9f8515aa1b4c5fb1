/* Producers that each fill and empty a queue of their own and publish its length, and a
 * thread that scans a few lengths as they stood together at one moment: it sees which of
 * two neighbours is longer, and that no queue ever has more than DEPTH entries. A word
 * says how many updates they make together; without one they make ten million.
 *
 *     cc -std=c11 -I bindings/c bindings/c/examples/producers.c LIBRARIES -pthread
 */
#include <partial.h>

#include <pthread.h>
#include <sched.h>
#include <stdatomic.h>
#include <stdint.h>
#include <stdio.h>
#include <stdlib.h>

enum { PRODUCERS = 4, DEPTH = 16, TRIES = 64 };

/* How many producers still make updates. */
static atomic_uint producing;

/* What a thread is given, and the first refusal of one of its calls, 0 when there is none. */
typedef struct work {
    partial_port port;
    uint32_t number;
    uint32_t refusal;
    uint64_t turns;
    uint64_t ties;
} work;

/* Whether an update is to be made again: it was refused for the moment, and fewer than TRIES
 * times so far. Other threads go on meanwhile. */
static int again(uint32_t refusal, int *tries)
{
    if (!partial_is_transient(refusal) || ++*tries == TRIES) {
        return 0;
    }
    sched_yield();
    return 1;
}

/* Fills a queue of DEPTH entries and empties it, by turns, and publishes each length. */
static void *produce(void *given)
{
    work *own = given;
    for (uint64_t turn = 1; turn <= own->turns && own->refusal == 0; turn++) {
        uint64_t at = turn % (2 * DEPTH);
        uint64_t length = at < DEPTH ? at : 2 * DEPTH - at;
        partial_update_answer answer;
        int tries = 0;
        do {
            own->refusal = partial_port_update(&own->port, own->number, length, &answer);
        } while (again(own->refusal, &tries));
    }
    atomic_fetch_sub(&producing, 1);
    return NULL;
}

/* Scans two neighbours at a time, and counts how often they were of one length. */
static void *watch(void *given)
{
    work *own = given;
    for (own->turns = 0; atomic_load(&producing) > 0 && own->refusal == 0; own->turns++) {
        uint32_t first = (uint32_t)(own->turns % PRODUCERS);
        const uint32_t which[2] = {first, (first + 1) % PRODUCERS};
        uint64_t lengths[2];
        partial_scan_answer answer;
        own->refusal = partial_port_scan(&own->port, which, 2, lengths, 2, &answer);
        if (own->refusal == 0 && (lengths[0] > DEPTH || lengths[1] > DEPTH)) {
            own->refusal = UINT32_MAX;
        }
        own->ties += own->refusal == 0 && lengths[0] == lengths[1];
    }
    return NULL;
}

/* Starts the threads, each with a port, and waits for them. Returns the first refusal. */
static uint32_t run(partial_memory *memory, work works[PRODUCERS + 1], uint64_t turns)
{
    pthread_t threads[PRODUCERS + 1];
    uint32_t refusal = 0;
    uint32_t started = 0;
    atomic_store(&producing, PRODUCERS);
    while (started <= PRODUCERS && refusal == 0) {
        work *own = &works[started];
        *own = (work){PARTIAL_EMPTY, started, 0, turns, 0};
        refusal = partial_memory_take_port(memory, &own->port);
        if (refusal == 0 && pthread_create(&threads[started], NULL, started < PRODUCERS ? produce : watch, own) != 0) {
            refusal = UINT32_MAX;
            partial_memory_give_port(memory, &own->port);
        }
        started += refusal == 0;
    }
    for (uint32_t number = 0; number < started; number++) {
        pthread_join(threads[number], NULL);
        uint32_t own = works[number].refusal;
        uint32_t given = partial_memory_give_port(memory, &works[number].port);
        refusal = refusal != 0 ? refusal : own != 0 ? own : given;
    }
    return refusal;
}

int main(int count, char **words)
{
    const uint64_t initial[PRODUCERS] = {0};
    const uint64_t updates = count > 1 ? strtoull(words[1], NULL, 10) : 10000000;
    const uint64_t turns = updates / PRODUCERS;
    partial_memory memory = PARTIAL_EMPTY;
    work works[PRODUCERS + 1];
    uint64_t lengths[PRODUCERS] = {0};
    uint32_t refusal = partial_memory_new(initial, PRODUCERS, PRODUCERS + 1, &memory);
    refusal = refusal != 0 ? refusal : run(&memory, works, turns);
    refusal = refusal != 0 ? refusal : partial_memory_close(&memory, lengths, PRODUCERS);
    partial_memory_free(&memory);
    if (refusal != 0) {
        printf("refused: %s (%u)\n", refusal == UINT32_MAX ? "a thread or a sum" : partial_text(refusal), (unsigned)refusal);
        return 1;
    }
    printf("%llu updates beside %llu scans; two neighbours were of one length in %llu\n",
           (unsigned long long)(turns * PRODUCERS), (unsigned long long)works[PRODUCERS].turns,
           (unsigned long long)works[PRODUCERS].ties);
    uint64_t at = turns % (2 * DEPTH);
    return lengths[0] != (at < DEPTH ? at : 2 * DEPTH - at);
}
