/* Calls each function of partial.h: refusals, null pointers, threads, and a memory that
 * is closed and opens again. Writes a line for each test that failed, and then the counts. */
#include "partial.h"

#include <pthread.h>
#include <stdio.h>
#include <string.h>

enum { WRITERS = 3, TURNS = 2000 };

static int passed;
static int failed;

static void check(int holds, const char *name)
{
    if (holds) {
        passed++;
    } else {
        failed++;
        printf("failed: %s\n", name);
    }
}

static const partial_sizes ample = {1000, 1000, 1000000};

/* Opens a memory, and takes out as many ports as there are handles. */
static int opened(const uint64_t *initial, size_t components,
                  const partial_sizes *sizes, partial_handle *memory,
                  partial_handle *ports, uint32_t count)
{
    uint32_t code = partial_opening_open(initial, components, sizes, count, memory);
    for (uint32_t k = 0; k < count && code == 0; k++) {
        code = partial_opening_take_port(memory, &ports[count - 1 - k]);
    }
    return code == 0;
}

static void test_one_port(void)
{
    const uint64_t initial[2] = {10, 20};
    partial_handle memory = PARTIAL_EMPTY;
    partial_handle port = PARTIAL_EMPTY;
    check(opened(initial, 2, &ample, &memory, &port, 1), "a memory opens");

    partial_read_answer before = {0, 0};
    check(partial_opening_read(&port, 1, &before) == 0 && before.value == 20, "a read gives the initial value");
    partial_update_answer set = {0, 0};
    check(partial_opening_update(&port, 1, 21, &set) == 0 && set.applied == 1, "an update alone is applied");
    partial_read_answer after = {0, 0};
    check(partial_opening_read(&port, 1, &after) == 0 && after.value == 21, "a read gives the value set");
    check(after.stamp == set.stamp && after.stamp != before.stamp, "a read gives the update's stamp");

    partial_update_answer late = {0, 0};
    check(partial_opening_update_if(&port, 1, before.stamp, 22, &late) == 0, "a conditional update is answered");
    check(late.applied == 0 && late.stamp == after.stamp, "it isn't applied at another stamp");
    check(partial_opening_update_if(&port, 1, after.stamp, 23, &late) == 0 && late.applied == 1,
          "it is applied at the expected stamp");

    const uint32_t which[3] = {1, 0, 1};
    uint64_t into[3] = {0, 0, 0};
    partial_scan_answer scanned = {9, 9, 9};
    check(partial_opening_scan(&port, which, 2, into, 2, &scanned) == 0, "a scan is answered");
    check(into[0] == 23 && into[1] == 10 && into[2] == 0, "a scan gives the values in its order");
    check(scanned.collects == 2 && scanned.borrowed == 0, "a scan alone makes two collects");
    check(partial_opening_free(&port) == 0 && port.held == NULL, "a freed handle is empty");
    check(partial_opening_close(&memory) == PARTIAL_IN_USE, "a memory isn't closed without its port");
    partial_opening_free(&memory);
}

/* The example of README.md. */
static void test_example(void)
{
    const uint64_t initial[3] = {10, 20, 30};
    const partial_sizes sizes = {.slots = 1000, .list_words = 1000, .pool_words = 100000};
    partial_handle memory = PARTIAL_EMPTY, port = PARTIAL_EMPTY;
    partial_update_answer set;
    partial_scan_answer scanned;
    uint64_t into[2];
    int fine = partial_opening_open(initial, 3, &sizes, 1, &memory) == 0 && partial_opening_take_port(&memory, &port) == 0
        && partial_opening_update(&port, 0, 11, &set) == 0
        && partial_opening_scan(&port, (const uint32_t[]){2, 0}, 2, into, 2, &scanned) == 0;
    check(fine, "the example is answered");
    check(fine && into[0] == 30 && into[1] == 11, "the example's scan gives the values in its order");
    partial_opening_free(&port);
    partial_opening_free(&memory);
}

static void test_refused_openings(void)
{
    const uint64_t initial[2] = {1, 2};
    partial_handle memory = PARTIAL_EMPTY;
    const partial_sizes no_slots = {0, 0, 100};
    const partial_sizes many_lists = {1, 65537, 100};
    const partial_sizes small_pool = {1, 0, 5};
    check(partial_opening_open(initial, 0, &ample, 1, &memory) == PARTIAL_COMPONENTS, "no component is refused");
    check(partial_opening_open(initial, 2, &no_slots, 1, &memory) == PARTIAL_SLOTS, "no slot is refused");
    check(partial_opening_open(initial, 2, &many_lists, 1, &memory) == PARTIAL_LIST_WORDS, "65537 list words are refused");
    check(partial_opening_open(initial, 2, &small_pool, 1, &memory) == PARTIAL_POOL_WORDS, "5 pool words are refused");
    check(partial_opening_open(initial, 2, &ample, 0, &memory) == PARTIAL_PORT_COUNT, "no port is refused");
    check(partial_opening_open(initial, 2, &ample, 65, &memory) == PARTIAL_PORT_COUNT, "65 ports are refused");
    check(memory.held == NULL, "a refused opening leaves the handle empty");
    check(partial_opening_open(initial, 2, &ample, 1, &memory) == 0, "a memory opens after refusals");
    void *held = memory.held;
    check(partial_opening_open(initial, 2, &ample, 1, &memory) == PARTIAL_HOLDS_ONE, "a handle in use is refused");
    check(memory.held == held, "and the handle is as it was");
    partial_opening_free(&memory);
}

static void test_refused_calls(void)
{
    const uint64_t initial[2] = {1, 2};
    const uint32_t which[3] = {0, 1, 2};
    uint64_t into[3] = {77, 77, 77};
    partial_handle none = PARTIAL_EMPTY;
    partial_handle spare = PARTIAL_EMPTY;
    partial_update_answer set = {5, 5};
    partial_read_answer read = {5, 5};
    partial_scan_answer scanned = {5, 5, 5};
    check(partial_opening_update(&none, 0, 1, &set) == PARTIAL_HOLDS_NONE, "an update at no port is refused");
    check(partial_opening_update_if(&none, 0, 0, 1, &set) == PARTIAL_HOLDS_NONE, "a conditional one too");
    check(partial_opening_read(&none, 0, &read) == PARTIAL_HOLDS_NONE, "a read at no port is refused");
    check(partial_opening_scan(&none, which, 1, into, 1, &scanned) == PARTIAL_HOLDS_NONE, "a scan at no port is refused");
    check(partial_opening_take_port(&none, &spare) == PARTIAL_HOLDS_NONE, "no memory has no port");
    check(partial_opening_close(&none) == PARTIAL_HOLDS_NONE, "an empty handle isn't closed");
    check(partial_opening_values(&none, into, 3) == PARTIAL_HOLDS_NONE, "an empty handle has no values");

    partial_handle memory = PARTIAL_EMPTY;
    partial_handle port = PARTIAL_EMPTY;
    check(opened(initial, 2, &ample, &memory, &port, 1), "a memory of two components opens");
    check(partial_opening_take_port(&memory, &none) == PARTIAL_NONE_FREE, "there is no second port");
    check(partial_opening_take_port(&memory, &port) == PARTIAL_HOLDS_ONE, "a handle in use takes no port");
    check(partial_opening_read(&memory, 0, &read) == PARTIAL_HOLDS_NONE, "a memory is no port");
    check(partial_opening_scan(&port, which, 2, into, 1, &scanned) == PARTIAL_LENGTH, "less room than positions is refused");
    check(partial_opening_scan(&port, which, 1, into, 2, &scanned) == PARTIAL_LENGTH, "more room than positions is refused");
    check(partial_opening_scan(&port, which, 3, into, 3, &scanned) == PARTIAL_LENGTH, "more positions than components are refused");
    check(partial_opening_scan(&port, which + 1, 2, into, 2, &scanned) == PARTIAL_COMPONENT, "a scan past the end is refused");
    check(into[0] == 77 && into[1] == 77 && scanned.collects == 5, "a refused scan leaves the caller's values");
    check(partial_opening_update(&port, 2, 1, &set) == PARTIAL_COMPONENT && set.stamp == 5, "an update past the end is refused");
    check(partial_opening_read(&port, 2, &read) == PARTIAL_COMPONENT && read.value == 5, "a read past the end is refused");
    partial_opening_free(&port);
    partial_opening_free(&memory);
}

static void test_spent_pool(void)
{
    const uint64_t initial[1] = {1};
    const uint32_t which[1] = {0};
    const partial_sizes small = {1, 0, 8};
    uint64_t into[1] = {0};
    partial_handle memory = PARTIAL_EMPTY;
    partial_handle port = PARTIAL_EMPTY;
    partial_update_answer set = {0, 0};
    partial_scan_answer scanned = {0, 0, 0};
    check(opened(initial, 1, &small, &memory, &port, 1), "a small memory opens");
    check(partial_opening_update(&port, 0, 2, &set) == 0, "there is room for an update");
    check(partial_opening_scan(&port, which, 1, into, 1, &scanned) == 0 && into[0] == 2, "and for a scan");
    check(partial_opening_update(&port, 0, 3, &set) == PARTIAL_POOL_SPENT, "but for no more");
    partial_opening_free(&port);
    partial_opening_free(&memory);
}

static void test_close(void)
{
    const uint64_t initial[2] = {1, 2};
    partial_handle memory = PARTIAL_EMPTY;
    partial_handle other_memory = PARTIAL_EMPTY;
    partial_handle ports[2] = {PARTIAL_EMPTY, PARTIAL_EMPTY};
    partial_handle other = PARTIAL_EMPTY;
    partial_update_answer set = {0, 0};
    partial_read_answer read = {0, 0};
    check(opened(initial, 2, &ample, &memory, ports, 2), "two ports open");
    check(opened(initial, 2, &ample, &other_memory, &other, 1), "another memory opens");
    check(partial_opening_meet(&ports[0], &ports[1]) == 0, "two ports of a memory meet");
    check(partial_opening_meet(&ports[0], &other) == PARTIAL_TWO_MEMORIES, "ports of two memories don't");
    check(partial_opening_update(&ports[0], 0, 11, &set) == 0, "port 0 updates");
    check(partial_opening_update(&ports[1], 1, 22, &set) == 0, "port 1 updates");

    check(partial_opening_give_port(&memory, &other) == PARTIAL_TWO_MEMORIES, "a port of another memory isn't returned");
    check(partial_opening_read(&other, 0, &read) == 0 && read.value == 1, "and is as it was");
    check(partial_opening_give_port(&memory, &ports[1]) == 0 && ports[1].held == NULL, "a port is returned");
    check(partial_opening_give_port(&memory, &ports[1]) == PARTIAL_HOLDS_NONE, "an empty handle doesn't");
    check(partial_opening_close(&memory) == PARTIAL_IN_USE, "one of two ports isn't enough");
    check(partial_opening_read(&ports[0], 1, &read) == 0 && read.value == 22, "a refused close loses nothing");
    check(partial_opening_give_port(&memory, &ports[0]) == 0, "the other port is returned");
    check(partial_opening_close(&memory) == 0, "all ports are returned, and the memory is closed");
    uint64_t values[3] = {5, 5, 5};
    check(partial_opening_values(&memory, values, 3) == PARTIAL_LENGTH && values[0] == 5, "room for three is refused");
    check(partial_opening_values(&memory, values, 2) == 0, "the values are given");
    check(values[0] == 11 && values[1] == 22, "they are those of the updates");
    check(partial_opening_close(&memory) == PARTIAL_HOLDS_NONE, "a closed memory isn't closed again");

    partial_opening_free(&memory);
    partial_opening_free(&other);
    partial_opening_free(&other_memory);
}

static void test_reopen(void)
{
    const uint64_t initial[2] = {1, 2};
    partial_handle memory = PARTIAL_EMPTY;
    partial_handle again = PARTIAL_EMPTY;
    partial_handle port = PARTIAL_EMPTY;
    const partial_sizes small_pool = {1, 0, 8};
    partial_update_answer set = {0, 0};
    check(partial_opening_reopen(&memory, 2, &ample, 1, &again) == PARTIAL_HOLDS_NONE, "an empty handle isn't reopened");
    check(opened(initial, 2, &ample, &memory, &port, 1), "a memory opens to be closed");
    check(partial_opening_reopen(&memory, 2, &ample, 1, &again) == PARTIAL_HOLDS_NONE, "an open memory isn't reopened");
    check(partial_opening_update(&port, 1, 22, &set) == 0, "its port updates");
    check(partial_opening_give_port(&memory, &port) == 0 && partial_opening_close(&memory) == 0, "it closes");

    check(partial_opening_reopen(&memory, 0, &ample, 1, &again) == PARTIAL_COMPONENTS, "no component is refused again");
    check(partial_opening_reopen(&memory, 3, &small_pool, 1, &again) == PARTIAL_POOL_WORDS, "and so is a small pool");
    check(partial_opening_reopen(&memory, 2, &ample, 65, &again) == PARTIAL_PORT_COUNT, "and 65 ports");
    check(partial_opening_reopen(&memory, 1, &ample, 1, &again) == PARTIAL_TOO_SMALL, "one of two components is too few");
    check(again.held == NULL, "a refused reopening leaves the handle empty");
    check(partial_opening_reopen(&memory, 3, &ample, 1, &again) == 0, "a closed memory opens again");
    check(partial_opening_reopen(&memory, 3, &ample, 1, &again) == PARTIAL_HOLDS_ONE, "but not into a handle in use");

    const uint32_t which[3] = {0, 1, 2};
    uint64_t into[3] = {9, 9, 9};
    partial_scan_answer scanned = {0, 0, 0};
    check(partial_opening_take_port(&again, &port) == 0, "it has a port");
    check(partial_opening_scan(&port, which, 3, into, 3, &scanned) == 0, "which scans");
    check(into[0] == 1 && into[1] == 22 && into[2] == 0, "it goes on with the values, and a zero after them");
    uint64_t values[2] = {0, 0};
    check(partial_opening_values(&memory, values, 2) == 0 && values[1] == 22, "the closed memory stays");
    partial_opening_free(&port);
    partial_opening_free(&again);
    partial_opening_free(&memory);
}

static void test_state(void)
{
    const uint64_t initial[1] = {1};
    const uint32_t which[1] = {0};
    const partial_sizes few_slots = {1, 0, 100};
    uint64_t into[1] = {0};
    partial_handle memory = PARTIAL_EMPTY;
    partial_handle ports[3] = {PARTIAL_EMPTY, PARTIAL_EMPTY, PARTIAL_EMPTY};
    partial_port_state state = {7, 7, 7};
    partial_scan_answer scanned = {0, 0, 0};
    partial_update_answer set = {0, 0};
    check(partial_opening_state(&ports[0], &state) == PARTIAL_HOLDS_NONE && state.number == 7, "no port has no state");
    check(opened(initial, 1, &few_slots, &memory, ports, 3), "three ports open");
    check(partial_opening_state(&memory, &state) == PARTIAL_HOLDS_NONE && state.number == 7, "a memory has no port's state");
    for (uint32_t k = 0; k < 3; k++) {
        check(partial_opening_state(&ports[k], &state) == 0 && state.number == k, "a port knows its number");
        check(state.pool_spent == 0 && state.slots_spent == 0, "a new port has no mark");
    }
    check(partial_opening_scan(&ports[1], which, 1, into, 1, &scanned) == 0, "the one slot serves a scan");
    check(partial_opening_scan(&ports[1], which, 1, into, 1, &scanned) == PARTIAL_SLOTS_SPENT, "and no other");
    check(partial_opening_state(&ports[1], &state) == 0 && state.slots_spent == 1 && state.pool_spent == 0, "the port is marked for the slots");
    uint32_t code = 0;
    for (int turn = 0; turn < 100 && code == 0; turn++) {
        code = partial_opening_update(&ports[2], 0, 5, &set);
    }
    check(code == PARTIAL_POOL_SPENT, "a pool ends");
    check(partial_opening_state(&ports[2], &state) == 0 && state.pool_spent == 1 && state.slots_spent == 0, "the port is marked for the pool");
    for (uint32_t k = 0; k < 3; k++) {
        partial_opening_free(&ports[k]);
    }
    partial_opening_free(&memory);
}

static void test_null(void)
{
    const uint64_t initial[1] = {1};
    const uint32_t which[1] = {0};
    uint64_t into[1] = {7};
    partial_handle memory = PARTIAL_EMPTY;
    partial_handle port = PARTIAL_EMPTY;
    partial_handle spare = PARTIAL_EMPTY;
    partial_update_answer set = {0, 0};
    partial_read_answer read = {0, 0};
    partial_scan_answer scanned = {9, 9, 9};
    partial_port_state state = {0, 0, 0};
    check(partial_opening_open(NULL, 1, &ample, 1, &memory) == PARTIAL_NULL, "null values are refused");
    check(partial_opening_open(initial, 1, NULL, 1, &memory) == PARTIAL_NULL, "null sizes are refused");
    check(partial_opening_open(initial, 1, &ample, 1, NULL) == PARTIAL_NULL, "a null handle opens nothing");
    check(partial_opening_open(NULL, 0, &ample, 1, &memory) == PARTIAL_COMPONENTS, "no values may be at null");
    check(opened(initial, 1, &ample, &memory, &port, 1), "a memory opens after null pointers");
    check(partial_opening_meet(&port, &port) == PARTIAL_SAME, "a port doesn't meet itself");
    check(partial_opening_take_port(&memory, &memory) == PARTIAL_SAME, "a memory takes no port into its own handle");
    check(partial_opening_give_port(&memory, &memory) == PARTIAL_SAME, "nor is it given to itself");
    check(partial_opening_reopen(&memory, 1, &ample, 1, &memory) == PARTIAL_SAME, "nor reopened there");
    check(partial_opening_state(&port, &state) == 0 && state.number == 0, "and the port is as it was");
    check(partial_opening_reopen(NULL, 1, &ample, 1, &spare) == PARTIAL_NULL, "null isn't reopened");
    check(partial_opening_reopen(&memory, 1, NULL, 1, &spare) == PARTIAL_NULL, "nor with null sizes");
    check(partial_opening_reopen(&memory, 1, &ample, 1, NULL) == PARTIAL_NULL, "nor into null");
    check(partial_opening_take_port(NULL, &spare) == PARTIAL_NULL, "null has no port");
    check(partial_opening_take_port(&memory, NULL) == PARTIAL_NULL, "null takes no port");
    check(partial_opening_give_port(NULL, &port) == PARTIAL_NULL, "a port isn't returned to null");
    check(partial_opening_give_port(&memory, NULL) == PARTIAL_NULL, "nor null to a memory");
    check(partial_opening_update(NULL, 0, 1, &set) == PARTIAL_NULL, "null isn't updated");
    check(partial_opening_update(&port, 0, 1, NULL) == PARTIAL_NULL, "an update answers not to null");
    check(partial_opening_update_if(NULL, 0, 0, 1, &set) == PARTIAL_NULL, "nor is it conditionally");
    check(partial_opening_update_if(&port, 0, 0, 1, NULL) == PARTIAL_NULL, "which answers not to null");
    check(partial_opening_read(NULL, 0, &read) == PARTIAL_NULL, "null isn't read");
    check(partial_opening_read(&port, 0, NULL) == PARTIAL_NULL, "a read answers not to null");
    check(partial_opening_scan(NULL, which, 1, into, 1, &scanned) == PARTIAL_NULL, "null isn't scanned");
    check(partial_opening_scan(&port, NULL, 1, into, 1, &scanned) == PARTIAL_NULL, "null has no positions");
    check(partial_opening_scan(&port, which, 1, NULL, 1, &scanned) == PARTIAL_NULL, "null has no room");
    check(partial_opening_scan(&port, which, 1, into, 1, NULL) == PARTIAL_NULL, "a scan answers not to null");
    check(into[0] == 7 && scanned.collects == 9, "refused scans leave the caller's values");
    check(partial_opening_scan(&port, NULL, 0, NULL, 0, &scanned) == 0 && scanned.collects == 0, "no positions may be at null");
    check(partial_opening_scan(&port, NULL, 0, into, 1, &scanned) == PARTIAL_LENGTH, "but not beside room for one");
    check(partial_opening_state(NULL, &state) == PARTIAL_NULL, "null has no state");
    check(partial_opening_state(&port, NULL) == PARTIAL_NULL, "a state isn't given to null");
    check(partial_opening_meet(NULL, &port) == PARTIAL_NULL, "null meets no port");
    check(partial_opening_meet(&port, NULL) == PARTIAL_NULL, "and no port meets null");
    check(partial_opening_close(NULL) == PARTIAL_NULL, "null isn't closed");
    check(partial_opening_values(NULL, into, 1) == PARTIAL_NULL, "null has no values");
    check(partial_opening_values(&memory, NULL, 1) == PARTIAL_NULL, "values aren't copied to null");
    check(partial_opening_values(&memory, NULL, 0) == PARTIAL_HOLDS_NONE, "where there is no room, null is none");
    check(partial_opening_free(NULL) == PARTIAL_NULL, "null isn't freed");
    check(partial_opening_read(&port, 0, &read) == 0 && read.value == 1, "and the memory is as it was");
    partial_opening_free(&port);
    partial_opening_free(&memory);
}

/* Each writer sets its own component to 1, 2 and so on; the scanner's values never fall. */
typedef struct work {
    partial_handle *port;
    uint32_t component;
    int refused;
    int fell;
} work;

static void *write_turns(void *at)
{
    work *mine = at;
    partial_update_answer set = {0, 0};
    for (uint64_t value = 1; value <= TURNS; value++) {
        mine->refused += partial_opening_update(mine->port, mine->component, value, &set) != 0;
        mine->refused += set.applied != 1;
    }
    return NULL;
}

static void *scan_turns(void *at)
{
    work *mine = at;
    const uint32_t which[WRITERS] = {0, 1, 2};
    uint64_t last[WRITERS] = {0, 0, 0};
    uint64_t into[WRITERS] = {0, 0, 0};
    partial_scan_answer scanned = {0, 0, 0};
    for (int turn = 0; turn < TURNS / 2; turn++) {
        mine->refused += partial_opening_scan(mine->port, which, WRITERS, into, WRITERS, &scanned) != 0;
        for (int k = 0; k < WRITERS; k++) {
            mine->fell += into[k] < last[k];
            last[k] = into[k];
        }
    }
    return NULL;
}

static void test_threads(void)
{
    const uint64_t initial[WRITERS] = {0, 0, 0};
    const partial_sizes sizes = {65536, 65536, 4194304};
    partial_handle ports[WRITERS + 1];
    pthread_t threads[WRITERS + 1];
    work works[WRITERS + 1];
    memset(ports, 0, sizeof ports);
    partial_handle memory = PARTIAL_EMPTY;
    check(opened(initial, WRITERS, &sizes, &memory, ports, WRITERS + 1), "four ports open");
    int started = 0;
    for (uint32_t k = 0; k <= WRITERS; k++) {
        works[k] = (work){&ports[k], k, 0, 0};
        void *(*body)(void *) = k < WRITERS ? write_turns : scan_turns;
        started += pthread_create(&threads[k], NULL, body, &works[k]) == 0;
    }
    check(started == WRITERS + 1, "four threads start");
    int refused = 0;
    for (int k = 0; k <= WRITERS; k++) {
        pthread_join(threads[k], NULL);
        refused += works[k].refused;
    }
    check(refused == 0, "each update of its own component is applied, each scan answered");
    check(works[WRITERS].fell == 0, "no value falls from scan to scan");

    int returned = 0;
    for (int k = 0; k <= WRITERS; k++) {
        returned += partial_opening_give_port(&memory, &ports[k]) == 0;
    }
    check(returned == WRITERS + 1, "the ports are returned after the threads");
    uint64_t values[WRITERS] = {0, 0, 0};
    check(partial_opening_close(&memory) == 0, "the memory closes");
    check(partial_opening_values(&memory, values, WRITERS) == 0, "its values are given");
    check(values[0] == TURNS && values[1] == TURNS && values[2] == TURNS, "they are the last ones set");
    partial_opening_free(&memory);
}

int main(void)
{
    test_one_port();
    test_example();
    test_refused_openings();
    test_refused_calls();
    test_spent_pool();
    test_close();
    test_reopen();
    test_state();
    test_null();
    test_threads();
    printf("%d passed, %d failed\n", passed, failed);
    return failed != 0;
}
