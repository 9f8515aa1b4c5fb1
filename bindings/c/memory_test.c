/* Calls each function of partial.h for long-lived memories: refusals, null
 * pointers, and threads over many epochs. Writes a line for each test that failed, and
 * then the counts. */
#include "partial.h"

#include <pthread.h>
#include <stdio.h>
#include <string.h>

enum { WRITERS = 3, TURNS = 20000 };

static int passed;
static int failed;

static void check(int holds, const char *name)
{
    if (holds) {
        passed++;
    } else {
        failed++;
        printf("failed: %s\n", name);
    }
}

/* In elsewhere.c. */
uint32_t make_elsewhere(const uint64_t *initial, size_t components, partial_memory *memory);

/* Arenas so small that the epoch changes every few calls. */
static const partial_arena tiny = {4, 16};

/* Makes a memory, and takes out as many ports as there are handles. */
static int made(const uint64_t *initial, size_t components, const partial_arena *arena,
                partial_memory *memory, partial_port *ports, uint32_t count)
{
    uint32_t code = partial_memory_new_with(initial, components, count, arena, memory);
    for (uint32_t k = 0; k < count && code == 0; k++) {
        code = partial_memory_take_port(memory, &ports[count - 1 - k]);
    }
    return code == 0;
}

/* The example of README.md. */
static void test_example(void)
{
    const uint64_t initial[3] = {10, 20, 30};
    partial_memory memory = PARTIAL_EMPTY;
    partial_port port = PARTIAL_EMPTY;
    partial_update_answer set;
    partial_scan_answer scanned;
    uint64_t into[2];
    int fine = partial_memory_new(initial, 3, 64, &memory) == 0
        && partial_memory_take_port(&memory, &port) == 0
        && partial_port_update(&port, 0, 11, &set) == 0
        && partial_port_scan(&port, (const uint32_t[]){2, 0}, 2, into, 2, &scanned) == 0;
    check(fine, "the example is answered");
    check(fine && into[0] == 30 && into[1] == 11, "the example's scan gives the values in its order");
    partial_port_free(&port);
    partial_memory_free(&memory);
}

/* The port is alone, and component 0 of its memory holds 10, component 1 holds 22. */
static void check_stamped_scan(partial_port *port)
{
    const uint32_t which[3] = {1, 0, 1};
    partial_read_answer reads[2] = {{0, 0}, {0, 0}};
    int read = partial_port_read(port, 0, &reads[0]) == 0 && partial_port_read(port, 1, &reads[1]) == 0;
    uint64_t into[3] = {5, 5, 5};
    uint64_t stamps[3] = {6, 6, 6};
    partial_scan_answer given = {9, 9, 9};
    check(partial_port_scan_stamped(port, which, 2, into, 2, stamps, 2, &given) == 0, "a scan alone gives stamps");
    check(given.collects == 2 && given.borrowed == 0 && given.stamp == 0, "by two collects and no view");
    check(into[0] == 22 && into[1] == 10 && into[2] == 5, "its values are in its order");
    check(read && stamps[0] == reads[1].stamp && stamps[1] == reads[0].stamp && stamps[2] == 6, "with the stamps of reads");
    uint32_t same = 9;
    check(partial_port_unchanged(port, which, 2, stamps, 2, &same) == 0 && same == 1, "which the components have still");
    partial_update_answer set = {0, 0};
    check(partial_port_update_if(port, 1, stamps[0], 24, &set) == 0 && set.applied == 1, "and which an update may expect");
    check(partial_port_scan_stamped(port, which, 2, into, 2, stamps, 2, &given) == 0 && given.borrowed == 0, "another scan gives stamps");
    check(into[0] == 24 && stamps[0] == set.stamp && stamps[1] == reads[0].stamp, "the update's among them");
    check(partial_port_scan_stamped(port, NULL, 0, NULL, 0, NULL, 0, &given) == 0 && given.collects == 0, "a scan of no position is one");
}

static void test_one_port(void)
{
    const uint64_t initial[2] = {10, 20};
    partial_memory memory = PARTIAL_EMPTY;
    partial_port port = PARTIAL_EMPTY;
    check(partial_memory_new(initial, 2, 1, &memory) == 0, "a memory is made");
    check(partial_memory_take_port(&memory, &port) == 0, "it has a port");

    partial_read_answer before = {0, 0};
    check(partial_port_read(&port, 1, &before) == 0 && before.value == 20, "a read gives the initial value");
    partial_update_answer set = {0, 0};
    check(partial_port_update(&port, 1, 21, &set) == 0 && set.applied == 1, "an update alone is applied");
    partial_read_answer after = {0, 0};
    check(partial_port_read(&port, 1, &after) == 0 && after.value == 21, "a read gives the value set");
    check(after.stamp == set.stamp && after.stamp != before.stamp, "and the update's stamp");

    partial_update_answer again = {0, 0};
    check(partial_port_update_if(&port, 1, set.stamp, 22, &again) == 0 && again.applied == 1, "the expected stamp is found");
    check(partial_port_update_if(&port, 1, set.stamp, 23, &set) == 0 && set.applied == 0, "another one is not");
    check(set.stamp == again.stamp, "and it is given");
    uint32_t same = 9;
    const uint64_t stamps[2] = {again.stamp, before.stamp};
    check(partial_port_unchanged(&port, (const uint32_t[]){1}, 1, stamps, 1, &same) == 0 && same == 1, "it has its stamp still");
    check(partial_port_unchanged(&port, (const uint32_t[]){1, 1}, 2, stamps, 2, &same) == 0 && same == 0, "and not an older one");
    check(partial_port_unchanged(&port, (const uint32_t[]){2}, 1, stamps, 1, &same) == 0 && same == 0, "nor one past the end");
    check(partial_port_unchanged(&port, NULL, 0, NULL, 0, &same) == 0 && same == 1, "of no component none has changed");

    const uint32_t which[2] = {1, 0};
    uint64_t into[3] = {0, 0, 0};
    partial_scan_answer scanned = {9, 9, 9};
    check(partial_port_scan(&port, which, 2, into, 2, &scanned) == 0, "a scan is answered");
    check(into[0] == 22 && into[1] == 10 && into[2] == 0, "it gives the values in its order");
    check(scanned.collects == 2 && scanned.borrowed == 0, "a scan alone makes two collects");
    check_stamped_scan(&port);
    check(partial_port_free(&port) == 0 && port.held == NULL, "a freed handle is empty");
    uint64_t values[2] = {5, 5};
    check(partial_memory_close(&memory, values, 2) == PARTIAL_IN_USE, "a memory isn't closed without its port");
    check(values[0] == 5, "and the caller's values are as they were");
    check(partial_memory_free(&memory) == 0 && memory.held == NULL, "a freed memory's handle is empty");
}

static void test_refused_openings(void)
{
    static const uint64_t initial[65537];
    partial_memory memory = PARTIAL_EMPTY;
    const partial_arena many_lists = {65537, 16};
    const partial_arena large_pool = {4, 4194304};
    check(partial_memory_new(initial, 1, 0, &memory) == PARTIAL_PORT_COUNT, "no port is refused");
    check(partial_memory_new(initial, 0, 256, &memory) == PARTIAL_PORT_COUNT, "256 ports are refused first");
    check(partial_memory_new(initial, 0, 1, &memory) == PARTIAL_COMPONENTS, "no component is refused");
    check(partial_memory_new(initial, 65537, 1, &memory) == PARTIAL_COMPONENTS, "65537 are refused");
    check(partial_memory_new_with(initial, 1, 1, &many_lists, &memory) == PARTIAL_LIST_WORDS, "65537 list words are refused");
    check(partial_memory_new_with(initial, 1, 1, &large_pool, &memory) == PARTIAL_POOL_WORDS, "4194304 pool words are refused");
    check(memory.held == NULL, "a refused opening leaves the handle empty");
    check(partial_memory_new(initial, 2, 1, &memory) == 0, "a memory is made after refusals");
    void *held = memory.held;
    check(partial_memory_new(initial, 2, 1, &memory) == PARTIAL_HOLDS_ONE, "a handle in use is refused");
    check(memory.held == held, "and the handle is as it was");
    partial_memory_free(&memory);
}

/*
 * One component and 2 ports: 32768 pool words. An update claims 3 of them for its record and 93 ahead, and the next 31
 * updates claim none. So 341 claims end within the pool, each for 32 updates. The next one ends past the pool, so it is
 * for one update: the update after that changes the epoch.
 */
static void test_usual_pool(void)
{
    const uint64_t initial[1] = {10};
    partial_memory memory = PARTIAL_EMPTY;
    partial_port port = PARTIAL_EMPTY;
    partial_update_answer set = {0, 0};
    int fine = partial_memory_new(initial, 1, 2, &memory) == 0 && partial_memory_take_port(&memory, &port) == 0;
    uint64_t applied = 0;
    while (fine && partial_port_update(&port, 0, applied, &set) == 0 && set.applied == 1 && set.stamp >> 23 == 0) {
        applied++;
    }
    check(set.stamp >> 23 == 1, "the epoch changes when the pool is used up");
    check(applied == 32 * (32768 / 96) + 1, "an arena has 16384 pool words for each of two ports");
    partial_port_free(&port);
    partial_memory_free(&memory);
}

static void test_refused_calls(void)
{
    const uint64_t initial[2] = {1, 2};
    const uint32_t which[3] = {0, 1, 2};
    uint64_t into[3] = {77, 77, 77};
    uint64_t stamps[3] = {88, 88, 88};
    partial_memory nothing = PARTIAL_EMPTY;
    partial_port none = PARTIAL_EMPTY;
    partial_update_answer set = {5, 5};
    partial_read_answer read = {5, 5};
    partial_scan_answer scanned = {5, 5, 5};
    uint32_t number = 5;
    check(partial_port_update(&none, 0, 1, &set) == PARTIAL_HOLDS_NONE, "an update at no port is refused");
    check(partial_port_update_if(&none, 0, 1, 1, &set) == PARTIAL_HOLDS_NONE, "nor is there a conditional one");
    check(partial_port_unchanged(&none, which, 1, into, 1, &number) == PARTIAL_HOLDS_NONE && number == 5, "at no port nothing is unchanged");
    partial_port nobody = PARTIAL_EMPTY;
    check(partial_port_meet(&none, &nobody) == PARTIAL_HOLDS_NONE, "no port meets none");
    check(partial_port_read(&none, 0, &read) == PARTIAL_HOLDS_NONE, "a read at no port is refused");
    check(partial_port_scan(&none, which, 1, into, 1, &scanned) == PARTIAL_HOLDS_NONE, "a scan at no port is refused");
    check(partial_port_scan_stamped(&none, which, 1, into, 1, stamps, 1, &scanned) == PARTIAL_HOLDS_NONE && scanned.collects == 5, "nor does one return stamps there");
    check(partial_port_number(&none, &number) == PARTIAL_HOLDS_NONE && number == 5, "no port has no number");
    check(partial_memory_take_port(&nothing, &none) == PARTIAL_HOLDS_NONE, "no memory has no port");
    check(partial_memory_close(&nothing, into, 2) == PARTIAL_HOLDS_NONE, "an empty handle isn't closed");

    partial_memory memory = PARTIAL_EMPTY;
    partial_port port = PARTIAL_EMPTY;
    check(made(initial, 2, &tiny, &memory, &port, 1), "a memory of two components is made");
    check(partial_memory_take_port(&memory, &none) == PARTIAL_NONE_FREE, "there is no second port");
    check(partial_memory_take_port(&memory, &port) == PARTIAL_HOLDS_ONE, "a handle in use takes no port");
    check(partial_memory_give_port(&memory, &none) == PARTIAL_HOLDS_NONE, "an empty handle isn't returned");
    check(partial_memory_give_port(&nothing, &port) == PARTIAL_HOLDS_NONE, "nor a port to no memory");
    check(partial_port_scan(&port, which, 2, into, 1, &scanned) == PARTIAL_LENGTH, "less room than positions is refused");
    check(partial_port_scan(&port, which, 1, into, 2, &scanned) == PARTIAL_LENGTH, "more room than positions is refused");
    check(partial_port_scan(&port, which, 3, into, 3, &scanned) == PARTIAL_LENGTH, "more positions than components are refused");
    check(partial_port_scan(&port, which + 1, 2, into, 2, &scanned) == PARTIAL_COMPONENT, "a scan past the end is refused");
    check(partial_port_unchanged(&port, which, 2, into, 1, &number) == PARTIAL_LENGTH && number == 5, "fewer stamps than components are refused");
    check(into[0] == 77 && into[1] == 77 && scanned.collects == 5, "a refused scan leaves the caller's values");
    check(partial_port_scan_stamped(&port, which, 2, into, 1, stamps, 2, &scanned) == PARTIAL_LENGTH, "less room for values is refused");
    check(partial_port_scan_stamped(&port, which, 2, into, 2, stamps, 1, &scanned) == PARTIAL_LENGTH, "less room for stamps is refused");
    check(partial_port_scan_stamped(&port, which, 1, into, 1, stamps, 2, &scanned) == PARTIAL_LENGTH, "more room for stamps is refused");
    check(partial_port_scan_stamped(&port, which, 3, into, 3, stamps, 3, &scanned) == PARTIAL_LENGTH, "more positions than components are");
    check(partial_port_scan_stamped(&port, which + 1, 2, into, 2, stamps, 2, &scanned) == PARTIAL_COMPONENT, "stamps past the end are refused");
    check(into[0] == 77 && into[1] == 77 && stamps[0] == 88 && stamps[1] == 88 && scanned.collects == 5, "and the caller's answers are as they were");
    check(partial_port_update(&port, 2, 1, &set) == PARTIAL_COMPONENT && set.stamp == 5, "an update past the end is refused");
    check(partial_port_update_if(&port, 2, 1, 1, &set) == PARTIAL_COMPONENT && set.stamp == 5, "and a conditional one");
    check(partial_port_read(&port, 2, &read) == PARTIAL_COMPONENT && read.value == 5, "a read past the end is refused");
    partial_port_free(&port);
    partial_memory_free(&memory);
}

/* A handle of the one kind in a function for the other, which the types of C would refuse. */
static void test_other_kind(void)
{
    const uint64_t initial[1] = {1};
    const partial_sizes sizes = {8, 8, 200};
    uint64_t into[1] = {77};
    partial_handle opening = PARTIAL_EMPTY, own = PARTIAL_EMPTY, none = PARTIAL_EMPTY;
    void *at_opening = &opening, *at_own = &own, *at_none = &none;
    partial_memory memory = PARTIAL_EMPTY;
    partial_port port = PARTIAL_EMPTY;
    void *at_memory = &memory, *at_port = &port;
    partial_read_answer read = {5, 5};
    check(partial_opening_open(initial, 1, &sizes, 2, &opening) == 0 && partial_opening_take_port(&opening, &own) == 0, "an opening opens");
    check(made(initial, 1, &tiny, &memory, &port, 1), "a memory is made beside it");
    check(partial_opening_read(at_port, 0, &read) == PARTIAL_HOLDS_NONE, "its port is none of an opening");
    check(partial_port_read(at_own, 0, &read) == PARTIAL_HOLDS_NONE, "and an opening's port is none of a memory");
    check(partial_opening_take_port(at_memory, &none) == PARTIAL_HOLDS_NONE, "a memory is no opening");
    check(partial_memory_take_port(at_opening, at_none) == PARTIAL_HOLDS_NONE, "and an opening no memory");
    check(partial_opening_give_port(&opening, at_port) == PARTIAL_HOLDS_NONE, "a memory's port isn't returned to an opening");
    check(partial_memory_give_port(at_memory, at_own) == PARTIAL_HOLDS_NONE, "nor an opening's to a memory");
    check(partial_opening_close(at_memory) == PARTIAL_HOLDS_NONE, "a memory isn't closed as an opening");
    check(partial_memory_close(at_opening, into, 1) == PARTIAL_HOLDS_NONE && into[0] == 77, "nor an opening as a memory");
    partial_opening_free(&own);
    partial_opening_free(&opening);
    partial_port_free(&port);
    partial_memory_free(&memory);
}

static void test_close(void)
{
    const uint64_t initial[2] = {1, 2};
    partial_memory memory = PARTIAL_EMPTY, other_memory = PARTIAL_EMPTY;
    partial_port ports[2] = {PARTIAL_EMPTY, PARTIAL_EMPTY};
    partial_port other = PARTIAL_EMPTY;
    partial_update_answer set = {0, 0};
    partial_read_answer read = {0, 0};
    uint64_t values[3] = {5, 5, 5};
    uint32_t numbers[2] = {9, 9};
    check(made(initial, 2, &tiny, &memory, ports, 2), "a memory of two ports is made");
    check(make_elsewhere(initial, 2, &other_memory) == 0, "another memory is made in another file");
    check(partial_memory_take_port(&other_memory, &other) == 0, "its port is taken");
    check(partial_port_number(&ports[0], &numbers[0]) == 0 && partial_port_number(&ports[1], &numbers[1]) == 0, "ports have numbers");
    check(numbers[0] == 0 && numbers[1] == 1, "in the order of the memory");
    check(partial_port_update(&ports[0], 0, 11, &set) == 0, "port 0 updates");
    check(partial_port_update(&ports[1], 1, 22, &set) == 0, "port 1 updates");

    check(partial_memory_give_port(&memory, &other) == PARTIAL_TWO_MEMORIES, "a port of another memory isn't taken in");
    check(partial_port_read(&other, 0, &read) == 0 && read.value == 1, "and is as it was");
    check(partial_memory_give_port(&memory, &ports[1]) == 0 && ports[1].held == NULL, "a port is returned");
    check(partial_memory_close(&memory, values, 2) == PARTIAL_IN_USE, "one of two ports isn't enough");
    check(partial_memory_take_port(&memory, &ports[1]) == 0, "a returned port is taken again");
    check(partial_port_read(&ports[1], 0, &read) == 0 && read.value == 11, "and reads on");
    check(partial_memory_give_port(&memory, &ports[0]) == 0 && partial_memory_give_port(&memory, &ports[1]) == 0, "both are returned");
    check(partial_memory_close(&memory, values, 3) == PARTIAL_LENGTH && values[0] == 5, "room for three is refused");
    check(partial_memory_close(&memory, values, 2) == 0, "the memory is closed");
    check(values[0] == 11 && values[1] == 22 && values[2] == 5, "its values are those of the updates");
    check(memory.held == NULL, "and its handle is empty");
    partial_port_free(&other);
    partial_memory_free(&other_memory);
}

static void test_null(void)
{
    const uint64_t initial[1] = {1};
    const uint32_t which[1] = {0};
    uint64_t into[1] = {7};
    uint64_t into_stamps[1] = {8};
    partial_memory memory = PARTIAL_EMPTY;
    partial_port port = PARTIAL_EMPTY;
    partial_port spare = PARTIAL_EMPTY;
    partial_update_answer set = {0, 0};
    partial_read_answer read = {0, 0};
    partial_scan_answer scanned = {9, 9, 9};
    uint32_t number = 9;
    check(partial_memory_new(NULL, 1, 1, &memory) == PARTIAL_NULL, "null values are refused");
    check(partial_memory_new_with(initial, 1, 1, NULL, &memory) == PARTIAL_NULL, "null sizes are refused");
    check(partial_memory_new(initial, 1, 1, NULL) == PARTIAL_NULL, "nothing is made at null");
    check(partial_memory_new(NULL, 0, 1, &memory) == PARTIAL_COMPONENTS, "no values may be at null");
    check(made(initial, 1, &tiny, &memory, &port, 1), "a memory is made after null pointers");
    check(partial_memory_take_port(NULL, &spare) == PARTIAL_NULL, "null has no port");
    check(partial_memory_take_port(&memory, NULL) == PARTIAL_NULL, "null takes no port");
    check(partial_memory_give_port(NULL, &port) == PARTIAL_NULL, "a port isn't returned to null");
    check(partial_memory_give_port(&memory, NULL) == PARTIAL_NULL, "nor null to a memory");
    check(partial_port_update(NULL, 0, 1, &set) == PARTIAL_NULL, "null isn't updated");
    check(partial_port_update(&port, 0, 1, NULL) == PARTIAL_NULL, "an update answers not to null");
    check(partial_port_update_if(NULL, 0, 1, 1, &set) == PARTIAL_NULL, "not on any condition");
    check(partial_port_update_if(&port, 0, 1, 1, NULL) == PARTIAL_NULL, "nor does a conditional one");
    check(partial_port_read(NULL, 0, &read) == PARTIAL_NULL, "null isn't read");
    check(partial_port_read(&port, 0, NULL) == PARTIAL_NULL, "a read answers not to null");
    check(partial_port_scan(NULL, which, 1, into, 1, &scanned) == PARTIAL_NULL, "null isn't scanned");
    check(partial_port_scan(&port, NULL, 1, into, 1, &scanned) == PARTIAL_NULL, "null has no positions");
    check(partial_port_scan(&port, which, 1, NULL, 1, &scanned) == PARTIAL_NULL, "null has no room");
    check(partial_port_scan(&port, which, 1, into, 1, NULL) == PARTIAL_NULL, "a scan answers not to null");
    check(partial_port_scan_stamped(NULL, which, 1, into, 1, into_stamps, 1, &scanned) == PARTIAL_NULL, "null gives no stamps");
    check(partial_port_scan_stamped(&port, NULL, 1, into, 1, into_stamps, 1, &scanned) == PARTIAL_NULL, "nor of components at null");
    check(partial_port_scan_stamped(&port, which, 1, NULL, 1, into_stamps, 1, &scanned) == PARTIAL_NULL, "nor with values to null");
    check(partial_port_scan_stamped(&port, which, 1, into, 1, NULL, 1, &scanned) == PARTIAL_NULL, "nor with stamps to null");
    check(partial_port_scan_stamped(&port, which, 1, into, 1, into_stamps, 1, NULL) == PARTIAL_NULL, "nor with the answer to null");
    check(into[0] == 7 && into_stamps[0] == 8 && scanned.collects == 9, "refused scans leave the caller's values");
    check(partial_port_scan(&port, NULL, 0, NULL, 0, &scanned) == 0 && scanned.collects == 0, "no positions may be at null");
    check(partial_port_scan(&port, NULL, 0, into, 1, &scanned) == PARTIAL_LENGTH, "but not beside room for one");
    check(partial_port_number(NULL, &number) == PARTIAL_NULL, "null has no number");
    check(partial_port_number(&port, NULL) == PARTIAL_NULL, "a number isn't given to null");
    check(partial_memory_close(NULL, into, 1) == PARTIAL_NULL, "null isn't closed");
    check(partial_memory_close(&memory, NULL, 1) == PARTIAL_NULL, "values aren't put to null");
    check(partial_memory_close(&memory, NULL, 0) == PARTIAL_LENGTH, "where there is no room, null is none");
    check(partial_memory_free(NULL) == PARTIAL_NULL, "null isn't freed");
    check(partial_port_free(NULL) == PARTIAL_NULL, "nor as a port");
    check(partial_port_read(&port, 0, &read) == 0 && read.value == 1, "and the memory is as it was");
    partial_port_free(&port);
    partial_memory_free(&memory);
}

/* Each writer sets its own component to 1, 2 and so on, and tries again when the epoch changed
 * too often meanwhile; the scanner's values never fall. */
typedef struct work {
    partial_port port;
    uint32_t component;
    int refused;
    int fell;
    uint64_t stamp;
} work;

static void *write_turns(void *at)
{
    work *mine = at;
    partial_update_answer set = {0, 0};
    for (uint64_t value = 1; value <= TURNS; value++) {
        uint32_t code;
        do {
            code = partial_port_update(&mine->port, mine->component, value, &set);
        } while (code == PARTIAL_OVERTAKEN);
        mine->refused += code != 0 || set.applied != 1;
    }
    mine->stamp = set.stamp;
    return NULL;
}

static void *scan_turns(void *at)
{
    work *mine = at;
    const uint32_t which[WRITERS] = {0, 1, 2};
    uint64_t last[WRITERS] = {0, 0, 0};
    uint64_t into[WRITERS] = {0, 0, 0};
    partial_scan_answer scanned = {0, 0, 0};
    for (int turn = 0; turn < TURNS / 2; turn++) {
        mine->refused += partial_port_scan(&mine->port, which, WRITERS, into, WRITERS, &scanned) != 0;
        for (int k = 0; k < WRITERS; k++) {
            mine->fell += into[k] < last[k];
            last[k] = into[k];
        }
    }
    return NULL;
}

static void test_threads(void)
{
    const uint64_t initial[WRITERS] = {0, 0, 0};
    pthread_t threads[WRITERS + 1];
    work works[WRITERS + 1];
    memset(works, 0, sizeof works);
    partial_memory memory = PARTIAL_EMPTY;
    check(partial_memory_new_with(initial, WRITERS, WRITERS + 1, &tiny, &memory) == 0, "a memory for four threads is made");
    int started = 0;
    for (uint32_t k = 0; k <= WRITERS; k++) {
        works[k].component = k;
        check(partial_memory_take_port(&memory, &works[k].port) == 0, "each has a port");
        started += pthread_create(&threads[k], NULL, k < WRITERS ? write_turns : scan_turns, &works[k]) == 0;
    }
    check(started == WRITERS + 1, "four threads start");
    int refused = 0;
    int returned = 0;
    for (int k = 0; k <= WRITERS; k++) {
        pthread_join(threads[k], NULL);
        refused += works[k].refused;
        returned += partial_memory_give_port(&memory, &works[k].port) == 0;
    }
    check(refused == 0, "each update of its own component is applied, each scan answered");
    check(works[WRITERS].fell == 0, "no value falls from scan to scan");
    check(works[0].stamp >> 23 > 1000, "over more than a thousand epochs");
    check(returned == WRITERS + 1, "the ports are returned after the threads");
    uint64_t values[WRITERS] = {0, 0, 0};
    check(partial_memory_close(&memory, values, WRITERS) == 0, "the memory closes");
    check(values[0] == TURNS && values[1] == TURNS && values[2] == TURNS, "its values are the last ones set");
}

/* Each number has a text of its own, and 25 alone is a refusal for the moment. */
static void test_texts(void)
{
    const uint32_t numbers[] = {0, 1, 2, 3, 4, 5, 6, 7, 8, 9, 13, 17, 18, 19, 20, 21, 22, 23, 24, 25, 27, 30, 31};
    const size_t count = sizeof numbers / sizeof *numbers;
    int alike = 0;
    int transient = 0;
    for (size_t k = 0; k < count; k++) {
        const char *text = partial_text(numbers[k]);
        for (size_t j = 0; j < k; j++) {
            alike += strcmp(text, partial_text(numbers[j])) == 0;
        }
        alike += strcmp(text, partial_text(10)) == 0;
        transient += partial_is_transient(numbers[k]);
        check((strstr(text, "try again") != NULL) == partial_is_transient(numbers[k]), "a text says when to try again");
    }
    check(alike == 0, "each number has a text of its own");
    check(strcmp(partial_text(10), partial_text(UINT32_MAX)) == 0, "no other number has one");
    check(transient == 1 && partial_is_transient(25), "one refusal is for the moment");
}

/* The header's two versions are one, and the library's too. */
static void test_version(void)
{
    unsigned major = 0;
    unsigned minor = 0;
    unsigned patch = 0;
    check(sscanf(PARTIAL_VERSION, "%u.%u.%u", &major, &minor, &patch) == 3, "the version has three parts");
    check(major * 1000000 + minor * 1000 + patch == PARTIAL_VERSION_NUMBER, "its number is that of its text");
    check(partial_door_version() == PARTIAL_VERSION_NUMBER, "the library has the version of the header");
}

/* A port can't meet itself. */
static void test_same(void)
{
    const uint64_t initial[1] = {7};
    partial_memory memory = PARTIAL_EMPTY;
    partial_port port = PARTIAL_EMPTY;
    partial_read_answer read = {0, 0};
    check(made(initial, 1, &tiny, &memory, &port, 1), "a memory with one port is made");
    check(partial_port_meet(&port, &port) == PARTIAL_SAME, "a port doesn't meet itself");
    check(partial_port_read(&port, 0, &read) == 0 && read.value == 7, "and is as it was");
    partial_port_free(&port);
    partial_memory_free(&memory);
}

int main(void)
{
    test_example();
    test_texts();
    test_version();
    test_same();
    test_one_port();
    test_refused_openings();
    test_usual_pool();
    test_refused_calls();
    test_other_kind();
    test_close();
    test_null();
    test_threads();
    printf("%d passed, %d failed\n", passed, failed);
    return failed != 0;
}
