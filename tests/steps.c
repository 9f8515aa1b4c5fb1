/* Counts the atomic steps of the calls of a memory, and stops a thread before each of them in turn. The library calls
 * partial_step before each atomic step on a word of a memory. The words of this program are the greatest numbers of
 * steps in a memory of 3 components and 2 ports: of an update, a conditional update, and a scan of all components; and
 * of a change of epoch in one of MANY components, the fewest with which scans of 2 ports don't announce themselves. It
 * writes a line for each test that failed, the most steps that were counted, and the counts. */
#include "partial.h"

#include <pthread.h>
#include <semaphore.h>
#include <stdio.h>
#include <stdlib.h>

enum { COMPONENTS = 3, COMPARED = 2, TURNS = 100000, READ = 8, UNCHANGED = 4 + 2 * COMPARED, MEET = 12 };
enum { PATIENCE = 64, ROUNDS = 16, EPOCHS = 3 };
enum { FEW = 4, TRIES = 64, HISTORY = 16 * MANY };

/* What a call is asked for. */
enum kind { UPDATES, UPDATES_IF, READS, SCANS, SCANS_STAMPED, COMPARES, KINDS };

static const char *const names[KINDS] = {"update", "conditional update", "read", "scan", "scan with stamps", "unchanged"};
static const uint64_t initial[COMPONENTS] = {10, 20, 30};
static const uint32_t all[COMPONENTS] = {0, 1, 2};
/* Nobody updates component 2, and component 1 is updated only by the calls that are counted. */
static const uint32_t compared[COMPARED] = {2, 1};

static int passed;
static int failed;
/* How many steps a call of each kind makes at most, by contract. */
static uint64_t bounds[KINDS];

static _Thread_local uint64_t steps;
/* Before which step the thread is stopped: the first is 1, and 0 is none. */
static _Thread_local uint64_t stop;
static sem_t stopped;
static sem_t goes_on;

/* Updates beside a scan of many components: one before each step of the scan but those after `quiet` up to `loud`. The
 * k-th sets a component to k, each position of the scan in turn. */
struct beside {
    partial_port *port;
    const uint32_t *which;
    uint64_t positions;
    uint64_t quiet;
    uint64_t loud;
    uint64_t before; /* how many there were before the quiet steps */
    uint64_t made;
};

static _Thread_local struct beside *beside;
/* The stamps of these updates: that of the k-th is number k. */
static uint64_t history[HISTORY];

static void overtake(struct beside *it);

void partial_step(void);

void partial_step(void)
{
    if (++steps == stop) {
        sem_post(&stopped);
        sem_wait(&goes_on);
    }
    if (beside && (steps <= beside->quiet || steps > beside->loud)) {
        overtake(beside);
    }
}

static void check(int holds, const char *what, const char *name)
{
    if (holds) {
        passed++;
    } else {
        failed++;
        printf("failed: %s: %s\n", name, what);
    }
}

/* Ends the program where a test can't go on. */
static void need(int holds, const char *what)
{
    if (!holds) {
        printf("failed: %s\n%d passed, %d failed\n", what, passed, failed + 1);
        exit(1);
    }
}

/* Makes the next of these updates, of which no step counts. */
static void overtake(struct beside *it)
{
    const uint64_t counted = steps;
    partial_update_answer set;
    uint32_t component = it->which[it->made % it->positions];
    need(++it->made < HISTORY, "there is room for a stamp");
    beside = NULL;
    need(partial_port_update(it->port, component, it->made, &set) == 0, "an update beside a scan is made");
    need(set.applied, "and applied");
    beside = it;
    steps = counted;
    history[it->made] = set.stamp;
    if (steps <= it->quiet) {
        it->before = it->made;
    }
}

/* Makes a memory, and takes out all its ports. */
static void make_of(const uint64_t *values, size_t components, partial_memory *memory, partial_port *ports, uint32_t count)
{
    need(partial_memory_new(values, components, count, memory) == 0, "a memory is made");
    for (uint32_t k = 0; k < count; k++) {
        need(partial_memory_take_port(memory, &ports[k]) == 0, "a port is taken");
    }
}

static void make(partial_memory *memory, partial_port *ports, uint32_t count)
{
    make_of(initial, COMPONENTS, memory, ports, count);
}

static void drop(partial_memory *memory, partial_port *ports, uint32_t count)
{
    for (uint32_t k = 0; k < count; k++) {
        partial_port_free(&ports[k]);
    }
    partial_memory_free(memory);
}

/* The epoch of a stamp: it is that number times 2^23, and a word of an arena. */
static uint64_t epoch(uint64_t stamp)
{
    return stamp >> 23;
}

/* The most steps of one call of several. */
static uint64_t greater(uint64_t one, uint64_t other)
{
    return one > other ? one : other;
}

/* Updates component 0 until an update has changed the epoch. Returns how many updates that took, and the most steps of
 * one of them. */
static uint64_t end_epoch(partial_port *port, uint64_t *most)
{
    partial_update_answer first = {0, 0};
    partial_update_answer next = {0, 0};
    *most = 0;
    need(partial_port_update(port, 0, 11, &first) == 0, "an update is made");
    for (uint64_t count = 2;; count++) {
        steps = 0;
        need(partial_port_update(port, 0, 11, &next) == 0, "an update is made");
        *most = greater(*most, steps);
        if (epoch(next.stamp) != epoch(first.stamp)) {
            return count;
        }
    }
}

/* Makes a call of this kind, and returns how many steps it made. The stamps are those of all components. */
static uint64_t call(partial_port *port, enum kind kind, const uint64_t *stamps)
{
    uint64_t into[COMPONENTS];
    uint64_t seen[COMPONENTS];
    uint32_t same;
    partial_update_answer set;
    partial_read_answer read;
    partial_scan_answer scanned;
    uint32_t code = 0;
    steps = 0;
    switch (kind) {
    case UPDATES: code = partial_port_update(port, 0, 12, &set); break;
    case UPDATES_IF: code = partial_port_update_if(port, 1, stamps[1], 12, &set); break;
    case READS: code = partial_port_read(port, 2, &read); break;
    case SCANS: code = partial_port_scan(port, all, COMPONENTS, into, COMPONENTS, &scanned); break;
    case SCANS_STAMPED:
        code = partial_port_scan_stamped(port, all, COMPONENTS, into, COMPONENTS, seen, COMPONENTS, &scanned);
        break;
    case COMPARES: {
        const uint64_t expected[COMPARED] = {stamps[2], stamps[1]};
        code = partial_port_unchanged(port, compared, COMPARED, expected, COMPARED, &same);
        break;
    }
    default: break;
    }
    need(code == 0, names[kind]);
    return steps;
}

static void stamps_of(partial_port *port, uint64_t *stamps)
{
    for (uint32_t k = 0; k < COMPONENTS; k++) {
        partial_read_answer read;
        need(partial_port_read(port, k, &read) == 0, "a component is read");
        stamps[k] = read.stamp;
    }
}

/* A port whose epoch another one has ended: a read and a comparison make as many steps as they may. */
static void test_ended_epochs(void)
{
    for (enum kind kind = 0; kind < KINDS; kind++) {
        partial_memory memory = PARTIAL_EMPTY;
        partial_port ports[2] = {PARTIAL_EMPTY, PARTIAL_EMPTY};
        uint64_t stamps[COMPONENTS];
        uint64_t most;
        make(&memory, ports, 2);
        end_epoch(&ports[0], &most);
        stamps_of(&ports[0], stamps);
        uint64_t made = call(&ports[1], kind, stamps);
        check(made <= bounds[kind], "it makes no more steps in an ended epoch than it may", names[kind]);
        if (kind == READS) {
            check(made == READ, "the first load, a look, three steps of entering and three loads", names[kind]);
        }
        if (kind == COMPARES) {
            check(made == UNCHANGED, "a look, three steps of entering and two loads a component", names[kind]);
        }
        uint64_t again = call(&ports[1], kind, stamps);
        check(again > 0 && again <= made, "it makes no more in the current one", names[kind]);
        drop(&memory, ports, 2);
    }
}

/* Two ports in different epochs: the one in the earlier epoch enters the current one. */
static void test_meeting(void)
{
    partial_memory memory = PARTIAL_EMPTY;
    partial_port ports[2] = {PARTIAL_EMPTY, PARTIAL_EMPTY};
    uint64_t most;
    make(&memory, ports, 2);
    end_epoch(&ports[0], &most);
    steps = 0;
    need(partial_port_meet(&ports[0], &ports[1]) == 0, "two ports meet");
    check(steps == MEET, "two seats split, three steps, a look, three steps of entering, and three steps", "meet");
    steps = 0;
    need(partial_port_meet(&ports[0], &ports[1]) == 0, "two ports meet again");
    check(steps > 0 && steps < MEET, "it makes fewer in one epoch", "meet");
    drop(&memory, ports, 2);
}

/* A port that is stopped before a step of an update that changes the epoch. */
struct stopping {
    partial_port *port;
    uint64_t before; /* so many updates leave the epoch as it is */
    uint64_t step;   /* before which step of the next one it is stopped */
    int was_stopped;
    uint64_t made; /* how many steps that update made */
};

static void *stops(void *given)
{
    struct stopping *it = given;
    partial_update_answer set;
    for (uint64_t k = 0; k < it->before; k++) {
        need(partial_port_update(it->port, 0, 11, &set) == 0, "an update is made");
    }
    steps = 0;
    stop = it->step;
    need(partial_port_update(it->port, 0, 13, &set) == 0, "a stopped update ends");
    it->was_stopped = steps >= stop;
    it->made = steps;
    if (!it->was_stopped) {
        sem_post(&stopped);
    }
    return NULL;
}

/* Updates over some epochs, and returns the most steps of one update. */
static uint64_t goes_through_epochs(partial_port *port)
{
    uint64_t most = 0;
    for (int k = 0; k < EPOCHS; k++) {
        uint64_t next;
        end_epoch(port, &next);
        most = greater(most, next);
    }
    return most;
}

/* Makes one call while another port is stopped before that step, and updates over some epochs after it. Returns how many
 * steps the call made, or 0 when the other port's update has fewer steps. */
static uint64_t beside_stopped(enum kind kind, uint64_t before, uint64_t step)
{
    partial_memory memory = PARTIAL_EMPTY;
    partial_port ports[2] = {PARTIAL_EMPTY, PARTIAL_EMPTY};
    uint64_t stamps[COMPONENTS];
    struct stopping it = {&ports[0], before, step, 0, 0};
    pthread_t thread;
    make(&memory, ports, 2);
    stamps_of(&ports[1], stamps);
    need(pthread_create(&thread, NULL, stops, &it) == 0, "a thread is started");
    sem_wait(&stopped);
    uint64_t made = call(&ports[1], kind, stamps);
    uint64_t later = goes_through_epochs(&ports[1]);
    sem_post(&goes_on);
    need(pthread_join(thread, NULL) == 0, "a thread is joined");
    if (!it.was_stopped) {
        sem_wait(&goes_on);
    }
    check(made <= bounds[kind], "it makes no more steps beside a stopped port than it may", names[kind]);
    check(later <= bounds[UPDATES], "nor do the updates after it", names[kind]);
    check(it.made <= bounds[UPDATES], "nor the stopped update", names[kind]);
    drop(&memory, ports, 2);
    return it.was_stopped ? made : 0;
}

/* Whether the most steps of a call beside a stopped port are those of the worst case. */
static void check_most(enum kind kind, uint64_t most)
{
    if (kind == UPDATES) {
        check(most > PATIENCE * COMPONENTS, "it looks as often as it may while another port changes the epoch", names[kind]);
        check(most <= 2 * (bounds[kind] / ROUNDS), "and makes two rounds at most", names[kind]);
    }
    if (kind == READS || kind == COMPARES) {
        check(most == bounds[kind], "the bound is reached", names[kind]);
    }
}

/* A port that is stopped before any step of an update that changes the epoch stops no other one. */
static void test_stopped(void)
{
    partial_memory memory = PARTIAL_EMPTY;
    partial_port ports[2] = {PARTIAL_EMPTY, PARTIAL_EMPTY};
    uint64_t usual;
    make(&memory, ports, 2);
    uint64_t before = end_epoch(&ports[0], &usual) - 1;
    drop(&memory, ports, 2);
    for (enum kind kind = 0; kind < KINDS; kind++) {
        uint64_t most = 0;
        uint64_t step = 1;
        for (uint64_t made; (made = beside_stopped(kind, before, step)) > 0; step++) {
            most = greater(most, made);
        }
        check(step - 1 == usual, "the other port is stopped before each step of its update", names[kind]);
        check_most(kind, most);
        printf("%s: at most %llu steps of %llu, beside a port stopped at %llu places\n", names[kind],
               (unsigned long long)most, (unsigned long long)bounds[kind], (unsigned long long)step - 1);
    }
}

/* A thread that makes calls of all kinds. */
struct calling {
    partial_port *port;
    uint64_t most[KINDS];
};

static void *calls(void *given)
{
    struct calling *it = given;
    uint64_t stamps[COMPONENTS];
    stamps_of(it->port, stamps);
    for (int turn = 0; turn < TURNS; turn++) {
        enum kind kind = (enum kind)(turn % KINDS);
        it->most[kind] = greater(it->most[kind], call(it->port, kind, stamps));
        it->most[UPDATES] = greater(it->most[UPDATES], call(it->port, UPDATES, stamps));
    }
    return NULL;
}

/* Two threads side by side, over many epochs. */
static void test_threads(void)
{
    partial_memory memory = PARTIAL_EMPTY;
    partial_port ports[2] = {PARTIAL_EMPTY, PARTIAL_EMPTY};
    make(&memory, ports, 2);
    struct calling both[2] = {{&ports[0], {0}}, {&ports[1], {0}}};
    pthread_t threads[2];
    for (int k = 0; k < 2; k++) {
        need(pthread_create(&threads[k], NULL, calls, &both[k]) == 0, "a thread is started");
    }
    for (int k = 0; k < 2; k++) {
        need(pthread_join(threads[k], NULL) == 0, "a thread is joined");
    }
    for (enum kind kind = 0; kind < KINDS; kind++) {
        uint64_t most = greater(both[0].most[kind], both[1].most[kind]);
        check(most > 0 && most <= bounds[kind], "it makes no more steps beside another thread than it may", names[kind]);
    }
    drop(&memory, ports, 2);
}

/* A scan of the memory of many components: its positions, and what it has found. */
static uint32_t which[MANY];
static uint64_t values[MANY];
static uint64_t seen[MANY];
/* The most steps of a change of epoch there, by contract. */
static uint64_t most_of_change;

static uint64_t tries(uint64_t r)
{
    return MANY / r < TRIES ? MANY / r : TRIES;
}

/* The last steps of a scan of so many positions load the values, and perhaps the stamps. */
static uint64_t loads(enum kind kind, uint64_t r)
{
    return kind == SCANS_STAMPED ? 2 * r : r;
}

/* How many steps it makes there at most, by contract. */
static uint64_t most_of_scan(enum kind kind, uint64_t r)
{
    return (1 + tries(r)) * (3 * r + 1) + 8 + most_of_change + loads(kind, r);
}

/* Scans these positions, and returns how many steps that took. */
static uint64_t scan_many(partial_port *port, enum kind kind, size_t r)
{
    partial_scan_answer answer = {0, 0, 0};
    uint32_t code;
    steps = 0;
    if (kind == SCANS) {
        code = partial_port_scan(port, which, r, values, r, &answer);
    } else {
        code = partial_port_scan_stamped(port, which, r, values, r, seen, r, &answer);
    }
    uint64_t made = steps;
    check(code == 0 && answer.collects == 2 && !answer.borrowed, "it succeeds, and takes no view", names[kind]);
    check(made <= most_of_scan(kind, r), "it makes no more steps beside updates than it may", names[kind]);
    return made;
}

/* After how many of the updates the components had the values and stamps that a scan has found; 0 when they never had. */
static uint64_t stood(enum kind kind, uint64_t r)
{
    uint64_t last = 0;
    for (uint64_t k = 0; k < r; k++) {
        last = greater(last, values[k]);
    }
    for (uint64_t k = 0; k < r; k++) {
        /* Of the first `last` updates the last one of position k. */
        if (last <= k || last >= HISTORY || values[k] != last - (last - 1 - k) % r) {
            return 0;
        }
        if (kind == SCANS_STAMPED && seen[k] != history[values[k]]) {
            return 0;
        }
    }
    return last;
}

/* A port whose epoch the scan of another one has ended: its double collect succeeds there, and changes no epoch. */
static void test_undisturbed(partial_port *port, enum kind kind, uint64_t r, uint64_t last)
{
    uint64_t made = scan_many(port, kind, r);
    check(made == 6 + 2 * r + loads(kind, r), "a load, two looks, three steps of entering and a double collect",
          names[kind]);
    check(stood(kind, r) == last, "it finds what the scan has found that ended its epoch", names[kind]);
}

/* Scans so many positions beside updates, which pause after the step `quiet` and go on after the step `loud`. Returns how
 * many steps the scan made. */
static uint64_t scan_beside(enum kind kind, uint64_t r, uint64_t quiet, uint64_t loud)
{
    static const uint64_t zeros[MANY];
    partial_memory memory = PARTIAL_EMPTY;
    partial_port ports[2] = {PARTIAL_EMPTY, PARTIAL_EMPTY};
    struct beside it = {&ports[1], which, r, quiet, loud, 0, 0};
    partial_update_answer set;
    make_of(zeros, MANY, &memory, ports, 2);
    beside = &it;
    uint64_t made = scan_many(&ports[0], kind, r);
    beside = NULL;
    uint64_t last = stood(kind, r);
    check(last > 0, "it finds what stood together", names[kind]);
    if (quiet > 0) {
        check(last == it.before, "it finds what stood as its epoch ended", names[kind]);
        check(epoch(history[last]) == epoch(history[1]), "it changes no epoch while it tries", names[kind]);
    }
    if (it.made == it.before) {
        test_undisturbed(&ports[1], kind, r, last);
    }
    need(partial_port_update(&ports[1], 0, 0, &set) == 0, "an update after a scan is made");
    check(epoch(set.stamp) == epoch(history[1]) + 1, "one epoch more has opened", names[kind]);
    drop(&memory, ports, 2);
    return made;
}

/* Scans so many positions of a memory whose scans don't announce themselves. Each double collect meets an update at its
 * first comparison: so after r + 1 steps it fails. Updates pause while the scan changes the epoch, and are made while it
 * loads the values, or they never pause: then one of them meets a seal, and changes the epoch before the scan does. Returns
 * how many steps the scan's own change of epoch made. */
static uint64_t scan_by_change(enum kind kind, uint64_t r)
{
    for (uint32_t k = 0; k < r; k++) {
        which[k] = k * (uint32_t)(MANY / r);
    }
    /* The look by which the port would enter a later epoch is a step too. */
    const uint64_t tried = (1 + tries(r)) * (r + 1) + 1;
    const uint64_t made = scan_beside(kind, r, tried, UINT64_MAX);
    const uint64_t again = scan_beside(kind, r, tried, made - loads(kind, r));
    check(again == made, "updates of the next epoch don't disturb it", names[kind]);
    const uint64_t most = greater(made, scan_beside(kind, r, 0, 0));
    printf("%s by a change of epoch: %llu of %d components, at most %llu steps of %llu\n", names[kind],
           (unsigned long long)r, MANY, (unsigned long long)most, (unsigned long long)most_of_scan(kind, r));
    return made - tried - loads(kind, r);
}

/* One step seals a component, and eight set its words in an arena that held no epoch before: a component that was updated
 * has its value stored, and the stamp of another one is loaded. */
static void test_scans_by_change(void)
{
    const uint64_t positions[] = {1, FEW, MANY / 10, MANY};
    const uint64_t change = scan_by_change(SCANS, MANY / 2);
    check(change > 9 * MANY && change <= most_of_change, "it changes the epoch by itself", names[SCANS]);
    for (enum kind kind = SCANS; kind <= SCANS_STAMPED; kind++) {
        for (size_t k = 0; k < sizeof positions / sizeof *positions; k++) {
            check(scan_by_change(kind, positions[k]) == change,
                  "it tries as often as it may, and then changes the epoch in as many steps as any scan", names[kind]);
        }
    }
}

int main(int count, char **words)
{
    need(count == 5, "the words are the bounds of an update, a conditional update, a scan and a change of epoch");
    bounds[UPDATES] = strtoull(words[1], NULL, 10);
    bounds[UPDATES_IF] = strtoull(words[2], NULL, 10);
    bounds[READS] = READ;
    bounds[SCANS] = strtoull(words[3], NULL, 10);
    bounds[SCANS_STAMPED] = bounds[SCANS] + COMPONENTS;
    bounds[COMPARES] = UNCHANGED;
    most_of_change = strtoull(words[4], NULL, 10);
    need(sem_init(&stopped, 0, 0) == 0 && sem_init(&goes_on, 0, 0) == 0, "semaphores are made");
    test_ended_epochs();
    test_meeting();
    test_stopped();
    test_threads();
    test_scans_by_change();
    printf("%d passed, %d failed\n", passed, failed);
    return failed != 0;
}
