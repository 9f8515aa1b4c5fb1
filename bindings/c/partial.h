/*
 * A wait-free, linearizable partial snapshot object for programs in C: components of
 * 64 bits that many threads share. Any port may update or read any component, and scan
 * any few of them as they stood together at one moment. Each call of a port ends within a
 * fixed number of atomic steps, whatever other threads do.
 *
 * A `partial_memory` is long-lived: it never wears out. Its ports are `partial_port`s. A
 * single opening (`partial_handle`, with functions named `partial_opening_`) wears out:
 * `docs/using/choosing.md` says what a program does then.
 *
 * What is proved, and what isn't
 * ------------------------------
 * The functions below are those of the crate `partial_door`, written in Rattle.
 * Their contracts are proved over all orders of the threads' atomic steps: what
 * each call of a port, a meeting and a close answer, that each call ends, that no
 * index leaves its memory, that each refusal has its cause, and what it leaves.
 * `docs/using/c-and-rust.md` says them in words.
 *
 * A program that uses this header also trusts:
 * - itself to follow the rules for pointers and handles below: the calls refuse
 *   null pointers and two handles that are one, and check nothing else of them, and
 *   when a rule is broken the behaviour is undefined;
 * - the functions of this header, which refuse those and call the proved ones, named
 *   `partial_door_`, and the declarations of these here, with their parameters and the
 *   layout of the structs;
 * - the number that this header gives each memory and each opening, by a counter that all
 *   files of a program share. A shared object that hides its symbols has a counter of its
 *   own: there, ports are used with memories that were made there;
 * - the C compiler, the linker, and `malloc`, `realloc` and `free`.
 *
 * Rules for pointers and handles
 * ------------------------------
 * - A pointer that isn't null points to what its type says, aligned. Nothing else
 *   reads or writes that during the call, and no two pointers of a call point to
 *   one object. A pointer with a number beside it is an array of so many elements.
 *   A null pointer is refused by 23 before anything is done; only the pointer of an
 *   array of no elements may be null.
 * - A handle begins as PARTIAL_EMPTY, and only these functions change it. It isn't
 *   copied: of two copies of a handle, none may be used. It may be moved, if the
 *   old object is no longer used.
 * - One call at a time uses a handle. It may move to another thread when a lock, the
 *   start or the join of a thread, or a sequentially consistent atomic orders its
 *   calls. Calls on different handles may run side by side.
 * - No call is made in a signal handler, or in the child of a fork of a process
 *   with threads.
 *
 * Numbers of refusals
 * -------------------
 * Each function returns 0 when the call was answered, and otherwise the number of
 * the first refusal that holds. `partial_text` returns what a number says. After 25, which
 * only updates return, the same call may be answered when it is made again
 * (`partial_is_transient`); a program bounds how often it does so.
 */
#ifndef PARTIAL_H
#define PARTIAL_H

/* The version of this header, as a text and as a number: 1000000 for a major version, 1000
 * for a minor one, and 1 for a patch. A library of another one opens no memory here. */
#define PARTIAL_VERSION "0.1.0"
#define PARTIAL_VERSION_NUMBER 1000u

#include <stddef.h>
#include <stdint.h>

#ifdef __cplusplus
extern "C" {
#define PARTIAL_HANDLE(pointer) reinterpret_cast<partial_handle *>(pointer)
#else
#define PARTIAL_HANDLE(pointer) ((partial_handle *)(pointer))
#endif

/* A handle: it is empty, or holds an open memory, a port of one, or a closed memory. */
typedef struct partial_handle {
    void *held; /* only the library reads and writes it */
} partial_handle;

/* A handle of a long-lived memory. */
typedef struct partial_memory {
    void *held; /* only the library reads and writes it */
} partial_memory;

/* A handle of a port of such a memory. */
typedef struct partial_port {
    void *held; /* only the library reads and writes it */
} partial_port;

/* An empty handle, of any of the three types. All three have one layout. */
#if defined(__cplusplus) && __cplusplus >= 201103L
#define PARTIAL_EMPTY { nullptr }
#else
#define PARTIAL_EMPTY { NULL }
#endif

enum {
    PARTIAL_FINE = 0,
    PARTIAL_COMPONENTS = 1,    /* there are not 1 to 65536 components */
    PARTIAL_SLOTS = 2,         /* there are not 1 to 65536 slots */
    PARTIAL_LIST_WORDS = 3,    /* there are more than 65536 list words */
    PARTIAL_POOL_WORDS = 4,    /* not 3 pool words a component to 4194304 */
    PARTIAL_PORT_COUNT = 5,    /* not 1 to 255 ports, or 1 to 64 of an opening */
    PARTIAL_OUT_OF_MEMORY = 6, /* an allocation was refused */
    PARTIAL_COMPONENT = 7,     /* an index isn't below the number of components */
    PARTIAL_SLOTS_SPENT = 8,   /* the slots are used up for this port */
    PARTIAL_POOL_SPENT = 9,    /* the pool is used up for this port */
    PARTIAL_TOO_SMALL = 13,    /* the closed memory has more components */
    PARTIAL_HOLDS_NONE = 17,   /* the handle doesn't hold what the call needs */
    PARTIAL_HOLDS_ONE = 18,    /* the handle holds something already */
    PARTIAL_LENGTH = 19,       /* two lengths differ, or one is too large */
    PARTIAL_TWO_MEMORIES = 20, /* the handles are of two memories */
    PARTIAL_NONE_FREE = 21,    /* the memory holds no port */
    PARTIAL_IN_USE = 22,       /* not all ports were returned */
    PARTIAL_NULL = 23,         /* a pointer is null */
    PARTIAL_SHARED = 24,       /* another handle still references the memory */
    PARTIAL_OVERTAKEN = 25,    /* the epoch was changed 16 times during the update */
    PARTIAL_EPOCHS_SPENT = 27, /* the epoch is the last one that a word can name */
    PARTIAL_SAME = 30,         /* two pointers are to one handle */
    PARTIAL_OTHER_VERSION = 31 /* the library is of another version than this header */
};

/* What a number says, as a text without a full stop. */
static inline const char *partial_text(uint32_t code)
{
    switch (code) {
    case PARTIAL_FINE: return "the call was answered";
    case PARTIAL_COMPONENTS: return "components out of range";
    case PARTIAL_SLOTS: return "slots out of range";
    case PARTIAL_LIST_WORDS: return "list words out of range";
    case PARTIAL_POOL_WORDS: return "pool words out of range";
    case PARTIAL_PORT_COUNT: return "ports out of range";
    case PARTIAL_OUT_OF_MEMORY: return "out of memory";
    case PARTIAL_COMPONENT: return "an index isn't below the number of components";
    case PARTIAL_SLOTS_SPENT: return "the slots are used up for this port";
    case PARTIAL_POOL_SPENT: return "the pool is used up for this port";
    case PARTIAL_TOO_SMALL: return "fewer components than before";
    case PARTIAL_HOLDS_NONE: return "a handle doesn't hold what the call needs";
    case PARTIAL_HOLDS_ONE: return "the handle holds something already";
    case PARTIAL_LENGTH: return "two lengths differ, or one is too large";
    case PARTIAL_TWO_MEMORIES: return "the handles are of two memories";
    case PARTIAL_NONE_FREE: return "the memory holds no port";
    case PARTIAL_IN_USE: return "not all ports were returned";
    case PARTIAL_NULL: return "a pointer is null";
    case PARTIAL_SHARED: return "another handle still references the memory";
    case PARTIAL_OVERTAKEN: return "overtaken by changes of epoch: try again";
    case PARTIAL_EPOCHS_SPENT: return "epochs used up";
    case PARTIAL_SAME: return "two pointers are to one handle";
    case PARTIAL_OTHER_VERSION: return "the library is of another version than the header";
    default: return "no number of this library";
    }
}

/* Whether the same call may be answered when it is made again: 1 for 25, otherwise 0. */
static inline int partial_is_transient(uint32_t code)
{
    return code == PARTIAL_OVERTAKEN;
}

/* The sizes of an arena of a `partial_memory`, which has two arenas for each port. */
typedef struct partial_arena {
    uint32_t list_words; /* for the lists of vacated slots: at most 65536 */
    uint32_t pool_words; /* claimed before the epoch changes: at most 4194304, less 3 for
                            each component and the room for the greatest claim of each
                            port (below); 0 for as many as suit the numbers of ports and
                            components (below). An update takes 3 of them when nobody
                            scans. A claim has up to 93 more, which later updates of the
                            same port take */
} partial_arena;

/* The sizes of an opening, apart from the number of its components. */
typedef struct partial_sizes {
    uint32_t slots;      /* how many scans may announce themselves, in an opening */
    uint32_t list_words; /* for the lists of vacated slots of an opening */
    uint32_t pool_words; /* for the records and announcements of an opening */
} partial_sizes;

typedef struct partial_update_answer {
    uint64_t stamp;   /* of this update when it was applied, otherwise the stamp that
                         the component had instead */
    uint32_t applied; /* 1 when it was applied, otherwise 0 */
} partial_update_answer;

typedef struct partial_read_answer {
    uint64_t value;
    uint64_t stamp; /* of the update that wrote the value */
} partial_read_answer;

typedef struct partial_scan_answer {
    uint64_t stamp;    /* of the update whose view the scan took, 0 when it took none */
    uint32_t collects; /* how many collects it made: 0 for no position, else 2 to r + 2 */
    uint32_t borrowed; /* 1 when it took a view, otherwise 0 */
} partial_scan_answer;

typedef struct partial_port_state {
    uint32_t number;      /* counted from 0 */
    uint32_t pool_spent;  /* 1 when the port is marked for the pool, otherwise 0 */
    uint32_t slots_spent; /* 1 when it is marked for the slots, otherwise 0 */
} partial_port_state;

/* The proved functions. No pointer that they are given may be null. */
uint32_t partial_door_memory_new(uint64_t number, const uint64_t *initial,
                                 size_t components, uint32_t ports,
                                 const partial_arena *arena, partial_memory *memory);
uint32_t partial_door_memory_take_port(partial_memory *memory, partial_port *port);
uint32_t partial_door_memory_give_port(partial_memory *memory, partial_port *port);
uint32_t partial_door_memory_close(partial_memory *memory, uint64_t *into, size_t room);
uint32_t partial_door_port_update(partial_port *port, uint32_t component,
                                  uint64_t value, partial_update_answer *answer);
uint32_t partial_door_port_update_if(partial_port *port, uint32_t component,
                                     uint64_t expected, uint64_t value,
                                     partial_update_answer *answer);
uint32_t partial_door_port_read(partial_port *port, uint32_t component,
                                partial_read_answer *answer);
uint32_t partial_door_port_scan(partial_port *port, const uint32_t *which,
                                size_t positions, uint64_t *into, size_t room,
                                partial_scan_answer *answer);
uint32_t partial_door_port_scan_stamped(partial_port *port, const uint32_t *which,
                                        size_t positions, uint64_t *into, size_t room,
                                        uint64_t *stamps, size_t count,
                                        partial_scan_answer *answer);
uint32_t partial_door_port_unchanged(partial_port *port, const uint32_t *which,
                                     size_t positions, const uint64_t *stamps,
                                     size_t count, uint32_t *answer);
uint32_t partial_door_port_meet(partial_port *first, partial_port *second);
uint32_t partial_door_port_number(partial_port *port, uint32_t *answer);
uint32_t partial_door_opening_open(uint64_t opening, const uint64_t *initial,
                                   size_t components, const partial_sizes *sizes,
                                   uint32_t ports, partial_handle *memory);
uint32_t partial_door_opening_reopen(uint64_t opening, partial_handle *closed,
                                     uint32_t components, const partial_sizes *sizes,
                                     uint32_t ports, partial_handle *memory);
uint32_t partial_door_opening_take_port(partial_handle *memory, partial_handle *port);
uint32_t partial_door_opening_give_port(partial_handle *memory, partial_handle *port);
uint32_t partial_door_opening_update(partial_handle *port, uint32_t component,
                                     uint64_t value, partial_update_answer *answer);
uint32_t partial_door_opening_update_if(partial_handle *port, uint32_t component,
                                        uint64_t expected, uint64_t value,
                                        partial_update_answer *answer);
uint32_t partial_door_opening_read(partial_handle *port, uint32_t component,
                                   partial_read_answer *answer);
uint32_t partial_door_opening_scan(partial_handle *port, const uint32_t *which,
                                   size_t positions, uint64_t *into, size_t room,
                                   partial_scan_answer *answer);
uint32_t partial_door_opening_state(partial_handle *port, partial_port_state *answer);
uint32_t partial_door_opening_meet(partial_handle *first, partial_handle *second);
uint32_t partial_door_opening_close(partial_handle *memory);
uint32_t partial_door_opening_values(partial_handle *closed, uint64_t *into,
                                     size_t room);
uint32_t partial_door_free(partial_handle *handle);
uint32_t partial_door_version(void);

/* How many memories and openings were made in this program: the number of the last one. */
extern uint64_t partial_memories_made;
__attribute__((weak)) uint64_t partial_memories_made = 0;

/* The number of a new one. */
static inline uint64_t partial_next_number(void)
{
    return __atomic_add_fetch(&partial_memories_made, 1, __ATOMIC_SEQ_CST);
}

/*
 * Makes a long-lived memory, in the empty handle `memory`. It has a component
 * for each value in `initial`, and holds `ports` ports, 1 to 255. `arena` says how large
 * its arenas are.
 *
 * When ports times components is at most 65536, a scan may announce itself, so that
 * updates help it: then the greatest claim of a port has 97 words, and 2 more for each
 * component. Otherwise it has 96 words, and a scan whose collects differ again and again
 * changes the epoch, which takes longer the more components there are.
 *
 * 23: a pointer is null. 31: the library is of another version than this header. 18: the
 * handle holds something. 5: there are not 1 to 255 ports. 1: there are not 1 to 65536
 * values. 3: there are more than 65536 list words. 4: the pool words, with the greatest
 * claim of each port and 3 for each component, are more than 4194304. 6: an allocation was
 * refused. The handle is as it was.
 */
static inline uint32_t partial_memory_new_with(const uint64_t *initial, size_t components,
                                               uint32_t ports, const partial_arena *arena,
                                               partial_memory *memory)
{
    const uint64_t none = 0;
    if ((!initial && components) || !arena || !memory) {
        return PARTIAL_NULL;
    }
    if (partial_door_version() != PARTIAL_VERSION_NUMBER) {
        return PARTIAL_OTHER_VERSION;
    }
    return partial_door_memory_new(partial_next_number(), initial ? initial : &none,
                                   components, ports, arena, memory);
}

/*
 * The same, with arenas of 1024 list words, and of 16384 pool words for each port, but no
 * more than 131072 divided by the number of ports; or of 16 for each component, but no more
 * than 33554432 divided by the number of ports, if that is more. They are no more than
 * there is room for, and always 8192 at least. So neither 3 nor 4 is returned.
 */
static inline uint32_t partial_memory_new(const uint64_t *initial, size_t components,
                                          uint32_t ports, partial_memory *memory)
{
    const partial_arena arena = {1024, 0};
    return partial_memory_new_with(initial, components, ports, &arena, memory);
}

/*
 * Takes the last port that a memory holds out of it, into an empty handle. A new memory
 * holds its ports in the order of their numbers, which are counted from 0.
 *
 * 23: a pointer is null. 18: `port` holds something. 17: `memory` holds no open memory.
 * 21: the memory holds no port. 6: an allocation was refused. Both handles are as they
 * were.
 */
static inline uint32_t partial_memory_take_port(partial_memory *memory, partial_port *port)
{
    if (!memory || !port) {
        return PARTIAL_NULL;
    }
    return partial_door_memory_take_port(memory, port);
}

/*
 * Returns a port to its memory, from which it may be taken again. Its handle is empty
 * afterwards.
 *
 * 23: a pointer is null. 17: `memory` holds no open memory, or `port` no port. 20: the
 * port is of another memory. 6: an allocation was refused. Both handles are as they were.
 */
static inline uint32_t partial_memory_give_port(partial_memory *memory, partial_port *port)
{
    if (!memory || !port) {
        return PARTIAL_NULL;
    }
    return partial_door_memory_give_port(memory, port);
}

/*
 * Closes a memory to which all ports were returned, and puts its values into `into`,
 * which has room for as many as it has components. They are those after one history,
 * which begins with all that each port had observed. The handle is empty afterwards.
 *
 * 23: a pointer is null. 17: the handle holds no memory. 19: `room` isn't the number of
 * components. 22: not all ports were returned. 24: all were, and another handle still
 * references the memory; a port that is returned gives up its reference, so a caller who
 * follows the rules above doesn't get it. After these the handle is as it was. 6: an
 * allocation was refused; nothing is lost, the memory may be closed later, and until
 * then it gives out no port. `into` is as it was.
 */
static inline uint32_t partial_memory_close(partial_memory *memory, uint64_t *into,
                                            size_t room)
{
    uint64_t no_value = 0;
    if (!memory || (!into && room)) {
        return PARTIAL_NULL;
    }
    return partial_door_memory_close(memory, into ? into : &no_value, room);
}

/*
 * Empties the handle of a memory, and frees what it held. The memory itself is freed when
 * the handles of all its ports are empty too. Returns 0, or 23 when the pointer is null.
 */
static inline uint32_t partial_memory_free(partial_memory *memory)
{
    if (!memory) {
        return PARTIAL_NULL;
    }
    return partial_door_free(PARTIAL_HANDLE(memory));
}

/*
 * Sets component `component` to `value`.
 *
 * When it was applied, it is the last entry of the history that the port has observed
 * afterwards, and no other update has its stamp. Otherwise another update, with the
 * stamp in `answer`, took effect during the call and overwrote it.
 *
 * An applied update publishes what its thread wrote before: a thread that reads its
 * value, or a later one of this component, sees that. A lost one publishes nothing.
 *
 * 23: a pointer is null. 17: the handle holds no port. 7: `component` isn't below the
 * number of components. 25: the epoch was changed 16 times during the call. 27: the epoch
 * has to be changed, and is the last one that a word can name. `answer` is as it was, and
 * nothing was applied.
 */
static inline uint32_t partial_port_update(partial_port *port, uint32_t component,
                                           uint64_t value, partial_update_answer *answer)
{
    if (!port || !answer) {
        return PARTIAL_NULL;
    }
    return partial_door_port_update(port, component, value, answer);
}

/*
 * Sets component `component` to `value` if it has the stamp `expected`, which a read or
 * an update of this memory has answered. Otherwise the component had another stamp, the
 * one in `answer`, at a moment of the call. No stamp of a memory ever comes back.
 *
 * The numbers are those of `partial_port_update`.
 */
static inline uint32_t partial_port_update_if(partial_port *port, uint32_t component,
                                              uint64_t expected, uint64_t value,
                                              partial_update_answer *answer)
{
    if (!port || !answer) {
        return PARTIAL_NULL;
    }
    return partial_door_port_update_if(port, component, expected, value, answer);
}

/*
 * Reads component `component`: its value and its stamp at a moment of the call.
 *
 * 23: a pointer is null. 17: the handle holds no port. 7: `component` isn't below the
 * number of components. `answer` is as it was.
 */
static inline uint32_t partial_port_read(partial_port *port, uint32_t component,
                                         partial_read_answer *answer)
{
    if (!port || !answer) {
        return PARTIAL_NULL;
    }
    return partial_door_port_read(port, component, answer);
}

/*
 * Scans the components in `which`, in this order and with repeats: `into` has their
 * values as they stood together at one moment of the call.
 *
 * 23: a pointer is null. 17: the handle holds no port. 19: `positions` and `room`
 * differ, or there are more positions than components. 7: an index in `which` isn't below
 * the number of components. 27: the epoch has to be changed, and is the last one. `into`
 * and `answer` are as they were.
 */
static inline uint32_t partial_port_scan(partial_port *port,
                                         const uint32_t *which, size_t positions,
                                         uint64_t *into, size_t room,
                                         partial_scan_answer *answer)
{
    const uint32_t no_component = 0;
    uint64_t no_value = 0;
    if (!port || (!which && positions) || (!into && room) || !answer) {
        return PARTIAL_NULL;
    }
    return partial_door_port_scan(port, which ? which : &no_component, positions,
                                  into ? into : &no_value, room, answer);
}

/*
 * Scans the components in `which`, in this order and with repeats: `into` has their
 * values and `stamps` their stamps as they stood together at one moment of the call.
 * `count` is how many stamps there is room for. Where `answer` says that the scan took
 * the view of an update, which has no stamps, `stamps` is as it was.
 *
 * 23: a pointer is null. 17: the handle holds no port. 19: `positions` and `room`, or
 * `positions` and `count`, differ, or there are more positions than components. 7: an
 * index in `which` isn't below the number of components. 27: the epoch has to be changed,
 * and is the last one. `into`, `stamps` and `answer` are as they were.
 */
static inline uint32_t partial_port_scan_stamped(partial_port *port,
                                                 const uint32_t *which, size_t positions,
                                                 uint64_t *into, size_t room,
                                                 uint64_t *stamps, size_t count,
                                                 partial_scan_answer *answer)
{
    const uint32_t no_component = 0;
    uint64_t no_value = 0;
    uint64_t no_stamp = 0;
    if (!port || (!which && positions) || (!into && room) || (!stamps && count) || !answer) {
        return PARTIAL_NULL;
    }
    return partial_door_port_scan_stamped(port, which ? which : &no_component, positions,
                                          into ? into : &no_value, room,
                                          stamps ? stamps : &no_stamp, count, answer);
}

/*
 * Says whether each component in `which` still has the stamp beside it in `stamps`, as a
 * read of this port has answered it: `answer` is 1 then, and they stood together at one
 * moment of the call. It is 0 when a component isn't there, or had another stamp at a
 * moment of the call. `count` is how many stamps there are.
 *
 * 23: a pointer is null. 17: the handle holds no port. 19: `positions` and `count`
 * differ. `answer` is as it was.
 */
static inline uint32_t partial_port_unchanged(partial_port *port,
                                              const uint32_t *which, size_t positions,
                                              const uint64_t *stamps, size_t count,
                                              uint32_t *answer)
{
    const uint32_t no_component = 0;
    const uint64_t no_stamp = 0;
    if (!port || (!which && positions) || (!stamps && count) || !answer) {
        return PARTIAL_NULL;
    }
    return partial_door_port_unchanged(port, which ? which : &no_component, positions,
                                       stamps ? stamps : &no_stamp, count, answer);
}

/*
 * Has two ports of one memory meet: each has observed afterwards all that either had
 * observed before. When the one has read a component before, and the other reads it
 * afterwards, the second value isn't an earlier one than the first.
 *
 * 23: a pointer is null. 30: both handles are one. 17: a handle holds no port. 20: the
 * ports are of two memories. Both are as they were.
 */
static inline uint32_t partial_port_meet(partial_port *first, partial_port *second)
{
    if (!first || !second) {
        return PARTIAL_NULL;
    }
    if (first == second) {
        return PARTIAL_SAME;
    }
    return partial_door_port_meet(first, second);
}

/*
 * Reports the number of a port.
 *
 * 23: a pointer is null. 17: the handle holds no port. `answer` is as it was.
 */
static inline uint32_t partial_port_number(partial_port *port, uint32_t *answer)
{
    if (!port || !answer) {
        return PARTIAL_NULL;
    }
    return partial_door_port_number(port, answer);
}

/*
 * Empties the handle of a port, and frees the port. Its memory can't be closed then; a
 * port that is to be used again is returned. Returns 0, or 23 when the pointer is null.
 */
static inline uint32_t partial_port_free(partial_port *port)
{
    if (!port) {
        return PARTIAL_NULL;
    }
    return partial_door_free(PARTIAL_HANDLE(port));
}

/* ---- Single openings ---- */

/*
 * Opens a memory into the handle `memory`. It has a component for each value in
 * `initial`, and holds `ports` ports.
 *
 * 23: a pointer is null. 31: the library is of another version than this header. 18: the
 * handle holds something. 1 to 4: the first size that is out of its range. 5: there are
 * not 1 to 64 ports. 6: an allocation was refused. The handle is as it was.
 */
static inline uint32_t partial_opening_open(const uint64_t *initial, size_t components,
                                            const partial_sizes *sizes, uint32_t ports,
                                            partial_handle *memory)
{
    const uint64_t none = 0;
    if ((!initial && components) || !sizes || !memory) {
        return PARTIAL_NULL;
    }
    if (partial_door_version() != PARTIAL_VERSION_NUMBER) {
        return PARTIAL_OTHER_VERSION;
    }
    return partial_door_opening_open(partial_next_number(), initial ? initial : &none,
                                     components, sizes, ports, memory);
}

/*
 * Opens a memory that goes on with the values of a closed one into the handle
 * `memory`. It has `components` components, and those that the closed memory didn't
 * have begin at 0. Stamps start anew. The closed memory stays, and can be reopened
 * again. `ports` as for `partial_opening_open`.
 *
 * 23: a pointer is null. 30: both handles are one. 31: the library is of another version
 * than this header. 18: `memory` holds something. 17: `closed` holds no closed memory. 1
 * to 4: the first size that is out of its range. 5: there are not 1 to 64 ports. 13: the
 * closed memory has more components. 6: an allocation was refused. Both handles are as
 * they were.
 */
static inline uint32_t partial_opening_reopen(partial_handle *closed,
                                              uint32_t components,
                                              const partial_sizes *sizes,
                                              uint32_t ports, partial_handle *memory)
{
    if (!closed || !sizes || !memory) {
        return PARTIAL_NULL;
    }
    if (closed == memory) {
        return PARTIAL_SAME;
    }
    if (partial_door_version() != PARTIAL_VERSION_NUMBER) {
        return PARTIAL_OTHER_VERSION;
    }
    return partial_door_opening_reopen(partial_next_number(), closed, components, sizes,
                                       ports, memory);
}

/*
 * Takes the last port that a memory holds out of it, into an empty handle. A new memory
 * holds its ports in the order of their numbers, which are counted from 0.
 *
 * 23: a pointer is null. 30: both handles are one. 18: `port` holds something. 17:
 * `memory` holds no open memory. 21: the memory holds no port. 6: an allocation was
 * refused. Both handles are as they were.
 */
static inline uint32_t partial_opening_take_port(partial_handle *memory,
                                                 partial_handle *port)
{
    if (!memory || !port) {
        return PARTIAL_NULL;
    }
    if (memory == port) {
        return PARTIAL_SAME;
    }
    return partial_door_opening_take_port(memory, port);
}

/*
 * Returns a port to its memory. Its handle is empty afterwards.
 *
 * 23: a pointer is null. 30: both handles are one. 17: `memory` holds no open memory, or
 * `port` no port. 20: the port is of another memory. 6: an allocation was refused. Both
 * handles are as they were.
 */
static inline uint32_t partial_opening_give_port(partial_handle *memory,
                                                 partial_handle *port)
{
    if (!memory || !port) {
        return PARTIAL_NULL;
    }
    if (memory == port) {
        return PARTIAL_SAME;
    }
    return partial_door_opening_give_port(memory, port);
}

/*
 * Sets component `component` to `value`.
 *
 * When it was applied, it is the last entry of the history that the port has observed
 * afterwards, and no other update has its stamp. Otherwise another update, with the
 * stamp in `answer`, took effect during the call and overwrote it.
 *
 * 23: a pointer is null. 17: the handle holds no port. 7: `component` isn't below the
 * number of components. 9: the port is marked for the pool, or this call marks it.
 * `answer` is as it was, and nothing was applied.
 */
static inline uint32_t partial_opening_update(partial_handle *port, uint32_t component,
                                              uint64_t value,
                                              partial_update_answer *answer)
{
    if (!port || !answer) {
        return PARTIAL_NULL;
    }
    return partial_door_opening_update(port, component, value, answer);
}

/*
 * Sets component `component` to `value` if it has the stamp `expected`. When it wasn't
 * applied, the component had the stamp in `answer`, not the expected one, at a moment of
 * the call.
 *
 * Refusals as those of `partial_opening_update`.
 */
static inline uint32_t partial_opening_update_if(partial_handle *port,
                                                 uint32_t component, uint64_t expected,
                                                 uint64_t value,
                                                 partial_update_answer *answer)
{
    if (!port || !answer) {
        return PARTIAL_NULL;
    }
    return partial_door_opening_update_if(port, component, expected, value, answer);
}

/*
 * Reads component `component`: its value and its stamp at a moment of the call.
 *
 * 23: a pointer is null. 17: the handle holds no port. 7: `component` isn't below the
 * number of components. `answer` is as it was.
 */
static inline uint32_t partial_opening_read(partial_handle *port, uint32_t component,
                                            partial_read_answer *answer)
{
    if (!port || !answer) {
        return PARTIAL_NULL;
    }
    return partial_door_opening_read(port, component, answer);
}

/*
 * Scans the components in `which`, in this order and with repeats: `into` has their
 * values as they stood together at one moment of the call.
 *
 * 23: a pointer is null. 17: the handle holds no port. 19: `positions` and `room`
 * differ, or there are more positions than components. 7: an index in `which` isn't below
 * the number of components. 9, 8: the port is marked for the pool or the slots, or this
 * call marks it. `into` and `answer` are as they were.
 */
static inline uint32_t partial_opening_scan(partial_handle *port, const uint32_t *which,
                                            size_t positions, uint64_t *into,
                                            size_t room, partial_scan_answer *answer)
{
    const uint32_t no_component = 0;
    uint64_t no_value = 0;
    if (!port || (!which && positions) || (!into && room) || !answer) {
        return PARTIAL_NULL;
    }
    return partial_door_opening_scan(port, which ? which : &no_component, positions,
                                     into ? into : &no_value, room, answer);
}

/*
 * Reports the number of a port and its marks for the pool and the slots.
 *
 * 23: a pointer is null. 17: the handle holds no port. `answer` is as it was.
 */
static inline uint32_t partial_opening_state(partial_handle *port,
                                             partial_port_state *answer)
{
    if (!port || !answer) {
        return PARTIAL_NULL;
    }
    return partial_door_opening_state(port, answer);
}

/*
 * Merges what two ports of one memory have observed. When the two then read one
 * component one after the other, the second value isn't an earlier one than the first.
 *
 * 23: a pointer is null. 30: both handles are one. 17: a handle holds no port. 20: the
 * ports are of two memories. Both are as they were.
 */
static inline uint32_t partial_opening_meet(partial_handle *first,
                                            partial_handle *second)
{
    if (!first || !second) {
        return PARTIAL_NULL;
    }
    if (first == second) {
        return PARTIAL_SAME;
    }
    return partial_door_opening_meet(first, second);
}

/*
 * Closes the memory that the handle holds. The handle holds the closed memory afterwards,
 * with the values after one history, which begins with all that each port had observed.
 *
 * 23: the pointer is null. 17: the handle holds no open memory. 22: not all ports were
 * returned. 24: all were, and another handle still references the memory; a port that is
 * returned gives up its reference, so a caller who follows the rules above doesn't get
 * it. After these the handle is as it was. 6: an allocation was refused; the contents
 * are lost, and the handle is empty.
 */
static inline uint32_t partial_opening_close(partial_handle *memory)
{
    if (!memory) {
        return PARTIAL_NULL;
    }
    return partial_door_opening_close(memory);
}

/*
 * Copies the values of a closed memory.
 *
 * 23: a pointer is null. 17: the handle holds no closed memory. 19: `room` isn't the
 * number of its components. `into` is as it was.
 */
static inline uint32_t partial_opening_values(partial_handle *closed, uint64_t *into,
                                              size_t room)
{
    uint64_t no_value = 0;
    if (!closed || (!into && room)) {
        return PARTIAL_NULL;
    }
    return partial_door_opening_values(closed, into ? into : &no_value, room);
}

/*
 * Empties the handle and frees what it held. A memory is freed when its own handle and
 * the handles of all its ports are empty. Once a port was freed, its memory can't be
 * closed. Returns 0, or 23 when the pointer is null.
 */
static inline uint32_t partial_opening_free(partial_handle *handle)
{
    if (!handle) {
        return PARTIAL_NULL;
    }
    return partial_door_free(handle);
}

#ifdef __cplusplus
}
#endif

#endif
