/* Kevrespil for C: hazard pointers as a machine that takes one step at a time.
 *
 * You own the tables, in a struct kevrespil that is all 0 at first. A thread is a number from 0 to 15. It starts an
 * operation (kevrespil_begin) and then takes steps (kevrespil_go) until the operation is over; between two of its steps
 * other threads may take theirs. Every call is answered by a number and a value, whatever was asked. A refusal, 16 or
 * above, changes nothing, but that 25 and 26 at a step also end the operation and count as a step.
 *
 * Records are numbered 1 to 1,024, sources 1 to 64, nodes 1 to 4,096, and 0 is none.
 *
 * Link crates/kevrespil_c/out/libkevrespil.a, which tools/archive.sh writes: x86-64, Linux. tools/library.c is a small
 * program that does. The machine needs no memory of its own, no lock and no clock; calls on one struct must not run at
 * the same time.
 */
#ifndef KEVRESPIL_H
#define KEVRESPIL_H

#include <stdbool.h>
#include <stddef.h>
#include <stdint.h>

#ifdef __cplusplus
extern "C" {
#endif

/* The tables. What stands where is in docs/RULES.md; you need not know it. */
struct kevrespil {
    uint32_t ids[4507];
    uint32_t next[4096];
    uint32_t state[4096];
    uint64_t words[85];
    uint64_t guards[1024];
};

/* What a start or a step answers. */
struct kevrespil_answer {
    uint32_t number;
    uint64_t value;
};

enum kevrespil_number {
    KEVRESPIL_STEPPED = 0,        /* the step was taken, the operation goes on */
    KEVRESPIL_STARTED = 1,        /* the operation has begun */
    KEVRESPIL_DONE = 2,           /* it is over; value: a record, a node, how many nodes it reclaimed, or 0 */
    KEVRESPIL_RETRY = 3,          /* a try is over: the source held another node, the value */
    KEVRESPIL_RECLAIMED = 4,      /* the node in value is reclaimed: free its memory now. The operation goes on */
    KEVRESPIL_TABLE_SIZE = 16,    /* a table has the wrong size */
    KEVRESPIL_THREAD = 17,        /* the thread is above 15 */
    KEVRESPIL_SHUT_DOWN = 18,     /* a start during or after shutdown */
    KEVRESPIL_STEP_LIMIT = 19,    /* 2^40 steps were taken */
    KEVRESPIL_INSIDE = 20,        /* a start of a thread that is inside an operation */
    KEVRESPIL_IDLE = 21,          /* a step of a thread that is not */
    KEVRESPIL_RECORD = 22,        /* the thread does not own the record */
    KEVRESPIL_SOURCE = 23,        /* the source is not 1 to 64 */
    KEVRESPIL_NODE = 24,          /* the node is above 4,096, or 0 for a retire */
    KEVRESPIL_NOT_RETIRABLE = 25, /* a retire of a node not live or in a source; a swap whose node is waiting */
    KEVRESPIL_NO_RECORDS = 26,    /* all 1,024 records are taken */
    KEVRESPIL_IN_USE = 27,        /* a shutdown while another thread is inside, or a record is owned */
    KEVRESPIL_NO_OPERATION = 28,  /* no such kind, or a field that it does not use is not 0 */
    KEVRESPIL_OUT_OF_RANGE = 29   /* a table holds a number that is out of its range */
};

/* The operations, with the fields that each uses. The others must be 0. */
enum kevrespil_kind {
    KEVRESPIL_ACQUIRE = 1,     /* done with a record, which the thread owns then */
    KEVRESPIL_RELEASE = 2,     /* a: record */
    KEVRESPIL_PROTECT = 3,     /* a: record, b: source; done with the node that is claimed now */
    KEVRESPIL_TRY = 4,         /* a: record, b: source, c: the node that it should hold; done, or retry */
    KEVRESPIL_TRY_PROTECT = 5, /* the same, but done at once for node 0 */
    KEVRESPIL_RESET = 6,       /* a: record, whose claim ends */
    KEVRESPIL_RAW = 7,         /* a: record, c: node */
    KEVRESPIL_SWAP = 8,        /* b: source, c: node or 0; done with the node that was there */
    KEVRESPIL_RETIRE = 9,      /* a: node, c: address; done with how many nodes it reclaimed */
    KEVRESPIL_EAGER = 10,      /* reclaims what nobody claims; done with how many */
    KEVRESPIL_CLEANUP = 11,    /* the same, then waits until no thread is reclaiming */
    KEVRESPIL_SHUTDOWN = 12    /* reclaims all that is waiting; done with how many */
};

/* The two functions of the archive: each table with its number of elements. */
struct kevrespil_answer kevrespil_start(uint32_t *ids, size_t ids_length, uint32_t *next, size_t next_length,
                                        uint32_t *state, size_t state_length, uint64_t *words, size_t words_length,
                                        uint64_t *guards, size_t guards_length, uint32_t thread, uint32_t kind,
                                        uint32_t a, uint32_t b, uint64_t c);

struct kevrespil_answer kevrespil_step(uint32_t *ids, size_t ids_length, uint32_t *next, size_t next_length,
                                       uint32_t *state, size_t state_length, uint64_t *words, size_t words_length,
                                       uint64_t *guards, size_t guards_length, uint32_t thread, bool flag,
                                       uint64_t clock);

/* A thread starts an operation. */
static inline struct kevrespil_answer kevrespil_begin(struct kevrespil *k, uint32_t thread, enum kevrespil_kind kind,
                                                      uint32_t a, uint32_t b, uint64_t c)
{
    return kevrespil_start(k->ids, 4507, k->next, 4096, k->state, 4096, k->words, 85, k->guards, 1024, thread,
                           (uint32_t)kind, a, b, c);
}

/* A thread takes a step. A weak exchange fails if spurious is true; the clock counts nanoseconds. */
static inline struct kevrespil_answer kevrespil_go(struct kevrespil *k, uint32_t thread, bool spurious, uint64_t clock)
{
    return kevrespil_step(k->ids, 4507, k->next, 4096, k->state, 4096, k->words, 85, k->guards, 1024, thread, spurious,
                          clock);
}

#ifdef __cplusplus
}
#endif

#endif
