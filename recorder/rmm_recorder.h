/*
 * Records the calls, commits and returns of a monitor, of which `rmmmerge` makes what `rmmcheck` reads.
 * Each CPU writes into a ring of its own, and all take their stamps from one clock. Nothing is allocated.
 * A CPU that finds less room than a command takes has to wait for its ring to be emptied: an event left out
 * would make the history another one.
 */
#ifndef RMM_RECORDER_H
#define RMM_RECORDER_H

#include <inttypes.h>
#include <stdatomic.h>
#include <stdbool.h>
#include <stdint.h>
#include <stdio.h>

/* The most words that a command or a reply has. */
#define RMM_WORDS 10

/* The events of one command. */
#define RMM_MOMENTS 3

enum rmm_moment { RMM_CALLED, RMM_COMMITTED, RMM_RETURNED };

enum rmm_outcome { RMM_OK, RMM_ERR, RMM_MISPLACED };

/* `words` and `count` are of RMM_OK, `status` and `index` of RMM_ERR. */
struct rmm_reply {
    enum rmm_outcome outcome;
    uint8_t status, index, count;
    uint64_t words[RMM_WORDS];
};

/* `function`, `words` and `count` are of a call, `reply` is of the other two. */
struct rmm_event {
    uint64_t stamp;
    enum rmm_moment moment;
    uint32_t function;
    uint8_t count;
    uint64_t words[RMM_WORDS];
    struct rmm_reply reply;
};

/* Zero at the start. A stamp is taken once, and a later one is greater, on whichever CPU. */
struct rmm_clock {
    atomic_uint_fast64_t next;
};

/* `room` events, a power of two. Written by one CPU, and emptied by one reader. */
struct rmm_ring {
    struct rmm_event *events;
    uint32_t room;
    atomic_uint_fast64_t written, taken;
};

static inline void rmm_ring_init(struct rmm_ring *ring, struct rmm_event *events, uint32_t room)
{
    ring->events = events;
    ring->room = room;
    atomic_init(&ring->written, 0);
    atomic_init(&ring->taken, 0);
}

/* Whether a whole command's events have room. Only the reader makes more. */
static inline bool rmm_has_room(struct rmm_ring *ring)
{
    uint64_t written = atomic_load_explicit(&ring->written, memory_order_relaxed);
    uint64_t taken = atomic_load_explicit(&ring->taken, memory_order_acquire);
    return ring->room - (written - taken) >= RMM_MOMENTS;
}

/* Stamps an event and stores it. The ring has room: a command asks first, for all of its events. */
static inline void rmm_push(struct rmm_ring *ring, struct rmm_clock *clock, struct rmm_event *event)
{
    uint64_t written = atomic_load_explicit(&ring->written, memory_order_relaxed);
    event->stamp = atomic_fetch_add_explicit(&clock->next, 1, memory_order_seq_cst);
    ring->events[written & (ring->room - 1)] = *event;
    atomic_store_explicit(&ring->written, written + 1, memory_order_release);
}

/* At entry, before the monitor has looked at anything. */
static inline void rmm_called(struct rmm_ring *ring, struct rmm_clock *clock, uint32_t function,
                              const uint64_t *words, uint8_t count)
{
    struct rmm_event event = {.moment = RMM_CALLED, .function = function, .count = count};
    for (uint8_t at = 0; at < count; at++)
        event.words[at] = words[at];
    rmm_push(ring, clock, &event);
}

/* While every lock is held on which the reply rests, and before the first of them is given back. */
static inline void rmm_committed(struct rmm_ring *ring, struct rmm_clock *clock, const struct rmm_reply *reply)
{
    struct rmm_event event = {.moment = RMM_COMMITTED, .reply = *reply};
    rmm_push(ring, clock, &event);
}

/* At exit, after the last of the monitor's own work. */
static inline void rmm_returned(struct rmm_ring *ring, struct rmm_clock *clock, const struct rmm_reply *reply)
{
    struct rmm_event event = {.moment = RMM_RETURNED, .reply = *reply};
    rmm_push(ring, clock, &event);
}

/* Takes the oldest event, where there is one. For the one reader of a ring. */
static inline bool rmm_take(struct rmm_ring *ring, struct rmm_event *event)
{
    uint64_t taken = atomic_load_explicit(&ring->taken, memory_order_relaxed);
    if (taken == atomic_load_explicit(&ring->written, memory_order_acquire))
        return false;
    *event = ring->events[taken & (ring->room - 1)];
    atomic_store_explicit(&ring->taken, taken + 1, memory_order_release);
    return true;
}

static inline void rmm_print_words(FILE *out, const uint64_t *words, uint8_t count)
{
    for (uint8_t at = 0; at < count; at++)
        fprintf(out, " %" PRIx64, words[at]);
}

/* The first line for `rmmmerge`: how many granules and CPUs the machine has. */
static inline void rmm_print_sizes(FILE *out, unsigned granules, unsigned cpus)
{
    fprintf(out, "rme1 %u %u\n", granules, cpus);
}

/* The line of an event: its stamp, its CPU, its moment, and the command or reply as the history has it. */
static inline void rmm_print(FILE *out, unsigned cpu, const struct rmm_event *event)
{
    static const char *const moments[] = {"call", "commit", "return"};
    const struct rmm_reply *reply = &event->reply;
    fprintf(out, "%" PRIu64 " %u %s", event->stamp, cpu, moments[event->moment]);
    if (event->moment == RMM_CALLED) {
        fprintf(out, " %08" PRIx32, event->function);
        rmm_print_words(out, event->words, event->count);
    } else if (reply->outcome == RMM_OK) {
        fputs(" ok", out);
        rmm_print_words(out, reply->words, reply->count);
    } else if (reply->outcome == RMM_ERR) {
        fprintf(out, " err %u %u", reply->status, reply->index);
    } else {
        fputs(" misplaced", out);
    }
    fputc('\n', out);
}

#endif
