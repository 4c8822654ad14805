/*
 * A toy monitor: GRANULE_DELEGATE and GRANULE_UNDELEGATE, with a lock for each granule. It can be built with one of three mistakes:
 *
 *     LOCK_LEFT_OUT     GRANULE_DELEGATE takes no lock
 *     CHECKED_BEFORE    a granule's state is read before its lock is taken, and used after it
 *     FREED_EARLY       a granule's lock is given back before the reply is made
 */
enum { DELEGATE = 0xc4000151, UNDELEGATE = 0xc4000152 };

#define RMM_HAS(function) ((function) == DELEGATE || (function) == UNDELEGATE)
#include "rmm_driver.h"

#define GRANULE_BYTES 4096
#define MOST_GRANULES 4096

struct granule {
    atomic_bool is_locked, is_delegated;
};

static struct granule granules[MOST_GRANULES];

static bool needs_lock(uint32_t function)
{
#ifdef LOCK_LEFT_OUT
    return function != DELEGATE;
#else
    (void)function;
    return true;
#endif
}

static void take(struct granule *granule)
{
    while (atomic_exchange(&granule->is_locked, true))
        sched_yield();
}

static void give(struct granule *granule)
{
    atomic_store(&granule->is_locked, false);
}

static bool is_delegated(struct granule *granule)
{
    return atomic_load_explicit(&granule->is_delegated, memory_order_relaxed);
}

/* The granule is looked at and changed in two steps, and another thread may have a turn between them. */
static void change(struct granule *granule, bool was_delegated, uint32_t function, struct rmm_reply *reply)
{
    *reply = (struct rmm_reply){.outcome = RMM_ERR, .status = 1};
    if (was_delegated != (function == UNDELEGATE))
        return;
    sched_yield();
    atomic_store_explicit(&granule->is_delegated, !was_delegated, memory_order_relaxed);
    reply->outcome = RMM_OK;
}

void handle(unsigned cpu, const struct rmm_command *command, struct rmm_reply *reply)
{
    uint64_t address = command->words[0];
    if (address % GRANULE_BYTES || address / GRANULE_BYTES >= rmm_granules) {
        *reply = (struct rmm_reply){.outcome = RMM_ERR, .status = 1};
        rmm_commit(cpu, reply);
        return;
    }
    struct granule *granule = &granules[address / GRANULE_BYTES];
    bool has_lock = needs_lock(command->function);
#ifdef CHECKED_BEFORE
    bool was_delegated = is_delegated(granule);
    if (has_lock)
        take(granule);
#else
    if (has_lock)
        take(granule);
    bool was_delegated = is_delegated(granule);
#endif
    change(granule, was_delegated, command->function, reply);
#ifdef FREED_EARLY
    give(granule);
    has_lock = false;
    sched_yield();
#endif
    rmm_commit(cpu, reply);
    if (has_lock)
        give(granule);
}
