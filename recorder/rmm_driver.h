/*
 * Drives a monitor: reads calls, starts a thread for each CPU, has the monitor handle the calls of each, and prints the events.
 *
 *     MONITOR GRANULES CPUS [SECONDS] < CALLS > EVENTS
 *
 * A monitor under test is one source file that includes this header and has `handle`. It is built with -std=c11 -pthread.
 * Where a call hasn't returned after so many seconds, or the monitor crashes, the events until then are printed.
 */
#ifndef RMM_DRIVER_H
#define RMM_DRIVER_H

#define _GNU_SOURCE

#include "rmm_recorder.h"

#include <pthread.h>
#include <sched.h>
#include <signal.h>
#include <stdlib.h>
#include <time.h>
#include <unistd.h>

#define RMM_MOST_CPUS 8

/* The exit status where a call hung. */
#define RMM_HUNG 3

/* `count` words of the function. */
struct rmm_command {
    uint32_t function;
    uint8_t count;
    uint64_t words[RMM_WORDS];
};

/*
 * The monitor under test: carries the command out as this CPU, and fills in the reply. It is called on the CPU's thread, and
 * calls `rmm_commit` once, with the reply, while every lock is held on which the reply rests.
 */
void handle(unsigned cpu, const struct rmm_command *command, struct rmm_reply *reply);

/* Whether the monitor has a function. Calls of others are left out, as though nobody had made them. */
#ifndef RMM_HAS
#define RMM_HAS(function) ((void)(function), true)
#endif

struct rmm_cpu {
    struct rmm_ring ring;
    struct rmm_command *commands;
    uint32_t count, room;
    uint64_t random;
    pthread_t thread;
};

/* How large the machine is: known before the first call. */
static uint64_t rmm_granules;
static unsigned rmm_cpu_count;

static struct rmm_cpu rmm_cpus[RMM_MOST_CPUS];
static struct rmm_clock rmm_stamps;
static atomic_uint rmm_ready, rmm_done;
static atomic_bool rmm_printed;

static inline void rmm_commit(unsigned cpu, const struct rmm_reply *reply)
{
    rmm_committed(&rmm_cpus[cpu].ring, &rmm_stamps, reply);
}

static void rmm_fail(const char *what)
{
    fprintf(stderr, "monitor: %s\n", what);
    exit(2);
}

/* A line `CPU FUNCTION WORD..`: the CPU in decimal, the others in hex. */
static void rmm_read_call(char *line)
{
    char *at = line;
    struct rmm_command command = {0};
    unsigned long cpu = strtoul(at, &at, 10);
    if (at == line || cpu >= rmm_cpu_count)
        rmm_fail("a call of no CPU");
    command.function = strtoul(at, &at, 16);
    for (;;) {
        char *end;
        uint64_t word = strtoull(at, &end, 16);
        if (end == at)
            break;
        if (command.count == RMM_WORDS)
            rmm_fail("a call has too many words");
        command.words[command.count++] = word;
        at = end;
    }
    if (*at != '\n' && *at != '\0')
        rmm_fail("a call can't be read");
    if (!RMM_HAS(command.function))
        return;
    struct rmm_cpu *caller = &rmm_cpus[cpu];
    if (caller->count == caller->room) {
        caller->room = caller->room ? caller->room * 2 : 64;
        caller->commands = realloc(caller->commands, caller->room * sizeof command);
        if (!caller->commands)
            rmm_fail("no memory");
    }
    caller->commands[caller->count++] = command;
}

/* A ring with room for every event of the CPU's calls. */
static void rmm_make_ring(struct rmm_cpu *cpu)
{
    uint32_t room = 4;
    while (room < cpu->count * RMM_MOMENTS)
        room *= 2;
    struct rmm_event *events = calloc(room, sizeof *events);
    if (!events)
        rmm_fail("no memory");
    rmm_ring_init(&cpu->ring, events, room);
}

/* Now and then another CPU goes first (numbers by Marsaglia 2003). */
static void rmm_pause(uint64_t *random)
{
    *random ^= *random << 13;
    *random ^= *random >> 7;
    *random ^= *random << 17;
    if (*random % 8 == 0)
        sched_yield();
    for (uint64_t turn = *random >> 8 & 255; turn > 0; turn--)
        atomic_signal_fence(memory_order_seq_cst);
}

static void *rmm_run(void *given)
{
    struct rmm_cpu *cpu = given;
    atomic_fetch_add(&rmm_ready, 1);
    while (atomic_load(&rmm_ready) < rmm_cpu_count)
        sched_yield();
    for (uint32_t at = 0; at < cpu->count; at++) {
        const struct rmm_command *command = &cpu->commands[at];
        struct rmm_reply reply = {0};
        rmm_pause(&cpu->random);
        rmm_called(&cpu->ring, &rmm_stamps, command->function, command->words, command->count);
        handle(cpu - rmm_cpus, command, &reply);
        rmm_returned(&cpu->ring, &rmm_stamps, &reply);
    }
    atomic_fetch_add(&rmm_done, 1);
    return NULL;
}

/* Once: whoever comes second leaves it to the first. */
static void rmm_print_events(void)
{
    struct rmm_event event;
    if (atomic_exchange(&rmm_printed, true))
        return;
    rmm_print_sizes(stdout, (unsigned)rmm_granules, rmm_cpu_count);
    for (unsigned at = 0; at < rmm_cpu_count; at++)
        while (rmm_take(&rmm_cpus[at].ring, &event))
            rmm_print(stdout, at, &event);
    fflush(stdout);
}

static void rmm_crashed(int number)
{
    rmm_print_events();
    _exit(128 + number);
}

/* Waits for all CPUs, or so many milliseconds. */
static bool rmm_wait(unsigned long limit)
{
    struct timespec moment = {.tv_nsec = 1000000};
    for (unsigned long passed = 0; atomic_load(&rmm_done) < rmm_cpu_count; passed++) {
        if (passed == limit)
            return false;
        nanosleep(&moment, NULL);
    }
    return true;
}

static void rmm_read_calls(void)
{
    char line[512];
    while (fgets(line, sizeof line, stdin))
        rmm_read_call(line);
    for (unsigned at = 0; at < rmm_cpu_count; at++)
        rmm_make_ring(&rmm_cpus[at]);
}

int main(int count, char **words)
{
    static char buffer[1 << 16];
    static const int crashes[] = {SIGSEGV, SIGBUS, SIGFPE, SIGILL, SIGABRT};
    if (count < 3 || count > 4)
        rmm_fail("usage: MONITOR GRANULES CPUS [SECONDS] < CALLS > EVENTS");
    rmm_granules = strtoull(words[1], NULL, 10);
    rmm_cpu_count = strtoul(words[2], NULL, 10);
    if (rmm_cpu_count < 1 || rmm_cpu_count > RMM_MOST_CPUS)
        rmm_fail("1 to 8 CPUs");
    unsigned long seconds = count == 4 ? strtoul(words[3], NULL, 10) : 10;
    setvbuf(stdout, buffer, _IOFBF, sizeof buffer);
    rmm_read_calls();
    for (unsigned at = 0; at < sizeof crashes / sizeof *crashes; at++)
        signal(crashes[at], rmm_crashed);
    for (unsigned at = 0; at < rmm_cpu_count; at++) {
        rmm_cpus[at].random = (uint64_t)getpid() * RMM_MOST_CPUS + at + 1;
        if (pthread_create(&rmm_cpus[at].thread, NULL, rmm_run, &rmm_cpus[at]))
            rmm_fail("cannot start a thread");
    }
    bool has_ended = rmm_wait(seconds * 1000);
    for (unsigned at = 0; has_ended && at < rmm_cpu_count; at++)
        pthread_join(rmm_cpus[at].thread, NULL);
    rmm_print_events();
    _exit(ferror(stdout) ? 2 : has_ended ? 0 : RMM_HUNG);
}

#endif
