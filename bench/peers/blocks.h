/* What the C programs of this folder have in common with pool_bench: its words, draws, threads, clock and line. It has
   no buffers: what a block does with them is each program's own.

   The words are WORKLOAD THREADS BLOCKS 1 REPEATS [START]; each repetition writes one line: the first four words, the
   nanoseconds that it took, 0, the sum of what was read, and how many blocks were refused. */
#ifndef BLOCKS_H
#define BLOCKS_H

#include <inttypes.h>
#include <pthread.h>
#include <stdbool.h>
#include <stdint.h>
#include <stdio.h>
#include <stdlib.h>
#include <string.h>
#include <time.h>

enum { MOST_LANES = 16 };

struct plan {
    const char *work;
    uint32_t threads, blocks, repeats, start;
};

struct draws {
    uint64_t state;
};

/* What a lane's blocks came to. */
struct tally {
    uint64_t sum, refused;
};

/* A program: the workloads that it knows, with a blank before and behind each; what it opens before the clock starts
   and closes once it has stopped; and the blocks of one lane. */
struct program {
    const char *works;
    void *(*open)(const struct plan *plan);
    struct tally (*run)(void *pool, uint32_t lane, const struct plan *plan, struct draws draws);
    void (*close)(void *pool);
};

static const uint64_t FACTOR = 1103515245, SUMMAND = 12345, MODULUS = 2147483648;

static inline uint32_t draw(struct draws *draws)
{
    draws->state = (draws->state * FACTOR + SUMMAND) % MODULUS;
    return (uint32_t)(draws->state / 256);
}

/* Leaves out so many draws: at each bit of the count, what that many draws come to. */
static inline void skip(struct draws *draws, uint64_t count)
{
    uint64_t factor = FACTOR, summand = SUMMAND;
    for (; count > 0; count /= 2) {
        if (count % 2 == 1) draws->state = (draws->state * factor + summand) % MODULUS;
        summand = factor * summand + summand;
        factor = factor * factor;
    }
}

/* The size of a buffer of w1: 16 to 1,024 bytes. */
static inline uint32_t mixed_size(struct draws *draws)
{
    return 16 + draw(draws) % 1009;
}

/* The size of a buffer of w3: 16 bytes to 4 MiB, small ones more often. */
static inline uint32_t places_size(struct draws *draws)
{
    uint32_t one = draw(draws) % 19, other = draw(draws) % 19;
    return 16 + draw(draws) % ((16u << (one < other ? one : other)) - 15);
}

/* Clears bytes by the C library's memset, as the pool does. A compiler that knows of a size may take a slower loop, so
   it is kept from knowing. */
static inline void clear(uint8_t *bytes, size_t size)
{
    __asm__ volatile("" : "+r"(size));
    memset(bytes, 0, size);
}

static inline uint64_t sum_of(const uint8_t bytes[4])
{
    return (uint64_t)bytes[0] + bytes[1] + bytes[2] + bytes[3];
}

/* One lane's part of a repetition. */
struct part {
    const struct program *program;
    const struct plan *plan;
    void *pool;
    pthread_t thread;
    uint32_t lane;
    struct tally tally;
};

static void *run_part(void *at)
{
    struct part *part = at;
    uint64_t each = strcmp(part->plan->work, "w3") ? 2 : 5;
    struct draws draws = {part->plan->start % MODULUS};
    skip(&draws, part->lane * each * part->plan->blocks);
    part->tally = part->program->run(part->pool, part->lane, part->plan, draws);
    return NULL;
}

static uint64_t now(void)
{
    struct timespec time;
    clock_gettime(CLOCK_MONOTONIC, &time);
    return (uint64_t)time.tv_sec * 1000000000u + (uint64_t)time.tv_nsec;
}

/* One repetition. As in pool_bench the first lane works on the thread that measures, and the start of the other
   threads is part of the time. */
static void repeat(const struct program *program, const struct plan *plan)
{
    struct part parts[MOST_LANES];
    struct tally all = {0, 0};
    void *pool = program->open(plan);
    uint64_t began = now();
    for (uint32_t lane = 0; lane < plan->threads; lane++) {
        parts[lane] = (struct part){.program = program, .plan = plan, .pool = pool, .lane = lane};
        if (lane > 0 && pthread_create(&parts[lane].thread, NULL, run_part, &parts[lane])) exit(1);
    }
    run_part(&parts[0]);
    for (uint32_t lane = 1; lane < plan->threads; lane++) pthread_join(parts[lane].thread, NULL);
    uint64_t took = now() - began;
    program->close(pool);
    for (uint32_t lane = 0; lane < plan->threads; lane++) {
        all.sum += parts[lane].tally.sum;
        all.refused += parts[lane].tally.refused;
    }
    printf("%s %" PRIu32 " %" PRIu32 " 1 %" PRIu64 " 0 %" PRIu64 " %" PRIu64 "\n",
           plan->work, plan->threads, plan->blocks, took, all.sum, all.refused);
}

static uint32_t number(const char *word)
{
    return (uint32_t)strtoul(word, NULL, 10);
}

/* Measures what the words ask for. The answer is the program's status: 2 for words that ask for none of its works. */
static int measure_all(int argc, char **argv, const struct program *program)
{
    char work[16];
    if (argc < 6 || argc > 7 || strcmp(argv[4], "1")) return 2;
    snprintf(work, sizeof work, " %s ", argv[1]);
    struct plan plan = {argv[1], number(argv[2]), number(argv[3]), number(argv[5]), 0};
    if (argc == 7) plan.start = number(argv[6]);
    if (!strstr(program->works, work) || plan.threads < 1 || plan.threads > MOST_LANES) return 2;
    for (uint32_t done = 0; done < plan.repeats; done++) repeat(program, &plan);
    return 0;
}

#endif
