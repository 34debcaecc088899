/* Blocks through the C library: blocks WORKLOAD THREADS BLOCKS REPEATS
   Writes the least nanoseconds of a block over all repeats, each on a pool of its own. A block of
   w1        is a new buffer of 16 to 1,024 bytes, four bytes set, four got, its release;
   w2        that, but the buffer goes in a parcel to the thread itself before the four are got;
   w3        at one of 64 places a buffer is replaced by a new one of 16 bytes to 4 MiB;
   w4        a retain of one buffer and the release of that;
   w5hit     a new buffer of 256 bytes and its release;
   w5batch   512 new buffers of 256 bytes, then their releases. */
#include "pool_c.h"

#include <pthread.h>
#include <stdio.h>
#include <stdlib.h>
#include <string.h>
#include <time.h>

enum { MOST = 16, BATCH = 512, PLACES = 64 };

#define DO(call)                                               \
    do {                                                       \
        int32_t answer;                                        \
        while ((answer = (call)) == POOL_BUSY) {}              \
        if (answer != POOL_OK) {                               \
            fprintf(stderr, "%s: %d\n", #call, (int)answer);   \
            exit(1);                                           \
        }                                                      \
    } while (0)

struct run {
    struct pool_thread *thread;
    const char *work;
    uint32_t number, blocks, seed;
};

static uint32_t draw(struct run *run)
{
    run->seed = run->seed * 1664525u + 1013904223u;
    return run->seed >> 8;
}

static void mixed(struct run *run, int passes)
{
    struct pool_buffer b;
    struct pool_parcel p = {0};
    uint8_t bytes[4] = {1, 2, 3, 4};
    int32_t ended;
    for (uint32_t k = 0; k < run->blocks; k++) {
        DO(pool_alloc(run->thread, 16 + draw(run) % 1009, &b));
        DO(pool_set(run->thread, &b, 0, bytes, 4));
        if (passes) {
            DO(pool_part(run->thread, &b, run->number, &p));
            DO(pool_accept(run->thread, &p, &b));
        }
        DO(pool_get(run->thread, &b, 0, bytes, 4));
        DO(pool_release(run->thread, &b, &ended));
    }
}

static void places(struct run *run)
{
    struct pool_buffer at[PLACES];
    uint8_t bytes[4] = {0};
    int32_t ended;
    for (uint32_t k = 0; k < PLACES; k++) DO(pool_alloc(run->thread, 16, &at[k]));
    for (uint32_t k = 0; k < run->blocks; k++) {
        struct pool_buffer *b = &at[draw(run) % PLACES];
        uint32_t one = draw(run) % 19, other = draw(run) % 19;
        DO(pool_release(run->thread, b, &ended));
        DO(pool_alloc(run->thread, 16u << (one < other ? one : other), b));
        DO(pool_set(run->thread, b, 0, bytes, 4));
        DO(pool_set(run->thread, b, b->length - 4, bytes, 4));
        DO(pool_get(run->thread, b, b->length - 4, bytes, 4));
    }
    for (uint32_t k = 0; k < PLACES; k++) DO(pool_release(run->thread, &at[k], &ended));
}

static void retained(struct run *run)
{
    struct pool_buffer b, more;
    int32_t ended;
    DO(pool_alloc(run->thread, 16, &b));
    for (uint32_t k = 0; k < run->blocks; k++) {
        DO(pool_retain(run->thread, &b, &more));
        DO(pool_release(run->thread, &more, &ended));
    }
    DO(pool_release(run->thread, &b, &ended));
}

static void batches(struct run *run, uint32_t size)
{
    static struct pool_buffer all[MOST][BATCH];
    struct pool_buffer *b = all[run->number];
    int32_t ended;
    for (uint32_t k = 0; k < run->blocks; k++) {
        for (uint32_t i = 0; i < size; i++) DO(pool_alloc(run->thread, 256, &b[i]));
        for (uint32_t i = 0; i < size; i++) DO(pool_release(run->thread, &b[i], &ended));
    }
}

static void *work(void *at)
{
    struct run *run = at;
    if (!strcmp(run->work, "w1")) mixed(run, 0);
    else if (!strcmp(run->work, "w2")) mixed(run, 1);
    else if (!strcmp(run->work, "w3")) places(run);
    else if (!strcmp(run->work, "w4")) retained(run);
    else if (!strcmp(run->work, "w5hit")) batches(run, 1);
    else batches(run, BATCH);
    return NULL;
}

static uint64_t now(void)
{
    struct timespec t;
    clock_gettime(CLOCK_MONOTONIC, &t);
    return (uint64_t)t.tv_sec * 1000000000u + (uint64_t)t.tv_nsec;
}

static uint64_t repeat(const char *word, uint32_t count, uint32_t blocks)
{
    struct pool_config config = {7, count, 8192, 9, count < 8 ? count : 8, 8, BATCH, 128};
    struct pool_thread threads[MOST];
    struct run runs[MOST];
    struct pool_end end;
    pthread_t started[MOST];
    memset(threads, 0, sizeof threads);
    DO(pool_open(&config, threads, count));
    uint64_t began = now();
    for (uint32_t i = 0; i < count; i++) {
        runs[i] = (struct run){&threads[i], word, i, blocks, i + 1};
        if (i && pthread_create(&started[i], NULL, work, &runs[i])) exit(1);
    }
    work(&runs[0]);
    for (uint32_t i = 1; i < count; i++) pthread_join(started[i], NULL);
    uint64_t took = now() - began;
    for (uint32_t i = 0; i < count; i++) DO(pool_settle(&threads[i]));
    DO(pool_close(threads, count, &end));
    return took;
}

int main(int argc, char **argv)
{
    if (argc != 5) return 2;
    uint32_t count = (uint32_t)atoi(argv[2]), blocks = (uint32_t)atoi(argv[3]);
    uint64_t least = UINT64_MAX;
    for (int k = atoi(argv[4]); k > 0; k--) {
        uint64_t took = repeat(argv[1], count, blocks);
        if (took < least) least = took;
    }
    uint64_t each = strcmp(argv[1], "w5batch") ? 1 : BATCH;
    printf("%.0f\n", (double)least / (double)(blocks * each));
    return 0;
}
