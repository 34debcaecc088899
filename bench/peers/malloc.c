/* The workloads w1 and w3 of pool_bench on malloc and free alone: malloc WORKLOAD THREADS BLOCKS 1 REPEATS [START]
   A buffer is what malloc answers, cleared by memset as far as it was asked for, as the pool clears it. The allocator
   is glibc's, or the one that LD_PRELOAD names.

   It is no pool: it has no handles, no counts, no caches of its own and no sections, a thread may free what another
   has, and nothing tells a freed buffer from a live one. It has the same draws, sizes, clearing, writes and reads as
   pool_bench, so the same sum. Its heap stays from repetition to repetition, where pool_bench opens a pool for each.

   It is built with -fno-builtin-malloc and -fno-builtin-free, since a compiler that knows these calls may leave out
   what is done between them. */
#include "blocks.h"

enum { PLACES = 64 };

/* Has the compiler take it that the bytes there are looked at, so that it leaves out no clearing and no write. */
static inline void seen(void *bytes)
{
    __asm__ volatile("" : : "r"(bytes) : "memory");
}

static uint8_t *new_buffer(uint32_t size)
{
    uint8_t *bytes = malloc(size);
    if (bytes) {
        clear(bytes, size);
        seen(bytes);
    }
    return bytes;
}

static inline void set(uint8_t *at, const uint8_t bytes[4])
{
    memcpy(at, bytes, 4);
    seen(at);
}

/* The sum of the four bytes from there on. */
static inline uint64_t read_sum(const uint8_t *at)
{
    uint8_t bytes[4];
    memcpy(bytes, at, 4);
    return sum_of(bytes);
}

/* Blocks of w1: a new buffer, four bytes written, four read from the third on, and its end. */
static struct tally run_mixed(const struct plan *plan, struct draws draws)
{
    struct tally tally = {0, 0};
    for (uint32_t done = 0; done < plan->blocks; done++) {
        uint32_t size = mixed_size(&draws);
        uint8_t byte = (uint8_t)draw(&draws);
        uint8_t *buffer = new_buffer(size);
        if (!buffer) {
            tally.refused++;
            continue;
        }
        set(buffer, (uint8_t[4]){byte, byte, byte, byte});
        tally.sum += read_sum(buffer + 2);
        free(buffer);
    }
    return tally;
}

/* A buffer at a place of w3. */
struct held {
    uint8_t *bytes;
    uint32_t size;
};

/* Blocks of w3: the buffer at one of 64 places ends, where there is one, and the last one gets its place; a new one is
   put behind the others, its first and last four bytes are written, and the last four read. In the end all end. */
static struct tally run_places(const struct plan *plan, struct draws draws)
{
    struct held held[PLACES];
    uint32_t count = 0;
    struct tally tally = {0, 0};
    for (uint32_t done = 0; done < plan->blocks; done++) {
        uint32_t place = draw(&draws) % PLACES, size = places_size(&draws);
        uint8_t byte = (uint8_t)draw(&draws);
        if (place < count) {
            free(held[place].bytes);
            held[place] = held[--count];
        }
        uint8_t *buffer = new_buffer(size);
        if (!buffer) {
            tally.refused++;
            continue;
        }
        held[count++] = (struct held){buffer, size};
        set(buffer, (uint8_t[4]){byte, byte, byte, byte});
        set(buffer + size - 4, (uint8_t[4]){byte, byte, byte, byte});
        tally.sum += read_sum(buffer + size - 4);
    }
    while (count > 0) free(held[--count].bytes);
    return tally;
}

static void *open_none(const struct plan *plan)
{
    (void)plan;
    return NULL;
}

static struct tally run(void *pool, uint32_t lane, const struct plan *plan, struct draws draws)
{
    (void)pool, (void)lane;
    return strcmp(plan->work, "w3") ? run_mixed(plan, draws) : run_places(plan, draws);
}

static void close_none(void *pool)
{
    (void)pool;
}

int main(int argc, char **argv)
{
    const struct program program = {" w1 w3 ", open_none, run, close_none};
    return measure_all(argc, argv, &program);
}
