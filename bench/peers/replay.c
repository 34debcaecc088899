/* What of a w3 is the clearing of its bytes where they lie: CLEARS=FILE replay w3 1 BLOCKS 1 REPEATS [START]

   FILE is what clears.c noted of another program with the same words. Each buffer lies as far from the first one as
   there, and as far into its page, and is cleared, written at its ends and read, in the same order, so the sum is the
   same. Nothing is allocated or freed, and all memory is touched before the clock starts. */
#include "blocks.h"

enum { GROUND = 2 << 20 };

struct clears {
    struct {
        uint64_t at, size;
    } *all;
    uint8_t *base;
    void *ground;
};

/* The words of the file. The answer is how many clears it has. */
static size_t read_clears(struct clears *clears)
{
    FILE *file = fopen(getenv("CLEARS"), "rb");
    if (!file || fseek(file, 0, SEEK_END)) exit(1);
    size_t bytes = (size_t)ftell(file);
    rewind(file);
    clears->all = malloc(bytes);
    if (!clears->all || fread(clears->all, 1, bytes, file) != bytes) exit(1);
    fclose(file);
    return bytes / sizeof *clears->all;
}

/* The sizes of all blocks, in order. */
static uint32_t *sizes_of(const struct plan *plan)
{
    struct draws draws = {plan->start % MODULUS};
    uint32_t *sizes = malloc(plan->blocks * sizeof *sizes);
    if (!sizes) exit(1);
    for (uint32_t done = 0; done < plan->blocks; done++) {
        draw(&draws);
        sizes[done] = places_size(&draws);
        draw(&draws);
    }
    return sizes;
}

/* Leaves of the clears those of the last repetition's blocks. */
static void keep_last(struct clears *clears, const struct plan *plan)
{
    size_t left = read_clears(clears);
    uint32_t *sizes = sizes_of(plan), wanted = plan->blocks;
    size_t end = left;
    while (wanted > 0 && left > 0) {
        if (clears->all[--left].size != sizes[wanted - 1]) continue;
        clears->all[--end] = clears->all[left];
        wanted--;
    }
    free(sizes);
    if (wanted > 0) exit(1);
    memmove(clears->all, clears->all + end, plan->blocks * sizeof *clears->all);
}

/* The clears by where they begin on a ground of their own, which is touched. */
static void *open_clears(const struct plan *plan)
{
    struct clears *clears = malloc(sizeof *clears);
    if (!clears) exit(1);
    keep_last(clears, plan);
    uint64_t first = UINT64_MAX, last = 0;
    for (uint32_t done = 0; done < plan->blocks; done++) {
        uint64_t at = clears->all[done].at, end = at + clears->all[done].size;
        first = at < first ? at : first;
        last = end > last ? end : last;
    }
    first -= first % GROUND;
    clears->ground = malloc(last - first + GROUND);
    if (!clears->ground) exit(1);
    clears->base = (uint8_t *)(((uintptr_t)clears->ground + GROUND - 1) / GROUND * GROUND);
    for (uint32_t done = 0; done < plan->blocks; done++) {
        clears->all[done].at -= first;
        clear(clears->base + clears->all[done].at, clears->all[done].size);
    }
    return clears;
}

static inline void put(uint8_t *at, uint8_t byte)
{
    memset(at, byte, 4);
    __asm__ volatile("" : : "r"(at) : "memory");
}

static struct tally run(void *opened, uint32_t lane, const struct plan *plan, struct draws draws)
{
    struct clears *clears = opened;
    struct tally tally = {0, 0};
    (void)lane;
    for (uint32_t done = 0; done < plan->blocks; done++) {
        draw(&draws);
        uint32_t size = places_size(&draws);
        uint8_t byte = (uint8_t)draw(&draws), bytes[4];
        uint8_t *at = clears->base + clears->all[done].at;
        clear(at, size);
        put(at, byte);
        put(at + size - 4, byte);
        memcpy(bytes, at + size - 4, 4);
        tally.sum += sum_of(bytes);
    }
    return tally;
}

static void close_clears(void *opened)
{
    struct clears *clears = opened;
    free(clears->ground);
    free(clears->all);
    free(clears);
}

int main(int argc, char **argv)
{
    const struct program program = {" w3 ", open_clears, run, close_clears};
    return measure_all(argc, argv, &program);
}
