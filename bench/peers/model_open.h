/* How a pool of the model is opened and closed, which no clock sees. All memory is taken and touched at the opening. */
#ifndef MODEL_OPEN_H
#define MODEL_OPEN_H

#include "model_table.h"

/* Zeros on lines of their own. */
static void *room(size_t bytes)
{
    size_t all = (bytes + LINES - 1) / LINES * LINES;
    void *at = aligned_alloc(LINES, all);
    if (!at) exit(1);
    return memset(at, 0, all);
}

static struct arena *new_arena(void)
{
    struct arena *arena = room(sizeof *arena);
    arena->memory = malloc(CHUNK);
    if (!arena->memory) exit(1);
    clear(arena->memory, CHUNK);
    return arena;
}

static struct cache *new_cache(uint32_t class)
{
    struct cache *cache = room(sizeof *cache);
    cache->ring.room = class < CACHED - 1 ? CACHE_ROOM : LAST_CACHE_ROOM;
    cache->regions = room(cache->ring.room * sizeof(struct region));
    return cache;
}

static struct bin *new_bin(uint32_t lane)
{
    struct bin *bin = room(sizeof *bin);
    bin->ring.room = HANDLES;
    bin->handles = room(HANDLES * sizeof(struct handle));
    for (uint32_t index = 0; index < HANDLES; index++)
        bin->handles[add_last(&bin->ring)] =
            (struct handle){lane, lane * HANDLES + index, room(sizeof(struct tracker))};
    return bin;
}

static void open_lane(struct pool *pool, uint32_t lane)
{
    for (uint32_t class = 0; class < CACHED; class++) pool->homes[cache_at(lane, class)] = new_cache(class);
    pool->homes[bin_at(pool, lane)] = new_bin(lane);
    for (uint32_t place = lane * HANDLES; place < (lane + 1) * HANDLES; place++) {
        pool->homes[root_at(pool, place)] = room(sizeof(struct root_place));
        atomic_store(count_of(pool, place), VACATED);
    }
}

static void *open_pool(const struct plan *plan)
{
    struct pool *pool = room(sizeof *pool);
    size_t singles = ARENAS + (size_t)plan->threads * (CACHED + 1), places = (size_t)plan->threads * HANDLES;
    pool->lanes = plan->threads;
    pool->first_bin = cache_at(plan->threads, 0);
    pool->first_root = singles * APART;
    pool->first_count = pool->first_root + places;
    pool->words = room((pool->first_count + places) * sizeof *pool->words);
    pool->homes = room(pool->first_count * sizeof *pool->homes);
    for (uint32_t class = 0; class < CLASSES; class++) pool->sizes[class] = size_at(class);
    for (uint32_t units = 0; units <= TABLED / UNIT; units++) pool->requests[units] = (uint8_t)first_at_least(units);
    for (uint32_t number = 0; number < ARENAS; number++) pool->homes[arena_at(number)] = new_arena();
    for (uint32_t lane = 0; lane < plan->threads; lane++) open_lane(pool, lane);
    return pool;
}

static void close_lane(struct pool *pool, uint32_t lane)
{
    struct bin *bin = pool->homes[bin_at(pool, lane)];
    if (bin->ring.size < HANDLES) exit(1);
    for (uint32_t index = 0; index < HANDLES; index++) free(bin->handles[index].tracker);
    free(bin->handles);
    for (uint32_t class = 0; class < CACHED; class++) {
        struct cache *cache = pool->homes[cache_at(lane, class)];
        free(cache->regions);
    }
}

static void close_pool(void *at)
{
    struct pool *pool = at;
    for (uint32_t lane = 0; lane < pool->lanes; lane++) close_lane(pool, lane);
    for (uint32_t number = 0; number < ARENAS; number++) {
        struct arena *arena = pool->homes[arena_at(number)];
        free(arena->memory);
    }
    for (size_t home = 0; home < pool->first_count; home++) free(pool->homes[home]);
    free(pool->homes);
    free(pool->words);
    free(pool);
}

#endif
