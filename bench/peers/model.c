/* A model in C of the pool's design, for w1 of pool_bench alone: model w1 THREADS BLOCKS 1 REPEATS [START]

   A block does each thing that the design asks for, in its order: eight sections, each begun by a claim and ended by a
   step that numbers it (a handle out of the lane's bin, a region out of the cache of its class, the birth of a root at
   the handle's place, a set, a get, the root's end, the region back, the handle home), and three steps on the root's
   count (born, released, vacated). Bins and caches are rings, first in, first out. A root has a generation, a region
   the name by which it is told of, and a birth clears as many bytes as were asked for and starts the place's tracker,
   which each set and get looks at. The sizes of classes, the table that finds them, and where words and regions lie are
   as in the product.

   It is no pool: nothing here is proved, and what the design gives beyond a block of w1 isn't there. Its arenas only
   grow; there are no subpages, no growth of roots, no hand-over, no trim, no watch and no report. It trusts its caller
   where the product's contracts bind him. It leaves out what a proof asks of the product and a C program can do
   without: a home stays in its slot while a lane is in its section, and isn't tested for its kind. */
#include "model_open.h"

/* Handles and regions */

static inline bool pop_handle(struct seat *seat, struct handle *handle)
{
    size_t at = bin_at(seat->pool, seat->lane);
    struct bin *bin = wait_for(seat, at);
    bool some = bin->ring.size > 0;
    if (some) *handle = bin->handles[take_first(&bin->ring)];
    done(seat, at);
    return some;
}

static inline void put_handle(struct seat *seat, const struct handle *handle)
{
    size_t at = bin_at(seat->pool, handle->lane);
    struct bin *bin = wait_for(seat, at);
    bin->handles[add_last(&bin->ring)] = *handle;
    done(seat, at);
}

/* The first region of a class in the lane's cache: none where there is none, or where another lane is there. */
static inline bool pop_cached(struct seat *seat, uint32_t class, struct region *region)
{
    size_t at = cache_at(seat->lane, class);
    if (!claim(seat, at)) return false;
    struct cache *cache = home_of(seat, at);
    bool some = cache->ring.size > 0;
    if (some) {
        *region = cache->regions[take_first(&cache->ring)];
        if (cache->served < cache->ring.room) cache->served++;
    }
    done(seat, at);
    return some;
}

/* Whether the cache of the region's owner took it: not where it is closed or full, or where another lane is there. */
static inline bool put_cached(struct seat *seat, const struct region *region)
{
    size_t at = cache_at(region->name.owner, region->name.class);
    if (!claim(seat, at)) return false;
    struct cache *cache = home_of(seat, at);
    bool kept = !cache->closed && cache->ring.size < cache->ring.room;
    if (kept) cache->regions[add_last(&cache->ring)] = *region;
    done(seat, at);
    return kept;
}

/* A region of the lane's arena: the first of the least run of pages whose bytes are a multiple of its size. */
static __attribute__((noinline)) bool take(struct seat *seat, uint32_t class, struct region *region)
{
    uint32_t number = seat->lane % ARENAS, size = seat->pool->sizes[class], twos = (uint32_t)__builtin_ctz(size);
    uint32_t run = (size >> (twos < SHIFT ? twos : SHIFT)) * PAGE;
    struct arena *arena = wait_for(seat, arena_at(number));
    bool some = CHUNK - arena->used >= run;
    if (some) {
        *region = (struct region){
            .name = {number, 0, arena->used, size, class, seat->lane, ++arena->takings, 0},
            .bytes = arena->memory + arena->used, .start = arena->used, .length = size};
        arena->used += run;
    }
    done(seat, arena_at(number));
    return some;
}

/* A region goes back to its arena, which only notes that. */
static __attribute__((noinline)) void give(struct seat *seat, const struct region *region)
{
    wait_for(seat, arena_at(region->name.arena));
    done(seat, arena_at(region->name.arena));
}

/* A region of a class, of the lane's cache or of its arena. */
static inline bool region_for(struct seat *seat, uint32_t class, struct region *region)
{
    if (class < CACHED && pop_cached(seat, class, region)) return true;
    return take(seat, class, region);
}

static inline void put_away(struct seat *seat, const struct region *region)
{
    if (region->name.class >= CACHED || !put_cached(seat, region)) give(seat, region);
}

/* Roots */

/* A root is born, if its place has a name left for it. */
static inline bool bear(struct seat *seat, const struct handle *handle, const struct region *region, uint32_t capacity,
                        struct root *root)
{
    struct pool *pool = seat->pool;
    size_t at = root_at(pool, handle->place);
    struct root_place *place = enter(seat, at);
    if (place->generation == UINT32_MAX) {
        idle(seat, at);
        return false;
    }
    clear(region->bytes, capacity);
    start(handle->tracker, (struct watch){0});
    place->generation++;
    place->present = true;
    place->root = (struct root){handle->place, place->generation, capacity};
    place->region = *region;
    place->region.name.uses++;
    place->handle = *handle;
    place->capacity = capacity;
    done(seat, at);
    uint64_t found = atomic_fetch_add(count_of(pool, handle->place), BORN);
    *root = (struct root){handle->place, (uint32_t)(found >> 32) + 1, capacity};
    return true;
}

/* A new root of so many bytes, all 0. No root where there is no handle, no region or no name. */
static bool allocate(struct seat *seat, uint32_t size, uint32_t class, struct root *root)
{
    struct handle handle;
    struct region region;
    if (!pop_handle(seat, &handle)) return false;
    if (!region_for(seat, class, &region)) {
        put_handle(seat, &handle);
        return false;
    }
    if (bear(seat, &handle, &region, size, root)) return true;
    put_away(seat, &region);
    put_handle(seat, &handle);
    return false;
}

static inline void set(struct seat *seat, const struct root *root, uint32_t offset, const uint8_t *bytes,
                       uint32_t length)
{
    size_t at = root_at(seat->pool, root->place);
    struct root_place *place = wait_for(seat, at);
    memcpy(place->region.bytes + offset, bytes, length);
    record(place->handle.tracker, (struct access){SET, seat->lane, offset, length});
    done(seat, at);
}

static inline void get(struct seat *seat, const struct root *root, uint32_t offset, uint8_t *bytes, uint32_t length)
{
    size_t at = root_at(seat->pool, root->place);
    struct root_place *place = wait_for(seat, at);
    memcpy(bytes, place->region.bytes + offset, length);
    record(place->handle.tracker, (struct access){GET, seat->lane, offset, length});
    done(seat, at);
}

/* A root whose count ended: its place is vacant then, its region goes into its owner's cache, and the handle home. */
static inline void end(struct seat *seat, const struct root *root)
{
    size_t at = root_at(seat->pool, root->place);
    struct root_place *place = enter(seat, at);
    struct region region = place->region;
    struct handle handle = place->handle;
    place->present = false;
    done(seat, at);
    atomic_fetch_add(count_of(seat->pool, root->place), VACATED);
    put_away(seat, &region);
    put_handle(seat, &handle);
}

/* One count less. Whether it was the last one. */
static bool release(struct seat *seat, const struct root *root)
{
    uint64_t found = atomic_fetch_sub(count_of(seat->pool, root->place), COUNT);
    if ((uint32_t)found != COUNT) return false;
    end(seat, root);
    return true;
}

/* Blocks */

static bool block(struct seat *seat, uint32_t size, uint8_t byte, uint64_t *sum)
{
    struct root root;
    uint8_t bytes[4] = {byte, byte, byte, byte};
    uint32_t class = class_of(seat->pool, size);
    if (class >= CLASSES || !allocate(seat, size, class, &root)) return false;
    if (root.capacity >= 10) {
        set(seat, &root, 0, bytes, 4);
        get(seat, &root, 2, bytes, 4);
        *sum += sum_of(bytes);
    }
    release(seat, &root);
    return true;
}

static struct tally run(void *pool, uint32_t lane, const struct plan *plan, struct draws draws)
{
    _Alignas(LINES) struct seat seat = {pool, lane, 0};
    struct tally tally = {0, 0};
    for (uint32_t made = 0; made < plan->blocks; made++) {
        uint32_t size = mixed_size(&draws);
        if (!block(&seat, size, (uint8_t)draw(&draws), &tally.sum)) tally.refused++;
    }
    return tally;
}

int main(int argc, char **argv)
{
    const struct program program = {" w1 ", open_pool, run, close_pool};
    return measure_all(argc, argv, &program);
}
