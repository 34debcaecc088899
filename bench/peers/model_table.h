/* What the model's calls stand on: its data, the sizes of classes, where words and homes lie, sections, rings and
   trackers. What the model is, and what it isn't, stands in model.c. */
#ifndef MODEL_TABLE_H
#define MODEL_TABLE_H

#include "blocks.h"

#include <stdatomic.h>

enum {
    ORDER = 9,
    SHIFT = 13,
    PAGE = 1 << SHIFT,
    CHUNK = PAGE << ORDER,
    CLASSES = 4 * (ORDER + SHIFT - 13) + 32,
    CACHED = 40,
    CACHE_ROOM = 256,
    LAST_CACHE_ROOM = 64,
    UNIT = 16,
    TABLED = 4096,
    ARENAS = 8,
    HANDLES = 64,
    KEPT = 4,
    APART = 16, /* words from one to the next where each lies on a line pair of its own */
    LINES = 128
};

static const uint64_t BORN = ((uint64_t)1 << 32) + 1, COUNT = 2, VACATED = 1;

struct region_name {
    uint32_t arena, chunk, offset, length;
    uint32_t class, owner;
    uint64_t taking, uses;
};

struct region {
    struct region_name name;
    uint8_t *bytes;
    uint32_t start, length;
};

struct access {
    uint32_t kind, lane, offset, length;
};

enum { SET, GET };

/* Which birth of which lane is watched, and whether accesses are kept. */
struct watch {
    bool watches, keeps;
    uint32_t lane, serial;
};

struct tracker {
    struct watch watch;
    uint32_t size, first;
    uint64_t dropped;
    struct access kept[KEPT];
};

struct handle {
    uint32_t lane, place;
    struct tracker *tracker;
};

struct root {
    uint32_t place, generation, capacity;
};

struct root_place {
    uint32_t generation;
    bool present;
    struct root root;
    struct region region;
    struct handle handle;
    uint32_t capacity;
};

/* The places of a ring. What lies there is in a list beside it. */
struct ring {
    size_t room, size, first;
};

struct cache {
    struct ring ring;
    struct region *regions;
    uint32_t served;
    bool closed;
};

struct bin {
    struct ring ring;
    struct handle *handles;
};

struct arena {
    uint8_t *memory;
    uint32_t used;
    uint64_t takings;
};

/* The words that lanes claim and count by, and the homes of the objects, each at the place of its object's word:
   arenas, caches and bins one in 16, root places packed by lane, and behind them the words of their counts. */
struct pool {
    _Atomic uint64_t *words;
    void **homes;
    size_t first_bin, first_root, first_count;
    uint32_t sizes[CLASSES];
    uint8_t requests[TABLED / UNIT + 1];
    uint32_t lanes;
};

/* What a lane works with: on lines of its own, and with the number under which it found another lane in a section. */
struct seat {
    struct pool *pool;
    uint32_t lane;
    uint64_t held;
};

/* Sizes */

static uint32_t size_at(uint32_t class)
{
    if (class < 4) return UNIT * (class + 1);
    uint32_t doubling = (class - 4) / 4, step = (class - 4) % 4;
    return (64u << doubling) + (step + 1) * (16u << doubling);
}

/* The place in 1, 2, 3, 4, 5, 6, 7, 8, 10, 12, 14, 16, 20 and so on of the first that is at least n. */
static uint32_t first_at_least(uint32_t n)
{
    if (n <= 1) return 0;
    uint32_t most = n - 1;
    if (most < 4) return most;
    uint32_t doubling = 31 - (uint32_t)__builtin_clz(most);
    return 4 * doubling + (most >> (doubling - 2)) - 8;
}

/* The least class of so many bytes, CLASSES and more where there is none. */
static inline uint32_t class_of(const struct pool *pool, uint32_t size)
{
    uint32_t units = (size + UNIT - 1) / UNIT;
    return size <= TABLED ? pool->requests[units] : first_at_least(units);
}

/* Places of words and homes */

static inline size_t arena_at(uint32_t number)
{
    return (size_t)number * APART;
}

static inline size_t cache_at(uint32_t lane, uint32_t class)
{
    return ((size_t)ARENAS + (size_t)lane * CACHED + class) * APART;
}

static inline size_t bin_at(const struct pool *pool, uint32_t lane)
{
    return pool->first_bin + (size_t)lane * APART;
}

static inline size_t root_at(const struct pool *pool, uint32_t place)
{
    return pool->first_root + place;
}

static inline _Atomic uint64_t *count_of(const struct pool *pool, uint32_t place)
{
    return &pool->words[pool->first_count + place];
}

/* Sections */

/* Enters the section of an object, or finds another lane there. */
static inline bool claim(struct seat *seat, size_t object)
{
    uint64_t found = atomic_fetch_or(&seat->pool->words[object], 1);
    if (__builtin_expect(found % 2 == 1, 0)) {
        seat->held = found / 2;
        return false;
    }
    return true;
}

static inline void *home_of(const struct seat *seat, size_t object)
{
    return seat->pool->homes[object];
}

/* Enters a section, as often as another lane is there. */
static inline void *wait_for(struct seat *seat, size_t object)
{
    while (!claim(seat, object)) {}
    return home_of(seat, object);
}

/* Enters a section in which no other lane can be. */
static inline void *enter(struct seat *seat, size_t object)
{
    if (!claim(seat, object)) abort();
    return home_of(seat, object);
}

/* Ends a section. The answer is its number. */
static inline uint64_t done(struct seat *seat, size_t object)
{
    return atomic_fetch_add(&seat->pool->words[object], 1) / 2 + 1;
}

/* Ends a section in which nothing was done, and which has no number. */
static inline void idle(struct seat *seat, size_t object)
{
    atomic_fetch_sub(&seat->pool->words[object], 1);
}

/* Rings */

static inline size_t wrapped(const struct ring *ring, size_t place)
{
    return place < ring->room ? place : place - ring->room;
}

static inline size_t take_first(struct ring *ring)
{
    size_t first = ring->first;
    ring->first = wrapped(ring, first + 1);
    ring->size--;
    return first;
}

static inline size_t add_last(struct ring *ring)
{
    return wrapped(ring, ring->first + ring->size++);
}

/* Trackers */

static inline void start(struct tracker *tracker, struct watch watch)
{
    tracker->watch = watch;
    tracker->size = 0;
    tracker->first = 0;
    tracker->dropped = 0;
}

static inline void record(struct tracker *tracker, struct access access)
{
    if (!tracker->watch.watches || !tracker->watch.keeps) return;
    if (tracker->size == KEPT) {
        tracker->first = (tracker->first + 1) % KEPT;
        tracker->size--;
        tracker->dropped++;
    }
    tracker->kept[(tracker->first + tracker->size++) % KEPT] = access;
}

#endif
