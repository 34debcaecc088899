/* A pool of buffers for the threads of a program.

   Each thread of the program works with a handle of its own, `struct pool_thread`. A handle may go
   from one thread to another by whatever orders the two (a lock, a thread's start or join); no two
   calls use one handle at a time. A handle that is in a call when another call meets it, as from
   two threads, is refused as POOL_IN_CALL; that is a test by a plain field, which helps to find such
   a fault and is no lock.

   A buffer is plain numbers. It belongs to the thread that got it and stands for one count of its
   bytes. Copied, changed or made up, it is refused as POOL_NOT_HERE, unless its thread has a count
   of the memory that its place and generation name: then the call uses such a count, and the window
   is the one that the numbers say, as far as the thread knows that memory to reach. A buffer goes to
   another thread in a parcel, `struct pool_parcel`, that the program carries by a channel of its own.

   What no call can test, and the caller keeps:
   - a `struct pool_thread` or `struct pool_parcel` was zeroed before its first use, was changed by
     calls of this header alone since, and isn't a copy of one that is used or was closed or left;
   - `bytes` and `out` point to `length` bytes of the caller's own, and aren't null where `length` is
     0 either; each other pointer points to a value of its type, and nothing that a call writes
     overlaps anything else that it is given;
   - pools that are open at once have different names (`struct pool_config`), and a parcel that a
     closed pool left behind is given to no later pool of its name: the name is what tells a handle,
     a buffer or a parcel of another pool.
   A program that breaks one of these is broken as if it had called free twice. No call may be made
   from a signal handler, or from the forked child of a process with threads.

   No call waits. Where another thread is at what a call needs just then, it answers POOL_BUSY:
   made again, it may do its work. A refused call changes nothing, but that a thread keeps what an
   allocation or a release has begun: its next one, or pool_settle, goes on with it; and that turns
   are used: 6 by each pool_alloc and pool_capacity that is busy, full or worn, 2 by each step of
   pool_trim. A thread has some 2^58 of them for its life. */
#ifndef POOL_C_H
#define POOL_C_H

#include <stddef.h>
#include <stdint.h>

#ifdef __cplusplus
extern "C" {
#endif

enum {
    POOL_OK = 0,
    POOL_BUSY = 1,          /* another thread was at it: call again */
    POOL_NOT_HERE = 2,      /* the buffer or parcel is not one of this thread and pool, or was released */
    POOL_RANGE = 3,         /* the range passes an end of the buffer */
    POOL_SPENT = 4,         /* the thread has used up its turns or its moves */
    POOL_TOO_LARGE = 5,     /* more bytes than a chunk has */
    POOL_NO_HANDLE = 6,     /* the thread has as many live buffers as it may, or places on their way home */
    POOL_FULL = 7,          /* the thread's arena has no such region left */
    POOL_WORN = 8,          /* the place of the next buffer is used up: call again for the next */
    POOL_NO_THREAD = 9,     /* the pool has no thread of that number */
    POOL_OUT_OF_ORDER = 10, /* an earlier parcel of the same way was not accepted */
    POOL_SHAPE = 11,        /* a measure is outside its limits */
    POOL_UNSETTLED = 12,    /* a thread has something to put away: pool_settle first */
    POOL_NO_MEMORY = 13,    /* malloc gave none */
    POOL_EMPTY = 14,        /* nothing is behind the handle: never opened, closed, left or accepted */
    POOL_IN_CALL = 15,      /* the handle is in another call */
    POOL_OCCUPIED = 16,     /* a handle that is to be filled is not empty */
    POOL_THREADS = 17,      /* these are not the handles of all the pool's threads, by number */
    POOL_SHARED = 18        /* another handle has a share in the pool */
};

/* What a pool is opened with. */
struct pool_config {
    uint32_t name;     /* of your choice, another one for each pool that is open at once */
    uint32_t threads;  /* 1 to 16 */
    uint32_t page;     /* bytes of a page: 4096, 8192, 16384 or 32768 */
    uint32_t order;    /* a chunk, the largest buffer, has 2^order pages: 3 to 11, 16 MiB at most */
    uint32_t arenas;   /* 1 to 8 */
    uint32_t chunks;   /* of an arena: 1 to 8 */
    uint32_t handles;  /* live buffers that each thread may have allocated: 1 to 4096 */
    uint32_t interval; /* one of so many allocations is watched for leaks: to 65536; 0: none */
};

/* A thread of a pool. Zero it before pool_open, and leave its fields alone. */
struct pool_thread {
    uint8_t *at;
    uint32_t state;
};

/* A window on bytes of a pool, which stands for one count of its thread. */
struct pool_buffer {
    uint32_t pool, thread;
    uint32_t place, generation, capacity;
    uint32_t offset, length;
};

/* A buffer on its way to another thread. Zero it before pool_part, and leave its fields alone. */
struct pool_parcel {
    uint8_t *at;
    uint32_t state;
};

/* What stood as a pool was closed. */
struct pool_end {
    uint64_t chunks; /* chunks in use */
    uint64_t leaks;  /* watched buffers with a count that was never given back */
};

/* Opens a pool: a thread behind each of the `count` handles, which must be zeroed, by number. After
   POOL_NO_MEMORY the handles are as they were, and memory that it got by then may stay taken. */
int32_t pool_open(const struct pool_config *config, struct pool_thread *threads, size_t count);

/* Allocates a buffer of `size` bytes, all 0. */
int32_t pool_alloc(struct pool_thread *thread, uint32_t size, struct pool_buffer *out);

/* Lays `length` bytes over those of a buffer, from `start` on. */
int32_t pool_set(struct pool_thread *thread, const struct pool_buffer *buffer, uint32_t start,
                 const uint8_t *bytes, size_t length);

/* Copies `length` bytes of a buffer out, from `start` on: those of one moment. */
int32_t pool_get(struct pool_thread *thread, const struct pool_buffer *buffer, uint32_t start,
                 uint8_t *out, size_t length);

/* Another buffer on the same bytes, with a count of its own. It takes a move, which the release of a
   buffer gives back where that isn't the last one. */
int32_t pool_retain(struct pool_thread *thread, const struct pool_buffer *buffer,
                    struct pool_buffer *out);

/* Another buffer on `length` of the bytes of one, from `start` on, with a count of its own. It takes
   a move, as pool_retain does. */
int32_t pool_slice(struct pool_thread *thread, const struct pool_buffer *buffer, uint32_t start,
                   uint32_t length, struct pool_buffer *out);

/* Gives the count of a buffer back. `ended` is 1 where it was the last of all threads and parcels,
   else 0. The memory then goes back to the pool, at once, or where another thread is in the way as
   this one settles. */
int32_t pool_release(struct pool_thread *thread, const struct pool_buffer *buffer, int32_t *ended);

/* How often the buffer's bytes are counted over all threads and parcels, at one moment. */
int32_t pool_refcnt(struct pool_thread *thread, const struct pool_buffer *buffer, uint32_t *count);

/* Has the bytes in which a buffer lies be at least `size` in all, counted from the first that was
   allocated with it, and lets the buffer reach up to the last of them. What is new is 0. Other
   buffers on the same bytes keep their lengths. */
int32_t pool_capacity(struct pool_thread *thread, struct pool_buffer *buffer, uint32_t size);

/* Notes that a buffer was touched, which a report of leaks tells. */
int32_t pool_touch(struct pool_thread *thread, const struct pool_buffer *buffer);

/* Makes a parcel of a buffer, for the pool's thread of number `to`, which alone can accept it. The
   parcel has the buffer's count, so the buffer is gone. Parcels that one thread makes for another
   are accepted in the order in which they were made. A parcel takes memory: after POOL_NO_MEMORY the
   buffer is as it was. */
int32_t pool_part(struct pool_thread *thread, const struct pool_buffer *buffer, uint32_t to,
                  struct pool_parcel *out);

/* The buffer of a parcel, which is then this thread's; the handle of the parcel is empty. A parcel
   that is refused stays as it is. */
int32_t pool_accept(struct pool_thread *thread, struct pool_parcel *parcel, struct pool_buffer *out);

/* Leaves a parcel behind, and empties its handle. Its buffer's count is never given back, and no
   later parcel of its way is accepted. */
int32_t pool_leave_parcel(struct pool_parcel *parcel);

/* Puts away what the thread has begun and could not end. */
int32_t pool_settle(struct pool_thread *thread);

/* Gives the memory that the thread's caches keep for its next buffers back to the arenas, where other
   threads may have it. After POOL_BUSY some of it may have gone back, and another call goes on. */
int32_t pool_trim(struct pool_thread *thread);

/* Closes a pool with the handles of all its threads, by number, which are empty then. Its memory is
   given back, that of buffers which were never released too; parcels that were not accepted stay
   behind. After POOL_NO_MEMORY or POOL_SHARED the handles are as they were, or where there is no
   memory for that all empty, and the pool's memory stays taken. */
int32_t pool_close(struct pool_thread *threads, size_t count, struct pool_end *end);

/* Leaves a thread behind, and empties the handle. The memory of its pool stays taken. */
int32_t pool_leave(struct pool_thread *thread);

/* Copies `length` bytes of a buffer, from `start` on, to `scratch`, and calls `visit` once with them.
   They are those of one moment, and nothing changes them meanwhile. `visit` may make calls by the
   same handle. */
static inline int32_t pool_with_bytes(struct pool_thread *thread, const struct pool_buffer *buffer,
                                      uint32_t start, uint8_t *scratch, size_t length,
                                      void (*visit)(void *context, const uint8_t *bytes,
                                                    size_t length),
                                      void *context)
{
    int32_t answer = pool_get(thread, buffer, start, scratch, length);
    if (answer == POOL_OK) visit(context, scratch, length);
    return answer;
}

#ifdef __cplusplus
}
#endif

#endif
