/* Four threads of a pool, used by four pthreads in a ring. Each allocates buffers, fills them, and
   sends them round: every thread that a buffer comes to reads all its bytes, lays others over them
   and passes it on, until it is home again and is released. Then the pool is closed. */
#include "pool_c.h"

#include <pthread.h>
#include <stdio.h>
#include <stdlib.h>
#include <string.h>

enum { THREADS = 4, BUFFERS = 500, UNDER_WAY = 8, LONGEST = 4000, HEAD = 12 };

/* A channel of parcels, from one thread to the next. All buffers that are under way fit. */
struct channel {
    pthread_mutex_t lock;
    pthread_cond_t more;
    struct pool_parcel parcels[THREADS * UNDER_WAY];
    size_t first, count;
};

static struct channel channels[THREADS];

static void push(struct channel *c, struct pool_parcel parcel)
{
    pthread_mutex_lock(&c->lock);
    c->parcels[(c->first + c->count++) % (THREADS * UNDER_WAY)] = parcel;
    pthread_cond_signal(&c->more);
    pthread_mutex_unlock(&c->lock);
}

static struct pool_parcel pop(struct channel *c)
{
    pthread_mutex_lock(&c->lock);
    while (c->count == 0) pthread_cond_wait(&c->more, &c->lock);
    struct pool_parcel parcel = c->parcels[c->first];
    c->first = (c->first + 1) % (THREADS * UNDER_WAY);
    c->count--;
    pthread_mutex_unlock(&c->lock);
    return parcel;
}

/* One of the pthreads: its handle, its number, and what it counted. */
struct worker {
    struct pool_thread *thread;
    uint32_t number;
    uint64_t read, ended;
};

/* Where a buffer has been, in its first bytes. */
struct head {
    uint32_t home, turn, hops;
};

static uint8_t byte_of(struct head head, uint32_t i)
{
    return (uint8_t)(head.home * 71 + head.turn * 31 + head.hops * 17 + i * 7 + (i >> 8));
}

/* Makes a call until no other thread is in its way, and stops the program where it is refused. */
#define DO(call)                                                                \
    do {                                                                        \
        int32_t answer;                                                         \
        while ((answer = (call)) == POOL_BUSY) {}                               \
        if (answer != POOL_OK) {                                                \
            printf("line %d: answer %d\n", __LINE__, (int)answer);              \
            exit(1);                                                            \
        }                                                                       \
    } while (0)

static void fill(struct worker *me, const struct pool_buffer *buffer, struct head head)
{
    uint8_t bytes[LONGEST];
    memcpy(bytes, &head, HEAD);
    for (uint32_t i = HEAD; i < buffer->length; i++) bytes[i] = byte_of(head, i);
    DO(pool_set(me->thread, buffer, 0, bytes, buffer->length));
}

/* Looks at all bytes of a buffer, and tells its head. */
static void look(void *context, const uint8_t *bytes, size_t length)
{
    struct head *head = context;
    memcpy(head, bytes, HEAD);
    for (uint32_t i = HEAD; i < length; i++)
        if (bytes[i] != byte_of(*head, i)) {
            printf("byte %u is wrong\n", (unsigned)i);
            exit(1);
        }
}

static struct head check(struct worker *me, const struct pool_buffer *buffer)
{
    uint8_t scratch[LONGEST];
    struct head head;
    DO(pool_with_bytes(me->thread, buffer, 0, scratch, buffer->length, look, &head));
    me->read += buffer->length;
    return head;
}

static void pass_on(struct worker *me, const struct pool_buffer *buffer)
{
    uint32_t next = (me->number + 1) % THREADS;
    struct pool_parcel parcel = {0};
    DO(pool_part(me->thread, buffer, next, &parcel));
    push(&channels[me->number], parcel);
}

static void start(struct worker *me, uint32_t turn)
{
    struct head head = {me->number, turn, 0};
    struct pool_buffer buffer, part;
    int32_t ended;
    DO(pool_alloc(me->thread, HEAD + (turn * 37 + me->number * 11) % (LONGEST - HEAD), &buffer));
    fill(me, &buffer, head);
    /* a part of it is counted beside it, and is given back */
    DO(pool_slice(me->thread, &buffer, 0, HEAD, &part));
    DO(pool_release(me->thread, &part, &ended));
    if (ended) exit(1);
    pass_on(me, &buffer);
}

/* A buffer that comes is passed on, or is home and ends. True where it is home. */
static int arrive(struct worker *me)
{
    struct pool_parcel parcel = pop(&channels[(me->number + THREADS - 1) % THREADS]);
    struct pool_buffer buffer;
    int32_t ended;
    DO(pool_accept(me->thread, &parcel, &buffer));
    struct head head = check(me, &buffer);
    if (head.home == me->number) {
        if (head.hops != THREADS - 1) exit(1);
        DO(pool_release(me->thread, &buffer, &ended));
        me->ended += (uint64_t)ended;
        return 1;
    }
    head.hops++;
    fill(me, &buffer, head);
    pass_on(me, &buffer);
    return 0;
}

static void *work(void *at)
{
    struct worker *me = at;
    uint32_t started = 0, home = 0, passed = 0;
    while (home < BUFFERS || passed < (THREADS - 1) * BUFFERS) {
        while (started < BUFFERS && started - home < UNDER_WAY) start(me, started++);
        if (arrive(me)) home++; else passed++;
    }
    return NULL;
}

int main(void)
{
    struct pool_config config = {7, THREADS, 8192, 9, 4, 1, 64, 128};
    struct pool_thread threads[THREADS] = {{0}};
    struct worker workers[THREADS] = {{0}};
    struct pool_end end = {0, 0};
    pthread_t runs[THREADS];
    int32_t answer = pool_open(&config, threads, THREADS);
    printf("open: %d\n", (int)answer);
    if (answer != POOL_OK) return 1;
    for (uint32_t i = 0; i < THREADS; i++) {
        pthread_mutex_init(&channels[i].lock, NULL);
        pthread_cond_init(&channels[i].more, NULL);
        workers[i].thread = &threads[i];
        workers[i].number = i;
    }
    for (int i = 0; i < THREADS; i++)
        if (pthread_create(&runs[i], NULL, work, &workers[i])) return 1;
    for (int i = 0; i < THREADS; i++) {
        pthread_join(runs[i], NULL);
        printf("thread %d: %llu bytes as written, %llu buffers ended\n", i,
               (unsigned long long)workers[i].read, (unsigned long long)workers[i].ended);
    }
    for (int i = 0; i < THREADS; i++) DO(pool_settle(&threads[i]));
    answer = pool_close(threads, THREADS, &end);
    printf("close: %d\n", (int)answer);
    if (answer != POOL_OK) return 1;
    printf("leaks: %llu\n", (unsigned long long)end.leaks);
    return 0;
}
