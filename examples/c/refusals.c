/* Each thing that a caller could break by values, and its answer. */
#include "pool_c.h"

#include <stdio.h>

static const char *const NAMES[] = {
    "ok", "busy", "not here", "range", "spent", "too large", "no handle", "full", "worn",
    "no thread", "out of order", "shape", "unsettled", "no memory", "empty", "in call",
    "occupied", "threads", "shared",
};

static void show(const char *what, int32_t answer) { printf("%s: %s\n", what, NAMES[answer]); }

static struct pool_config config = {7, 2, 8192, 9, 2, 1, 4, 1};
static struct pool_thread t[2], other[2], none;
static uint8_t bytes[64] = {1, 2, 3};
static int32_t ended;

static void opening(void)
{
    struct pool_config wrong = config;
    wrong.threads = 17;
    show("seventeen threads", pool_open(&wrong, t, 2));
    wrong = config;
    wrong.page = 5000;
    show("a page of 5,000 bytes", pool_open(&wrong, t, 2));
    show("one handle for two threads", pool_open(&config, t, 1));
    show("open", pool_open(&config, t, 2));
    show("open again", pool_open(&config, t, 2));
    wrong = config;
    wrong.name = 8;
    show("open another", pool_open(&wrong, other, 2));
}

static void handles(void)
{
    struct pool_buffer b;
    struct pool_thread busy = t[0];
    show("a handle that was never opened", pool_alloc(&none, 1, &b));
    busy.state = 2; /* as another thread would leave it meanwhile */
    show("a handle in a call", pool_alloc(&busy, 1, &b));
    show("more than a chunk", pool_alloc(&t[0], (4u << 20) + 1, &b));
}

static void buffers(void)
{
    uint8_t got[3] = {0};
    struct pool_buffer b, c, many[4];
    show("alloc", pool_alloc(&t[0], 64, &b));
    show("set", pool_set(&t[0], &b, 0, bytes, 64));
    show("by another thread", pool_set(&t[1], &b, 0, bytes, 64));
    show("by another pool", pool_set(&other[0], &b, 0, bytes, 64));
    show("set the last three", pool_set(&t[0], &b, 61, bytes, 3));
    show("get them", pool_get(&t[0], &b, 61, got, 3));
    printf("bytes: %d %d %d\n", got[0], got[1], got[2]);
    c = b, c.thread = 1;
    show("with another thread's number", pool_get(&t[0], &c, 0, bytes, 1));
    show("with another thread's number, by that", pool_get(&t[1], &c, 0, bytes, 1));
    c = b, c.pool = 8;
    show("with another pool's name, by that", pool_get(&other[0], &c, 0, bytes, 1));
    c = b, c.generation++;
    show("another generation", pool_get(&t[0], &c, 0, bytes, 1));
    c = b, c.place = 4000000000u;
    show("a place that the pool lacks", pool_get(&t[0], &c, 0, bytes, 1));
    c = b, c.capacity = 65;
    show("another capacity", pool_get(&t[0], &c, 0, bytes, 1));
    c = b, c.length = 65;
    show("longer than it was", pool_get(&t[0], &c, 0, bytes, 1));
    c = b, c.offset = 0xffffffffu, c.length = 2;
    show("an offset that wraps", pool_get(&t[0], &c, 0, bytes, 1));
    show("a byte past the end", pool_set(&t[0], &b, 1, bytes, 64));
    show("no byte at the end", pool_set(&t[0], &b, 64, bytes, 0));
    show("a start that wraps", pool_set(&t[0], &b, 0xffffffffu, bytes, 2));
    show("a slice past the end", pool_slice(&t[0], &b, 60, 5, &c));
    show("a slice", pool_slice(&t[0], &b, 8, 8, &c));
    show("past the slice's end", pool_get(&t[0], &c, 8, bytes, 1));
    show("release of the slice", pool_release(&t[0], &c, &ended));
    printf("was it the last? %d\n", (int)ended);
    show("release", pool_release(&t[0], &b, &ended));
    printf("was it the last? %d\n", (int)ended);
    show("release again", pool_release(&t[0], &b, &ended));
    show("get after the release", pool_get(&t[0], &b, 0, bytes, 1));
    show("retain after the release", pool_retain(&t[0], &b, &c));
    for (int i = 0; i < 4; i++)
        if (pool_alloc(&t[0], 8, &many[i])) printf("no buffer\n");
    show("a fifth of four handles", pool_alloc(&t[0], 8, &b));
    show("a capacity of more than a chunk", pool_capacity(&t[0], &many[0], (4u << 20) + 1));
    show("a capacity of 100", pool_capacity(&t[0], &many[0], 100));
    printf("is it that long? %d\n", many[0].length >= 100);
    for (int i = 0; i < 4; i++)
        if (pool_release(&t[0], &many[i], &ended) || !ended) printf("not released\n");
}

static void parcels(void)
{
    struct pool_buffer b, c;
    struct pool_parcel first = {0}, second = {0}, empty = {0};
    if (pool_alloc(&t[0], 10, &b) || pool_alloc(&t[0], 20, &c)) printf("no buffer\n");
    show("a parcel for a third of two threads", pool_part(&t[0], &b, 2, &first));
    show("a parcel of another thread's buffer", pool_part(&t[1], &b, 0, &first));
    show("a parcel", pool_part(&t[0], &b, 1, &first));
    show("its buffer", pool_get(&t[0], &b, 0, bytes, 1));
    show("a parcel into a full handle", pool_part(&t[0], &c, 1, &first));
    show("another parcel", pool_part(&t[0], &c, 1, &second));
    show("the second before the first", pool_accept(&t[1], &second, &c));
    show("by the thread that sent it", pool_accept(&t[0], &first, &b));
    show("by another pool", pool_accept(&other[1], &first, &b));
    show("no parcel", pool_accept(&t[1], &empty, &b));
    show("the first", pool_accept(&t[1], &first, &b));
    printf("bytes: %u\n", (unsigned)b.length);
    show("the first again", pool_accept(&t[1], &first, &b));
    show("release", pool_release(&t[1], &b, &ended));
    show("leave the second", pool_leave_parcel(&second));
    show("leave it again", pool_leave_parcel(&second));
}

static void closing(void)
{
    struct pool_end end = {0, 0};
    struct pool_buffer b;
    struct pool_thread swapped[2] = {t[1], t[0]}, mixed[2] = {t[0], other[1]};
    show("close with one of two", pool_close(t, 1, &end));
    show("close in another order", pool_close(swapped, 2, &end));
    show("close with another pool's", pool_close(mixed, 2, &end));
    show("close with none", pool_close(&none, 1, &end));
    t[0] = swapped[1], t[1] = swapped[0], t[0] = mixed[0], other[1] = mixed[1];
    show("close", pool_close(t, 2, &end));
    printf("leaks: %llu\n", (unsigned long long)end.leaks);
    show("close again", pool_close(t, 2, &end));
    show("alloc after the close", pool_alloc(&t[0], 1, &b));
    show("leave a thread", pool_leave(&other[0]));
    show("leave it again", pool_leave(&other[0]));
    show("close without it", pool_close(other, 2, &end));
}

int main(void)
{
    opening();
    handles();
    buffers();
    parcels();
    closing();
    return 0;
}
