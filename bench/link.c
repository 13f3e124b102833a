// A plain ring with an owner word an entry, as a yardstick for vmx_link: one sender, one receiver, at most 64 packets.
// The word of an entry is 2 * round while the sender owns it, one more while the receiver does, and is stored last.
// link N: packets and nanoseconds, on one thread, and on two with a second ring for the way back.
#include <pthread.h>
#include <sched.h>
#include <stdatomic.h>
#include <stdint.h>
#include <stdio.h>
#include <stdlib.h>
#include <string.h>
#include <time.h>

#define ENTRIES 64
#define AFLOAT 32

struct packet {
    uint32_t guest, activation, queue;
    uint64_t place;
    unsigned char *bytes;
    size_t length, capacity;
};

struct ring {
    _Atomic uint64_t owner[ENTRIES];
    struct packet slot[ENTRIES];
};

struct end {
    struct ring *ring;
    uint64_t place, capacity;
};

static int push(struct end *out, const struct packet *packet)
{
    uint64_t index = out->place % out->capacity, free = 2 * (out->place / out->capacity);
    if (atomic_load(&out->ring->owner[index]) != free)
        return 0;
    out->ring->slot[index] = *packet;
    atomic_store(&out->ring->owner[index], free + 1);
    out->place++;
    return 1;
}

static int pull(struct end *in, struct packet *packet)
{
    uint64_t index = in->place % in->capacity, filled = 2 * (in->place / in->capacity) + 1;
    if (atomic_load(&in->ring->owner[index]) != filled)
        return 0;
    *packet = in->ring->slot[index];
    atomic_store(&in->ring->owner[index], filled + 1);
    in->place++;
    return 1;
}

static struct ring *ring_of(void)
{
    return calloc(1, sizeof(struct ring));
}

static struct packet packet_of(void)
{
    struct packet packet = { .bytes = malloc(1500), .length = 1500, .capacity = 1500 };
    memset(packet.bytes, 7, 1500);
    return packet;
}

struct work {
    struct end in, out;
    uint64_t count, moved;
};

static void *forward(void *argument)
{
    struct work *work = argument;
    struct packet packet;
    while (work->moved < work->count) {
        while (!pull(&work->in, &packet))
            sched_yield();
        while (!push(&work->out, &packet))
            sched_yield();
        work->moved++;
    }
    return NULL;
}

static uint64_t now(void)
{
    struct timespec time;
    clock_gettime(CLOCK_MONOTONIC, &time);
    return (uint64_t)time.tv_sec * 1000000000u + (uint64_t)time.tv_nsec;
}

int main(int argc, char **argv)
{
    uint64_t count = argc > 1 ? strtoull(argv[1], NULL, 10) : 0, done = 0;
    // read at run time, as the capacity of a link is
    volatile uint64_t entries = ENTRIES;
    struct ring *ring = ring_of();
    struct end out = { ring, 0, entries }, in = { ring, 0, entries };
    struct packet packet = packet_of();
    uint64_t start = now();
    while (done < count && push(&out, &packet) && pull(&in, &packet))
        done++;
    printf("one-thread %llu %llu\n", (unsigned long long)done, (unsigned long long)(now() - start));

    struct ring *there = ring_of(), *back = ring_of();
    struct work first = { { back, 0, entries }, { there, 0, entries }, count, 0 };
    struct work second = { { there, 0, entries }, { back, 0, entries }, count, 0 };
    for (int i = 0; i < AFLOAT; i++) {
        packet = packet_of();
        push(&second.out, &packet);
    }
    pthread_t thread;
    start = now();
    pthread_create(&thread, NULL, forward, &second);
    forward(&first);
    pthread_join(thread, NULL);
    printf("two-threads %llu %llu %llu\n", (unsigned long long)first.moved, (unsigned long long)second.moved,
           (unsigned long long)(now() - start));
    return 0;
}
