// Plain C rings with the words, the buffers and the copies of vmx_txq and vmx_rxq, as a yardstick for them.
// queue tx N, queue rx N: frames and nanoseconds, on one thread and on two. Frames have 60 to 9,014 bytes.
#include <pthread.h>
#include <sched.h>
#include <stdatomic.h>
#include <stdint.h>
#include <stdio.h>
#include <stdlib.h>
#include <string.h>
#include <time.h>

#define TX_SIZE 512u
#define RX_SIZE 256u
#define PIECE 4096u
#define HEAD 2048u
#define ROOM 9022u
#define TEXT 9264u
#define STARTS 251u
#define LEAST 60u
#define LENGTHS 8955u

#define TX_GENERATION 14
#define TX_EOP (1ull << 44)
#define TX_CQ (1ull << 45)
#define DONE_GENERATION 63
#define RX_BODY (1ull << 14)
#define RX_GENERATION 31
#define RX_EOP (1ull << 14)
#define RX_SOP (1ull << 15)
#define RX_RING2 (1ull << 16)
#define RX_KIND (3ull << 56)

static unsigned char text[TEXT];

static const unsigned char *frame_of(uint64_t number, size_t *length)
{
    *length = LEAST + number % LENGTHS;
    return text + number % STARTS;
}

static uint64_t now(void)
{
    struct timespec time;
    clock_gettime(CLOCK_MONOTONIC, &time);
    return (uint64_t)time.tv_sec * 1000000000u + (uint64_t)time.tv_nsec;
}

// The generation of a position: 1 in the first lap, and flipped at each wrap.
static uint64_t generation(uint64_t position, uint64_t size)
{
    return 1 ^ (position / size & 1);
}

// ---- transmit: descriptors in two words, completions in two words, a buffer a descriptor

struct tx {
    uint64_t size;
    _Atomic uint64_t first[TX_SIZE], second[TX_SIZE], done_first[TX_SIZE], done_second[TX_SIZE];
    unsigned char *buffer[TX_SIZE];
};

struct tx_driver {
    struct tx *queue;
    uint64_t posted, returned, reaped;
};

struct tx_device {
    struct tx *queue;
    uint64_t read, completed;
};

static int post(struct tx_driver *driver, const unsigned char *frame, size_t length)
{
    struct tx *queue = driver->queue;
    uint64_t need = (length + PIECE - 1) / PIECE, start = driver->posted, first = 0;
    if (driver->posted - driver->returned + need > queue->size)
        return 0;
    for (uint64_t place = 0; place < need; place++) {
        uint64_t index = driver->posted % queue->size;
        size_t begin = place * PIECE, piece = length - begin < PIECE ? length - begin : PIECE;
        uint64_t word = (uint64_t)piece | generation(driver->posted, queue->size) << TX_GENERATION;
        if (place + 1 == need)
            word |= TX_EOP | TX_CQ;
        atomic_store(&queue->first[index], 0x100000000ull + index * PIECE);
        memcpy(queue->buffer[index], frame + begin, piece);
        // the first descriptor of a frame gets its generation last
        if (place == 0)
            first = word;
        atomic_store(&queue->second[index], place == 0 ? word ^ 1ull << TX_GENERATION : word);
        driver->posted++;
    }
    atomic_store(&queue->second[start % queue->size], first);
    return 1;
}

static int take(struct tx_device *device, unsigned char *into, size_t *length)
{
    struct tx *queue = device->queue;
    uint64_t word;
    *length = 0;
    do {
        uint64_t index = device->read % queue->size;
        word = atomic_load(&queue->second[index]);
        if ((word >> TX_GENERATION & 1) != generation(device->read, queue->size))
            return 0;
        size_t piece = word & 0x3fff;
        memcpy(into + *length, queue->buffer[index], piece);
        *length += piece;
        device->read++;
    } while (!(word & TX_EOP));
    return 1;
}

static void complete(struct tx_device *device)
{
    struct tx *queue = device->queue;
    uint64_t index = device->completed % queue->size;
    atomic_store(&queue->done_first[index], (device->read - 1) % queue->size);
    atomic_store(&queue->done_second[index], generation(device->completed, queue->size) << DONE_GENERATION);
    device->completed++;
}

static int reap(struct tx_driver *driver)
{
    struct tx *queue = driver->queue;
    uint64_t index = driver->reaped % queue->size;
    if (atomic_load(&queue->done_second[index]) >> DONE_GENERATION != generation(driver->reaped, queue->size))
        return 0;
    uint64_t last = atomic_load(&queue->done_first[index]) & 0xfff;
    driver->returned += (last + queue->size - driver->returned % queue->size) % queue->size + 1;
    driver->reaped++;
    return 1;
}

static struct tx *tx_of(uint64_t size)
{
    struct tx *queue = calloc(1, sizeof(struct tx));
    queue->size = size;
    for (uint64_t i = 0; i < size; i++)
        queue->buffer[i] = calloc(1, PIECE);
    return queue;
}

// ---- receive: two rings of descriptors, one of completions, a buffer a descriptor

struct rx {
    uint64_t size;
    _Atomic uint64_t first[2][RX_SIZE], second[2][RX_SIZE], done_first[2 * RX_SIZE], done_second[2 * RX_SIZE];
    unsigned char *buffer[2][RX_SIZE];
};

struct rx_device {
    struct rx *queue;
    uint64_t consumed[2], told;
};

struct rx_driver {
    struct rx *queue;
    uint64_t posted[2], read;
};

static uint64_t rx_word(unsigned ring, uint64_t position, uint64_t size)
{
    return (ring ? PIECE | RX_BODY : HEAD) | generation(position, size) << RX_GENERATION;
}

static int is_device(struct rx *queue, unsigned ring, uint64_t position)
{
    uint64_t word = atomic_load(&queue->second[ring][position % queue->size]);
    return (word >> RX_GENERATION & 1) == generation(position, queue->size);
}

static int deliver(struct rx_device *device, const unsigned char *frame, size_t length)
{
    struct rx *queue = device->queue;
    uint64_t bodies = length > HEAD ? (length - HEAD + PIECE - 1) / PIECE : 0;
    if (!is_device(queue, 0, device->consumed[0]))
        return 0;
    for (uint64_t k = 0; k < bodies; k++)
        if (!is_device(queue, 1, device->consumed[1] + k))
            return 0;
    uint64_t start = device->told, ring_size = 2 * queue->size, first = 0;
    size_t begin = 0;
    for (uint64_t k = 0; k <= bodies; k++) {
        unsigned ring = k > 0;
        uint64_t index = device->consumed[ring] % queue->size, at = device->told % ring_size;
        size_t most = ring ? PIECE : HEAD, piece = length - begin < most ? length - begin : most;
        memcpy(queue->buffer[ring][index], frame + begin, piece);
        uint64_t word = (uint64_t)piece | RX_KIND | generation(device->told, ring_size) << DONE_GENERATION;
        atomic_store(&queue->done_first[at], index | (k == bodies ? RX_EOP : 0) | (k == 0 ? RX_SOP : 0) | (ring ? RX_RING2 : 0));
        // the first completion of a frame gets its generation last
        if (k == 0)
            first = word;
        atomic_store(&queue->done_second[at], k == 0 ? word ^ 1ull << DONE_GENERATION : word);
        begin += piece;
        device->consumed[ring]++;
        device->told++;
    }
    atomic_store(&queue->done_second[start % ring_size], first);
    return 1;
}

static int receive(struct rx_driver *driver, unsigned char *into, size_t *length)
{
    struct rx *queue = driver->queue;
    uint64_t ring_size = 2 * queue->size, told;
    *length = 0;
    do {
        uint64_t at = driver->read % ring_size, word = atomic_load(&queue->done_second[at]);
        if (word >> DONE_GENERATION != generation(driver->read, ring_size))
            return 0;
        told = atomic_load(&queue->done_first[at]);
        unsigned ring = (told & RX_RING2) != 0;
        uint64_t index = told & 0xfff;
        size_t piece = word & 0x3fff;
        memcpy(into + *length, queue->buffer[ring][index], piece);
        *length += piece;
        atomic_store(&queue->second[ring][index], rx_word(ring, driver->posted[ring], queue->size));
        driver->posted[ring]++;
        driver->read++;
    } while (!(told & RX_EOP));
    return 1;
}

static struct rx *rx_of(uint64_t size)
{
    struct rx *queue = calloc(1, sizeof(struct rx));
    queue->size = size;
    for (unsigned ring = 0; ring < 2; ring++)
        for (uint64_t i = 0; i < size; i++) {
            queue->buffer[ring][i] = calloc(1, ring ? PIECE : HEAD);
            atomic_store(&queue->second[ring][i], rx_word(ring, i, size));
        }
    return queue;
}

// ---- one thread, and two

static uint64_t count;

static void *take_all(void *argument)
{
    static unsigned char into[ROOM];
    uint64_t number = 0;
    size_t length;
    while (number < count)
        if (take(argument, into, &length)) {
            complete(argument);
            number++;
        } else
            sched_yield();
    return NULL;
}

static void *receive_all(void *argument)
{
    static unsigned char into[ROOM];
    uint64_t number = 0;
    size_t length;
    while (number < count)
        if (receive(argument, into, &length))
            number++;
        else
            sched_yield();
    return NULL;
}

static void print(const char *kind, uint64_t done, uint64_t start)
{
    printf("%s %llu %llu\n", kind, (unsigned long long)done, (unsigned long long)(now() - start));
}

static void measure_tx(uint64_t size)
{
    static unsigned char into[ROOM];
    struct tx *queue = tx_of(size);
    struct tx_driver driver = { .queue = queue };
    struct tx_device device = { .queue = queue };
    size_t length, taken;
    uint64_t start = now(), done = 0;
    for (; done < count; done++) {
        const unsigned char *frame = frame_of(done, &length);
        if (!post(&driver, frame, length) || !take(&device, into, &taken))
            break;
        complete(&device);
        if (!reap(&driver))
            break;
    }
    print("one-thread", done, start);

    queue = tx_of(size);
    driver = (struct tx_driver){ .queue = queue };
    device = (struct tx_device){ .queue = queue };
    pthread_t thread;
    start = now();
    pthread_create(&thread, NULL, take_all, &device);
    for (done = 0; done < count;) {
        const unsigned char *frame = frame_of(done, &length);
        if (post(&driver, frame, length))
            done++;
        else if (!reap(&driver))
            sched_yield();
    }
    pthread_join(thread, NULL);
    print("two-threads", done, start);
}

static void measure_rx(uint64_t size)
{
    static unsigned char into[ROOM];
    struct rx *queue = rx_of(size);
    struct rx_driver driver = { .queue = queue, .posted = { size, size } };
    struct rx_device device = { .queue = queue };
    size_t length, got;
    uint64_t start = now(), done = 0;
    for (; done < count; done++) {
        const unsigned char *frame = frame_of(done, &length);
        if (!deliver(&device, frame, length) || !receive(&driver, into, &got))
            break;
    }
    print("one-thread", done, start);

    queue = rx_of(size);
    driver = (struct rx_driver){ .queue = queue, .posted = { size, size } };
    device = (struct rx_device){ .queue = queue };
    pthread_t thread;
    start = now();
    pthread_create(&thread, NULL, receive_all, &driver);
    for (done = 0; done < count;) {
        const unsigned char *frame = frame_of(done, &length);
        if (deliver(&device, frame, length))
            done++;
        else
            sched_yield();
    }
    pthread_join(thread, NULL);
    print("two-threads", done, start);
}

int main(int argc, char **argv)
{
    if (argc < 3)
        return 2;
    count = strtoull(argv[2], NULL, 10);
    for (unsigned i = 0; i < TEXT; i++)
        text[i] = (unsigned char)(i % STARTS);
    // read at run time, as the size of a ring is
    volatile uint64_t tx_size = TX_SIZE, rx_size = RX_SIZE;
    if (strcmp(argv[1], "tx") == 0)
        measure_tx(tx_size);
    else
        measure_rx(rx_size);
    return 0;
}
