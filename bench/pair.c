// A yardstick for `vmxreplay pair IN OUT`: the same files by a plain C program with two rings, one that a sender posts to, of 512
// descriptors, and one that a receiver takes from, of 256, each with a buffer of 4 KiB. A frame is copied four times: into the sender's
// buffers, out of them into a packet, into the receiver's buffers, and out of them behind the frames that came before.
//
// pair IN OUT: IN is a capture in the byte order of this machine. Frames of 14 to 1,518 bytes go through; others are left out.
#include <stdint.h>
#include <stdio.h>
#include <stdlib.h>
#include <string.h>

#define TX_SIZE 512u
#define RX_SIZE 256u
#define PIECE 4096u
#define FILE_HEADER 24u
#define RECORD_HEADER 16u
#define LEAST 14u
#define MOST 1518u
#define MAGIC 0xA1B2C3D4u

struct descriptor {
    uint32_t length;
    uint8_t generation, last;
};

struct completion {
    uint32_t index, length;
    uint8_t generation;
};

struct ring {
    uint32_t size;
    uint64_t posted, taken, completed, reaped;
    struct descriptor *descriptors;
    struct completion *completions;
    unsigned char *buffers;
};

struct packet {
    uint32_t length;
    unsigned char bytes[];
};

static void *found(void *memory)
{
    if (memory == NULL) {
        fprintf(stderr, "no memory\n");
        exit(8);
    }
    return memory;
}

static struct ring ring_of(uint32_t size)
{
    struct ring ring = {.size = size};
    ring.descriptors = found(calloc(size, sizeof *ring.descriptors));
    ring.completions = found(calloc(size, sizeof *ring.completions));
    ring.buffers = found(malloc((size_t)size * PIECE));
    return ring;
}

// The generation of a position: 1 in the first lap, and flipped at each wrap.
static uint8_t generation(uint64_t position, uint32_t size)
{
    return 1 ^ (position / size & 1);
}

static unsigned char *buffer_at(struct ring *ring, uint64_t position)
{
    return ring->buffers + (position % ring->size) * PIECE;
}

// Puts a frame into the buffers from a position on, in pieces; returns the position behind it.
static uint64_t put(struct ring *ring, uint64_t position, const unsigned char *bytes, uint32_t length)
{
    while (1) {
        uint32_t piece = length < PIECE ? length : PIECE;
        memcpy(buffer_at(ring, position), bytes, piece);
        bytes += piece;
        length -= piece;
        struct descriptor *here = &ring->descriptors[position % ring->size];
        here->length = piece;
        here->last = length == 0;
        here->generation = generation(position, ring->size);
        position++;
        if (length == 0)
            return position;
    }
}

// The length of the frame whose pieces begin at a position.
static uint32_t length_at(struct ring *ring, uint64_t position)
{
    uint32_t length = 0;
    while (1) {
        struct descriptor *here = &ring->descriptors[position % ring->size];
        length += here->length;
        if (here->last)
            return length;
        position++;
    }
}

// Copies the frame whose pieces begin at a position; returns the position behind it.
static uint64_t get(struct ring *ring, uint64_t position, unsigned char *into)
{
    while (1) {
        struct descriptor *here = &ring->descriptors[position % ring->size];
        memcpy(into, buffer_at(ring, position), here->length);
        into += here->length;
        position++;
        if (here->last)
            return position;
    }
}

static void complete(struct ring *ring, uint32_t index, uint32_t length)
{
    struct completion *here = &ring->completions[ring->completed % ring->size];
    here->index = index;
    here->length = length;
    here->generation = generation(ring->completed, ring->size);
    ring->completed++;
}

static void reap(struct ring *ring)
{
    while (ring->reaped < ring->completed
           && ring->completions[ring->reaped % ring->size].generation == generation(ring->reaped, ring->size))
        ring->reaped++;
}

static uint32_t word(const unsigned char *at)
{
    uint32_t value;
    memcpy(&value, at, sizeof value);
    return value;
}

static unsigned char *load(const char *name, size_t *length)
{
    FILE *file = fopen(name, "rb");
    if (file == NULL || fseek(file, 0, SEEK_END) != 0) {
        fprintf(stderr, "read fault: %s\n", name);
        exit(6);
    }
    long end = ftell(file);
    rewind(file);
    unsigned char *bytes = found(malloc((size_t)end + 1));
    *length = fread(bytes, 1, (size_t)end, file);
    fclose(file);
    return bytes;
}

int main(int count, char **words)
{
    if (count != 3) {
        fprintf(stderr, "usage: pair IN OUT\n");
        return 2;
    }
    size_t length;
    unsigned char *in = load(words[1], &length);
    if (length < FILE_HEADER || word(in) != MAGIC) {
        fprintf(stderr, "capture %s\n", words[1]);
        return 4;
    }
    unsigned char *out = found(malloc(length));
    size_t end = FILE_HEADER;
    memcpy(out, in, FILE_HEADER);
    struct ring tx = ring_of(TX_SIZE), rx = ring_of(RX_SIZE);
    for (size_t at = FILE_HEADER; at + RECORD_HEADER <= length;) {
        uint32_t captured = word(in + at + 8);
        const unsigned char *frame = in + at + RECORD_HEADER;
        if (captured > length - at - RECORD_HEADER)
            break;
        if (LEAST <= captured && captured <= MOST) {
            tx.posted = put(&tx, tx.posted, frame, captured);

            uint32_t size = length_at(&tx, tx.taken);
            struct packet *packet = found(malloc(sizeof *packet + size));
            packet->length = size;
            tx.taken = get(&tx, tx.taken, packet->bytes);
            complete(&tx, (tx.taken - 1) % TX_SIZE, size);
            reap(&tx);

            uint64_t head = rx.taken;
            rx.taken = put(&rx, head, packet->bytes, packet->length);
            complete(&rx, head % RX_SIZE, packet->length);
            free(packet);

            uint32_t came = rx.completions[rx.reaped % RX_SIZE].length;
            memcpy(out + end, in + at, RECORD_HEADER);
            get(&rx, head, out + end + RECORD_HEADER);
            end += RECORD_HEADER + came;
            rx.reaped++;
            rx.posted = rx.taken;
        }
        at += RECORD_HEADER + captured;
    }
    FILE *file = fopen(words[2], "wb");
    if (file == NULL || fwrite(out, 1, end, file) != end || fclose(file) != 0) {
        fprintf(stderr, "write fault: %s\n", words[2]);
        return 7;
    }
    return 0;
}
