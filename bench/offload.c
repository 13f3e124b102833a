// What `vmxoffload fill IN OUT` does, in plain C over the transmit ring of queue.c, as a yardstick for it: each frame of a
// little-endian capture in microseconds with a TCP segment over IPv4 or IPv6 is seeded, posted, taken, filled in, completed and
// reaped, one at a time, through a ring of 32 descriptors.
#define main queue_main
#include "queue.c"
#undef main

#define LONGEST 9022u

static unsigned word_at(const unsigned char *bytes)
{
    return (unsigned)bytes[0] << 8 | bytes[1];
}

static void put_word(unsigned char *bytes, unsigned word)
{
    bytes[0] = (unsigned char)(word >> 8);
    bytes[1] = (unsigned char)word;
}

static unsigned summed(const unsigned char *bytes, size_t length)
{
    unsigned sum = 0;
    size_t i;
    for (i = 0; i + 1 < length; i += 2)
        sum += word_at(bytes + i);
    return i < length ? sum + ((unsigned)bytes[i] << 8) : sum;
}

static unsigned folded(unsigned sum)
{
    sum = (sum >> 16) + (sum & 0xffff);
    return (sum >> 16) + (sum & 0xffff);
}

// Begin and end of the TCP segment, and the sum of its pseudo header. 0: there is none.
static int find(const unsigned char *frame, size_t length, size_t *begin, size_t *end, unsigned *pseudo)
{
    if (length < 14)
        return 0;
    size_t at = length >= 18 && word_at(frame + 12) == 0x8100 ? 18 : 14, rest = length - at, header, total;
    const unsigned char *packet = frame + at;
    if (word_at(packet - 2) == 0x0800) {
        if (rest < 20 || packet[0] >> 4 != 4)
            return 0;
        header = (packet[0] & 15) * 4u;
        if (header < 20 || packet[9] != 6 || word_at(packet + 6) & 0x3fff || rest < header + 20)
            return 0;
        total = word_at(packet + 2);
        *pseudo = summed(packet + 12, 8);
    } else if (word_at(packet - 2) == 0x86dd) {
        header = 40;
        if (rest < 60 || packet[0] >> 4 != 6 || packet[6] != 6)
            return 0;
        total = 40 + word_at(packet + 4);
        *pseudo = summed(packet + 8, 32);
    } else {
        return 0;
    }
    if (total > rest || total < header + 20)
        return 0;
    *begin = at + header;
    *end = at + total;
    *pseudo += 6 + (unsigned)(*end - *begin);
    return 1;
}

int main(int argc, char **argv)
{
    if (argc != 3)
        return 2;
    FILE *in = fopen(argv[1], "rb"), *out = fopen(argv[2], "wb");
    if (!in || !out)
        return 1;
    fseek(in, 0, SEEK_END);
    size_t size = (size_t)ftell(in), at = 24, written = 24;
    rewind(in);
    unsigned char *bytes = malloc(size), *saved = malloc(size), room[ROOM];
    if (!bytes || !saved || size < 24 || fread(bytes, 1, size, in) != size)
        return 1;
    memcpy(saved, "\xd4\xc3\xb2\xa1\2\0\4\0\0\0\0\0\0\0\0\0\xff\xff\0\0\1\0\0\0", 24);
    volatile uint64_t ring = 32;
    struct tx *queue = tx_of(ring);
    struct tx_driver driver = { .queue = queue };
    struct tx_device device = { .queue = queue };
    uint64_t filled = 0, left = 0, over = 0;
    while (at + 16 <= size) {
        uint32_t length;
        memcpy(&length, bytes + at + 8, 4);
        if (at + 16 + length > size)
            break;
        unsigned char *frame = bytes + at + 16;
        size_t begin, end, took;
        unsigned pseudo;
        if (length > LONGEST) {
            over++;
        } else {
            if (find(frame, length, &begin, &end, &pseudo)) {
                put_word(frame + begin + 16, folded(pseudo));
                if (!post(&driver, frame, length) || !take(&device, room, &took))
                    return 1;
                put_word(room + begin + 16, 0xffff ^ folded(summed(room + begin, end - begin)));
                complete(&device);
                if (!reap(&driver))
                    return 1;
                memcpy(frame, room, length);
                filled++;
            } else {
                left++;
            }
            memcpy(saved + written, bytes + at, 12);
            memcpy(saved + written + 12, &length, 4);
            memcpy(saved + written + 16, frame, length);
            written += 16 + length;
        }
        at += 16 + length;
    }
    if (fwrite(saved, 1, written, out) != written || fclose(out) != 0)
        return 1;
    printf("filled %llu left %llu long %llu tail %zu\n", (unsigned long long)filled, (unsigned long long)left, (unsigned long long)over, size - at);
    return 0;
}
