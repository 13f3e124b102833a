/* Toeplitz hashes of a TCP flow over IPv4 with a plain loop: a window of 32 key bits, one bit to each input bit.
   It prints what `vmx_bench hash N` prints. */
#include <stdint.h>
#include <stdio.h>
#include <stdlib.h>

static const uint8_t KEY[40] = {
    0x6d, 0x5a, 0x56, 0xda, 0x25, 0x5b, 0x0e, 0xc2, 0x41, 0x67, 0x25, 0x3d, 0x43, 0xa3,
    0x8f, 0xb0, 0xd0, 0xca, 0x2b, 0xcb, 0xae, 0x7b, 0x30, 0xb4, 0x77, 0xcb, 0x2d, 0xa3,
    0x80, 0x30, 0xf2, 0x0c, 0x6a, 0x42, 0xb7, 0x3b, 0xbe, 0xac, 0x01, 0xfa,
};

static uint32_t __attribute__((noinline)) toeplitz(const uint8_t key[40], const uint8_t *input, size_t len)
{
    uint32_t window = (uint32_t)key[0] << 24 | (uint32_t)key[1] << 16 | (uint32_t)key[2] << 8 | key[3];
    uint32_t hash = 0;
    for (size_t i = 0; i < len; i++) {
        for (int bit = 7; bit >= 0; bit--) {
            if (input[i] >> bit & 1)
                hash ^= window;
            window = window << 1 | (key[i + 4] >> bit & 1);
        }
    }
    return hash;
}

int main(int argc, char **argv)
{
    uint32_t count = argc > 1 ? (uint32_t)strtoul(argv[1], NULL, 10) : 0;
    uint8_t input[12] = {66, 9, 149, 187, 161, 142, 100, 80, 0, 0, 6, 230};
    uint32_t all = 0;
    for (uint32_t n = 0; n < count; n++) {
        input[8] = (uint8_t)(n / 256 % 256);
        input[9] = (uint8_t)(n % 256);
        all ^= toeplitz(KEY, input, sizeof input);
    }
    printf("%u\n", all);
    return 0;
}
