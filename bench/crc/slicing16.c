/* The same work as crates/bench_crc in C: CRC-32 by sixteen tables and by one, and the CRC of a DLLP by one.
 *
 * Words: slicing|bytes|narrow BYTES LEAST MOST ROUNDS. It prints what all CRCs come to and the nanoseconds spent. */
#include <stdint.h>
#include <stdio.h>
#include <stdlib.h>
#include <string.h>
#include <time.h>

static uint32_t tables[16][256];
static uint16_t table_16[256];

static void make_tables(void)
{
    for (uint32_t i = 0; i < 256; i++) {
        uint32_t wide = i;
        uint16_t narrow = (uint16_t)i;
        for (int step = 0; step < 8; step++) {
            wide = (wide & 1) ? (wide >> 1) ^ 0xedb88320u : wide >> 1;
            narrow = (narrow & 1) ? (narrow >> 1) ^ 0xd008u : narrow >> 1;
        }
        tables[0][i] = wide;
        table_16[i] = narrow;
    }
    for (int k = 1; k < 16; k++)
        for (int i = 0; i < 256; i++)
            tables[k][i] = (tables[k - 1][i] >> 8) ^ tables[0][tables[k - 1][i] & 0xff];
}

static inline uint32_t load_32(const uint8_t *bytes)
{
    uint32_t word;
    memcpy(&word, bytes, 4);
    return word;
}

/* Slicing by sixteen, as it is usually written: four words of four bytes, and the rest byte by byte. */
static __attribute__((noinline)) uint32_t slicing(const uint8_t *bytes, size_t length)
{
    uint32_t crc = 0xffffffffu;
    for (; length >= 16; bytes += 16, length -= 16) {
        uint32_t one = load_32(bytes) ^ crc;
        uint32_t two = load_32(bytes + 4);
        uint32_t three = load_32(bytes + 8);
        uint32_t four = load_32(bytes + 12);
        crc = tables[0][four >> 24] ^ tables[1][(four >> 16) & 0xff] ^ tables[2][(four >> 8) & 0xff]
            ^ tables[3][four & 0xff] ^ tables[4][three >> 24] ^ tables[5][(three >> 16) & 0xff]
            ^ tables[6][(three >> 8) & 0xff] ^ tables[7][three & 0xff] ^ tables[8][two >> 24]
            ^ tables[9][(two >> 16) & 0xff] ^ tables[10][(two >> 8) & 0xff] ^ tables[11][two & 0xff]
            ^ tables[12][one >> 24] ^ tables[13][(one >> 16) & 0xff] ^ tables[14][(one >> 8) & 0xff]
            ^ tables[15][one & 0xff];
    }
    while (length--)
        crc = (crc >> 8) ^ tables[0][(crc ^ *bytes++) & 0xff];
    return ~crc;
}

static __attribute__((noinline)) uint32_t by_bytes(const uint8_t *bytes, size_t length)
{
    uint32_t crc = 0xffffffffu;
    while (length--)
        crc = (crc >> 8) ^ tables[0][(crc ^ *bytes++) & 0xff];
    return ~crc;
}

static __attribute__((noinline)) uint32_t narrow(const uint8_t *bytes, size_t length)
{
    uint16_t crc = 0xffffu;
    while (length--)
        crc = (uint16_t)((crc >> 8) ^ table_16[(crc ^ *bytes++) & 0xff]);
    return (uint16_t)~crc;
}

struct piece {
    const uint8_t *bytes;
    size_t length;
};

static int64_t now(void)
{
    struct timespec time;
    clock_gettime(CLOCK_MONOTONIC, &time);
    return (int64_t)time.tv_sec * 1000000000 + time.tv_nsec;
}

#define FOLD(crc_of)                                                                 \
    for (unsigned long round = 0; round < rounds; round++)                           \
        for (size_t i = 0; i < count; i++)                                           \
            total = total * 31 + crc_of(pieces[i].bytes, pieces[i].length)

int main(int argc, char **argv)
{
    if (argc < 6) {
        fprintf(stderr, "words: slicing|bytes|narrow BYTES LEAST MOST ROUNDS\n");
        return 1;
    }
    size_t size = strtoul(argv[2], 0, 10), least = strtoul(argv[3], 0, 10), most = strtoul(argv[4], 0, 10);
    unsigned long rounds = strtoul(argv[5], 0, 10);
    uint8_t *buffer = malloc(size);
    struct piece *pieces = malloc((size / least + 1) * sizeof *pieces);
    if (!buffer || !pieces)
        return 1;
    make_tables();
    uint32_t state = 1;
    for (size_t i = 0; i < size; i++) {
        state = state * 1664525u + 1013904223u;
        buffer[i] = (uint8_t)(state >> 24);
    }
    size_t count = 0, start = 0, more = 0;
    while (start + least + more <= size) {
        pieces[count].bytes = buffer + start;
        pieces[count++].length = least + more;
        start += least + more;
        more = (more + 37) % (most - least + 1);
    }

    uint32_t total = 0;
    int64_t before = now();
    if (!strcmp(argv[1], "slicing"))
        FOLD(slicing);
    else if (!strcmp(argv[1], "bytes"))
        FOLD(by_bytes);
    else
        FOLD(narrow);
    printf("%08x %lld\n", total, (long long)(now() - before));
    return 0;
}
