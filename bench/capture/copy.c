/* Copies BYTES bytes once with memcpy, ROUNDS times, and prints the nanoseconds of all rounds. */
#include <stdio.h>
#include <stdlib.h>
#include <string.h>
#include <time.h>

int main(int argc, char **argv) {
    if (argc != 3) {
        fprintf(stderr, "words: BYTES ROUNDS\n");
        return 2;
    }
    size_t bytes = strtoull(argv[1], NULL, 10);
    unsigned rounds = (unsigned)strtoul(argv[2], NULL, 10);
    unsigned char *from = malloc(bytes), *to = malloc(bytes);
    if (from == NULL || to == NULL) return 1;
    memset(from, 7, bytes);
    memset(to, 1, bytes);
    struct timespec start, end;
    clock_gettime(CLOCK_MONOTONIC, &start);
    for (unsigned round = 0; round < rounds; round++) {
        memcpy(to, from, bytes);
        __asm__ volatile("" : : "r"(to) : "memory");
    }
    clock_gettime(CLOCK_MONOTONIC, &end);
    long long spent = (end.tv_sec - start.tv_sec) * 1000000000LL + (end.tv_nsec - start.tv_nsec);
    printf("%lld\n", spent);
    return to[bytes / 2] != 7;
}
