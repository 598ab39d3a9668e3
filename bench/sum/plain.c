/* The one's complement sum of 1,400 bytes, ROUNDS times: by words of 64 bits, whose halves are added to two sums, so that no carry is lost (RFC 1071). */
#include <stddef.h>
#include <stdint.h>
#include <stdio.h>
#include <stdlib.h>
#include <string.h>

enum { LEN = 1400 };

static uint16_t ones_sum(const uint8_t *p, size_t len) {
    uint64_t low = 0, high = 0, word = 0;
    for (; len >= 8; p += 8, len -= 8) {
        memcpy(&word, p, 8);
        low += word & 0xffffffff;
        high += word >> 32;
    }
    word = 0;
    memcpy(&word, p, len);
    low += word & 0xffffffff;
    high += word >> 32;
    uint64_t sum = low + high;
    while (sum >> 16) sum = (sum >> 16) + (sum & 0xffff);
    return (uint16_t)(sum << 8 | sum >> 8);
}

int main(int argc, char **argv) {
    if (argc != 2) {
        puts("usage: plain ROUNDS");
        return 1;
    }
    uint32_t rounds = (uint32_t)strtoul(argv[1], NULL, 10);
    uint8_t *bytes = calloc(LEN, 1);
    if (!bytes) return 1;
    uint32_t sum = 0;
    for (uint32_t round = 0; round < rounds; round++) {
        bytes[round % LEN] = (uint8_t)(sum + round);
        sum = sum * 31 + ones_sum(bytes, LEN);
    }
    printf("%u\n", sum);
    return 0;
}
