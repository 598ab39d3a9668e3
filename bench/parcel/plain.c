/* Wraps a frame of 1,400 bytes and reads it back, ROUNDS times: the plainest C of what a parcel does. */
#include <stddef.h>
#include <stdint.h>
#include <stdio.h>
#include <stdlib.h>

enum { OUTER_LEN = 36, IP_LEN = 20 };

struct outer {
    uint32_t source, destination;
    uint8_t ttl;
    uint32_t vni;
    uint16_t source_port;
    int sealed;
};

static void put16(uint8_t *p, uint16_t x) { p[0] = x >> 8; p[1] = x & 255; }
static void put32(uint8_t *p, uint32_t x) { put16(p, x >> 16); put16(p + 2, x & 65535); }
static uint16_t get16(const uint8_t *p) { return (uint16_t)(p[0] << 8 | p[1]); }
static uint32_t get32(const uint8_t *p) { return (uint32_t)get16(p) << 16 | get16(p + 2); }

static uint16_t ones_sum(const uint8_t *p, size_t len) {
    uint64_t sum = 0;
    for (; len >= 2; p += 2, len -= 2) sum += get16(p);
    if (len == 1) sum += (uint64_t)p[0] << 8;
    while (sum > 0xffff) sum = (sum >> 16) + (sum & 0xffff);
    return (uint16_t)sum;
}

static void wrap(uint8_t *bytes, size_t len, const struct outer *o) {
    put16(bytes, 0x4500);
    put16(bytes + 2, (uint16_t)len);
    put32(bytes + 4, 0x4000);
    bytes[8] = o->ttl;
    bytes[9] = 17;
    put16(bytes + 10, 0);
    put32(bytes + 12, o->source);
    put32(bytes + 16, o->destination);
    put16(bytes + 10, 0xffff - ones_sum(bytes, IP_LEN));
    put16(bytes + 20, o->source_port);
    put16(bytes + 22, 4789);
    put16(bytes + 24, (uint16_t)(len - IP_LEN));
    put16(bytes + 26, 0);
    put32(bytes + 28, 0x08000000);
    put32(bytes + 32, o->vni << 8);
}

static int read_outer(const uint8_t *bytes, size_t len, struct outer *o) {
    if (len < OUTER_LEN) return 1;
    if (bytes[0] != 0x45) return 2;
    if (ones_sum(bytes, IP_LEN) != 0xffff) return 3;
    if (get16(bytes + 2) != len || get16(bytes + 24) != len - IP_LEN) return 1;
    if (bytes[9] != 17) return 4;
    if (get16(bytes + 22) != 4789) return 5;
    if (get16(bytes + 26) != 0) return 6;
    if (!(bytes[28] & 8)) return 7;
    o->source = get32(bytes + 12);
    o->destination = get32(bytes + 16);
    o->ttl = bytes[8];
    o->vni = get32(bytes + 32) >> 8;
    o->source_port = get16(bytes + 20);
    o->sealed = get16(bytes + 26) != 0;
    return 0;
}

int main(int argc, char **argv) {
    if (argc != 2) {
        puts("usage: plain ROUNDS");
        return 1;
    }
    uint32_t rounds = (uint32_t)strtoul(argv[1], NULL, 10);
    size_t len = OUTER_LEN + 1400;
    uint8_t *bytes = calloc(len, 1);
    if (!bytes) return 1;
    struct outer o = {0xac100001, 0xac110001, 16, 7, 49589, 0}, read;
    uint32_t sum = 0;
    for (uint32_t i = 0; i < rounds; i++) {
        o.vni = i % 16777216;
        o.ttl = o.vni % 256;
        wrap(bytes, len, &o);
        if (read_outer(bytes, len, &read) == 0) sum = sum * 31 + read.vni + read.ttl;
    }
    printf("%u\n", sum);
    return 0;
}
