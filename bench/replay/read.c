/* The plainest reading of a capture: each frame's tuple is read off it, and what is read is added up so that nothing is left out. */
#include <stdint.h>
#include <stdio.h>
#include <stdlib.h>
#include <string.h>

static uint32_t big(const uint8_t *p, int n) {
  uint32_t x = 0;
  while (n--) x = x << 8 | *p++;
  return x;
}

int main(int argc, char **argv) {
  FILE *f = fopen(argv[argc - 1], "rb");
  if (!f) return 1;
  uint8_t *b = malloc(33554432);
  size_t n = fread(b, 1, 33554432, f), at = 24;
  uint64_t sum = 0, frames = 0;
  while (at + 16 <= n) {
    uint32_t captured;
    memcpy(&captured, b + at + 8, 4);
    const uint8_t *p = b + at + 16;
    uint8_t *copy = malloc(captured);
    memcpy(copy, p, captured);
    if (captured >= 34 && big(p + 12, 2) == 0x0800) {
      int header = 4 * (p[14] & 15);
      sum += big(p + 26, 4) + big(p + 30, 4) + p[23];
      if (p[23] == 6 || p[23] == 17) sum += big(p + 14 + header, 2) + big(p + 16 + header, 2);
    }
    sum += copy[captured / 2];
    at += 16 + captured;
    frames++;
  }
  printf("%lu frames, %lu\n", (unsigned long)frames, (unsigned long)sum);
  return 0;
}
