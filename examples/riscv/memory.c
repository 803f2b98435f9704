// What the compiler may call in any program. A program may have functions of its own by these names.
#include <stdint.h>
#include <string.h>

// (else the compiler makes a call of memcpy of the loop in memcpy)
#define PROVIDED __attribute__((weak, optimize("no-tree-loop-distribute-patterns")))
#define ALIGNED(one, other) ((((uintptr_t)(one) | (uintptr_t)(other)) & 3) == 0)

PROVIDED void *memcpy(void *to, const void *from, size_t count) {
  unsigned char *target = to;
  const unsigned char *source = from;
  if (ALIGNED(to, from)) {
    for (; count >= 4; count -= 4, target += 4, source += 4) *(uint32_t *)target = *(const uint32_t *)source;
  }
  while (count--) *target++ = *source++;
  return to;
}

PROVIDED void *memmove(void *to, const void *from, size_t count) {
  unsigned char *target = to;
  const unsigned char *source = from;
  if (target <= source) return memcpy(to, from, count);
  while (count--) target[count] = source[count];
  return to;
}

PROVIDED void *memset(void *to, int byte, size_t count) {
  unsigned char *target = to;
  if (ALIGNED(to, 0)) {
    for (; count >= 4; count -= 4, target += 4) *(uint32_t *)target = (unsigned char)byte * 0x01010101u;
  }
  while (count--) *target++ = byte;
  return to;
}

PROVIDED int memcmp(const void *one, const void *other, size_t count) {
  const unsigned char *first = one, *second = other;
  for (; count--; first++, second++) {
    if (*first != *second) return *first - *second;
  }
  return 0;
}
