// Multiplies, divides and shifts numbers of 32 and 64 bits, signed and not.
#include <stdint.h>
#include "owner.h"

static const uint32_t numbers[] = {0, 1, 2, 3, 7, 10, 0x7fff, 0x8000, 0xffff, 0x12345678, 0x7fffffff, 0x80000000, 0x80000001, 0xfffffff6, 0xffffffff};
enum { COUNT = sizeof numbers / sizeof *numbers };

static void put_long(uint64_t number) {
  put(number);
  put(number >> 32);
}

int main(void) {
  for (int i = 0; i < COUNT; i++) {
    for (int j = 0; j < COUNT; j += 2) {
      volatile uint32_t one = numbers[i], other = numbers[j];
      put(one * other);
      put_long((uint64_t)one * other);
      put_long((int64_t)(int32_t)one * (int32_t)other);
      put((int32_t)one >> (other & 31));
      put_long((uint64_t)one << 32 >> (other & 63));
      put_long((int64_t)((uint64_t)one << 32) >> (other & 63));
      put(((int32_t)one < (int32_t)other) << 1 | (one < other));
      if (other) {
        put(one / other);
        put(one % other);
        put_long(((uint64_t)one << 32 | other) / other);
        if (other != 0xffffffff) {
          put((int32_t)one / (int32_t)other);
          put((int32_t)one % (int32_t)other);
        }
      }
    }
  }
  return 0;
}
