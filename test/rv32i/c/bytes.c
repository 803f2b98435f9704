// Copies, sets and moves bytes and half words, also at odd addresses.
#include <stdint.h>
#include <string.h>
#include "owner.h"

struct mixed {
  int8_t small;
  int16_t middle;
  uint8_t bytes[13];
  uint16_t halves[5];
};

static uint8_t room[96];
static struct mixed first, second;

static void put_room(void) {
  for (unsigned i = 0; i < sizeof room; i += 4) {
    put((uint32_t)room[i] << 24 | (uint32_t)room[i + 1] << 16 | (uint32_t)room[i + 2] << 8 | room[i + 3]);
  }
}

int main(void) {
  for (unsigned i = 0; i < sizeof room; i++) room[i] = (uint8_t)(i * 37 + 200);
  for (volatile unsigned size = 0; size < 24; size += 3) {
    memcpy(room + size, room + 48, size);
    memmove(room + 50, room + 47, size + 1);
    memmove(room + 30, room + 33, size + 2);
    memset(room + 70 + (size & 3), (int)size * 11, size);
    put_room();
    put(memcmp(room, room + 24, size) < 0);
  }
  first = (struct mixed){.small = -100, .middle = -30000, .bytes = "a few bytes", .halves = {1, 2, 0xfffe, 0x8000, 5}};
  second = first;
  for (int i = 0; i < 13; i++) {
    second.bytes[i] -= (uint8_t)(first.small + i);
    second.halves[i % 5] += second.bytes[i] * first.middle;
    put(second.bytes[i] | (uint32_t)second.halves[i % 5] << 16);
  }
  put((uint32_t)(second.small >> 1));
  put((uint32_t)(second.middle / 7));
  return 0;
}
