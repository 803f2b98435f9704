// SHA-256 of a message, put as eight words. For "abc" they are the published ba7816bf 8f01cfea 414140de 5dae2223 b00361a3 96177a9c b410ff61 f20015ad.
#include <stdint.h>
#include "owner.h"

static const char message[] = "abc";

static const uint32_t constants[64] = {
  0x428a2f98, 0x71374491, 0xb5c0fbcf, 0xe9b5dba5, 0x3956c25b, 0x59f111f1, 0x923f82a4, 0xab1c5ed5,
  0xd807aa98, 0x12835b01, 0x243185be, 0x550c7dc3, 0x72be5d74, 0x80deb1fe, 0x9bdc06a7, 0xc19bf174,
  0xe49b69c1, 0xefbe4786, 0x0fc19dc6, 0x240ca1cc, 0x2de92c6f, 0x4a7484aa, 0x5cb0a9dc, 0x76f988da,
  0x983e5152, 0xa831c66d, 0xb00327c8, 0xbf597fc7, 0xc6e00bf3, 0xd5a79147, 0x06ca6351, 0x14292967,
  0x27b70a85, 0x2e1b2138, 0x4d2c6dfc, 0x53380d13, 0x650a7354, 0x766a0abb, 0x81c2c92e, 0x92722c85,
  0xa2bfe8a1, 0xa81a664b, 0xc24b8b70, 0xc76c51a3, 0xd192e819, 0xd6990624, 0xf40e3585, 0x106aa070,
  0x19a4c116, 0x1e376c08, 0x2748774c, 0x34b0bcb5, 0x391c0cb3, 0x4ed8aa4a, 0x5b9cca4f, 0x682e6ff3,
  0x748f82ee, 0x78a5636f, 0x84c87814, 0x8cc70208, 0x90befffa, 0xa4506ceb, 0xbef9a3f7, 0xc67178f2,
};

static uint32_t turned(uint32_t word, int count) { return word >> count | word << (32 - count); }

// One block of sixteen words, the first byte of each being its highest.
static void add_block(uint32_t sum[8], const uint8_t block[64]) {
  uint32_t schedule[64], state[8];
  for (int i = 0; i < 16; i++) {
    const uint8_t *at = block + 4 * i;
    schedule[i] = (uint32_t)at[0] << 24 | (uint32_t)at[1] << 16 | (uint32_t)at[2] << 8 | at[3];
  }
  for (int i = 16; i < 64; i++) {
    uint32_t early = schedule[i - 15], late = schedule[i - 2];
    schedule[i] = schedule[i - 16] + (turned(early, 7) ^ turned(early, 18) ^ early >> 3) + schedule[i - 7] +
                  (turned(late, 17) ^ turned(late, 19) ^ late >> 10);
  }
  for (int i = 0; i < 8; i++) state[i] = sum[i];
  for (int i = 0; i < 64; i++) {
    uint32_t a = state[0], b = state[1], c = state[2], e = state[4];
    uint32_t one = state[7] + (turned(e, 6) ^ turned(e, 11) ^ turned(e, 25)) + ((e & state[5]) ^ (~e & state[6])) +
                   constants[i] + schedule[i];
    uint32_t two = (turned(a, 2) ^ turned(a, 13) ^ turned(a, 22)) + ((a & b) ^ (a & c) ^ (b & c));
    for (int j = 7; j > 0; j--) state[j] = state[j - 1];
    state[4] += one;
    state[0] = one + two;
  }
  for (int i = 0; i < 8; i++) sum[i] += state[i];
}

int main(void) {
  uint32_t sum[8] = {
    0x6a09e667, 0xbb67ae85, 0x3c6ef372, 0xa54ff53a, 0x510e527f, 0x9b05688c, 0x1f83d9ab, 0x5be0cd19,
  };
  uint8_t block[64] = {0};
  uint32_t length = sizeof message - 1;
  for (uint32_t i = 0; i < length; i++) {
    block[i % 64] = message[i];
    if (i % 64 == 63) add_block(sum, block);
  }
  uint32_t used = length % 64;
  for (uint32_t i = used; i < 64; i++) block[i] = i == used ? 0x80 : 0;
  if (used >= 56) {
    add_block(sum, block);
    for (int i = 0; i < 64; i++) block[i] = 0;
  }
  for (int i = 0; i < 4; i++) block[63 - i] = (length * 8) >> (8 * i);
  add_block(sum, block);
  for (int i = 0; i < 8; i++) put(sum[i]);
  return 0;
}
