// Stores all over its memory, its own code included, and goes on with whatever that makes of it.
#include "owner.h"

int main(void) {
  volatile unsigned char *memory = (volatile unsigned char *)0x3fff;
  for (unsigned byte = 1;; byte = byte * 5 + 3) *memory-- = byte >> 3;
}
