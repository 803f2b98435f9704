// Meets a word that is no instruction.
#include "owner.h"

int main(void) {
  put(1);
  __asm__ volatile(".word 0xffffffff");
  put(2);
  return 0;
}
