// Jumps to where nothing is.
#include "owner.h"

int main(void) {
  put(1);
  ((void (*)(void))0x12345678)();
  put(2);
  return 0;
}
