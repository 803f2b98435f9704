// Never ends, and puts what it counts.
#include "owner.h"

int main(void) {
  for (unsigned count = 0;; count++) put(count);
}
