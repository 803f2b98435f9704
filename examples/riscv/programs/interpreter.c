// Interprets a bytecode with a stack. Its program puts the primes below 50, and then how many there are.
#include <stdint.h>
#include "owner.h"

enum { PUSH, LOAD, STORE, ADD, REMAINDER, LESS, JUMP, JUMP_IF_ZERO, PUT, END };
enum { TRIED, DIVISOR, PRIMES, VARIABLES };

static const int8_t code[] = {
  /*  0 */ PUSH, 2, STORE, TRIED,
  /*  4 */ PUSH, 2, STORE, DIVISOR,
  // A number without a smaller divisor is prime.
  /*  8 */ LOAD, DIVISOR, LOAD, TRIED, LESS, JUMP_IF_ZERO, 31,
  /* 15 */ LOAD, TRIED, LOAD, DIVISOR, REMAINDER, JUMP_IF_ZERO, 41,
  /* 22 */ LOAD, DIVISOR, PUSH, 1, ADD, STORE, DIVISOR, JUMP, 8,
  /* 31 */ LOAD, TRIED, PUT, LOAD, PRIMES, PUSH, 1, ADD, STORE, PRIMES,
  // The next number, up to 50.
  /* 41 */ LOAD, TRIED, PUSH, 1, ADD, STORE, TRIED,
  /* 48 */ LOAD, TRIED, PUSH, 50, LESS, JUMP_IF_ZERO, 57, JUMP, 4,
  /* 57 */ LOAD, PRIMES, PUT, END,
};

int main(void) {
  uint32_t stack[8], variables[VARIABLES] = {0};
  uint32_t *top = stack;
  const int8_t *at = code;
  for (;;) {
    switch (*at++) {
      case PUSH: *top++ = *at++; break;
      case LOAD: *top++ = variables[*at++]; break;
      case STORE: variables[*at++] = *--top; break;
      case ADD: top--; top[-1] += top[0]; break;
      case REMAINDER: top--; top[-1] %= top[0]; break;
      case LESS: top--; top[-1] = top[-1] < top[0]; break;
      case JUMP: at = code + *at; break;
      case JUMP_IF_ZERO: at = *--top ? at + 1 : code + *at; break;
      case PUT: put(*--top); break;
      default: return 0;
    }
  }
}
