// Recursion, calls by a table, a switch, and a list that is reversed.
#include <stdint.h>
#include "owner.h"

typedef uint32_t operation(uint32_t, uint32_t);

static uint32_t gcd(uint32_t one, uint32_t other) { return other ? gcd(other, one % other) : one; }
static uint32_t power(uint32_t one, uint32_t other) { return other ? one * power(one, other - 1) : 1; }
static uint32_t ackermann(uint32_t one, uint32_t other) {
  return !one ? other + 1 : !other ? ackermann(one - 1, 1) : ackermann(one - 1, ackermann(one, other - 1));
}

static operation *volatile const operations[] = {gcd, power, ackermann};

struct node {
  struct node *next;
  uint32_t number;
};

static struct node nodes[20];

static uint32_t chosen(uint32_t which) {
  switch (which) {
    case 0: return 17;
    case 1: return 0x80000000;
    case 2: return which << 20;
    case 3: return ~which;
    case 4: return 99;
    case 5: return which * 1000003;
    default: return which;
  }
}

int main(void) {
  put(operations[0](1071, 462));
  put(operations[1](7, 13));
  put(operations[2](2, 3));
  for (uint32_t i = 0; i < 8; i++) put(chosen(i));
  struct node *list = 0, *turned = 0;
  for (uint32_t i = 0; i < 20; i++) {
    nodes[i] = (struct node){list, i * i};
    list = nodes + i;
  }
  while (list) {
    struct node *next = list->next;
    list->next = turned;
    turned = list;
    list = next;
  }
  for (; turned; turned = turned->next) put(turned->number);
  halt();
}
