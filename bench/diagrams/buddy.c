/* The same diagrams as program.txt builds, over BuDDy, with the same operations on the same variable order.
   The arguments are the number of queens, the number of bits and the number of rounds. It prints the nodes of
   each result and the microseconds of all rounds. */
#include <bdd.h>
#include <stdio.h>
#include <stdlib.h>
#include <time.h>

static long microseconds(void) {
  struct timespec t;
  clock_gettime(CLOCK_MONOTONIC, &t);
  return t.tv_sec * 1000000L + t.tv_nsec / 1000;
}

static BDD queens(int n) {
  BDD all = bddtrue;
  for (int row = 0; row < n; row++) {
    BDD some = bddfalse;
    for (int col = 0; col < n; col++)
      some = bdd_or(some, bdd_ithvar(row * n + col));
    all = bdd_and(all, some);
  }
  for (int row = 0; row < n; row++)
    for (int col = 0; col < n; col++)
      for (int r = 0; r < n; r++)
        for (int c = 0; c < n; c++) {
          int same = r == row && c == col;
          int meets = r == row || c == col || r - row == c - col || r - row == col - c;
          if (!same && meets) {
            BDD clear = bdd_not(bdd_ithvar(r * n + c));
            all = bdd_and(all, bdd_ite(bdd_ithvar(row * n + col), clear, bddtrue));
          }
        }
  return all;
}

/* a + b = s, with the bits of a, b and s in turn from the lowest on. */
static BDD adder(int bits) {
  BDD all = bddtrue, carry = bddfalse;
  for (int i = 0; i < bits; i++) {
    BDD a = bdd_ithvar(3 * i), b = bdd_ithvar(3 * i + 1), s = bdd_ithvar(3 * i + 2);
    BDD half = bdd_ite(a, bdd_not(b), b);
    BDD sum = bdd_ite(half, bdd_not(carry), carry);
    carry = bdd_or(bdd_and(a, b), bdd_and(half, carry));
    all = bdd_and(all, bdd_ite(sum, s, bdd_not(s)));
  }
  return all;
}

int main(int argc, char **argv) {
  int n = atoi(argv[1]), bits = atoi(argv[2]), rounds = atoi(argv[3]);
  long used[2] = {0, 0};
  int nodes[2] = {0, 0};
  for (int i = 0; i < rounds; i++)
    for (int which = 0; which < 2; which++) {
      bdd_init(2000000, 65536);
      bdd_setvarnum(which == 0 ? n * n : 3 * bits);
      bdd_gbc_hook(NULL);
      long start = microseconds();
      BDD result = which == 0 ? queens(n) : adder(bits);
      used[which] += microseconds() - start;
      nodes[which] = bdd_nodecount(result);
      bdd_done();
    }
  printf("queens %d %ld\nadder %d %ld\n", nodes[0], used[0], nodes[1], used[1]);
  return 0;
}
