/* Solves a Boolean machine that is written as lines (crates/hp_games/data/README.md) over BuDDy, by the rounds that hp_synth does. The arguments are the file; `own`
   for the order of variables that hp_synth makes, where they stand else in the order of their numbers, as in certificates; and `functions`, by which the functions of
   the controller are made too, as hp_control does, each control preferred true. It prints the verdict, the rounds, and the microseconds from the first diagram on. */
#include <bdd.h>
#include <stdio.h>
#include <stdlib.h>
#include <string.h>
#include <time.h>

enum { MOST = 4000000 };
static BDD gates[MOST];
static char line[1 << 22];
static int counts[4], init[65536], next_gate[65536], ends[3], gate_count;
struct gate { char kind; int a, b, c; };
static struct gate written[MOST];
static int place[65536], home[MOST];

static long microseconds(void) {
  struct timespec t;
  clock_gettime(CLOCK_MONOTONIC, &t);
  return t.tv_sec * 1000000L + t.tv_nsec / 1000;
}

static void numbers(char *text, int *into) {
  int used, k = 0;
  while (sscanf(text, "%d%n", &into[k], &used) == 1) {
    text += used;
    k++;
  }
}

static void read_machine(const char *name) {
  FILE *file = fopen(name, "r");
  while (file && fgets(line, sizeof line, file)) {
    if (!strncmp(line, "counts ", 7)) numbers(line + 7, counts);
    else if (!strncmp(line, "init", 4)) numbers(line + 4, init);
    else if (!strncmp(line, "next", 4)) numbers(line + 4, next_gate);
    else if (!strncmp(line, "ends ", 5)) numbers(line + 5, ends);
    else if (line[1] == ' ') {
      struct gate *g = &written[gate_count++];
      g->kind = line[0];
      sscanf(line + 2, "%d %d %d", &g->a, &g->b, &g->c);
    }
  }
}

static BDD gate(struct gate g) {
  switch (g.kind) {
  case 'c': return g.a ? bddtrue : bddfalse;
  case 'v': return bdd_ithvar(place[g.a]);
  case 'n': return bdd_not(gates[g.a]);
  case 'a': return bdd_and(gates[g.a], gates[g.b]);
  case 'o': return bdd_or(gates[g.a], gates[g.b]);
  case 'x': return bdd_xor(gates[g.a], gates[g.b]);
  default: return bdd_ite(gates[g.a], gates[g.b], gates[g.c]);
  }
}

static BDD range(int from, int to) {
  BDD all = bddtrue;
  for (int k = to - 1; k >= from; k--) all = bdd_addref(bdd_and(bdd_ithvar(place[k]), all));
  return all;
}

static void note(int gate, int reader) {
  if (home[gate] > reader) home[gate] = reader;
}

/* Each variable behind the first register whose next value reads it, and registers in their order. */
static void order(int all, int own) {
  static int first[65536];
  int registers = counts[0], next = 0;
  for (int k = 0; k < all; k++) {
    place[k] = k;
    first[k] = k < registers ? k : registers;
  }
  if (!own) return;
  for (int k = 0; k < gate_count; k++) home[k] = registers;
  for (int k = 0; k < registers; k++) note(next_gate[k], k);
  for (int k = gate_count - 1; k >= 0; k--) {
    struct gate g = written[k];
    if (g.kind == 'v' && g.a >= registers && home[k] < first[g.a]) first[g.a] = home[k];
    if (g.kind != 'v' && g.kind != 'c') note(g.a, home[k]);
    if (strchr("aoxi", g.kind)) note(g.b, home[k]);
    if (g.kind == 'i') note(g.c, home[k]);
  }
  for (int k = 0; k <= registers; k++)
    for (int x = 0; x < all; x++)
      if (first[x] == k) place[x] = next++;
}

static BDD with(BDD f, int x, int value) {
  return bdd_addref(bdd_restrict(f, value ? bdd_ithvar(place[x]) : bdd_nithvar(place[x])));
}

/* The functions of the controller, one after the other: each is true unless only false leaves a choice, and takes its control's place in what is left. */
static int functions(BDD choice, BDD bad, BDD late_range, int control, int late) {
  BDD left = bdd_addref(bdd_and(choice, bdd_addref(bdd_forall(bdd_addref(bdd_not(bad)), late_range))));
  for (int k = control; k < late; k++) {
    BDD some = bdd_addref(bdd_exist(left, range(k + 1, late)));
    BDD fun = bdd_addref(bdd_or(with(some, k, 1), bdd_addref(bdd_not(with(some, k, 0)))));
    left = bdd_addref(bdd_ite(fun, with(left, k, 1), with(left, k, 0)));
  }
  return late - control;
}

static int is_asked(int argc, char **argv, const char *word) {
  for (int k = 2; k < argc; k++)
    if (!strcmp(argv[k], word)) return 1;
  return 0;
}

int main(int argc, char **argv) {
  if (argc < 2) return 2;
  read_machine(argv[1]);
  int early = counts[0], control = early + counts[1], late = control + counts[2], all = late + counts[3];
  order(all, is_asked(argc, argv, "own"));
  bdd_init(1000000, 100000);
  bdd_setvarnum(all);
  bdd_setmaxincrease(1000000);
  bdd_gbc_hook(NULL);
  long start = microseconds();
  for (int k = 0; k < gate_count; k++) gates[k] = bdd_addref(gate(written[k]));
  BDD valid = gates[ends[0]], hyp = gates[ends[1]], duty = gates[ends[2]];
  BDD early_range = range(early, control), control_range = range(control, late), late_range = range(late, all);
  BDD choice = bdd_addref(bdd_exist(valid, late_range)), some = bdd_addref(bdd_exist(choice, control_range));
  BDD meant = bdd_addref(bdd_and(valid, hyp)), lost = bdd_addref(bdd_not(duty));
  bddPair *by = bdd_newpair();
  for (int k = 0; k < counts[0]; k++) bdd_setbddpair(by, place[k], gates[next_gate[k]]);
  static int initial[65536];
  for (int k = 0; k < counts[0]; k++) initial[place[k]] = init[k];
  BDD set = bddfalse, before = bddtrue;
  int rounds = 0, loses = 0;
  while (!loses && set != before) {
    before = set;
    BDD then = bdd_addref(bdd_veccompose(set, by));
    BDD bad = bdd_addref(bdd_and(meant, bdd_or(lost, then)));
    BDD some_late = bdd_addref(bdd_exist(bad, late_range));
    BDD forced = bdd_addref(bdd_forall(bdd_imp(choice, some_late), control_range));
    set = bdd_addref(bdd_exist(bdd_and(some, forced), early_range));
    rounds++;
    BDD at = set;
    while (at != bddtrue && at != bddfalse) at = initial[bdd_var(at)] ? bdd_high(at) : bdd_low(at);
    loses = at == bddtrue;
  }
  if (!loses && is_asked(argc, argv, "functions")) {
    BDD bad = bdd_addref(bdd_and(meant, bdd_or(lost, bdd_addref(bdd_veccompose(set, by)))));
    functions(choice, bad, late_range, control, late);
  }
  printf("%s %d %ld\n", loses ? "lose" : "win", rounds, microseconds() - start);
  return 0;
}
