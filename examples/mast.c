/*
** Opens a holding, loads the stream whose hexadecimal text is named on the command line, refreshes it, and prints the cheapest plan
** from state 0 to state 2 and from state 2 to state 11, with each state that the station passes and the node and level that acted. It turns
** the book by command, prints all transitions for commands 0 and 1 and makes a step in that layout. Then it imports a probe's timing of
** node 1's transition and plans from state 0 to state 2 over it. It holds node 11, plans round it, and releases it. It makes machine 1 dear
** to leave, plans from state 0 to state 2 past it and from state 11 out of it, and takes the cost back. It lets two walkers go from state 0
** with one place inside node 1. It merges the book with itself, and plans from state 0 to state 2 again and between the same states of the
** twin. Finally it opens the ladder of depth 2 from a table of rows, and plans from state 3 to state 8.
*/
#include <ctype.h>
#include <stdio.h>
#include <stdlib.h>
#include <string.h>

#include "himm.h"

static uint32_t book[HIMM_BOOK_WORDS], sheet[HIMM_SHEET_WORDS];
static uint8_t stream[HIMM_STREAM_BYTES];

/* Ends the program where a call was refused. */
static void must(const char *call, uint32_t refusal) {
  if (refusal == HIMM_OK) return;
  fprintf(stderr, "%s: refused with %u\n", call, (unsigned)refusal);
  exit(1);
}

/* Reads pairs of hexadecimal digits, skipping blanks and comments; gives the number of bytes. */
static size_t read_hex(FILE *text) {
  size_t digits = 0;
  unsigned byte = 0;
  for (int c = fgetc(text); c != EOF && digits < 2 * sizeof stream; c = fgetc(text)) {
    if (c == '#') while (c != '\n' && c != EOF) c = fgetc(text);
    if (!isxdigit(c)) continue;
    byte = byte << 4 | (unsigned)(isdigit(c) ? c - '0' : toupper(c) - 'A' + 10);
    if (digits++ % 2 == 1) stream[digits / 2 - 1] = (uint8_t)byte;
  }
  return digits / 2;
}

static void load(const uint8_t *bytes, size_t length) {
  uint64_t bytes_taken, commands_taken;
  must("load", himm_load(book, HIMM_BOOK_WORDS, sheet, HIMM_SHEET_WORDS, bytes, length, &bytes_taken, &commands_taken));
  printf("loaded %llu bytes, %llu commands\n", (unsigned long long)bytes_taken, (unsigned long long)commands_taken);
}

/* Words of the book: the machine that a node belongs to, the machine below a node, and the node that holds a machine. */
static uint32_t owner(uint32_t node) { return book[129 + 18 * node]; }
static uint32_t below(uint32_t node) { return book[130 + 18 * node]; }
static uint32_t holder(uint32_t machine) { return book[1 + 2 * machine]; }

/* The level of a node's machine: 1 for the root. */
static unsigned level_of(uint32_t node) {
  unsigned level = 1;
  for (uint32_t machine = owner(node); machine != book[0]; machine = owner(holder(machine))) level++;
  return level;
}

static void show_plan(uint32_t from, uint32_t to) {
  uint8_t plan[HIMM_PLAN_BYTES];
  uint32_t cost, count, node, state = from;
  must("plan", himm_plan(book, HIMM_BOOK_WORDS, sheet, HIMM_SHEET_WORDS, from, to, plan, HIMM_PLAN_BYTES, &cost, &count));
  printf("from %u to %u: cost %u, %u commands:", (unsigned)from, (unsigned)to, (unsigned)cost, (unsigned)count);
  for (uint32_t i = 0; i < count; i++) {
    must("step", himm_step(book, HIMM_BOOK_WORDS, state, plan[i], &state, &cost, &node));
    printf(" %u (to %u, cost %u,", (unsigned)plan[i], (unsigned)state, (unsigned)cost);
    printf(" by node %u at level %u)", (unsigned)node, level_of(node));
  }
  printf("\n");
}

/* Turns the book by command, where the transitions of all nodes for one command stand side by side, prints those for commands 0 and 1, and
   steps from state 11 by command 1. */
static void show_by_command(void) {
  static uint32_t turned[HIMM_BOOK_WORDS];
  uint32_t next, cost, node;
  must("by command", himm_by_command(book, HIMM_BOOK_WORDS, turned, HIMM_BOOK_WORDS));
  for (uint32_t command = 0; command < 2; command++) {
    const uint32_t *words = turned + HIMM_NODES * command;
    printf("command %u:", (unsigned)command);
    for (uint32_t n = 0; n < HIMM_NODES; n++) {
      if (words[n] != HIMM_BLANK) printf(" %u to %u (cost %u)", (unsigned)n, (unsigned)(words[n] >> 16), (unsigned)(words[n] & 65535));
    }
    printf("\n");
  }
  must("step by command", himm_step_by_command(turned, HIMM_BOOK_WORDS, 11, 1, &next, &cost, &node));
  printf("by command from 11 by 1: to %u, cost %u, by node %u\n", (unsigned)next, (unsigned)cost, (unsigned)node);
}

/* Imports seconds that a transition took, and loads the bytes with a refresh behind them. */
static void import_taken(uint32_t node, uint32_t command, uint32_t target, float seconds, float dead_time) {
  uint8_t bytes[HIMM_IMPORT_BYTES + 1];
  uint32_t length;
  must("import", himm_import(node, command, target, HIMM_SECONDS_TAKEN, seconds, dead_time, bytes, HIMM_IMPORT_BYTES, &length));
  printf("imported %g seconds less %g: node %u, command %u,", seconds, dead_time, (unsigned)node, (unsigned)command);
  printf(" to node %u, cost %u\n", (unsigned)target, (unsigned)(bytes[6] << 8 | bytes[7]));
  bytes[length] = HIMM_REFRESH;
  load(bytes, length + 1);
}

/* Holds a node, or releases it, and refreshes. */
static void set_hold(uint32_t node, uint8_t hold) {
  const uint8_t bytes[] = {HIMM_HOLD, (uint8_t)(node >> 8), (uint8_t)node, hold, HIMM_REFRESH};
  printf("%s node %u\n", hold ? "held" : "released", (unsigned)node);
  load(bytes, sizeof bytes);
}

/* Sets what leaving a machine costs, and refreshes. */
static void set_leave(uint8_t machine, uint16_t cost) {
  const uint8_t bytes[] = {HIMM_LEAVE, machine, (uint8_t)(cost >> 8), (uint8_t)cost, HIMM_REFRESH};
  printf("leaving machine %u costs %u\n", (unsigned)machine, (unsigned)cost);
  load(bytes, sizeof bytes);
}

/* Opens two walkers at state 0, of which one may be inside node 1, and gives them some commands. */
static void let_walkers_go(void) {
  static const uint32_t commands[][2] = {{0, 0}, {1, 0}, {0, 2}, {0, 1}, {1, 0}};
  uint32_t walkers[] = {0, 0}, cost, acted;
  must("walkers", himm_walkers(book, HIMM_BOOK_WORDS, 1, 1, walkers, 2));
  printf("two walkers at 0, one may be inside node 1\n");
  for (size_t i = 0; i < sizeof commands / sizeof commands[0]; i++) {
    uint32_t walker = commands[i][0], command = commands[i][1];
    uint32_t refusal = himm_walk(book, HIMM_BOOK_WORDS, 1, 1, walkers, 2, walker, command, &cost, &acted);
    if (refusal != HIMM_NODE_FULL) must("walk", refusal);
    printf("walker %u by %u: ", (unsigned)walker, (unsigned)command);
    if (refusal == HIMM_NODE_FULL) printf("stays at %u, the node is full\n", (unsigned)walkers[walker]);
    else printf("to %u, cost %u, by node %u\n", (unsigned)walkers[walker], (unsigned)cost, (unsigned)acted);
  }
}

/* Puts the book merged with itself in its place, and prints the new root and its nodes with the machines that they hold. */
static void merge_with_itself(void) {
  static uint32_t old[HIMM_BOOK_WORDS];
  memcpy(old, book, sizeof old);
  must("merge", himm_merge(old, HIMM_BOOK_WORDS, old, HIMM_BOOK_WORDS, book, HIMM_BOOK_WORDS, sheet, HIMM_SHEET_WORDS));
  printf("merged with itself: root %u", (unsigned)book[0]);
  for (uint32_t n = 0; n < HIMM_NODES; n++) {
    if (owner(n) == book[0]) printf(", node %u holds machine %u", (unsigned)n, (unsigned)below(n));
  }
  printf("\n");
}

/* Opens the ladder of a depth from the rows that the generator writes. */
static void open_ladder_of(uint32_t depth) {
  uint32_t rows[HIMM_TABLE_WORDS], length;
  must("ladder", himm_ladder(depth, rows, HIMM_TABLE_WORDS, &length));
  must("open from a table", himm_open_table(rows, length, book, HIMM_BOOK_WORDS, sheet, HIMM_SHEET_WORDS));
  printf("opened the ladder of depth %u from %u rows\n", (unsigned)depth, (unsigned)(length / HIMM_ROW_WORDS));
}

int main(int argc, char **argv) {
  static const uint8_t refresh[] = {HIMM_REFRESH};
  FILE *text = argc == 2 ? fopen(argv[1], "r") : NULL;
  if (text == NULL) {
    fprintf(stderr, "usage: mast FILE.hex\n");
    return 2;
  }
  must("open", himm_open_fresh(book, HIMM_BOOK_WORDS, sheet, HIMM_SHEET_WORDS));
  load(stream, read_hex(text));
  fclose(text);
  load(refresh, sizeof refresh);
  show_plan(0, 2);
  show_plan(2, 11);
  show_by_command();
  import_taken(1, 1, 2, 8.5f, 0.25f);
  show_plan(0, 2);
  set_hold(11, 1);
  show_plan(0, 2);
  set_hold(11, 0);
  set_leave(1, 3);
  show_plan(0, 2);
  show_plan(11, 2);
  set_leave(1, 0);
  let_walkers_go();
  merge_with_itself();
  load(refresh, sizeof refresh);
  show_plan(0, 2);
  show_plan(3, 5);
  open_ladder_of(2);
  load(refresh, sizeof refresh);
  show_plan(3, 8);
  return 0;
}
