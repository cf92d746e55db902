/*
** himm.h: the public calls of Violnebula, a planner for hierarchical Mealy machines.
**
** A station is a tree of small machines. A node of a machine is plain, and then it is a state, or it is refined and holds one machine
** below it. A node has at most one transition for each command, to a node of the same machine, with a cost. A command at a state uses the
** transition of the lowest node that has one, the state itself first and then the nodes that hold it; the station then enters the
** target, that is, it goes to the start node of the machine below, and on down to a state. Where no node has a transition for the command,
** the station stops.
**
** A command costs what its transition costs, and for each machine that it climbs past what leaving that machine costs: the state's machine
** and those above it, up to the one below the node that acts. That node's own machine is not left, and entering costs nothing. A machine
** costs nothing to leave until a stream gives it a cost (HIMM_LEAVE); the root is never left, and has none.
**
** A node that is not its machine's start may be held, for maintenance, and is then avoided: every transition into it is shut, also one
** from the node to itself. A shut transition counts as absent, in steps, exit costs and plans alike, so the command is looked for further
** up. A held node's other transitions count as before, so a station that is at it or below it may leave. Nothing is lost by a hold:
** transitions into a held node stay in the book, may be set and deleted, and count again once the node is released.
**
** A station is kept in two lists of 32-bit words: a book (the tree) and a sheet (the exit costs and the cheapest ways inside each
** machine, from which plans are made). The layout of both is in document 01, "Book and sheet in memory"; document 02 adds words at the end
** of the book. From word 4,737 on there is one for each node (W-205): 1 where the node is held, else 0. From word 4,993 on there is one for
** each machine (W-207): what leaving it costs, at most HIMM_LARGEST_COST. A book is well formed only if nodes that are not in use and start
** nodes have 0 there, and so machines that are not in use and the root. This layout of a book is called by node. There is a second one, by
** command, with calls of its own: see BY COMMAND, the last part of this header. All other parts speak of books by node.
**
** MEMORY. The caller owns all memory, before, during and after each call. Nothing is allocated, nothing is kept between calls, and there
** is no global state: calls on different memory may run on different threads at the same time, and so may calls that only read the
** same memory. A list passes as a pointer and its length, counted in elements. Pointers must not be null, also where a length is 0; they
** must be aligned for their type; and memory that a call writes must not overlap any other memory lent to that call. A call needs less
** than 128 kilobytes of stack, and the functions memcpy and memset.
**
** ANSWERS. Each call returns 0 or the number of a refusal (HIMM_WRONG_LENGTH and the others below). On a refusal nothing that was lent
** has changed, buffers and out-parameters included. Only himm_load differs: it always stores its two counts, and the commands taken
** before a refused one stay done. Where two refusals hold, the one that the call lists first is returned. Within one refusal all
** arguments are looked at before the next: a plan from a node that is not in use to node 256 is refused with HIMM_OUT_OF_RANGE.
**
** ANY INPUT. Every call comes to an end on any words, bytes and floats. A book and a sheet from elsewhere are checked whole by each call
** that reads them, and no earlier call is trusted.
**
** FLOATS. himm_import is the one call that takes floats. It wants the default floating-point environment: rounding to nearest, halfway to
** even, with subnormal numbers neither flushed to zero nor read as zero, and no exception trapped; it may raise the exceptions' flags. Its
** proof assumes that, and in another environment its answers may be wrong. Some compilers have a program that is linked with -ffast-math or
** the like start with subnormals flushed.
*/
#ifndef HIMM_H
#define HIMM_H

#include <stddef.h>
#include <stdint.h>

#ifdef __cplusplus
extern "C" {
#endif

/*
** The version of this header, raised where a signature or a size changes. Sizes are exact, so a program and the library that it links
** must be of one version. What changed in version 2: himm_step also stores the node whose transition was used. In version 3: a book has
** HIMM_NODES more words at its end, for the holds, and HIMM_STREAM_BYTES is larger. In version 4: a book has HIMM_MACHINES more words at
** its end, for the costs of leaving; HIMM_STREAM_BYTES and HIMM_LARGEST_PLAN_COST are larger, and HIMM_LARGEST_STEP_COST is new. A stream
** of an earlier version is loaded as before; a book of an earlier version becomes one of this by zeros at its end, and its sheet stays true
** of it.
*/
#define HIMM_VERSION 4

/*
** Limits. A machine, a node and a command are numbers from 0, each under its limit; a cost of a transition or of leaving a machine is at
** most HIMM_LARGEST_COST. The root is at level 1 and no machine is lower than level HIMM_LEVELS. A call takes at most HIMM_WALKERS walkers,
** and a limit of at most HIMM_WALKERS. A ladder has a depth from 1 to HIMM_LARGEST_DEPTH.
*/
#define HIMM_MACHINES 64
#define HIMM_NODES 256
#define HIMM_COMMANDS 16
#define HIMM_LEVELS 8
#define HIMM_LARGEST_COST 65535
#define HIMM_WALKERS 8
#define HIMM_LARGEST_DEPTH 6

/*
** Sizes: the words of a book and of a sheet, which are exact; the words of a row of a table, and the most words of a table, 189 rows, which
** are enough for every ladder; the bytes of a plan buffer and of an output that are enough for every book, and of an output that are enough
** for every timing; the largest cost of one command and of a plan; how many commands of a list himm_choose looks at.
*/
#define HIMM_BOOK_WORDS 5057
#define HIMM_SHEET_WORDS 2880
#define HIMM_ROW_WORDS 3
#define HIMM_TABLE_WORDS 567
#define HIMM_PLAN_BYTES 255
#define HIMM_STREAM_BYTES 34938
#define HIMM_IMPORT_BYTES 8
#define HIMM_LARGEST_STEP_COST 524280
#define HIMM_LARGEST_PLAN_COST 133691400
#define HIMM_LIST_COMMANDS 65536

/*
** Words with a meaning of their own: a number that is not there ("none"), and a transition or a cost that is not there ("no arrow",
** "blank").
*/
#define HIMM_ABSENT 65535
#define HIMM_BLANK UINT32_C(4294967295)

/*
** Opcodes of a stream, with their operands. Nodes and costs take two bytes, high byte first; machines, commands and holds take one. 0x19 is
** no opcode of a stream: the session program has it for its plans.
*/
#define HIMM_BEGIN 0x10   /* machine, start node: a new tree of one machine; the old one is emptied first */
#define HIMM_ADD 0x11     /* machine, new node */
#define HIMM_REFINE 0x12  /* node, new machine, its new start node; the node keeps its transitions and its hold */
#define HIMM_REMOVE 0x13  /* node: it goes with all below it, their holds and costs of leaving, and the transitions into it */
#define HIMM_ARROW 0x14   /* node, command, target, cost: sets or replaces a transition */
#define HIMM_CLEAR 0x15   /* node, command: deletes a transition, which may be absent */
#define HIMM_START 0x16   /* node, which must not be held: it becomes the start node of its machine */
#define HIMM_CROWN 0x17   /* new root machine, its one node, which holds the old root; leaving the old root costs nothing at first */
#define HIMM_REFRESH 0x18 /* fills the rows of every stale machine in the sheet */
#define HIMM_HOLD 0x1A    /* node, 1 or 0: the node is held, which a start node must not be, or released; it may be so already */
#define HIMM_LEAVE 0x1B   /* machine, which must not be the root, and what leaving it costs from now on; it may be so already */

/*
** Kinds of a probe's reading: seconds that a transition took, and seconds waited for one that did not come to its end.
*/
#define HIMM_SECONDS_TAKEN 0
#define HIMM_SECONDS_WAITED 1

/*
** Refusals. The number is what a call returns.
*/
enum himm_refusal {
  HIMM_OK = 0,               /* not refused */
  HIMM_WRONG_LENGTH = 1,     /* a book, a sheet or a table of a wrong length */
  HIMM_TORN_BOOK = 2,        /* the book is not well formed, or no well-formed book comes of the table */
  HIMM_FALSE_SHEET = 3,      /* the sheet is not true of the book */
  HIMM_CUT_SHORT = 4,        /* the stream ends inside a command */
  HIMM_UNKNOWN_OPCODE = 5,   /* a byte that is no opcode */
  HIMM_OUT_OF_RANGE = 6,     /* a machine, node or command that is not under its limit, a walker that there is not, a hold over 1, the
                                root for HIMM_LEAVE, or an unknown kind of reading */
  HIMM_NOT_IN_USE = 7,       /* a machine or node that is not in use */
  HIMM_IN_USE = 8,           /* a new machine or node that is in use already */
  HIMM_ALREADY_REFINED = 9,  /* refine: the node holds a machine already */
  HIMM_START_NODE = 10,      /* remove: the node is its machine's start node */
  HIMM_OTHER_MACHINE = 11,   /* arrow: the target is in another machine */
  HIMM_TOO_DEEP = 12,        /* refine, crown, merge: there would be more than 8 levels */
  HIMM_STALE = 13,           /* a machine is marked stale in the sheet: refresh first */
  HIMM_NOT_PLAIN = 14,       /* the node is refined, so it is no state */
  HIMM_BUFFER_TOO_SHORT = 15,/* the plan buffer or the output is too short */
  HIMM_NO_WAY = 16,          /* no list of commands leads there */
  HIMM_STOPS = 17,           /* no transition is found: the station stops */
  HIMM_NEITHER_ARRIVES = 18, /* choose: neither list arrives */
  HIMM_TOO_FEW_NUMBERS = 19, /* merge: the first book has too few unused numbers */
  HIMM_BAD_TIMING = 20,      /* import: the timing gives no cost from 0 to HIMM_LARGEST_COST */
  HIMM_HELD_START = 21,      /* hold: a start node cannot be held; start: a held node cannot become one */
  HIMM_NODE_FULL = 22,       /* walk: the walker would come inside the node, and as many as the limit allows are there */
  HIMM_TOO_MANY_WALKERS = 23,/* walkers, walk: the limit or the number of walkers is over HIMM_WALKERS, or more than the limit are inside */
  HIMM_WRONG_DEPTH = 24      /* ladder: the depth is not from 1 to HIMM_LARGEST_DEPTH */
};

/*
** himm_open_fresh: make a book of one machine, the root 0, with one node, its start 0, and no transitions.
** himm_open_ladder: make the book of the ladder, 63 machines of 3 nodes each on 6 levels. Node 3m + k belongs to machine m; k = 0 holds
** machine 2m + 1 and k = 2 holds machine 2m + 2 where these are under 63; k = 1 is the start node. Commands 0 and 1 go to the neighbours
** k - 1 and k + 1 at cost 1. In both no node is held and no machine costs anything to leave.
**
**   book, book_len    HIMM_BOOK_WORDS words, written whole; what they held does not matter
**   sheet, sheet_len  HIMM_SHEET_WORDS words, written whole; every machine in use is stale
**
** Refuses: HIMM_WRONG_LENGTH.
*/
uint32_t himm_open_fresh(uint32_t *book, size_t book_len, uint32_t *sheet, size_t sheet_len);
uint32_t himm_open_ladder(uint32_t *book, size_t book_len, uint32_t *sheet, size_t sheet_len);

/*
** himm_open_table: make the book of a table of rows. Row n is for node n and has HIMM_ROW_WORDS words: the machine that the node belongs
** to, the machine below it, HIMM_ABSENT for a plain node, and 1 where the node is its machine's start, else 0. An unused row has
** HIMM_ABSENT, HIMM_ABSENT and 0; the nodes past the last row are not in use either. Neither machines nor nodes need be consecutive. A
** machine is held by the node whose row has it below; the machine that no row has below is the root, whatever its number. Command 0 goes to
** the next lower node of the same machine and command 1 to the next higher one, at cost 1, past unused rows and the nodes of other
** machines. No node is held and no machine costs anything to leave.
**
**   rows, rows_len    the words of the table, read only: those of its rows, one row behind the other, at most HIMM_TABLE_WORDS
**   book, book_len    HIMM_BOOK_WORDS words, written whole; what they held does not matter. It must not overlap the other two lists
**   sheet, sheet_len  HIMM_SHEET_WORDS words, written whole, likewise; every machine in use is stale
**
** Refuses: HIMM_WRONG_LENGTH (any of the three lists; of the table a length that is no multiple of HIMM_ROW_WORDS or over
** HIMM_TABLE_WORDS), HIMM_TORN_BOOK (no well-formed book has all that the rows say: no rows, a machine that is not under HIMM_MACHINES, a
** start that is neither 1 nor 0, a row without a machine that has anything else in it, a machine without a start or with two, a machine
** that is below two nodes, one that is below a node and has no rows, no root or two, machines that hold each other in a ring, more than
** HIMM_LEVELS levels).
*/
uint32_t himm_open_table(const uint32_t *rows, size_t rows_len, uint32_t *book, size_t book_len, uint32_t *sheet, size_t sheet_len);

/*
** himm_ladder: the rows of the ladder of a depth, for himm_open_table to take as they are or changed. It has 2 to the depth, less 1,
** machines in place of the 63 of himm_open_ladder, by the same rule, and only their rows: 9, 27, 63, 135, 279 or 567 words. The rows of
** every depth open; those of depth 6 give the words that himm_open_ladder writes.
**
**   depth           from 1 to HIMM_LARGEST_DEPTH
**   rows, rows_len  takes the rows at its front; later words are untouched. HIMM_TABLE_WORDS words are always enough
**   length          how many words the rows have
**
** Refuses: HIMM_WRONG_DEPTH, HIMM_BUFFER_TOO_SHORT (rows_len is less than the words of the rows).
*/
uint32_t himm_ladder(uint32_t depth, uint32_t *rows, size_t rows_len, uint32_t *length);

/*
** himm_load: do the commands of a stream in order, up to its end or to the first command that is refused.
**
** A command marks stale every machine that it makes, the machine that it edits and all machines above that one, and blanks their rows
** in the sheet, even if nothing differs; hold edits the machine of its node, leave the machine that it names; crown marks only the new
** root. Refresh fills the rows of all stale machines and touches no others.
**
**   book, book_len      the book, edited in place
**   sheet, sheet_len    its sheet, edited in place
**   stream, stream_len  the bytes of the stream, any number of them; an empty stream is taken whole
**   bytes_taken         always stored: how many bytes the commands done took, which is where a refused command begins
**   commands_taken      always stored: how many commands were done
**
** Refuses, with nothing done and both counts 0: HIMM_WRONG_LENGTH, HIMM_TORN_BOOK, HIMM_FALSE_SHEET.
** Then at each command, with those before it done and counted: HIMM_UNKNOWN_OPCODE, HIMM_CUT_SHORT, HIMM_OUT_OF_RANGE, HIMM_NOT_IN_USE,
** HIMM_IN_USE, HIMM_ALREADY_REFINED, HIMM_START_NODE, HIMM_OTHER_MACHINE, HIMM_TOO_DEEP, HIMM_HELD_START.
*/
uint32_t himm_load(uint32_t *book, size_t book_len, uint32_t *sheet, size_t sheet_len, const uint8_t *stream, size_t stream_len,
                   uint64_t *bytes_taken, uint64_t *commands_taken);

/*
** himm_exit: the exit cost of a machine for a command: the least cost of a list of commands from the machine's start state that all use
** transitions in the machine or below it, but for the last, the given command, which finds none there. Of the last command only the leaving
** of machines below the machine counts: neither its transition, wherever that is, nor the leaving of the machine itself.
**
**   book, book_len, sheet, sheet_len  read only
**   machine, command                  the machine to leave and the command that leaves it
**   cost                              the exit cost
**
** Refuses: HIMM_WRONG_LENGTH, HIMM_TORN_BOOK, HIMM_FALSE_SHEET, HIMM_OUT_OF_RANGE, HIMM_NOT_IN_USE, HIMM_STALE (that machine),
** HIMM_NO_WAY (the machine cannot be left by that command).
*/
uint32_t himm_exit(const uint32_t *book, size_t book_len, const uint32_t *sheet, size_t sheet_len, uint32_t machine, uint32_t command,
                   uint32_t *cost);

/*
** himm_step: the state that one command leads to, its cost, and the node whose transition was used.
**
** The node tells which level acted: that of its machine, whose number is the node's first word in the book. Where it is not the state
** itself, the station left every machine from the state's up to the one below that node, and the cost has what leaving each of them costs.
**
**   book, book_len  read only; no sheet is needed
**   state, command  where the station is and what it is told
**   next            the state that it comes to
**   cost            the cost of the transition used and of leaving these machines, at most HIMM_LARGEST_STEP_COST
**   node            the node whose transition was used: the state, or a node that holds it
**
** Refuses: HIMM_WRONG_LENGTH, HIMM_TORN_BOOK, HIMM_OUT_OF_RANGE, HIMM_NOT_IN_USE, HIMM_NOT_PLAIN, HIMM_STOPS.
*/
uint32_t himm_step(const uint32_t *book, size_t book_len, uint32_t state, uint32_t command, uint32_t *next, uint32_t *cost,
                   uint32_t *node);

/*
** himm_plan: a cheapest list of commands from one state to another. It passes no state twice, and no list that leads there costs less.
** From a state to itself it is the empty list at cost 0. No list leads to a held state from another one.
**
**   book, book_len, sheet, sheet_len  read only; no machine may be stale
**   from, to                          two states
**   plan, plan_len                    takes the commands, a byte each, at its front; later bytes are untouched. It must have as many bytes
**                                     as the book has states, less 1; HIMM_PLAN_BYTES is always enough
**   cost                              the cost of the whole list, at most HIMM_LARGEST_PLAN_COST
**   count                             how many commands the list has
**
** Refuses: HIMM_WRONG_LENGTH, HIMM_TORN_BOOK, HIMM_FALSE_SHEET, HIMM_STALE (any machine), HIMM_OUT_OF_RANGE, HIMM_NOT_IN_USE,
** HIMM_NOT_PLAIN, HIMM_BUFFER_TOO_SHORT, HIMM_NO_WAY (no list of commands leads there).
*/
uint32_t himm_plan(const uint32_t *book, size_t book_len, const uint32_t *sheet, size_t sheet_len, uint32_t from, uint32_t to,
                   uint8_t *plan, size_t plan_len, uint32_t *cost, uint32_t *count);

/*
** himm_write: the stream of a book, last its holds and after them its costs of leaving. Loaded into any holding whose book is well formed
** and whose sheet is true, it is taken whole and leaves the same book, every machine in use stale.
**
**   book, book_len  read only; no sheet is needed
**   out, out_len    takes the stream at its front; later bytes are untouched. HIMM_STREAM_BYTES bytes are always enough
**   length          how many bytes the stream has
**
** Refuses: HIMM_WRONG_LENGTH, HIMM_TORN_BOOK, HIMM_BUFFER_TOO_SHORT (out is shorter than the stream).
*/
uint32_t himm_write(const uint32_t *book, size_t book_len, uint8_t *out, size_t out_len, uint32_t *length);

/*
** himm_choose: which of two lists of commands leads from one state to another at the lower cost, and how much of it is used: up to its
** first arrival. A list ends at a byte over 15, where the station stops, or after HIMM_LIST_COMMANDS commands. On equal cost the first
** list is chosen. Where from is to, nothing of the first list is used. Costs are compared in full, also those that 32 bits would not hold.
**
**   book, book_len                         read only; no sheet is needed
**   from, to                               two states
**   first, first_len, second, second_len   the two lists, a byte for each command, any number of them
**   which                                  0 for the first list, 1 for the second
**   used                                   how many commands of that list are used
**
** Refuses: HIMM_WRONG_LENGTH, HIMM_TORN_BOOK, HIMM_OUT_OF_RANGE, HIMM_NOT_IN_USE, HIMM_NOT_PLAIN, HIMM_NEITHER_ARRIVES.
*/
uint32_t himm_choose(const uint32_t *book, size_t book_len, uint32_t from, uint32_t to, const uint8_t *first, size_t first_len,
                     const uint8_t *second, size_t second_len, uint32_t *which, uint32_t *used);

/*
** himm_merge: make one book from two, and its sheet. The first book keeps its numbers. The machines of the second, in rising order, take
** the lowest machines that are not in use in the first, and its nodes the lowest such nodes; all of them move, also those whose own
** number would be free. A new root takes the next lowest machine and the next two lowest nodes: the lower node is its start and holds
** the first book's root, the other holds the second's. The root has no transitions, so a cheapest list between two states of one of the
** books costs what it cost there, where there was no way there is none, and no way leads from one of the books into the other. Nodes that
** are held stay held under their new numbers, and leaving a machine costs what it cost; the new root and the two old ones cost nothing.
**
**   first, first_len    HIMM_BOOK_WORDS words, read only; no sheet is needed
**   second, second_len  HIMM_BOOK_WORDS words, read only; first and second may be one and the same list
**   book, book_len      HIMM_BOOK_WORDS words, written whole; what they held does not matter. It must not overlap the other three lists
**   sheet, sheet_len    HIMM_SHEET_WORDS words, written whole, likewise; every machine in use is stale
**
** Refuses: HIMM_WRONG_LENGTH (any of the four lists), HIMM_TORN_BOOK (the first book), HIMM_TORN_BOOK (the second book), HIMM_TOO_DEEP
** (one of the books has a machine at level HIMM_LEVELS), HIMM_TOO_FEW_NUMBERS (the second book's machines and one more, or its nodes and
** two more, are more than the first book leaves unused).
*/
uint32_t himm_merge(const uint32_t *first, size_t first_len, const uint32_t *second, size_t second_len, uint32_t *book, size_t book_len,
                    uint32_t *sheet, size_t sheet_len);

/*
** himm_import: the bytes of a stream that record a probe's timing of a transition, for himm_load to take. A transition that took some
** seconds is set (HIMM_ARROW, 8 bytes): its cost is the least whole number that is not below the seconds less the dead time, where that
** difference is first rounded, once, to a 32-bit float, as a subtraction of floats rounds it. One that was waited for without an end is
** deleted (HIMM_CLEAR, 4 bytes). No book is looked at: whether the nodes are in use and in one machine is judged when the bytes are loaded.
**
**   node, command, target  the transition; the target must be in range also for a wait, though its bytes do not name it
**   kind                   HIMM_SECONDS_TAKEN or HIMM_SECONDS_WAITED
**   seconds                the reading, any float, infinite and no number included; not judged for a wait. It is wanted as the probe
**                          logged it: a double is rounded to a float on its way in
**   dead_time              the seconds that the probe itself adds to every reading, likewise
**   out, out_len           takes the bytes at its front; later bytes are untouched. HIMM_IMPORT_BYTES bytes are always enough
**   length                 how many bytes there are: 8 or 4
**
** Minus zero is zero, for the seconds, the dead time and the difference. It is the rounded difference that is judged: 65,535 + 1/256
** seconds less a dead time of 1/512 lies halfway between 65,535 and the next float and goes to the even one, so the cost is 65,535.
**
** It wants the default floating-point environment: to nearest, no flush to zero (FLOATS, above).
**
** Refuses: HIMM_OUT_OF_RANGE (node, command, target or kind), HIMM_BAD_TIMING (taken: the seconds or the dead time infinite, no number or
** below zero, or the rounded difference below zero or above HIMM_LARGEST_COST), HIMM_BUFFER_TOO_SHORT (out is shorter than the bytes).
*/
uint32_t himm_import(uint32_t node, uint32_t command, uint32_t target, uint32_t kind, float seconds, float dead_time, uint8_t *out,
                     size_t out_len, uint32_t *length);

/*
** himm_walkers: open up to HIMM_WALKERS walkers on one book, each at a state. As many of them as the limit, and no more, may be inside one
** node, the limited one: at it or below it. The call judges what it is handed, and writes nothing.
** himm_walk: one command for one walker. The walker goes where himm_step leads from its state, at the same cost and with the same acting
** node, unless it would come from outside the limited node to inside while as many as the limit are there. A walker that is inside may move
** on inside or leave, also at the limit. A walker that is refused stays where it is, and the others do so in any case.
**
** Where himm_walkers returned 0 and himm_walk alone changes the walkers from then on, with the same book, node and limit, there are never
** more walkers inside the limited node than the limit, whatever the commands and their answers, and himm_walkers would return 0 again at any
** time. No opening is trusted, though: himm_walk judges anew what it is handed, and refuses what an opening would refuse.
**
**   book, book_len        read only; no sheet is needed
**   node                  the node that is limited, plain or refined
**   limit                 how many walkers may be inside it, from 0 to HIMM_WALKERS
**   walkers, walkers_len  one word for each walker, its state, for at most HIMM_WALKERS walkers or for none; several may be at one state.
**                         himm_walkers only reads them. himm_walk stores the state that the walker comes to in the walker's own word
**   walker, command       the walker, by the place of its word from 0, and what it is told
**   cost                  the cost of the command, as himm_step gives it
**   acted                 the node whose transition was used: the walker's state before the command, or a node that holds it
**
** Both refuse: HIMM_WRONG_LENGTH (the book), HIMM_TORN_BOOK, HIMM_TOO_MANY_WALKERS (limit or walkers_len over HIMM_WALKERS),
** HIMM_OUT_OF_RANGE (the node or a walker's state), HIMM_NOT_IN_USE (likewise), HIMM_NOT_PLAIN (a walker's state; the node may be refined),
** HIMM_TOO_MANY_WALKERS (more walkers are inside the node than the limit).
** himm_walk then, after all of these: HIMM_OUT_OF_RANGE (walker is not under walkers_len), HIMM_OUT_OF_RANGE (the command), HIMM_STOPS,
** HIMM_NODE_FULL (the walker is outside the node, the state that it would come to is inside, and as many walkers as the limit are inside).
*/
uint32_t himm_walkers(const uint32_t *book, size_t book_len, uint32_t node, uint32_t limit, const uint32_t *walkers, size_t walkers_len);
uint32_t himm_walk(const uint32_t *book, size_t book_len, uint32_t node, uint32_t limit, uint32_t *walkers, size_t walkers_len,
                   uint32_t walker, uint32_t command, uint32_t *cost, uint32_t *acted);

/*
** BY COMMAND. In the second layout of a book the transitions for one command stand side by side, for whoever looks at one command over all
** nodes. It has the same words in another order, HIMM_BOOK_WORDS too:
**
**   words           what they hold                                                                        in a book by node
**   0 to 4,095      the transition of node n for command c is word 256 c + n: those for command 0 first   word 131 + 18 n + c
**   4,096 to 4,224  the root, and then holder and start of each machine                                   words 0 to 128
**   4,225 to 4,736  the machine of node n is word 4,225 + 2 n, the machine below it word 4,226 + 2 n      words 129 + 18 n, 130 + 18 n
**   4,737 to 5,056  holds and costs of leaving                                                            the same words
**
** A sheet has one layout: turning a book leaves its sheet true of it. A book by command is well formed where the same book by node is. No
** word tells the layout: a book that is handed to a call of the other one is judged as what its words say there, and as a rule refused with
** HIMM_TORN_BOOK. The openings and the two turns take any words.
**
** himm_by_command: write a book by node into another list by command.
** himm_by_node: write a book by command into another list by node. Turning there and back, either way round, changes no word.
**
**   book, book_len  HIMM_BOOK_WORDS words, read only; any words are taken, for nothing is judged but the two lengths
**   out, out_len    HIMM_BOOK_WORDS words, written whole; what they held does not matter. It must not overlap the book
**
** Refuses: HIMM_WRONG_LENGTH (either list).
*/
uint32_t himm_by_command(const uint32_t *book, size_t book_len, uint32_t *out, size_t out_len);
uint32_t himm_by_node(const uint32_t *book, size_t book_len, uint32_t *out, size_t out_len);

/*
** himm_NAME_by_command: himm_NAME for books by command. Each call that is lent a book stands here once more; himm_ladder and himm_import
** are lent none. Arguments, sizes and refusals with their order are those of himm_NAME, and so is what a refusal leaves. Every book that is
** lent is taken by command, all three of himm_merge_by_command too, and every book that is written is left by command. The answer is what
** himm_NAME gives for the same book by node; where several are right (which of the cheapest lists a plan is, which of the cheapest ways the
** rows of a refreshed sheet name) it need not be the same one.
**
** Such a call turns each book that it is lent into memory of its own, on the stack, and turns back what it writes. It needs 20 kilobytes
** of stack more than himm_NAME, himm_merge_by_command 60 more; what is said above of every call's stack holds of these too.
*/
uint32_t himm_open_fresh_by_command(uint32_t *book, size_t book_len, uint32_t *sheet, size_t sheet_len);
uint32_t himm_open_ladder_by_command(uint32_t *book, size_t book_len, uint32_t *sheet, size_t sheet_len);
uint32_t himm_open_table_by_command(const uint32_t *rows, size_t rows_len, uint32_t *book, size_t book_len, uint32_t *sheet,
                                    size_t sheet_len);
uint32_t himm_load_by_command(uint32_t *book, size_t book_len, uint32_t *sheet, size_t sheet_len, const uint8_t *stream, size_t stream_len,
                              uint64_t *bytes_taken, uint64_t *commands_taken);
uint32_t himm_exit_by_command(const uint32_t *book, size_t book_len, const uint32_t *sheet, size_t sheet_len, uint32_t machine,
                              uint32_t command, uint32_t *cost);
uint32_t himm_step_by_command(const uint32_t *book, size_t book_len, uint32_t state, uint32_t command, uint32_t *next, uint32_t *cost,
                              uint32_t *node);
uint32_t himm_plan_by_command(const uint32_t *book, size_t book_len, const uint32_t *sheet, size_t sheet_len, uint32_t from, uint32_t to,
                              uint8_t *plan, size_t plan_len, uint32_t *cost, uint32_t *count);
uint32_t himm_write_by_command(const uint32_t *book, size_t book_len, uint8_t *out, size_t out_len, uint32_t *length);
uint32_t himm_choose_by_command(const uint32_t *book, size_t book_len, uint32_t from, uint32_t to, const uint8_t *first, size_t first_len,
                                const uint8_t *second, size_t second_len, uint32_t *which, uint32_t *used);
uint32_t himm_merge_by_command(const uint32_t *first, size_t first_len, const uint32_t *second, size_t second_len, uint32_t *book,
                               size_t book_len, uint32_t *sheet, size_t sheet_len);
uint32_t himm_walkers_by_command(const uint32_t *book, size_t book_len, uint32_t node, uint32_t limit, const uint32_t *walkers,
                                 size_t walkers_len);
uint32_t himm_walk_by_command(const uint32_t *book, size_t book_len, uint32_t node, uint32_t limit, uint32_t *walkers, size_t walkers_len,
                              uint32_t walker, uint32_t command, uint32_t *cost, uint32_t *acted);

#ifdef __cplusplus
}
#endif

#endif
