/* gaffcurrant.h: a controller by the text of a table, of reach and stay, or of a patrol, for C99 and C++.

   Link libgaffcurrant.a or libgaffcurrant.so, which tools/library makes for Linux on x86-64, and with --target aarch64
   for Linux on ARM64 (tried under an emulator, on no board). The library is proved (crates/controller_c): for any bytes
   with the text that a controller holds, the answer 1 of gaffcurrant_control says that the values are those of the
   input vector that these bytes apply at the state. Each answer below is proved in both directions, but for want of
   memory, which is never excluded. This header is written by hand, and nothing proves that it fits the library.

   A text isn't judged. One whose inputs or ranks were changed opens if it is still a text, and then its promise may
   fail. The command `check` judges a table (proved). tools/check, installed as gaffcurrant-check, judges a stay text or
   a patrol text by solving its plant again (tested). Open what `synth`, `stay` or `patrol` wrote, byte for byte. Then
   every loop that applies the values answered with 1 comes to its targets, stays or goes on as the goal says (proved,
   crates/driven_loops). This holds if the plant obeys its equations with its noises in their ranges. Whatever moves the
   plant, it holds as long as gaffcurrant_follows answers 1 at each sample.

   When a loop has come. By a table with `goal reach` go on while the answer is 1, and end at the answer 0, which comes
   within as many samples as the first rank. The first state in a target isn't the end: if its cell isn't wholly in the
   target, the answer there is still 1. By a table with `goal keep`, a stay text and a patrol text the answer 0 doesn't
   come, and the loop goes on.

   Units. A state is one whole number for each state variable of the text's plant, in the order of its `state` lines:
   floor(measured value / unit). An input is one whole number for each `input` line: the value to apply is the number
   times the unit. Every number of a text is below 10^18 in size; a state may be any number of 64 bits.

   What the caller upholds:
   - each pointer is valid for as many elements as the call is given, and the arguments of a call don't overlap. Where a
     length is 0 the pointer may be NULL; the other pointers may not be;
   - a controller begins as {0}, is changed by these calls alone, and isn't used through a copy;
   - one thread at a time uses a controller. If another thread goes on, a lock, a thread's start or its join orders the
     two. Several controllers are independent;
   - malloc, realloc and free are those of one allocator. Only gaffcurrant_open and gaffcurrant_close call them
     (tested);
   - no signal handler and no interrupt of the thread calls for a controller while a call for it runs, and no longjmp
     leaves a call: memory could be lost;
   - a thread that calls gaffcurrant_open has GAFFCURRANT_STACK bytes of stack left. The other calls need less.

   Memory. An open text takes 8 bytes for each stretch of cells with one row or with none, and 4 for every 64 cells, for
   each turn; and 16 for each state and input vector. While a text is opened, 12 bytes a cell and turn more.

   Platforms: Linux on x86-64 and on ARM64, whose pointers and size_t have 64 bits. */
#ifndef GAFFCURRANT_H
#define GAFFCURRANT_H

#ifdef __cplusplus
#include <cstddef>
#include <cstdint>
extern "C" {
#else
#include <stdbool.h>
#include <stddef.h>
#include <stdint.h>
#endif

/* The version of this header: two digits for each number. gaffcurrant_version() is that of the library. */
#define GAFFCURRANT_VERSION 12100

/* Bytes of stack that gaffcurrant_open takes at most (measured over the deepest texts that the limits allow). Threads
   of some C libraries have less. */
#define GAFFCURRANT_STACK (128 * 1024)

/* What the calls answer. */
#define GAFFCURRANT_OPEN 0         /* gaffcurrant_open: the text is open */
#define GAFFCURRANT_MALFORMED 1    /* gaffcurrant_open: the bytes are none of the three texts */
#define GAFFCURRANT_LIMIT 2        /* gaffcurrant_open: a text past a limit */
#define GAFFCURRANT_NO_MEMORY 3    /* gaffcurrant_open: malloc had none */
#define GAFFCURRANT_DONE 0         /* the call did what it was asked for */
#define GAFFCURRANT_APPLY 1        /* the inputs are to be applied */
#define GAFFCURRANT_ARRIVED 0      /* the state has come to the targets: nothing has to be applied */
#define GAFFCURRANT_RANKED 1       /* gaffcurrant_rank: the state has a row, of the rank that is given */
#define GAFFCURRANT_NO_ROW (-1)    /* the text promises nothing at the state */
#define GAFFCURRANT_WRONG_SIZE (-2)/* not as many numbers as the text has states and inputs, or no such turn */
#define GAFFCURRANT_CLOSED (-3)    /* the controller holds no text */
#define GAFFCURRANT_NEXT_TURN 1    /* gaffcurrant_visit: the next turn of a patrol has begun */
#define GAFFCURRANT_SAME_TURN 0    /* gaffcurrant_visit: the turn is as before */
#define GAFFCURRANT_FOLLOWED 1     /* gaffcurrant_follows: the next state lies in its box */
#define GAFFCURRANT_NOT_FOLLOWED 0 /* gaffcurrant_follows: it doesn't, or the box leaves the ranges */
#define GAFFCURRANT_NO_INPUT (-1)  /* gaffcurrant_follows: a state outside the ranges, or no input vector */
#define GAFFCURRANT_OVERFLOW (-4)  /* gaffcurrant_follows: a number of the plant leaves the range */

/* A controller: it holds a text, or none. Begin with `struct gaffcurrant controller = {0};` (C++: {}). Its members are
   the library's own. One that is open owns memory until gaffcurrant_close. */
struct gaffcurrant {
    bool is_open;
    void *text;
};

/* Reads a table of either version, a stay text or a patrol text; its first line says which. The bytes stay the
   caller's, and may go once the call has returned. A text that was open is closed first, also if the new one is
   refused. Of a patrol the first turn is due.

   0: open, and *line is 0. Else the controller is closed, and *line is the first line that doesn't fit, from 1, at 1
   (malformed); and 0 at 2 (a limit of docs/FORMATS.md is exceeded) and at 3 (no memory). */
int32_t gaffcurrant_open(struct gaffcurrant *controller, const uint8_t *bytes, size_t length, uint32_t *line);

/* Puts what is to be applied at a state into input. Both arrays are the caller's.

   1: apply the inputs. 0: the state has come to the targets (only by a table with `goal reach`); nothing has to be
   applied. -1: the text promises nothing: the state is outside the plant's ranges, or its cell has no row for the turn
   that is due. -2: `states` or `inputs` isn't the plant's number of states or input variables. -3: closed. At every
   answer but 1 input is unchanged. */
int32_t gaffcurrant_control(struct gaffcurrant *controller, const int64_t *state, size_t states, int64_t *input,
                            size_t inputs);

/* The same at `count` states. The numbers of the states stand one state after another, `state_numbers` in all, and so
   do the inputs, `input_numbers` in all. replies[k] is what gaffcurrant_control answers at the k-th state. If that
   isn't 1, the k-th inputs are unchanged.

   0: answered. -2: state_numbers isn't count times the number of states, or input_numbers isn't count times that of the
   input variables. -3: closed. At -2 and -3 inputs and replies are unchanged. */
int32_t gaffcurrant_control_each(struct gaffcurrant *controller, const int64_t *states, size_t state_numbers,
                                 int64_t *inputs, size_t input_numbers, int32_t *replies, size_t count);

/* Of a patrol, begins the next turn if the state is an arrival: its cell lies in the target of the turn that is due,
   and has a row for the next turn. Call it at each sample but the first, before gaffcurrant_control. A table and a stay
   text have one turn, which stays.

   1: the next turn has begun. 0: the turn is as before. -2: states isn't the number of the plant's states. -3: closed.
   *turn is the turn that is then due, from 0; if the controller is closed it is 0. */
int32_t gaffcurrant_visit(struct gaffcurrant *controller, const int64_t *state, size_t states, uint32_t *turn);

/* Makes a turn of a patrol due, from 0, as after a restart of the loop: any turn for which the state has a row. A table
   and a stay text have only turn 0.

   0: the turn is due. -2: there is no such turn, and the one before is due. -3: closed. */
int32_t gaffcurrant_begin_turn(struct gaffcurrant *controller, uint32_t turn);

/* How many states and input variables the text's plant has: 1 to 6, and 0 to 3.

   0: answered. -3: closed, and both are 0. */
int32_t gaffcurrant_sizes(struct gaffcurrant *controller, uint32_t *states, uint32_t *inputs);

/* The rank at a state: the number that its cell's row has for the turn that is due. In a text that was written by
   `synth`, `stay` or `patrol` so many samples suffice to the targets, of a patrol to the target of the turn. With
   `goal keep` every row has rank 0.

   1: *rank is given. -1: the state has no row. -2: states isn't the number of the plant's states. -3: closed. At every
   answer but 1 *rank is 0. */
int32_t gaffcurrant_rank(struct gaffcurrant *controller, const int64_t *state, size_t states, uint32_t *rank);

/* Whether the next state lies in the successor box of the state's cell under these inputs. The box holds every state to
   which the equations may lead from the cell with the noises in their ranges. Under the inputs that a text of `synth`,
   `stay` or `patrol` applies, a plant that obeys its equations is always answered with 1 (proved). Under other inputs
   the box may leave the ranges: then the answer is 0, also for such a plant. The promise of a text that was written for
   the plant holds of every loop whose samples are answered with 1, whatever moved the plant (proved). It takes no
   memory.

   1: the next state lies in the successor box of the state's cell. 0: it doesn't, or the box leaves the ranges. -1: the
   state is outside the plant's ranges, or the inputs aren't one of its input vectors. -2: states or next_states
   isn't the number of the plant's states, or inputs isn't that of its input variables. -3: closed. -4: a number
   of the plant leaves the range, which `check` refuses too: there is no box. */
int32_t gaffcurrant_follows(struct gaffcurrant *controller, const int64_t *state, size_t states, const int64_t *input,
                            size_t inputs, const int64_t *next, size_t next_states);

/* The version of the library: GAFFCURRANT_VERSION if it is that of this header. */
uint32_t gaffcurrant_version(void);

/* Closes the controller: it holds no text then, and may be closed once more or opened again (proved). The text's memory
   is freed (tested: no clause says so). */
void gaffcurrant_close(struct gaffcurrant *controller);

#ifdef __cplusplus
}
#endif

#endif
