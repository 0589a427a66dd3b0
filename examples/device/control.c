/* From the measured state to the input, by a table, a stay text or a patrol text that tools/header has written as table.h. For several tables in one
   program write each by tools/header --prefix NAME, and include this file behind each: its functions are then NAME_control and so on.

       #include "NAME.h"
       #define PREFIX NAME
       #include "control.c"
*/
#include <float.h>
#include <stddef.h>
#ifdef PREFIX
#define PASTED(prefix, name) prefix##_##name
#define PASTE(prefix, name) PASTED(prefix, name)
#define OF(name) PASTE(PREFIX, name)
#define STATES OF(STATES)
#define INPUTS OF(INPUTS)
#define NO_ROW OF(NO_ROW)
#define ARRIVED OF(ARRIVED)
#define HAS_RUNS OF(HAS_RUNS)
#define HAS_TURNS OF(HAS_TURNS)
#define HAS_RANKS OF(HAS_RANKS)
#define HAS_SIZES OF(HAS_SIZES)
#define HAS_FRACTIONS OF(HAS_FRACTIONS)
#define UNIT OF(UNIT)
#define UNIT_FRACTION OF(UNIT_FRACTION)
#define INPUT_UNIT OF(INPUT_UNIT)
#define INPUT_UNIT_FRACTION OF(INPUT_UNIT_FRACTION)
#define EXACT OF(EXACT)
#define measure OF(measure)
#define is_unit OF(is_unit)
#define ARRAYS_CHECKSUM OF(ARRAYS_CHECKSUM)
#define LOW OF(LOW)
#define HIGH OF(HIGH)
#define WIDTH OF(WIDTH)
#define COUNT OF(COUNT)
#define VALUES OF(VALUES)
#define VALUE OF(VALUE)
#define TURNS OF(TURNS)
#define CELLS OF(CELLS)
#define TARGET_FIRST OF(TARGET_FIRST)
#define TARGET_LAST OF(TARGET_LAST)
#define RUNS OF(RUNS)
#define FIRST OF(FIRST)
#define ROW OF(ROW)
#define RANK OF(RANK)
#define TURN OF(TURN)
#define turn OF(turn)
#define last_rank OF(last_rank)
#define place_of OF(place_of)
#define row_of OF(row_of)
#define control OF(control)
#define visit OF(visit)
#define falls OF(falls)
#define restart OF(restart)
#define fed OF(fed)
#define is_intact OF(is_intact)
#else
#include "table.h"
#ifndef CHECKSUM
#error "table.h is by an older tools/header"
#endif
#endif

#if HAS_TURNS
/* Of a patrol: the number of the target that the plant is on its way to. */
static uint32_t turn = 0;
#endif
#if HAS_RANKS
/* The rank at the last sample; -1 where nothing is promised of the next. */
static int64_t last_rank = -1;
#endif

/* Where the row of a cell stands: at the cell, or at the last run that begins at the cell or before it. */
static uint32_t place_of(uint32_t cell)
{
#if HAS_RUNS
#if HAS_TURNS
    uint32_t low = TURN[turn], high = TURN[turn + 1];
#else
    uint32_t low = 0, high = RUNS;
#endif
    while (high - low > 1) {
        uint32_t middle = low + (high - low) / 2;
        if (FIRST[middle] <= cell) low = middle; else high = middle;
    }
    return low;
#elif HAS_TURNS
    return turn * CELLS + cell;
#else
    return cell;
#endif
}

/* The row of a cell. */
static uint32_t row_of(uint32_t cell)
{
    return ROW[place_of(cell)];
}

/* 1: apply `input`. 0: the state's cell lies in the target of a table, and nothing has to be applied.
   -1: the state is outside the domain, or its cell has no row: the table promises nothing there. */
int control(const int64_t state[], int64_t input[])
{
    uint32_t cell = 0;
    for (int i = 0; i < STATES; i++) {
        if (state[i] < LOW[i] || state[i] > HIGH[i]) return -1;
        cell = cell * COUNT[i] + (uint32_t)((state[i] - LOW[i]) / WIDTH[i]);
    }
    uint32_t row = row_of(cell);
    if (row >= ARRIVED) return row == ARRIVED ? 0 : -1;
    for (int i = INPUTS; i-- > 0; row /= VALUES[i]) input[i] = VALUE[i][row % VALUES[i]];
    return 1;
}

#if HAS_TURNS
/* Of a patrol, at each sample but the first, before `control`: where the state has come to the target of the turn, and goes on from there,
   the next turn begins. */
void visit(const int64_t state[])
{
    uint32_t cell = 0, before = turn;
    for (int i = 0; i < STATES; i++) {
        if (state[i] < LOW[i] || state[i] > HIGH[i]) return;
        uint32_t place = (uint32_t)((state[i] - LOW[i]) / WIDTH[i]);
        if (place < TARGET_FIRST[turn][i] || place > TARGET_LAST[turn][i]) return;
        cell = cell * COUNT[i] + place;
    }
    turn = (turn + 1) % TURNS;
    if (row_of(cell) == NO_ROW) {
        turn = before;
        return;
    }
#if HAS_RANKS
    last_rank = -1;
#endif
}
#endif

#if HAS_RANKS
/* The monitor, at each sample, behind `visit`: 1 where the rank has fallen since the sample before, as the table promises, and at the first. 0 where it
   hasn't, or where there is no row: a disturbance outside of its range, a sensor or the timing; stop safely. */
int falls(const int64_t state[])
{
    uint32_t cell = 0;
    for (int i = 0; i < STATES; i++) {
        if (state[i] < LOW[i] || state[i] > HIGH[i]) return 0;
        cell = cell * COUNT[i] + (uint32_t)((state[i] - LOW[i]) / WIDTH[i]);
    }
    if (row_of(cell) == NO_ROW) return 0;
    int64_t rank = RANK[place_of(cell)], before = last_rank;
    last_rank = row_of(cell) == ARRIVED ? -1 : rank;
    return before < 0 || rank < before || (rank == 0 && before == 0);
}

/* Before a first sample: the monitor forgets the rank of the last one. */
void restart(void)
{
    last_rank = -1;
}
#endif

#if HAS_SIZES
/* The whole numbers of a measured state, by the header's units: those of the units that the values lie in, and of an exact state the nearest. 0 where a
   value is no number, or infinite: then `state` isn't set. */
int measure(const double value[], int64_t state[])
{
    for (int i = 0; i < STATES; i++) {
        double units = value[i] / UNIT[i] + (EXACT[i] ? 0.5 : 0.0);
        if (!(units > -9e18 && units < 9e18)) return 0;
        state[i] = (int64_t)units;
        if ((double)state[i] > units) state[i]--;
    }
    return 1;
}
#endif

#if HAS_FRACTIONS
/* Whether a unit is its fraction, up to rounding. */
static int is_unit(double unit, const int64_t fraction[])
{
    double whole = (double)fraction[0], beside = unit * (double)fraction[1] - whole;
    return beside <= 4 * DBL_EPSILON * whole && -beside <= 4 * DBL_EPSILON * whole;
}
#endif

/* A checksum that has taken in a number of so many bytes, the lowest first: the CRC-32 of many other programs. */
static uint32_t fed(uint32_t sum, uint64_t number, size_t bytes)
{
    for (; bytes > 0; bytes--, number >>= 8) {
        sum ^= (uint32_t)(number & 255);
        for (int bit = 0; bit < 8; bit++) sum = sum >> 1 ^ (sum & 1 ? 0xedb88320u : 0);
    }
    return sum;
}

#define FEED(array) for (size_t k = 0; k < sizeof (array) / sizeof *(array); k++) sum = fed(sum, (uint64_t)(array)[k], sizeof *(array))
#define FEED_ROWS(array) for (size_t row = 0; row < sizeof (array) / sizeof *(array); row++) FEED((array)[row])

/* Whether the numbers are those that tools/header has written: to be asked before the first sample. */
int is_intact(void)
{
    uint32_t sum = fed(fed(0xffffffffu, NO_ROW, 4), ARRIVED, 4);
    FEED(LOW);
    FEED(HIGH);
    FEED(WIDTH);
    FEED(COUNT);
    FEED(VALUES);
    FEED_ROWS(VALUE);
#if HAS_TURNS
    FEED_ROWS(TARGET_FIRST);
    FEED_ROWS(TARGET_LAST);
#endif
#if HAS_RUNS
    FEED(FIRST);
#endif
    FEED(ROW);
#if HAS_RANKS
    FEED(RANK);
#endif
#if HAS_RUNS && HAS_TURNS
    FEED(TURN);
#endif
#if HAS_FRACTIONS
    for (int i = 0; i < STATES; i++) if (!is_unit(UNIT[i], UNIT_FRACTION[i])) return 0;
    for (int i = 0; i < INPUTS; i++) if (!is_unit(INPUT_UNIT[i], INPUT_UNIT_FRACTION[i])) return 0;
    FEED_ROWS(UNIT_FRACTION);
    FEED_ROWS(INPUT_UNIT_FRACTION);
#endif
#if HAS_SIZES
    FEED(EXACT);
#endif
    return (sum ^ 0xffffffffu) == ARRAYS_CHECKSUM;
}
#undef FEED
#undef FEED_ROWS
#ifdef PREFIX
#undef STATES
#undef INPUTS
#undef NO_ROW
#undef ARRIVED
#undef HAS_RUNS
#undef HAS_TURNS
#undef HAS_RANKS
#undef HAS_SIZES
#undef HAS_FRACTIONS
#undef UNIT
#undef UNIT_FRACTION
#undef INPUT_UNIT
#undef INPUT_UNIT_FRACTION
#undef EXACT
#undef measure
#undef is_unit
#undef ARRAYS_CHECKSUM
#undef LOW
#undef HIGH
#undef WIDTH
#undef COUNT
#undef VALUES
#undef VALUE
#undef TURNS
#undef CELLS
#undef TARGET_FIRST
#undef TARGET_LAST
#undef RUNS
#undef FIRST
#undef ROW
#undef RANK
#undef TURN
#undef turn
#undef last_rank
#undef place_of
#undef row_of
#undef control
#undef visit
#undef falls
#undef restart
#undef fed
#undef is_intact
#undef OF
#undef PASTE
#undef PASTED
#undef PREFIX
#endif
