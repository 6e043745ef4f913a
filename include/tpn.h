/* Timed runs of weak time Petri nets: the six operations on cards, and runs that are entered step by step.
 *
 * Each reads a net card and, right behind it, a run card (tpn_timetable: an order card; tpn_rank: two run cards, X's and then Y's; tpn_join: a
 * second net card and a line `pairs`) from input, and writes its answer to the front of output.
 * The line `sheet` in front of a run or order card has the sheet of the net; the run card that tpn_round and tpn_timetable answer has it too.
 * The line `memory` of a run or order card is one of the words intermediate, atomic and carry.
 * A result from 0 up is the number of bytes written; the bytes of output behind them stay as they were.
 * A negative result is a refusal, -(number * 65536 + place), and no byte of output is altered.
 * Nothing is asked of the input. The pointers must not be null, also where a length is 0, and output must not overlap input.
 * Link libtpn.a; nothing else is needed. The functions keep no state and may be called from several threads. */
#ifndef TPN_H
#define TPN_H

#include <stddef.h>
#include <stdint.h>

#ifdef __cplusplus
extern "C" {
#endif

/* Outputs of these sizes are never too short. */
#define TPN_REPLAY_MAX 1280
#define TPN_ROUND_MAX 2048
#define TPN_TIMETABLE_MAX 2048
#define TPN_PROCESS_MAX 22001
#define TPN_RANK_MAX 32
#define TPN_JOIN_MAX 5632
#define TPN_LIVE_CARD_MAX 2048 /* tpn_live_open, _wait, _fire, _close and _timetable */
#define TPN_LIVE_STATE_MAX 1280

/* Refusals. Place: the line within its card from 1 for 1 to 4 and 11, the firing from 1 for 5 to 8, 0 for 9, 10 and 12 to 15; for 2 and 4 of a step of
 * an open run the firing being entered, from 1, and for the 2 of the denominator that a run is opened with 0. */
enum {
    TPN_MALFORMED = 1,
    TPN_OUT_OF_RANGE = 2,
    TPN_LATEST_BELOW_EARLIEST = 3,
    TPN_NO_SUCH_TRANSITION = 4,
    TPN_NOT_ENABLED = 5,
    TPN_TOO_MANY_TOKENS = 6,
    TPN_OUTSIDE_INTERVAL = 7,
    TPN_UNTIMABLE = 8,
    TPN_OUTPUT_TOO_SHORT = 9,
    TPN_OTHER_ORDER = 10,
    TPN_ANOTHER_SHEET = 11,
    TPN_BAD_PAIRS = 12,
    TPN_UNEQUAL_STARTS = 13,
    TPN_TOO_LARGE = 14,
    TPN_CLOSED_RUN = 15
};

int64_t tpn_replay(const uint8_t *input, size_t input_length, uint8_t *output, size_t output_length);
int64_t tpn_round(const uint8_t *input, size_t input_length, uint8_t *output, size_t output_length);
int64_t tpn_timetable(const uint8_t *input, size_t input_length, uint8_t *output, size_t output_length);
int64_t tpn_process(const uint8_t *input, size_t input_length, uint8_t *output, size_t output_length);

/* The answer: a line `rank=` with -1 (X stands before Y), 0 or 1, and a line `lead=` with the lead of X over Y at the instant that decides, negative
 * if X is earlier, in ticks over the product of the two denominators. */
int64_t tpn_rank(const uint8_t *input, size_t input_length, uint8_t *output, size_t output_length);

/* The line `pairs=` has the word none, or place numbers joined by commas, two by two the first net's place and the second's. The answer: the card of
 * the joined net, on the first's sheet, with the first's places, then the second's unpaired ones, and the first's transitions, then the second's. */
int64_t tpn_join(const uint8_t *input, size_t input_length, uint8_t *output, size_t output_length);

/* An open run is its two cards, the net's and right behind it that of the steps so far, whose rest is the sum of the waits since the last firing. It is
 * closed once the caller holds them no more. The answers of tpn_live_open, tpn_live_wait and tpn_live_fire are the card to hold from then on; after a
 * refusal the one before stays. Cards that opening and accepted steps do not leave are refused as 15 by all but tpn_live_open.
 * tpn_live_open reads a net card and the lines `sheet`, `memory` and `denominator` behind it. */
int64_t tpn_live_open(const uint8_t *input, size_t input_length, uint8_t *output, size_t output_length);
int64_t tpn_live_wait(const uint8_t *input, size_t input_length, uint32_t parts, uint8_t *output, size_t output_length);
int64_t tpn_live_fire(const uint8_t *input, size_t input_length, uint32_t transition, uint8_t *output, size_t output_length);

/* The card of the run, with a rest on top of the waits since the last firing. */
int64_t tpn_live_close(const uint8_t *input, size_t input_length, uint32_t rest, uint8_t *output, size_t output_length);

/* The marking and the clocks where the run stands, as tpn_replay answers, and the earliest timetable of the firings so far; they change nothing. */
int64_t tpn_live_state(const uint8_t *input, size_t input_length, uint8_t *output, size_t output_length);
int64_t tpn_live_timetable(const uint8_t *input, size_t input_length, uint8_t *output, size_t output_length);

/* The number and the place of a refusal; 0 for an answer. */
static inline int tpn_number(int64_t result) { return result < 0 ? (int)(-result / 65536) : 0; }
static inline int tpn_place(int64_t result) { return result < 0 ? (int)(-result % 65536) : 0; }

#ifdef __cplusplus
}
#endif

#endif
