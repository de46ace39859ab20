/* Gongperch: a folding planner and its cycle machine.

   A folding sheet (bytes) is planned into a plan (bytes), and a plan is run cycle by cycle in memory that the caller lends.
   Link libgongperch.a, which `rt lib` writes to crates/gongperch/out; beside it only memcpy, memmove and memset are needed. The
   library allocates nothing, keeps nothing between calls and never stops the program; any bytes and any words may be passed.

   What each call asks of its caller, and what the library cannot see for itself:
   - No pointer is null, also where its length is 0: pass the address of anything aligned.
   - Each pointer is aligned for what it points to (4 bytes for words, 8 for a length) and has as many elements as its length
     says; lengths count elements, bytes for sheets and plans, words of 32 bits for memory, channels and outputs.
   - What a call may write (plan, written, memory, out, needed) lies apart from everything else passed to the same call.
   - No other thread touches what is lent while the call runs. Calls on separate memory may run at the same time. */
#ifndef GONGPERCH_H
#define GONGPERCH_H

#include <stddef.h>
#include <stdint.h>

#ifdef __cplusplus
extern "C" {
#endif

/* Answers. A refusal changes nothing that was lent, but for GONGPERCH_UNFOLDABLE, whose loop is written to the plan buffer,
   and for the lengths `written` and `needed`, which are set at every answer. */
enum gongperch_answer {
    GONGPERCH_DONE = 0,       /* The call did its work. */
    GONGPERCH_LENGTH = 1,     /* The sheet or plan is shorter than its header, or its length isn't what the header says. */
    GONGPERCH_MARK = 2,       /* A record doesn't open with the mark that belongs there. */
    GONGPERCH_RANGE = 3,      /* A field is out of range or names nothing, an op is against its unit's kind, a wire or switch goes
                                 to an input that the node hasn't got, or a switch goes into an empty slot. */
    GONGPERCH_CLASH = 4,      /* Two nodes stand in one slot of a unit, or two port nodes take one channel. */
    GONGPERCH_FEED = 5,       /* A node's input is fed by no wire (in a plan: no switch), or by more than one. */
    GONGPERCH_UNFOLDABLE = 6, /* No retiming makes every wait of the sheet nonnegative; the loop that shows it is written. */
    GONGPERCH_ROOM = 7,       /* A lent slice is too short. */
    GONGPERCH_TIME = 8,       /* The cycle number is already 4,294,967,295; clear the memory to begin again. */
    GONGPERCH_FIGURE = 9      /* A plan's line length isn't the largest tap that reads the unit, or its idle count isn't N less
                                 the unit's occupied slots. */
};

/* The longest sheet and the longest plan in bytes, and the number of channel words that a step takes. */
enum { GONGPERCH_SHEET_MAX = 950, GONGPERCH_PLAN_MAX = 1265, GONGPERCH_CHANNELS = 16, GONGPERCH_UNITS_MAX = 8 };

/* Plans a sheet. Answers 0 to 7.
   sheet: the sheet's bytes, any number of any bytes.
   plan: receives the plan at its head at 0, the loop's records at 6 (`PW` and a wire number, three bytes for each wire, in walking
   order from the lowest wire number), and stays as it was otherwise; bytes after these are kept. GONGPERCH_PLAN_MAX bytes are room
   for every sheet.
   written: the number of bytes written at 0 and 6, the plan's length at 7, and 0 otherwise. */
uint32_t gongperch_plan(const uint8_t *sheet, size_t sheet_len, uint8_t *plan, size_t plan_len, uint64_t *written);

/* Makes the memory that of cycle 0. Answers 0 to 5, 7 or 9.
   plan: the plan's bytes, any number of any bytes.
   memory: its first words, as many as gongperch_memory_words says, become 0; words after these are kept. */
uint32_t gongperch_clear(const uint8_t *plan, size_t plan_len, uint32_t *memory, size_t memory_len);

/* Runs one cycle. Answers 0 to 5 or 7 to 9.
   plan: the plan's bytes, any number of any bytes; it is judged anew at each call.
   memory: word 0 is the cycle number, which rises by one; then each unit's places, newest first, which move by one. Any words
   will do, also some that clear never reached; words after these are kept.
   channels: the 16 channels' words; a port takes its channel's word in its own slot. Words after these are not looked at.
   out: receives the word that leaves each unit in this cycle, one for each unit of the plan; words after these are kept. */
uint32_t gongperch_step(const uint8_t *plan, size_t plan_len, uint32_t *memory, size_t memory_len, const uint32_t *channels,
                        size_t channels_len, uint32_t *out, size_t out_len);

/* Says how many words this plan's memory has. Answers 0 to 5 or 9.
   plan: the plan's bytes, any number of any bytes.
   needed: the number of words at 0, and 0 at a refusal. */
uint32_t gongperch_memory_words(const uint8_t *plan, size_t plan_len, uint64_t *needed);

#ifdef __cplusplus
}
#endif

#endif
