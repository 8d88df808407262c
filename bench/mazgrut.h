/* The engine as a static library, under the two-party order: Alice is party 0, Bob party 1; labels P 0, A 1, B 2, O 3.
 * `rt lib` in crates/engine writes crates/engine/out/libengine.a; link c/liblibc_c.a of the kit behind it:
 *   cc host.c -I bench crates/engine/out/libengine.a "$(dirname "$(rt doc)")/c/liblibc_c.a"
 * A slice is a pointer and the number of its elements. Every pointer must be aligned and valid for its length (not null,
 * also where the length is 0), and slices that are written must overlap no other. */
#ifndef MAZGRUT_H
#define MAZGRUT_H

#include <stddef.h>
#include <stdint.h>

#ifdef __cplusplus
extern "C" {
#endif

/* An entry of a tape or a log. The mark is 1 where a fetch or a store fell outside its array. */
typedef struct {
    uint8_t kind, label;
    uint16_t record;
    uint8_t variable, mark;
    uint32_t index, value;
} mazgrut_entry;

/* A call of a session: 0 enter (party, variable, index, value), 1 start, 2 run (steps), 3 look (party, variable, index). */
typedef struct {
    uint8_t call, party, variable;
    uint32_t index, value;
    uint64_t steps;
} mazgrut_call;

/* An answer. Layer 0: nothing was refused. Else refused: 1 sheet, 2 shape, 3 rule, 4 session, 5 log, with number and
 * place; 7 no memory for the bank; 8 no call has that number (place); 9 fewer answers than calls (place: the calls). */
typedef struct {
    uint8_t layer, number;
    uint8_t stop;    /* of a run: 1 ended, 2 spent, 3 full */
    uint64_t place;
    uint64_t first;  /* variables; entries picked; the value looked up; steps */
    uint64_t second; /* records; entries written */
} mazgrut_answer;

/* The verdict on a sheet. */
mazgrut_answer mazgrut_check(const uint8_t *sheet, size_t sheet_len);

/* A party's log of a tape, written to the front of `out`. */
mazgrut_answer mazgrut_pick(uint8_t party, const mazgrut_entry *tape, size_t tape_len, mazgrut_entry *out, size_t out_len);

/* Accepts the sheet, opens a session over a bank of so many words, all 0, and plays the calls on it. The tape is lent to
 * each run, which writes over its front. Answer k is that of call k. The result is layer 7 where there is no memory for
 * the bank; else layer 9 where there are fewer answers than calls; else the verdict on the sheet. Where its layer is not
 * 0, nothing is played, and tape and answers are untouched. */
mazgrut_answer mazgrut_play_flat(const uint8_t *sheet, size_t sheet_len, size_t words, const mazgrut_call *calls,
                                 size_t calls_len, mazgrut_entry *tape, size_t tape_len, mazgrut_answer *answers,
                                 size_t answers_len);
mazgrut_answer mazgrut_play_share(const uint8_t *sheet, size_t sheet_len, size_t words, uint32_t pad,
                                  const mazgrut_call *calls, size_t calls_len, mazgrut_entry *tape, size_t tape_len,
                                  mazgrut_answer *answers, size_t answers_len);

#ifdef __cplusplus
}
#endif

#endif
