/* Topjeska: planning for restacking slabs, by the rules of docs/SPECIFICATION.md.
 *
 * An arrangement of n slabs is a list of n numbers: entry i - 1 says what slab i rests on, 0 for the
 * ground. A list is lent as a pointer and a length. The pointer is to as many numbers as the length
 * says, and may be NULL where the length is 0. A generator is lent as a pointer that is not NULL.
 * What is written overlaps nothing else that is lent.
 *
 * A sheet may have lengths: a list of n numbers, entry i - 1 the length of slab i in cm. Then a
 * slab must not rest on a shorter one, and a lift onto a shorter one is not legal; slabs of equal
 * lengths may rest on each other, and the ground takes any.
 *
 * In every answer `refusal` is 0 where the call was answered, else one of TOPJESKA_REFUSAL_...;
 * `place` is then its place, the counts are 0, and what is lent holds what it held. A refused replay
 * gives no verdict: TOPJESKA_NO_VERDICT stands in its place. */
#ifndef TOPJESKA_H
#define TOPJESKA_H

/* For C99 or later, which has the inline functions, and C++11 or later. */

#include <stddef.h>
#include <stdint.h>

#ifdef __cplusplus
extern "C" {
#endif

/* ---- version, of this header and of the library beside it */

#define TOPJESKA_VERSION "0.6.0"
#define TOPJESKA_VERSION_MAJOR 0
#define TOPJESKA_VERSION_MINOR 6
#define TOPJESKA_VERSION_PATCH 0

/* ---- limits and memory */

/* The most slabs of a sheet: the limit of topjeska_plan, the yard office's entry to planning, and
 * of all other functions on sheets but the panel's entry. */
#define TOPJESKA_MOST_SLABS 4000u

/* The most slabs of a sheet at the panel: the limit of topjeska_plan_panel, the panel's entry to
 * planning. */
#define TOPJESKA_MOST_PANEL 600u

/* The most slabs of a training sheet. */
#define TOPJESKA_MOST_TRAINED 16u

/* The numbers of lent space that planning needs for n slabs, by both entries alike: at most 16,000
 * by the yard office's, and 2,400 by the panel's. */
#define TOPJESKA_PLAN_SPACE(n) (4u * (n))

/* The numbers that the deadlock test writes for a slab: row i, counted from 0, begins at
 * TOPJESKA_DEADLOCK_WIDTH * i. */
#define TOPJESKA_DEADLOCK_WIDTH 3u

/* The numbers of lent space that the deadlock test needs for n slabs. */
#define TOPJESKA_DEADLOCK_ROOM(n) (TOPJESKA_DEADLOCK_WIDTH * (n))

/* The bytes of stack that every call stays below. No call allocates memory or keeps a pointer: the
 * working lists lie on the stack, and are as long for a few slabs as for 4,000, by the panel's
 * entry too. Measured with a thread for each call, its own needs included:
 *
 *     check                   36 KiB
 *     replay                  44 KiB
 *     planning                84 KiB
 *     planning by the panel   84 KiB
 *     deadlock test          117 KiB
 *     training                 6 KiB */
#define TOPJESKA_STACK_BYTES 163840u

/* ---- options: bits, of which those that have no name here are not looked at */

/* The sheet has lengths. Without this bit the lengths are not looked at. */
#define TOPJESKA_LENGTHS 1u

/* Planning is by the panel's entry. Planning alone looks at this bit: check, deadlock test and
 * replay do not ask 19. */
#define TOPJESKA_PANEL 2u

/* ---- methods of planning */

/* US: puts down the misplaced clear slabs off the ground, then makes constructive lifts. */
#define TOPJESKA_METHOD_US 1u

/* GN1: makes constructive lifts, and at a stall puts down the lowest misplaced clear slab off the
 * ground. */
#define TOPJESKA_METHOD_GN1 2u

/* GN2: as GN1, but at a stall puts down the lowest slab on the loop. */
#define TOPJESKA_METHOD_GN2 3u

/* ---- refusals: the number of the first question that got a "no"
 *
 * In brackets who asks it, or of what sheets, where not all that take a sheet do; the place is 0
 * where none is named. 16, 17 and 18 are asked after 9, in that order. 19 is the panel's, and is
 * asked directly after 2. Training asks 14, 15 and 10, in that order. 12 is the planning program's
 * alone, and 13 is never answered (theorem `never_13`): no function here gives them. */

/* Is the method 1, 2 or 3? (planning) */
#define TOPJESKA_REFUSAL_METHOD 1u

/* Has the now list at most 4,000 entries? */
#define TOPJESKA_REFUSAL_TOO_MANY 2u

/* Has the goal list as many? */
#define TOPJESKA_REFUSAL_UNEQUAL 3u

/* Is every now entry at most n? Place: the lowest slab with a bad entry. */
#define TOPJESKA_REFUSAL_NOW_ENTRY 4u

/* Does each slab carry at most one slab now? Place: the lowest slab that rests where a
 * lower-numbered slab rests, the ground excepted. */
#define TOPJESKA_REFUSAL_NOW_SHARED 5u

/* Does every slab come down to the ground now? Place: the lowest slab that does not. */
#define TOPJESKA_REFUSAL_NOW_FLOATING 6u

/* Is every goal entry at most n? Place: the lowest slab with a bad entry. */
#define TOPJESKA_REFUSAL_GOAL_ENTRY 7u

/* Does each slab carry at most one slab in the goal? Place: the lowest slab that rests where a
 * lower-numbered slab rests, the ground excepted. */
#define TOPJESKA_REFUSAL_GOAL_SHARED 8u

/* Does every slab come down to the ground in the goal? Place: the lowest slab that does not. */
#define TOPJESKA_REFUSAL_GOAL_FLOATING 9u

/* Is the lent space large enough? (planning, deadlock test, training) */
#define TOPJESKA_REFUSAL_SPACE 10u

/* Has the lift list an even number of entries? (replay) */
#define TOPJESKA_REFUSAL_ODD 11u

/* Are all bytes of the record there, with its own mark, and nothing after the last record? (program)
 * Place: the records before it, or 2 * n + 1 for a tail, 3 * n + 1 with lengths. */
#define TOPJESKA_REFUSAL_RECORD 12u

/* Was there a slab to put down when no constructive lift existed? (planning) */
#define TOPJESKA_REFUSAL_STALL 13u

/* Are there at most 16 slabs? (training) */
#define TOPJESKA_REFUSAL_TRAINING_SIZE 14u

/* Is the number below the count of arrangements, or the seed not 0? (training) */
#define TOPJESKA_REFUSAL_TRAINING_NUMBER 15u

/* Are there as many lengths as slabs? (with lengths) */
#define TOPJESKA_REFUSAL_LENGTHS_COUNT 16u

/* Is each slab at most as long as the slab it rests on now? (with lengths) Place: the lowest slab
 * that overhangs. */
#define TOPJESKA_REFUSAL_NOW_OVERHANG 17u

/* Is each slab at most as long as the slab it rests on in the goal? (with lengths) Place: the
 * lowest slab that overhangs. */
#define TOPJESKA_REFUSAL_GOAL_OVERHANG 18u

/* Has the now list at most 600 entries? (panel) */
#define TOPJESKA_REFUSAL_PANEL 19u

/* ---- verdicts of replay */

/* Arrives. */
#define TOPJESKA_VERDICT_ARRIVES 0u

/* The slab is not in 1 to n or the destination is above n. Place: the lift, counted from 1. */
#define TOPJESKA_VERDICT_UNKNOWN 1u

/* The slab is not clear. Place: the lift, counted from 1. */
#define TOPJESKA_VERDICT_COVERED 2u

/* It already rests there. Place: the lift, counted from 1. */
#define TOPJESKA_VERDICT_IDLE 3u

/* The destination is the slab itself or a slab that is not clear. Place: the lift, counted from 1. */
#define TOPJESKA_VERDICT_TAKEN 4u

/* All lifts are legal and the end differs from the goal. Place: the lowest slab whose support
 * differs. */
#define TOPJESKA_VERDICT_ELSEWHERE 5u

/* It is too long for its destination. Place: the lift, counted from 1. */
#define TOPJESKA_VERDICT_TOO_LONG 6u

/* The verdict of a refused replay: a number that is none. */
#define TOPJESKA_NO_VERDICT 65535u

/* ---- answers */

/* Whether lists are a sheet. */
typedef struct {
    uint64_t refusal, place;
} topjeska_check_answer;

/* The count of lifts written, and `misplaced`, the count of slabs that are misplaced at the start.
 * No list that arrives has fewer lifts than that. It is the fewest lifts that could do exactly when
 * nothing is deadlocked at the start: with a deadlock every list that arrives has more (theorem
 * `head_count`). */
typedef struct {
    uint64_t refusal, place, count, misplaced;
} topjeska_plan_answer;

/* The count of deadlocked slabs written; 0 where there is no deadlock. */
typedef struct {
    uint64_t refusal, place, count;
} topjeska_deadlock_answer;

/* The verdict, one of TOPJESKA_VERDICT_..., and the place of the refusal or of the verdict. */
typedef struct {
    uint64_t refusal, verdict, place;
} topjeska_replay_answer;

/* Whether an arrangement is written; the place is 0. */
typedef struct {
    uint64_t refusal, place;
} topjeska_training_answer;

/* ---- generator */

/* What training sheets are drawn by. A seed draws the same sheets on every machine; one that is not
 * 0 never becomes 0. It keeps no secret and is not for statistics. */
typedef struct {
    uint64_t seed;
} topjeska_generator;

/* ---- functions on sheets without options */

/* Puts questions 2 to 9 to two lists. */
topjeska_check_answer topjeska_check(const uint16_t *now, size_t now_len,
                                     const uint16_t *goal, size_t goal_len);

/* Writes the lifts of a method, one of TOPJESKA_METHOD_..., to the front of the space, as pairs:
 * slab, destination. The space needs TOPJESKA_PLAN_SPACE numbers; what lies behind the pairs keeps
 * what it held. US writes as many lifts as slabs are misplaced, and one more for each of these that
 * is off the ground both now and in the goal; for the same sheet GN1 and GN2 write no more than US
 * (theorem `beside_us`). This is the yard office's entry, which takes at most TOPJESKA_MOST_SLABS
 * slabs. */
topjeska_plan_answer topjeska_plan(uint16_t method, const uint16_t *now, size_t now_len,
                                   const uint16_t *goal, size_t goal_len,
                                   uint16_t *space, size_t space_len);

/* As topjeska_plan, by the entry of the panel in the crane cabin, which takes at most
 * TOPJESKA_MOST_PANEL slabs: TOPJESKA_REFUSAL_PANEL is asked directly after
 * TOPJESKA_REFUSAL_TOO_MANY. On so many slabs or fewer both entries give equal answers and leave
 * equal space (theorem `panel_same`). */
topjeska_plan_answer topjeska_plan_panel(uint16_t method, const uint16_t *now, size_t now_len,
                                         const uint16_t *goal, size_t goal_len,
                                         uint16_t *space, size_t space_len);

/* Writes the deadlock that the constructive lifts come to, if any, to the front of the space, as
 * rows of three: a slab of the deadlock; the slab through which the next one is in its way; and
 * the nearest slab beneath that slab of the deadlock in its goal pile that is in position once all
 * constructive lifts are made and the yard stalls, 0 for the ground. The space needs
 * TOPJESKA_DEADLOCK_ROOM numbers; what lies behind the rows keeps what it held. */
topjeska_deadlock_answer topjeska_deadlock(const uint16_t *now, size_t now_len,
                                           const uint16_t *goal, size_t goal_len,
                                           uint16_t *space, size_t space_len);

/* Follows a list of lifts, pairs of slab and destination, of any length. */
topjeska_replay_answer topjeska_replay(const uint16_t *now, size_t now_len,
                                       const uint16_t *goal, size_t goal_len,
                                       const uint16_t *lifts, size_t lifts_len);

/* ---- functions on sheets with options, such as TOPJESKA_LENGTHS and TOPJESKA_PANEL */

/* Puts questions 2 to 9 to a sheet, and with lengths 16, 17 and 18. */
topjeska_check_answer topjeska_check_with(uint16_t options, const uint16_t *now, size_t now_len,
                                          const uint16_t *goal, size_t goal_len,
                                          const uint16_t *lengths, size_t lengths_len);

/* As topjeska_plan, and with TOPJESKA_PANEL as topjeska_plan_panel. A sheet that is accepted with
 * lengths has the same list with them and without. With them all that is promised of a list
 * compares it with lists that are legal with lengths, and it is legal with lengths itself. */
topjeska_plan_answer topjeska_plan_with(uint16_t options, uint16_t method, const uint16_t *now,
                                        size_t now_len, const uint16_t *goal, size_t goal_len,
                                        const uint16_t *lengths, size_t lengths_len,
                                        uint16_t *space, size_t space_len);

/* As topjeska_deadlock. A sheet that is accepted with lengths has the same rows with them and
 * without. */
topjeska_deadlock_answer topjeska_deadlock_with(uint16_t options, const uint16_t *now,
                                                size_t now_len, const uint16_t *goal,
                                                size_t goal_len, const uint16_t *lengths,
                                                size_t lengths_len, uint16_t *space,
                                                size_t space_len);

/* As topjeska_replay. With lengths every lift is tested for TOPJESKA_VERDICT_TOO_LONG, after
 * TOPJESKA_VERDICT_TAKEN. */
topjeska_replay_answer topjeska_replay_with(uint16_t options, const uint16_t *now, size_t now_len,
                                            const uint16_t *goal, size_t goal_len,
                                            const uint16_t *lengths, size_t lengths_len,
                                            const uint16_t *lifts, size_t lifts_len);

/* ---- the same, with the parts of a sheet by their names */

/* A sheet, in C
 *
 *     (topjeska_sheet){.options = TOPJESKA_LENGTHS, .now = now, .now_len = n,
 *                      .goal = goal, .goal_len = n, .lengths = lengths, .lengths_len = n}
 *
 * and in C++ `topjeska_sheet sheet = {}; sheet.options = TOPJESKA_LENGTHS; sheet.now = now;` and so
 * on. What is not named is 0, so that a sheet without lengths leaves out the lengths and, but for
 * planning by the panel's entry, the options. Beware: lengths without the option are not looked at,
 * and the sheet is answered as one that has none. Options stand together: with `.options =
 * TOPJESKA_LENGTHS | TOPJESKA_PANEL` the sheet has lengths and topjeska_sheet_plan is the panel's.
 * Fields that come later go behind these, and are not looked at without their option. */
typedef struct {
    uint16_t options;
    const uint16_t *now;
    size_t now_len;
    const uint16_t *goal;
    size_t goal_len;
    const uint16_t *lengths;
    size_t lengths_len;
} topjeska_sheet;

/* topjeska_check_with for a sheet. */
static inline topjeska_check_answer topjeska_sheet_check(topjeska_sheet sheet) {
    return topjeska_check_with(sheet.options, sheet.now, sheet.now_len, sheet.goal, sheet.goal_len,
                               sheet.lengths, sheet.lengths_len);
}

/* topjeska_plan_with for a sheet. */
static inline topjeska_plan_answer topjeska_sheet_plan(topjeska_sheet sheet, uint16_t method,
                                                       uint16_t *space, size_t space_len) {
    return topjeska_plan_with(sheet.options, method, sheet.now, sheet.now_len, sheet.goal,
                              sheet.goal_len, sheet.lengths, sheet.lengths_len, space, space_len);
}

/* topjeska_deadlock_with for a sheet. */
static inline topjeska_deadlock_answer topjeska_sheet_deadlock(topjeska_sheet sheet,
                                                               uint16_t *space, size_t space_len) {
    return topjeska_deadlock_with(sheet.options, sheet.now, sheet.now_len, sheet.goal,
                                  sheet.goal_len, sheet.lengths, sheet.lengths_len, space,
                                  space_len);
}

/* topjeska_replay_with for a sheet. */
static inline topjeska_replay_answer topjeska_sheet_replay(topjeska_sheet sheet,
                                                           const uint16_t *lifts,
                                                           size_t lifts_len) {
    return topjeska_replay_with(sheet.options, sheet.now, sheet.now_len, sheet.goal, sheet.goal_len,
                                sheet.lengths, sheet.lengths_len, lifts, lifts_len);
}

/* ---- training */

/* Writes the arrangement of n slabs that has the number r to the front of the list; what lies behind
 * its n numbers keeps what it held. The numbers below the count of arrangements (1 for no slab, 13
 * for three, 1,290,434,218,669,921 for 16) give each arrangement that a sheet may have, each once. */
topjeska_training_answer topjeska_training(size_t n, uint64_t r, uint16_t *out, size_t out_len);

/* Moves the generator on, for no slab too, and writes the arrangement whose number is the remainder
 * of the new seed by the count of arrangements. A refusal keeps the seed and the list. Now and goal
 * of a sheet are two draws in a row. */
topjeska_training_answer topjeska_training_draw(topjeska_generator *generator, size_t n,
                                                uint16_t *out, size_t out_len);

#ifdef __cplusplus
}
#endif

#endif
