/* The rack tool for C: the plan of a task file, its switch list, and the two questions of a plan.
 *
 * Link with librack.a (x86-64 Linux). Every function answers every input, keeps nothing between calls,
 * allocates nothing and calls nothing but memcpy and memset. A pointer may be null where its length is 0. Lent
 * memory is read or written only within its length, and what is written must not overlap what is read or what else
 * is written.
 *
 * A task file is the text of documents 01 and 02: one 01 line, a 05 line or none, a 06 line or none, then 02 and 03 lines, then
 * 07 lines or none, in hexadecimal. */
#ifndef RACK_H
#define RACK_H

#include <stddef.h>
#include <stdint.h>

#ifdef __cplusplus
extern "C" {
#endif

/* No function takes more stack than this, its own return address included: reckoned from the built code, in which no
 * function calls itself and no call is indirect. What memcpy and memset take below their return address is assumed small
 * and not in it. */
#define RACK_STACK_BYTES 32768

/* Of a task file no more than this is looked at, which is more than any good file has: a caller need not read on. */
#define RACK_TASKS_BYTES 2666

/* The longest text that rack_plan stores. */
#define RACK_PLAN_BYTES 2647

/* The plan of a task file, as text, or the one 1F line of its refusal.
 *
 * tasks, tasks_len   the bytes of the task file
 * out, out_len       where the text is stored, at the start; the bytes after it stay as they were
 *
 * Answers the text's length. Answers 0 and stores nothing where out_len is less than that;
 * RACK_PLAN_BYTES always suffice. The text has no closing 0. */
size_t rack_plan(const uint8_t *tasks, size_t tasks_len, uint8_t *out, size_t out_len);

/* The longest text that rack_switches stores. */
#define RACK_SWITCHES_BYTES 63345

/* The switch list of a task file, as text: a 21 line for each moment in one turn of r * S ticks at which a ring
 * processor changes server or goes idle, by tick, then by processor. Tick 0 lists every ring processor.
 *
 * tasks, tasks_len    the bytes of the task file
 * out, out_len        where the text is stored, at the start; the bytes after it stay as they were
 * answer, answer_len  where the text's length is stored, one number; answer_len counts numbers
 *
 * Answers 0 and stores the text, and in answer[0] its length, which is 0 where the plan has no ring processors.
 * Otherwise answers the refusal as number * 256 + place, and stores nothing, neither in out nor in answer: the file's
 * or the planner's own (1 to 10, 13), then 12 where out_len is less than the text's length or answer_len is 0;
 * RACK_SWITCHES_BYTES always suffice. The text has no closing 0. */
uint64_t rack_switches(const uint8_t *tasks, size_t tasks_len, uint8_t *out, size_t out_len,
                       uint64_t *answer, size_t answer_len);

/* Who runs on a processor at a tick, by the plan of a task file.
 *
 * tasks, tasks_len    the bytes of the task file
 * processor           from 1; those of the plan are there
 * tick                any 64-bit tick
 * answer, answer_len  where the answer is stored, two numbers; answer_len counts numbers
 *
 * Answers 0 and stores answer[0], the server or 0 for idle, and answer[1], the ticks left, this one included.
 * Otherwise answers the refusal as number * 256 + place, and stores nothing: the file's or the planner's own
 * (1 to 10, 13), 11 where the processor is not there, then 12 where answer_len is less than 2. */
uint64_t rack_who(const uint8_t *tasks, size_t tasks_len, uint64_t processor, uint64_t tick,
                  uint64_t *answer, size_t answer_len);

/* Does a server pass with a reserve, by the plan of a task file.
 *
 * tasks, tasks_len    the bytes of the task file
 * server              from 1; those of the plan are there
 * reserve             L + 1 to S - 1, or S
 * answer, answer_len  where the answer is stored, four numbers; answer_len counts numbers
 *
 * Answers 0 and stores answer[0], 1 for yes or 0 for no, answer[1], a length, answer[2], the demand there, and
 * answer[3], the supply there. For yes: of the lengths where demand steps, that is, is more than at the length before,
 * the smallest with the smallest supply - demand. For no: the smallest length at which demand exceeds supply.
 * Otherwise answers the refusal as number * 256 + place, and stores nothing: the file's or the planner's own
 * (1 to 10, 13), 11 where the server is not there or the reserve not allowed, then 12 where answer_len is less than 4. */
uint64_t rack_pass(const uint8_t *tasks, size_t tasks_len, uint64_t server, uint64_t reserve,
                   uint64_t *answer, size_t answer_len);

#ifdef __cplusplus
}
#endif

#endif
