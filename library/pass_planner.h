/* The pass planner: a script of commands, given as numbers, is run on a fresh plan.
 *
 * A script is one command after another, each its kind and then its numbers:
 *
 *   1 earliest latest duration usage   keeps a job for the next load; at most 32 are kept
 *   2 capacity                         loads the kept jobs and keeps none of them
 *   3 id earliest latest               gives the task with this id other start bounds
 *   4 id                               asks for the task's first fit
 *   5                                  asks for the rows of the table
 *
 * Ids are given by a load: jobs with usage 0 or duration 0 are dropped and have none. The others are
 * numbered from 0 by usage, greatest first, equal usages in input order. No answer says which id a
 * job got.
 *
 * The answers stand one after another, each its kind and then its numbers. A job that is kept has no
 * answer. Every other command has one, and so has a 33rd job, which is refused.
 *
 *   0                                  a load or an update: the supply is not overloaded
 *   1 start end height                 a load or an update: overloaded, and the first row that is
 *                                      too high
 *   2 number                           refused, with the number of the refusal
 *   3 start                            the first fit
 *   4                                  there is no start at which the task fits
 *   5 count                            the rows, and behind it for each row:
 *     start end height count ids       the last instant of a row is its end; as many ids as count
 *                                      says
 *
 * The answer of the rows is the longest: at most 2 + 128 * 36 = 4610 numbers, as there are at most
 * 128 rows with at most 32 ids each.
 *
 * The refusals:
 *
 *   1   more than 32 jobs
 *   2   capacity out of range
 *   3   a start bound out of range
 *   4   earliest start greater than latest
 *   5   duration out of range
 *   6   usage out of range
 *   7   no task has this id
 *   8   at some step of the update the table would need more than 128 rows
 *   9   rows or first fit asked while the table is stale
 *   11  the script cannot be read from here on: no command has this kind, or the last command is cut
 *       off. What follows is not run
 *
 * After a refusal all stays as before, but that a refused load, too, keeps none of the jobs.
 *
 * The table is stale from an accepted load that answers 1, overloaded, until an update answers 0 or
 * a new load is accepted. A stale table has no rows.
 *
 * Start bounds are from -1000000000 to 1000000000, durations and capacities from 0 to 1000000000,
 * usages from 0 to 1000000. Any number may stand anywhere: what is out of range is refused. */
#ifndef PASS_PLANNER_H
#define PASS_PLANNER_H

#include <stddef.h>
#include <stdint.h>

enum pass_planner_command {
    PASS_PLANNER_KEEP = 1,
    PASS_PLANNER_LOAD = 2,
    PASS_PLANNER_UPDATE = 3,
    PASS_PLANNER_FIRST_FIT = 4,
    PASS_PLANNER_ROWS = 5
};

enum pass_planner_answer {
    PASS_PLANNER_FITS = 0,
    PASS_PLANNER_OVERLOADED = 1,
    PASS_PLANNER_REFUSED = 2,
    PASS_PLANNER_START = 3,
    PASS_PLANNER_NOWHERE = 4,
    PASS_PLANNER_TABLE = 5
};

#ifdef __cplusplus
extern "C" {
#endif

/* Runs the script on a fresh plan, writes the numbers of the answers from the first place of
 * `answers` on, and returns how many were written. Numbers that have no room are left out: where the
 * result is answers_len, the last answer may be cut off. Places behind the written ones stay as they
 * were.
 *
 * The caller's duties: `script` points to script_len numbers and `answers` to answers_len; nothing
 * else, no thread and no interrupt, reads or writes them during the call; the two do not overlap;
 * there is stack enough (docs/SPEED.md has what was measured). Where a length is 0 its pointer is not
 * followed. Nothing is kept from one call to the next. */
size_t pass_planner_run(const int32_t *script, size_t script_len, int32_t *answers, size_t answers_len);

#ifdef __cplusplus
}
#endif

#endif
