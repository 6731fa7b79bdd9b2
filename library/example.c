/* Runs a script by the library and prints its answers as the command program does. */
#include "pass_planner.h"

#include <stdio.h>

static const int32_t script[] = {
    PASS_PLANNER_KEEP, 0, 0, 4, 2,
    PASS_PLANNER_KEEP, 2, 2, 4, 3,
    PASS_PLANNER_KEEP, 9, 12, 3, 1,
    PASS_PLANNER_LOAD, 5,
    PASS_PLANNER_ROWS,
    PASS_PLANNER_UPDATE, 2, 9, 11,
    PASS_PLANNER_UPDATE, 1, 3, 3,
    PASS_PLANNER_UPDATE, 2, 3, 3,
    PASS_PLANNER_UPDATE, 2, 6, 6,
    PASS_PLANNER_ROWS,
    PASS_PLANNER_FIRST_FIT, 2,
    PASS_PLANNER_FIRST_FIT, 3,
    6,
};

/* Prints the rows behind a count, and returns the place after them. */
static const int32_t *print_rows(const int32_t *at)
{
    int32_t rows = *at++;
    for (int32_t row = 0; row < rows; row++) {
        int32_t ids = at[3];
        printf("%d %d %d", (int)at[0], (int)at[1], (int)at[2]);
        at += 4;
        for (int32_t id = 0; id < ids; id++)
            printf(" %d", (int)*at++);
        printf("\n");
    }
    printf("E %d\n", (int)rows);
    return at;
}

/* Prints one answer, and returns the place after it. */
static const int32_t *print_answer(const int32_t *at)
{
    switch (*at++) {
    case PASS_PLANNER_FITS:
        printf("F\n");
        return at;
    case PASS_PLANNER_OVERLOADED:
        printf("O %d %d %d\n", (int)at[0], (int)at[1], (int)at[2]);
        return at + 3;
    case PASS_PLANNER_REFUSED:
        printf("R %d\n", (int)at[0]);
        return at + 1;
    case PASS_PLANNER_START:
        printf("S %d\n", (int)at[0]);
        return at + 1;
    case PASS_PLANNER_NOWHERE:
        printf("N\n");
        return at;
    default:
        return print_rows(at);
    }
}

int main(void)
{
    int32_t answers[256];
    size_t room = sizeof answers / sizeof answers[0];
    size_t written = pass_planner_run(script, sizeof script / sizeof script[0], answers, room);
    const int32_t *end = answers + written;
    if (written == room)
        return 1;
    for (const int32_t *at = answers; at < end;)
        at = print_answer(at);
    return 0;
}
