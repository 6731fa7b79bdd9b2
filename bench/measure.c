/* Counts what the clock does not say: the tables that a command copies or clears, and the stack that it needs.
 *
 * They are calls of memcpy, memmove and memset with 4 KB and more, which stand here in place of the C library's: only the
 * table, and what holds one, is so large. What is copied and what is cleared is counted together. The stack is painted
 * before a run, and what is no longer paint afterwards was used. */
#include "../library/pass_planner.h"

#include <pthread.h>
#include <stdio.h>
#include <string.h>

enum { LARGE = 4096, STACK = 1 << 20, PAINT = 0xA5, TIMES = 100, ROOM = 4096 };

static unsigned long large;

void *memcpy(void *to, const void *from, size_t n)
{
    char *a = to;
    const char *b = from;
    large += n >= LARGE;
    for (size_t i = 0; i < n; i++)
        ((volatile char *)a)[i] = b[i];
    return to;
}

void *memmove(void *to, const void *from, size_t n)
{
    char *a = to;
    const char *b = from;
    large += n >= LARGE;
    for (size_t i = 0; i < n; i++) {
        size_t at = a < b ? i : n - 1 - i;
        ((volatile char *)a)[at] = b[at];
    }
    return to;
}

void *memset(void *to, int value, size_t n)
{
    large += n >= LARGE;
    for (size_t i = 0; i < n; i++)
        ((volatile char *)to)[i] = (char)value;
    return to;
}

static int32_t script[ROOM], answers[ROOM];
static size_t length;
static char stack[STACK] __attribute__((aligned(4096)));

static void command(size_t n, const int32_t *numbers)
{
    for (size_t i = 0; i < n; i++)
        script[length++] = numbers[i];
}

/* Eight jobs in a staircase, each overlapping the next, and one more that is moved about. */
static void load(void)
{
    for (int32_t i = 0; i < 8; i++)
        command(5, (int32_t[]){PASS_PLANNER_KEEP, i * 20, i * 20, 30, 3});
    command(5, (int32_t[]){PASS_PLANNER_KEEP, 0, 1000, 4, 2});
    command(2, (int32_t[]){PASS_PLANNER_LOAD, 1000});
}

static void *nothing(void *unused)
{
    return unused;
}

static void *run(void *unused)
{
    large = 0;
    pass_planner_run(script, length, answers, ROOM);
    return unused;
}

/* Runs a function in a thread with a painted stack, and returns how much of it was used. */
static size_t used(void *(*function)(void *))
{
    pthread_t thread;
    pthread_attr_t attributes;
    size_t clean = 0;
    memset(stack, PAINT, STACK);
    pthread_attr_init(&attributes);
    pthread_attr_setstack(&attributes, stack, STACK);
    pthread_create(&thread, &attributes, function, NULL);
    pthread_join(thread, NULL);
    while (clean < STACK && (unsigned char)stack[clean] == PAINT)
        clean++;
    return STACK - clean;
}

/* The tables that one more of some commands copies or clears, behind a load and two moves. */
static void show(const char *name, size_t n, const int32_t *first, const int32_t *second)
{
    unsigned long few;
    for (int more = 0; more < 2; more++) {
        few = large;
        length = 0;
        load();
        for (int32_t i = 0; i < 2 + more * TIMES; i++)
            command(n, i % 2 ? second : first);
        used(run);
    }
    printf("%s: %.2f\n", name, (double)(large - few) / TIMES);
}

int main(void)
{
    show("tables copied or cleared in an update that moves a part", 4, (int32_t[]){PASS_PLANNER_UPDATE, 8, 11, 11},
         (int32_t[]){PASS_PLANNER_UPDATE, 8, 91, 91});
    show("tables copied or cleared in an update that nudges it", 4, (int32_t[]){PASS_PLANNER_UPDATE, 8, 91, 91},
         (int32_t[]){PASS_PLANNER_UPDATE, 8, 92, 92});
    show("tables copied or cleared in a load", 2, (int32_t[]){PASS_PLANNER_LOAD, 5}, (int32_t[]){PASS_PLANNER_LOAD, 5});
    show("tables copied or cleared in a first fit", 2, (int32_t[]){PASS_PLANNER_FIRST_FIT, 8},
         (int32_t[]){PASS_PLANNER_FIRST_FIT, 8});
    show("tables copied or cleared in a refused update", 4, (int32_t[]){PASS_PLANNER_UPDATE, -1, 0, 0},
         (int32_t[]){PASS_PLANNER_UPDATE, -1, 0, 0});
    length = 0;
    load();
    command(4, (int32_t[]){PASS_PLANNER_UPDATE, 8, 11, 11});
    printf("stack of a run with a load and an update: %zu bytes\n", used(run) - used(nothing));
    return 0;
}
