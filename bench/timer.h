/* The clocks of the benchmarks, in seconds, and the heads of their tables. */
#ifndef TIMER_H
#define TIMER_H
#include <stdio.h>
#include <string.h>
#include <time.h>

static inline double seconds_by(clockid_t clock)
{
    struct timespec t;
    clock_gettime(clock, &t);
    return (double)t.tv_sec + (double)t.tv_nsec * 1e-9;
}

static inline double now(void)
{
    return seconds_by(CLOCK_MONOTONIC);
}

/* The processor time of this process, so that other work on the machine counts less. */
static inline double worked(void)
{
    return seconds_by(CLOCK_PROCESS_CPUTIME_ID);
}

/* The head of a table: what it times, on which processor, and how many runs each figure is the best of. */
static inline void say_how(const char *what, int runs)
{
    char line[256], name[256] = "a processor with no name";
    FILE *told = fopen("/proc/cpuinfo", "r");
    while (told != NULL && fgets(line, sizeof line, told) != NULL)
        if (sscanf(line, "model name : %255[^\n]", name) == 1)
            break;
    if (told != NULL)
        fclose(told);
    printf("%s\n%s, the best of %d runs of each in turn. Below \"ours / C\" stands our speed divided by that of C: more is better.\n",
           what, name, runs);
}

#endif
