/* What the benchmarks share: jobs, each in three versions (the proved library, plain C by gcc -O2 and by clang -O2), in one process.
 *   PROGRAM             times the versions in turn: the least time of a call in ns, and the ratios, as rows of a table; 1 where answers differ or a limit is passed
 *   PROGRAM counts      runs each version of each job once, for counts.py
 *   PROGRAM JOB FORM    runs one version of one job again and again, for a profiler
 * A program includes this file in its one source. In this order: a job; times; counts; a profile; the program's main. */
#ifndef _POSIX_C_SOURCE
#define _POSIX_C_SOURCE 200809L
#endif
#include <stdint.h>
#include <stdio.h>
#include <stdlib.h>
#include <string.h>
#include <time.h>

enum { FORMS = 3 };

/* One run makes so many calls. A limit is for the ratio to gcc's time; 0 is none. `argument` is the job's own, read by `prepare` from bench_argument. */
struct bench_job {
    const char *what;
    int calls;
    double limit;
    int argument;
    void (*prepare[FORMS])(void), (*run[FORMS])(void);
};

/* The jobs of a program. Before each round of a job `shuffle` is called, and before each run `set_back`; both may be NULL, and no time is taken of them. */
struct bench {
    const struct bench_job *jobs;
    int count, rounds;
    void (*shuffle)(void), (*set_back)(int form);
};

#define BENCH_FORMS(F) {sc_##F, gcc_##F, clang_##F}

static int bench_argument;

/* What the runs of each version add their answers to: in the end all are the same. */
static volatile uint64_t bench_sum[FORMS];

static double bench_now(void)
{
    struct timespec t;
    clock_gettime(CLOCK_MONOTONIC, &t);
    return (double)t.tv_sec * 1e9 + (double)t.tv_nsec;
}

static void bench_prepare(const struct bench_job *j)
{
    bench_argument = j->argument;
    for (int form = 0; form < FORMS; form++) {
        bench_sum[form] = 0;
        j->prepare[form]();
    }
}

/* ---- times */
static void bench_measure(const struct bench *b, const struct bench_job *j, double *best)
{
    bench_prepare(j);
    for (int form = 0; form < FORMS; form++)
        best[form] = 1e18;
    for (int round = 0; round < b->rounds; round++) {
        if (b->shuffle != NULL)
            b->shuffle();
        for (int form = 0; form < FORMS; form++) {
            if (b->set_back != NULL)
                b->set_back(form);
            double t = bench_now();
            j->run[form]();
            t = (bench_now() - t) / j->calls;
            if (t < best[form])
                best[form] = t;
        }
    }
}

/* Times a job and prints its row; 1 where the answers differ or its limit is passed. */
static int bench_time(const struct bench *b, const struct bench_job *j, const char *after)
{
    double best[FORMS];
    char what[96];
    int bad = 0;
    snprintf(what, sizeof what, "%s%s", j->what, after);
    bench_measure(b, j, best);
    printf("| %-58s | %8.1f | %8.1f | %5.2f | %8.1f | %5.2f |\n", what, best[0], best[1], best[0] / best[1], best[2], best[0] / best[2]);
    if (bench_sum[0] != bench_sum[1] || bench_sum[0] != bench_sum[2]) {
        printf("^ the answers differ\n");
        bad = 1;
    }
    if (j->limit != 0 && best[0] > j->limit * best[1]) {
        printf("^ more than %.1f times gcc -O2\n", j->limit);
        bad = 1;
    }
    fflush(stdout);
    return bad;
}

/* ---- counts: what callgrind counts, which begins, ends and writes its count with each call of this function */
static void __attribute__((noinline)) bench_counted(void (*run)(void))
{
    run();
    __asm__ volatile("");
}

static void bench_count(const struct bench *b)
{
    for (const struct bench_job *j = b->jobs; j < b->jobs + b->count; j++) {
        bench_prepare(j);
        if (b->shuffle != NULL)
            b->shuffle();
        printf("%d %s\n", j->calls, j->what);
        for (int form = 0; form < FORMS; form++) {
            if (b->set_back != NULL)
                b->set_back(form);
            bench_counted(j->run[form]);
        }
    }
}

/* ---- a profile */
static int bench_profile(const struct bench *b, int job, int form)
{
    if (job < 0 || job >= b->count || form < 0 || form >= FORMS)
        return 1;
    const struct bench_job *j = &b->jobs[job];
    bench_prepare(j);
    for (int round = 0; round < 20; round++) {
        if (b->shuffle != NULL)
            b->shuffle();
        if (b->set_back != NULL)
            b->set_back(form);
        j->run[form]();
    }
    printf("%s: %d calls\n", j->what, 20 * j->calls);
    return 0;
}

/* ---- main: the times of all jobs, or what the arguments ask for */
static int bench_main(const struct bench *b, int argc, char **argv)
{
    int bad = 0;
    if (argc == 3)
        return bench_profile(b, atoi(argv[1]), atoi(argv[2]));
    if (argc == 2 && strcmp(argv[1], "counts") == 0) {
        bench_count(b);
        return 0;
    }
    for (int k = 0; k < b->count; k++)
        bad |= bench_time(b, &b->jobs[k], "");
    return bad;
}
