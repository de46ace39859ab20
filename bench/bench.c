/* The library beside the same C (fold.h) built by gcc and by clang, all three in one program: bench SAMPLES-FOLDER [--counts].

   The three sides must give the same answers. Without --counts each row is their times: they do the job by turns, and a side's
   figure is its least time over all turns, so that what else the machine does is left out. With --counts it prints nothing and is
   run under callgrind, which bench/run has collect inside the calls alone: a side's calls are dumped as a part of their own. */
#define _POSIX_C_SOURCE 199309L
#include "../include/gongperch.h"

#include <stdio.h>
#include <stdlib.h>
#include <string.h>
#include <time.h>
#include <valgrind/callgrind.h>

/* As many cycles as PERIOD are whole iterations of every sample; at cycle LATE all nodes have started. */
enum { TURNS = 301, SIDES = 3, WORDS = 1 << 15, PERIOD = 96, LATE = 1000 * PERIOD };

typedef uint32_t planning(const uint8_t *, size_t, uint8_t *, size_t, uint64_t *);
typedef uint32_t stepping(const uint8_t *, size_t, uint32_t *, size_t, const uint32_t *, size_t, uint32_t *, size_t);

planning gcc_plan, clang_plan;
stepping gcc_step, clang_step;

static planning *const plan_of[SIDES] = {gongperch_plan, gcc_plan, clang_plan};
static stepping *const step_of[SIDES] = {gongperch_step, gcc_step, clang_step};

/* A job's bytes, and what each side keeps between calls. */
struct job {
    uint8_t bytes[2048];
    size_t length;
    uint8_t plan[SIDES][GONGPERCH_PLAN_MAX];
    uint32_t memory[SIDES][WORDS], channels[GONGPERCH_CHANNELS], out[SIDES][GONGPERCH_UNITS_MAX];
};

static struct job job;

typedef void doing(int side, long calls);
typedef void measuring(const char *call, const char *name, doing *work);

static double now(void)
{
    struct timespec t;
    clock_gettime(CLOCK_MONOTONIC, &t);
    return (double)t.tv_sec + 1e-9 * (double)t.tv_nsec;
}

static void stop(const char *why, const char *name)
{
    fprintf(stderr, "bench: %s: %s\n", name, why);
    exit(1);
}

/* Both loops align their frame, so that what is called finds its stack alike whatever the environment: how many instructions a fill or
   a copy takes goes by the alignment of its ends. */
static void do_plan(int side, long calls)
{
    _Alignas(64) uint64_t written;
    for (long i = 0; i < calls; i++) {
        plan_of[side](job.bytes, job.length, job.plan[side], GONGPERCH_PLAN_MAX, &written);
    }
}

static void do_step(int side, long calls)
{
    _Alignas(64) uint32_t out[GONGPERCH_UNITS_MAX] = {0};
    for (long i = 0; i < calls; i++) {
        step_of[side](job.bytes, job.length, job.memory[side], WORDS, job.channels, GONGPERCH_CHANNELS, out, GONGPERCH_UNITS_MAX);
    }
    memcpy(job.out[side], out, sizeof out);
}

static double time_of(doing *work, int side, long calls)
{
    double begin = now();
    work(side, calls);
    return now() - begin;
}

/* Calls for turns of about a millisecond; the same number for all sides, so that they step through the same cycles. */
static long calls_for(doing *work)
{
    for (long calls = PERIOD;; calls *= 2) {
        double took = 0;
        for (int side = 0; side < SIDES; side++) {
            took += time_of(work, side, calls);
        }
        if (took > 1e-3) {
            return calls;
        }
    }
}

static void time_row(const char *call, const char *name, doing *work)
{
    double least[SIDES] = {1e9, 1e9, 1e9};
    long calls = calls_for(work);
    for (int turn = 0; turn < TURNS; turn++) {
        for (int i = 0; i < SIDES; i++) {
            int side = (turn + i) % SIDES;
            double took = time_of(work, side, calls);
            least[side] = took < least[side] ? took : least[side];
        }
    }
    printf("%-6s %-18s", call, name);
    for (int side = 0; side < SIDES; side++) {
        printf(" %10.1f", 1e9 * least[side] / (double)calls);
    }
    printf(" %8.2f\n", least[0] / (least[1] < least[2] ? least[1] : least[2]));
    fflush(stdout);
}

/* The first calls are left out: they bind what is linked at run time. */
static void count_row(const char *call, const char *name, doing *work)
{
    char part[64];
    snprintf(part, sizeof part, "%s %s %d", call, name, PERIOD);
    for (int side = 0; side < SIDES; side++) {
        work(side, PERIOD);
        CALLGRIND_ZERO_STATS;
        work(side, PERIOD);
        CALLGRIND_DUMP_STATS_AT(part);
    }
}

static void load(const char *folder, const char *name)
{
    char path[1024];
    snprintf(path, sizeof path, "%s/%s", folder, name);
    FILE *file = fopen(path, "rb");
    if (file == NULL) {
        stop("no such sample", path);
    }
    memset(&job, 0, sizeof job);
    job.length = fread(job.bytes, 1, sizeof job.bytes, file);
    fclose(file);
}

static void bench_plan(const char *folder, const char *name, measuring *measure)
{
    uint64_t written[SIDES];
    uint32_t answer[SIDES];
    load(folder, name);
    for (int side = 0; side < SIDES; side++) {
        answer[side] = plan_of[side](job.bytes, job.length, job.plan[side], GONGPERCH_PLAN_MAX, &written[side]);
        if (answer[side] != answer[0] || (answer[0] != 6 && memcmp(job.plan[side], job.plan[0], GONGPERCH_PLAN_MAX) != 0)) {
            stop("the sides plan differently", name);
        }
    }
    measure("plan", name, do_plan);
}

/* The plan in place of its sheet, and the same memory and channels for each side. */
static void prepare(const char *name)
{
    uint64_t words = 0, written = 0;
    if (job.bytes[0] == 'F') {
        if (gcc_plan(job.bytes, job.length, job.plan[0], GONGPERCH_PLAN_MAX, &written) != 0) {
            stop("no plan", name);
        }
        memcpy(job.bytes, job.plan[0], (size_t)written);
        job.length = (size_t)written;
    }
    if (gongperch_memory_words(job.bytes, job.length, &words) != 0 || words > WORDS) {
        stop("no memory for it", name);
    }
    for (int side = 0; side < SIDES; side++) {
        for (uint32_t i = 0; i < words; i++) {
            job.memory[side][i] = i == 0 ? LATE : i * 2654435761u;
        }
    }
    for (uint32_t k = 0; k < GONGPERCH_CHANNELS; k++) {
        job.channels[k] = k * 0x10000000u;
    }
}

static void bench_step(const char *folder, const char *name, measuring *measure)
{
    load(folder, name);
    prepare(name);
    measure("step", name, do_step);
    for (int side = 0; side < SIDES; side++) {
        if (memcmp(job.memory[side], job.memory[0], sizeof job.memory[0]) != 0 ||
            memcmp(job.out[side], job.out[0], sizeof job.out[0]) != 0) {
            stop("the sides step differently", name);
        }
    }
}

int main(int argc, char **argv)
{
    static const char *const sheets[] = {"biquad.sheet", "loop-of-two.sheet", "full.sheet", "mixed.sheet", "long-lines.sheet",
                                         "unfoldable.sheet"};
    static const char *const plans[] = {"biquad.sheet", "loop-of-two.sheet", "full.sheet", "mixed.sheet", "line-5000.plan",
                                        "long-lines.sheet"};
    const char *folder = argc > 1 ? argv[1] : "samples";
    measuring *measure = argc > 2 && strcmp(argv[2], "--counts") == 0 ? count_row : time_row;
    for (size_t i = 0; i < sizeof sheets / sizeof *sheets; i++) {
        bench_plan(folder, sheets[i], measure);
    }
    for (size_t i = 0; i < sizeof plans / sizeof *plans; i++) {
        bench_step(folder, plans[i], measure);
    }
    return 0;
}
