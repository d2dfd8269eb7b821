/* What commits.c and bare.c share: numbers that are drawn, times, and what is written meanwhile. */

#include <stdint.h>
#include <stdio.h>
#include <stdlib.h>
#include <time.h>
#include <unistd.h>

static uint64_t draws;

static int draw(int below) {
    draws = draws * 6364136223846793005u + 1442695040888963407u;
    return (int)((draws >> 33) % (uint64_t)below);
}

/* The process that serves the image, or 0. */
static int server(void) {
    char path[64];
    int process = 0;
    snprintf(path, sizeof path, "/proc/self/task/%d/children", (int)getpid());
    FILE *file = fopen(path, "r");
    if (!file) exit(2);
    if (fscanf(file, "%d", &process) != 1) process = 0;
    fclose(file);
    return process;
}

/* How many bytes a process has given to the system. */
static long long written_by(int process) {
    char path[64], line[100];
    long long number = 0;
    snprintf(path, sizeof path, "/proc/%d/io", process);
    FILE *file = fopen(path, "r");
    if (!file) exit(2);
    while (fgets(line, sizeof line, file) && sscanf(line, "wchar: %lld", &number) != 1) continue;
    fclose(file);
    return number;
}

/* The same of this process and the one that serves the image. */
static long long read_written(void) {
    int process = server();
    return written_by((int)getpid()) + (process ? written_by(process) : 0);
}

static double now(void) {
    struct timespec time;
    clock_gettime(CLOCK_MONOTONIC, &time);
    return (double)time.tv_sec * 1e6 + (double)time.tv_nsec / 1e3;
}

/* What so many commits took, and the bytes that were written before them. */
struct measured {
    double *taken;
    int count;
    long long written;
};

static void begin_measuring(struct measured *it, int count) {
    it->taken = malloc((size_t)count * sizeof *it->taken);
    if (!it->taken) exit(2);
    it->count = 0;
    it->written = read_written();
}

static void add_time(struct measured *it, double time) {
    it->taken[it->count++] = time;
}

/* Says the time of each, and the bytes that were written for all. */
static void end_measuring(struct measured *it) {
    long long written = read_written() - it->written;
    for (int i = 0; i < it->count; i++) printf("%.1f\n", it->taken[i]);
    printf("written %lld\n", written);
    free(it->taken);
}
