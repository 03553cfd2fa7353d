// Times a program that answers each line by a line, over two pipes: ping DATA ROUNDS PROGRAM WORDS...
// First it hands over the file DATA, then ROUNDS readings, one after the other's answer. It prints the median and the
// time below which 99 of 100 are, in µs.
#include <stdio.h>
#include <stdlib.h>
#include <string.h>
#include <time.h>
#include <unistd.h>

static double now_us(void) {
    struct timespec at;
    clock_gettime(CLOCK_MONOTONIC, &at);
    return 1e6 * (double)at.tv_sec + 1e-3 * (double)at.tv_nsec;
}

static int in_order(const void *one, const void *other) {
    double first = *(const double *)one, second = *(const double *)other;
    return (first > second) - (first < second);
}

static void write_all(int to, const char *bytes, size_t length) {
    for (size_t done = 0; done < length;) {
        ssize_t count = write(to, bytes + done, length - done);
        if (count <= 0) exit(1);
        done += (size_t)count;
    }
}

int main(int count, char **words) {
    static char data[1 << 16], answer[4096], line[128];
    int to[2], from[2];
    FILE *file = count > 3 ? fopen(words[1], "r") : NULL;
    if (!file || pipe(to) || pipe(from)) return 2;
    size_t length = fread(data, 1, sizeof data, file);
    long rounds = atol(words[2]);
    double *times = malloc((size_t)rounds * sizeof *times);
    if (!fork()) {
        dup2(to[0], 0);
        dup2(from[1], 1);
        close(to[1]);
        close(from[0]);
        execv(words[3], words + 3);
        _exit(127);
    }
    close(to[0]);
    close(from[1]);
    write_all(to[1], data, length);
    for (long round = 0; round < rounds; round++) {
        int bytes = snprintf(line, sizeof line, "read,%ld,500000,499000,501000,20000,0,100\n", round);
        double began = now_us();
        write_all(to[1], line, (size_t)bytes);
        for (char last = 0; last != '\n';) {
            ssize_t got = read(from[0], answer, sizeof answer);
            if (got <= 0) return 1;
            last = answer[got - 1];
        }
        times[round] = now_us() - began;
    }
    qsort(times, (size_t)rounds, sizeof *times, in_order);
    printf("%.1f %.1f\n", times[rounds / 2], times[rounds * 99 / 100]);
    return 0;
}
