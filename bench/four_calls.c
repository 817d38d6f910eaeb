/* The floor of an append: a write of a record, a sync, a write of its gate, a sync.
   With WORK, the processor is busy for so many microseconds before each, as a program is that makes its records; then the mean time of
   the four calls is printed, in microseconds. */
#include <fcntl.h>
#include <stdio.h>
#include <stdlib.h>
#include <string.h>
#include <sys/stat.h>
#include <time.h>
#include <unistd.h>

static void need(int done, const char *what)
{
    if (!done) {
        perror(what);
        exit(1);
    }
}

static double now(void)
{
    struct timespec time;
    clock_gettime(CLOCK_MONOTONIC, &time);
    return time.tv_sec * 1e6 + time.tv_nsec / 1e3;
}

int main(int argc, char **argv)
{
    need(argc == 4 || argc == 5, "usage: four_calls DIR COUNT LENGTH [WORK]");
    long count = atol(argv[2]), length = atol(argv[3]);
    double work = argc == 5 ? atof(argv[4]) : 0, taken = 0;
    mkdir(argv[1], 0777);
    char path[4096];
    snprintf(path, sizeof path, "%s/2.bt", argv[1]);
    int file = open(path, O_RDWR | O_CREAT | O_TRUNC, 0666);
    need(file >= 0, path);
    need(pwrite(file, "", 1, 0) == 1 && fsync(file) == 0, "gate");
    long size = 4 + length + 1, end = 0;
    unsigned char *record = malloc(size);
    for (long i = 0; i < count; i++) {
        double began = now();
        while (now() - began < work)
            ;
        began = now();
        for (int b = 0; b < 4; b++)
            record[b] = length >> (24 - 8 * b);
        memset(record + 4, 7, length);
        record[size - 1] = 0;
        need(pwrite(file, record, size, end + 1) == size && fsync(file) == 0, "record");
        need(pwrite(file, "\1", 1, end) == 1 && fsync(file) == 0, "gate");
        end += size;
        taken += now() - began;
    }
    if (argc == 5)
        printf("%.0f\n", taken / count);
    return 0;
}
