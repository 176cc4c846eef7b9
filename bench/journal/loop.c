#include <fcntl.h>
#include <stdio.h>
#include <string.h>
#include <time.h>
#include <unistd.h>

int main(void) {
    unsigned char record[205];
    struct timespec from, to;
    int file = open("1", O_RDWR | O_CREAT | O_TRUNC, 0644);
    long gate = 16;
    memset(record, 7, sizeof record);
    memcpy(record, "\0\0\0\310", 4);
    record[204] = 0;
    if (file < 0 || pwrite(file, record, 17, 0) != 17 || fsync(file)) return 1;
    clock_gettime(CLOCK_MONOTONIC, &from);
    for (int i = 0; i < 1000; i++) {
        if (pwrite(file, record, 205, gate + 1) != 205 || fsync(file)) return 1;
        if (pwrite(file, "\1", 1, gate) != 1 || fsync(file)) return 1;
        gate += 205;
    }
    clock_gettime(CLOCK_MONOTONIC, &to);
    printf("%lld\n", (to.tv_sec - from.tv_sec) * 1000000LL + (to.tv_nsec - from.tv_nsec) / 1000);
    return 0;
}
