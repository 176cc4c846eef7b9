#include <fcntl.h>
#include <stdio.h>
#include <stdlib.h>
#include <string.h>
#include <time.h>
#include <unistd.h>

/* loop COUNT RECORD REPLY: for each commit a content of 1 KiB, a record with a closed gate behind it, a sync of both files, the
   gate before the record, a sync of its file, and a reply. */
int main(int argc, char **argv) {
    static unsigned char record[4096], content[1024], reply[4096];
    long count = atol(argv[1]), length = atol(argv[2]), told = atol(argv[3]), gate = 16, end = 0;
    struct timespec from, to;
    int journal = open("1", O_RDWR | O_CREAT | O_TRUNC, 0644), contents = open("3", O_RDWR | O_CREAT | O_TRUNC, 0644);
    if (argc != 4 || length > 4096 || told > 4096 || journal < 0 || contents < 0) return 1;
    if (pwrite(journal, record, 17, 0) != 17 || fsync(journal)) return 1;
    clock_gettime(CLOCK_MONOTONIC, &from);
    for (long i = 0; i < count; i++) {
        if (pwrite(contents, content, sizeof content, end) != sizeof content) return 1;
        if (pwrite(journal, record, length, gate + 1) != length || fsync(journal) || fsync(contents)) return 1;
        if (pwrite(journal, "\1", 1, gate) != 1 || fsync(journal)) return 1;
        if (write(1, reply, told) != told) return 1;
        gate += length;
        end += sizeof content;
    }
    clock_gettime(CLOCK_MONOTONIC, &to);
    fprintf(stderr, "%lld\n", (to.tv_sec - from.tv_sec) * 1000000LL + (to.tv_nsec - from.tv_nsec) / 1000);
    return 0;
}
