/* The writes and syncs of so many creates and unlinks of one name in a directory that has a block, and nothing else: what a
 * program that does no work of its own would take. Each call puts four log sectors, a sync, the head sector and a sync; where the
 * log of 1,024 sectors has no room for four more, three homes, a sync, the head sector and a sync come first. */
#include <fcntl.h>
#include <stdio.h>
#include <stdlib.h>
#include <unistd.h>

static int file;
static const char sector[512];

static void put(long s) {
    if (pwrite(file, sector, 512, 512 * s) != 512) {
        perror("floor");
        exit(1);
    }
}

static void pass(void) {
    if (fdatasync(file) != 0) {
        perror("floor");
        exit(1);
    }
}

int main(int words, char **word) {
    if (words != 3 || (file = open(word[1], O_RDWR | O_CREAT, 0644)) < 0 || ftruncate(file, 9220L * 512) != 0) {
        fputs("usage: floor IMAGE CALLS\n", stderr);
        return 1;
    }
    long tail = 0, head = 0;
    for (long call = atol(word[2]); call > 0; call--) {
        if (head + 4 > tail + 1024) {
            put(1031), put(1094), put(1095), pass(), put(2), pass();
            tail = head;
        }
        for (int i = 0; i < 4; i++)
            put(4 + head++ % 1024);
        pass(), put(2), pass();
    }
    return 0;
}
