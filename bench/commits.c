/* Appends the frames of a journal to a new file, by the four calls of a commit each: all but the gate, a sync, the
   gate, a sync. Takes the journal and the new file, and prints how many frames there were. */
#define _GNU_SOURCE
#include <fcntl.h>
#include <stdint.h>
#include <stdio.h>
#include <stdlib.h>
#include <sys/stat.h>
#include <unistd.h>

static uint64_t number(const unsigned char *bytes) {
    uint64_t value = 0;
    for (int i = 0; i < 8; i++) value = value << 8 | bytes[i];
    return value;
}

static unsigned char *whole(const char *path, size_t *size) {
    int file = open(path, O_RDONLY);
    struct stat about;
    if (file < 0 || fstat(file, &about)) return NULL;
    unsigned char *bytes = malloc(about.st_size);
    *size = about.st_size;
    return bytes && read(file, bytes, *size) == (ssize_t)*size ? bytes : NULL;
}

/* The frame's last byte is the next gate, which is closed until the frame behind it stands. */
static int append(int file, unsigned char *bytes, size_t place, size_t size) {
    unsigned char next = bytes[place + size];
    bytes[place + size] = 0;
    int failed = pwrite(file, bytes + place + 1, size, place + 1) != (ssize_t)size || fdatasync(file) ||
                 pwrite(file, bytes + place, 1, place) != 1 || fdatasync(file);
    bytes[place + size] = next;
    return failed;
}

int main(int argc, char **argv) {
    size_t size, place = 0, count = 0;
    if (argc != 3) return 1;
    unsigned char *bytes = whole(argv[1], &size);
    int file = open(argv[2], O_RDWR | O_CREAT | O_TRUNC, 0666);
    if (!bytes || file < 0 || pwrite(file, "", 1, 0) != 1 || fsync(file)) return 1;
    /* a frame is an open gate, a length of eight bytes, so many bytes, and the gate of the next frame */
    for (; place + 9 < size && bytes[place] == 'O'; count++) {
        size_t frame = 8 + number(bytes + place + 1) + 1;
        if (append(file, bytes, place, frame)) return 1;
        place += frame;
    }
    printf("%zu\n", count);
    return 0;
}
