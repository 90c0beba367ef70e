// Notes each write and each sync of the store's file that the program makes which it is preloaded into, so that it can be reckoned what a stop of the
// machine may leave: for archive.py.
//
// NOTE_FILE   where is noted: W, the place (8 bytes), the length (4) and the bytes of a write, before it is made; S after a sync
// NOTE_STORE  the path of the store's file
// NOTE_SYNC   the most microseconds that a sync takes, which does nothing else
#define _GNU_SOURCE
#include <dlfcn.h>
#include <fcntl.h>
#include <stdint.h>
#include <stdlib.h>
#include <string.h>
#include <sys/stat.h>
#include <sys/uio.h>
#include <unistd.h>

static int of_store(int file) {
    struct stat one, other;
    return fstat(file, &one) == 0 && stat(getenv("NOTE_STORE"), &other) == 0 && one.st_dev == other.st_dev && one.st_ino == other.st_ino;
}

static int notes(void) {
    static int file = -1;
    if (file < 0) file = open(getenv("NOTE_FILE"), O_WRONLY | O_APPEND | O_CREAT | O_CLOEXEC, 0600);
    return file;
}

ssize_t pwrite(int file, const void *bytes, size_t length, off_t place) {
    ssize_t (*real)(int, const void *, size_t, off_t) = (ssize_t (*)(int, const void *, size_t, off_t))dlsym(RTLD_NEXT, "pwrite");
    if (of_store(file)) {
        char head[13] = "W";
        uint64_t at = (uint64_t)place;
        uint32_t count = (uint32_t)length;
        memcpy(head + 1, &at, 8);
        memcpy(head + 9, &count, 4);
        struct iovec parts[2] = {{head, 13}, {(void *)bytes, length}};
        if (writev(notes(), parts, 2) != (ssize_t)(13 + length)) abort();
    }
    return real(file, bytes, length, place);
}

int fdatasync(int file) {
    if (!of_store(file)) {
        int (*real)(int) = (int (*)(int))dlsym(RTLD_NEXT, "fdatasync");
        return real(file);
    }
    usleep((useconds_t)(rand() % (1 + atoi(getenv("NOTE_SYNC")))));
    if (write(notes(), "S", 1) != 1) abort();
    return 0;
}
