// Refuses one request of the program that it is preloaded into, as the system may. refusing.py builds it, and says what to refuse:
//
// REFUSE_KIND   memory (of the C library), thread, or read, write or sync of the store's file; accept of a connection, input (a read of standard
//               input), peer (a read of a connection), or null (an opening of /dev/null)
// REFUSE_AT     which request of this kind is refused, from 1; none is where it is 0
// REFUSE_HOW    of a write: whether none, half or all of it is written before it fails. Of a read or a write also: short (it does half, and
//               says so) or interrupted (it does nothing, and is to be tried again), which a program has to bear without a word. Of an accept:
//               the number of the error. A read of standard input or of a connection is interrupted, or short, so it gives one byte
// REFUSE_MORE   where it is there: onward, so each later request of the kind is refused too, or slow, so none is, and each takes 50 ms
// REFUSE_STORE  the path of the store's file
// REFUSE_COUNT  the path of a file of 16 bytes: in the first 8 the requests of this kind are counted, over all programs that share it, and
//               the others get how many reads of the store's file the program had made before the request that is refused
#define _GNU_SOURCE
#include <dlfcn.h>
#include <errno.h>
#include <fcntl.h>
#include <pthread.h>
#include <stdarg.h>
#include <stdatomic.h>
#include <stdlib.h>
#include <string.h>
#include <sys/mman.h>
#include <sys/socket.h>
#include <sys/stat.h>
#include <sys/syscall.h>
#include <unistd.h>

extern void *__libc_malloc(size_t), *__libc_calloc(size_t, size_t), *__libc_realloc(void *, size_t), *__libc_memalign(size_t, size_t);
typedef int creates(pthread_t *, const pthread_attr_t *, void *(*)(void *), void *);

static char kind; // the first letter of REFUSE_KIND
static unsigned long at;
static const char *how, *store, *more;
static _Atomic unsigned long *count, reads;
static creates *create;

__attribute__((constructor)) static void begin(void) {
    create = (creates *)dlsym(RTLD_NEXT, "pthread_create");
    at = strtoul(getenv("REFUSE_AT"), NULL, 10);
    how = getenv("REFUSE_HOW");
    store = getenv("REFUSE_STORE");
    more = getenv("REFUSE_MORE") ? getenv("REFUSE_MORE") : "";
    int file = open(getenv("REFUSE_COUNT"), O_RDWR);
    count = mmap(NULL, 16, PROT_READ | PROT_WRITE, MAP_SHARED, file, 0);
    close(file);
    if (count != MAP_FAILED) kind = getenv("REFUSE_KIND")[0];
}

static int refused(char of) {
    if (kind != of) return 0;
    unsigned long number = atomic_fetch_add(count, 1) + 1;
    if (strcmp(more, "slow") == 0) {
        usleep(50000);
        return 0;
    }
    if (number != at && (number < at || strcmp(more, "onward") != 0)) return 0;
    count[1] = reads;
    return 1;
}
static void *no_memory(void) { errno = ENOMEM; return NULL; }
static int is(const char *word) { return strcmp(how, word) == 0; }

void *malloc(size_t size) { return refused('m') ? no_memory() : __libc_malloc(size); }
void *calloc(size_t n, size_t size) { return refused('m') ? no_memory() : __libc_calloc(n, size); }
void *realloc(void *old, size_t size) { return refused('m') ? no_memory() : __libc_realloc(old, size); }
void *memalign(size_t align, size_t size) { return refused('m') ? no_memory() : __libc_memalign(align, size); }
void *aligned_alloc(size_t align, size_t size) { return memalign(align, size); }
int posix_memalign(void **out, size_t align, size_t size) { return (*out = memalign(align, size)) ? 0 : ENOMEM; }
int pthread_create(pthread_t *thread, const pthread_attr_t *with, void *(*run)(void *), void *given) {
    return refused('t') ? EAGAIN : create(thread, with, run, given);
}

static int of_store(int file) {
    struct stat one, other;
    return kind != 0 && fstat(file, &one) == 0 && stat(store, &other) == 0 && one.st_dev == other.st_dev && one.st_ino == other.st_ino;
}

// A read or a write of which one is refused.
static ssize_t call(char of, long number, int file, void *bytes, size_t length, off_t place) {
    int is_of_store = of_store(file), is_refused = is_of_store && refused(of);
    if (is_of_store && of == 'r') reads++;
    if (!is_refused) return syscall(number, file, bytes, length, place);
    if (is("interrupted")) { errno = EINTR; return -1; }
    size_t done = is("all") ? length : is("none") ? 0 : length / 2;
    if (is("short")) return syscall(number, file, bytes, done ? done : length, place);
    if (of == 'w' && done) syscall(number, file, bytes, done, place);
    errno = EIO;
    return -1;
}

ssize_t pread(int file, void *to, size_t length, off_t place) { return call('r', SYS_pread64, file, to, length, place); }
ssize_t pread64(int file, void *to, size_t length, off_t place) { return call('r', SYS_pread64, file, to, length, place); }
ssize_t pwrite(int file, const void *of, size_t length, off_t place) { return call('w', SYS_pwrite64, file, (void *)of, length, place); }
ssize_t pwrite64(int file, const void *of, size_t length, off_t place) { return call('w', SYS_pwrite64, file, (void *)of, length, place); }

static int sync_by(long number, int file) {
    if (of_store(file) && refused('s')) { errno = EIO; return -1; }
    return syscall(number, file);
}

int accept4(int listener, struct sockaddr *of, socklen_t *length, int flags) {
    if (refused('a')) { errno = atoi(how); return -1; }
    return syscall(SYS_accept4, listener, of, length, flags);
}
// A read of standard input or of a connection is interrupted, or gives one byte.
static int is_interrupted(size_t *length) {
    if (is("short")) {
        *length = *length > 0;
        return 0;
    }
    errno = EINTR;
    return 1;
}
ssize_t read(int file, void *to, size_t length) {
    if (file == 0 && refused('i') && is_interrupted(&length)) return -1;
    return syscall(SYS_read, file, to, length);
}
ssize_t recv(int file, void *to, size_t length, int flags) {
    if (refused('p') && is_interrupted(&length)) return -1;
    return syscall(SYS_recvfrom, file, to, length, flags, NULL, NULL);
}
int open(const char *path, int flags, ...) {
    va_list rest;
    va_start(rest, flags);
    int mode = flags & O_CREAT ? va_arg(rest, int) : 0;
    va_end(rest);
    if (strcmp(path, "/dev/null") == 0 && refused('n')) { errno = EACCES; return -1; }
    return syscall(SYS_openat, AT_FDCWD, path, flags, mode);
}
int fsync(int file) { return sync_by(SYS_fsync, file); }
int fdatasync(int file) { return sync_by(SYS_fdatasync, file); }
