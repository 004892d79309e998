// Kills its process at its Nth call that writes, sends, syncs or cuts a file: LD_PRELOAD=killer.so KILL_AT=N. Where KILL_HALF
// is there too, the first half of what that call was to write or send goes out before. Where KILL_FAIL names a file, nobody is
// killed: the call fails with EIO, and the file is made.
#define _GNU_SOURCE
#include <dlfcn.h>
#include <errno.h>
#include <fcntl.h>
#include <signal.h>
#include <stdatomic.h>
#include <stdlib.h>
#include <sys/socket.h>
#include <unistd.h>

static atomic_long calls;

// Whether this call is the one.
static int is_the_one(void) {
    const char *at = getenv("KILL_AT");
    return atomic_fetch_add(&calls, 1) + 1 == (at ? atol(at) : 0);
}

static size_t half_of(size_t count) { return getenv("KILL_HALF") ? count / 2 : 0; }

// Ends the process, or answers that the call has failed.
static int die(void) {
    const char *mark = getenv("KILL_FAIL");
    while (!mark) kill(getpid(), SIGKILL);
    close(open(mark, O_CREAT | O_WRONLY, 0600));
    errno = EIO;
    return -1;
}

#define REAL(result, name, ...) ((result(*)(__VA_ARGS__))dlsym(RTLD_NEXT, #name))

ssize_t write(int file, const void *octets, size_t count) {
    ssize_t (*real)(int, const void *, size_t) = REAL(ssize_t, write, int, const void *, size_t);
    if (!is_the_one()) return real(file, octets, count);
    if (half_of(count)) real(file, octets, half_of(count));
    return die();
}

ssize_t pwrite(int file, const void *octets, size_t count, off_t place) {
    ssize_t (*real)(int, const void *, size_t, off_t) = REAL(ssize_t, pwrite, int, const void *, size_t, off_t);
    if (!is_the_one()) return real(file, octets, count, place);
    if (half_of(count)) real(file, octets, half_of(count), place);
    return die();
}

ssize_t send(int socket, const void *octets, size_t count, int flags) {
    ssize_t (*real)(int, const void *, size_t, int) = REAL(ssize_t, send, int, const void *, size_t, int);
    if (!is_the_one()) return real(socket, octets, count, flags);
    if (half_of(count)) real(socket, octets, half_of(count), flags);
    return die();
}

int fsync(int file) {
    if (is_the_one()) return die();
    return REAL(int, fsync, int)(file);
}

int fdatasync(int file) {
    if (is_the_one()) return die();
    return REAL(int, fdatasync, int)(file);
}

int ftruncate(int file, off_t length) {
    if (is_the_one()) return die();
    return REAL(int, ftruncate, int, off_t)(file, length);
}
