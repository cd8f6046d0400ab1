// A disk that takes its time, for bench/latency: loaded by LD_PRELOAD, it makes each call that reads or writes one
// file last as long as is said, and counts the calls. It needs no root and no other file system.
//
// Environment: LATENCY_FILE is the path of the file, which need not be there yet; LATENCY_NS how many nanoseconds a
// call takes; LATENCY_ONLY, if it is `writes`, has reads take no time; LATENCY_WAYS how many calls the disk serves at
// once, the others wait for their turn; LATENCY_NOTES a file with four numbers of 64 bits: the calls that read, those
// that wrote, and the bytes of both.
//
// A call does its work, which is a copy from or to the system's cache, while the disk's time runs. Calls that a
// program makes without the C library pass by unseen: then the numbers stay 0.
#define _GNU_SOURCE
#include <errno.h>
#include <fcntl.h>
#include <pthread.h>
#include <stdint.h>
#include <stdlib.h>
#include <string.h>
#include <sys/mman.h>
#include <sys/prctl.h>
#include <sys/stat.h>
#include <sys/syscall.h>
#include <time.h>
#include <unistd.h>

enum { MOST_WAYS = 64, SECOND = 1000000000 };

struct notes {
    uint64_t reads, writes, read_bytes, written_bytes;
};

static struct notes unnoted, *notes = &unnoted;
static const char *device = "";
static uint64_t of_a_read, of_a_write, ways = 1; // nanoseconds of a call of each kind, and how many calls at once
static uint64_t is_free[MOST_WAYS]; // when each way of the disk is done with what it was given, by `now`
static pthread_mutex_t taking = PTHREAD_MUTEX_INITIALIZER;

static const char *setting(const char *name) {
    const char *found = getenv(name);
    return found ? found : "";
}

__attribute__((constructor)) static void begin(void) {
    device = setting("LATENCY_FILE");
    of_a_write = strtoull(setting("LATENCY_NS"), NULL, 10);
    of_a_read = strcmp(setting("LATENCY_ONLY"), "writes") == 0 ? 0 : of_a_write;
    ways = strtoull(setting("LATENCY_WAYS"), NULL, 10);
    if (ways < 1 || ways > MOST_WAYS) ways = 1;
    prctl(PR_SET_TIMERSLACK, 1UL, 0UL, 0UL, 0UL); // else a wait may end 50 microseconds late; threads inherit it
    int file = open(setting("LATENCY_NOTES"), O_RDWR);
    if (file < 0) return;
    void *mapped = mmap(NULL, sizeof *notes, PROT_READ | PROT_WRITE, MAP_SHARED, file, 0);
    if (mapped != MAP_FAILED) notes = mapped;
    close(file);
}

static uint64_t now(void) {
    struct timespec time;
    clock_gettime(CLOCK_MONOTONIC, &time);
    return (uint64_t)time.tv_sec * SECOND + (uint64_t)time.tv_nsec;
}

static int is_device(int file) {
    struct stat one, other;
    return fstat(file, &one) == 0 && S_ISREG(one.st_mode) && stat(device, &other) == 0 && one.st_dev == other.st_dev &&
           one.st_ino == other.st_ino;
}

// Gives a call to the way that is free first; returns when the disk is done with it.
static uint64_t take_turn(uint64_t each) {
    uint64_t first = 0, begun = now();
    pthread_mutex_lock(&taking);
    for (uint64_t i = 1; i < ways; i++)
        if (is_free[i] < is_free[first]) first = i;
    uint64_t done = is_free[first] = (is_free[first] > begun ? is_free[first] : begun) + each;
    pthread_mutex_unlock(&taking);
    return done;
}

static void wait_until(uint64_t done) {
    struct timespec time = {(time_t)(done / SECOND), (long)(done % SECOND)};
    while (clock_nanosleep(CLOCK_MONOTONIC, TIMER_ABSTIME, &time, NULL) == EINTR) {
    }
}

// Makes a call of the system, which the device gets after its time; `calls` and `bytes` count it.
static ssize_t slowly(uint64_t each, uint64_t *calls, uint64_t *bytes, long number, int file, void *buffer, size_t size,
                      off_t at) {
    if (!is_device(file)) return syscall(number, file, buffer, size, at);
    uint64_t done = each ? take_turn(each) : 0;
    ssize_t moved = syscall(number, file, buffer, size, at);
    int error = errno;
    __atomic_fetch_add(calls, 1, __ATOMIC_RELAXED);
    if (moved > 0) __atomic_fetch_add(bytes, (uint64_t)moved, __ATOMIC_RELAXED);
    if (each) wait_until(done);
    errno = error;
    return moved;
}

static ssize_t slow_read(long number, int file, void *buffer, size_t size, off_t at) {
    return slowly(of_a_read, &notes->reads, &notes->read_bytes, number, file, buffer, size, at);
}

static ssize_t slow_write(long number, int file, const void *buffer, size_t size, off_t at) {
    return slowly(of_a_write, &notes->writes, &notes->written_bytes, number, file, (void *)buffer, size, at);
}

ssize_t read(int file, void *buffer, size_t size) { return slow_read(SYS_read, file, buffer, size, 0); }
ssize_t write(int file, const void *buffer, size_t size) { return slow_write(SYS_write, file, buffer, size, 0); }
ssize_t pread(int file, void *buffer, size_t size, off_t at) { return slow_read(SYS_pread64, file, buffer, size, at); }
ssize_t pread64(int file, void *buffer, size_t size, off_t at) { return slow_read(SYS_pread64, file, buffer, size, at); }
ssize_t pwrite(int file, const void *buffer, size_t size, off_t at) {
    return slow_write(SYS_pwrite64, file, buffer, size, at);
}
ssize_t pwrite64(int file, const void *buffer, size_t size, off_t at) {
    return slow_write(SYS_pwrite64, file, buffer, size, at);
}
