// Calls that fail, for bench/faults and bench/refuse: loaded by LD_PRELOAD, it counts the calls of one kind that a program
// makes of the C library, and lets one of them fail. It needs no root and no other file system.
//
// Environment: FAULTS_CALL is the name of the call, or `memory` for malloc and realloc, numbered together; FAULTS_NTH which
// one of its calls is to fail, from 1, or 0; FAULTS_HOW how: `fail` with the number FAULTS_ERROR as errno, `half` does half
// of what was asked, `none` does nothing and gives 0, `bit` reads of the device another bit than was written; FAULTS_DEVICE
// is the path of the device as the program is given it; FAULTS_NOTES a file with four numbers of 64 bits: how many calls
// there were, how many failed, and of the one that did on what it was (`enum place`) and at which offset.
//
// Only the program's own calls count, and not those that the C library makes of itself. Calls that a program makes
// without the C library pass by unseen: then the numbers stay 0.
#define _GNU_SOURCE
#include <dlfcn.h>
#include <errno.h>
#include <fcntl.h>
#include <link.h>
#include <pthread.h>
#include <stdarg.h>
#include <stdint.h>
#include <stdlib.h>
#include <string.h>
#include <sys/mman.h>
#include <sys/stat.h>
#include <sys/syscall.h>
#include <unistd.h>

enum place { ELSEWHERE, DEVICE, OUTPUT, REPORT, INPUT };

struct notes {
    uint64_t calls, failed, place, offset;
};

typedef int starter(pthread_t *, const pthread_attr_t *, void *(*)(void *), void *);

static struct notes unnoted, *notes = &unnoted;
static const char *chosen = "", *how = "", *device = "";
static uint64_t nth;
static int error;
static uintptr_t program_begin, program_end; // where the program's own code lies
static starter *start;

void *__libc_malloc(size_t size);
void *__libc_realloc(void *old, size_t size);

static const char *setting(const char *name) {
    const char *found = getenv(name);
    return found ? found : "";
}

// Notes where the first object lies, which is the program.
static int find_program(struct dl_phdr_info *object, size_t size, void *unused) {
    (void)size, (void)unused;
    program_begin = UINTPTR_MAX;
    for (int i = 0; i < object->dlpi_phnum; i++) {
        const ElfW(Phdr) *part = &object->dlpi_phdr[i];
        if (part->p_type != PT_LOAD) continue;
        uintptr_t begin = object->dlpi_addr + part->p_vaddr, end = begin + part->p_memsz;
        if (begin < program_begin) program_begin = begin;
        if (end > program_end) program_end = end;
    }
    return 1;
}

__attribute__((constructor)) static void begin(void) {
    start = (starter *)dlsym(RTLD_NEXT, "pthread_create");
    how = setting("FAULTS_HOW");
    device = setting("FAULTS_DEVICE");
    nth = strtoull(setting("FAULTS_NTH"), NULL, 10);
    error = atoi(setting("FAULTS_ERROR"));
    int file = (int)syscall(SYS_openat, AT_FDCWD, setting("FAULTS_NOTES"), O_RDWR);
    if (file < 0) return;
    void *mapped = mmap(NULL, sizeof *notes, PROT_READ | PROT_WRITE, MAP_SHARED, file, 0);
    if (mapped != MAP_FAILED) notes = mapped;
    syscall(SYS_close, file);
    chosen = setting("FAULTS_CALL");
    dl_iterate_phdr(find_program, NULL);
}

// Whether a call is the one that fails, by its name, and by where in the program it comes from.
static int is_it(const char *call, void *from, uint64_t place, uint64_t offset) {
    uintptr_t at = (uintptr_t)from;
    if (at < program_begin || at >= program_end || strcmp(call, chosen) != 0) return 0;
    if (strcmp(how, "bit") == 0 && place != DEVICE) return 0;
    if (__atomic_add_fetch(&notes->calls, 1, __ATOMIC_SEQ_CST) != nth) return 0;
    notes->failed = 1;
    notes->place = place;
    notes->offset = offset;
    errno = error;
    return 1;
}

static uint64_t place_of_path(const char *path) { return strcmp(path, device) == 0 ? DEVICE : ELSEWHERE; }

static uint64_t place_of(int file) {
    struct stat one, other;
    if (file == STDOUT_FILENO) return OUTPUT;
    if (file == STDERR_FILENO) return REPORT;
    if (file == STDIN_FILENO) return INPUT;
    int is_device = fstat(file, &one) == 0 && stat(device, &other) == 0 && one.st_dev == other.st_dev && one.st_ino == other.st_ino;
    return is_device ? DEVICE : ELSEWHERE;
}

// A call that moves bytes and is the one that fails.
static ssize_t move_badly(long number, int file, char *buffer, size_t size, off_t at) {
    if (strcmp(how, "half") == 0) return syscall(number, file, buffer, size > 1 ? size / 2 : size, at);
    if (strcmp(how, "none") == 0) return 0;
    if (strcmp(how, "bit") != 0) return -1;
    ssize_t moved = syscall(number, file, buffer, size, at);
    if (moved > 0) buffer[moved / 2] ^= 1;
    return moved;
}

static ssize_t move(const char *call, void *from, long number, int file, char *buffer, size_t size, off_t at) {
    if (is_it(call, from, place_of(file), (uint64_t)at)) return move_badly(number, file, buffer, size, at);
    return syscall(number, file, buffer, size, at);
}

#define FROM __builtin_return_address(0)

ssize_t write(int file, const void *buffer, size_t size) {
    return move("write", FROM, SYS_write, file, (char *)buffer, size, 0);
}

ssize_t __write(int file, const void *buffer, size_t size) {
    return move("write", FROM, SYS_write, file, (char *)buffer, size, 0);
}

ssize_t read(int file, void *buffer, size_t size) { return move("read", FROM, SYS_read, file, buffer, size, 0); }

ssize_t pread(int file, void *buffer, size_t size, off_t at) {
    return move("pread", FROM, SYS_pread64, file, buffer, size, at);
}

ssize_t pread64(int file, void *buffer, size_t size, off_t at) {
    return move("pread", FROM, SYS_pread64, file, buffer, size, at);
}

ssize_t pwrite(int file, const void *buffer, size_t size, off_t at) {
    return move("pwrite", FROM, SYS_pwrite64, file, (char *)buffer, size, at);
}

ssize_t pwrite64(int file, const void *buffer, size_t size, off_t at) {
    return move("pwrite", FROM, SYS_pwrite64, file, (char *)buffer, size, at);
}

static int open_at(void *from, int folder, const char *path, int flags, mode_t mode) {
    if (is_it("open", from, place_of_path(path), 0)) return -1;
    return (int)syscall(SYS_openat, folder, path, flags, mode);
}

// The mode behind the flags of a call that may create a file.
static mode_t mode_of(int flags, va_list words) { return flags & (O_CREAT | O_TMPFILE) ? va_arg(words, mode_t) : 0; }

#define OPENS(NAME, FOLDER, ...)                                                                                                  \
    int NAME(__VA_ARGS__ const char *path, int flags, ...) {                                                                       \
        va_list words;                                                                                                             \
        va_start(words, flags);                                                                                                    \
        mode_t mode = mode_of(flags, words);                                                                                       \
        va_end(words);                                                                                                             \
        return open_at(FROM, FOLDER, path, flags, mode);                                                                           \
    }

OPENS(open, AT_FDCWD)
OPENS(open64, AT_FDCWD)
OPENS(openat, folder, int folder, )
OPENS(openat64, folder, int folder, )

int statx(int folder, const char *restrict path, int flags, unsigned mask, struct statx *restrict into) {
    if (is_it("statx", FROM, *path ? place_of_path(path) : place_of(folder), 0)) return -1;
    return (int)syscall(SYS_statx, folder, path, flags, mask, into);
}

int ftruncate(int file, off_t size) {
    return is_it("ftruncate", FROM, place_of(file), 0) ? -1 : (int)syscall(SYS_ftruncate, file, size);
}

int ftruncate64(int file, off_t size) {
    return is_it("ftruncate", FROM, place_of(file), 0) ? -1 : (int)syscall(SYS_ftruncate, file, size);
}

int flock(int file, int operation) {
    return is_it("flock", FROM, place_of(file), 0) ? -1 : (int)syscall(SYS_flock, file, operation);
}

int fsync(int file) { return is_it("fsync", FROM, place_of(file), 0) ? -1 : (int)syscall(SYS_fsync, file); }

int fdatasync(int file) { return is_it("fsync", FROM, place_of(file), 0) ? -1 : (int)syscall(SYS_fdatasync, file); }

// A file is closed even where the call fails, as on Linux.
int close(int file) {
    int fails = is_it("close", FROM, place_of(file), 0);
    int closed = (int)syscall(SYS_close, file);
    if (!fails) return closed;
    errno = error;
    return -1;
}

// Whether an allocation is the one that fails, among those of its call or among all.
static int is_refused(const char *call, void *from) {
    return is_it(strcmp(chosen, "memory") == 0 ? chosen : call, from, ELSEWHERE, 0);
}

void *malloc(size_t size) { return is_refused("malloc", FROM) ? NULL : __libc_malloc(size); }

void *realloc(void *old, size_t size) { return is_refused("realloc", FROM) ? NULL : __libc_realloc(old, size); }

int pthread_create(pthread_t *restrict thread, const pthread_attr_t *restrict attributes, void *(*work)(void *),
                   void *restrict given) {
    return is_it("pthread_create", FROM, ELSEWHERE, 0) ? error : start(thread, attributes, work, given);
}
