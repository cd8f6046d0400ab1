// Runs a command and notes in a file what it cost: seconds, processor seconds, the most KiB that were resident,
// the bytes that it wrote and read by system calls, and its status.
//
// It is a process of its own since the memory of a process counts as that of a program that it starts.
//
// Words: FILE COMMAND..
#include <chrono>
#include <cstdio>
#include <cstring>
#include <sys/resource.h>
#include <sys/wait.h>
#include <unistd.h>

static double seconds(const timeval &time) { return time.tv_sec + time.tv_usec * 1e-6; }

// The bytes that a process which has ended, but was not waited for, wrote and read.
static void transferred(pid_t process, unsigned long long &wrote, unsigned long long &read) {
    char line[256];
    std::snprintf(line, sizeof line, "/proc/%d/io", process);
    FILE *counts = std::fopen(line, "r");
    if (!counts) return;
    while (std::fgets(line, sizeof line, counts)) {
        std::sscanf(line, "wchar: %llu", &wrote);
        std::sscanf(line, "rchar: %llu", &read);
    }
    std::fclose(counts);
}

int main(int argc, char **argv) {
    if (argc < 3) return 2;
    auto begin = std::chrono::steady_clock::now();
    pid_t process = fork();
    if (process == 0) {
        execvp(argv[2], argv + 2);
        _exit(127);
    }
    siginfo_t ended;
    if (process < 0 || waitid(P_PID, process, &ended, WEXITED | WNOWAIT) != 0) return 1;
    double took = std::chrono::duration<double>(std::chrono::steady_clock::now() - begin).count();
    unsigned long long wrote = 0, read = 0;
    transferred(process, wrote, read);
    int status;
    rusage used;
    wait4(process, &status, 0, &used);
    FILE *notes = std::fopen(argv[1], "w");
    if (!notes) return 1;
    std::fprintf(notes, "%f %f %ld %llu %llu %d\n", took, seconds(used.ru_utime) + seconds(used.ru_stime), used.ru_maxrss,
                 wrote, read, WIFEXITED(status) ? WEXITSTATUS(status) : 128 + WTERMSIG(status));
    std::fclose(notes);
}
