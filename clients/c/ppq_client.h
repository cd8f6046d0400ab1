/* A priority queue that outgrows memory, in a child process: ppq-serve, spoken to in frames (docs/serve.md).
 *
 *     char *words[] = {"ppq_serve", "--device", "queue.device", .., NULL};
 *     struct ppq queue;
 *     if (ppq_open(&queue, words, 2, PPQ_UP) < 0) return report(&queue);
 *     uint64_t record[2] = {5, 1};
 *     ppq_push(&queue, record);
 *     while (ppq_pop(&queue, record) > 0) ..
 *     if (ppq_close(&queue) < 0) return report(&queue);
 *
 * One header, for C99 and C++ on POSIX systems. A record is 2 or 3 numbers of 64 bits, and records stand in arrays one
 * behind the other; the order is that of whole records, PPQ_UP (the least first) or PPQ_DOWN. A call gives PPQ_ENDED,
 * which is -1, where the server ended: then `status` is its exit status and `report` the line that it wrote, the records
 * are gone, and each later call but ppq_close gives PPQ_ENDED again. One thread at a time may use a queue. */
#ifndef PPQ_CLIENT_H
#define PPQ_CLIENT_H

#include <errno.h>
#include <signal.h>
#include <spawn.h>
#include <stdint.h>
#include <stdlib.h>
#include <string.h>
#include <sys/socket.h>
#include <sys/types.h>
#include <sys/wait.h>
#include <fcntl.h>
#include <unistd.h>

extern char **environ;

enum {
    PPQ_ENDED = -1,
    PPQ_UP = 0,
    PPQ_DOWN = 1,
    PPQ_ROUND = 65536,    /* records that one request adds or takes at most */
    PPQ_GATHERED = 65536, /* bytes of pushes that are gathered before they are sent */
    PPQ_ANSWERS = 65536   /* bytes of answers that are read at once */
};

struct ppq {
    int requests, answers, reports; /* the ends of the pipes on this side */
    pid_t server;
    int numbers;             /* of a record: 2 or 3 */
    int status;              /* exit status of the server once it ended; 128 and more: a signal */
    char report[512];        /* the line that it wrote then */
    uint64_t size;           /* records in the server's queue, as the last answer said */
    uint64_t gathered;       /* records of pushes that were not yet sent */
    size_t filled, from, to; /* bytes of the request; the part of `answer` that was read and not yet used */
    unsigned char *request;  /* 4 bytes of length, and then operations */
    unsigned char *answer;
};

static inline void ppq_put_number(unsigned char *bytes, uint64_t number, int count)
{
    for (int i = 0; i < count; i++)
        bytes[i] = (unsigned char)(number >> 8 * (count - 1 - i));
}

static inline uint64_t ppq_number(const unsigned char *bytes, int count)
{
    uint64_t number = 0;
    for (int i = 0; i < count; i++)
        number = number << 8 | bytes[i];
    return number;
}

static inline void ppq_add_record(struct ppq *queue, const uint64_t *record)
{
    for (int i = 0; i < queue->numbers; i++, queue->filled += 8)
        ppq_put_number(queue->request + queue->filled, record[i], 8);
}

/* Closes the pipes, waits for the end of the server, and keeps its status and its report. */
static inline int ppq_wait(struct ppq *queue)
{
    size_t filled = 0;
    int status = 0;
    ssize_t count;
    if (!queue->server)
        return PPQ_ENDED;
    close(queue->requests);
    while ((count = read(queue->answers, queue->answer, PPQ_ANSWERS)) > 0 || (count < 0 && errno == EINTR))
        ;
    close(queue->answers);
    while (filled < sizeof queue->report - 1) {
        count = read(queue->reports, queue->report + filled, sizeof queue->report - 1 - filled);
        if (count <= 0 && !(count < 0 && errno == EINTR))
            break;
        filled += count > 0 ? (size_t)count : 0;
    }
    close(queue->reports);
    queue->report[filled] = 0;
    queue->report[strcspn(queue->report, "\n")] = 0;
    while (waitpid(queue->server, &status, 0) < 0 && errno == EINTR)
        ;
    queue->status = WIFEXITED(status) ? WEXITSTATUS(status) : 128 + WTERMSIG(status);
    queue->server = 0;
    free(queue->request);
    free(queue->answer);
    return PPQ_ENDED;
}

/* Sends the request that was gathered. */
static inline int ppq_send(struct ppq *queue)
{
    size_t at = 0, filled = queue->filled;
    if (!queue->server)
        return PPQ_ENDED;
    ppq_put_number(queue->request, filled - 4, 4);
    queue->filled = 4;
    queue->gathered = 0;
    while (at < filled) {
        ssize_t count = send(queue->requests, queue->request + at, filled - at, MSG_NOSIGNAL);
        if (count < 0 && errno != EINTR)
            return ppq_wait(queue);
        at += count > 0 ? (size_t)count : 0;
    }
    return 0;
}

/* The next bytes of the answer, `count` at most PPQ_ANSWERS; NULL where the server ended. They stay until the next call. */
static inline const unsigned char *ppq_take(struct ppq *queue, size_t count)
{
    const unsigned char *bytes;
    if (queue->to - queue->from < count) {
        memmove(queue->answer, queue->answer + queue->from, queue->to - queue->from);
        queue->to -= queue->from;
        queue->from = 0;
    }
    while (queue->to < count) {
        ssize_t got = read(queue->answers, queue->answer + queue->to, PPQ_ANSWERS - queue->to);
        if (got == 0 || (got < 0 && errno != EINTR)) {
            ppq_wait(queue);
            return NULL;
        }
        queue->to += got > 0 ? (size_t)got : 0;
    }
    bytes = queue->answer + queue->from;
    queue->from += count;
    return bytes;
}

/* Reads one answer: the records go to `records`, a letter to `letter`. Gives the number of records. */
static inline int64_t ppq_answer(struct ppq *queue, uint64_t *records, char *letter)
{
    int64_t count = 0;
    for (;;) {
        const unsigned char *bytes = ppq_take(queue, 4);
        uint64_t length;
        if (!bytes)
            return PPQ_ENDED;
        length = ppq_number(bytes, 4);
        bytes = ppq_take(queue, (size_t)length);
        if (!bytes)
            return PPQ_ENDED;
        if (length == 8) {
            queue->size = ppq_number(bytes, 8);
            return count;
        }
        if (length == 1) {
            *letter = (char)*bytes;
        } else {
            for (int i = 0; i < queue->numbers; i++)
                *records++ = ppq_number(bytes + 8 * i, 8);
            count++;
        }
    }
}

/* Sends the pushes that were gathered, and waits until the queue has them. Gives 0. */
static inline int ppq_flush(struct ppq *queue)
{
    char letter;
    if (queue->server && queue->filled == 4)
        return 0;
    return ppq_send(queue) < 0 || ppq_answer(queue, NULL, &letter) < 0 ? PPQ_ENDED : 0;
}

/* Starts the server that these words name, the last of them NULL, for records of 2 or 3 numbers. Gives 0. Where no process
 * can be made, `status` is 127 and `report` says why. */
static inline int ppq_open(struct ppq *queue, char *const *words, int numbers, int order)
{
    int input[2] = {-1, -1}, output[2] = {-1, -1}, error[2] = {-1, -1}, failed = 0, made = 0;
    const char *kind = numbers == 2 ? "pair" : "triple", *way = order == PPQ_UP ? "up" : "down";
    posix_spawn_file_actions_t actions;
    memset(queue, 0, sizeof *queue);
    queue->numbers = numbers;
    queue->filled = 4;
    queue->request = (unsigned char *)malloc(4 + PPQ_GATHERED + 64 + (size_t)PPQ_ROUND * 24);
    queue->answer = (unsigned char *)malloc(PPQ_ANSWERS);
    if (!queue->request || !queue->answer || socketpair(AF_UNIX, SOCK_STREAM, 0, input) < 0 || pipe(output) < 0 || pipe(error) < 0)
        failed = errno ? errno : ENOMEM;
    if (!failed)
        failed = posix_spawn_file_actions_init(&actions);
    if (!failed) {
        made = 1;
        failed = posix_spawn_file_actions_adddup2(&actions, input[1], 0);
        failed = failed ? failed : posix_spawn_file_actions_adddup2(&actions, output[1], 1);
        failed = failed ? failed : posix_spawn_file_actions_adddup2(&actions, error[1], 2);
        fcntl(input[0], F_SETFD, FD_CLOEXEC);
        fcntl(input[1], F_SETFD, FD_CLOEXEC);
        for (int i = 0; i < 2; i++) {
            fcntl(output[i], F_SETFD, FD_CLOEXEC);
            fcntl(error[i], F_SETFD, FD_CLOEXEC);
        }
        failed = failed ? failed : posix_spawnp(&queue->server, words[0], &actions, NULL, words, environ);
    }
    if (made)
        posix_spawn_file_actions_destroy(&actions);
    close(input[1]);
    close(output[1]);
    close(error[1]);
    queue->requests = input[0];
    queue->answers = output[0];
    queue->reports = error[0];
    if (failed) {
        close(input[0]);
        close(output[0]);
        close(error[0]);
        free(queue->request);
        free(queue->answer);
        queue->server = 0;
        queue->status = 127;
        strncpy(queue->report, strerror(failed), sizeof queue->report - 1);
        return PPQ_ENDED;
    }
    memcpy(queue->request + 4, "ppq-serve 1 ", 12);
    memcpy(queue->request + 16, kind, strlen(kind));
    queue->filled = 16 + strlen(kind);
    queue->request[queue->filled++] = ' ';
    memcpy(queue->request + queue->filled, way, strlen(way));
    queue->filled += strlen(way);
    return ppq_flush(queue);
}

/* Adds one record. Pushes are gathered, and sent in front of the next other request. Gives 0. */
static inline int ppq_push(struct ppq *queue, const uint64_t *record)
{
    if (!queue->server)
        return PPQ_ENDED;
    queue->request[queue->filled++] = '+';
    ppq_add_record(queue, record);
    queue->gathered++;
    return queue->filled < PPQ_GATHERED ? 0 : ppq_flush(queue);
}

/* Adds so many records. They are gathered too, and sent once they are many. Gives 0. */
static inline int ppq_push_many(struct ppq *queue, const uint64_t *records, size_t count)
{
    while (count) {
        size_t part = count < PPQ_ROUND ? count : (size_t)PPQ_ROUND;
        if (!queue->server)
            return PPQ_ENDED;
        queue->request[queue->filled] = 'P';
        ppq_put_number(queue->request + queue->filled + 1, part, 4);
        queue->filled += 5;
        queue->gathered += part;
        count -= part;
        for (; part; part--, records += queue->numbers)
            ppq_add_record(queue, records);
        if (queue->filled >= PPQ_GATHERED && ppq_flush(queue) < 0)
            return PPQ_ENDED;
    }
    return 0;
}

static inline int ppq_least(struct ppq *queue, char operation, uint64_t *record)
{
    char letter;
    if (!queue->server)
        return PPQ_ENDED;
    queue->request[queue->filled++] = (unsigned char)operation;
    return ppq_send(queue) < 0 ? PPQ_ENDED : (int)ppq_answer(queue, record, &letter);
}

/* Takes the least record: gives 1, or 0 where there is none. One round trip. */
static inline int ppq_pop(struct ppq *queue, uint64_t *record)
{
    return ppq_least(queue, 'p', record);
}

/* Looks at the least record, which stays: gives 1, or 0 where there is none. One round trip. */
static inline int ppq_top(struct ppq *queue, uint64_t *record)
{
    return ppq_least(queue, 't', record);
}

/* Takes the least `count` records, or all where there are fewer: gives how many. */
static inline int64_t ppq_pop_many(struct ppq *queue, uint64_t *records, size_t count)
{
    int64_t taken = 0;
    while (count) {
        size_t asked = count < PPQ_ROUND ? count : (size_t)PPQ_ROUND;
        char letter;
        int64_t got;
        if (!queue->server)
            return PPQ_ENDED;
        queue->request[queue->filled] = 'n';
        ppq_put_number(queue->request + queue->filled + 1, asked, 8);
        queue->filled += 9;
        if (ppq_send(queue) < 0 || (got = ppq_answer(queue, records, &letter)) < 0)
            return PPQ_ENDED;
        records += got * queue->numbers;
        taken += got;
        count = (size_t)got < asked ? 0 : count - asked;
    }
    return taken;
}

/* Takes the least `count` records, or fewer, that come before `limit`: gives how many. `*all` is 1 where no more come
 * before it, else 0. */
static inline int64_t ppq_pop_below(struct ppq *queue, const uint64_t *limit, uint64_t *records, size_t count, int *all)
{
    int64_t taken = 0;
    for (;;) {
        size_t asked = count < PPQ_ROUND ? count : (size_t)PPQ_ROUND;
        char letter = 0;
        int64_t got;
        if (!queue->server)
            return PPQ_ENDED;
        queue->request[queue->filled++] = 'b';
        ppq_add_record(queue, limit);
        ppq_put_number(queue->request + queue->filled, asked, 8);
        queue->filled += 8;
        if (ppq_send(queue) < 0 || (got = ppq_answer(queue, records, &letter)) < 0)
            return PPQ_ENDED;
        records += got * queue->numbers;
        taken += got;
        count -= asked;
        *all = letter == 'a';
        if (*all || !count)
            return taken;
    }
}

/* How many records there are. No request is sent. */
static inline uint64_t ppq_size(const struct ppq *queue)
{
    return queue->size + queue->gathered;
}

/* Sends what was gathered and ends the server. Gives 0 where its status is 0. */
static inline int ppq_close(struct ppq *queue)
{
    if (queue->server && ppq_flush(queue) == 0)
        ppq_wait(queue);
    return queue->status == 0 ? 0 : PPQ_ENDED;
}

#endif
