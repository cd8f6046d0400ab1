/* Random operations of ppq_client.h against a sorted array, and ends. Arguments: the words of a server that spills. */
#include "ppq_client.h"

#include <stdio.h>

enum { STEPS = 3000, MANY = 100000, MOST = 400000, FEW = 60 };

struct model {
    int numbers, order;
    size_t count;
    uint64_t *records; /* sorted, the first that comes out last */
};

static uint64_t seed = 1;

static uint64_t draw(uint64_t below)
{
    seed ^= seed << 13, seed ^= seed >> 7, seed ^= seed << 17;
    return below ? (seed >> 11) % below : seed;
}

static void wrong(const char *what, int line)
{
    fprintf(stderr, "test_ppq_client.c:%d: %s\n", line, what);
    exit(1);
}

#define ASSERT(what) ((what) ? (void)0 : wrong(#what, __LINE__))

/* Whether `a` comes out before `b`. */
static int before(const struct model *of, const uint64_t *a, const uint64_t *b)
{
    for (int i = 0; i < of->numbers; i++)
        if (a[i] != b[i])
            return (a[i] < b[i]) == (of->order == PPQ_UP);
    return 0;
}

static uint64_t *place(const struct model *of, size_t at)
{
    return of->records + at * (size_t)of->numbers;
}

static void add(struct model *of, const uint64_t *record)
{
    size_t at = of->count++, bytes = (size_t)of->numbers * sizeof *record;
    for (; at && before(of, place(of, at - 1), record); at--)
        memcpy(place(of, at), place(of, at - 1), bytes);
    memcpy(place(of, at), record, bytes);
}

static int is_next(const struct model *of, const uint64_t *record)
{
    return of->count && memcmp(place(of, of->count - 1), record, (size_t)of->numbers * sizeof *record) == 0;
}

static void draw_record(const struct model *of, uint64_t *record)
{
    int small = draw(2) == 0;
    for (int i = 0; i < of->numbers; i++)
        record[i] = small ? draw(40) : draw(0);
}

/* Takes from the model what the queue gave, and compares. */
static void taken(struct model *of, const uint64_t *records, int64_t count)
{
    for (; count > 0; count--, records += of->numbers, of->count--)
        ASSERT(is_next(of, records));
}

static void step(struct ppq *queue, struct model *of)
{
    uint64_t records[3 * FEW], limit[3];
    size_t count = draw(FEW);
    int64_t got;
    int all;
    switch (draw(6)) {
    case 0:
        draw_record(of, records);
        ASSERT(ppq_push(queue, records) == 0);
        add(of, records);
        break;
    case 1:
        for (size_t i = 0; i < count; i++) {
            draw_record(of, records + i * (size_t)of->numbers);
            add(of, records + i * (size_t)of->numbers);
        }
        ASSERT(ppq_push_many(queue, records, count) == 0);
        break;
    case 2:
        got = ppq_pop(queue, records);
        ASSERT(got == (of->count > 0));
        taken(of, records, got);
        break;
    case 3:
        got = ppq_top(queue, records);
        ASSERT(got == (of->count > 0) && (!got || is_next(of, records)));
        break;
    case 4:
        got = ppq_pop_many(queue, records, count / 2);
        ASSERT(got == (int64_t)(of->count < count / 2 ? of->count : count / 2));
        taken(of, records, got);
        break;
    default:
        draw_record(of, limit);
        got = ppq_pop_below(queue, limit, records, count / 2, &all);
        ASSERT(got >= 0 && got <= (int64_t)(count / 2));
        for (int64_t i = 0; i < got; i++)
            ASSERT(before(of, records + i * of->numbers, limit));
        taken(of, records, got);
        ASSERT(all == !(of->count && before(of, place(of, of->count - 1), limit)));
        ASSERT(all || got == (int64_t)(count / 2));
    }
    ASSERT(ppq_size(queue) == of->count);
}

static const struct model *sorted; /* of what qsort sorts */

static int last_first(const void *a, const void *b)
{
    return before(sorted, (const uint64_t *)a, (const uint64_t *)b) - before(sorted, (const uint64_t *)b, (const uint64_t *)a);
}

/* Random operations, and then more records than one request holds, all of which are popped. */
static void compare(char **words, int numbers, int order)
{
    struct model of = {numbers, order, 0, NULL};
    struct ppq queue;
    uint64_t *many;
    of.records = (uint64_t *)malloc(MOST * 3 * sizeof *of.records);
    many = (uint64_t *)malloc(MOST * 3 * sizeof *many);
    if (ppq_open(&queue, words, numbers, order) < 0)
        wrong(queue.report, __LINE__);
    for (int i = 0; i < STEPS; i++)
        step(&queue, &of);
    for (size_t i = 0; i < MANY; i++) {
        draw_record(&of, many + i * (size_t)numbers);
        memcpy(place(&of, of.count++), many + i * (size_t)numbers, (size_t)numbers * sizeof *many);
    }
    ASSERT(ppq_push_many(&queue, many, MANY) == 0);
    sorted = &of;
    qsort(of.records, of.count, (size_t)numbers * sizeof *many, last_first);
    ASSERT(ppq_size(&queue) == of.count);
    {
        size_t all = of.count;
        ASSERT(ppq_pop_many(&queue, many, MOST) == (int64_t)all);
        taken(&of, many, (int64_t)all);
    }
    ASSERT(ppq_pop(&queue, many) == 0 && ppq_top(&queue, many) == 0 && ppq_size(&queue) == 0);
    ASSERT(ppq_close(&queue) == 0);
    free(of.records);
    free(many);
}

/* A server that is none, and one that ends at once. */
static void ends(void)
{
    struct ppq queue;
    char *none[] = {(char *)"/nowhere/ppq_serve", NULL}, *refuses[] = {(char *)"false", NULL};
    uint64_t record[2] = {1, 2};
    ASSERT(ppq_open(&queue, none, 2, PPQ_UP) == PPQ_ENDED && queue.status == 127 && queue.report[0]);
    ASSERT(ppq_push(&queue, record) == PPQ_ENDED && ppq_close(&queue) == PPQ_ENDED);
    ASSERT(ppq_open(&queue, refuses, 2, PPQ_UP) == PPQ_ENDED && queue.status == 1);
    ASSERT(ppq_pop(&queue, record) == PPQ_ENDED && ppq_pop_many(&queue, record, 1) == PPQ_ENDED);
    ASSERT(ppq_close(&queue) == PPQ_ENDED);
}

int main(int count, char **words)
{
    if (count < 2)
        wrong("the words of a server are missing", __LINE__);
    ends();
    for (int numbers = 2; numbers <= 3; numbers++)
        for (int order = PPQ_UP; order <= PPQ_DOWN; order++)
            compare(words + 1, numbers, order);
    return 0;
}
