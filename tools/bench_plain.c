/* The same test as the library's, in plain C, written from docs/: for tools/bench only.
 *
 * It reads the image, judges the train alone and then admits the tasks one by one. A verdict is the
 * busy period, by going from 1 to ready(1) and on until nothing changes, and then the walk from the last
 * mark below it. Numbers are 64 bits wide. It is not proved, and nothing but the benchmark uses it.
 *
 * The tasks stand one after another, without gaps. With -DCHANNELS they stand in 64 channels, as in a
 * task table of the library, and every question goes through all of these.
 */
#include <stdint.h>
#include <string.h>

#include "bench_plain.h"

#define LONGEST 100000000u
#define CUT ((uint64_t)1 << 40)
#define LIMIT 4096u

struct task {
    uint64_t cost, period, start, jitter, section; /* start: deadline - jitter, the first mark */
};

#ifdef CHANNELS
#define PLACES(plan) ((size_t)64)
#define EMPTY(task) ((task)->cost == 0)
#define PLACE(at, channel) (channel)
#else
#define PLACES(plan) (plan)->task_count
#define EMPTY(task) 0
#define PLACE(at, channel) ((void)(channel), (at))
#endif

struct frame {
    uint64_t cost, deadline, gap;
};

struct plan {
    struct task tasks[64];
    struct frame frames[16];
    size_t task_count, frame_count;
    uint64_t cycle;
};

/* -------------------------------------------------------------- amounts */

static uint64_t smaller(uint64_t a, uint64_t b)
{
    return a < b ? a : b;
}

static uint64_t train_due(const struct plan *p, uint64_t t)
{
    uint64_t most = 0;
    for (size_t first = 0; first < p->frame_count; first++) {
        uint64_t off = 0, sum = 0;
        for (size_t n = 0; n < p->frame_count; n++) {
            const struct frame *f = &p->frames[first + n < p->frame_count ? first + n : first + n - p->frame_count];
            if (off + f->deadline <= t)
                sum += f->cost * (1 + (t - off - f->deadline) / p->cycle);
            off += f->gap;
        }
        if (sum > most)
            most = sum;
    }
    return most;
}

static uint64_t train_ready(const struct plan *p, uint64_t s)
{
    uint64_t most = 0;
    for (size_t first = 0; first < p->frame_count; first++) {
        uint64_t off = 0, sum = 0;
        for (size_t n = 0; n < p->frame_count; n++) {
            const struct frame *f = &p->frames[first + n < p->frame_count ? first + n : first + n - p->frame_count];
            if (off < s)
                sum += f->cost * ((s - off + p->cycle - 1) / p->cycle);
            off += f->gap;
        }
        if (sum > most)
            most = sum;
    }
    return most;
}

static uint64_t due(const struct plan *p, uint64_t t)
{
    uint64_t sum = train_due(p, t);
    for (size_t n = 0; n < PLACES(p); n++) {
        const struct task *k = &p->tasks[n];
        if (!EMPTY(k) && k->start <= t)
            sum += k->cost * (1 + (t - k->start) / k->period);
    }
    return smaller(sum, CUT);
}

static uint64_t held(const struct plan *p, uint64_t t)
{
    uint64_t longest = 0;
    for (size_t n = 0; n < PLACES(p); n++) {
        const struct task *k = &p->tasks[n];
        if (!EMPTY(k) && k->start > t && k->section > longest)
            longest = k->section;
    }
    return longest;
}

static uint64_t ready(const struct plan *p, uint64_t s)
{
    uint64_t sum = train_ready(p, s);
    for (size_t n = 0; n < PLACES(p); n++) {
        const struct task *k = &p->tasks[n];
        if (!EMPTY(k))
            sum += k->cost * ((s + k->jitter + k->period - 1) / k->period);
    }
    return smaller(sum, CUT);
}

/* The last mark below t, or 0 where there is none: marks are 1 or more. */
static uint64_t last_mark(const struct plan *p, uint64_t t)
{
    uint64_t last = 0;
    for (size_t n = 0; n < PLACES(p); n++) {
        const struct task *k = &p->tasks[n];
        if (!EMPTY(k) && k->start < t) {
            uint64_t mark = t - 1 - (t - 1 - k->start) % k->period;
            if (mark > last)
                last = mark;
        }
    }
    for (size_t first = 0; first < p->frame_count; first++) {
        uint64_t off = 0;
        for (size_t n = 0; n < p->frame_count; n++) {
            const struct frame *f = &p->frames[first + n < p->frame_count ? first + n : first + n - p->frame_count];
            if (off + f->deadline < t) {
                uint64_t mark = t - 1 - (t - 1 - off - f->deadline) % p->cycle;
                if (mark > last)
                    last = mark;
            }
            off += f->gap;
        }
    }
    return last;
}

/* -------------------------------------------------------------- verdict */

/* 0, 10 or 11. */
static uint32_t judge(const struct plan *p)
{
    uint64_t w = ready(p, 1) == 0 ? 0 : 1;
    while (w > 0) {
        uint64_t next = ready(p, w);
        if (next == w)
            break;
        if (next > LONGEST)
            return 10;
        w = next;
    }
    uint64_t t = last_mark(p, w);
    while (t > 0) {
        uint64_t claim = due(p, t);
        if (claim != 0)
            claim += held(p, t);
        if (claim > t)
            return 11;
        t = claim < t ? claim : last_mark(p, t);
    }
    return 0;
}

/* -------------------------------------------------------------- image */

static uint64_t number(const uint8_t *bytes, size_t width)
{
    uint64_t value = 0;
    while (width-- > 0)
        value = value << 8 | *bytes++;
    return value;
}

static int good_label(const uint8_t *label)
{
    size_t n = 0;
    while (n < 16 && label[n] >= 0x21 && label[n] <= 0x7E)
        n++;
    if (n == 0)
        return 0;
    while (n < 16 && label[n] == 0)
        n++;
    return n == 16;
}

static uint32_t bad_numbers(uint64_t cost, uint64_t period, uint64_t deadline)
{
    if (cost < 1 || cost > 10000000)
        return 1;
    if (period < 1 || period > 10000000)
        return 2;
    if (deadline < 1 || deadline > 100000000)
        return 3;
    return 0;
}

uint32_t plain_check(const uint8_t *image, size_t length)
{
    struct task tasks[64];
    uint8_t channels[64];
    struct plan p;
    size_t at = 0, task_count = 0;
    int last = -1;
    uint32_t bad;
    if (length > LIMIT)
        length = LIMIT;
    p.task_count = p.frame_count = 0;
    p.cycle = 0;
    if (PLACES(&p) > 0)
        memset(p.tasks, 0, sizeof p.tasks);
    for (;;) {
        const uint8_t *r = image + at;
        size_t left = length - at;
        if (left < 2)
            return 13;
        if (memcmp(r, "TK", 2) == 0) {
            if (left < 37)
                return 13;
            if (!good_label(r + 2))
                return 15;
            if (r[18] > 63)
                return 7;
            if (r[18] <= last || p.frame_count > 0)
                return 16;
            uint64_t cost = number(r + 19, 4), period = number(r + 23, 4), deadline = number(r + 27, 4);
            uint64_t jitter = number(r + 31, 4), section = number(r + 35, 2);
            if ((bad = bad_numbers(cost, period, deadline)) != 0)
                return bad;
            if (jitter >= period || jitter >= deadline)
                return 4;
            if (section > cost)
                return 5;
            last = r[18];
            channels[task_count] = r[18]; /* above that of the task before, so every task fits */
            tasks[task_count++] = (struct task){cost, period, deadline - jitter, jitter, section};
            at += 37;
        } else if (memcmp(r, "RF", 2) == 0) {
            if (left < 14)
                return 13;
            if (p.frame_count == 16)
                return 6;
            uint64_t cost = number(r + 2, 4), deadline = number(r + 6, 4), gap = number(r + 10, 4);
            if ((bad = bad_numbers(cost, gap, deadline)) != 0)
                return bad;
            p.frames[p.frame_count++] = (struct frame){cost, deadline, gap};
            p.cycle += gap;
            at += 14;
        } else if (memcmp(r, "EN", 2) == 0) {
            if (left > 2)
                return 14;
            break;
        } else {
            return 12;
        }
    }
    if ((bad = judge(&p)) != 0)
        return bad;
    for (size_t n = 0; n < task_count; n++) {
        p.tasks[PLACE(n, channels[n])] = tasks[n];
        p.task_count++;
        if ((bad = judge(&p)) != 0)
            return bad;
    }
    return 0;
}
