/* The same work on this library and on an earlier one, in turns. See docs/PERFORMANCE.md. */
#define _POSIX_C_SOURCE 199309L
#include "fulkibono.h"
#include <stdio.h>
#include <stdlib.h>
#include <string.h>
#include <time.h>

#if !defined(BEFORE_RECORD_SIZE) || !defined(BEFORE_NEW_OLD) || !defined(BEFORE_VERSION)
#error "the earlier record's size, its header's version and the call for its old part are given by tests/benchmark/beside"
#endif
#define TURNS 41
#define LONGEST 65536

/* the earlier library's functions, renamed; before version 6 a frame and a power cut took no m */
#if BEFORE_VERSION < 6
#define EARLIER(x)
#define EARLIER_M
#define GIVEN(x)
#define GIVEN_M(m)
#else
#define EARLIER(x) , x
#define EARLIER_M , uint8_t
#define GIVEN(x) , x
#define GIVEN_M(m) , m
#endif
uint8_t BEFORE_NEW_OLD(uint8_t *, size_t);
uint8_t before_frame(uint8_t *, size_t, uint8_t *, size_t, uint8_t *, size_t, const uint8_t *, size_t, uint8_t *, size_t, uint8_t *, size_t EARLIER(fulkibono_circumstances));
uint8_t before_completion(uint8_t *, size_t, uint8_t *, size_t, uint8_t *, size_t);
uint8_t before_power_cut(uint8_t *, size_t, uint8_t *, size_t, uint8_t *, size_t, uint64_t EARLIER_M);

typedef struct {
    int earlier;
    size_t size;
    uint8_t *record, *ready, *array, *security, *reply, *marks;
} side;

static side sides[2] = {
    { 1, BEFORE_RECORD_SIZE, 0, 0, 0, 0, 0, 0 },
    { 0, FULKIBONO_RECORD_SIZE, 0, 0, 0, 0, 0, 0 },
};

/* the calls, each library's own */
static uint8_t make(side *s) { return s->earlier ? BEFORE_NEW_OLD(s->record, s->size) : fulkibono_new_old(s->record, s->size); }

static uint8_t frame(side *s, const uint8_t *sent, size_t n, size_t m)
{
    static const fulkibono_circumstances zero = { 0, 0 };
    if (s->earlier)
        return before_frame(s->record, s->size, s->array, FULKIBONO_ARRAY, s->security, FULKIBONO_SECURITY, sent, n, s->reply, m, s->marks, m GIVEN(zero));
    return fulkibono_frame(s->record, s->size, s->array, FULKIBONO_ARRAY, s->security, FULKIBONO_SECURITY, sent, n, s->reply, m, s->marks, m, zero);
}

static uint8_t completion(side *s)
{
    if (s->earlier)
        return before_completion(s->record, s->size, s->array, FULKIBONO_ARRAY, s->security, FULKIBONO_SECURITY);
    return fulkibono_completion(s->record, s->size, s->array, FULKIBONO_ARRAY, s->security, FULKIBONO_SECURITY);
}

static uint8_t power_cut(side *s, uint64_t k)
{
    if (s->earlier)
        return before_power_cut(s->record, s->size, s->array, FULKIBONO_ARRAY, s->security, FULKIBONO_SECURITY, k GIVEN_M(0));
    return fulkibono_power_cut(s->record, s->size, s->array, FULKIBONO_ARRAY, s->security, FULKIBONO_SECURITY, k, 0);
}

static void must(int right, const char *what)
{
    if (!right) {
        fprintf(stderr, "beside: %s\n", what);
        exit(1);
    }
}

static void *room(size_t n)
{
    void *p = malloc(n);
    must(p != NULL, "no memory");
    return p;
}

/* the processor's time of this program, so that other work on the machine does not count */
static double now(void)
{
    struct timespec t;
    clock_gettime(CLOCK_PROCESS_CPUTIME_ID, &t);
    return (double)t.tv_sec * 1e9 + (double)t.tv_nsec;
}

static void sends(side *s, const uint8_t *sent, size_t n, size_t m)
{
    must(frame(s, sent, n, m) == 0, "a frame was refused");
}

static void ends(side *s)
{
    must(completion(s) == 0, "a completion was refused");
}

/* ---- how a row begins: a new chip, of the old part on both sides, opened, and what it then gets */

static const uint8_t wren[] = { 0x06 }, status[] = { 0x05 }, unlock[] = { 0x98 }, suspend[] = { 0xB0 }, array_erase[] = { 0xC7 };
static const uint8_t sector[] = { 0x20, 0x02, 0x00, 0x00 }, block[] = { 0xD8, 0x02, 0x00, 0x00 };
static const uint8_t read_locks[] = { 0x42, 0xAA, 0xAA, 0, 0, 0, 0 }, ioc[] = { 0x01, 0x00, 0x02 };
static const uint8_t burst_64[] = { 0xC0, 0x03 }, burst_8[] = { 0xC0, 0x00 };
static const uint8_t page[260] = { 0x02, 0x01, 0x02, 0x00 };

static void begin(side *s, const uint8_t *sent, size_t n)
{
    sends(s, wren, 1, 0);
    sends(s, sent, n, 0);
}

static void opened(side *s)
{
    must(make(s) == 0, "no new chip");
    begin(s, unlock, 1);
}

static void enabled(side *s) { opened(s); sends(s, wren, 1, 0); }
static void locked(side *s) { opened(s); begin(s, read_locks, sizeof read_locks); }
static void erasing(side *s) { opened(s); begin(s, sector, 4); }
static void erasing_block(side *s) { opened(s); begin(s, block, 4); }
static void erasing_array(side *s) { opened(s); begin(s, array_erase, 1); }
static void suspended(side *s) { erasing_block(s); sends(s, suspend, 1, 0); }
static void with_ioc(side *s) { opened(s); begin(s, ioc, sizeof ioc); ends(s); }
static void of_64(side *s) { with_ioc(s); sends(s, burst_64, 2, 0); }
static void of_8(side *s) { with_ioc(s); sends(s, burst_8, 2, 0); }

/* ---- a turn, of n bytes where it reads */

static void a_status(side *s, size_t n) { sends(s, status, 1, n); }
static void a_wren(side *s, size_t n) { sends(s, wren, 1, n); }

static void a_read(side *s, size_t n)
{
    static const uint8_t sent[] = { 0x03, 0x02, 0x00, 0x00 };
    sends(s, sent, 4, n);
}

static void a_read_at_the_top(side *s, size_t n)
{
    static const uint8_t sent[] = { 0x03, 0x1F, 0x80, 0x00 };
    sends(s, sent, 4, n);
}

static void a_burst(side *s, size_t n)
{
    static const uint8_t sent[] = { 0xEC, 0x02, 0x00, 0x00, 0, 0, 0 };
    sends(s, sent, 7, n);
}

static void a_burst_in_the_middle(side *s, size_t n)
{
    static const uint8_t sent[] = { 0xEC, 0x02, 0x00, 0x20, 0, 0, 0 };
    sends(s, sent, 7, n);
}

static void a_page(side *s, size_t n)
{
    begin(s, page, sizeof page);
    sends(s, status, 1, n);
    ends(s);
}

static void a_sector(side *s, size_t n) { (void)n; begin(s, sector, 4); ends(s); }
static void a_block(side *s, size_t n) { (void)n; begin(s, block, 4); ends(s); }
static void an_array(side *s, size_t n) { (void)n; begin(s, array_erase, 1); ends(s); }

/* the record is put back before each turn */
static void again(side *s) { memcpy(s->record, s->ready, s->size); }
static void a_sector_enabled(side *s, size_t n) { (void)n; again(s); sends(s, sector, 4, 0); ends(s); }
static void an_end(side *s, size_t n) { (void)n; again(s); ends(s); }

static void a_cut(side *s, size_t n)
{
    (void)n;
    again(s);
    must(power_cut(s, FULKIBONO_ARRAY / 2) == 0, "a cut was refused");
}

/* mixed events, from an opened chip; what the chip refuses counts too */
static void mixed(side *s, size_t n)
{
    uint32_t seed = 12345;
    opened(s);
    for (size_t i = 0; i < n; i++) {
        seed = seed * 1664525u + 1013904223u;
        uint32_t a = seed >> 8, kind = (seed >> 3) & 15;
        uint8_t f[12] = { 0x03, (uint8_t)(a >> 16), (uint8_t)(a >> 8), (uint8_t)a, 0x11, 0x22, 0x33, 0x44, 0x55, 0x66, 0x77, 0x88 };
        size_t sent = kind < 6 ? 4 : kind < 11 ? 1 : kind < 13 ? 12 : 4, back = kind < 6 ? 64 : kind < 9 ? 1 : 0;
        f[0] = kind < 6 ? 0x03 : kind < 9 ? 0x05 : kind < 11 ? 0x06 : kind < 13 ? 0x02 : 0x20;
        if (kind < 14)
            frame(s, f, sent, back);
        else
            completion(s);
    }
}

/* the rows of the benchmark, and three more: 06, a status frame while D8 runs, a read of a sector's length past a suspended block */
#define READS(set, turn, how) \
    { "read 1, " how, set, turn, 1, 20000 }, { "read 16, " how, set, turn, 16, 20000 }, { "read 256, " how, set, turn, 256, 20000 }, \
    { "read 4096, " how, set, turn, 4096, 2000 }, { "read 65536, " how, set, turn, 65536, 200 }
static const struct {
    const char *name;
    void (*set)(side *);
    void (*turn)(side *, size_t);
    size_t n, count;
} rows[] = {
    { "status frame", opened, a_status, 1, 20000 },
    { "06", opened, a_wren, 0, 20000 },
    { "status frame while D8 runs", erasing_block, a_status, 1, 20000 },
    READS(opened, a_read, "unlocked"),
    READS(locked, a_read_at_the_top, "read-locked"),
    READS(suspended, a_read, "suspended"),
    { "read 4096, a suspended block elsewhere", suspended, a_read_at_the_top, 4096, 2000 },
    { "burst of 64", of_64, a_burst, 64, 20000 },
    { "burst of 64 from the group's middle", of_64, a_burst_in_the_middle, 64, 20000 },
    { "burst of 8, 65536 bytes", of_8, a_burst, 65536, 200 },
    { "page program: 06, 02, 05, completion", opened, a_page, 1, 4000 },
    { "sector erase: 06, 20, completion", opened, a_sector, 0, 4000 },
    { "  20, completion", enabled, a_sector_enabled, 0, 4000 },
    { "  its completion", erasing, an_end, 0, 4000 },
    { "block erase: 06, D8, completion", opened, a_block, 0, 500 },
    { "chip erase: 06, C7, completion", opened, an_array, 0, 20 },
    { "power cut in the middle of a chip erase", erasing_array, a_cut, 0, 40 },
    { "100,000 mixed events, each", opened, mixed, 100000, 1 },
};

static int order(const void *a, const void *b)
{
    double x = *(const double *)a, y = *(const double *)b;
    return (x > y) - (x < y);
}

static double median(double *t)
{
    qsort(t, TURNS, sizeof *t, order);
    return t[TURNS / 2];
}

int main(void)
{
    for (int k = 0; k < 2; k++) {
        side *s = &sides[k];
        s->record = room(s->size);
        s->ready = room(s->size);
        s->array = memset(room(FULKIBONO_ARRAY), 0xFF, FULKIBONO_ARRAY);
        s->security = memset(room(FULKIBONO_SECURITY), 0xFF, FULKIBONO_SECURITY);
        s->reply = room(LONGEST);
        s->marks = room(LONGEST);
    }
    setvbuf(stdout, NULL, _IOLBF, 0);
    printf("nanoseconds a turn, medians of %d turns\n%-40s %9s %9s %7s\n", TURNS, "work", "before", "now", "ratio");
    for (size_t i = 0; i < sizeof rows / sizeof rows[0]; i++) {
        double t[2][TURNS], ratio[TURNS];
        for (int k = 0; k < 2; k++) {
            rows[i].set(&sides[k]);
            memcpy(sides[k].ready, sides[k].record, sides[k].size);
        }
        for (int turn = 0; turn < TURNS; turn++) {
            for (int k = 0; k < 2; k++) {
                int which = (turn + k) % 2;
                double start = now();
                for (size_t j = 0; j < rows[i].count; j++)
                    rows[i].turn(&sides[which], rows[i].n);
                t[which][turn] = (now() - start) / (double)(rows[i].turn == mixed ? rows[i].n : rows[i].count);
            }
            ratio[turn] = t[1][turn] / t[0][turn];
        }
        printf("%-40s %9.1f %9.1f %7.2f\n", rows[i].name, median(t[0]), median(t[1]), median(ratio));
    }
    return 0;
}
