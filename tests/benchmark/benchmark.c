/* The benchmark: this library, a plain per-byte model and the limit, side by side on the same work. See docs/PERFORMANCE.md. */
#define _POSIX_C_SOURCE 199309L
#include "fulkibono.h"
#include <stdio.h>
#include <stdlib.h>
#include <string.h>
#include <time.h>

#define REPEATS 3
#define SLICES 25 /* of a row's work, in a repeat */
#define RUNS 7    /* of the mixed events, in a repeat */
#define LONGEST 65536

static uint8_t array[FULKIBONO_ARRAY], security[FULKIBONO_SECURITY];
static uint8_t reply[LONGEST], marks[LONGEST], frame[LONGEST];
static fulkibono_record chip;
static volatile uint64_t sink;

/* the processor's time of this program, so that other work on the machine does not count */
static double now(void)
{
    struct timespec t;
    clock_gettime(CLOCK_PROCESS_CPUTIME_ID, &t);
    return (double)t.tv_sec * 1e9 + (double)t.tv_nsec;
}

static uint8_t send(const uint8_t *sent, size_t n, size_t m)
{
    return fulkibono_send(&chip, array, security, sent, n, reply, marks, m);
}

static void must(int right, const char *what)
{
    if (!right) {
        fprintf(stderr, "benchmark: %s\n", what);
        exit(1);
    }
}

/* ---- the per-byte model, in the style of emulators: a state machine, one byte a call, no checks */

static struct {
    int state, opcode, count;
    uint32_t address;
    uint8_t status, buffer[256], page_set[256];
    uint64_t locks;
} plain;

static void plain_select(void)
{
    plain.state = 0;
    plain.count = 0;
    plain.address = 0;
}

static uint8_t plain_read_byte(void)
{
    uint32_t a = plain.address;
    plain.address = (a + 1) & (FULKIBONO_ARRAY - 1);
    return array[a];
}

/* one byte out, one byte in; not inlined, as in a bus of devices that are called through a pointer */
static uint8_t plain_byte(uint8_t in)
{
    switch (plain.state) {
    case 0:
        plain.opcode = in;
        switch (in) {
        case 0x05: plain.state = 1; break;
        case 0x03: case 0x02: case 0x20: case 0xD8: plain.state = 2; break;
        case 0x06: plain.status |= 2; break;
        case 0xC7: plain.status |= 1; plain.state = 5; break;
        default: break;
        }
        return 0xFF;
    case 1:
        return plain.status;
    case 2:
        plain.address = (plain.address << 8) | in;
        if (++plain.count == 3) {
            plain.address &= FULKIBONO_ARRAY - 1;
            plain.state = plain.opcode == 0x03 ? 3 : plain.opcode == 0x02 ? 4 : 5;
            if (plain.state != 3)
                plain.status |= 1;
        }
        return 0xFF;
    case 3:
        return plain_read_byte();
    case 4:
        plain.buffer[plain.address & 255] = in;
        plain.page_set[plain.address & 255] = 1;
        plain.address = (plain.address & ~255u) | ((plain.address + 1) & 255);
        return 0xFF;
    default:
        return 0xFF;
    }
}
static uint8_t (*volatile plain_call)(uint8_t) = plain_byte;

static void plain_frame(const uint8_t *sent, size_t n, uint8_t *out, size_t m)
{
    plain_select();
    for (size_t i = 0; i < n; i++)
        plain_call(sent[i]);
    for (size_t i = 0; i < m; i++)
        out[i] = plain_call(0);
}

static void plain_complete(void)
{
    uint32_t a = plain.address;
    size_t n = plain.opcode == 0x20 ? 4096 : plain.opcode == 0xD8 ? 65536 : plain.opcode == 0xC7 ? FULKIBONO_ARRAY : 0;
    if (plain.opcode == 0x02) {
        for (int i = 0; i < 256; i++)
            if (plain.page_set[i])
                array[(a & ~255u) | (uint32_t)i] &= plain.buffer[i];
        memset(plain.page_set, 0, sizeof plain.page_set);
    } else {
        a &= ~(uint32_t)(n - 1);
        if (plain.opcode == 0xC7)
            a = 0;
        for (size_t i = 0; i < n; i++) {
            /* volatile, so that the loop stays a loop over bytes */
            volatile uint8_t *p = &array[a + i];
            *p = 0xFF;
        }
    }
    plain.status = 0;
}

/* ---- the floor of a status frame: the record in and out, its buffer scanned once */

static fulkibono_record other;
static void floor_frame(void)
{
    fulkibono_record c;
    uint8_t differs = 0;
    memcpy(&c, &chip, sizeof c);
    __asm__ volatile("" : : "r"(&c) : "memory");
    for (int i = FULKIBONO_PLACE_PAGE; i < FULKIBONO_PLACE_PROTECTION; i++)
        differs |= (uint8_t)(c.bytes[i] ^ 255);
    __asm__ volatile("" : : "r"(&c), "r"(differs) : "memory");
    memcpy(&other, &c, sizeof c);
    __asm__ volatile("" : : "r"(&other) : "memory");
}

/* ---- measuring: nanoseconds for each turn, the median of three repeats. In a repeat the things compared take turns, a slice of the work
 * each, so that a machine that slows down slows them all; a ratio is the median of the repeats' ratios. */

typedef void job(void);

static double once(job *f, long turns)
{
    double t = now();
    for (long i = 0; i < turns; i++)
        f();
    return now() - t;
}

static double median(const double *x)
{
    double a = x[0], b = x[1], c = x[2];
    return a < b ? (b < c ? b : a < c ? c : a) : (a < c ? a : b < c ? c : b);
}

struct row { const char *what; job *ours, *plain, *limit; long turns; double to_plain, to_limit; };

/* ---- the work */

static size_t wanted;
static uint32_t from;

static void read_ours(void)
{
    const uint8_t sent[] = { 0x03, (uint8_t)(from >> 16), (uint8_t)(from >> 8), (uint8_t)from };
    uint8_t n = send(sent, 4, wanted);
    sink += (uint64_t)n + reply[0];
}
/* the same of a chip with nothing suspended */
static fulkibono_record unlocked;
static void read_unlocked(void)
{
    const uint8_t sent[] = { 0x03, (uint8_t)(from >> 16), (uint8_t)(from >> 8), (uint8_t)from };
    uint8_t n = fulkibono_send(&unlocked, array, security, sent, 4, reply, marks, wanted);
    sink += (uint64_t)n + reply[0];
}
static void read_plain(void)
{
    const uint8_t sent[] = { 0x03, (uint8_t)(from >> 16), (uint8_t)(from >> 8), (uint8_t)from };
    plain_frame(sent, 4, reply, wanted);
    sink += reply[0];
}
static void read_limit(void)
{
    memcpy(reply, array + (from + wanted > FULKIBONO_ARRAY ? 0 : from), wanted);
    memset(marks, 1, wanted);
    __asm__ volatile("" : : "r"(reply), "r"(marks) : "memory");
}
/* a burst read: the length in force is the record's */
static void burst_ours(void)
{
    const uint8_t sent[] = { 0xEC, (uint8_t)(from >> 16), (uint8_t)(from >> 8), (uint8_t)from, 0, 0, 0 };
    uint8_t n = send(sent, 7, wanted);
    sink += (uint64_t)n + reply[0];
}
static const uint8_t s05[] = { 0x05 }, s06[] = { 0x06 }, s98[] = { 0x98 }, sB0[] = { 0xB0 }, sC7[] = { 0xC7 };
static void status_ours(void) { send(s05, 1, 1); sink += reply[0]; }
static void status_plain(void) { plain_frame(s05, 1, reply, 1); sink += reply[0]; }
static void status_limit(void) { floor_frame(); }

static void page_ours(void)
{
    frame[0] = 0x02; frame[1] = 1; frame[2] = 2; frame[3] = 0;
    send(s06, 1, 0);
    send(frame, 260, 0);
    send(s05, 1, 1);
    fulkibono_complete(&chip, array, security);
}
static void page_plain(void)
{
    frame[0] = 0x02; frame[1] = 1; frame[2] = 2; frame[3] = 0;
    plain_frame(s06, 1, reply, 0);
    plain_frame(frame, 260, reply, 0);
    plain_frame(s05, 1, reply, 1);
    plain_complete();
}
static void page_limit(void) { for (int i = 0; i < 4; i++) status_ours(); }

static uint8_t erase[4];
static size_t erase_n, erase_len;
static void erase_ours(void)
{
    send(s06, 1, 0);
    must(send(erase, erase_n, 0) == 0, "erase refused");
    fulkibono_complete(&chip, array, security);
}
static void erase_plain(void)
{
    plain_frame(s06, 1, reply, 0);
    plain_frame(erase, erase_n, reply, 0);
    plain_complete();
}
static void erase_limit(void)
{
    memset(array + from, 0xFF, erase_len);
    __asm__ volatile("" : : "r"(array) : "memory");
}
/* for the bars: the command and its completion, and the completion alone; the record is put back before each turn */
static fulkibono_record ready;
static void enabled_ours(void)
{
    chip = ready;
    must(send(erase, erase_n, 0) == 0, "erase refused");
    fulkibono_complete(&chip, array, security);
}
static void finish_ours(void)
{
    chip = ready;
    fulkibono_complete(&chip, array, security);
}
static void finish_limit(void)
{
    chip = ready;
    erase_limit();
}
static void finish_and_status(void)
{
    finish_limit();
    status_ours();
}
static uint64_t cut_at;
static void cut_ours(void)
{
    chip = ready;
    fulkibono_cut(&chip, array, security, cut_at, fulkibono_clean_m(&chip));
}
static void cut_limit(void)
{
    chip = ready;
    memset(array, 0xFF, cut_at);
    __asm__ volatile("" : : "r"(array) : "memory");
}

/* an image file written and read; the limit: a memcpy of as many bytes, and one pass that sums them */
static uint8_t image[FULKIBONO_IMAGE], copied[FULKIBONO_IMAGE];
static void image_write_ours(void) { must(fulkibono_write_image(&chip, array, security, image) == 0, "image not written"); }
static void image_read_ours(void) { must(fulkibono_read_image(image, &chip, array, security) == 0, "image not read"); }
static void image_limit(void)
{
    uint16_t s = 0;
    memcpy(copied, image, FULKIBONO_IMAGE);
    __asm__ volatile("" : : "r"(copied) : "memory");
    for (size_t i = 0; i < FULKIBONO_IMAGE; i++)
        s = (uint16_t)(s + image[i]);
    sink += s;
}

/* the same with a pass that the C compiler makes wide too, as the library's is: no bar, but what the image really costs beside its memory */
#if defined(__GNUC__) && !defined(__clang__)
__attribute__((optimize("O3")))
#endif
static uint16_t wide_sum(void)
{
    uint16_t s = 0;
    for (size_t i = 0; i < FULKIBONO_IMAGE; i++)
        s = (uint16_t)(s + image[i]);
    return s;
}
static void image_wide_limit(void)
{
    memcpy(copied, image, FULKIBONO_IMAGE);
    __asm__ volatile("" : : "r"(copied) : "memory");
    sink += wide_sum();
}

/* ---- the station list, half full: stations 0 to 1,023 in the first 1,024 slots. A lookup beside the read that it needs and one pass over the slots; a store
 * beside a lookup and the frames and completions of its writes */

#define HALF (FULKIBONO_STATION_SLOTS / 2)
static fulkibono_station_buffers stations;
static uint8_t station_data[FULKIBONO_STATION_DATA];
static uint16_t station;
static const uint64_t at_once[] = { 1, 1, 1 };

static void find_ours(void)
{
    uint8_t n = fulkibono_find(&chip, array, security, &stations, station, station_data);
    sink += (uint64_t)n + station_data[0];
}

static
#if defined(__GNUC__)
__attribute__((noinline))
#endif
size_t pass(const uint8_t *list, uint16_t n)
{
    size_t i;
    for (i = 0; i < FULKIBONO_STATION_SLOTS; i++) {
        const uint8_t *p = list + i * FULKIBONO_STATION_SLOT;
        if (p[0] == 0x53 && p[1] == 0x54 && (p[2] << 8 | p[3]) == n)
            break;
    }
    return i;
}
static void find_limit(void)
{
    static const uint8_t read[] = { 0x03, 0x01, 0x00, 0x00 };
    uint8_t n = fulkibono_send(&chip, array, security, read, 4, stations.reply, stations.marks, FULKIBONO_STATION_LIST);
    size_t i = pass(stations.reply, station);
    if (i < FULKIBONO_STATION_SLOTS)
        memcpy(station_data, stations.reply + i * FULKIBONO_STATION_SLOT + 4, FULKIBONO_STATION_DATA);
    sink += (uint64_t)n + station_data[0];
}
/* the read alone */
static void list_read(void)
{
    static const uint8_t read[] = { 0x03, 0x01, 0x00, 0x00 };
    sink += fulkibono_send(&chip, array, security, read, 4, stations.reply, stations.marks, FULKIBONO_STATION_LIST);
}

static void put_station(size_t slot, uint16_t n)
{
    uint8_t *p = array + FULKIBONO_STATION_START + slot * FULKIBONO_STATION_SLOT;
    memset(p, (int)(n % 251), FULKIBONO_STATION_SLOT);
    p[0] = 0x53;
    p[1] = 0x54;
    p[2] = (uint8_t)(n >> 8);
    p[3] = (uint8_t)n;
}
/* the list as it was before a store: the slot after the half empty, the mark of the half's last slot there */
static void list_again(void)
{
    uint8_t *p = array + FULKIBONO_STATION_START + HALF * FULKIBONO_STATION_SLOT;
    memset(p, 0xFF, FULKIBONO_STATION_SLOT);
    p[-FULKIBONO_STATION_SLOT] = 0x53;
    p[1 - FULKIBONO_STATION_SLOT] = 0x54;
}
static uint8_t store_number;
static void store_ours(void)
{
    fulkibono_stored s = fulkibono_store(&chip, array, security, &stations, station, station_data, 1, at_once, 3);
    store_number = s.number;
    sink += s.polls;
    list_again();
}
/* 06, the 02, the completion, 05 */
static void station_write(size_t place, const uint8_t *bytes, size_t n)
{
    uint8_t f[34], status, mark;
    f[0] = 0x02; f[1] = 0x01; f[2] = (uint8_t)(place >> 8); f[3] = (uint8_t)place;
    memcpy(f + 4, bytes, n);
    fulkibono_send(&chip, array, security, s06, 1, &status, &mark, 1);
    fulkibono_send(&chip, array, security, f, 4 + n, &status, &mark, 1);
    fulkibono_complete(&chip, array, security);
    fulkibono_send(&chip, array, security, s05, 1, &status, &mark, 1);
    sink += status;
}
static void store_frames(void)
{
    static const uint8_t mark[] = { 0x53, 0x54 }, cleared[] = { 0x00, 0x00 };
    uint8_t record[2 + FULKIBONO_STATION_DATA];
    record[0] = (uint8_t)(station >> 8);
    record[1] = (uint8_t)station;
    memcpy(record + 2, station_data, FULKIBONO_STATION_DATA);
    station_write(HALF * FULKIBONO_STATION_SLOT + 2, record, sizeof record);
    station_write(HALF * FULKIBONO_STATION_SLOT, mark, 2);
    if (station < HALF)
        station_write((HALF - 1) * FULKIBONO_STATION_SLOT, cleared, 2);
}
static void frames_alone(void) { store_frames(); list_again(); }
static void store_limit(void) { find_ours(); store_frames(); list_again(); }
/* with a lookup that goes through the whole list, as the clears of a store must */
static void store_whole_limit(void)
{
    sink += fulkibono_find(&chip, array, security, &stations, HALF, station_data);
    store_frames();
    list_again();
}

static void measure(struct row *r)
{
    double x[3][REPEATS] = { { 0 } }, to_plain[REPEATS], to_limit[REPEATS];
    job *jobs[3] = { r->ours, r->plain, r->limit };
    long turns = r->turns / SLICES;
    for (int k = 0; k < 3; k++)
        if (jobs[k])
            once(jobs[k], turns);
    for (int i = 0; i < REPEATS; i++) {
        for (int slice = 0; slice < SLICES; slice++)
            for (int k = 0; k < 3; k++)
                if (jobs[k])
                    x[k][i] += once(jobs[k], turns) / (double)(turns * SLICES);
        to_plain[i] = x[1][i] / x[0][i];
        to_limit[i] = x[2][i] > 0 ? x[0][i] / x[2][i] : 0;
    }
    r->to_plain = median(to_plain);
    r->to_limit = median(to_limit);
    printf("%-44s %12.1f", r->what, median(x[0]));
    if (jobs[1])
        printf(" %12.1f %8.1fx", median(x[1]), r->to_plain);
    else
        printf(" %12s %9s", "-", "-");
    printf(" %12.1f %8.2fx\n", median(x[2]), r->to_limit);
}

static int missed;
static void bar(const char *what, double got, int most, double line)
{
    int right = most ? got <= line : got >= line;
    if (!right)
        missed++;
    printf("  %-70s %8.2f  (%s %.2f)  %s\n", what, got, most ? "at most" : "at least", line, right ? "pass" : "MISSED");
}

static void fresh(void)
{
    memset(array, 0xFF, sizeof array);
    memset(security, 0xFF, sizeof security);
    for (size_t i = 0; i < sizeof array; i += 7)
        array[i] = (uint8_t)i;
    fulkibono_make(&chip);
    must(send(s06, 1, 0) == 0 && send(s98, 1, 0) == 0, "opening refused");
    memset(&plain, 0, sizeof plain);
}

/* 1,000,000 mixed events: the cost of one in each tenth */
static double tenth[10];
static void mixed(void)
{
    uint32_t seed = 12345;
    fresh();
    for (int d = 0; d < 10; d++) {
        double t = now();
        for (long i = 0; i < 100000; i++) {
            seed = seed * 1664525u + 1013904223u;
            uint32_t a = seed >> 8, kind = (seed >> 3) & 15;
            uint8_t f[12] = { 0x03, (uint8_t)(a >> 16), (uint8_t)(a >> 8), (uint8_t)a, 0x11, 0x22, 0x33, 0x44, 0x55, 0x66, 0x77, 0x88 };
            if (kind < 6)
                send(f, 4, 64);
            else if (kind < 9)
                send(s05, 1, 1);
            else if (kind < 11)
                send(s06, 1, 0);
            else if (kind < 13) {
                f[0] = 0x02;
                send(f, 12, 0);
            } else if (kind < 14) {
                f[0] = 0x20;
                send(f, 4, 0);
            } else
                fulkibono_complete(&chip, array, security);
        }
        tenth[d] = (now() - t) / 100000;
    }
}

int main(void)
{
    setvbuf(stdout, NULL, _IOLBF, 0);
    double read_limit_ratio = 0, read_plain_ratio = 0, burst_ratio = 0, middle_ratio = 0, long_ratio = 0, suspended_ratio[5];
    static const size_t sizes[] = { 1, 16, 256, 4096, 65536 };
    char name[64];
    for (size_t i = 0; i < sizeof frame; i++)
        frame[i] = (uint8_t)(i * 37);
    printf("nanoseconds a turn, medians of %d repeats\n", REPEATS);
    printf("%-44s %12s %12s %9s %12s %9s\n", "work", "library", "per-byte", "ratio", "limit", "ratio");

    fresh();
    struct row r = { "status frame (limit: its floor)", status_ours, status_plain, status_limit, 2000000, 0, 0 };
    measure(&r);
    for (int area = 0; area < 3; area++)
        for (size_t k = 0; k < 5; k++) {
            static const char *const names[] = { "unlocked", "read-locked", "suspended" };
            fresh();
            unlocked = chip;
            from = 0x20000;
            if (area == 1) {
                /* the eight 8-KB blocks with their read locks set: read from the last four, 1F8000 on */
                const uint8_t lock[] = { 0x42, 0xAA, 0xAA, 0, 0, 0, 0 };
                must(send(s06, 1, 0) == 0 && send(lock, 7, 0) == 0, "lock refused");
                from = 0x1F8000;
            } else if (area == 2) {
                const uint8_t d8[] = { 0xD8, 0x02, 0, 0 };
                must(send(s06, 1, 0) == 0 && send(d8, 4, 0) == 0 && send(sB0, 1, 0) == 0, "suspension refused");
            }
            wanted = sizes[k];
            snprintf(name, sizeof name, "read %zu, %s", wanted, names[area]);
            struct row q = { name, read_ours, read_plain, read_limit, wanted > 4096 ? 4000 : wanted > 256 ? 40000 : 400000, 0, 0 };
            measure(&q);
            if (area == 0 && wanted == 65536) {
                read_plain_ratio = q.to_plain;
                read_limit_ratio = q.to_limit;
            }
            if (area == 2) {
                struct row u = { "  the same (limit: unlocked)", read_ours, NULL, read_unlocked, q.turns, 0, 0 };
                measure(&u);
                suspended_ratio[k] = u.to_limit;
            }
        }

    /* bursts: of 64 against a plain read of as many bytes, from a group's start and from its middle; of 8, going round, against the limit */
    for (int k = 0; k < 3; k++) {
        const uint8_t set[] = { 0xC0, k < 2 ? 0x03 : 0x00 };
        fresh();
        chip.bytes[FULKIBONO_PLACE_FLAGS] |= FULKIBONO_FLAG_IOC;
        must(send(set, 2, 0) == 0, "C0 refused");
        from = k == 1 ? 0x20020 : 0x20000;
        wanted = k < 2 ? 64 : 65536;
        static const char *const names[] = { "burst of 64 (limit: a plain read)", "  from the group's middle (limit: the same)", "burst of 8, 65536 bytes" };
        struct row b = { names[k], burst_ours, NULL, k < 2 ? read_ours : read_limit, k < 2 ? 400000 : 4000, 0, 0 };
        measure(&b);
        *(k == 0 ? &burst_ratio : k == 1 ? &middle_ratio : &long_ratio) = b.to_limit;
    }

    fresh();
    struct row p = { "page program (limit: four status frames)", page_ours, page_plain, page_limit, 300000, 0, 0 };
    measure(&p);

    fresh();
    erase[0] = 0x20; erase[1] = 2; erase_n = 4; erase_len = 4096; from = 0x20000;
    struct row e0 = { "sector erase: 06, 20, completion", erase_ours, erase_plain, erase_limit, 100000, 0, 0 };
    measure(&e0);
    send(s06, 1, 0);
    ready = chip;
    struct row e1 = { "  20, completion (limit: memset, a status)", enabled_ours, NULL, finish_and_status, 100000, 0, 0 };
    measure(&e1);
    must(send(s06, 1, 0) == 0 && send(erase, 4, 0) == 0, "sector refused");
    ready = chip;
    struct row f1 = { "  its completion (limit: the same)", finish_ours, NULL, finish_and_status, 200000, 0, 0 };
    measure(&f1);

    fresh();
    erase[0] = 0xD8; erase_len = 65536;
    struct row e2 = { "block erase: 06, D8, completion", erase_ours, erase_plain, erase_limit, 10000, 0, 0 };
    measure(&e2);

    fresh();
    erase[0] = 0xC7; erase_n = 1; erase_len = FULKIBONO_ARRAY; from = 0;
    struct row e3 = { "chip erase: 06, C7, completion", erase_ours, erase_plain, erase_limit, 400, 0, 0 };
    measure(&e3);
    must(send(s06, 1, 0) == 0 && send(sC7, 1, 0) == 0, "array refused");
    ready = chip;
    cut_at = FULKIBONO_ARRAY / 2;
    struct row c1 = { "power cut in the middle of a chip erase", cut_ours, NULL, cut_limit, 800, 0, 0 };
    measure(&c1);

    fresh();
    struct row i1 = { "image written (limit: memcpy, a sum)", image_write_ours, NULL, image_limit, 500, 0, 0 };
    measure(&i1);
    struct row w1 = { "  the same (limit: the sum made wide)", image_write_ours, NULL, image_wide_limit, 500, 0, 0 };
    measure(&w1);
    struct row i2 = { "image read (limit: memcpy, a sum)", image_read_ours, NULL, image_limit, 500, 0, 0 };
    measure(&i2);
    struct row w2 = { "  the same (limit: the sum made wide)", image_read_ours, NULL, image_wide_limit, 500, 0, 0 };
    measure(&w2);

    /* the last station of the half, and one that is not there */
    double find_ratio[2], store_ratio[2];
    for (int k = 0; k < 2; k++) {
        static const char *const finds[] = { "station lookup, found at the end (read, pass)", "station lookup, not found (limit: the same)" };
        static const char *const stores[] = { "station store, 3 writes (lookup, frames)", "station store, 2 writes (limit: the same)" };
        fresh();
        memset(array + FULKIBONO_STATION_START, 0xFF, FULKIBONO_STATION_LIST);
        for (size_t i = 0; i < HALF; i++)
            put_station(i, (uint16_t)i);
        station = (uint16_t)(k == 0 ? HALF - 1 : HALF);
        must(fulkibono_find(&chip, array, security, &stations, station, station_data) == (k == 0 ? 0 : FULKIBONO_NO_STATION), "lookup refused");
        must(pass(stations.reply, station) == (size_t)(k == 0 ? HALF - 1 : FULKIBONO_STATION_SLOTS), "the pass");
        struct row f = { finds[k], find_ours, NULL, find_limit, 4000, 0, 0 };
        measure(&f);
        find_ratio[k] = f.to_limit;
        struct row l = { "  its read alone (limit: with the pass)", list_read, NULL, find_limit, 4000, 0, 0 };
        measure(&l);
        struct row s = { stores[k], store_ours, NULL, store_limit, 4000, 0, 0 };
        measure(&s);
        must(store_number == FULKIBONO_DONE, "store refused");
        store_ratio[k] = s.to_limit;
        if (k == 0) {
            struct row h = { "  the same (limit: a lookup to the list's end)", store_ours, NULL, store_whole_limit, 4000, 0, 0 };
            measure(&h);
        }
        struct row w = { "  its frames alone (limit: with the lookup)", frames_alone, NULL, store_limit, 4000, 0, 0 };
        measure(&w);
    }

    {
        double first[REPEATS], last[REPEATS], growth[REPEATS];
        for (int i = 0; i < REPEATS; i++) {
            first[i] = last[i] = 0;
            for (int run = 0; run < RUNS; run++) {
                mixed();
                first[i] += tenth[0] / RUNS;
                last[i] += tenth[9] / RUNS;
            }
            growth[i] = last[i] / first[i];
        }
        printf("%-44s %12.1f in the first tenth, %.1f in the last\n", "1,000,000 mixed events, each", median(first), median(last));
        printf("\nbars\n");
        bar("65,536-byte read against the limit", read_limit_ratio, 1, 2);
        bar("65,536-byte read against the per-byte model", read_plain_ratio, 0, 30);
        bar("status frame against its floor", r.to_limit, 1, 3);
        bar("sector erase (20, completion) against memset plus a status frame", e1.to_limit, 1, 2);
        bar("chip erase (06, C7, completion) against memset", e3.to_limit, 1, 1.3);
        bar("page program (06, 02, poll, completion) against four status frames", p.to_limit, 1, 4);
        for (size_t k = 0; k < 5; k++) {
            snprintf(name, sizeof name, "suspended read of %zu against the unlocked one", sizes[k]);
            bar(name, suspended_ratio[k], 1, 1.3);
        }
        bar("64-byte burst of 64 against a plain read of 64 bytes", burst_ratio, 1, 1.3);
        bar("  from the middle of a group", middle_ratio, 1, 1.3);
        bar("65,536-byte reply of an 8-byte burst against the limit", long_ratio, 1, 8);
        bar("image written (2,148,374 bytes) against memcpy plus one sum", i1.to_limit, 1, 4);
        bar("image read against the same", i2.to_limit, 1, 4);
        bar("station lookup, found at the end, against the read and one pass in C", find_ratio[0], 1, 1.5);
        bar("station lookup, not found, against the same", find_ratio[1], 1, 1.5);
        bar("station store of 3 writes against a lookup, its frames and completions", store_ratio[0], 1, 1);
        bar("station store of 2 writes against the same", store_ratio[1], 1, 1);
        bar("mixed events: last tenth against the first", median(growth), 1, 1.1);
    }
    printf("%d missed\n", missed);
    return missed ? 1 : 0;
}
