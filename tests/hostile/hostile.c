/* Hostile arguments at the boundary: lengths off by one, huge frames, random record bytes, any k and m, changed image files, any station list, every number. Each lent part stands between two
 * pages that cannot be touched, now against the one and now against the other, so that a byte read or written outside it stops the program. */
#define _DEFAULT_SOURCE
#include "fulkibono.h"
#include <stdio.h>
#include <stdlib.h>
#include <string.h>
#include <sys/mman.h>

#define PAGE 4096
#define MOST 70000

static uint64_t seed = 88172645463325252u;
static uint32_t any(void)
{
    seed ^= seed << 13;
    seed ^= seed >> 7;
    seed ^= seed << 17;
    return (uint32_t)(seed >> 16);
}
static size_t below(size_t n) { return any() % n; }

static void must(int right, const char *what)
{
    if (!right) {
        fprintf(stderr, "hostile: %s\n", what);
        exit(1);
    }
}

/* ---- memory between two closed pages */

struct room { uint8_t *open; size_t size; uint8_t *copy; uint8_t *lent; size_t n; };

static struct room room_of(size_t most)
{
    struct room r;
    r.size = (most + PAGE - 1) / PAGE * PAGE;
    uint8_t *all = mmap(NULL, r.size + 2 * PAGE, PROT_READ | PROT_WRITE, MAP_PRIVATE | MAP_ANONYMOUS, -1, 0);
    must(all != MAP_FAILED, "no memory");
    must(mprotect(all, PAGE, PROT_NONE) == 0 && mprotect(all + PAGE + r.size, PAGE, PROT_NONE) == 0, "no guard");
    r.open = all + PAGE;
    r.copy = malloc(r.size);
    must(r.copy != NULL, "no memory");
    r.lent = r.open;
    r.n = 0;
    return r;
}

/* n bytes, against the page behind or the page before */
static void lend(struct room *r, size_t n)
{
    r->n = n;
    r->lent = any() & 1 ? r->open : r->open + r->size - n;
}
static void keep(struct room *r) { memcpy(r->copy, r->lent, r->n); }
static int same(const struct room *r) { return memcmp(r->copy, r->lent, r->n) == 0; }

static struct room record, array, security, sent, reply, marks, text;

static size_t near(size_t n)
{
    switch (below(40)) {
    case 0: return n - 1;
    case 1: return n + 1;
    case 2: return 0;
    default: return n;
    }
}

static size_t some_length(void)
{
    switch (below(10)) {
    case 0: return 0;
    case 1: return 65535;
    case 2: return 65536;
    case 3: return 65537;
    case 4: return below(MOST);
    case 5: return 256 + below(10);
    default: return below(12);
    }
}

static const uint8_t opcodes[] = { 0x00, 0x66, 0x99, 0x38, 0xFF, 0x05, 0x35, 0x72, 0x9F, 0xAF, 0x03, 0x0B, 0x6B, 0x88, 0x06, 0x06, 0x06, 0x04, 0x20, 0xD8,
                                   0xC7, 0x02, 0x32, 0xA5, 0x85, 0x01, 0x42, 0xE8, 0x8D, 0x98, 0xB0, 0x30, 0xC0, 0xC0, 0x0C, 0xEC };

/* the length of each in SPI, opcode included */
static const uint8_t lengths[] = { 1, 1, 1, 1, 1, 1, 1, 1, 1, 2, 4, 5, 5, 4, 1, 1, 1, 1, 4, 4, 1, 9, 9, 9, 1, 3, 7, 7, 1, 1, 1, 1, 2, 2, 7, 7 };

/* the record: what a run of frames left, that as the other part, that with one byte changed, or random bytes */
static uint8_t kept[FULKIBONO_RECORD_SIZE];
static void some_record(void)
{
    size_t n = near(FULKIBONO_RECORD_SIZE);
    lend(&record, n);
    switch (below(24)) {
    case 0:
        for (size_t i = 0; i < n; i++)
            record.lent[i] = (uint8_t)any();
        break;
    case 1:
        for (size_t i = 0; i < n; i++)
            record.lent[i] = i < FULKIBONO_RECORD_SIZE ? kept[i] : 0;
        if (n > FULKIBONO_PLACE_PROTECTION)
            record.lent[FULKIBONO_PLACE_PROTECTION + below(n - FULKIBONO_PLACE_PROTECTION)] = (uint8_t)(below(2) ? below(10) : any());
        break;
    case 2:
        kept[FULKIBONO_PLACE_FLAGS] ^= FULKIBONO_FLAG_BA;
        /* fall through */
    default:
        for (size_t i = 0; i < n; i++)
            record.lent[i] = i < FULKIBONO_RECORD_SIZE ? kept[i] : 0;
    }
    keep(&record);
}

static void some_memory(void)
{
    /* most calls use the whole array where it stands, so that its bytes live on */
    size_t n = near(FULKIBONO_ARRAY), m = near(FULKIBONO_SECURITY);
    array.n = n;
    array.lent = array.open + array.size - n;
    security.n = m;
    security.lent = security.open + security.size - m;
    keep(&security);
}

/* what a call left is a record that is taken again, and its bytes say what the chip answers */
static void taken_again(void)
{
    fulkibono_record c, asked;
    memcpy(c.bytes, kept, sizeof c.bytes);
    uint8_t running = fulkibono_running(&c).kind, aside = fulkibono_suspended(&c).kind, answer[6], known[6];
    size_t n = fulkibono_flag(&c, FULKIBONO_FLAG_SQI) ? 2 : 1;
    const uint8_t status[] = { 0x05, 0 }, configuration[] = { 0x35, 0 }, protection[] = { 0x72, 0 };
    asked = c;
    must(fulkibono_send(&asked, array.lent, security.lent, status, n, answer, known, 1) == 0, "what a call left is refused");
    must(answer[0] == (running != FULKIBONO_KIND_NOTHING) * 0x81 + fulkibono_flag(&c, FULKIBONO_FLAG_WEL) * 0x02
         + (aside == FULKIBONO_KIND_SECTOR_ERASE || aside == FULKIBONO_KIND_BLOCK_ERASE) * 0x04 + (aside == FULKIBONO_KIND_PAGE_PROGRAM) * 0x08
         + fulkibono_flag(&c, FULKIBONO_FLAG_WPLD) * 0x10 + fulkibono_flag(&c, FULKIBONO_FLAG_SEC) * 0x20, "the status of a record");
    if (running != FULKIBONO_KIND_NOTHING)
        return;
    must(fulkibono_send(&asked, array.lent, security.lent, configuration, n, answer, known, 1) == 0, "35");
    must(answer[0] == fulkibono_flag(&c, FULKIBONO_FLAG_IOC) * 0x02 + (fulkibono_permanent(&c) == 0) * 0x08
         + fulkibono_flag(&c, FULKIBONO_FLAG_WPEN) * 0x80, "the configuration of a record");
    must(fulkibono_send(&asked, array.lent, security.lent, protection, n, answer, known, 6) == 0, "72");
    for (int i = 0; i < 6; i++)
        must(answer[i] == (uint8_t)(fulkibono_protection(&c) >> 8 * (5 - i)), "the protection register of a record");
}

/* what a reset or a power cut leaves in both memories, by the header's words: each place, from the record and the bytes before */
static long torn_work[9];
static void torn_right(uint64_t k, uint8_t m, const uint8_t *array_before)
{
    fulkibono_record c;
    fulkibono_range r;
    uint8_t *now = array.lent;
    const uint8_t *was = array_before;
    int program, right = 1;
    memcpy(c.bytes, record.copy, sizeof c.bytes);
    fulkibono_work w = fulkibono_running(&c);
    torn_work[w.kind]++;
    program = w.kind == FULKIBONO_KIND_PAGE_PROGRAM || w.kind == FULKIBONO_KIND_SECURITY_PROGRAM;
    r = fulkibono_array_range(w);
    if (w.kind == FULKIBONO_KIND_SECURITY_PROGRAM) {
        must(memcmp(array_before, array.lent, array.n) == 0, "A5 changed the array");
        r = fulkibono_security_range(w);
        now = security.lent;
        was = security.copy;
    } else {
        must(same(&security), "a reset or a cut changed the Security ID");
    }
    for (size_t i = 0; i < r.size; i++) {
        uint8_t old = was[r.start + i], finished = program ? old & c.bytes[FULKIBONO_PLACE_PAGE + i] : 0xFF;
        right &= now[r.start + i] == (i < k ? finished : i > k ? old : program ? old & (finished | m) : old | m);
    }
    must(right, "the range of what was stopped");
    must(memcmp(was, now, r.start) == 0, "a place before the range");
    must(memcmp(was + r.start + r.size, now + r.start + r.size, (now == array.lent ? array.n : security.n) - r.start - r.size) == 0,
         "a place behind the range");
}

static uint64_t some_k(void)
{
    static const uint64_t ends[] = { 0, 1, 255, 256, 257, 4095, 4096, 4097, 8191, 8192, 65535, 65536, FULKIBONO_ARRAY - 1, FULKIBONO_ARRAY };
    switch (below(4)) {
    case 0: return below(5000);
    case 1: return ends[below(sizeof ends / sizeof *ends)];
    case 2: return UINT64_MAX;
    default: return (uint64_t)any() << 32;
    }
}
static uint8_t some_m(void) { return (uint8_t)(below(3) ? any() : below(2) ? 0xFF : 0x00); }

static long counts[16], station_counts[19];

static void after(uint8_t number, int frame, const uint8_t *array_before)
{
    must(number <= 13, "an event's number above 13");
    counts[number]++;
    if (number == 1 || number == 12)
        must(same(&record) && same(&security) && memcmp(array_before, array.lent, array.n) == 0, "refusal 1 or 12 changed something");
    if (number == 1 && frame)
        must(same(&reply) && same(&marks), "refusal 1 wrote a reply");
    if (number != 1 && frame) {
        must(record.n == FULKIBONO_RECORD_SIZE && array.n == FULKIBONO_ARRAY && security.n == FULKIBONO_SECURITY && sent.n <= 65536
             && reply.n <= 65536 && reply.n == marks.n, "a wrong length was taken");
        for (size_t i = 0; i < marks.n; i++)
            must(marks.lent[i] <= 1, "a mark above 1");
    }
    if (frame && !(number == 0 && sent.lent[0] == 0x99))
        must(memcmp(array_before, array.lent, array.n) == 0 && same(&security), "a frame that is no reset changed the array");
    if (number == 2)
        must(sent.n == 0, "refusal 2 of a frame that is not empty");
    if (record.n == FULKIBONO_RECORD_SIZE && number != 1) {
        must(((record.lent[FULKIBONO_PLACE_FLAGS] ^ record.copy[FULKIBONO_PLACE_FLAGS]) & FULKIBONO_FLAG_BA) == 0, "an event changed the part");
        memcpy(kept, record.lent, FULKIBONO_RECORD_SIZE);
        taken_again();
    }
}

/* ---- image files. file_right is written from document 02, so that the library's tests are compared with others. */

#define PG(n) (2070 + (size_t)(n) * 262)

static struct room file;
static uint8_t *image; /* the last file that was right */
static int have;

static uint32_t two(const uint8_t *p) { return (uint32_t)p[0] << 8 | p[1]; }
static uint32_t sum_of(const uint8_t *p, size_t n)
{
    uint32_t s = 0;
    for (size_t i = 0; i < n; i++)
        s += p[i];
    return s % 65536;
}
static int record_right(const uint8_t *p, const char *mark, size_t n)
{
    return p[0] == mark[0] && p[1] == mark[1] && two(p + 2 + n) == sum_of(p + 2, n);
}
static void seal(uint8_t *p, size_t n)
{
    uint32_t s = sum_of(p + 2, n);
    p[2 + n] = (uint8_t)(s >> 8);
    p[3 + n] = (uint8_t)s;
}
static int file_right(const uint8_t *f)
{
    uint64_t protection = 0, permanent = 0;
    for (int i = 0; i < 6; i++) {
        protection = protection << 8 | f[2 + i];
        permanent = permanent << 8 | f[8 + i];
    }
    if (!record_right(f, "RG", 14) || f[15] > 3 || (permanent & 0xAAAA00000000u) != 0 || (permanent & ~protection) != 0)
        return 0;
    if (!record_right(f + 18, "SI", 2048))
        return 0;
    for (size_t n = 0; n < 8192; n++)
        if (!record_right(f + PG(n), "PG", 258) || two(f + PG(n) + 2) != n)
            return 0;
    return 1;
}
static int same_pages(const uint8_t *f)
{
    for (size_t n = 0; n < 8192; n++)
        if (memcmp(array.lent + n * 256, f + PG(n) + 4, 256) != 0)
            return 0;
    return memcmp(security.lent, f + 20, FULKIBONO_SECURITY) == 0;
}

/* what the file holds is changed: 1 if not at all */
static int some_change(void)
{
    size_t at = file.n ? below(file.n) : 0, n = below(8192);
    if (file.n != FULKIBONO_IMAGE)
        return 0;
    switch (below(12)) {
    case 0: /* a byte */
    case 1:
        file.lent[at] = (uint8_t)(file.lent[at] + 1 + below(255));
        return 0;
    case 2: /* a bit */
        file.lent[at] ^= (uint8_t)(1u << below(8));
        return 0;
    case 3: /* a mark, a sum or a page's number */
        at = below(3) ? PG(n) + (below(2) ? below(4) : 260 + below(2)) : below(2) ? below(20) : 2068 + below(2);
        file.lent[at] ^= (uint8_t)(1u << below(8));
        return 0;
    case 4: /* two bytes of a page, the sum the same */
        file.lent[PG(n) + 4]++;
        file.lent[PG(n) + 5]--;
        return 0;
    case 5: /* a page's number, with a right sum */
        file.lent[PG(n) + 2 + below(2)] ^= (uint8_t)(1u << below(8));
        seal(file.lent + PG(n), 258);
        return 0;
    case 6: /* flags or burst, with a right sum */
        file.lent[14 + below(2)] = (uint8_t)(below(2) ? any() : 1u << below(8));
        seal(file.lent, 14);
        return 0;
    case 7: /* the registers, with a right sum */
        for (int i = 0; i < 6; i++)
            file.lent[2 + i] = (uint8_t)any(), file.lent[8 + i] = below(4) ? file.lent[2 + i] & 0x55 : (uint8_t)any();
        seal(file.lent, 14);
        return 0;
    case 8: /* two pages change places */
        memcpy(file.lent + PG(n), image + PG(8191 - n), 262);
        return 0;
    case 9: /* noise */
        for (size_t i = 0; i < file.n; i++)
            file.lent[i] = (uint8_t)any();
        return 0;
    default:
        return 1;
    }
}

/* a chip at work, or with work aside */
static void at_work(void)
{
    static const uint8_t run[][4] = { { 0x06 }, { 0x98 }, { 0x06 }, { 0x20, 0, 0x10, 0 }, { 0xB0 } };
    static const size_t n[] = { 1, 1, 1, 4, 1 };
    fulkibono_record c;
    if (below(2))
        fulkibono_make(&c);
    else
        fulkibono_make_old(&c);
    for (size_t i = 0, steps = 4 + below(2); i < steps; i++)
        must(fulkibono_send(&c, array.open, security.open, run[i], n[i], NULL, NULL, 0) == 0, "a chip at work");
    memcpy(kept, c.bytes, sizeof c.bytes);
}

/* an open chip on which any work runs, mostly with the reset enabled */
static void any_work(void)
{
    static const uint16_t most[] = { 1, 512, 40, 1, 8192, 8, 1, 4 };
    const uint8_t wren = 0x06, open_all = 0x98;
    fulkibono_record c;
    uint8_t kind = (uint8_t)(1 + below(8));
    size_t number = kind < 8 ? below(most[kind]) : below(0x10000);
    if (below(2))
        fulkibono_make(&c);
    else
        fulkibono_make_old(&c);
    must(fulkibono_send(&c, array.open, security.open, &wren, 1, NULL, NULL, 0) == 0, "06");
    must(fulkibono_send(&c, array.open, security.open, &open_all, 1, NULL, NULL, 0) == 0, "98");
    c.bytes[FULKIBONO_PLACE_RUNNING_KIND] = kind;
    c.bytes[FULKIBONO_PLACE_RUNNING_NUMBER] = (uint8_t)number;
    c.bytes[FULKIBONO_PLACE_RUNNING_NUMBER + 1] = (uint8_t)(number >> 8);
    for (size_t i = 0; i < 256 && (kind == FULKIBONO_KIND_PAGE_PROGRAM || kind == FULKIBONO_KIND_SECURITY_PROGRAM); i++)
        c.bytes[FULKIBONO_PLACE_PAGE + i] = (uint8_t)any();
    if (below(4))
        c.bytes[FULKIBONO_PLACE_FLAGS] |= FULKIBONO_FLAG_RESET_ENABLE;
    memcpy(kept, c.bytes, sizeof c.bytes);
}

static void image_round(uint8_t *before)
{
    uint8_t number, wrote[FULKIBONO_RECORD_SIZE];
    int written = 0;

    /* writing */
    if (below(4) == 0)
        at_work();
    some_record();
    some_memory();
    memcpy(before, array.lent, array.n);
    lend(&file, near(FULKIBONO_IMAGE));
    memset(file.lent, 0xAB, file.n);
    keep(&file);
    number = fulkibono_image_write(record.lent, record.n, array.lent, array.n, security.lent, security.n, file.lent, file.n);
    must(number == 0 || number == 1 || number == 14, "the number of an image written");
    must(same(&record) && same(&security) && memcmp(before, array.lent, array.n) == 0, "writing an image changed the chip");
    must(number == 0 || same(&file), "a refused image was written");
    counts[number]++;
    if (number != 1) {
        must(record.n == FULKIBONO_RECORD_SIZE && array.n == FULKIBONO_ARRAY && security.n == FULKIBONO_SECURITY && file.n == FULKIBONO_IMAGE,
             "a wrong length was taken");
        must((number == 14) == (record.lent[FULKIBONO_PLACE_RUNNING_KIND] != 0 || record.lent[FULKIBONO_PLACE_SUSPENDED_KIND] != 0), "refusal 14");
    }
    if (number == 0) {
        must(file_right(file.lent) && same_pages(file.lent), "an image that is wrong");
        memcpy(image, file.lent, FULKIBONO_IMAGE);
        memcpy(wrote, record.lent, FULKIBONO_RECORD_SIZE);
        have = written = 1;
    }
    if (!have)
        return;

    /* reading, into a record of any bytes */
    lend(&file, near(FULKIBONO_IMAGE));
    for (size_t i = 0; i < file.n; i++)
        file.lent[i] = i < FULKIBONO_IMAGE ? image[i] : 0;
    int unchanged = some_change();
    keep(&file);
    lend(&record, near(FULKIBONO_RECORD_SIZE));
    for (size_t i = 0; i < record.n; i++)
        record.lent[i] = (uint8_t)any();
    keep(&record);
    some_memory();
    for (size_t i = below(FULKIBONO_ARRAY), k = 0; k < 4096 && i < array.n; i++, k++)
        array.lent[i] = (uint8_t)any();
    memcpy(before, array.lent, array.n);
    number = fulkibono_image_read(file.lent, file.n, record.lent, record.n, array.lent, array.n, security.lent, security.n);
    must(number == (record.n != FULKIBONO_RECORD_SIZE || array.n != FULKIBONO_ARRAY || security.n != FULKIBONO_SECURITY || file.n != FULKIBONO_IMAGE ? 1
                    : file_right(file.lent) ? 0 : 15), "the number of an image read");
    must(same(&file), "reading an image changed it");
    counts[number]++;
    if (number != 0) {
        must(same(&record) && same(&security) && memcmp(before, array.lent, array.n) == 0, "a refused image was read");
        return;
    }
    must(same_pages(file.lent), "the memories of an image");
    must(!(unchanged && written) || memcmp(wrote, record.lent, FULKIBONO_RECORD_SIZE) == 0, "the record of an image");
    memcpy(kept, record.lent, FULKIBONO_RECORD_SIZE);
    taken_again();
    must(fulkibono_image_write(record.lent, record.n, array.lent, array.n, security.lent, security.n, image, FULKIBONO_IMAGE) == 0
         && memcmp(image, file.lent, FULKIBONO_IMAGE) == 0, "what was read and written again");
}

/* ---- the station list. What its functions do, a driver can do over frames and completions: each call is compared with that driver, which works on copies of
 * all that is lent. */

static const uint8_t of_stations[] = { 0, 1, 3, 5, 8, 11, 16, 17, 18 };
static struct room data, list;
static uint8_t *twin; /* the driver's array */
static struct { fulkibono_record chip; uint8_t security[FULKIBONO_SECURITY], data[FULKIBONO_STATION_DATA]; fulkibono_station_buffers b; } driver;
static const fulkibono_circumstances calm = { 0, 0 };

static uint8_t drive(const uint8_t *bytes, size_t n, uint8_t *to, uint8_t *known, size_t m)
{
    return fulkibono_frame(driver.chip.bytes, FULKIBONO_RECORD_SIZE, twin, FULKIBONO_ARRAY, driver.security, FULKIBONO_SECURITY, bytes, n, to, m, known, m, calm);
}
static uint8_t drive_read(void)
{
    const uint8_t read[] = { 0x03, 0x01, 0x00, 0x00 };
    return drive(read, 4, driver.b.reply, driver.b.marks, FULKIBONO_STATION_LIST);
}
static const uint8_t *slot_of(size_t i) { return driver.b.reply + i * FULKIBONO_STATION_SLOT; }
static int empty_slot(size_t i)
{
    size_t j = 0;
    while (j < FULKIBONO_STATION_SLOT && slot_of(i)[j] == 0xFF)
        j++;
    return j == FULKIBONO_STATION_SLOT;
}
static int live_slot(size_t i, uint16_t station)
{
    return slot_of(i)[0] == 0x53 && slot_of(i)[1] == 0x54 && two(slot_of(i) + 2) == station;
}
static uint8_t drive_find(uint16_t station)
{
    uint8_t number = drive_read();
    for (size_t i = 0; number == 0 && i < FULKIBONO_STATION_SLOTS; i++)
        if (live_slot(i, station)) {
            memcpy(driver.data, slot_of(i) + 4, FULKIBONO_STATION_DATA);
            return 0;
        }
    return number ? number : 17;
}
static uint8_t drive_write(size_t place, const uint8_t *bytes, size_t n, uint64_t allowance, uint64_t entry, uint64_t *polls)
{
    uint8_t wren = 0x06, status = 0x05, answer, known, frame[40] = { 0x02, 0x01, (uint8_t)(place >> 8), (uint8_t)place };
    uint8_t number = drive(&wren, 1, &answer, &known, 1);
    memcpy(frame + 4, bytes, n);
    if (number == 0)
        number = drive(frame, 4 + n, &answer, &known, 1);
    if (number)
        return number;
    for (uint64_t p = 1; p <= allowance; p++) {
        if (p == entry)
            fulkibono_complete(&driver.chip, twin, driver.security);
        number = drive(&status, 1, &answer, &known, 1);
        if (number)
            return number;
        ++*polls;
        if (!(answer & 1))
            return 0;
    }
    return 18;
}
static fulkibono_stored drive_store(uint16_t station, const uint8_t *bytes, uint64_t allowance, const uint64_t *entries, size_t n)
{
    static const uint8_t mark[] = { 0x53, 0x54 }, none[] = { 0, 0 };
    fulkibono_stored s = { 0, 0 };
    uint8_t record_bytes[2 + FULKIBONO_STATION_DATA] = { (uint8_t)(station >> 8), (uint8_t)station };
    size_t i = 0, w = 2;
    s.number = drive_read();
    while (i < FULKIBONO_STATION_SLOTS && !empty_slot(i))
        i++;
    if (s.number == 0 && i == FULKIBONO_STATION_SLOTS)
        s.number = 16;
    memcpy(record_bytes + 2, bytes, FULKIBONO_STATION_DATA);
    if (s.number == 0)
        s.number = drive_write(i * FULKIBONO_STATION_SLOT + 2, record_bytes, sizeof record_bytes, allowance, n > 0 ? entries[0] : 0, &s.polls);
    if (s.number == 0)
        s.number = drive_write(i * FULKIBONO_STATION_SLOT, mark, 2, allowance, n > 1 ? entries[1] : 0, &s.polls);
    for (size_t j = 0; s.number == 0 && j < FULKIBONO_STATION_SLOTS; j++)
        if (live_slot(j, station)) {
            s.number = drive_write(j * FULKIBONO_STATION_SLOT, none, 2, allowance, n > w ? entries[w] : 0, &s.polls);
            w++;
        }
    return s;
}

/* what lies in the list: now and then as stations would leave it, else what frames left there */
static void some_stations(void)
{
    uint8_t *l = array.open + array.size - FULKIBONO_ARRAY + FULKIBONO_STATION_START;
    size_t empty = below(3) ? 8 : below(2); /* of eight slots */
    if (below(4))
        return;
    memset(l, 0xFF, FULKIBONO_STATION_LIST);
    for (size_t i = 0; i < FULKIBONO_STATION_SLOTS; i++) {
        uint8_t *p = l + i * FULKIBONO_STATION_SLOT;
        if (below(8) < empty && i > 20)
            continue;
        for (size_t j = 2; j < FULKIBONO_STATION_SLOT; j++)
            p[j] = (uint8_t)any();
        p[0] = below(3) ? 0x53 : (uint8_t)any();
        p[1] = below(3) ? 0x54 : (uint8_t)any();
        p[2] = (uint8_t)(below(4) == 0);
        p[3] = (uint8_t)below(below(2) ? 5 : 250);
    }
}

/* an open chip: idle, in SQI, at work, or with work aside, in the list or elsewhere */
static void station_chip(void)
{
    static const struct { size_t n; uint8_t bytes[5]; } frames[] = {
        { 1, { 0x06 } }, { 1, { 0x98 } }, { 1, { 0x06 } }, { 5, { 0x02, 0x10, 0x00, 0x00, 0x00 } }, { 1, { 0xB0 } }, { 4, { 0x20, 0x01, 0x20, 0x00 } }, { 1, { 0x38 } },
    };
    static const uint8_t ways[][6] = { /* each ends with FF */
        { 0, 1, 0xFF }, { 0, 1, 6, 0xFF }, { 0, 1, 2, 3, 0xFF }, { 0, 1, 2, 3, 4, 0xFF }, { 0, 1, 2, 5, 4, 0xFF }, { 0, 0xFF },
    };
    const uint8_t *way = ways[below(3) ? 0 : below(sizeof ways / sizeof *ways)];
    fulkibono_record c;
    fulkibono_make(&c);
    for (; *way != 0xFF; way++)
        must(fulkibono_send(&c, array.open, security.open, frames[*way].bytes, frames[*way].n, NULL, NULL, 0) == 0, "a chip for stations");
    memcpy(kept, c.bytes, sizeof c.bytes);
}

static void station_round(uint8_t *before)
{
    const uint8_t status = 0x05;
    uint8_t answer, known, copy[2 * FULKIBONO_RECORD_SIZE];
    uint16_t station = (uint16_t)(below(4) ? below(5) : any());
    uint64_t allowance;
    fulkibono_stored s, t = { 0, 0 };
    int storing = below(3) != 0, right, taken;

    some_stations();
    if (below(4))
        station_chip();
    some_record();
    some_memory();
    memcpy(before, array.lent, array.n);
    lend(&reply, near(FULKIBONO_STATION_LIST));
    lend(&marks, near(FULKIBONO_STATION_LIST));
    lend(&data, near(FULKIBONO_STATION_DATA));
    lend(&list, 8 * below(9));
    for (size_t i = 0; i < data.n; i++)
        data.lent[i] = (uint8_t)any();
    for (size_t i = 0; i < list.n / 8; i++) {
        uint64_t e = below(12) ? 1 + below(6) : below(3) ? below(8) : (uint64_t)any() << below(40);
        memcpy(list.lent + 8 * i, &e, 8);
    }
    allowance = below(20) ? 6 + below(9) : below(2) ? below(7) : below(2) ? FULKIBONO_STATION_POLLS_MOST - below(2)
                : FULKIBONO_STATION_POLLS_MOST + 1 + ((uint64_t)any() << below(48)) * below(2);
    keep(&reply);
    keep(&marks);
    keep(&data);
    keep(&list);

    /* what the chip itself says of record and memories */
    memcpy(copy, record.lent, record.n);
    taken = fulkibono_frame(copy, record.n, array.lent, array.n, security.lent, security.n, &status, 1, &answer, 1, &known, 1, calm) != 1;
    right = reply.n == FULKIBONO_STATION_LIST && marks.n == FULKIBONO_STATION_LIST && data.n == FULKIBONO_STATION_DATA
            && !(storing && allowance > FULKIBONO_STATION_POLLS_MOST);
    if (right && taken) {
        memcpy(driver.chip.bytes, record.lent, FULKIBONO_RECORD_SIZE);
        memcpy(twin, array.lent, FULKIBONO_ARRAY);
        memcpy(driver.security, security.lent, FULKIBONO_SECURITY);
        memcpy(driver.b.reply, reply.lent, FULKIBONO_STATION_LIST);
        memcpy(driver.b.marks, marks.lent, FULKIBONO_STATION_LIST);
        memcpy(driver.data, data.lent, FULKIBONO_STATION_DATA);
        if (storing)
            t = drive_store(station, data.lent, allowance, (const uint64_t *)(const void *)list.lent, list.n / 8);
        else
            t.number = drive_find(station);
    }

    if (storing) {
        s = fulkibono_station_store(record.lent, record.n, array.lent, array.n, security.lent, security.n, reply.lent, reply.n, marks.lent, marks.n,
                                    station, data.lent, data.n, allowance, (const uint64_t *)(const void *)list.lent, list.n / 8);
    } else {
        s.polls = 0;
        s.number = fulkibono_station_find(record.lent, record.n, array.lent, array.n, security.lent, security.n, reply.lent, reply.n, marks.lent, marks.n,
                                          station, data.lent, data.n);
    }
    must(s.number <= 18, "a station's number above 18");
    station_counts[s.number]++;
    must((s.number == 1) == !(right && taken), "refusal 1 of a station");
    must(same(&list), "the completions were changed");
    if (s.number == 1) {
        must(s.polls == 0 && same(&record) && same(&security) && same(&reply) && same(&marks) && same(&data) && memcmp(before, array.lent, array.n) == 0,
             "refusal 1 of a station changed something");
        return;
    }
    must(s.number == t.number && s.polls == t.polls, "the number and the polls of a station");
    must(memcmp(driver.chip.bytes, record.lent, FULKIBONO_RECORD_SIZE) == 0, "the record after a station");
    must(memcmp(twin, array.lent, FULKIBONO_ARRAY) == 0 && memcmp(driver.security, security.lent, FULKIBONO_SECURITY) == 0, "the memories after a station");
    must(memcmp(driver.b.reply, reply.lent, FULKIBONO_STATION_LIST) == 0 && memcmp(driver.b.marks, marks.lent, FULKIBONO_STATION_LIST) == 0,
         "the buffers after a station");
    must(memcmp(driver.data, data.lent, FULKIBONO_STATION_DATA) == 0 && (s.number == 0 || same(&data)), "the data after a station");
    must(same(&security), "a station changed the Security ID");
    must(memcmp(before, array.lent, FULKIBONO_STATION_START) == 0
         && memcmp(before + FULKIBONO_STATION_START + FULKIBONO_STATION_LIST, array.lent + FULKIBONO_STATION_START + FULKIBONO_STATION_LIST,
                   FULKIBONO_ARRAY - FULKIBONO_STATION_START - FULKIBONO_STATION_LIST) == 0, "a station changed the array outside the list");
    must(storing || memcmp(before, array.lent, FULKIBONO_ARRAY) == 0, "a find changed the array");
    memcpy(kept, record.lent, FULKIBONO_RECORD_SIZE);
    taken_again();
}

/* each length one less and one more, and none with NULL; every one of them is told before anything is sent */
static void station_lengths(void)
{
    const size_t right[7] = { FULKIBONO_RECORD_SIZE, FULKIBONO_ARRAY, FULKIBONO_SECURITY, FULKIBONO_STATION_LIST, FULKIBONO_STATION_LIST, FULKIBONO_STATION_DATA, 8 };
    const uint64_t allowances[] = { FULKIBONO_STATION_POLLS_MOST, FULKIBONO_STATION_POLLS_MOST + 1, (uint64_t)1 << 32, UINT64_MAX };
    const uint8_t wren = 0x06, open_all = 0x98;
    fulkibono_record c;
    fulkibono_make(&c);
    memset(array.open, 0xFF, array.size);
    must(fulkibono_send(&c, array.open, security.open, &wren, 1, NULL, NULL, 0) == 0 && fulkibono_send(&c, array.open, security.open, &open_all, 1, NULL, NULL, 0) == 0,
         "an open chip");
    for (int part = 0; part < 7; part++)
        for (int off = -1; off < 3; off++) { /* one less, right, one more, none */
            struct room *rooms[7] = { &record, &array, &security, &reply, &marks, &data, &list };
            const uint64_t *entries;
            uint8_t *at[6];
            for (int i = 0; i < 7; i++) {
                lend(rooms[i], i == 6 ? 8 : i == part ? off == 2 ? 0 : right[i] + (size_t)off : right[i]);
                memset(rooms[i]->lent, i == 1 ? 0xFF : 0x01, rooms[i]->n);
                if (i == 0)
                    memcpy(record.lent, c.bytes, record.n < sizeof c.bytes ? record.n : sizeof c.bytes);
                keep(rooms[i]);
                if (i < 6)
                    at[i] = rooms[i]->n ? rooms[i]->lent : NULL;
            }
            entries = part == 6 && off == 2 ? NULL : (const uint64_t *)(const void *)list.lent;
            for (int call = 0; call < 2; call++) {
                uint8_t number = call ? fulkibono_station_find(at[0], record.n, at[1], array.n, at[2], security.n, at[3], reply.n, at[4], marks.n, 1, at[5], data.n)
                                      : fulkibono_station_store(at[0], record.n, at[1], array.n, at[2], security.n, at[3], reply.n, at[4], marks.n, 1, at[5], data.n, 3,
                                                                entries, entries ? 1 : 0).number;
                must(number == (off == 0 || part == 6 ? call ? 5 : 18 : 1), "a length that is not right");
                for (int i = 0; number == 1 && i < 7; i++)
                    must(same(rooms[i]), "a wrong length changed something");
            }
        }
    /* allowances: the most, and more */
    for (int i = 0; i < 4; i++) {
        lend(&record, FULKIBONO_RECORD_SIZE);
        memcpy(record.lent, c.bytes, sizeof c.bytes);
        keep(&record);
        lend(&array, FULKIBONO_ARRAY);
        memset(array.lent, 0xFF, array.n);
        lend(&security, FULKIBONO_SECURITY);
        fulkibono_stored s = fulkibono_station_store(record.lent, record.n, array.lent, array.n, security.lent, security.n, reply.lent, reply.n, marks.lent, marks.n, 1,
                                                     data.lent, data.n, allowances[i], NULL, 0);
        must(i ? s.number == 1 && s.polls == 0 && same(&record) : s.number == 18 && s.polls == FULKIBONO_STATION_POLLS_MOST, "an allowance");
    }
    must(fulkibono_station_find(NULL, 0, NULL, 0, NULL, 0, NULL, 0, NULL, 0, 1, NULL, 0) == 1, "NULL find");
    must(fulkibono_station_store(NULL, 0, NULL, 0, NULL, 0, NULL, 0, NULL, 0, 1, NULL, 0, 1, NULL, 0).number == 1, "NULL store");
    /* parts that touch do not overlap: all of them in a row */
    {
        const size_t size[] = { FULKIBONO_RECORD_SIZE, FULKIBONO_ARRAY, FULKIBONO_SECURITY, FULKIBONO_STATION_LIST, FULKIBONO_STATION_LIST, FULKIBONO_STATION_DATA };
        uint8_t *row, *p[6], entries[16] = { 1, 0, 0, 0, 0, 0, 0, 0, 1 };
        uint64_t both[2];
        size_t all = 0;
        memcpy(both, entries, 16);
        for (int i = 0; i < 6; i++)
            all += size[i];
        row = malloc(all);
        must(row != NULL, "no memory");
        memset(row, 0xFF, all);
        for (int i = 0; i < 6; i++)
            p[i] = i ? p[i - 1] + size[i - 1] : row;
        memcpy(p[0], c.bytes, sizeof c.bytes);
        memset(p[5], 0x5A, size[5]);
        must(fulkibono_station_store(p[0], size[0], p[1], size[1], p[2], size[2], p[3], size[3], p[4], size[4], 1, p[5], size[5], 1, both, 2).number == 0, "parts in a row");
        memset(p[5], 0, size[5]);
        must(fulkibono_station_find(p[0], size[0], p[1], size[1], p[2], size[2], p[3], size[3], p[4], size[4], 1, p[5], size[5]) == 0 && p[5][0] == 0x5A && p[5][27] == 0x5A,
             "parts in a row");
        free(row);
    }
    memset(array.open, 0xFF, array.size);
    memset(security.open, 0xFF, security.size);
}

int main(int argc, char **argv)
{
    long rounds = argc > 1 ? atol(argv[1]) : 20000;
    uint8_t *before;
    record = room_of(2 * FULKIBONO_RECORD_SIZE);
    array = room_of(FULKIBONO_ARRAY + 1);
    security = room_of(FULKIBONO_SECURITY + 1);
    sent = room_of(MOST);
    reply = room_of(MOST);
    marks = room_of(MOST + 1);
    text = room_of(100);
    file = room_of(FULKIBONO_IMAGE + 1);
    data = room_of(FULKIBONO_STATION_DATA + 1);
    list = room_of(100);
    twin = malloc(FULKIBONO_ARRAY);
    must(twin != NULL, "no memory");
    image = malloc(FULKIBONO_IMAGE);
    must(image != NULL, "no memory");
    before = malloc(array.size);
    must(before != NULL, "no memory");
    memset(array.open, 0xFF, array.size);
    memset(security.open, 0xFF, security.size);

    /* a new chip of each part, in every length about the right one */
    for (size_t n = 0; n <= 2 * FULKIBONO_RECORD_SIZE; n++)
        for (int old = 0; old < 2; old++) {
            lend(&record, n);
            memset(record.lent, 0xAB, n);
            keep(&record);
            uint8_t k = old ? fulkibono_new_old(record.lent, n) : fulkibono_new(record.lent, n);
            must(k == (n == FULKIBONO_RECORD_SIZE ? 0 : 1), "a new chip's number");
            must(k == 0 || same(&record), "a new chip was written where it was refused");
            if (k == 0)
                memcpy(kept, record.lent, n);
        }

    /* every number, and room from none to enough */
    for (int number = 0; number < 256; number++)
        for (size_t n = 0; n <= 70; n++) {
            lend(&text, n);
            memset(text.lent, 0xAB, n);
            size_t whole = fulkibono_meaning((uint8_t)number, text.lent, n);
            must((number > 15 || whole > 0) && (number <= 18 || whole == 0) && whole <= FULKIBONO_MEANING_MOST, "a text's length");
            for (size_t i = 0; i < n; i++)
                must(i < whole ? text.lent[i] >= 0x20 && text.lent[i] < 0x7F : text.lent[i] == 0xAB, "a text's bytes");
        }

    /* nothing lent at all, with NULL, straight and by the header's functions */
    {
        fulkibono_record c;
        const fulkibono_circumstances zero = { 0, 0 };
        must(fulkibono_new(NULL, 0) == 1 && fulkibono_new_old(NULL, 0) == 1 && fulkibono_meaning(3, NULL, 0) > 0, "NULL");
        must(fulkibono_frame(NULL, 0, NULL, 0, NULL, 0, NULL, 0, NULL, 0, NULL, 0, zero) == 1, "NULL frame");
        must(fulkibono_completion(NULL, 0, NULL, 0, NULL, 0) == 1 && fulkibono_power_cut(NULL, 0, NULL, 0, NULL, 0, 9, 0) == 1, "NULL events");
        array.lent = array.open;
        array.n = FULKIBONO_ARRAY;
        security.lent = security.open;
        fulkibono_make(&c);
        must(fulkibono_image_write(NULL, 0, NULL, 0, NULL, 0, NULL, 0) == 1 && fulkibono_image_read(NULL, 0, NULL, 0, NULL, 0, NULL, 0) == 1, "NULL images");
        must(fulkibono_image_read(NULL, 0, c.bytes, sizeof c.bytes, array.lent, FULKIBONO_ARRAY, security.lent, FULKIBONO_SECURITY) == 1, "NULL file");
        /* sums that wrap: 255 times 256, and the two bytes of the page's number */
        must(fulkibono_write_image(&c, array.lent, security.lent, image) == 0 && file_right(image), "the image of a new chip");
        must(two(image + PG(0x1FFF) + 260) == 0x001E && two(image + PG(0x01FF) + 260) == 0x0000, "sums of blank pages");
        must(fulkibono_send(&c, array.lent, security.lent, NULL, 0, NULL, NULL, 0) == FULKIBONO_EMPTY, "empty frame");
        const uint8_t wren = 0x06;
        must(fulkibono_send(&c, array.lent, security.lent, &wren, 1, NULL, NULL, 0) == FULKIBONO_DONE, "no reply");
        must(fulkibono_frame(c.bytes, sizeof c.bytes, array.lent, FULKIBONO_ARRAY, security.lent, FULKIBONO_SECURITY, &wren, 1, NULL, 0, NULL, 0, zero) == 0,
             "NULL reply");
    }

    station_lengths();
    memcpy(before, array.open + array.size - FULKIBONO_ARRAY - 1, FULKIBONO_ARRAY + 1);
    for (long i = 0; i < rounds; i++) {
        uint8_t number;
        fulkibono_circumstances x = { some_k(), some_m() };
        if (i % 50 == 0)
            image_round(before);
        else if (i % 10 == 0)
            any_work();
        if (i % 10 == 5)
            station_round(before);
        some_record();
        some_memory();
        memcpy(before, array.lent, array.n);
        switch (below(8)) {
        case 0:
            number = fulkibono_completion(record.lent, record.n, array.lent, array.n, security.lent, security.n);
            after(number, 0, before);
            break;
        case 1:
            number = fulkibono_power_cut(record.lent, record.n, array.lent, array.n, security.lent, security.n, x.k, x.m);
            after(number, 0, before);
            if (number == 0)
                torn_right(x.k, x.m, before);
            must(number != 0 || !(record.lent[FULKIBONO_PLACE_FLAGS] & FULKIBONO_FLAG_IOC) == !(record.lent[FULKIBONO_PLACE_FLAGS] & FULKIBONO_FLAG_BA),
                 "IOC at power-up is not the part's");
            break;
        default: {
            size_t n = some_length(), m = some_length(), o = below(sizeof opcodes);
            int meant = below(6) != 0;
            if (kept[FULKIBONO_PLACE_FLAGS] & FULKIBONO_FLAG_RESET_ENABLE && below(2))
                o = 2; /* 99 */
            else if (kept[FULKIBONO_PLACE_RUNNING_KIND] && below(4) == 0)
                o = 1; /* 66 */
            if (meant)
                n = lengths[o];
            lend(&sent, n);
            lend(&reply, m);
            lend(&marks, below(20) ? m : m + 1);
            for (size_t j = 0; j < n && j < 300; j++)
                sent.lent[j] = (uint8_t)any();
            if (n && (meant || below(2)))
                sent.lent[0] = opcodes[o];
            keep(&sent);
            keep(&reply);
            keep(&marks);
            number = fulkibono_frame(record.lent, record.n, array.lent, array.n, security.lent, security.n, sent.lent, n, reply.lent, m,
                                     marks.lent, marks.n, x);
            must(same(&sent), "the frame's own bytes changed");
            after(number, 1, before);
            if (number == 0 && sent.lent[0] == 0x99)
                torn_right(x.k, x.m, before);
        }
        }
    }
    for (int i = 0; i <= 8; i++)
        must(torn_work[i] > 0 || rounds < 20000, "a kind of work was never stopped");
    for (size_t i = 0; i < sizeof of_stations; i++)
        must(station_counts[of_stations[i]] > 0 || rounds < 20000, "a number of the station list was never given");
    printf("hostile: %ld rounds, no finding; numbers given:", rounds);
    for (int i = 0; i <= 15; i++)
        printf(" %d:%ld", i, counts[i]);
    printf("; of stations:");
    for (size_t i = 0; i < sizeof of_stations; i++)
        printf(" %d:%ld", of_stations[i], station_counts[of_stations[i]]);
    printf("; stopped by kind:");
    for (int i = 0; i <= 8; i++)
        printf(" %d:%ld", i, torn_work[i]);
    printf("\n");
    free(before);
    free(image);
    free(twin);
    return 0;
}
