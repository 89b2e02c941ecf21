/* What the header says of the station list, tried on the library beside a plain model that is written from the header's words: the first empty slot, the two
 * writes, marks cleared lowest first, polls and completions, each refusal in its order and what it leaves, and a power cut in the middle of each write. */
#include "fulkibono.h"
#include <stdio.h>
#include <stdlib.h>
#include <string.h>

#define START FULKIBONO_STATION_START
#define LIST FULKIBONO_STATION_LIST
#define SLOTS FULKIBONO_STATION_SLOTS
#define SLOT FULKIBONO_STATION_SLOT
#define DATA FULKIBONO_STATION_DATA

static uint8_t array[FULKIBONO_ARRAY], security[FULKIBONO_SECURITY];
static fulkibono_station_buffers buffers;
static fulkibono_record chip;
static long tried;

static void must(int right, const char *what)
{
    tried++;
    if (!right) {
        fprintf(stderr, "stations: %s\n", what);
        exit(1);
    }
}

static uint64_t seed = 88172645463325252u;
static uint32_t any(void)
{
    seed ^= seed << 13;
    seed ^= seed >> 7;
    seed ^= seed << 17;
    return (uint32_t)(seed >> 16);
}
static uint32_t below(uint32_t n) { return any() % n; }

/* ---- the chip as a test wants it */

static int ba;

/* an open chip, all memory FF */
static uint8_t send(const uint8_t *sent, size_t n) { return fulkibono_send(&chip, array, security, sent, n, NULL, NULL, 0); }
static uint8_t one(uint8_t opcode) { return send(&opcode, 1); }
static void opened(void)
{
    memset(array, 0xFF, sizeof array);
    memset(security, 0xFF, sizeof security);
    if (ba)
        fulkibono_make(&chip);
    else
        fulkibono_make_old(&chip);
    must(one(0x06) == 0 && one(0x98) == 0, "an open chip");
}

static void put(int i, uint8_t a, uint8_t b, uint16_t station, uint8_t value)
{
    uint8_t *p = array + START + i * SLOT;
    p[0] = a;
    p[1] = b;
    p[2] = (uint8_t)(station >> 8);
    p[3] = (uint8_t)station;
    memset(p + 4, value, DATA);
}

static void work(uint8_t kind, uint64_t number, size_t kind_place, size_t number_place)
{
    int i;
    chip.bytes[kind_place] = kind;
    for (i = 0; i < 8; i++)
        chip.bytes[number_place + i] = (uint8_t)(number >> 8 * i);
}
static void running(uint8_t kind, uint64_t number) { work(kind, number, FULKIBONO_PLACE_RUNNING_KIND, FULKIBONO_PLACE_RUNNING_NUMBER); }
static void suspended(uint8_t kind, uint64_t number) { work(kind, number, FULKIBONO_PLACE_SUSPENDED_KIND, FULKIBONO_PLACE_SUSPENDED_NUMBER); }

/* ---- the model */

static int is_empty(const uint8_t *l, int i)
{
    int j;
    for (j = 0; j < SLOT; j++)
        if (l[i * SLOT + j] != 0xFF)
            return 0;
    return 1;
}

static int is_live(const uint8_t *l, int i, uint16_t n)
{
    const uint8_t *p = l + i * SLOT;
    return p[0] == 0x53 && p[1] == 0x54 && p[2] == n >> 8 && p[3] == (n & 0xFF);
}

/* the first live slot of the number, and how many there are */
static int live_slot(const uint8_t *l, uint16_t n)
{
    int i = 0;
    while (i < SLOTS && !is_live(l, i, n))
        i++;
    return i;
}
static int live_count(const uint8_t *l, uint16_t n)
{
    int i, c = 0;
    for (i = 0; i < SLOTS; i++)
        c += is_live(l, i, n);
    return c;
}

/* everything that a call can touch */
struct desk {
    uint8_t array[FULKIBONO_ARRAY], security[FULKIBONO_SECURITY];
    fulkibono_station_buffers buffers;
    fulkibono_record chip;
    uint8_t data[DATA];
};
static struct desk expected;

static void flag(fulkibono_record *c, uint8_t f, int on)
{
    if (on)
        c->bytes[FULKIBONO_PLACE_FLAGS] |= f;
    else
        c->bytes[FULKIBONO_PLACE_FLAGS] &= (uint8_t)~f;
}

/* the read, in a record that is well-formed: 0, 3 or 5, with the buffers and the enable */
static uint8_t model_read(struct desk *d)
{
    fulkibono_range hidden = fulkibono_array_range(fulkibono_suspended(&d->chip));
    uint32_t i;
    flag(&d->chip, FULKIBONO_FLAG_RESET_ENABLE, 0);
    memset(d->buffers.reply, 0xFF, LIST);
    memset(d->buffers.marks, 0, LIST);
    if (fulkibono_flag(&d->chip, FULKIBONO_FLAG_SQI))
        return FULKIBONO_NOT_LISTED;
    if (fulkibono_running(&d->chip).kind != FULKIBONO_KIND_NOTHING)
        return FULKIBONO_BUSY;
    for (i = 0; i < LIST; i++) {
        int there = !(START + i >= hidden.start && START + i - hidden.start < hidden.size);
        d->buffers.reply[i] = there ? d->array[START + i] : 0x00;
        d->buffers.marks[i] = (uint8_t)there;
    }
    return FULKIBONO_DONE;
}

static uint8_t model_find(struct desk *d, uint16_t station)
{
    uint8_t number = model_read(d);
    int i;
    if (number != FULKIBONO_DONE)
        return number;
    i = live_slot(d->buffers.reply, station);
    if (i == SLOTS)
        return FULKIBONO_NO_STATION;
    memcpy(d->data, d->buffers.reply + i * SLOT + 4, DATA);
    return FULKIBONO_DONE;
}

/* a write of n bytes at a place of the list. 1: done */
static int model_write(struct desk *d, int place, const uint8_t *bytes, int n, uint64_t allowance, uint64_t entry, fulkibono_stored *s)
{
    int i;
    if (entry >= 1 && entry <= allowance) {
        for (i = 0; i < n; i++)
            d->array[START + place + i] &= bytes[i];
        s->polls += entry;
        return 1;
    }
    /* it runs: the buffer has what was sent, FF elsewhere */
    memset(d->chip.bytes + FULKIBONO_PLACE_PAGE, 0xFF, 256);
    memcpy(d->chip.bytes + FULKIBONO_PLACE_PAGE + place % 256, bytes, (size_t)n);
    d->chip.bytes[FULKIBONO_PLACE_RUNNING_KIND] = FULKIBONO_KIND_PAGE_PROGRAM;
    d->chip.bytes[FULKIBONO_PLACE_RUNNING_NUMBER] = (uint8_t)(place / 256);
    d->chip.bytes[FULKIBONO_PLACE_RUNNING_NUMBER + 1] = START / 65536;
    flag(&d->chip, FULKIBONO_FLAG_WEL, 1);
    s->polls += allowance;
    s->number = FULKIBONO_POLLS_USED_UP;
    return 0;
}

static fulkibono_stored model_store(struct desk *d, uint16_t station, const uint8_t *data, uint64_t allowance, const uint64_t *list, size_t n)
{
    static const uint8_t mark[] = { 0x53, 0x54 }, cleared[] = { 0x00, 0x00 };
    fulkibono_stored s = { 0, 0 };
    uint8_t record[2 + DATA];
    const uint8_t *shown = d->buffers.reply;
    size_t w = 2;
    int i = 0, j;
    if (allowance > FULKIBONO_STATION_POLLS_MOST) {
        s.number = FULKIBONO_MALFORMED;
        return s;
    }
    s.number = model_read(d);
    if (s.number != FULKIBONO_DONE)
        return s;
    while (i < SLOTS && !is_empty(shown, i))
        i++;
    if (i == SLOTS) {
        s.number = FULKIBONO_LIST_FULL;
        return s;
    }
    flag(&d->chip, FULKIBONO_FLAG_WEL, 1);
    s.number = fulkibono_suspended(&d->chip).kind == FULKIBONO_KIND_PAGE_PROGRAM ? FULKIBONO_SUSPENSION
               : fulkibono_protection(&d->chip) & 1 ? FULKIBONO_WRITE_LOCKED : FULKIBONO_DONE;
    if (s.number != FULKIBONO_DONE)
        return s;
    record[0] = (uint8_t)(station >> 8);
    record[1] = (uint8_t)station;
    memcpy(record + 2, data, DATA);
    if (!model_write(d, i * SLOT + 2, record, 2 + DATA, allowance, n > 0 ? list[0] : 0, &s)
        || !model_write(d, i * SLOT, mark, 2, allowance, n > 1 ? list[1] : 0, &s))
        return s;
    for (j = 0; j < SLOTS; j++)
        if (is_live(shown, j, station)) {
            if (!model_write(d, j * SLOT, cleared, 2, allowance, n > w ? list[w] : 0, &s))
                return s;
            w++;
        }
    flag(&d->chip, FULKIBONO_FLAG_WEL, 0);
    return s;
}

/* ---- the library beside it */

static uint8_t found[DATA];
static int all_as_expected(void)
{
    return memcmp(&chip, &expected.chip, sizeof chip) == 0 && memcmp(&buffers, &expected.buffers, sizeof buffers) == 0
           && memcmp(found, expected.data, DATA) == 0 && memcmp(array, expected.array, sizeof array) == 0
           && memcmp(security, expected.security, sizeof security) == 0;
}
static void expect_now(void)
{
    memcpy(expected.array, array, sizeof array);
    memcpy(expected.security, security, sizeof security);
    expected.buffers = buffers;
    expected.chip = chip;
    memcpy(expected.data, found, DATA);
}

static uint8_t find(uint16_t station)
{
    uint8_t number;
    expect_now();
    number = fulkibono_find(&chip, array, security, &buffers, station, found);
    must(number == model_find(&expected, station), "the number of a find");
    must(all_as_expected(), "what a find leaves");
    return number;
}

static fulkibono_stored store(uint16_t station, const uint8_t *data, uint64_t allowance, const uint64_t *list, size_t n)
{
    fulkibono_stored s, t;
    expect_now();
    s = fulkibono_store(&chip, array, security, &buffers, station, data, allowance, list, n);
    t = model_store(&expected, station, data, allowance, list, n);
    must(s.number == t.number, "the number of a store");
    must(s.polls == t.polls, "the polls of a store");
    must(all_as_expected(), "what a store leaves");
    return s;
}

static const uint8_t *bytes_of(uint8_t value)
{
    static uint8_t data[DATA];
    memset(data, value, DATA);
    return data;
}

static int finds(uint16_t station, uint8_t value) { return find(station) == 0 && memcmp(found, bytes_of(value), DATA) == 0; }

/* ---- cases */

static const uint64_t ones[] = { 1, 1, 1, 1, 1, 1, 1, 1 };

static void layout(void)
{
    uint8_t data[DATA];
    int i;
    opened();
    for (i = 0; i < DATA; i++)
        data[i] = (uint8_t)(0xE0 - i);
    must(find(0x1234) == FULKIBONO_NO_STATION, "an empty list");
    must(store(0x1234, data, 1, ones, 2).number == 0, "a store");
    must(array[0x10000] == 0x53 && array[0x10001] == 0x54 && array[0x10002] == 0x12 && array[0x10003] == 0x34
         && memcmp(array + 0x10004, data, DATA) == 0 && array[0x10020] == 0xFF && array[0xFFFF] == 0xFF, "the first slot");
    must(find(0x1234) == 0 && memcmp(found, data, DATA) == 0, "a find");
    /* the last slot */
    for (i = 1; i < SLOTS - 1; i++)
        put(i, 0, 0, 0x1234, 0x11);
    must(store(0x4321, bytes_of(9), 1, ones, 2).number == 0 && array[0x1FFE0] == 0x53 && array[0x1FFFF] == 9 && array[0x20000] == 0xFF, "the last slot");
    must(finds(0x4321, 9), "the last slot is found");
    must(store(0x4321, bytes_of(9), 1, ones, 3).number == FULKIBONO_LIST_FULL && finds(0x4321, 9), "a full list");
    /* the short form: every write completes, of the most there are */
    opened();
    for (i = 0; i < SLOTS; i++)
        put(i, 0x53, 0x54, 5, (uint8_t)i);
    memset(array + START + 1000 * SLOT, 0xFF, SLOT);
    {
        fulkibono_stored s = fulkibono_store_at_once(&chip, array, security, &buffers, 5, bytes_of(0x77));
        must(s.number == 0 && s.polls == FULKIBONO_STATION_WRITES_MOST, "the most writes");
    }
    must(finds(5, 0x77) && live_count(array + START, 5) == 1, "one live slot is left");
}

/* a slot is empty only if all 32 bytes are FF, and live only by its mark */
static void classes(void)
{
    int j, bit;
    for (j = 0; j < SLOT; j++)
        for (bit = 0; bit < 8; bit++) {
            opened();
            array[START + j] = (uint8_t)(0xFF ^ 1 << bit);
            must(store(3, bytes_of(1), 1, ones, 2).number == 0 && array[START + SLOT] == 0x53, "a slot with one bit cleared is not empty");
            opened();
            put(0, 0x53, 0x54, 3, 2);
            array[START + j] ^= (uint8_t)(1 << bit);
            must((find(3) == 0) == (j >= 4), "one bit of a mark or a number");
        }
    /* a number that is a mark, and the number FFFF with data FF */
    opened();
    must(store(0x5354, bytes_of(0x53), 1, ones, 2).number == 0 && finds(0x5354, 0x53), "the number 5354");
    must(store(0xFFFF, bytes_of(0xFF), 1, ones, 2).number == 0 && finds(0xFFFF, 0xFF), "the number FFFF");
    must(store(0x0000, bytes_of(0x00), 1, ones, 2).number == 0 && finds(0x0000, 0x00), "the number 0000");
}

/* each refusal on its own, and in its order: with what applies in the number's bits, the first of the list is given */
static void order(void)
{
    unsigned why;
    for (why = 0; why < 64; why++) {
        int broken = why & 1, sqi = why >> 1 & 1, busy = why >> 2 & 1, full = why >> 3 & 1, aside = why >> 4 & 1, locked = why >> 5 & 1, i;
        uint64_t allowance;
        for (allowance = 0; allowance < 3; allowance++) {
            uint8_t number = broken || allowance == 2 ? 1 : sqi ? 3 : busy ? 5 : full ? 16 : aside ? 8 : locked ? 11 : allowance ? 0 : 18;
            uint64_t polls = allowance == 2 ? (uint64_t)FULKIBONO_STATION_POLLS_MOST + 1 : allowance;
            fulkibono_stored s;
            if (busy && aside)
                continue; /* not together: both have a page's buffer */
            opened();
            if (locked)
                chip.bytes[FULKIBONO_PLACE_PROTECTION] = 1;
            if (busy)
                running(FULKIBONO_KIND_SECTOR_ERASE, 100);
            if (aside)
                suspended(FULKIBONO_KIND_PAGE_PROGRAM, 100);
            for (i = 0; full && i < SLOTS; i++)
                put(i, 0, 0, 1, 1);
            flag(&chip, FULKIBONO_FLAG_SQI, sqi);
            flag(&chip, FULKIBONO_FLAG_RESET_ENABLE, 1);
            if (broken) {
                chip.bytes[FULKIBONO_RECORD_SIZE - 1] = 1;
                expect_now();
                s = fulkibono_store(&chip, array, security, &buffers, 2, bytes_of(2), polls, ones, 2);
                must(s.number == 1 && s.polls == 0 && all_as_expected(), "a store with no record's bytes");
                must(fulkibono_find(&chip, array, security, &buffers, 2, found) == 1 && all_as_expected(), "a find with no record's bytes");
                continue;
            }
            must(store(2, bytes_of(2), polls, ones, 2).number == number, "the order of the refusals");
            must(fulkibono_flag(&chip, FULKIBONO_FLAG_RESET_ENABLE) == (number == 1), "the enable");
        }
    }
}

/* polls and completions: about the allowance, and at each write */
static void polls(void)
{
    static const uint64_t entries[] = { 0, 1, 2, 3, 4, 5, 65535, 65536, UINT64_MAX }, allowances[] = { 0, 1, 3, 4, 65535, 65536, UINT64_MAX };
    unsigned a, e, w, n;
    for (a = 0; a < sizeof allowances / sizeof *allowances; a++)
        for (e = 0; e < sizeof entries / sizeof *entries; e++)
            for (w = 0; w < 4; w++) {
                uint64_t list[4] = { 1, 1, 1, 1 };
                opened();
                put(0, 0x53, 0x54, 6, 1);
                put(1, 0x53, 0x54, 6, 2);
                list[w] = entries[e];
                (void)store(6, bytes_of(7), allowances[a], list, 4);
            }
    for (n = 0; n <= 5; n++) { /* a list that is shorter than the writes, or longer */
        opened();
        put(0, 0x53, 0x54, 6, 1);
        put(1, 0x53, 0x54, 6, 2);
        must(store(6, bytes_of(7), 9, n ? ones : NULL, n).number == (n < 4 ? 18 : 0), "the list's length");
        must(n < 4 || finds(6, 7), "a store with the list");
    }
}

/* after 18: busy until the completion, and then the same store again is right */
static void going_on(void)
{
    unsigned w;
    for (w = 0; w < 4; w++) {
        opened();
        put(0, 0x53, 0x54, 6, 1);
        put(1, 0x53, 0x54, 6, 2);
        put(2, 0x53, 0x54, 8, 3);
        must(store(6, bytes_of(7), 5, ones, w).number == 18 && find(6) == FULKIBONO_BUSY && store(6, bytes_of(7), 5, ones, 8).number == FULKIBONO_BUSY,
             "busy after 18");
        must(fulkibono_complete(&chip, array, security) == 0, "the completion after 18");
        must(store(6, bytes_of(7), 5, ones, 8).number == 0 && finds(6, 7) && finds(8, 3) && live_count(array + START, 6) == 1, "the same store again");
    }
}

/* ---- random lists, records and calls */

static void some_list(void)
{
    uint32_t full = below(4), i;
    for (i = 0; i < SLOTS; i++) {
        uint16_t station = (uint16_t)(below(5) ? below(6) : any());
        switch (full == 0 ? below(40) : full == 1 ? 4 + below(8) : full == 2 ? i < 1500 ? 4 + below(2) : 12 : below(8)) {
        case 0: case 1: case 2: case 3: break; /* empty */
        case 4: case 5: put((int)i, 0x53, 0x54, station, (uint8_t)any()); break;
        case 6: put((int)i, 0, 0, station, (uint8_t)any()); break;
        case 7: put((int)i, 0xFF, 0xFF, station, (uint8_t)any()); break;
        case 8: put((int)i, (uint8_t)(below(2) ? 0x53 : any()), (uint8_t)(below(2) ? 0x54 : any()), station, (uint8_t)any()); break;
        default: break;
        }
    }
    for (i = below(40); i > 0; i--) /* a bit here and there */
        array[START + below(LIST)] &= (uint8_t)~(1u << below(8));
}

static void some_chip(void)
{
    if (below(3) == 0)
        flag(&chip, FULKIBONO_FLAG_WEL, 1);
    if (below(3) == 0)
        flag(&chip, FULKIBONO_FLAG_RESET_ENABLE, 1);
    if (below(3) == 0)
        chip.bytes[FULKIBONO_PLACE_FLAGS] ^= (uint8_t)(FULKIBONO_FLAG_IOC | FULKIBONO_FLAG_WPEN | FULKIBONO_FLAG_WPLD);
    if (below(20) == 0)
        flag(&chip, FULKIBONO_FLAG_SQI, 1);
    chip.bytes[FULKIBONO_PLACE_BURST] = (uint8_t)below(4);
    switch (below(12)) {
    case 0: running(FULKIBONO_KIND_SECTOR_ERASE, below(512)); break;
    case 1: case 2: suspended(FULKIBONO_KIND_SECTOR_ERASE, 16 + below(16)); break;
    case 3: suspended(FULKIBONO_KIND_BLOCK_ERASE, 38 + below(2)); break;
    case 4: suspended(FULKIBONO_KIND_PAGE_PROGRAM, 256 + below(256)); break;
    case 5: chip.bytes[FULKIBONO_PLACE_PROTECTION] = (uint8_t)any(); break; /* no record has work in a locked block */
    default: break;
    }
}

static void random_calls(int rounds)
{
    uint64_t list[12];
    uint8_t data[DATA];
    int i;
    uint32_t j, calls;
    for (i = 0; i < rounds; i++) {
        opened();
        some_list();
        some_chip();
        for (calls = 1 + below(4); calls > 0; calls--) {
            uint16_t station = (uint16_t)(below(8) ? below(7) : any());
            for (j = 0; j < DATA; j++)
                data[j] = (uint8_t)(below(3) ? any() : 0xFF);
            for (j = 0; j < 12; j++)
                list[j] = below(10) ? 1 + below(5) : below(9);
            if (below(3) == 0)
                (void)find(station);
            else if (store(station, data, below(8) ? 5 : below(7), list, below(13)).number == 18 && below(2))
                must(fulkibono_complete(&chip, array, security) == 0, "a completion");
        }
    }
}

/* ---- a power cut in the middle of a store: the write that 18 left running is stopped at k with m */

/* all FF but for the range */
static int untouched(fulkibono_range r)
{
    uint32_t i;
    for (i = 0; i < FULKIBONO_ARRAY; i++)
        if (array[i] != 0xFF && !(i >= r.start && i - r.start < r.size))
            return 0;
    for (i = 0; i < FULKIBONO_SECURITY; i++)
        if (security[i] != 0xFF)
            return 0;
    return 1;
}

static void cuts(int rounds)
{
    static uint8_t before[LIST], midway[LIST];
    static const uint8_t ms[] = { 0x00, 0xFF, 0x53, 0x54, 0xF0, 0xAC };
    const fulkibono_range whole = { START, LIST };
    int round;
    for (round = 0; round < rounds; round++) {
        uint16_t station = (uint16_t)below(6);
        uint64_t list[16];
        uint8_t data[DATA];
        int live, writes, w, i;
        opened();
        some_list();
        memset(array + START + below(SLOTS) * SLOT, 0xFF, SLOT); /* not full */
        for (live = 0, i = 0; round % 2 && i < SLOTS; i++) /* at most one live slot of the number, every other time */
            if (is_live(array + START, i, station) && live++)
                array[START + i * SLOT] = 0;
        for (i = 0; i < DATA; i++)
            data[i] = (uint8_t)any();
        memcpy(before, array + START, LIST);
        live = live_count(before, station);
        writes = 2 + (live < 6 ? live : 6);
        for (w = 0; w < writes; w++) {
            fulkibono_record busy;
            fulkibono_range r;
            const uint8_t *page = busy.bytes + FULKIBONO_PLACE_PAGE;
            uint32_t first = 0, sent = w == 0 ? 2 + DATA : 2;
            int t;
            opened();
            memcpy(array + START, before, LIST);
            for (i = 0; i < 16; i++)
                list[i] = i == w ? 0 : 1;
            must(store(station, data, 2, list, 16).number == 18, "entry 0");
            busy = chip;
            memcpy(midway, array + START, LIST);
            r = fulkibono_array_range(fulkibono_running(&chip));
            must(r.start >= START && r.start + r.size <= START + LIST, "what runs is in the list");
            while (first < 255 && page[first] == 0xFF)
                first++;
            for (t = 0; t < 24; t++) {
                /* at the bytes that are sent and about them, anywhere in the page, and past it */
                uint64_t k = t < 14 ? first + below(sent + 3) : t < 18 ? below(256) : t < 22 ? 255 + below(3) : (uint64_t)1 << below(64);
                uint8_t m = below(3) ? ms[below(sizeof ms)] : (uint8_t)any();
                int right = 1;
                uint16_t q;
                if (t < 14 && first)
                    k--;
                chip = busy;
                memcpy(array + START, midway, LIST);
                must(fulkibono_cut(&chip, array, security, k, m) == 0, "a cut");
                for (i = 0; i < LIST; i++) {
                    uint32_t at = START + (uint32_t)i - r.start;
                    uint8_t old = midway[i], finished = at < 256 ? old & page[at] : old;
                    right &= array[START + i] == (at >= 256 || at > k ? old : at < k ? finished : (old & (finished | m)));
                }
                must(right, "the list after a cut");
                /* each station of the list, by the plain model */
                for (q = 0; q < 7; q++) {
                    int was = live_slot(before, q), is = live_slot(array + START, q);
                    const uint8_t *old = was < SLOTS ? before + was * SLOT + 4 : NULL, *now = is < SLOTS ? array + START + is * SLOT + 4 : NULL;
                    int same = old && now ? memcmp(old, now, DATA) == 0 : !old && !now;
                    if (q != station)
                        must(same, "another station after a cut");
                    else if (live <= 1)
                        must(same || (now && memcmp(now, data, DATA) == 0), "the station after a cut: old or new");
                }
                for (i = 0; i < SLOTS; i++) { /* a slot that came to life is the station's, with its data; one that died was the station's */
                    const uint8_t *o = before + i * SLOT, *p = array + START + i * SLOT;
                    uint16_t was = (uint16_t)(o[2] << 8 | o[3]), is = (uint16_t)(p[2] << 8 | p[3]);
                    if (is_live(array + START, i, is) && !is_live(before, i, is))
                        must(is == station && memcmp(p + 4, data, DATA) == 0, "a slot that came to life");
                    if (is_live(before, i, was) && !is_live(array + START, i, was))
                        must(was == station, "a slot that died");
                }
                if (t % 8 == 0) { /* and by the library, after the power-up */
                    (void)find(station);
                    (void)find((uint16_t)((station + 1) % 6));
                    must(store(station, data, 2, ones, 8).number == FULKIBONO_WRITE_LOCKED, "the list is locked after a power-up");
                }
            }
            must(untouched(whole), "a place outside the list");
        }
    }
}

int main(void)
{
    for (ba = 0; ba < 2; ba++) {
        layout();
        classes();
        order();
        polls();
        going_on();
        random_calls(600);
        cuts(30);
    }
    printf("stations: version %d, %ld facts, all as the header says\n", FULKIBONO_VERSION, tried);
    return 0;
}
