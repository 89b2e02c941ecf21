/* What the header says of a record, tried on the library, with a chip of each part: places, flags, kinds and their numbers, ranges, the order of the
 * blocks, what a refusal leaves, what the k and m of a reset and of a power cut mean, which bytes are no record's code. */
#include "fulkibono.h"
#include <stdio.h>
#include <stdlib.h>
#include <string.h>

static uint8_t array[FULKIBONO_ARRAY], security[FULKIBONO_SECURITY];
static fulkibono_record chip;
static int tried;

static void must(int right, const char *what)
{
    tried++;
    if (!right) {
        fprintf(stderr, "record: %s\n", what);
        exit(1);
    }
}

/* the part that is tried: 1 for BA */
static int ba;

/* what a power-up makes of flags: SEC, WPEN and the part stay, IOC is the part's, the others are 0 */
static uint8_t powered_up(uint8_t flags)
{
    uint8_t stay = flags & (FULKIBONO_FLAG_SEC | FULKIBONO_FLAG_WPEN | FULKIBONO_FLAG_BA);
    return flags & FULKIBONO_FLAG_BA ? stay | FULKIBONO_FLAG_IOC : stay;
}

static uint8_t new_flags(void) { return powered_up(ba ? FULKIBONO_FLAG_BA : 0); }

/* a new chip, all memory FF */
static void begin(void)
{
    memset(array, 0xFF, sizeof array);
    memset(security, 0xFF, sizeof security);
    if (ba)
        fulkibono_make(&chip);
    else
        fulkibono_make_old(&chip);
}

/* a frame of n bytes: opcode, then the bytes of x, highest first */
static uint8_t frame(uint8_t opcode, uint64_t x, size_t n)
{
    uint8_t sent[8];
    size_t i;
    sent[0] = opcode;
    for (i = 1; i < n; i++)
        sent[i] = (uint8_t)(x >> 8 * (n - 1 - i));
    return fulkibono_send(&chip, array, security, sent, n, NULL, NULL, 0);
}

/* the same with WEL, done */
static void written(uint8_t opcode, uint64_t x, size_t n)
{
    must(frame(0x06, 0, 1) == 0 && fulkibono_flag(&chip, FULKIBONO_FLAG_WEL), "06");
    must(frame(opcode, x, n) == 0, "a frame is refused");
}

static void opened(void)
{
    begin();
    written(0x98, 0, 1);
    must(fulkibono_protection(&chip) == 0 && !fulkibono_flag(&chip, FULKIBONO_FLAG_WEL), "98");
}

static int is(fulkibono_work w, uint8_t kind, uint64_t number) { return w.kind == kind && w.number == number; }

static int places(fulkibono_range r, uint32_t start, uint32_t size) { return r.start == start && r.size == size; }

static void runs(uint8_t kind, uint64_t number)
{
    must(is(fulkibono_running(&chip), kind, number), "what runs");
    must(is(fulkibono_suspended(&chip), FULKIBONO_KIND_NOTHING, 0), "nothing is suspended");
}

/* what is said runs */
static void run(uint8_t kind, uint64_t number)
{
    int i;
    chip.bytes[FULKIBONO_PLACE_RUNNING_KIND] = kind;
    for (i = 0; i < 8; i++)
        chip.bytes[FULKIBONO_PLACE_RUNNING_NUMBER + i] = (uint8_t)(number >> 8 * i);
}

static void ends(void)
{
    must(fulkibono_complete(&chip, array, security) == 0, "the completion");
    runs(FULKIBONO_KIND_NOTHING, 0);
}

/* exactly the places of the range have the value */
static int alone(fulkibono_range r, uint8_t value)
{
    uint32_t i;
    for (i = 0; i < FULKIBONO_ARRAY; i++)
        if ((array[i] == value) != (i >= r.start && i - r.start < r.size))
            return 0;
    return 1;
}

/* each byte: the buffer FF, the protection register, the flags, all others 0 */
static void new_chip(void)
{
    static const uint8_t protection[] = { 0xFF, 0xFF, 0xFF, 0xFF, 0x55, 0x55 };
    size_t i;
    begin();
    runs(FULKIBONO_KIND_NOTHING, 0);
    must(fulkibono_protection(&chip) == 0x5555FFFFFFFF && fulkibono_permanent(&chip) == 0, "the registers of a new chip");
    must(fulkibono_flag(&chip, FULKIBONO_FLAG_BA) == ba && fulkibono_flag(&chip, FULKIBONO_FLAG_IOC) == ba, "the part of a new chip, and its IOC");
    must(fulkibono_burst(&chip) == 8, "the burst of a new chip");
    for (i = 0; i < FULKIBONO_RECORD_SIZE; i++) {
        size_t in_register = i - FULKIBONO_PLACE_PROTECTION;
        must(chip.bytes[i] == (i < FULKIBONO_PLACE_PROTECTION ? 0xFF : in_register < sizeof protection ? protection[in_register]
                               : i == FULKIBONO_PLACE_FLAGS && ba ? 0x84 : 0), "a byte of a new chip");
    }
}

/* what differs between new chips of the two parts: 35, and the frames that need IOC */
static void of_the_part(void)
{
    const uint8_t configuration[] = { 0x35 };
    uint8_t number = ba ? FULKIBONO_DONE : FULKIBONO_NO_IOC, reply, mark;
    begin();
    must(fulkibono_send(&chip, array, security, configuration, 1, &reply, &mark, 1) == 0 && reply == (ba ? 0x0A : 0x08) && mark == 1, "35");
    must(frame(0x6B, 0, 5) == number && frame(0xEC, 0, 7) == number, "6B and EC on a new chip");
    opened();
    must(frame(0x06, 0, 1) == 0 && frame(0x32, 0x55, 5) == number, "32 on a new chip");
    runs(ba ? FULKIBONO_KIND_PAGE_PROGRAM : FULKIBONO_KIND_NOTHING, 0);
}

/* ---- ranges */

static void blocks(void)
{
    uint32_t all = 0;
    unsigned n;
    opened();
    memset(array, 0, sizeof array);
    for (n = 0; n < 40; n++) {
        fulkibono_range r = fulkibono_block(n);
        written(0xD8, r.start + r.size - 1, 4);
        runs(FULKIBONO_KIND_BLOCK_ERASE, n);
        ends();
        memset(array + r.start, 0, r.size);
        written(0xD8, r.start, 4);
        runs(FULKIBONO_KIND_BLOCK_ERASE, n);
        r = fulkibono_array_range(fulkibono_running(&chip));
        must(fulkibono_security_range(fulkibono_running(&chip)).size == 0, "a block is not in the Security ID");
        ends();
        must(alone(r, 0xFF), "the places of a block");
        memset(array + r.start, 0, r.size);
        all += r.size;
    }
    must(all == FULKIBONO_ARRAY && fulkibono_block(40).size == 0, "forty blocks cover the array");
    must(fulkibono_block(0).start == 0x1FE000 && fulkibono_block(39).start == 0x010000, "the first block and the last");
}

static void sector(void)
{
    const uint8_t read[] = { 0x03, 0x12, 0x2F, 0xFF };
    uint8_t reply[0x1002], marks[0x1002];
    fulkibono_range r;
    opened();
    written(0x20, 0x123456, 4);
    runs(FULKIBONO_KIND_SECTOR_ERASE, 0x123);
    must(frame(0xB0, 0, 1) == 0, "B0");
    must(is(fulkibono_running(&chip), FULKIBONO_KIND_NOTHING, 0), "nothing runs");
    must(is(fulkibono_suspended(&chip), FULKIBONO_KIND_SECTOR_ERASE, 0x123), "what is suspended");
    r = fulkibono_array_range(fulkibono_suspended(&chip));
    must(places(r, 0x123000, 0x1000), "the suspended range");
    must(fulkibono_send(&chip, array, security, read, sizeof read, reply, marks, sizeof reply) == 0, "03");
    must(marks[0] && !marks[1] && !marks[0x1000] && marks[0x1001], "the suspended range as it is read");
    must(fulkibono_complete(&chip, array, security) == FULKIBONO_NOTHING_RUNS, "a completion beside suspended work");
    must(frame(0x30, 0, 1) == 0, "30");
    runs(FULKIBONO_KIND_SECTOR_ERASE, 0x123);
    ends();
}

static void programs(void)
{
    opened();
    written(0x02, 0x0001FE112233, 7);
    runs(FULKIBONO_KIND_PAGE_PROGRAM, 1);
    must(places(fulkibono_array_range(fulkibono_running(&chip)), 0x100, 0x100), "the page");
    must(chip.bytes[FULKIBONO_PLACE_PAGE + 0xFE] == 0x11 && chip.bytes[FULKIBONO_PLACE_PAGE + 0xFF] == 0x22
         && chip.bytes[FULKIBONO_PLACE_PAGE] == 0x33 && chip.bytes[FULKIBONO_PLACE_PAGE + 1] == 0xFF, "the page buffer");
    ends();
    written(0x02, 0x1FFF0055, 5);
    runs(FULKIBONO_KIND_PAGE_PROGRAM, 0x1FFF);
    ends();
    written(0xA5, 0x0710AA, 4);
    runs(FULKIBONO_KIND_SECURITY_PROGRAM, 7);
    must(places(fulkibono_security_range(fulkibono_running(&chip)), 0x700, 0x100), "the page of the Security ID");
    must(fulkibono_array_range(fulkibono_running(&chip)).size == 0, "the Security ID is not in the array");
    ends();
    must(security[0x710] == 0xAA, "the Security ID");
    written(0xC7, 0, 1);
    runs(FULKIBONO_KIND_ARRAY_ERASE, 0);
    must(places(fulkibono_array_range(fulkibono_running(&chip)), 0, FULKIBONO_ARRAY), "the array");
    ends();
}

/* ---- what stops the running operation */

static uint8_t cut(uint64_t k) { return fulkibono_cut(&chip, array, security, k, fulkibono_clean_m(&chip)); }

/* the frame 66 or 99, with k and m */
static uint8_t reset_frame(uint8_t opcode, uint64_t k, uint8_t m)
{
    fulkibono_circumstances x = { 0, 0 };
    x.k = k;
    x.m = m;
    return fulkibono_send_in(&chip, array, security, &opcode, 1, NULL, NULL, 0, x);
}

/* by a reset, or by a power cut */
static void stopped(uint64_t k, uint8_t m, int by_cut)
{
    if (by_cut)
        must(fulkibono_cut(&chip, array, security, k, m) == 0, "a cut");
    else
        must(reset_frame(0x66, k, m) == 0 && reset_frame(0x99, k, m) == 0, "a reset");
    runs(FULKIBONO_KIND_NOTHING, 0);
}

/* what the header says of byte k, of those before it and of those behind it: each place of both memories, for each kind that has a range, the range's
 * every end and each of some m */
static void torn(void)
{
    static const struct { uint8_t kind; uint64_t number; } work[] = {
        { FULKIBONO_KIND_SECTOR_ERASE, 3 },   { FULKIBONO_KIND_BLOCK_ERASE, 0 },      { FULKIBONO_KIND_PAGE_PROGRAM, 0x21 },
        { FULKIBONO_KIND_PAGE_PROGRAM, 8191 }, { FULKIBONO_KIND_SECURITY_PROGRAM, 7 }, { FULKIBONO_KIND_ARRAY_ERASE, 0 },
    };
    static const uint8_t ms[] = { 0x00, 0xFF, 0xF0, 0x30 };
    static uint8_t old[FULKIBONO_ARRAY], old_security[FULKIBONO_SECURITY];
    unsigned w, at, j, i, by_cut;
    for (i = 0; i < FULKIBONO_ARRAY; i++)
        old[i] = (uint8_t)(i * 167 + i / 256);
    for (i = 0; i < FULKIBONO_SECURITY; i++)
        old_security[i] = (uint8_t)(i * 91 + 5);
    for (w = 0; w < sizeof work / sizeof *work; w++)
        for (at = 0; at < 8; at++)
            for (j = 0; j < sizeof ms; j++)
                for (by_cut = 0; by_cut < 2; by_cut++) {
                    int program = work[w].kind == FULKIBONO_KIND_PAGE_PROGRAM || work[w].kind == FULKIBONO_KIND_SECURITY_PROGRAM, right = 1;
                    uint8_t m = ms[j], *memory;
                    const uint8_t *was;
                    fulkibono_range r;
                    uint64_t k;
                    if (work[w].kind == FULKIBONO_KIND_ARRAY_ERASE && (at % 2 == 0 || j > 1))
                        continue; /* long ones: fewer */
                    opened();
                    memcpy(array, old, sizeof array);
                    memcpy(security, old_security, sizeof security);
                    for (i = 0; program && i < 256; i++)
                        chip.bytes[FULKIBONO_PLACE_PAGE + i] = (uint8_t)(i * 29 + 3);
                    run(work[w].kind, work[w].number);
                    r = fulkibono_array_range(fulkibono_running(&chip));
                    memory = r.size ? array : security;
                    was = r.size ? old : old_security;
                    if (!r.size)
                        r = fulkibono_security_range(fulkibono_running(&chip));
                    k = at < 3 ? at : at < 6 ? r.size + at - 4 : at == 6 ? UINT64_MAX : (uint64_t)1 << 32;
                    must(fulkibono_clean_m(&chip) == (program ? 0xFF : 0x00), "the m that leaves byte k");
                    stopped(k, m, (int)by_cut);
                    for (i = 0; i < r.size; i++) {
                        uint8_t finished = program ? was[r.start + i] & (uint8_t)(i * 29 + 3) : 0xFF;
                        uint8_t there = i < k ? finished : i > k ? was[r.start + i]
                                        : program ? was[r.start + i] & (finished | m) : was[r.start + i] | m;
                        right &= memory[r.start + i] == there;
                        memory[r.start + i] = was[r.start + i];
                    }
                    must(right, "the range of what was stopped");
                    must(memcmp(array, old, sizeof array) == 0 && memcmp(security, old_security, sizeof security) == 0, "the other places");
                }
}

/* k and m of every other frame: a 99 that is refused or stops nothing, and what is no 99 */
static void not_used(void)
{
    static const uint64_t ks[] = { 0, 5, UINT64_MAX };
    const fulkibono_range whole = { 0, FULKIBONO_ARRAY };
    unsigned i;
    for (i = 0; i < 6; i++) {
        uint64_t k = ks[i / 2];
        uint8_t m = i % 2 ? 0xFF : 0x00;
        opened();
        memset(array, 0x0F, sizeof array);
        written(0x20, 0x3000, 4);
        must(reset_frame(0x99, k, m) == FULKIBONO_NO_ENABLE, "99 with no enable");
        must(reset_frame(0x66, k, m) == 0 && reset_frame(0x05, k, m) == 0, "66 and 05");
        must(reset_frame(0x99, k, m) == FULKIBONO_NO_ENABLE, "99 with an enable that is used up");
        must(reset_frame(0x66, k, m) == 0 && reset_frame(0x03, k, m) == FULKIBONO_WRONG_LENGTH, "03 while busy");
        runs(FULKIBONO_KIND_SECTOR_ERASE, 3);
        must(reset_frame(0xB0, k, m) == 0, "B0");
        stopped(k, m, 0); /* only suspended work: it is dropped */
        stopped(k, m, 0); /* and an idle chip */
        must(alone(whole, 0x0F), "k and m are not used");
        /* beside a running program the suspended erase is dropped, its target unchanged */
        written(0x20, 0x3000, 4);
        must(reset_frame(0xB0, k, m) == 0, "B0");
        written(0x02, 0x005000000000, 7);
        stopped(2, 0xF3, 0);
        must(array[0x5000] == 0 && array[0x5001] == 0 && array[0x5002] == 0x03 && array[0x5003] == 0x0F, "the program beside it");
        memset(array + 0x5000, 0x0F, 3);
        must(alone(whole, 0x0F), "suspended work is dropped");
    }
}

/* a struct of zeros: the target of an erase stays, the first byte of a program is finished */
static void zeroed(void)
{
    fulkibono_circumstances x = { 0, 0 };
    opened();
    written(0x02, 0x004000112233, 7);
    must(fulkibono_untorn(&chip).k == 0 && fulkibono_untorn(&chip).m == 0xFF, "what tears nothing of a program");
    stopped(x.k, x.m, 0);
    must(array[0x4000] == 0x11 && array[0x4001] == 0xFF, "a struct of zeros and a program's first byte");
    written(0x20, 0x004000, 4);
    must(fulkibono_untorn(&chip).k == 0 && fulkibono_untorn(&chip).m == 0, "what tears nothing of an erase");
    stopped(x.k, x.m, 0);
    must(array[0x4000] == 0x11 && array[0x4001] == 0xFF, "a struct of zeros and an erase");
    written(0x02, 0x005000112233, 7);
    must(frame(0x66, 0, 1) == 0 && frame(0x99, 0, 1) == 0, "a reset");
    must(array[0x5000] == 0xFF && array[0x5001] == 0xFF && array[0x5002] == 0xFF, "fulkibono_send tears nothing");
}

/* ---- registers and flags; 85, 01, E8 and what stops them */

static void flags(void)
{
    static const uint8_t on[] = { 0x38, 0x06, 0x66 };
    static const uint8_t flag[] = { FULKIBONO_FLAG_SQI, FULKIBONO_FLAG_WEL, FULKIBONO_FLAG_RESET_ENABLE };
    unsigned i;
    for (i = 0; i < sizeof on; i++) {
        begin();
        must(frame(on[i], 0, 1) == 0 && fulkibono_flag(&chip, flag[i]) && chip.bytes[FULKIBONO_PLACE_FLAGS] == (new_flags() | flag[i]), "a flag");
    }
    begin();
    written(0x8D, 0, 1);
    must(chip.bytes[FULKIBONO_PLACE_FLAGS] == (new_flags() | FULKIBONO_FLAG_WPLD), "WPLD");
    begin();
    written(0x42, 0x123456789ABC, 7);
    must(fulkibono_protection(&chip) == 0x123456789ABC && fulkibono_permanent(&chip) == 0, "42");
}

enum way { COMPLETION, CUT, RESET };

static void ended(uint64_t k, enum way by)
{
    if (by == COMPLETION)
        ends();
    else
        stopped(k, (uint8_t)(k ^ 0x5A), by == CUT);
}

static void no_range(void)
{
    unsigned way;
    for (way = 0; way < 7; way++) { /* completion; cuts and resets at 0, 1 and far */
        static const uint64_t ks[] = { 0, 0, 1, UINT64_MAX, 0, 1, UINT64_MAX };
        enum way by = way == 0 ? COMPLETION : way < 4 ? CUT : RESET;
        int acts = way == 0 || ks[way] > 0, said;
        begin();
        written(0x85, 0, 1);
        runs(FULKIBONO_KIND_SECURITY_LOCK, 0);
        ended(ks[way], by);
        must(fulkibono_flag(&chip, FULKIBONO_FLAG_SEC) == acts, "85");
        for (said = 0; said < 4; said++) { /* a reset gives the part its IOC again, as the power-up of a cut does */
            int ioc = said & 1, wpen = said >> 1;
            begin();
            written(0x01, (uint64_t)(0xFF00 | !ba << 1), 3);
            ends();
            written(0x01, (uint64_t)(0xFF00 | ioc << 1 | wpen << 7), 3);
            runs(FULKIBONO_KIND_CONFIGURATION, said);
            ended(ks[way], by);
            must(fulkibono_flag(&chip, FULKIBONO_FLAG_WPEN) == (acts && wpen)
                 && fulkibono_flag(&chip, FULKIBONO_FLAG_IOC) == (by == COMPLETION ? ioc : ba), "01");
            must(frame(0x66, 0, 1) == 0 && frame(0x99, 0, 1) == 0, "a reset");
            must(fulkibono_flag(&chip, FULKIBONO_FLAG_WPEN) == (acts && wpen) && fulkibono_flag(&chip, FULKIBONO_FLAG_IOC) == ba, "01, and a reset");
        }
        begin();
        written(0xE8, 0xC00000000001, 7);
        runs(FULKIBONO_KIND_PERMANENT_BITS, 0xC00000000001);
        ended(ks[way], by);
        must(fulkibono_permanent(&chip) == (acts ? 0x400000000001 : 0), "E8");
        must(fulkibono_protection(&chip) == 0x5555FFFFFFFF, "E8 on a new chip's register");
        opened();
        written(0xE8, 0xC00000000001, 7);
        ended(ks[way], by);
        must(fulkibono_permanent(&chip) == (acts ? 0x400000000001 : 0), "E8");
        must(fulkibono_protection(&chip) == (by == CUT ? 0x5555FFFFFFFF : acts ? 0x400000000001 : 0), "E8 on a register that 98 cleared");
    }
}

static void idle_cut(void)
{
    fulkibono_record fresh;
    uint64_t k;
    begin();
    fresh = chip;
    for (k = 0; k < 3; k++) {
        must(frame(0x06, 0, 1) == 0 && cut(k) == 0, "a cut of an idle chip");
        must(memcmp(&chip, &fresh, sizeof chip) == 0, "power-up");
    }
    opened();
    written(0x20, 0, 4);
    must(frame(0xB0, 0, 1) == 0 && cut(9) == 0, "a cut beside suspended work");
    must(memcmp(&chip, &fresh, sizeof chip) == 0, "suspended work is dropped");
    opened();
    memset(array, 0, sizeof array);
    written(0x20, 0x3000, 4);
    must(cut(10) == 0, "a cut");
    {
        fulkibono_range first = { 0x3000, 10 };
        must(alone(first, 0xFF), "the first bytes of the range");
    }
}

/* ---- refusals, and bytes that are no code */

static void refusals(void)
{
    static const uint8_t opcodes[] = { 0x77, 0x06, 0x6B, 0x30, 0x20 }; /* 3, 4, 7, 8, 9 */
    static const uint8_t numbers[] = { 3, 4, 7, 8, 9 };
    static const size_t lengths[] = { 1, 2, 5, 1, 4 };
    fulkibono_record before;
    uint8_t reply[2], marks[2];
    unsigned i;
    for (i = 0; i < sizeof opcodes; i++) {
        begin();
        chip.bytes[FULKIBONO_PLACE_FLAGS] &= (uint8_t)~FULKIBONO_FLAG_IOC;
        must(frame(0x66, 0, 1) == 0, "66");
        before = chip;
        must(frame(opcodes[i], 0, lengths[i]) == numbers[i], "a refusal's number");
        must(!fulkibono_flag(&chip, FULKIBONO_FLAG_RESET_ENABLE), "the enable is used up");
        chip.bytes[FULKIBONO_PLACE_FLAGS] |= FULKIBONO_FLAG_RESET_ENABLE;
        must(memcmp(&chip, &before, sizeof chip) == 0, "nothing else changes");
    }
    begin();
    must(frame(0x66, 0, 1) == 0, "66");
    before = chip;
    memset(reply, 0x12, sizeof reply);
    memset(marks, 0x12, sizeof marks);
    must(fulkibono_send(&chip, array, security, NULL, 0, reply, marks, 2) == FULKIBONO_EMPTY, "an empty frame");
    must(memcmp(&chip, &before, sizeof chip) == 0 && reply[0] == 0xFF && reply[1] == 0xFF && !marks[0] && !marks[1], "what 2 leaves");
}

static void refused(const char *what)
{
    fulkibono_record before = chip;
    uint8_t reply = 0x12, mark = 0x34;
    const uint8_t status = 0x05;
    must(fulkibono_send(&chip, array, security, &status, 1, &reply, &mark, 1) == FULKIBONO_MALFORMED, what);
    must(fulkibono_complete(&chip, array, security) == FULKIBONO_MALFORMED, what);
    must(cut(1) == FULKIBONO_MALFORMED, what);
    must(memcmp(&chip, &before, sizeof chip) == 0 && reply == 0x12 && mark == 0x34, "what 1 leaves");
}

/* an open chip with what is said running */
static void made(uint8_t kind, uint64_t number)
{
    opened();
    run(kind, number);
}

/* C0 sets the burst, and a burst read wraps within its group; a record stored before bursts has 0 in their place */
static void bursts(void)
{
    static const uint8_t length[] = { 8, 16, 32, 64 };
    uint8_t set[] = { 0xC0, 0 }, read[] = { 0xEC, 0x01, 0x23, 0x7E, 0, 0, 0 }, reply[70], marks[70];
    unsigned i, k;
    opened();
    for (i = 0; i < 256; i++)
        array[0x012300 + i] = (uint8_t)i;
    chip.bytes[FULKIBONO_PLACE_FLAGS] |= FULKIBONO_FLAG_IOC;
    for (k = 0; k < 256; k++) {
        unsigned old = fulkibono_burst(&chip);
        set[1] = (uint8_t)k;
        must(fulkibono_send(&chip, array, security, set, 2, NULL, NULL, 0) == (k < 4 ? FULKIBONO_DONE : FULKIBONO_NO_SUCH_BURST), "C0");
        must(fulkibono_burst(&chip) == (k < 4 ? length[k] : old), "the burst that C0 sets");
        must(fulkibono_send(&chip, array, security, read, 7, reply, marks, sizeof reply) == 0, "EC");
        for (i = 0; i < sizeof reply; i++) {
            unsigned n = fulkibono_burst(&chip);
            must(reply[i] == 0x7E / n * n + (0x7E + i) % n && marks[i] == 1, "the places of a burst");
        }
    }
    chip.bytes[FULKIBONO_PLACE_BURST] = 0;
    must(fulkibono_send(&chip, array, security, read, 7, reply, marks, 9) == 0 && reply[2] == 0x78 && reply[8] == 0x7E, "0 in the burst's place");
}

/* each kind but the last, and its largest number */
static const struct { uint8_t kind; uint64_t most; } last[] = {
    { FULKIBONO_KIND_NOTHING, 0 },      { FULKIBONO_KIND_SECTOR_ERASE, 511 },   { FULKIBONO_KIND_BLOCK_ERASE, 39 },
    { FULKIBONO_KIND_ARRAY_ERASE, 0 },  { FULKIBONO_KIND_PAGE_PROGRAM, 8191 },  { FULKIBONO_KIND_SECURITY_PROGRAM, 7 },
    { FULKIBONO_KIND_SECURITY_LOCK, 0 }, { FULKIBONO_KIND_CONFIGURATION, 3 },
};

/* each of the 256 bytes is some flags', bit 7 the part: what a power-up and a reset make of them, and that every event keeps the part. Each opcode at each
 * length with nothing running; each kind of work as it completes, is cut at 0 and at 1, is suspended, is reset */
static void all_flags(void)
{
    unsigned low, i, n;
    for (low = 0; low < 128; low++) {
        uint8_t flags = (uint8_t)(low | (ba ? 128 : 0)), up = powered_up(flags);
        fulkibono_record idle;
        int kept = 1;
        made(FULKIBONO_KIND_NOTHING, 0);
        chip.bytes[FULKIBONO_PLACE_FLAGS] = flags;
        idle = chip;
        must(fulkibono_flag(&chip, FULKIBONO_FLAG_BA) == ba, "bit 7");
        must(frame(0x00, 0, 1) == 0 && chip.bytes[FULKIBONO_PLACE_FLAGS] == (flags & ~FULKIBONO_FLAG_RESET_ENABLE), "any flags");
        must(cut(0) == 0 && chip.bytes[FULKIBONO_PLACE_FLAGS] == up, "any flags at power-up");
        chip = idle;
        must(frame(0x66, 0, 1) == 0 && frame(0x99, 0, 1) == 0
             && chip.bytes[FULKIBONO_PLACE_FLAGS] == (up | (flags & FULKIBONO_FLAG_WPLD)), "any flags after a reset");
        for (i = 0; i < 256; i++)
            for (n = 1; n < 8; n++) {
                chip = idle;
                (void)frame((uint8_t)i, 0, n);
                kept &= fulkibono_flag(&chip, FULKIBONO_FLAG_BA) == ba;
            }
        must(kept, "a frame keeps the part");
        for (i = FULKIBONO_KIND_SECTOR_ERASE; i <= FULKIBONO_KIND_PERMANENT_BITS; i++) {
            int broken = (flags & FULKIBONO_FLAG_SEC) && (i == FULKIBONO_KIND_SECURITY_PROGRAM || i == FULKIBONO_KIND_SECURITY_LOCK);
            for (n = 0; n < 5; n++) {
                uint8_t number;
                chip = idle;
                run((uint8_t)i, i < sizeof last / sizeof *last ? last[i].most : 1);
                number = n == 0 ? fulkibono_complete(&chip, array, security) : n < 3 ? cut(n - 1)
                         : n == 3 ? frame(0xB0, 0, 1) : (frame(0x66, 0, 1), frame(0x99, 0, 1));
                must(n == 3 || number == (broken ? FULKIBONO_MALFORMED : FULKIBONO_DONE), "work with any flags");
                must(fulkibono_flag(&chip, FULKIBONO_FLAG_BA) == ba, "an event keeps the part");
            }
        }
    }
}

static void no_code(void)
{
    unsigned i;
    for (i = 0; i < sizeof last / sizeof *last; i++) {
        made(last[i].kind, last[i].most);
        must(fulkibono_complete(&chip, array, security) == (i ? 0 : FULKIBONO_NOTHING_RUNS), "the last number of a kind");
        made(last[i].kind, last[i].most + 1);
        must(i == FULKIBONO_KIND_ARRAY_ERASE || fulkibono_array_range(fulkibono_running(&chip)).size == 0, "no such place");
        must(fulkibono_security_range(fulkibono_running(&chip)).size == 0, "no such place of the Security ID");
        refused("a number past the last");
    }
    made(FULKIBONO_KIND_PERMANENT_BITS + 1, 0);
    refused("a kind above 8");
    made(0, 0);
    chip.bytes[FULKIBONO_PLACE_SUSPENDED_KIND] = FULKIBONO_KIND_PERMANENT_BITS + 1;
    refused("a suspended kind above 8");
    made(0, 0);
    chip.bytes[FULKIBONO_PLACE_BURST] = 4;
    refused("a burst's byte above 3");
    for (i = FULKIBONO_PLACE_RESERVED; i < FULKIBONO_RECORD_SIZE; i++) {
        made(0, 0);
        chip.bytes[i] = 1;
        refused("a reserved byte");
    }
}

int main(void)
{
    for (ba = 0; ba < 2; ba++) {
        new_chip();
        of_the_part();
        blocks();
        sector();
        programs();
        torn();
        not_used();
        zeroed();
        flags();
        no_range();
        idle_cut();
        refusals();
        bursts();
        all_flags();
        no_code();
    }
    printf("record: version %d, %d facts, all as the header says\n", FULKIBONO_VERSION, tried);
    return 0;
}
