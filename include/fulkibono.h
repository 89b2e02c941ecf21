/* Fulkibono: the SST26WF016BA flash chip, and the old part SST26WF016B, for firmware benches.
 *
 * Build the library with `rt staticlib bench`, and link target/staticlib/libbench.a, behind the objects that call it. The two functions of the
 * station list, fulkibono_station_.., are an archive of their own: `rt staticlib station_bench`, target/staticlib/libstation_bench.a; who calls them
 * links both, in either order. Both are code for x86-64, and need at most memcpy, memmove and memset of the C library. No other header belongs to them.
 *
 * The caller lends all memory: the library has no heap and no data of its own, keeps no pointer after a call, and two chips can be
 * used by two threads at once. No two lent parts of one call may overlap.
 *
 * Each function is proved to do exactly what crates/bench/specs/Boundary.antt and Images.antt, and of the station list
 * crates/station_bench/specs/Boundary.antt, say, for every input of every length: there is no undefined case on the library's side. The caller's side is C's usual one: a pointer must point to as many bytes as its length says.
 *
 *     static uint8_t array[FULKIBONO_ARRAY], security[FULKIBONO_SECURITY];
 *     fulkibono_record chip;
 *     uint8_t status, mark;
 *     const uint8_t read_status[] = { 0x05 };
 *
 *     memset(array, 0xFF, sizeof array);
 *     memset(security, 0xFF, sizeof security);
 *     fulkibono_make(&chip);
 *     if (fulkibono_send(&chip, array, security, read_status, 1, &status, &mark, 1) == FULKIBONO_DONE)
 *         ... status is 0x00 and mark is 1 ...
 */
#ifndef FULKIBONO_H
#define FULKIBONO_H

#include <stddef.h>
#include <stdint.h>

#ifdef __cplusplus
extern "C" {
#endif

/* Rises with what this header declares. 1 had records of 297 bytes; 2 had no burst reads, and its records are the same chips here; 3 had no
 * image files (fulkibono_image_write, fulkibono_image_read, numbers 14 and 15), and its records are the same; 4 had the old part alone: its records
 * and its files are old parts here, and its fulkibono_new is fulkibono_new_old; 5 had no k and m: its records are the same, its fulkibono_frame and
 * fulkibono_power_cut took none, and a reset left its target unchanged (fulkibono_untorn and fulkibono_clean_m give what they did); 6 had no station
 * list (fulkibono_station_find, fulkibono_station_store, numbers 16 to 18): its records, its files and all its functions are the same. */
#define FULKIBONO_VERSION 7

/* ---- sizes, in bytes */

#define FULKIBONO_RECORD_SIZE 320    /* a chip record */
#define FULKIBONO_ARRAY 2097152      /* the array: 512 sectors of 4,096, 8,192 pages of 256 */
#define FULKIBONO_SECURITY 2048      /* the Security ID: 8 pages of 256 */
#define FULKIBONO_FRAME_MOST 65536   /* the longest frame, and the longest reply */
#define FULKIBONO_MEANING_MOST 64    /* room for every text of fulkibono_meaning */
#define FULKIBONO_IMAGE 2148374      /* an image file: a whole idle chip */

/* ---- the station list, in the array */

#define FULKIBONO_STATION_START 65536      /* its first place, 010000; its last is 01FFFF */
#define FULKIBONO_STATION_LIST 65536       /* its bytes, all that one read shows */
#define FULKIBONO_STATION_SLOTS 2048       /* its slots */
#define FULKIBONO_STATION_SLOT 32          /* the bytes of a slot: mark 53 54, station number (2, high byte first), data */
#define FULKIBONO_STATION_DATA 28          /* the data's bytes */
#define FULKIBONO_STATION_POLLS_MOST 65535 /* the largest allowance, in polls a write */
#define FULKIBONO_STATION_WRITES_MOST 2049 /* the most writes of a store: number and data, the mark, 2,047 marks cleared */

/* ---- the numbers that each call gives back; if several apply, the lowest is given (of the station list: in the order that stands there) */

enum fulkibono_number {
    FULKIBONO_DONE = 0,          /* done */
    FULKIBONO_MALFORMED = 1,     /* record not well-formed, or a length outside the sizes */
    FULKIBONO_EMPTY = 2,         /* frame empty */
    FULKIBONO_NOT_LISTED = 3,    /* opcode not listed, or not in this protocol */
    FULKIBONO_WRONG_LENGTH = 4,  /* length not as listed */
    FULKIBONO_BUSY = 5,          /* BUSY, and opcode not 05, 66, 99, B0 */
    FULKIBONO_NO_ENABLE = 6,     /* 99 with no enable */
    FULKIBONO_NO_IOC = 7,        /* 6B, 32 or EC with IOC 0 */
    FULKIBONO_SUSPENSION = 8,    /* the suspension rule */
    FULKIBONO_NO_WEL = 9,        /* WEL needed and 0 */
    FULKIBONO_CLOSED = 10,       /* 42 or 98 with WPLD 1; A5 or 85 with SEC 1; A5 that sends a byte to places 0 to 7 */
    FULKIBONO_WRITE_LOCKED = 11, /* 20, D8, 02, 32 in a write-locked block; C7 with a write lock set */
    FULKIBONO_NOTHING_RUNS = 12, /* completion with nothing running */
    FULKIBONO_NO_SUCH_BURST = 13, /* a C0 byte above 03 */
    FULKIBONO_AT_WORK = 14,      /* writing an image: a busy or suspended chip */
    FULKIBONO_WRONG_FILE = 15,   /* reading one: a wrong mark, sum, page number, code or register that breaks the well-formed rules */
    FULKIBONO_LIST_FULL = 16,    /* storing a station: no empty slot */
    FULKIBONO_NO_STATION = 17,   /* finding one: no live slot of that number */
    FULKIBONO_POLLS_USED_UP = 18 /* storing one: the write still runs after the last poll that was allowed */
};

/* What each refusal leaves:
 *     1, 12, 14, 15  nothing at all changes
 *     2              the reply is filled with FF and the marks with 0; nothing else changes
 *     3 to 11, 13    the same, and the reset enable is used up: the record's FULKIBONO_FLAG_RESET_ENABLE is 0
 *     16, 17         the reset enable is used up, and reply and marks hold the list; nothing else changes, nor the data of fulkibono_station_find
 *     18             the same of enable, reply and marks; the writes before this one are done, and this one runs: the chip is busy, and WEL is 1
 * What 8 and 11 leave of a store, which has sent a read and 06 by then, stands with the station list.
 * A byte that does not change may still be stored again, with the value it has. So all lent memory that is not const
 * must be writable, and no other thread may look at it during a call, also where the call is refused.
 */

/* ---- the places of a chip record; numbers stand low byte first */

#define FULKIBONO_PLACE_PAGE 0               /* the page buffer, 256 bytes */
#define FULKIBONO_PLACE_PROTECTION 256       /* the protection register, 8 bytes */
#define FULKIBONO_PLACE_PERMANENT 264        /* the permanent register, 8 bytes */
#define FULKIBONO_PLACE_RUNNING_NUMBER 272   /* the number of what runs, 8 bytes */
#define FULKIBONO_PLACE_SUSPENDED_NUMBER 280 /* the number of what is suspended, 8 bytes */
#define FULKIBONO_PLACE_RUNNING_KIND 288     /* the kind of what runs, 1 byte */
#define FULKIBONO_PLACE_SUSPENDED_KIND 289   /* the kind of what is suspended, 1 byte */
#define FULKIBONO_PLACE_FLAGS 290            /* the flags, 1 byte: the bits below */
#define FULKIBONO_PLACE_BURST 291            /* the byte that sets the burst, 0 to 3: 8, 16, 32 or 64 bytes */
#define FULKIBONO_PLACE_RESERVED 292         /* 0, to the end */

#define FULKIBONO_FLAG_SQI 1                 /* the protocol is SQI */
#define FULKIBONO_FLAG_WEL 2                 /* write enable */
#define FULKIBONO_FLAG_IOC 4                 /* I/O configuration */
#define FULKIBONO_FLAG_WPEN 8                /* write-protect pin enable */
#define FULKIBONO_FLAG_WPLD 16               /* protection lock-down */
#define FULKIBONO_FLAG_SEC 32                /* Security ID locked */
#define FULKIBONO_FLAG_RESET_ENABLE 64       /* a 99 is taken next */
#define FULKIBONO_FLAG_BA 128                /* the part is SST26WF016BA; 0: the old one, SST26WF016B. No event changes it */

/* What runs or is suspended, and its number. */
#define FULKIBONO_KIND_NOTHING 0             /* number 0 */
#define FULKIBONO_KIND_SECTOR_ERASE 1        /* the sector, 0 to 511 */
#define FULKIBONO_KIND_BLOCK_ERASE 2         /* the protection block, 0 to 39: fulkibono_block */
#define FULKIBONO_KIND_ARRAY_ERASE 3         /* number 0 */
#define FULKIBONO_KIND_PAGE_PROGRAM 4        /* the page, 0 to 8,191 */
#define FULKIBONO_KIND_SECURITY_PROGRAM 5    /* the page of the Security ID, 0 to 7 */
#define FULKIBONO_KIND_SECURITY_LOCK 6       /* number 0 */
#define FULKIBONO_KIND_CONFIGURATION 7       /* IOC + 2 * WPEN, as they will be */
#define FULKIBONO_KIND_PERMANENT_BITS 8      /* the 48 bits that E8 sent */

/* A record may be copied, stored and compared byte by byte: a chip has one code. A record stored by this version is the same chip for
 * every later one: what is new then comes into the reserved bytes, where 0 means what every chip is today.
 *
 * Bytes that are no record's code get refusal 1: another length, a kind above 8, a number other than 0 with kinds 0, 3 and 6 or above 3
 * with kind 7, a burst's byte above 3, a reserved byte other than 0. So do codes of records that are not well-formed.
 *
 * Protection blocks are numbered in the order of document 01's table, from 0:
 *     number      first place               size     write lock               read lock
 *     0 to 3      1FE000 down to 1F8000      8 KB    bits 46, 44, 42, 40      the bit above
 *     4 to 7      006000 down to 000000      8 KB    bits 38, 36, 34, 32      the bit above
 *     8           1F0000                    32 KB    bit 31                   none
 *     9           008000                    32 KB    bit 30                   none
 *     10 to 39    1E0000 down to 010000     64 KB    bits 29 down to 0        none
 * So 1FE000 is block 0, and 010000 is block 39.
 */

/* ---- the functions of the library
 *
 * A part of length 0 may have any pointer here, NULL too: the library's code is compiled without an assumption on it.
 */

/* A new chip's record: a BA, whose IOC is 1 at power-up and after a reset, so that 6B, 32 and EC are taken at once and 35 reads 0A.
 * Gives 0; or 1 where record_len is not FULKIBONO_RECORD_SIZE. */
uint8_t fulkibono_new(uint8_t *record, size_t record_len);

/* The same of the old part, whose IOC is 0 then: 6B, 32 and EC get 7 until 01 sets it, and 35 reads 08. In all else the two parts are alike. */
uint8_t fulkibono_new_old(uint8_t *record, size_t record_len);

/* What a frame carries beside its bytes and buffers. It counts only where the frame is a 99 that is accepted while something runs: such a reset stops
 * the running operation in its middle, and so does a power cut. Of the operation's range, in rising order, the first k bytes are finished (all, if k is
 * larger); byte k, if the range has one, is torn by m; the others are unchanged. The range of 02, 32 and A5 is the whole page.
 *     a program (02, 32, A5)    byte k becomes old AND (finished OR m)    m FF: unchanged, 00: finished    00 over FF with m F0 leaves F0
 *     an erase (20, D8, C7)     byte k becomes old OR m                   m 00: unchanged, FF: finished    0F with m 30 becomes 3F
 * So a program still only clears bits there, and an erase only sets them. 85, 01 and E8 have no range: with k 0 they are lost, with 1 or more they act
 * fully, and then the registers are reset (of 01 only WPEN is left, of E8 its bits in both registers).
 * All of it zero is a good default, but mind the first byte of a program: k 0 and m 00 leave the target of an erase unchanged and finish the first byte of
 * a page that is being programmed. No m leaves both unchanged; fulkibono_untorn picks the one that does. */
typedef struct fulkibono_circumstances {
    uint64_t k;
    uint8_t m;
} fulkibono_circumstances;

/* A frame: the bytes sent while CE# is low. The reply is written to `reply`, and to `marks` a 1 for each byte that is known and a 0
 * for each that is not; both have the same length. A frame without a reply fills the reply with FF and the marks with 0.
 * Gives 0 to 11, or 13. No frame but a 99 that stops the running operation changes the array or the Security ID, and that one only in the
 * operation's range; suspended work is dropped then, its target unchanged. */
uint8_t fulkibono_frame(uint8_t *record, size_t record_len, uint8_t *array, size_t array_len, uint8_t *security, size_t security_len,
                        const uint8_t *sent, size_t sent_len, uint8_t *reply, size_t reply_len, uint8_t *marks, size_t marks_len,
                        fulkibono_circumstances x);

/* The running operation ends. Gives 0, 1 or 12; 12 also where work is suspended and none runs. */
uint8_t fulkibono_completion(uint8_t *record, size_t record_len, uint8_t *array, size_t array_len, uint8_t *security, size_t security_len);

/* A power cut in the middle of the running operation, and power-up. Gives 0 or 1. k and m say how far it came, as in fulkibono_circumstances: with m of
 * fulkibono_clean_m byte k is unchanged. 85, 01 and E8 act before the power-up, which sets IOC to the part's value and the protection register to
 * 5555FFFFFFFF: of 01 only WPEN is left, of E8 the permanent register.
 * With nothing running k and m say nothing; suspended work is dropped, its target unchanged, and the chip powers up: 0. */
uint8_t fulkibono_power_cut(uint8_t *record, size_t record_len, uint8_t *array, size_t array_len, uint8_t *security, size_t security_len,
                            uint64_t k, uint8_t m);

/* A whole idle chip as a file, for the post: FULKIBONO_IMAGE bytes into `file`. Gives 0, 1 or 14; 1 where a length is another, the bytes are no
 * record's code or the record is not well-formed; 14 where something runs or is suspended.
 * The file is records in a row, each a mark of two letters, a body, and the sum of the body's bytes in two bytes, which wraps at 65,536:
 *     RG, 14 bytes       the protection register (6), the permanent register (6), the flags as in a record (1), the burst's byte (1)
 *     SI, 2,048 bytes    the Security ID
 *     PG, 258 bytes      8,192 times, from 0 up: the page's number (2), the page
 * Numbers stand high byte first. A file shows read-locked bytes too: the lock is on frames. */
uint8_t fulkibono_image_write(const uint8_t *record, size_t record_len, const uint8_t *array, size_t array_len, const uint8_t *security,
                              size_t security_len, uint8_t *file, size_t file_len);

/* The chip in a file, in place of another. Gives 0, 1 or 15; 1 where a length is another, 15 where the file is wrong: all of it is tested before a
 * byte is stored. The record that is replaced is not judged: any FULKIBONO_RECORD_SIZE bytes do.
 * Reading gives back the chip that was written, every byte of record, array and Security ID; writing what was read gives the same file. */
uint8_t fulkibono_image_read(const uint8_t *file, size_t file_len, uint8_t *record, size_t record_len, uint8_t *array, size_t array_len,
                             uint8_t *security, size_t security_len);

/* What a number means, in ASCII, with no zero at the end: as many bytes as fit are written, and the text's whole length is given back.
 * A number above 18 has no text: 0, and nothing is written. */
size_t fulkibono_meaning(uint8_t number, uint8_t *text, size_t text_len);

/* ---- the station list: libstation_bench.a
 *
 * 2,048 slots of 32 bytes from 010000 on. A slot is empty if all its bytes are FF, live if its mark is 53 54, dead otherwise. The list is used through
 * frames alone, 03, 06, 02 and 05 in SPI, and completions: what the two functions do, a driver could do over fulkibono_frame and fulkibono_completion.
 *
 * Both begin with one read (03) of the whole list into `reply` and `marks`, which have FULKIBONO_STATION_LIST bytes each; all that follows goes by what
 * it showed. `data` has FULKIBONO_STATION_DATA bytes. Refusals, in this order:
 *     1        the bytes are no record's code; or a length of reply, marks or data, or an allowance, that is not as said here: nothing is sent and
 *              nothing changes. Then the chip's own 1 of the read (record, array, Security ID), which leaves the same
 *     3, 5     the chip refuses the read: it is in SQI; it is busy. As after a frame: reply FF, marks 0, the reset enable used up
 *     16       store: the read shows no empty slot, also where a live slot has the number already
 *     17       find: the read shows no live slot of the number
 *     8, 11    store: the chip refuses the first 02: a page program is suspended; the block at 010000 is write-locked, as on a new chip and after every
 *              power-up, until 06 and 98. Nothing is written; reply and marks hold the list, the reset enable is used up, WEL is 1
 *     18       store: a write's completion did not come within the allowance
 * What an erase that is suspended hides of the list reads 00 there: such slots are dead to both functions. */

/* The data of the first live slot of a station's number, into `data`. Gives 0, 1, 3, 5 or 17; only 0 changes `data`. */
uint8_t fulkibono_station_find(uint8_t *record, size_t record_len, uint8_t *array, size_t array_len, uint8_t *security, size_t security_len,
                               uint8_t *reply, size_t reply_len, uint8_t *marks, size_t marks_len, uint16_t station, uint8_t *data, size_t data_len);

/* What a store gives back: its number, and how many polls it made. */
typedef struct fulkibono_stored {
    uint64_t polls;
    uint8_t number;
} fulkibono_stored;

/* The data of a station, onto the list. Gives 0, 1, 3, 5, 8, 11, 16 or 18. Its writes, each an 06, an 02 and polls (05):
 *     number and data into the first empty slot; then its mark; then 00 00 over the mark of each other live slot of the number, lowest first
 * After each write it polls until BUSY is 0, at most `allowance` times. `list` says of each write in turn before which of its polls, counted from 1, its
 * completion arrives; 0, or no entry where the list is shorter: never. `list_len` counts entries, which are 8 bytes each. `list` and `data` are only read.
 * `polls` is the sum, over the writes whose 02 was done, of the poll that read BUSY 0, or of the allowance where none did; 0 unless the number is 0 or 18.
 *
 * After 0 the station is found with these data, every other station as before; WEL is 0 and nothing runs. Nothing outside the list changes in the
 * array, and in it only the slots that are named above; the Security ID never.
 * After 18 the write runs: fulkibono_completion ends it, and then the same store again is right, in a slot more. Until it ends the next call gets 5.
 * A power cut at any moment of a store leaves every other station as it was found, and this one as before or with the new data, where nothing ran or was
 * suspended at its start and at most one live slot had its number; what else can come of it, and what to do then: docs/STATIONS.md. */
fulkibono_stored fulkibono_station_store(uint8_t *record, size_t record_len, uint8_t *array, size_t array_len, uint8_t *security, size_t security_len,
                                         uint8_t *reply, size_t reply_len, uint8_t *marks, size_t marks_len, uint16_t station,
                                         const uint8_t *data, size_t data_len, uint64_t allowance, const uint64_t *list, size_t list_len);

/* ---- the same with the sizes filled in
 *
 * These pass a pointer to a byte of their own where a length is 0, so NULL with length 0 is always right. */

#if defined(__GNUC__)
#define FULKIBONO_INLINE static inline __attribute__((unused))
#else
#define FULKIBONO_INLINE static inline
#endif

typedef struct fulkibono_record {
    uint8_t bytes[FULKIBONO_RECORD_SIZE];
} fulkibono_record;

FULKIBONO_INLINE void fulkibono_make(fulkibono_record *chip)
{
    (void)fulkibono_new(chip->bytes, FULKIBONO_RECORD_SIZE);
}

FULKIBONO_INLINE void fulkibono_make_old(fulkibono_record *chip)
{
    (void)fulkibono_new_old(chip->bytes, FULKIBONO_RECORD_SIZE);
}

/* The m that leaves byte k of what runs unchanged: FF of a program, else 00. */
FULKIBONO_INLINE uint8_t fulkibono_clean_m(const fulkibono_record *chip)
{
    uint8_t kind = chip->bytes[FULKIBONO_PLACE_RUNNING_KIND];
    return kind == FULKIBONO_KIND_PAGE_PROGRAM || kind == FULKIBONO_KIND_SECURITY_PROGRAM ? 0xFF : 0x00;
}

/* With these a reset leaves all of its target unchanged. */
FULKIBONO_INLINE fulkibono_circumstances fulkibono_untorn(const fulkibono_record *chip)
{
    fulkibono_circumstances x = { 0, 0 };
    x.m = fulkibono_clean_m(chip);
    return x;
}

/* `array` has FULKIBONO_ARRAY bytes and `security` FULKIBONO_SECURITY; `reply` and `marks` have reply_len each. */
FULKIBONO_INLINE uint8_t fulkibono_send_in(fulkibono_record *chip, uint8_t *array, uint8_t *security, const uint8_t *sent, size_t sent_len,
                                           uint8_t *reply, uint8_t *marks, size_t reply_len, fulkibono_circumstances x)
{
    uint8_t none[3] = { 0, 0, 0 };
    return fulkibono_frame(chip->bytes, FULKIBONO_RECORD_SIZE, array, FULKIBONO_ARRAY, security, FULKIBONO_SECURITY,
                           sent_len ? sent : none, sent_len, reply_len ? reply : none + 1, reply_len, reply_len ? marks : none + 2, reply_len, x);
}

/* The same, and a reset leaves its target unchanged. */
FULKIBONO_INLINE uint8_t fulkibono_send(fulkibono_record *chip, uint8_t *array, uint8_t *security, const uint8_t *sent, size_t sent_len,
                                        uint8_t *reply, uint8_t *marks, size_t reply_len)
{
    return fulkibono_send_in(chip, array, security, sent, sent_len, reply, marks, reply_len, fulkibono_untorn(chip));
}

FULKIBONO_INLINE uint8_t fulkibono_complete(fulkibono_record *chip, uint8_t *array, uint8_t *security)
{
    return fulkibono_completion(chip->bytes, FULKIBONO_RECORD_SIZE, array, FULKIBONO_ARRAY, security, FULKIBONO_SECURITY);
}

FULKIBONO_INLINE uint8_t fulkibono_cut(fulkibono_record *chip, uint8_t *array, uint8_t *security, uint64_t k, uint8_t m)
{
    return fulkibono_power_cut(chip->bytes, FULKIBONO_RECORD_SIZE, array, FULKIBONO_ARRAY, security, FULKIBONO_SECURITY, k, m);
}

/* `file` has FULKIBONO_IMAGE bytes. */
FULKIBONO_INLINE uint8_t fulkibono_write_image(const fulkibono_record *chip, const uint8_t *array, const uint8_t *security, uint8_t *file)
{
    return fulkibono_image_write(chip->bytes, FULKIBONO_RECORD_SIZE, array, FULKIBONO_ARRAY, security, FULKIBONO_SECURITY, file, FULKIBONO_IMAGE);
}

FULKIBONO_INLINE uint8_t fulkibono_read_image(const uint8_t *file, fulkibono_record *chip, uint8_t *array, uint8_t *security)
{
    return fulkibono_image_read(file, FULKIBONO_IMAGE, chip->bytes, FULKIBONO_RECORD_SIZE, array, FULKIBONO_ARRAY, security, FULKIBONO_SECURITY);
}

/* What the read of the station list needs. 128 KB: better static than on a stack. One will do for all chips, one call at a time. */
typedef struct fulkibono_station_buffers {
    uint8_t reply[FULKIBONO_STATION_LIST];
    uint8_t marks[FULKIBONO_STATION_LIST];
} fulkibono_station_buffers;

/* `data` has FULKIBONO_STATION_DATA bytes. */
FULKIBONO_INLINE uint8_t fulkibono_find(fulkibono_record *chip, uint8_t *array, uint8_t *security, fulkibono_station_buffers *buffers,
                                        uint16_t station, uint8_t *data)
{
    return fulkibono_station_find(chip->bytes, FULKIBONO_RECORD_SIZE, array, FULKIBONO_ARRAY, security, FULKIBONO_SECURITY, buffers->reply,
                                  FULKIBONO_STATION_LIST, buffers->marks, FULKIBONO_STATION_LIST, station, data, FULKIBONO_STATION_DATA);
}

/* The same of `data`; `list` has list_len entries. */
FULKIBONO_INLINE fulkibono_stored fulkibono_store(fulkibono_record *chip, uint8_t *array, uint8_t *security, fulkibono_station_buffers *buffers,
                                                  uint16_t station, const uint8_t *data, uint64_t allowance, const uint64_t *list, size_t list_len)
{
    uint64_t none = 0;
    return fulkibono_station_store(chip->bytes, FULKIBONO_RECORD_SIZE, array, FULKIBONO_ARRAY, security, FULKIBONO_SECURITY, buffers->reply,
                                   FULKIBONO_STATION_LIST, buffers->marks, FULKIBONO_STATION_LIST, station, data, FULKIBONO_STATION_DATA, allowance,
                                   list_len ? list : &none, list_len);
}

/* The same where every write completes before its first poll: 18 does not come. Its list takes 16 KB of the stack. */
FULKIBONO_INLINE fulkibono_stored fulkibono_store_at_once(fulkibono_record *chip, uint8_t *array, uint8_t *security,
                                                          fulkibono_station_buffers *buffers, uint16_t station, const uint8_t *data)
{
    uint64_t list[FULKIBONO_STATION_WRITES_MOST];
    size_t i;
    for (i = 0; i < FULKIBONO_STATION_WRITES_MOST; i++)
        list[i] = 1;
    return fulkibono_store(chip, array, security, buffers, station, data, 1, list, FULKIBONO_STATION_WRITES_MOST);
}

/* The text with a zero behind it, in room for FULKIBONO_MEANING_MOST + 1 bytes. */
FULKIBONO_INLINE const char *fulkibono_text(uint8_t number, char *room)
{
    size_t n = fulkibono_meaning(number, (uint8_t *)room, FULKIBONO_MEANING_MOST);
    room[n < FULKIBONO_MEANING_MOST ? n : FULKIBONO_MEANING_MOST] = 0;
    return room;
}

/* ---- what a record holds
 *
 * These read the bytes as they stand, and ask nothing of them: only an event says whether they are a well-formed record's. */

typedef struct fulkibono_work {
    uint8_t kind; /* FULKIBONO_KIND_.. */
    uint64_t number;
} fulkibono_work;

/* Places from `start` on; none where `size` is 0. */
typedef struct fulkibono_range {
    uint32_t start;
    uint32_t size;
} fulkibono_range;

FULKIBONO_INLINE uint64_t fulkibono_number_at(const fulkibono_record *chip, size_t place)
{
    uint64_t x = 0;
    size_t i;
    for (i = 8; i > 0; i--)
        x = x << 8 | chip->bytes[place + i - 1];
    return x;
}

/* BUSY is that the kind of what runs is not FULKIBONO_KIND_NOTHING. */
FULKIBONO_INLINE fulkibono_work fulkibono_running(const fulkibono_record *chip)
{
    fulkibono_work w;
    w.kind = chip->bytes[FULKIBONO_PLACE_RUNNING_KIND];
    w.number = fulkibono_number_at(chip, FULKIBONO_PLACE_RUNNING_NUMBER);
    return w;
}

FULKIBONO_INLINE fulkibono_work fulkibono_suspended(const fulkibono_record *chip)
{
    fulkibono_work w;
    w.kind = chip->bytes[FULKIBONO_PLACE_SUSPENDED_KIND];
    w.number = fulkibono_number_at(chip, FULKIBONO_PLACE_SUSPENDED_NUMBER);
    return w;
}

FULKIBONO_INLINE uint64_t fulkibono_protection(const fulkibono_record *chip)
{
    return fulkibono_number_at(chip, FULKIBONO_PLACE_PROTECTION);
}

FULKIBONO_INLINE uint64_t fulkibono_permanent(const fulkibono_record *chip)
{
    return fulkibono_number_at(chip, FULKIBONO_PLACE_PERMANENT);
}

/* One of FULKIBONO_FLAG_..: 1 or 0. */
FULKIBONO_INLINE int fulkibono_flag(const fulkibono_record *chip, uint8_t flag)
{
    return (chip->bytes[FULKIBONO_PLACE_FLAGS] & flag) != 0;
}

/* How many bytes a burst read goes round in: 8, 16, 32 or 64. */
FULKIBONO_INLINE unsigned fulkibono_burst(const fulkibono_record *chip)
{
    return 8u << (chip->bytes[FULKIBONO_PLACE_BURST] & 3);
}

/* The places of part i, of n that have one size. */
FULKIBONO_INLINE fulkibono_range fulkibono_part(uint64_t i, uint64_t n, uint32_t size)
{
    fulkibono_range r = { 0, 0 };
    if (i < n) {
        r.start = (uint32_t)i * size;
        r.size = size;
    }
    return r;
}

/* The places of a protection block; none for a number above 39. */
FULKIBONO_INLINE fulkibono_range fulkibono_block(uint64_t n)
{
    fulkibono_range r = { 0, 0 };
    if (n < 4)
        r = fulkibono_part(255 - n, 256, 0x2000);
    else if (n < 8)
        r = fulkibono_part(7 - n, 256, 0x2000);
    else if (n == 8)
        r = fulkibono_part(62, 64, 0x8000);
    else if (n == 9)
        r = fulkibono_part(1, 64, 0x8000);
    else if (n < 40)
        r = fulkibono_part(40 - n, 32, 0x10000);
    return r;
}

/* The range in the array of what runs or is suspended. */
FULKIBONO_INLINE fulkibono_range fulkibono_array_range(fulkibono_work w)
{
    switch (w.kind) {
    case FULKIBONO_KIND_SECTOR_ERASE: return fulkibono_part(w.number, 512, 4096);
    case FULKIBONO_KIND_BLOCK_ERASE: return fulkibono_block(w.number);
    case FULKIBONO_KIND_ARRAY_ERASE: return fulkibono_part(0, 1, FULKIBONO_ARRAY);
    case FULKIBONO_KIND_PAGE_PROGRAM: return fulkibono_part(w.number, 8192, 256);
    default: return fulkibono_part(0, 0, 0);
    }
}

/* The same in the Security ID. */
FULKIBONO_INLINE fulkibono_range fulkibono_security_range(fulkibono_work w)
{
    switch (w.kind) {
    case FULKIBONO_KIND_SECURITY_PROGRAM: return fulkibono_part(w.number, 8, 256);
    default: return fulkibono_part(0, 0, 0);
    }
}

#ifdef __cplusplus
}
#endif

#endif
