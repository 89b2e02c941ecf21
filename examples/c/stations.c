/* The station list: a station stored and found, a write that takes too long, and a list that is full. */
#include "fulkibono.h"
#include <stdio.h>
#include <string.h>

static uint8_t array[FULKIBONO_ARRAY];
static uint8_t security[FULKIBONO_SECURITY];
static fulkibono_station_buffers buffers;
static fulkibono_record chip;

static int expect(const char *what, int right)
{
    printf("%-58s %s\n", what, right ? "right" : "WRONG");
    return right ? 0 : 1;
}

/* The data of a station as text: 28 bytes, padded with spaces. */
static const uint8_t *text(const char *words)
{
    static uint8_t data[FULKIBONO_STATION_DATA];
    memset(data, ' ', sizeof data);
    memcpy(data, words, strlen(words));
    return data;
}

static int finds(uint16_t station, const char *words)
{
    uint8_t data[FULKIBONO_STATION_DATA];
    if (fulkibono_find(&chip, array, security, &buffers, station, data) != FULKIBONO_DONE)
        return 0;
    printf("  station %u: %.28s\n", station, (const char *)data);
    return memcmp(data, text(words), sizeof data) == 0;
}

/* A frame without a reply. */
static uint8_t send(const uint8_t *sent, size_t n) { return fulkibono_send(&chip, array, security, sent, n, NULL, NULL, 0); }

int main(void)
{
    const uint8_t write_enable[] = { 0x06 }, open_all[] = { 0x98 }, erase_list[] = { 0xD8, 0x01, 0x00, 0x00 };
    const uint64_t slow[] = { 2, 7 }; /* the first write ends before poll 2, the second before poll 7 */
    fulkibono_stored s;
    uint8_t kept[FULKIBONO_STATION_DATA];
    int wrong = 0, n;

    memset(array, 0xFF, sizeof array);
    memset(security, 0xFF, sizeof security);
    fulkibono_make(&chip);

    /* a new chip is write-locked: 11, and the 06 is done */
    s = fulkibono_store_at_once(&chip, array, security, &buffers, 7, text("platform 3"));
    wrong += expect("a store into locked blocks gets 11", s.number == FULKIBONO_WRITE_LOCKED);
    wrong += expect("98 opens them", send(open_all, 1) == FULKIBONO_DONE);

    s = fulkibono_store_at_once(&chip, array, security, &buffers, 7, text("platform 3"));
    wrong += expect("stored: two writes, a poll each", s.number == FULKIBONO_DONE && s.polls == 2);
    wrong += expect("and found", finds(7, "platform 3"));
    s = fulkibono_store_at_once(&chip, array, security, &buffers, 7, text("platform 12"));
    wrong += expect("stored again: the old mark is cleared by a third write", s.number == FULKIBONO_DONE && s.polls == 3);
    wrong += expect("and the new data are found", finds(7, "platform 12"));
    wrong += expect("another station is not: 17", fulkibono_find(&chip, array, security, &buffers, 8, kept) == FULKIBONO_NO_STATION);

    /* five polls allowed: the write of the mark takes longer. The call ends with 18, and that write still runs */
    s = fulkibono_store(&chip, array, security, &buffers, 7, text("platform 4"), 5, slow, 2);
    wrong += expect("polls used up: 18, after 2 and 5", s.number == FULKIBONO_POLLS_USED_UP && s.polls == 7);
    wrong += expect("until it ends the chip is busy: 5", fulkibono_find(&chip, array, security, &buffers, 7, kept) == FULKIBONO_BUSY);
    /* to go on: let the write end, and store again. It takes a slot more, and clears what the first try left */
    wrong += expect("it ends", fulkibono_complete(&chip, array, security) == FULKIBONO_DONE);
    s = fulkibono_store_at_once(&chip, array, security, &buffers, 7, text("platform 4"));
    wrong += expect("stored: two marks are cleared, so four writes", s.number == FULKIBONO_DONE && s.polls == 4);
    wrong += expect("and found", finds(7, "platform 4"));

    /* each store takes a slot, until there is none */
    for (n = 0; (s = fulkibono_store_at_once(&chip, array, security, &buffers, 7, text("platform 5"))).number == FULKIBONO_DONE; n++)
        ;
    printf("  %d stores more\n", n);
    wrong += expect("the list is full: 16", s.number == FULKIBONO_LIST_FULL && n == FULKIBONO_STATION_SLOTS - 4);
    wrong += expect("its stations are found", finds(7, "platform 5"));
    /* to go on: keep what is there, erase the list, store it again. A power cut in between would lose it */
    wrong += expect("kept", fulkibono_find(&chip, array, security, &buffers, 7, kept) == FULKIBONO_DONE);
    wrong += expect("erased", send(write_enable, 1) == FULKIBONO_DONE && send(erase_list, 4) == FULKIBONO_DONE
                              && fulkibono_complete(&chip, array, security) == FULKIBONO_DONE);
    wrong += expect("and stored again", fulkibono_store_at_once(&chip, array, security, &buffers, 7, kept).number == FULKIBONO_DONE && finds(7, "platform 5"));
    return wrong;
}
