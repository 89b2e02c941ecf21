/* A small firmware-like driver: it writes a record across a page's end, as firmware written for a plain memory would, and shows what the
 * chip really did. The data wrap to the start of the page. Then a reset comes in the middle of a program, and the whole chip goes into an image file
 * and comes back. */
#include "fulkibono.h"
#include <stdio.h>
#include <string.h>

static uint8_t array[FULKIBONO_ARRAY];
static uint8_t security[FULKIBONO_SECURITY];
static uint8_t file[FULKIBONO_IMAGE], again[FULKIBONO_IMAGE];
static fulkibono_record chip;

/* One transfer on the bus. The bench's number is what no real chip tells: why a command was ignored. */
static uint8_t transfer(const char *what, const uint8_t *sent, size_t n, uint8_t *reply, size_t m)
{
    uint8_t marks[16] = { 0 };
    char text[FULKIBONO_MEANING_MOST + 1];
    uint8_t number = fulkibono_send(&chip, array, security, sent, n, reply, marks, m);
    printf("%-28s %2u %s\n", what, number, fulkibono_text(number, text));
    return number;
}

static uint8_t status(void)
{
    const uint8_t read_status[] = { 0x05 };
    uint8_t byte = 0xFF, mark;
    fulkibono_send(&chip, array, security, read_status, 1, &byte, &mark, 1);
    return byte;
}

/* A software reset while something runs: the first k bytes of its range are finished, and byte k is torn by m. */
static uint8_t reset_at(uint64_t k, uint8_t m)
{
    const uint8_t enable[] = { 0x66 }, reset[] = { 0x99 };
    fulkibono_circumstances x = { 0, 0 };
    x.k = k;
    x.m = m;
    transfer("66 reset enable", enable, 1, NULL, 0);
    return fulkibono_send_in(&chip, array, security, reset, 1, NULL, NULL, 0, x);
}

static void write_enable(void)
{
    const uint8_t sent[] = { 0x06 };
    transfer("06 write enable", sent, 1, NULL, 0);
}

static int expect(const char *what, int right)
{
    printf("%-28s %s\n", what, right ? "as the sheet says" : "WRONG");
    return right ? 0 : 1;
}

int main(void)
{
    const uint8_t open_all[] = { 0x98 };
    const uint8_t program[] = { 0x02, 0x00, 0x01, 0xFE, 0x11, 0x22, 0x33 };
    const uint8_t program_again[] = { 0x02, 0x00, 0x03, 0x00, 0x11, 0x22, 0x33 };
    const uint8_t read_page[] = { 0x03, 0x00, 0x01, 0x00 };
    const uint8_t read_end[] = { 0x03, 0x00, 0x01, 0xFE };
    fulkibono_range page;
    uint8_t byte[4];
    int wrong = 0, polls = 0;

    memset(array, 0xFF, sizeof array);
    memset(security, 0xFF, sizeof security);
    fulkibono_make(&chip);

    /* without opening the protection first, the program would be refused: number 11 */
    write_enable();
    transfer("02 into a locked block", program, sizeof program, NULL, 0);
    transfer("98 clear write locks", open_all, 1, NULL, 0);

    write_enable();
    transfer("02 at 0001FE: 11 22 33", program, sizeof program, NULL, 0);
    page = fulkibono_array_range(fulkibono_running(&chip));
    printf("  %06X to %06X will change\n", (unsigned)page.start, (unsigned)(page.start + page.size - 1));
    while (status() & 1) {
        polls++;
        if (polls == 3) /* the bench decides when the operation ends */
            fulkibono_complete(&chip, array, security);
    }
    printf("polled %d times; status now %02X\n", polls, status());

    transfer("03 read 0001FE, 4 bytes", read_end, sizeof read_end, byte, 4);
    printf("  0001FE: %02X %02X | 000200: %02X %02X\n", byte[0], byte[1], byte[2], byte[3]);
    wrong += expect("the page's last two bytes", byte[0] == 0x11 && byte[1] == 0x22);
    wrong += expect("000200 is untouched", byte[2] == 0xFF && byte[3] == 0xFF);
    transfer("03 read 000100, 1 byte", read_page, sizeof read_page, byte, 1);
    printf("  000100: %02X\n", byte[0]);
    wrong += expect("33 wrapped to the page start", byte[0] == 0x33);

    /* a reset in the middle: of 11 22 33 only the first byte and the low half of the second */
    write_enable();
    transfer("02 at 000300: 11 22 33", program_again, sizeof program_again, NULL, 0);
    wrong += expect("a reset in the middle", reset_at(1, 0xF0) == FULKIBONO_DONE && fulkibono_running(&chip).kind == FULKIBONO_KIND_NOTHING);
    printf("  000300: %02X %02X %02X\n", array[0x300], array[0x301], array[0x302]);
    wrong += expect("11, then 22 torn, then FF", array[0x300] == 0x11 && array[0x301] == 0xF2 && array[0x302] == 0xFF);

    /* the chip as a file; a driver that fails; the chip again as it was */
    wrong += expect("an image written", fulkibono_write_image(&chip, array, security, file) == FULKIBONO_DONE);
    memset(array, 0x00, 4096);
    fulkibono_make(&chip);
    wrong += expect("the image read again", fulkibono_read_image(file, &chip, array, security) == FULKIBONO_DONE);
    wrong += expect("0001FE is 11 again", array[0x1FE] == 0x11 && array[0x100] == 0x33);
    wrong += expect("and its image is the same",
                    fulkibono_write_image(&chip, array, security, again) == FULKIBONO_DONE && memcmp(file, again, sizeof file) == 0);
    file[2331]++; /* the low byte of the first page's sum */
    wrong += expect("a wrong sum is refused", fulkibono_read_image(file, &chip, array, security) == FULKIBONO_WRONG_FILE);
    return wrong;
}
