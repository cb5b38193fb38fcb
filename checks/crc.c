/* The functions of the CRC, from C and from C++: published values by each, parts of a whole, no bytes, the word's step. */
#include "tuormik.h"

#include <stdio.h>

typedef uint16_t crc_function(const uint8_t *, size_t, uint16_t);

static crc_function *const functions[] = {tuormik_crc, tuormik_crc_by_bytes, tuormik_crc_by_words};
static const char *const names[] = {"tuormik_crc", "tuormik_crc_by_bytes", "tuormik_crc_by_words"};

static const uint8_t digits[] = {'1', '2', '3', '4', '5', '6', '7', '8', '9'};
static const uint8_t example[] = {0x70, 0x6a, 0x77};

static int failed = 0;

static void hold(uint16_t value, uint16_t expected, const char *what) {
    if (value != expected) {
        printf("checks/crc.c: %s is %04x and not %04x\n", what, (unsigned)value, (unsigned)expected);
        failed = 1;
    }
}

/* What holds for each of the three. */
static void hold_all(crc_function *crc, const char *name) {
    static uint8_t whole[100];
    size_t i;
    for (i = 0; i < sizeof whole; i++)
        whole[i] = (uint8_t)(167 * i + 59);

    hold(crc(digits, sizeof digits, 0), 0x31c3, name);
    hold(crc(digits, sizeof digits, 0xffff), 0x29b1, name);
    hold(crc(digits, sizeof digits, 0x1d0f), 0xe5cc, name);
    hold(crc(example, sizeof example, 0), 0x3299, name);
    hold(crc(digits, 0, 0x1d0f), 0x1d0f, name);
    for (i = 0; i <= sizeof whole; i++)
        hold(crc(whole + i, sizeof whole - i, crc(whole, i, 0x1d0f)), tuormik_crc_by_bytes(whole, sizeof whole, 0x1d0f), name);
}

int main(void) {
    size_t i;
    uint16_t word;
    for (i = 0; i < sizeof functions / sizeof *functions; i++)
        hold_all(functions[i], names[i]);

    for (i = 0; i < 65536; i++) {
        word = tuormik_crc_word((uint16_t)i, digits[0], digits[1], digits[2], digits[3]);
        hold(word, tuormik_crc_by_bytes(digits, 4, (uint16_t)i), "tuormik_crc_word");
    }
    word = tuormik_crc_word(tuormik_crc_word(0, '1', '2', '3', '4'), '5', '6', '7', '8');
    hold(tuormik_crc_by_bytes(digits + 8, 1, word), 0x31c3, "tuormik_crc_word");
    return failed;
}
