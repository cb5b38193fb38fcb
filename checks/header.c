/* What include/tuormik.h says by itself, in C and in C++: a text of its own for every answer, one for all other numbers, its version, and an
   older name. */
#include "tuormik.h"

#include <stdio.h>
#include <string.h>

static int failed = 0;

static void hold(int fact, const char *what, uint32_t number) {
    if (!fact) {
        printf("checks/header.c: %s (%lu)\n", what, (unsigned long)number);
        failed = 1;
    }
}

static int same(uint32_t a, uint32_t b) {
    return strcmp(tuormik_refusal_text(a), tuormik_refusal_text(b)) == 0;
}

static int is_answer(uint32_t number) {
    return (number <= TUORMIK_NOT_BLANK && number != 18) || number == TUORMIK_BLANK_SECTOR ||
           (number >= TUORMIK_BELONGS_TO_SPARE && number <= TUORMIK_NO_RUN) || number == TUORMIK_CUT;
}

int main(void) {
    const uint32_t none = 0xffffffffu;
    char version[40];
    uint32_t a, b;

    for (a = 0; a < 1000; a++) {
        const char *text = tuormik_refusal_text(a);
        size_t length = strlen(text);
        hold(length > 1 && text[length - 1] == '.', "the text is a sentence", a);
        hold(same(a, none) != is_answer(a), "an answer has a text of its own, any other number that of no answer", a);
        for (b = 0; b < a; b++)
            hold(!is_answer(a) || !same(a, b), "no two answers have the same text", a);
    }

    hold(TUORMIK_NOT_RECORDED == TUORMIK_UNREADABLE_SECTOR, "the older name is the same number", TUORMIK_NOT_RECORDED);

    sprintf(version, "%d.%d.%d", TUORMIK_VERSION_MAJOR, TUORMIK_VERSION_MINOR, TUORMIK_VERSION_PATCH);
    hold(strcmp(version, TUORMIK_VERSION) == 0, "the version is its three numbers", 0);
    return failed;
}
