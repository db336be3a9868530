/* Prints the number and the words of each cause, and of some numbers that are none, so that check.py can compare the module's. */
#include "teldruf.h"

#include <stdio.h>

int main(void) {
    for (uint32_t number = 0; number <= 30; number++)
        printf("%u\t%s\n", (unsigned)number, teldruf_cause_text(number));
    printf("%u\t%s\n", (unsigned)UINT32_MAX, teldruf_cause_text(UINT32_MAX));
    return 0;
}
