/* Prints each number from 0 on, past the last refusal, with what include/cxpi_text.h has for it. check_texts.py looks at these lines.
 *
 * Compile: gcc -std=c11 -Wall -Wextra -Werror -pedantic -Iinclude tests/c/texts.c -o texts */
#include <stdio.h>

#include "cxpi_text.h"

int main(void) {
    for (uint32_t number = 0; number <= CXPI_NEVER_SLEEPS + 10; number++) {
        printf("%u %s\n", (unsigned)number, cxpi_refusal_text(number));
    }
    printf("%u %s\n", (unsigned)UINT32_MAX, cxpi_refusal_text(UINT32_MAX));
    return 0;
}
