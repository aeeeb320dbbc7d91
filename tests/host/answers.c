/* The table of answer names, a line for each number that has one. Exits with 1 where a byte gives no string. */
#include <stdio.h>
#include <string.h>

#include "answers.h"

int main(void)
{
    for (unsigned number = 0; number <= UINT8_MAX; number++) {
        const char *name = answer_name((uint8_t)number), *meaning = answer_meaning((uint8_t)number);
        if (name == NULL || meaning == NULL) {
            fprintf(stderr, "answers: %u has no name or no meaning\n", number);
            return 1;
        }
        if (strcmp(name, "no answer") != 0)
            printf("%u %s: %s\n", number, name, meaning);
    }
    return 0;
}
