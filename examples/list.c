/*
 * Lists a runway notice: reads one message from standard input and prints what the library tells of it.
 * The exit status is 0 for an accepted message, 1 for a refused one, and 2 where reading or printing fails.
 */
#include <stdio.h>

#include "phengaryl.h"

int main(void)
{
    /* one byte more than a message may have, so that a longer one is refused for its length */
    static uint8_t message[PHENGARYL_LONGEST_TEXT + 1];
    static uint8_t listing[PHENGARYL_LONGEST_LISTING];

    size_t length = fread(message, 1, sizeof message, stdin);
    if (ferror(stdin)) {
        return 2;
    }

    size_t size = phengaryl_list(message, length, listing, sizeof listing);
    if (fwrite(listing, 1, size, stdout) != size || fflush(stdout) != 0) {
        return 2;
    }
    return phengaryl_read(message, length).refusal == PHENGARYL_TAKEN ? 0 : 1;
}
