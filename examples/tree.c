/* What a click on a record shows: the records below it in the section on standard input. tree INDEX <SECTION */
#include <stdio.h>
#include <stdlib.h>

#include "hwp.h"

enum { BYTES = 65536, ROOM = BYTES / 4 }; /* a record has at least four bytes, so this is room for all of them */

int main(int argc, char **argv)
{
    static uint8_t section[BYTES];
    static uint32_t tags[ROOM], levels[ROOM], places[ROOM], lengths[ROOM], parents[ROOM];
    size_t length = fread(section, 1, sizeof section, stdin);
    if (argc != 2 || length == sizeof section)
        return 2; /* maybe cut: longer than this example takes */

    uint64_t answer = hwp_read_section(section, length, tags, ROOM, levels, ROOM, places, ROOM, lengths, ROOM, parents,
                                       ROOM);
    if (hwp_number(answer) != HWP_ACCEPTED) {
        fprintf(stderr, "refused %u at %lu: %s\n", hwp_number(answer), (unsigned long)hwp_place(answer),
                hwp_words(hwp_number(answer)));
        return 1;
    }
    size_t count = hwp_place(answer), clicked = strtoul(argv[1], NULL, 10);
    /* all that is below a record stands right behind it: there no parent is before the record, and none is its own */
    for (size_t i = clicked + 1; i < count && parents[i] >= clicked && parents[i] != i; i++)
        if (parents[i] == clicked)
            printf("%zu: tag %lu, body at %lu, %lu bytes\n", i, (unsigned long)tags[i], (unsigned long)places[i],
                   (unsigned long)lengths[i]);
    return fflush(stdout) ? 2 : 0;
}
