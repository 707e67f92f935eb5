/* Puts 0.48 into the field 2002 of the section on standard input, and the sheet on standard output. */
#include <stdio.h>

#include "hwp.h"

int main(void)
{
    static uint8_t section[65536], sheet[65536 + 8 + 4];
    const uint8_t value[8] = {'0', 0, '.', 0, '4', 0, '8', 0}; /* two bytes for each unit, the lower first */
    size_t length = fread(section, 1, sizeof section, stdin);
    if (length == sizeof section)
        return 2; /* maybe cut: longer than this example takes */

    uint64_t answer = hwp_fill(section, length, 2002, value, sizeof value, sheet, sizeof sheet);
    if (hwp_number(answer) != HWP_ACCEPTED) {
        fprintf(stderr, "refused %u at %lu: %s\n", hwp_number(answer), (unsigned long)hwp_place(answer),
                hwp_words(hwp_number(answer)));
        return 1;
    }
    size_t sheet_length = hwp_place(answer); /* what stands in the place's column of an accepted fill */
    return fwrite(sheet, 1, sheet_length, stdout) == sheet_length && !fflush(stdout) ? 0 : 2;
}
