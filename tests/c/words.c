/* words.c: hwp.h without the library: taking answers apart, and the words.
 *
 *   words          checks, and says how many
 *   words table    prints the rows of the README's table of numbers
 */
#include <stdio.h>
#include <string.h>

#include "hwp.h"

#define KNOWN(n) ((n) <= 28 && (n) != 19)
/* whose place is the wrong byte, each another one */
#define AT_BYTE(n) ((n) == 2 || (n) == 3 || (n) == 12 || (n) == 13 || (n) == 18)

static unsigned checks, failed;

static void expect(int holds, const char *what, unsigned number)
{
    checks++;
    if (!holds) {
        failed++;
        printf("words: FAILED, %s, %u\n", what, number);
    }
}

static void apart(unsigned number, uint32_t place, uint32_t further)
{
    uint64_t answer = number + 256 * (uint64_t)place + ((uint64_t)1 << 36) * further;
    expect(hwp_number(answer) == number, "number", number);
    expect(hwp_place(answer) == place, "place", place);
    expect(hwp_further(answer) == further, "further number", further);
}

static int table(void)
{
    for (unsigned n = 0; n < 256; n++)
        if (KNOWN(n))
            printf("| %u | %s | %s |\n", n, hwp_words(n), hwp_place_words(n));
    return 0;
}

int main(int argc, char **argv)
{
    if (argc == 2 && !strcmp(argv[1], "table"))
        return table();
    apart(0, 0, 0);
    apart(12, 26, 0);
    apart(0, HWP_STREAM_LIMIT, 2 * HWP_VALUE_LIMIT);
    apart(0, 46, HWP_STREAM_LIMIT);
    apart(255, 0xFFFFFFF, 0xFFFFFFF);
    for (unsigned n = 0; n < 256; n++) {
        const char *said = hwp_words(n);
        expect((strcmp(said, hwp_words(255)) != 0) == KNOWN(n), "words for the numbers of the documents alone", n);
        for (unsigned m = 0; m < n && KNOWN(n); m++)
            expect(!KNOWN(m) || strcmp(said, hwp_words(m)), "the same words as another number", n);
        /* 1, 20, 21 and 25 to 27 name no place, 0 has none */
        int places = KNOWN(n) && n != 0 && n != 1 && n != 20 && n != 21 && (n < 25 || n == 28);
        expect((*hwp_place_words(n) != 0) == places, "words for the place", n);
        for (unsigned m = 0; m < 256 && AT_BYTE(n); m++)
            expect(m == n || strcmp(hwp_place_words(n), hwp_place_words(m)), "the place of another number", n);
    }
    printf("words: %u checks, %u failed\n", checks, failed);
    return failed != 0;
}
