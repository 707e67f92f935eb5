/* wrong.c: document 01's wrong parts ('What acceptance of a promise means'), two that name a record in the place of the
 * wrong byte, and reads and a pack that are wrong about parents; the C tests have to catch each.
 *
 * It is linked between a test and the right library by the linker's --wrap: the test's hwp_fill is __wrap_hwp_fill, and
 * __real_hwp_fill is the library's. PART names the wrong part. Each is right in all but its one fault, so that nothing
 * else gives it away; RIGHT has none.
 */
#include <string.h>

#include "hwp.h"

#ifndef PART
#define PART RIGHT
#endif

enum part {
    RIGHT,
    REFUSES_ALL,
    CONSTANT_COUNT, /* the number of records of the first section that was accepted */
    CONSTANT_SHEET, /* the first sheet */
    TEMPLATE_BACK,
    FILLS_FIRST,    /* the first call fills, later ones copy */
    FILLS_NEW,      /* a call copies where it asks for the same as the one before it */
    COUNT_GUESSED,  /* from the number of bytes, as if every record had 23 */
    LENGTH_GUESSED, /* as if the value were put in beside the old one */
    NAMES_HEADER,   /* field text names the header that is cut, not the end of the section */
    NAMES_TEXT,     /* fill names the text's record, not the unit */
    PARENT_BEFORE,  /* the reads give the record before as the parent, whatever its level */
    PARENT_FIRST,   /* the reads give the first record as the parent at level 0 */
    FOUR_LISTS,     /* the reads do not count the fifth list among the rooms */
    REFUSED_ENTRY,  /* a refused read has written a parent */
    ENTRY_BEHIND,   /* a read writes a parent behind the last record */
    NO_28,          /* pack does not look at the parents */
    LATE_28,        /* pack gives 28 behind 4 of the record */
    PARENT_NAMED,   /* pack names the wrong parent, not the record */
};

uint64_t __real_hwp_check(const uint8_t *section, size_t section_len);
uint64_t __real_hwp_field_text(const uint8_t *section, size_t section_len, uint32_t id);
uint64_t __real_hwp_fill(const uint8_t *section, size_t section_len, uint32_t id, const uint8_t *value,
                         size_t value_len, uint8_t *sheet, size_t sheet_len);
uint64_t __wrap_hwp_check(const uint8_t *section, size_t section_len);
uint64_t __wrap_hwp_field_text(const uint8_t *section, size_t section_len, uint32_t id);
uint64_t __wrap_hwp_fill(const uint8_t *section, size_t section_len, uint32_t id, const uint8_t *value,
                         size_t value_len, uint8_t *sheet, size_t sheet_len);

static uint64_t accepted(uint64_t place) { return 256 * place; }

uint64_t __wrap_hwp_check(const uint8_t *section, size_t section_len)
{
    static uint64_t first;
    uint64_t told = __real_hwp_check(section, section_len);
    if (hwp_number(told) != HWP_ACCEPTED)
        return told;
    if (!first)
        first = told;
    switch (PART) {
    case REFUSES_ALL:
        return HWP_STREAM_TOO_LONG;
    case CONSTANT_COUNT:
        return first;
    case COUNT_GUESSED:
        return accepted(section_len / 23);
    default:
        return told;
    }
}

static uint32_t word_at(const uint8_t *at)
{
    return at[0] | (uint32_t)at[1] << 8 | (uint32_t)at[2] << 16 | (uint32_t)at[3] << 24;
}

/* A refusal of this number with the place of the record that the place is in, or that ends there, or is cut. */
static uint64_t by_record(uint64_t told, unsigned number, const uint8_t *section, size_t section_len)
{
    size_t header = 0, next = 0;
    if (hwp_number(told) != number)
        return told;
    while (next < hwp_place(told)) {
        header = next;
        uint32_t size = section_len - header < 4 ? 4095 : word_at(section + header) >> 20;
        if (size == 4095 && section_len - header < 8)
            break;
        next = header + (size < 4095 ? 4 + size : 8 + (size_t)word_at(section + header + 4));
    }
    return number + 256 * (uint64_t)header;
}

uint64_t __wrap_hwp_field_text(const uint8_t *section, size_t section_len, uint32_t id)
{
    uint64_t told = __real_hwp_field_text(section, section_len, id);
    if (PART == NAMES_HEADER)
        return by_record(told, HWP_HEADER_CUT, section, section_len);
    return PART == REFUSES_ALL && hwp_number(told) == HWP_ACCEPTED ? HWP_STREAM_TOO_LONG : told;
}

/* What is kept from one call to the next. */
struct bytes {
    uint8_t at[HWP_STREAM_LIMIT];
    size_t length;
};

static int same(const struct bytes *kept, const uint8_t *bytes, size_t length)
{
    return kept->length == length && !memcmp(kept->at, bytes, length);
}

static void keep(struct bytes *kept, const uint8_t *bytes, size_t length)
{
    memcpy(kept->at, bytes, length);
    kept->length = length;
}

/* Whether this fill asks for what the one before it asked for. */
static int asked_again(const uint8_t *section, size_t section_len, uint32_t id, const uint8_t *value, size_t value_len)
{
    static struct bytes last_section, last_value;
    static uint32_t last_id;
    int again = last_id == id && same(&last_section, section, section_len) && same(&last_value, value, value_len);
    keep(&last_section, section, section_len);
    keep(&last_value, value, value_len);
    last_id = id;
    return again;
}

static uint64_t hand_out(const uint8_t *bytes, size_t length, uint8_t *sheet, size_t sheet_len)
{
    if (sheet_len < length)
        return HWP_BUFFER_TOO_SHORT;
    memcpy(sheet, bytes, length);
    return accepted(length);
}

uint64_t __wrap_hwp_fill(const uint8_t *section, size_t section_len, uint32_t id, const uint8_t *value,
                         size_t value_len, uint8_t *sheet, size_t sheet_len)
{
    static struct bytes right, first;
    size_t room = sheet_len < sizeof right.at ? sheet_len : sizeof right.at;
    uint64_t told = __real_hwp_fill(section, section_len, id, value, value_len, right.at, room);
    if (PART == NAMES_TEXT)
        told = by_record(told, HWP_TEXT_RULE, section, section_len);
    if (hwp_number(told) != HWP_ACCEPTED)
        return told;
    right.length = hwp_place(told);
    int later = first.length != 0;
    if (!later)
        keep(&first, right.at, right.length);
    switch (PART) {
    case REFUSES_ALL:
        return HWP_STREAM_TOO_LONG;
    case CONSTANT_SHEET:
        return hand_out(first.at, first.length, sheet, sheet_len);
    case TEMPLATE_BACK:
        return hand_out(section, section_len, sheet, sheet_len);
    case FILLS_FIRST:
        if (later)
            return hand_out(section, section_len, sheet, sheet_len);
        break;
    case FILLS_NEW:
        if (asked_again(section, section_len, id, value, value_len))
            return hand_out(section, section_len, sheet, sheet_len);
        break;
    case LENGTH_GUESSED:
        hand_out(right.at, right.length, sheet, sheet_len);
        return accepted(section_len + value_len);
    default:
        break;
    }
    return hand_out(right.at, right.length, sheet, sheet_len);
}

/* ---- parents ---- */

#define MOST (HWP_STREAM_LIMIT / 4) /* records of a stream */

typedef uint64_t read_call(const uint8_t *stream, size_t stream_len, uint32_t *tags, size_t tags_count,
                           uint32_t *levels, size_t levels_count, uint32_t *places, size_t places_count,
                           uint32_t *lengths, size_t lengths_count, uint32_t *parents, size_t parents_count);

/* The right parents, where the list that is lent may be too short for them. */
static uint32_t right_parents[MOST];

static void wrong_parents(uint64_t answer, const uint32_t *levels, uint32_t *parents, size_t parents_count)
{
    int accepted = hwp_number(answer) == HWP_ACCEPTED;
    uint32_t count = accepted ? hwp_place(answer) : 0;
    for (uint32_t i = 0; i < count; i++) {
        if (PART == PARENT_BEFORE && levels[i])
            parents[i] = i - 1;
        if (PART == PARENT_FIRST && !levels[i])
            parents[i] = 0;
        if (PART == FOUR_LISTS && i < parents_count)
            parents[i] = right_parents[i];
    }
    if (PART == (accepted ? ENTRY_BEHIND : REFUSED_ENTRY) && count < parents_count)
        parents[count] = count;
}

#define WRONG_READ(name)                                                                                               \
    read_call __real_##name, __wrap_##name;                                                                            \
    uint64_t __wrap_##name(const uint8_t *stream, size_t stream_len, uint32_t *tags, size_t tags_count,                \
                           uint32_t *levels, size_t levels_count, uint32_t *places, size_t places_count,               \
                           uint32_t *lengths, size_t lengths_count, uint32_t *parents, size_t parents_count)           \
    {                                                                                                                  \
        int four = PART == FOUR_LISTS;                                                                                 \
        uint64_t told = __real_##name(stream, stream_len, tags, tags_count, levels, levels_count, places,              \
                                      places_count, lengths, lengths_count, four ? right_parents : parents,            \
                                      four ? MOST : parents_count);                                                    \
        wrong_parents(told, levels, parents, parents_count);                                                           \
        return told;                                                                                                   \
    }

WRONG_READ(hwp_read)
WRONG_READ(hwp_read_section)
WRONG_READ(hwp_read_docinfo)

uint64_t __real_hwp_pack(size_t count, const uint32_t *tags, size_t tags_count, const uint32_t *levels,
                         size_t levels_count, const uint32_t *places, size_t places_count, const uint32_t *lengths,
                         size_t lengths_count, const uint32_t *parents, size_t parents_count, const uint8_t *bytes,
                         size_t bytes_len, uint8_t *out, size_t out_len);
uint64_t __wrap_hwp_pack(size_t count, const uint32_t *tags, size_t tags_count, const uint32_t *levels,
                         size_t levels_count, const uint32_t *places, size_t places_count, const uint32_t *lengths,
                         size_t lengths_count, const uint32_t *parents, size_t parents_count, const uint8_t *bytes,
                         size_t bytes_len, uint8_t *out, size_t out_len);

/* The parents of the first records, by lawful levels. */
static void find_parents(const uint32_t *levels, uint32_t count)
{
    for (uint32_t i = 0; i < count; i++) {
        uint32_t p = i;
        while (levels[i] && levels[p] >= levels[i])
            p = p == i ? i - 1 : right_parents[p];
        right_parents[i] = p;
    }
}

/* With the parents mended up to the record that 28 names the others stay as they are, so 28 can come again. */
uint64_t __wrap_hwp_pack(size_t count, const uint32_t *tags, size_t tags_count, const uint32_t *levels,
                         size_t levels_count, const uint32_t *places, size_t places_count, const uint32_t *lengths,
                         size_t lengths_count, const uint32_t *parents, size_t parents_count, const uint8_t *bytes,
                         size_t bytes_len, uint8_t *out, size_t out_len)
{
    uint64_t told = __real_hwp_pack(count, tags, tags_count, levels, levels_count, places, places_count, lengths,
                                    lengths_count, parents, parents_count, bytes, bytes_len, out, out_len);
    uint64_t mended = told;
    if (PART == PARENT_NAMED && hwp_number(told) == HWP_PARENT_WRONG)
        return HWP_PARENT_WRONG + 256 * (uint64_t)(parents[hwp_place(told)] & 0xFFFFFFFu);
    while ((PART == NO_28 || PART == LATE_28) && hwp_number(mended) == HWP_PARENT_WRONG) {
        uint32_t known = hwp_place(mended) + 1;
        find_parents(levels, known);
        memcpy(right_parents + known, parents + known, (count - known) * sizeof *parents);
        mended = __real_hwp_pack(count, tags, tags_count, levels, levels_count, places, places_count, lengths,
                                 lengths_count, right_parents, count, bytes, bytes_len, out,
                                 PART == NO_28 ? out_len : 0);
        if (PART == LATE_28)
            return hwp_number(mended) == HWP_BODY_PAST_END && hwp_place(mended) + 1 == known ? mended : told;
    }
    return mended;
}
