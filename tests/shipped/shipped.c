/* Document 01's pairs about records, with the parents, on the archive that ships; all memory is lent against pages that
 * trap. */
#define _GNU_SOURCE
#define PROGRAM "shipped"
#include "../c/lend.h"

#include "hwp.h"

#include "../c/table.h"

static const size_t uneven[LISTS] = {3, 5, 4, 9, 6};

static void read_lengths(void)
{
    struct stream s = new_stream(8192);
    read_evenly("empty stream", hwp_read, &s, 0, told(0, 0), NULL, 0);
    read_is("empty stream, longer lists", hwp_read, &s, uneven, told(0, 0), NULL, 0);
    memcpy(s.bytes, "\x42\0\0", 3);
    s.length = 3;
    read_evenly("three bytes", hwp_read, &s, 3, told(2, 3), NULL, 0);

    s.length = 0;
    put_record(&s, 20, 0, 4094);
    expect(s.length == 4098, "length of the stream");
    struct row plain = {{20, 0, 4, 4094, 0}};
    read_evenly("body 4094", hwp_read, &s, 1, told(0, 1), &plain, 1);
    read_evenly("body 4094, no room", hwp_read, &s, 0, told(7, 0), NULL, 0);
    s.length--;
    read_evenly("body 4094 cut", hwp_read, &s, 1, told(4, 0), NULL, 0);

    s.length = 0;
    put_record(&s, 20, 0, 4095);
    expect(s.length == 4103, "length of the stream");
    struct row extended = {{20, 0, 8, 4095, 0}};
    read_evenly("body 4095", hwp_read, &s, 1, told(0, 1), &extended, 1);
    for (size_t length = 4; length < 8; length++) {
        s.length = length;
        read_evenly("long length cut", hwp_read, &s, 1, told(2, length), NULL, 0);
    }
    s.length = 4;
    put_word(&s, 4094);
    s.length = 4102;
    read_evenly("long length 4094", hwp_read, &s, 1, told(3, 4), NULL, 0);
    free(s.bytes);
}

static void read_levels(void)
{
    struct stream s = new_stream(64);
    put_record(&s, 20, 1, 0);
    read_evenly("first level 1", hwp_read, &s, 3, told(6, 0), NULL, 0);
    s.length = 0;
    put_record(&s, 66, 0, 2);
    put_record(&s, 1023, 1, 0);
    put_record(&s, 16, 0, 1);
    struct row levels[3] = {{{66, 0, 4, 2, 0}}, {{1023, 1, 10, 0, 0}}, {{16, 0, 14, 1, 2}}};
    read_evenly("levels 0, 1, 0", hwp_read, &s, 3, told(0, 3), levels, 3);
    read_is("levels 0, 1, 0, uneven lists", hwp_read, &s, uneven, told(0, 3), levels, 3);
    for (int k = 0; k < LISTS; k++) {
        size_t rooms[LISTS] = {3, 3, 3, 3, 3};
        rooms[k] = 2;
        read_is("one list short", hwp_read, &s, rooms, told(7, 10), NULL, 0);
    }
    s.length = 0;
    put_record(&s, 66, 0, 2);
    put_record(&s, 67, 2, 0);
    read_evenly("levels 0, 2", hwp_read, &s, 3, told(6, 6), NULL, 0);
    free(s.bytes);
}

static void read_faults(void)
{
    struct stream s = new_stream(LIMIT + 64);
    put_record(&s, 66, 0, 2);
    put_record(&s, 15, 0, 0);
    read_evenly("tag 15", hwp_read, &s, 3, told(5, 6), NULL, 0);
    s.length = 6;
    put_header(&s, 20, 0, 4095);
    s.bytes[10]--;
    read_evenly("long length 4094 behind a record", hwp_read, &s, 3, told(3, 10), NULL, 0);
    s.length = 7;
    read_evenly("header cut behind a record", hwp_read, &s, 3, told(2, 7), NULL, 0);

    s.length = 0;
    put_record(&s, 20, 0, LIMIT - 8);
    struct row whole = {{20, 0, 8, LIMIT - 8, 0}};
    read_evenly("the limit", hwp_read, &s, 1, told(0, 1), &whole, 1);
    s.length = 0;
    put_record(&s, 20, 0, LIMIT - 7);
    read_evenly("over the limit", hwp_read, &s, 1, told(1, 0), NULL, 0);
    free(s.bytes);
}

static void pack_one(const char *name, uint32_t tag, uint32_t level, uint32_t place, uint32_t length, size_t out,
                     unsigned number)
{
    static uint8_t bytes[5000];
    memset(bytes, (int)tag, sizeof bytes);
    const uint32_t parent = 0;
    const struct packing p = {
        1, {&tag, &level, &place, &length, &parent}, {1, 1, 1, 1, 1}, bytes, sizeof bytes, out};
    struct stream s = new_stream(6000);
    if (number == 0)
        put_record(&s, tag, level, length);
    pack_is(name, &p, told(number, s.length), number == 0 ? &s : NULL);
    free(s.bytes);
}

static void pack_pairs(void)
{
    pack_one("pack body 4094", 20, 0, 906, 4094, 4098, 0);
    pack_one("pack body 4094, out short", 20, 0, 906, 4094, 4097, 26);
    pack_one("pack body 4095", 20, 0, 905, 4095, 4103, 0);
    pack_one("pack body 4095, out longer", 20, 0, 0, 4095, 4111, 0);
    pack_one("pack body 4095, out short", 20, 0, 0, 4095, 4102, 26);
    pack_one("pack empty body at the end", 1023, 0, 5000, 0, 4, 0);
    pack_one("pack empty body past the end", 1023, 0, 5001, 0, 4, 4);
    pack_one("pack body past the end", 20, 0, 906, 4095, 5000, 4);
    pack_one("pack body that wraps", 20, 0, 0xFFFFFFFF, 2, 5000, 4);
    pack_one("pack tag 15", 15, 1, 5001, 0, 0, 5);
    pack_one("pack tag 1024", 1024, 1, 5001, 0, 0, 5);
    pack_one("pack first level 1", 16, 1, 5001, 0, 0, 6);
}

static const uint32_t tags[3] = {66, 67, 68}, levels[3] = {0, 1, 1}, places[3] = {1, 0, 1}, lengths[3] = {2, 3, 0};

/* Three records, of which the last two are below the first. */
static void pack_three(void)
{
    const uint32_t parents[3] = {0, 0, 0};
    const uint8_t bytes[3] = {9, 8, 7};
    struct packing p = {3, {tags, levels, places, lengths, parents}, {3, 3, 3, 3, 3}, bytes, 3, 17};
    struct stream s = new_stream(17);
    put_word(&s, 66 | 2 << 20);
    memcpy(s.bytes + 4, "\x08\x07", 2);
    s.length = 6;
    put_word(&s, 67 | 1 << 10 | 3 << 20);
    memcpy(s.bytes + 10, "\x09\x08\x07", 3);
    s.length = 13;
    put_word(&s, 68 | 1 << 10);
    pack_is("pack three records", &p, told(0, 17), &s);
    p.room = 20;
    pack_is("pack three records, out longer", &p, told(0, 17), &s);
    p.room = 16;
    pack_is("pack three records, out short", &p, told(26, 0), NULL);
    for (int k = 0; k < LISTS; k++) {
        p.counts[k] = 2;
        pack_is("pack, one list short", &p, told(27, 0), NULL);
        p.counts[k] = 3;
    }
    p.count = (size_t)1 << 63;
    pack_is("pack, count 2 to the power 63", &p, told(27, 0), NULL);
    p.count = ((size_t)1 << 32) + 1;
    pack_is("pack, count over 32 bits", &p, told(27, 0), NULL);
    p.count = 0;
    p.room = 0;
    pack_is("pack nothing", &p, told(0, 0), NULL);
    free(s.bytes);
}

/* Each parent that is another than the nearest earlier record of smaller level. */
static void pack_parents(void)
{
    const uint8_t bytes[3] = {9, 8, 7};
    for (uint32_t i = 0; i < 3; i++) {
        for (uint32_t wrong = 1; wrong < 5; wrong++) {
            uint32_t parents[3] = {0, 0, 0};
            parents[i] = wrong < 4 ? wrong : 0xFFFFFFFFu;
            struct packing p = {3, {tags, levels, places, lengths, parents}, {3, 3, 3, 3, 3}, bytes, 3, 17};
            pack_is("pack, a parent wrong", &p, told(28, i), NULL);
            p.bytes_length = 0; /* the body of the first record is outside: 4 comes behind its 28 */
            pack_is("pack, a parent wrong, a body outside", &p, i ? told(4, 0) : told(28, 0), NULL);
        }
    }
}

/* Records whose total is at, and one byte over, the limit. */
static void pack_limit(void)
{
    uint32_t each_tag[16], each_level[16], each_place[16], each_length[16], parents[16];
    const uint32_t each = LIMIT / 16 - 8;
    uint8_t *bytes = calloc(each + 1, 1);
    struct stream s = new_stream(LIMIT);
    if (!bytes)
        exit(2);
    memset(bytes, 77, each + 1);
    for (int i = 0; i < 16; i++) {
        each_tag[i] = 77;
        each_level[i] = 0;
        each_place[i] = 0;
        each_length[i] = each;
        parents[i] = (uint32_t)i;
        put_record(&s, 77, 0, each);
    }
    struct packing p = {16, {each_tag, each_level, each_place, each_length, parents}, {16, 16, 16, 16, 16}, bytes,
                        each + 1, LIMIT};
    pack_is("pack to the limit", &p, told(0, LIMIT), &s);
    each_length[9]++;
    p.room = LIMIT + 1;
    pack_is("pack over the limit", &p, told(1, 0), NULL);
    free(bytes);
    free(s.bytes);
}

int main(void)
{
    catch_traps();
    read_lengths();
    read_levels();
    read_faults();
    pack_pairs();
    pack_three();
    pack_parents();
    pack_limit();
    return result();
}
