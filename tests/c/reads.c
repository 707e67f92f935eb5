/* reads.c: the three reads and pack of hwp.h, with every list and buffer against pages that trap.
 *
 *   reads SAMPLES         SAMPLES is the folder of the samples with its expected.txt
 *   reads SAMPLES long    also pack's index where it has more than 28 bits, which takes seconds
 *
 * Each sample by the read of its kind and by read of records only: the answer is the one in expected.txt, the five
 * lists hold what the listing says and the parents that the levels ask for. Each list in turn is the shortest and the
 * longest. What was read packs to the same stream, and not where a parent is another. Parents by hand in a small tree
 * and in a chain to the deepest level, each number of pack in its order, and each count of a DocInfo made wrong.
 */
#define _GNU_SOURCE
#define PROGRAM "reads"
#define SAMPLES
#include "lend.h"

#include "hwp.h"

#include "table.h"

#define DEEPEST 1023u

static uint32_t word_at(const uint8_t *at)
{
    return at[0] | (uint32_t)at[1] << 8 | (uint32_t)at[2] << 16 | (uint32_t)at[3] << 24;
}

/* The nearest earlier row of smaller level, looked for from the record back; at level 0 the row itself. */
static uint32_t parent_of(const struct row *rows, uint32_t i)
{
    uint32_t level = rows[i].part[LEVEL], p = i;
    while (level && rows[p].part[LEVEL] >= level)
        p--;
    return p;
}

/* The rows of a stream whose records are sound, read here once more. */
static struct row *rows_of(const struct stream *s, size_t *count)
{
    struct row *rows = malloc((s->length / 4 + 1) * sizeof *rows);
    if (!rows)
        exit(2);
    *count = 0;
    for (size_t at = 0; at < s->length; (*count)++) {
        uint32_t header = word_at(s->bytes + at), size = header >> 20;
        size_t body = at + (size < 4095 ? 4 : 8);
        uint32_t length = size < 4095 ? size : word_at(s->bytes + at + 4);
        struct row row = {{header & 1023, header >> 10 & 1023, (uint32_t)body, length, 0}};
        rows[*count] = row;
        rows[*count].part[PARENT] = parent_of(rows, (uint32_t)*count);
        at = body + length;
    }
    return rows;
}

static size_t header_of(const struct row *row) { return row->part[PLACE] - (row->part[LENGTH] < 4095 ? 4 : 8); }

/* Each list in turn one entry short, and each in turn longer than the others. */
static void rooms_are(const char *name, read_call *read, const struct stream *s, const struct row *rows, size_t count)
{
    for (int k = 0; k < LISTS; k++) {
        size_t rooms[LISTS] = {count, count, count, count, count};
        rooms[k] += 3;
        read_is(name, read, s, rooms, told(0, count), rows, count);
        if (count) {
            for (int other = 0; other < LISTS; other++)
                rooms[other] = other == k ? count - 1 : count + 2;
            read_is(name, read, s, rooms, told(7, header_of(&rows[count - 1])), NULL, 0);
            rooms[k] = 0;
            read_is(name, read, s, rooms, told(7, 0), NULL, 0);
        }
    }
}

/* What was read packs to the stream, and one byte of room less is 26. Each parent made another is 28 at its index. */
static void packs_back(const char *name, const struct stream *s, const struct row *rows, size_t count)
{
    struct table t = new_table(rows, count, 2);
    struct packing p = packing_of(&t, 0, s, s->length);
    pack_is(name, &p, told(0, s->length), s);
    p = packing_of(&t, 2, s, s->length + 9);
    pack_is(name, &p, told(0, s->length), s);
    if (s->length) {
        p.room = s->length - 1;
        pack_is(name, &p, told(26, 0), NULL);
    }
    p.room = 8;
    for (size_t i = 0; i < count && count < 30; i++) {
        for (uint32_t other = 0; other <= count; other++) {
            t.part[PARENT][i] = other < count ? other : 0xFFFFFFFFu;
            if (t.part[PARENT][i] != rows[i].part[PARENT])
                pack_is(name, &p, told(28, i), NULL);
        }
        t.part[PARENT][i] = rows[i].part[PARENT];
    }
    drop_table(t);
}

/* A sound stream by one read, with lists of every length that matters. */
static void sound_is(const char *name, read_call *read, const struct stream *s, const struct row *rows, size_t count)
{
    read_evenly(name, read, s, count, told(0, count), rows, count);
    rooms_are(name, read, s, rows, count);
}

/* ---- the samples ---- */

/* The listing that stands beside a sound section has the same records. */
static void listing_is(const char *folder, const char *name, const struct row *rows, size_t count)
{
    char other[160];
    const char *dot = strrchr(name, '.');
    if (strchr(name, '/') || strcmp(dot, ".section"))
        return;
    snprintf(other, sizeof other, "%.*s.listing", (int)(dot - name), name);
    struct stream listing = read_sample(folder, other);
    listing.bytes[listing.length] = 0;
    const char *line = (const char *)listing.bytes;
    now = other;
    for (size_t i = 0; i < count; i++, line = strchr(line, '\n') + 1) {
        unsigned place = 0, tag = 0, level = 0, length = 0;
        expect(sscanf(line, "%u %u %u %u", &place, &tag, &level, &length) == 4, "a line");
        expect(place == header_of(&rows[i]) && tag == rows[i].part[TAG], "place and tag");
        expect(level == rows[i].part[LEVEL] && length == rows[i].part[LENGTH], "level and length");
    }
    expect(strtoul(line + 3, NULL, 10) == count, "the number of records");
    free(listing.bytes);
}

/* The read of the sample's kind, and read of records only, which refuses with 2 to 6 alone. */
static void sample_is(const char *folder, const struct line *line)
{
    int docinfo = !strcmp(line->call, "docinfo");
    if (!docinfo && strcmp(line->call, "check"))
        return;
    read_call *read = docinfo ? hwp_read_docinfo : hwp_read_section;
    struct stream s = read_sample(folder, line->name);
    uint64_t asked = told(line->number, line->place);
    if (line->number)
        read_evenly(line->name, read, &s, 200, asked, NULL, 0);
    if (line->number && line->number < 7) {
        read_evenly(line->name, hwp_read, &s, 200, asked, NULL, 0);
    } else {
        size_t count;
        struct row *rows = rows_of(&s, &count);
        if (!line->number) {
            now = line->name;
            expect(count == line->place, "the number of records");
            listing_is(folder, line->name, rows, count);
            sound_is(line->name, read, &s, rows, count);
        }
        sound_is(line->name, hwp_read, &s, rows, count);
        packs_back(line->name, &s, rows, count);
        free(rows);
    }
    free(s.bytes);
}

/* Each count that is asked, negative and then one too high; of counts 1 to 7 the first is named for one too high. */
static void counts_are_named(const char *folder, const char *name, size_t width)
{
    struct stream s = read_sample(folder, name);
    const uint64_t counts = 4 + 30 + 4; /* behind record 16 and the header of 17 */
    for (size_t i = 0; i < 16; i++) {
        uint8_t *count = s.bytes + counts + width * i, right = *count;
        size_t group = i >= 1 && i <= 7 ? 1 : i;
        memset(count, 0xFF, width);
        read_evenly(name, hwp_read_docinfo, &s, 20, told(18, counts + width * i), NULL, 0);
        memset(count, 0, width);
        *count = right + 1;
        read_evenly(name, hwp_read_docinfo, &s, 20, told(18, counts + width * group), NULL, 0);
        *count = right;
    }
    free(s.bytes);
}

/* 7 is among read's numbers: before 9 and 16, and behind every broken rule of records. */
static void order_of_7(void)
{
    struct stream s = new_stream(64);
    put_record(&s, 67, 0, 2); /* a text outside, and no record 16 */
    read_evenly("7 before 9", hwp_read_section, &s, 0, told(7, 0), NULL, 0);
    read_evenly("9 with room", hwp_read_section, &s, 1, told(9, 0), NULL, 0);
    read_evenly("7 before 16", hwp_read_docinfo, &s, 0, told(7, 0), NULL, 0);
    read_evenly("16 with room", hwp_read_docinfo, &s, 1, told(16, 0), NULL, 0);
    put_record(&s, 15, 0, 2);
    read_evenly("5 before 7", hwp_read, &s, 0, told(5, 6), NULL, 0);
    read_evenly("5 before 7 and 9", hwp_read_section, &s, 0, told(5, 6), NULL, 0);
    read_evenly("5 before 7 and 16", hwp_read_docinfo, &s, 1, told(5, 6), NULL, 0);
    free(s.bytes);
}

/* ---- parents ---- */

/* Records of four bytes at these levels: their parents as given here, by read and as packed. */
static void parents_are(const char *name, const uint32_t *levels, const uint32_t *parents, uint32_t count)
{
    struct stream s = new_stream(4 * count);
    struct row *rows = malloc((count + 1) * sizeof *rows);
    if (!rows)
        exit(2);
    for (uint32_t i = 0; i < count; i++) {
        struct row row = {{200, levels[i], 4 * i + 4, 0, parents[i]}};
        rows[i] = row;
        put_header(&s, 200, levels[i], 0);
    }
    sound_is(name, hwp_read, &s, rows, count);
    sound_is(name, hwp_read_section, &s, rows, count);
    packs_back(name, &s, rows, count);
    free(rows);
    free(s.bytes);
}

static void small_trees(void)
{
    static const uint32_t levels[] = {0, 1, 2, 2, 1, 2, 3, 0, 1, 1, 0}, parents[] = {0, 0, 1, 1, 0, 4, 5, 7, 7, 7, 10};
    parents_are("a small tree", levels, parents, 11);
    static const uint32_t climbs[] = {0, 1, 2, 3, 4, 2, 3, 1, 2, 0}, above[] = {0, 0, 1, 2, 3, 1, 5, 0, 7, 9};
    parents_are("back by two and three levels", climbs, above, 10);
    parents_are("no record", levels, parents, 0);
    parents_are("one record", levels, parents, 1);
}

/* To the deepest level and back: each parent is the record before, then the first at each level again. */
static void deep_chain(void)
{
    static uint32_t levels[2 * (DEEPEST + 1)], parents[2 * (DEEPEST + 1)];
    uint32_t n = 0;
    for (; n <= DEEPEST; n++) {
        levels[n] = n;
        parents[n] = n ? n - 1 : 0;
    }
    for (uint32_t level = DEEPEST; level > 0; level--, n++) {
        levels[n] = level;
        parents[n] = level - 1;
    }
    levels[n] = 0;
    parents[n] = n;
    parents_are("a chain to level 1,023 and back", levels, parents, n + 1);
}

/* As many records as a stream has room for, a chain to the deepest level again and again. */
static void most_records(void)
{
    const uint32_t most = LIMIT / 4, turn = DEEPEST + 1;
    struct stream s = new_stream(LIMIT);
    struct row *rows = malloc(most * sizeof *rows);
    if (!rows)
        exit(2);
    for (uint32_t i = 0; i < most; i++) {
        struct row row = {{200, i % turn, 4 * i + 4, 0, i % turn ? i - 1 : i}};
        rows[i] = row;
        put_header(&s, 200, i % turn, 0);
    }
    read_evenly("as many records as there can be", hwp_read, &s, most, told(0, most), rows, most);
    read_evenly("one record too many", hwp_read, &s, most - 1, told(7, LIMIT - 4), NULL, 0);
    struct table t = new_table(rows, most, 0);
    struct packing p = packing_of(&t, 0, &s, LIMIT);
    pack_is("as many records as there can be, packed", &p, told(0, LIMIT), &s);
    t.part[PARENT][most - 1] = 0;
    pack_is("the last parent wrong", &p, told(28, most - 1), NULL);
    drop_table(t);
    free(rows);
    free(s.bytes);
}

/* ---- pack ---- */

static const struct row three[3] = {{{66, 0, 1, 2, 0}}, {{67, 1, 0, 3, 0}}, {{68, 1, 3, 0, 0}}};

/* The third of three records with one entry set, or more: the number at its index. */
static void third_is(const char *name, struct row third, unsigned number)
{
    uint8_t body[3] = {9, 8, 7};
    const struct stream bytes = {body, 3};
    struct row rows[3] = {three[0], three[1], third};
    struct table t = new_table(rows, 3, 1);
    struct packing p = packing_of(&t, 1, &bytes, 17);
    pack_is(name, &p, told(number, 2), NULL);
    p.room = 0;
    pack_is(name, &p, told(number, 2), NULL);
    p.counts[PARENT] = 2;
    pack_is(name, &p, told(27, 0), NULL); /* before all of them */
    drop_table(t);
}

/* Each number of a record, with every later one broken too. */
static void pack_order(void)
{
    third_is("tag 15, level 3, a parent behind, a body outside", (struct row){{15, 3, 4, 0, 9}}, 5);
    third_is("tag 1,024", (struct row){{1024, 3, 4, 0, 9}}, 5);
    third_is("level 3, a parent behind, a body outside", (struct row){{16, 3, 4, 0, 9}}, 6);
    third_is("level 1,024", (struct row){{1023, 1024, 4, 0, 9}}, 6);
    third_is("level 2 to the power 32 less 1", (struct row){{1023, 0xFFFFFFFFu, 4, 0, 9}}, 6);
    third_is("the sibling as parent, a body outside", (struct row){{68, 1, 4, 0, 1}}, 28);
    third_is("the record itself as parent at level 1", (struct row){{68, 1, 4, 0, 2}}, 28);
    third_is("the grandparent as parent", (struct row){{68, 2, 4, 0, 0}}, 28);
    third_is("the first record as parent at level 0", (struct row){{68, 0, 4, 0, 0}}, 28);
    third_is("the record before as parent at level 0", (struct row){{68, 0, 4, 0, 1}}, 28);
    third_is("a parent behind the records", (struct row){{68, 0, 4, 0, 3}}, 28);
    third_is("a parent that no list has", (struct row){{68, 1, 4, 0, 0xFFFFFFFFu}}, 28);
    third_is("an empty body outside", (struct row){{68, 1, 4, 0, 0}}, 4);
    third_is("a body that ends outside", (struct row){{68, 2, 3, 1, 1}}, 4);
    third_is("a body whose end wraps", (struct row){{68, 0, 0xFFFFFFFFu, 2, 2}}, 4);
}

/* A fault of the second record comes before any of the third; each list in turn is short; counts beyond all lists. */
static void pack_table(void)
{
    uint8_t body[3] = {9, 8, 7};
    const struct stream bytes = {body, 3};
    struct table t = new_table(three, 3, 0);
    struct stream s = new_stream(17);
    put_header(&s, 66, 0, 2);
    memcpy(s.bytes + s.length, body + 1, 2);
    s.length += 2;
    put_header(&s, 67, 1, 3);
    memcpy(s.bytes + s.length, body, 3);
    s.length += 3;
    put_header(&s, 68, 1, 0);
    struct packing p = packing_of(&t, 0, &bytes, 17);
    pack_is("three records", &p, told(0, 17), &s);
    for (int k = 0; k < LISTS; k++) {
        p.counts[k] = 2;
        pack_is("one list short", &p, told(27, 0), NULL);
        p.counts[k] = 3;
    }
    p.count = (size_t)1 << 63;
    pack_is("count 2 to the power 63", &p, told(27, 0), NULL);
    p.count = 3;
    t.part[TAG][2] = 15;
    t.part[PLACE][1] = 1;
    pack_is("4 of the second record before 5 of the third", &p, told(4, 1), NULL);
    t.part[PLACE][1] = 0;
    t.part[PARENT][1] = 1;
    pack_is("28 of the second record before 5 of the third", &p, told(28, 1), NULL);
    t.part[PARENT][0] = 1;
    pack_is("28 of the first record", &p, told(28, 0), NULL);
    p.count = 0;
    pack_is("nothing to pack", &p, told(0, 0), NULL);
    drop_table(t);
    free(s.bytes);
}

/* A chain one level too deep, and a total over the limit: 28 and 4 come before 1, and 1 before 26. */
static void pack_limits(void)
{
    struct row rows[DEEPEST + 2];
    for (uint32_t i = 0; i < DEEPEST + 2; i++) {
        struct row row = {{200, i, 0, LIMIT / 1024, i ? i - 1 : 0}};
        rows[i] = row;
    }
    struct stream bytes = new_stream(LIMIT / 1024);
    memset(bytes.bytes, 0, LIMIT / 1024);
    bytes.length = LIMIT / 1024;
    struct table t = new_table(rows, DEEPEST + 2, 0);
    struct packing p = packing_of(&t, 0, &bytes, 4);
    pack_is("level 1,024 behind 1,023", &p, told(6, DEEPEST + 1), NULL);
    p.count--;
    pack_is("a total over the limit, no room", &p, told(1, 0), NULL);
    t.part[PARENT][DEEPEST] = DEEPEST;
    pack_is("28 before 1", &p, told(28, DEEPEST), NULL);
    t.part[PARENT][DEEPEST] = DEEPEST - 1;
    t.part[PLACE][DEEPEST] = 1;
    pack_is("4 before 1", &p, told(4, DEEPEST), NULL);
    p.count--;
    pack_is("26 below the limit", &p, told(26, 0), NULL);
    drop_table(t);
    free(bytes.bytes);
}

/* ---- indexes of more than 28 bits ---- */

#define LARGEST 268435455u      /* the largest index that an answer holds */
#define PIECE ((size_t)1 << 24) /* bytes that are mapped again and again */
#define PIECES (4 * ((size_t)LARGEST + 1) / PIECE + 1)

/* A list of more than LARGEST entries, all the same. Its pieces are one file; a page that is written is its own. */
static uint32_t *long_list(uint32_t entry)
{
    int file = memfd_create("list", 0);
    uint8_t *at = mmap(NULL, PIECES * PIECE, PROT_NONE, MAP_PRIVATE | MAP_ANONYMOUS | MAP_NORESERVE, -1, 0);
    int good = file >= 0 && at != MAP_FAILED && !ftruncate(file, (off_t)PIECE);
    for (size_t i = 0; good && i < PIECE / 4; i += 1024) {
        uint32_t page[1024];
        for (int k = 0; k < 1024; k++)
            page[k] = entry;
        good = write(file, page, sizeof page) == sizeof page;
    }
    for (size_t i = 0; good && i < PIECES; i++)
        good = mmap(at + i * PIECE, PIECE, PROT_READ | PROT_WRITE, MAP_PRIVATE | MAP_FIXED | MAP_NORESERVE, file, 0) !=
               MAP_FAILED;
    if (!good) {
        printf(PROGRAM ": no memory for a long list\n");
        exit(2);
    }
    close(file);
    return (uint32_t *)(void *)at;
}

/* Empty records below the first: the index is given in full up to LARGEST, and any behind it as LARGEST. */
static void large_indexes(void)
{
    uint32_t *part[LISTS] = {long_list(16), long_list(1), long_list(0), long_list(0), long_list(0)};
    const size_t n = (size_t)LARGEST + 3;
    uint8_t none[1] = {0};
    part[LEVEL][0] = 0;
    static const struct {
        const char *name;
        int part;
        uint32_t wrong;
        unsigned number;
        int behind; /* how far behind LARGEST it stands */
    } faults[] = {{"tag 15 two behind the largest index", TAG, 15, 5, 2},
                  {"a wrong parent behind the largest index", PARENT, 1, 28, 1},
                  {"a wrong parent at the largest index", PARENT, 1, 28, 0},
                  {"level 3 before the largest index", LEVEL, 3, 6, -1}};
    for (size_t i = 0; i < sizeof faults / sizeof *faults; i++) {
        size_t index = (size_t)((long)LARGEST + faults[i].behind);
        part[faults[i].part][index] = faults[i].wrong;
        now = faults[i].name;
        uint64_t found = hwp_pack(n, part[TAG], n, part[LEVEL], n, part[PLACE], n, part[LENGTH], n, part[PARENT], n,
                                  none, 0, none, 0);
        expect(found == told(faults[i].number, index < LARGEST ? index : LARGEST), "answer of pack");
    }
    for (int k = 0; k < LISTS; k++)
        munmap(part[k], PIECES * PIECE);
}

int main(int argc, char **argv)
{
    int is_long = argc == 3 && !strcmp(argv[2], "long");
    if (argc != 2 && !is_long) {
        fputs("usage: reads SAMPLES [long]\n", stderr);
        return 2;
    }
    catch_traps();
    each_line(argv[1], sample_is);
    counts_are_named(argv[1], "water.docinfo", 2);
    counts_are_named(argv[1], "water-current.docinfo", 4);
    order_of_7();
    small_trees();
    deep_chain();
    most_records();
    pack_order();
    pack_table();
    pack_limits();
    if (is_long)
        large_indexes();
    return result();
}
