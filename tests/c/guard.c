/* guard.c: check, field text, fill and the section read of hwp.h, called as the spool host calls them, with every
 * buffer and list against pages that trap. The other reads and pack are in reads.c.
 *
 *   guard SAMPLES    SAMPLES is the folder of the samples with its expected.txt
 *
 * Document 01's pairs about fills, each number of check, field text and fill at its edge, the wrong byte that 2, 3, 12
 * and 13 name in all four, and every sample. Each call is made twice, with the buffers before the trapping page and
 * behind it; its answer, every byte of the sheet buffer and, where the section read is refused, every entry of its
 * lists are compared.
 */
#define _GNU_SOURCE
#define PROGRAM "guard"
#define SAMPLES
#include "lend.h"
#include "paragraph.h"

#include "hwp.h"

#include "table.h"

#define BYTE 0xA5
#define RECORDS 4096u /* more than any section here has */

/* The section read with room for all records answers as check does. */
static void section_is(const struct stream *s, uint64_t asked)
{
    int accepted = hwp_number(asked) == HWP_ACCEPTED;
    size_t room = accepted ? hwp_place(asked) : RECORDS;
    for (int at_end = 0; at_end < 2; at_end++) {
        struct lent section = given(s->bytes, s->length, at_end), l[LISTS];
        for (int k = 0; k < LISTS; k++)
            l[k] = list(room, at_end);
        uint64_t found = hwp_read_section(section.part, s->length, entries(l[TAG]), room, entries(l[LEVEL]), room,
                                          entries(l[PLACE]), room, entries(l[LENGTH]), room, entries(l[PARENT]), room);
        expect(found == asked, "answer of the section read");
        for (int k = 0; k < LISTS; k++) {
            expect(accepted || list_is(l[k], room, k, NULL, 0), list_names[k]);
            give_back(l[k]);
        }
        give_back(section);
    }
}

static void check_is(const char *name, const struct stream *s, uint64_t asked)
{
    now = name;
    for (int at_end = 0; at_end < 2; at_end++) {
        struct lent section = given(s->bytes, s->length, at_end);
        expect(hwp_check(section.part, s->length) == asked, "answer of check");
        give_back(section);
    }
    section_is(s, asked);
}

static void field_is(const char *name, const struct stream *s, uint32_t id, uint64_t asked)
{
    now = name;
    for (int at_end = 0; at_end < 2; at_end++) {
        struct lent section = given(s->bytes, s->length, at_end);
        expect(hwp_field_text(section.part, s->length, id) == asked, "answer of field text");
        give_back(section);
    }
}

/* One fill: the answer, and every byte of the buffer. Without a sheet it is refused and changes none. */
static void fill_is(const char *name, const struct stream *s, uint32_t id, struct value v, size_t room, uint64_t asked,
                    const struct stream *sheet)
{
    now = name;
    for (int at_end = 0; at_end < 2; at_end++) {
        struct lent section = given(s->bytes, s->length, at_end);
        struct lent value = given(v.bytes, v.length, at_end);
        struct lent out = lend(room, at_end);
        if (room)
            memset(out.part, BYTE, room);
        expect(hwp_fill(section.part, s->length, id, value.part, v.length, out.part, room) == asked, "answer of fill");
        size_t length = sheet ? sheet->length : 0;
        expect(length <= room && (!length || !memcmp(out.part, sheet->bytes, length)), "the sheet");
        int kept = 1;
        for (size_t i = length; i < room; i++)
            kept &= out.part[i] == BYTE;
        expect(kept, "bytes behind the sheet");
        give_back(section);
        give_back(value);
        give_back(out);
    }
}

/* A refusal of the section, which all four hand on. */
static void refused_is(const char *name, const struct stream *s, unsigned number, size_t place)
{
    check_is(name, s, answer(number, place, 0));
    field_is(name, s, 7, answer(number, place, 0));
    fill_is(name, s, 7, units(1, '2'), 64, answer(number, place, 0), NULL);
}

static struct stream one(const struct paragraph *p)
{
    struct stream s = new_stream(65536);
    put_paragraph(&s, p);
    return s;
}

/* Fills `from` and compares with `to`, which has the value; then asks check and field text of the sheet. */
static void becomes(const char *name, struct paragraph from, struct paragraph to)
{
    struct stream section = one(&from), sheet = one(&to);
    struct value value = units(to.value, to.unit);
    size_t text = 4 + 23 + (2 * count_of(&to) < 4095 ? 4 : 8);
    fill_is(name, &section, from.id, value, sheet.length, answer(0, sheet.length, 0), &sheet);
    fill_is(name, &section, from.id, value, sheet.length + 9, answer(0, sheet.length, 0), &sheet);
    fill_is(name, &section, from.id, value, sheet.length - 1, answer(26, 0, 0), NULL);
    fill_is(name, &section, from.id, value, 0, answer(26, 0, 0), NULL);
    check_is(name, &sheet, answer(0, to.lines ? 6 : 5, 0));
    field_is(name, &sheet, to.id, answer(0, text + 2 * (to.before + 8), 2 * to.value));
    free(section.bytes);
    free(sheet.bytes);
}

static void fill_pairs(void)
{
    struct paragraph from = {.value = 3, .behind = 8, .unit = '1', .nstarts = 3, .starts = {0, 8, 19}, .shapes = {5, 6, 7}, .id = 7};
    struct paragraph to = {.value = 4, .behind = 8, .unit = '2', .nstarts = 3, .starts = {0, 12, 20}, .shapes = {5, 6, 7}, .id = 7, .altered = 1};
    becomes("starts 0, 8, 19", from, to);
    from.flag = to.flag = 0x80000000u;
    becomes("starts 0, 8, 19 and the flag", from, to);
    from.lines = 2;
    becomes("the line layout goes", from, to);
    from.altered = 1;
    becomes("filled again", from, to);

    from = (struct paragraph){.value = 3, .behind = 8, .unit = '1', .nstarts = 3, .starts = {0, 9, 11}, .shapes = {5, 6, 7}, .id = 0xFFFFFFFFu};
    to = (struct paragraph){.value = 4, .behind = 8, .unit = 32, .nstarts = 2, .starts = {0, 12}, .shapes = {5, 7}, .id = 0xFFFFFFFFu, .altered = 1};
    becomes("starts 0, 9, 11", from, to);
    from.nstarts = 2;
    to = (struct paragraph){.value = 0, .behind = 8, .nstarts = 2, .starts = {0, 8}, .shapes = {5, 6}, .id = 0xFFFFFFFFu, .altered = 1};
    becomes("starts 0, 9, empty value", from, to);
    from = to;
    to = (struct paragraph){.value = 1024, .behind = 8, .unit = 0xFFFF, .nstarts = 2, .starts = {0, 1032}, .shapes = {5, 6}, .id = 0xFFFFFFFFu, .altered = 1};
    becomes("an empty value to 1,024 units", from, to);

    from = (struct paragraph){.before = 2000, .value = 3, .behind = 27, .unit = '1', .nstarts = 2, .starts = {0, 5}, .shapes = {5, 6}, .id = 0};
    to = from;
    to.value = 4;
    to.altered = 1;
    becomes("2,047 to 2,048 units", from, to);
    struct stream shorter = one(&from), longer = one(&to);
    now = "2,047 to 2,048 units";
    expect(longer.length == shorter.length + 6, "six bytes longer");
    free(shorter.bytes);
    free(longer.bytes);
    from.altered = 1;
    becomes("2,048 to 2,047 units", to, from);
}

/* The most that a sheet can have: the text passes 4,095 bytes, and nothing of the section gives way. */
static void longest_sheet(void)
{
    struct paragraph from = {.before = 2000, .behind = 30, .nstarts = 1, .shapes = {5}, .id = 7};
    struct paragraph to = from;
    to.value = 1;
    to.unit = '1';
    to.altered = 1;
    becomes("the longest sheet", from, to);
    struct stream section = one(&from), sheet = one(&to);
    now = "the longest sheet";
    expect(sheet.length == section.length + 2 + 4, "section, value and four bytes");
    free(section.bytes);
    free(sheet.bytes);
}

static void fill_numbers(void)
{
    struct paragraph p = {.value = 3, .behind = 8, .unit = '1', .nstarts = 1, .shapes = {5}, .id = 7};
    struct stream s = one(&p);
    struct value good = units(1, '2');
    uint8_t odd[1] = {65};
    fill_is("value of one byte", &s, 8, (struct value){odd, 1}, 0, answer(20, 0, 0), NULL);
    fill_is("unit 31", &s, 8, units(1, 31), 0, answer(20, 0, 0), NULL);
    fill_is("unit 0", &s, 8, units(1, 0), 0, answer(20, 0, 0), NULL);
    fill_is("1,025 units", &s, 8, units(1025, '2'), 0, answer(20, 0, 0), NULL);
    struct value long_odd = units(1024, '2');
    long_odd.length++;
    fill_is("1,024 units and a byte", &s, 8, long_odd, 0, answer(20, 0, 0), NULL);
    good = units(1, '2');
    fill_is("no such id", &s, 8, good, 0, answer(21, 0, 0), NULL);
    field_is("no such id", &s, 8, answer(21, 0, 0));

    s.bytes[0] = 15;
    fill_is("a section that is not sound, and a bad value", &s, 8, units(1, 0), 0, answer(5, 0, 0), NULL);
    field_is("a section that is not sound", &s, 8, answer(5, 0, 0));
    s.bytes[0] = 66;

    struct stream twice = new_stream(65536);
    put_paragraph(&twice, &p);
    put_paragraph(&twice, &p);
    size_t second = control_header_of(&twice);
    good = units(1, '2');
    fill_is("two fields of one id", &twice, 7, good, 0, answer(22, second, 0), NULL);
    field_is("two fields of one id", &twice, 7, answer(22, second, 0));
    free(twice.bytes);
    free(s.bytes);

    p.open = 1;
    p.marks = 1;
    s = one(&p);
    size_t header = control_header_of(&s);
    fill_is("not plain, and marks", &s, 7, good, 0, answer(23, header, 0), NULL);
    field_is("not plain", &s, 7, answer(23, header, 0));
    free(s.bytes);

    p.open = 0;
    s = new_stream(65536);
    put_record(&s, 20, 0, 1); /* so that the paragraph does not stand at 0 */
    put_paragraph(&s, &p);
    fill_is("marks", &s, 7, good, 0, answer(24, 5, 0), NULL);
    free(s.bytes);
}

/* The stream limit, for the section and for the sheet. */
static void limits(void)
{
    struct paragraph p = {.value = 3, .behind = 8, .unit = '1', .nstarts = 1, .shapes = {5}, .id = 7};
    struct stream s = new_stream(LIMIT + 64);
    struct value four = units(4, '2');
    put_paragraph(&s, &p);
    uint32_t rest = LIMIT - (uint32_t)s.length - 8;
    put_record(&s, 20, 0, rest);
    check_is("the limit", &s, answer(0, 6, 0));
    fill_is("a sheet over the limit", &s, 7, four, 64, answer(25, 0, 0), NULL);
    fill_is("a sheet at the limit, no room", &s, 7, units(3, '2'), 64, answer(26, 0, 0), NULL);
    struct stream sheet = new_stream(LIMIT);
    p.unit = '2';
    p.altered = 1;
    put_paragraph(&sheet, &p);
    put_record(&sheet, 20, 0, rest);
    fill_is("a sheet at the limit", &s, 7, units(3, '2'), LIMIT, answer(0, LIMIT, 0), &sheet);
    s.bytes[s.length++] = 0;
    check_is("over the limit", &s, answer(1, 0, 0));
    field_is("over the limit", &s, 7, answer(1, 0, 0));
    fill_is("over the limit", &s, 7, units(1, 0), 0, answer(1, 0, 0), NULL);
    s.length = 0;
    put_record(&s, 20, 0, LIMIT - 8 - 2);
    put_half(&s, 20);
    refused_is("a header cut at the limit", &s, 2, LIMIT);
    free(sheet.bytes);
    free(s.bytes);
}

/* Document 01's section of 46 bytes, and every beginning of it. */
static void beginnings(void)
{
    struct stream s = new_stream(64);
    put_header(&s, 66, 0, 22);
    put_word(&s, 2);
    put_word(&s, 0);
    put_word(&s, 0);
    put_half(&s, 1);
    put_word(&s, 0);
    put_word(&s, 0);
    put_header(&s, 67, 1, 4);
    put_half(&s, 'A');
    put_half(&s, 13);
    put_header(&s, 68, 1, 8);
    put_word(&s, 0);
    put_word(&s, 0);
    now = "document 01's section";
    expect(s.length == 46, "46 bytes");
    for (s.length = 0; s.length <= 46; s.length++) {
        size_t n = s.length, last = n < 26 ? 0 : n < 34 ? 26 : 34;
        uint64_t asked = n == 0     ? answer(0, 0, 0)
                         : n == 46  ? answer(0, 3, 0)
                         : n == last ? answer(10, 0, 0)
                         : n < last + 4 ? answer(2, n, 0)
                                        : answer(4, last, 0);
        check_is("a beginning of document 01's section", &s, asked);
        field_is("a beginning of document 01's section", &s, 0, hwp_number(asked) ? asked : answer(21, 0, 0));
        fill_is("a beginning of document 01's section", &s, 0, units(0, 0), 3,
                hwp_number(asked) ? asked : answer(21, 0, 0), NULL);
    }
    free(s.bytes);
}

/* The long length of the second record: every beginning of it, and one that is too small. */
static void long_length_places(void)
{
    struct stream s = new_stream(64);
    put_record(&s, 20, 0, 5);
    put_word(&s, 20 | 4095u << 20);
    size_t long_length = s.length;
    for (; s.length < long_length + 4; s.bytes[s.length++] = 0xFF)
        refused_is("a long length cut", &s, 2, s.length);
    s.length = long_length;
    put_word(&s, 4094);
    refused_is("a long length of 4,094", &s, 3, long_length);
    free(s.bytes);
}

/* A text of these units; gives the place of its body. */
static size_t put_units(struct stream *s, const uint16_t *unit, uint32_t count)
{
    put_header(s, 67, 1, 2 * count);
    size_t body = s->length;
    for (uint32_t i = 0; i < count; i++)
        put_half(s, unit[i]);
    return body;
}

/* A paragraph with these units, its text before the shapes and then at the end of the section: 12 at the wrong unit. */
static void text_is(const char *name, const uint16_t *unit, uint32_t count, uint32_t wrong)
{
    for (int last = 0; last < 2; last++) {
        struct stream s = new_stream(65536);
        size_t body = 0;
        put_record(&s, 20, 0, 1);
        put_header(&s, 66, 0, 22);
        put_numbers(&s, count, 1, 0, 0);
        if (!last)
            body = put_units(&s, unit, count);
        put_record(&s, 68, 1, 8);
        memset(s.bytes + s.length - 8, 0, 8);
        if (last)
            body = put_units(&s, unit, count);
        refused_is(name, &s, 12, body + 2 * wrong);
        free(s.bytes);
    }
}

/* The unit that breaks the rule, each rule where another place is near. */
static void unit_places(void)
{
    static const struct {
        const char *name;
        uint32_t count, wrong;
        uint16_t units[12];
    } texts[] = {
        {"unit 0 first", 2, 0, {0, 13}},
        {"unit 0 behind a control", 11, 9, {9, 0, 0, 0, 0, 0, 0, 9, 'A', 0, 13}},
        {"unit 0 last", 2, 1, {'A', 0}},
        {"13 first", 2, 0, {13, 13}},
        {"13 behind a control that holds one", 11, 9, {4, 13, 13, 0, 0, 0, 0, 4, 'A', 13, 'B'}},
        {"13 and behind it unit 0", 3, 1, {'A', 13, 0}},
        {"a control of seven units", 8, 1, {'A', 11, 0, 0, 0, 0, 0, 13}},
        {"a control of seven units with its code last", 8, 1, {'A', 11, 0, 0, 0, 0, 0, 11}},
        {"a control of one unit", 2, 1, {'A', 4}},
        {"document 01's code 9 with the eighth unit 8", 9, 7, {9, 0, 0, 0, 0, 0, 0, 8, 13}},
        {"a control whose closing unit is the text's 13", 9, 8, {'A', 3, 0, 0, 0, 0, 0, 0, 13}},
        {"a wrong closing code before unit 0", 9, 7, {9, 0, 0, 0, 0, 0, 0, 0, 0}},
        {"13 lacking", 2, 2, {'A', 'B'}},
        {"13 lacking behind a control", 8, 8, {9, 0, 0, 0, 0, 0, 0, 9}},
    };
    for (size_t i = 0; i < sizeof texts / sizeof *texts; i++)
        text_is(texts[i].name, texts[i].units, texts[i].count, texts[i].wrong);

    uint16_t long_text[2100];
    for (int i = 0; i < 2100; i++)
        long_text[i] = 'A';
    text_is("13 lacking in a long text", long_text, 2100, 2100);
    long_text[2098] = 13;
    text_is("13 before the end of a long text", long_text, 2100, 2098);
}

/* The entry at fault: of shapes with two faults the earlier one, and shapes before marks. */
static void entry_places(void)
{
    static const struct {
        const char *name;
        uint32_t starts[3];
        uint32_t mark[2]; /* start and end of the second of three */
        size_t wrong;     /* bytes behind the first shape */
    } entries[] = {
        {"the first start is 1", {1, 9, 28}, {0, 0}, 0},
        {"a start that stays", {0, 9, 9}, {0, 0}, 16},
        {"a start that falls", {0, 9, 8}, {0, 0}, 16},
        {"a start behind the text, and one that falls", {0, 28, 9}, {0, 0}, 8},
        {"a start behind the text, and a mark", {0, 9, 28}, {1, 0}, 16},
        {"a mark that ends before its start", {0, 9, 27}, {5, 4}, 24 + 4 + 12},
        {"a mark that ends behind the text", {0, 9, 27}, {28, 29}, 24 + 4 + 12},
    };
    for (size_t i = 0; i < sizeof entries / sizeof *entries; i++) {
        struct paragraph p = {.value = 3, .behind = 8, .unit = '1', .nstarts = 3, .marks = 3, .id = 7};
        memcpy(p.starts, entries[i].starts, sizeof entries[i].starts);
        struct stream s = one(&p);
        size_t length = s.length, shapes = 4 + 23 + 4 + 2 * count_of(&p) + 4;
        s.length = shapes + 24 + 4 + 12;
        put_word(&s, entries[i].mark[0]);
        put_word(&s, entries[i].mark[1]);
        s.length = length;
        refused_is(entries[i].name, &s, 13, shapes + entries[i].wrong);
        free(s.bytes);
    }
}

static void sample_is(const char *folder, const struct line *line)
{
    struct stream s = read_sample(folder, line->name);
    uint64_t asked = answer(line->number, line->place, line->further);
    if (!strcmp(line->call, "check") && line->number)
        refused_is(line->name, &s, line->number, line->place);
    else if (!strcmp(line->call, "check"))
        check_is(line->name, &s, asked);
    else if (!strcmp(line->call, "field"))
        field_is(line->name, &s, line->id, asked);
    else if (!strcmp(line->call, "fill"))
        fill_is(line->name, &s, line->id, units(1, '1'), 4096, asked, NULL);
    free(s.bytes);
}

static struct value ascii(const char *text)
{
    static uint8_t bytes[64];
    size_t n = strlen(text);
    for (size_t i = 0; i < n; i++) {
        bytes[2 * i] = (uint8_t)text[i];
        bytes[2 * i + 1] = 0;
    }
    return (struct value){bytes, 2 * n};
}

/* The three figures into the water sheet, the week into the long one: what the samples have as filled. */
static void filled_samples(const char *folder)
{
    static const struct {
        uint32_t id;
        const char *text;
    } figures[3] = {{2001, "2024. 6. 14."}, {2002, "0.6"}, {2003, "0.185"}};
    struct stream sheet = read_sample(folder, "water.section"), goal = read_sample(folder, "water-filled.section");
    now = "the water sheet";
    for (int i = 0; i < 3; i++) {
        struct value value = ascii(figures[i].text);
        struct stream next = new_stream(65536);
        size_t room = sheet.length + value.length + 4;
        uint64_t told = hwp_fill(sheet.bytes, sheet.length, figures[i].id, value.bytes, value.length, next.bytes, room);
        expect(hwp_number(told) == HWP_ACCEPTED, "a figure");
        next.length = hwp_place(told);
        free(sheet.bytes);
        sheet = next;
    }
    expect(sheet.length == goal.length && !memcmp(sheet.bytes, goal.bytes, goal.length), "the filled sheet");
    free(sheet.bytes);
    free(goal.bytes);
    sheet = read_sample(folder, "long.section");
    goal = read_sample(folder, "long-filled.section");
    fill_is("the long sheet", &sheet, 2005, ascii("10"), goal.length, answer(0, goal.length, 0), &goal);
    free(sheet.bytes);
    free(goal.bytes);
}

int main(int argc, char **argv)
{
    if (argc != 2) {
        fputs("usage: guard SAMPLES\n", stderr);
        return 2;
    }
    catch_traps();
    beginnings();
    fill_pairs();
    longest_sheet();
    fill_numbers();
    limits();
    long_length_places();
    unit_places();
    entry_places();
    each_line(argv[1], sample_is);
    filled_samples(argv[1]);
    return result();
}
