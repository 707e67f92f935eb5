/* make.c: makes the samples, and says what each of their bytes is.
 *
 *   make-samples DIR         writes the samples to DIR
 *   make-samples map         prints the bytes of the water sheet, piece by piece, with what they are
 *   make-samples map NAME    the same of another, as `water.docinfo` or `damaged/04-body-past-end.section`
 *
 * A sheet is made as a list of records, each a row of pieces with a name; damage is done to that list, and only then
 * are headers written and places known. So `expected.txt`, which says what each call answers for each file, the listings
 * and the trees come from how the sheets were made and not from reading them. Numbers of tables are those of the published
 * format, revision 1.1. Nothing here is copied from a file of somebody's.
 */
#include <stdint.h>
#include <stdio.h>
#include <stdlib.h>
#include <string.h>
#include <sys/stat.h>
#include <uchar.h>

/* ---- pieces, records, sheets ---- */

struct piece {
    size_t at, len;
    const char *what;
};

struct record {
    unsigned tag, level;
    const char *label;
    uint8_t body[4400];
    size_t len;
    struct piece pieces[64];
    int npieces;
    int long_form;     /* damage: the long form, whatever the length */
    int too_many;      /* damage: the header claims so many bytes more */
    size_t wrong;      /* damage: from the header to the first wrong byte; 0 where the record itself is named */
    size_t place, lead; /* where its header stands, and the header's length */
};

struct field {
    unsigned id, a, b;
    const char *label; /* of its text record */
};

static struct sheet {
    struct record records[160];
    int count;
    struct field fields[8];
    int nfields;
    size_t cut; /* damage: so many bytes are lacking at the end */
} sheet;

static struct record *now; /* the record in the making */

static void stop(const char *why, const char *what)
{
    fprintf(stderr, "make-samples: %s %s\n", why, what);
    exit(1);
}

static void record(unsigned tag, unsigned level, const char *label)
{
    if (sheet.count == 160)
        stop("too many records at", label);
    now = &sheet.records[sheet.count++];
    memset(now, 0, sizeof *now);
    now->tag = tag;
    now->level = level;
    now->label = label;
}

static void bytes(const void *from, size_t len, const char *what)
{
    if (now->len + len > sizeof now->body || now->npieces == 64)
        stop("no room for", what);
    memcpy(now->body + now->len, from, len);
    now->pieces[now->npieces++] = (struct piece){now->len, len, what};
    now->len += len;
}

static void number(uint32_t n, size_t width, const char *what)
{
    uint8_t little[4] = {(uint8_t)n, (uint8_t)(n >> 8), (uint8_t)(n >> 16), (uint8_t)(n >> 24)};
    bytes(little, width, what);
}

static void n8(uint32_t n, const char *what) { number(n, 1, what); }
static void n16(uint32_t n, const char *what) { number(n, 2, what); }
static void n32(uint32_t n, const char *what) { number(n, 4, what); }

static void zeros(size_t len, const char *what)
{
    static const uint8_t none[64];
    bytes(none, len, what);
}

static unsigned units_of(const char16_t *text)
{
    unsigned n = 0;
    while (text[n])
        n++;
    return n;
}

static void units(const char16_t *text, const char *what)
{
    uint8_t little[200];
    unsigned n = units_of(text);
    for (unsigned i = 0; i < n; i++) {
        little[2 * i] = (uint8_t)text[i];
        little[2 * i + 1] = (uint8_t)(text[i] >> 8);
    }
    bytes(little, 2 * n, what);
}

/* A control id: four letters, the last one first. */
static void control_id(const char *letters, const char *what)
{
    const char back[4] = {letters[3], letters[2], letters[1], letters[0]};
    bytes(back, 4, what);
}

/* ---- a paragraph's text and what belongs to its positions ---- */

static struct text {
    uint16_t units[2100];
    unsigned count;
    uint32_t mask; /* a bit for each control code in the text but 13 */
    struct {
        unsigned at, count;
        const char *what;
    } runs[48];
    int nruns;
    struct {
        uint32_t start, id;
    } shapes[8];
    int nshapes;
    struct {
        uint32_t start, end, tag;
    } marks[4];
    int nmarks;
} text;

static void run(const uint16_t *from, unsigned count, const char *what)
{
    if (text.count + count > 2100 || text.nruns == 48)
        stop("text too long at", what);
    memcpy(text.units + text.count, from, 2 * count);
    text.runs[text.nruns].at = text.count;
    text.runs[text.nruns].count = count;
    text.runs[text.nruns++].what = what;
    text.count += count;
}

static void words(const char16_t *from, const char *what)
{
    uint16_t plain[2100];
    unsigned n = units_of(from);
    for (unsigned i = 0; i < n; i++)
        plain[i] = (uint16_t)from[i];
    if (n)
        run(plain, n, what);
}

/* One unit that is a control (10, 13, 24 to 31). */
static void one_unit(unsigned code, const char *what)
{
    const uint16_t unit = (uint16_t)code;
    text.mask |= code == 13 ? 0 : (uint32_t)1 << code; /* every text ends with 13 */
    run(&unit, 1, what);
}

/* Eight units: the code, six that belong to the control (its id in two of them), the code again. */
static void eight_units(unsigned code, const char *letters, unsigned third, const char *what)
{
    uint16_t u[8] = {(uint16_t)code, 0, 0, (uint16_t)third, 0, 0, 0, (uint16_t)code};
    if (letters) {
        u[1] = (uint16_t)(letters[3] | letters[2] << 8);
        u[2] = (uint16_t)(letters[1] | letters[0] << 8);
    }
    text.mask |= (uint32_t)1 << code;
    run(u, 8, what);
}

static void shape_from(unsigned position, unsigned id)
{
    text.shapes[text.nshapes].start = position;
    text.shapes[text.nshapes++].id = id;
}

/* From here on the characters have this shape. */
static void shape(unsigned id) { shape_from(text.count, id); }

static void mark(unsigned start, unsigned end, uint32_t tag)
{
    text.marks[text.nmarks].start = start;
    text.marks[text.nmarks].end = end;
    text.marks[text.nmarks++].tag = tag;
}

/* An entry of the record of marks. */
static void mark_entry(uint32_t start, uint32_t end, uint32_t tag)
{
    n32(start, "mark: first position (table 58)");
    n32(end, "mark: position behind its last");
    n32(tag, "mark: kind in the upper 8 bits (2: highlight), colour in the others");
}

/* How a paragraph looks, and the names of its records. */
struct look {
    unsigned level;
    const char *header, *text;
    unsigned shape, style, start_of, lines, instance;
    int last; /* of its list: bit 31 of the count */
};

/* The records 66 to 70 of the paragraph whose text was just written. */
static void paragraph(struct look look)
{
    record(66, look.level, look.header);
    n32(text.count | (look.last ? 0x80000000u : 0), "count of units; bit 31: last paragraph of its list (table 53)");
    n32(text.mask, "control mask: a bit for each control code in the text but 13");
    n16(look.shape, "paragraph shape id");
    n8(look.style, "style id");
    n8(look.start_of, "break: 1 section, 2 columns, 4 page, 8 column (table 54)");
    n16((unsigned)text.nshapes, "number of character shapes");
    n16((unsigned)text.nmarks, "number of marks");
    n16(look.lines, "number of lines in the layout");
    n32(look.instance, "instance id");

    if (text.count > 1 || look.text) { /* the text of an empty paragraph, a lone 13, is left out */
        record(67, look.level + 1, look.text);
        for (int i = 0; i < text.nruns; i++) {
            uint8_t little[4400];
            for (unsigned k = 0; k < text.runs[i].count; k++) {
                uint16_t unit = text.units[text.runs[i].at + k];
                little[2 * k] = (uint8_t)unit;
                little[2 * k + 1] = (uint8_t)(unit >> 8);
            }
            bytes(little, 2 * text.runs[i].count, text.runs[i].what);
        }
    }
    record(68, look.level + 1, "character shapes");
    for (int i = 0; i < text.nshapes; i++) {
        n32(text.shapes[i].start, "position from which the shape holds (table 56)");
        n32(text.shapes[i].id, "character shape id");
    }
    if (look.lines)
        record(69, look.level + 1, "line layout");
    for (unsigned i = 0; i < look.lines; i++) { /* not in the published tables, and not examined */
        n32(i * 40, "line: first position");
        n32(i * 1600, "line: distance from the top");
        n32(1000, "line: height");
        n32(1000, "line: height of its text");
        n32(850, "line: base line");
        n32(600, "line: space behind it");
        n32(0, "line: distance from the left");
        n32(42520, "line: width");
        n32(0x60000, "line: flags");
    }
    if (text.nmarks)
        record(70, look.level + 1, "marks");
    for (int i = 0; i < text.nmarks; i++)
        mark_entry(text.marks[i].start, text.marks[i].end, text.marks[i].tag);
    memset(&text, 0, sizeof text);
}

/* ---- fields ---- */

/* A click-here field in the text: its control; from there to the field's end stands the value. */
static struct field *field_start(unsigned id, const char *label)
{
    struct field *f = &sheet.fields[sheet.nfields++];
    eight_units(3, "%clk", 0, "field start: code 3, control id '%clk', four units of 0, code 3");
    *f = (struct field){id, text.count, 0, label};
    return f;
}

static void field_end(void)
{
    sheet.fields[sheet.nfields - 1].b = text.count;
    eight_units(4, "%clk", 0, "field end: code 4, control id '%clk', four units of 0, code 4");
}

/* The field's control header (table 141) with its name in control data below it (tables 45 to 47 and 61). */
static void field_header(unsigned level, const char *label, unsigned id, const char16_t *name, int altered)
{
    static const char16_t command[] = u"Clickhere:Direction:이번 주 값";
    record(71, level, label);
    control_id("%clk", "control id '%clk'");
    n32(altered ? 0x8001 : 1, "properties: bit 0 may be edited, bit 15 contents altered (table 142)");
    n8(0, "further properties");
    n16(units_of(command), "units of the command");
    units(command, "command: click here, and the hint '이번 주 값' (this week's value)");
    n32(id, "field id");
    record(87, level + 1, "control data");
    n16(0x021B, "parameter set: id (table 45)");
    n16(1, "parameter set: number of items");
    n16(0x4000, "item: id (table 46)");
    n16(1, "item: type 1, a string (table 47)");
    n16(units_of(name), "string: number of units");
    units(name, "string: the field's name");
}

/* ---- the water sheet ---- */

/* This week's values; a sheet is either the template or what it is to be once they are filled in. */
struct figures {
    const char16_t *date, *chlorine, *turbidity, *limit, *week;
    int filled;      /* date, chlorine, turbidity */
    int week_filled; /* week, in the long sheet */
};

static const struct figures last_week = {u"2024. 6. 7.", u"0.52", u"0.21", u"4.0", u"9", 0, 0};
static const struct figures this_week = {u"2024. 6. 14.", u"0.6", u"0.185", u"4.0", u"9", 1, 0};
static const struct figures tenth_week = {u"2024. 6. 7.", u"0.52", u"0.21", u"4.0", u"10", 0, 1};

enum { HIGHLIGHT = 0x0200FFFF }; /* the kind and colour of a mark */
enum { DATE = 2001, CHLORINE = 2002, TURBIDITY = 2003, LIMIT = 2004, WEEK = 2005 };

static void section_definition(void)
{
    record(71, 1, "section definition");
    control_id("secd", "control id 'secd'");
    n32(0, "properties (table 119)");
    n16(1134, "space between columns");
    n16(0, "vertical grid: none");
    n16(0, "horizontal grid: none");
    n32(8000, "default tab");
    n16(0, "numbering shape id");
    n16(0, "page number: goes on from the section before");
    n16(0, "picture number: goes on");
    n16(0, "table number: goes on");
    n16(0, "equation number: goes on");
    record(73, 2, "page");
    n32(59528, "paper width: 210 mm (table 120)");
    n32(84188, "paper height: 297 mm");
    n32(8504, "left margin");
    n32(8504, "right margin");
    n32(5668, "top margin");
    n32(4252, "bottom margin");
    n32(4252, "header margin");
    n32(4252, "footer margin");
    n32(0, "binding margin");
    n32(0, "properties: upright, one side (table 121)");
    for (int i = 0; i < 2; i++) {
        record(74, 2, i ? "endnote shape" : "footnote shape");
        n32(0, "properties: 1, 2, 3 (table 123)");
        n16(0, "sign of the user");
        n16(0, "sign before the number");
        n16(u')', "sign behind the number");
        n16(1, "first number");
        n16(i ? 14692 : 5000, "length of the line above the notes (table 122)");
        n16(850, "space above that line");
        n16(567, "space below that line");
        n16(283, "space between notes");
        n8(1, "kind of that line");
        n8(1, "width of that line");
        n32(0, "colour of that line");
    }
    for (int i = 0; i < 3; i++) {
        record(75, 2, "page border");
        n32(1, "properties: from the paper's edge (table 125)");
        n16(1417, "space on the left");
        n16(1417, "space on the right");
        n16(1417, "space above");
        n16(1417, "space below");
        n16(1, "border id");
    }
}

static void column_definition(void)
{
    record(71, 1, "column definition");
    control_id("cold", "control id 'cold'");
    n16(0x1004, "properties: one column, equal widths (table 128)");
    n16(0, "space between columns");
    n16(0, "upper half of the properties");
    n8(0, "kind of the line between columns");
    n8(0, "width of that line");
    n32(0, "colour of that line");
}

static void title(void)
{
    shape(0);
    eight_units(2, "secd", 0, "section definition: code 2, control id 'secd', four units of 0, code 2");
    eight_units(2, "cold", 0, "column definition: code 2, control id 'cold', four units of 0, code 2");
    shape(1);
    words(u"수질 검사 주보", "the title: weekly water report");
    one_unit(13, "paragraph end");
    paragraph((struct look){.header = "title", .text = "title text", .shape = 1, .start_of = 3, .lines = 1, .instance = 0});
    section_definition();
    column_definition();
}

static void date(struct figures f)
{
    shape(0);
    words(u"검사일 ", "'date of the test'");
    unsigned a = field_start(DATE, "date text")->a;
    if (!f.filled) { /* of three shapes from a to b a fill keeps the last alone */
        shape_from(a, 1);
        shape_from(a + 5, 2);
    }
    words(f.date, "the value");
    shape(1); /* at b, where the field's end stands */
    field_end();
    shape(0); /* behind the field: moves with the text */
    words(u" (매주 금요일)", "'every Friday'");
    one_unit(13, "paragraph end");
    paragraph((struct look){.header = "date", .text = "date text", .lines = f.filled ? 0 : 1, .instance = 0x80000001u});
    field_header(1, "date field", DATE, u"date", f.filled);
}

/* The list header of a cell (table 60) with the cell's properties (table 75). */
static void cell(unsigned level, unsigned column, unsigned row, const char *label)
{
    record(72, level, label);
    n16(1, "number of paragraphs (table 60)");
    n32(0x20, "properties: horizontal, centred (table 60)");
    n16(column, "column of the cell (table 75)");
    n16(row, "row of the cell");
    n16(1, "columns that it spans");
    n16(1, "rows that it spans");
    n32(21260, "width");
    n32(1848, "height");
    n16(141, "left margin");
    n16(141, "right margin");
    n16(141, "top margin");
    n16(141, "bottom margin");
    n16(2, "border id");
}

static void table(unsigned level, unsigned rows, unsigned columns, unsigned instance)
{
    record(71, level, "table");
    control_id("tbl ", "control id 'tbl '");
    n32(0x082A2211, "properties: stands like a character (table 65)");
    n32(0, "vertical offset");
    n32(0, "horizontal offset");
    n32(21260 * columns, "width");
    n32(1848 * rows, "height");
    n16(0, "order of drawing");
    n16(141, "outer margin, left");
    n16(141, "outer margin, right");
    n16(141, "outer margin, top");
    n16(141, "outer margin, bottom");
    n32(instance, "instance id");
    n16(0, "units of the description: none");
    record(77, level + 1, "table properties");
    n32(6, "properties: split by cells, first row repeated (table 71)");
    n16(rows, "rows");
    n16(columns, "columns");
    n16(0, "space between cells");
    n16(141, "inner margin, left");
    n16(141, "inner margin, right");
    n16(141, "inner margin, top");
    n16(141, "inner margin, bottom");
    for (unsigned i = 0; i < rows; i++)
        n16(columns, "cells in this row");
    n16(2, "border id");
    n16(0, "number of zones: none");
}

/* A cell with words and nothing else. */
static void word_cell(unsigned level, unsigned column, unsigned row, const char16_t *what, const char *meaning)
{
    cell(level, column, row, "word cell");
    shape(0);
    words(what, meaning);
    one_unit(13, "paragraph end");
    paragraph((struct look){.level = level, .header = "word", .text = "word text", .lines = 1, .last = 1});
}

/* The paragraph with the table: the control's six units hold a 13, which ends nothing. */
static void table_paragraph(unsigned level, unsigned instance, int last)
{
    shape(0);
    eight_units(11, "tbl ", 13, "table: code 11, control id 'tbl ', a 13 and three units of 0, code 11");
    one_unit(13, "paragraph end");
    paragraph((struct look){.level = level, .header = "table paragraph", .text = "table text", .lines = 1, .instance = instance, .last = last});
}

static void figures_table(struct figures f)
{
    table_paragraph(0, 0x80000002u, 0);
    table(1, 3, 2, 0x44000001);

    word_cell(2, 0, 0, u"잔류염소", "'free chlorine'");
    cell(2, 1, 0, "chlorine cell");
    shape(1);
    field_start(CHLORINE, "chlorine text");
    words(f.chlorine, "the value");
    shape(0); /* at b */
    field_end();
    words(u" mg/L", "the measure");
    one_unit(13, "paragraph end");
    paragraph((struct look){.level = 2, .header = "chlorine", .text = "chlorine text", .lines = f.filled ? 0 : 1, .last = 1});
    field_header(3, "chlorine field", CHLORINE, u"chlorine", f.filled);

    word_cell(2, 0, 1, u"탁도", "'turbidity'");
    cell(2, 1, 1, "turbidity cell");
    shape(1);
    field_start(TURBIDITY, "turbidity text");
    words(f.turbidity, "the value");
    field_end();
    words(u" NTU", "the measure");
    one_unit(13, "paragraph end");
    paragraph((struct look){.level = 2, .header = "turbidity", .text = "turbidity text", .lines = f.filled ? 0 : 1, .last = 1});
    field_header(3, "turbidity field", TURBIDITY, u"turbidity", f.filled);

    word_cell(2, 0, 2, u"연간 기준", "'yearly limit'");
    cell(2, 1, 2, "limit cell");
    shape(0);
    unsigned a = field_start(LIMIT, "limit text")->a;
    words(f.limit, "the value");
    mark(a, text.count, HIGHLIGHT); /* the value is highlighted, from a to b */
    field_end();
    words(u" mg/L", "the measure");
    one_unit(13, "paragraph end");
    paragraph((struct look){.level = 2, .header = "limit", .text = "limit text", .lines = 1, .last = 1});
    field_header(3, "limit field", LIMIT, u"limit", 0);
}

static void closing(void)
{
    shape(0);
    words(u"담당", "'in charge'");
    eight_units(9, NULL, 0, "tab: code 9, six units of 0, code 9");
    words(u"먹는물", "'drinking water'");
    one_unit(30, "blank that keeps words together");
    words(u"검사실", "'laboratory'");
    one_unit(10, "line break");
    words(u"문의 02-000-0000", "'questions', a number that nobody has");
    one_unit(13, "paragraph end");
    paragraph((struct look){.header = "closing", .text = "closing text", .lines = 2, .instance = 0x80000003u});

    shape(0);
    one_unit(13, "paragraph end"); /* an empty paragraph has count 1 and no text record */
    paragraph((struct look){.header = "empty paragraph", .lines = 1, .instance = 0x80000004u, .last = 1});
}

static void water(struct figures f)
{
    memset(&sheet, 0, sizeof sheet);
    title();
    date(f);
    figures_table(f);
    closing();
}

/* A notice whose text has 2,047 units: one more, and its record is too long for the short form of the length. */
static void long_notice(struct figures f)
{
    static const char16_t sentence[] = u"수돗물은 매주 검사하여 알립니다. ";
    static char16_t notice[2048];
    unsigned others = 1 + 8 + units_of(last_week.week) + 8 + 2 + 1; /* units of this paragraph but the notice */
    for (unsigned i = 0; i < 2047 - others; i++)
        notice[i] = sentence[i % units_of(sentence)];
    shape(0);
    words(u"제", "'number'");
    field_start(WEEK, "notice text");
    words(f.week, "the value");
    field_end();
    words(u"주 ", "'week'");
    words(notice, "the notice: 'tap water is tested every week and the result made known', again and again");
    one_unit(13, "paragraph end");
    paragraph((struct look){.header = "notice", .text = "notice text", .instance = 0x80000005u});
    field_header(1, "week field", WEEK, u"week", f.week_filled);
}

/* The water sheet with the notice before everything that is to be filled. */
static void long_sheet(struct figures f)
{
    memset(&sheet, 0, sizeof sheet);
    title();
    long_notice(f);
    date(f);
    figures_table(f);
    closing();
}

/* A table in a cell of a table, with a field in the inner one. */
static void nested(void)
{
    memset(&sheet, 0, sizeof sheet);
    table_paragraph(0, 0x80000001u, 1);
    table(1, 1, 2, 0x44000001);
    word_cell(2, 0, 0, u"탁도", "'turbidity'");
    cell(2, 1, 0, "outer cell");
    table_paragraph(2, 0, 1);
    table(3, 1, 1, 0x44000002);
    cell(4, 0, 0, "inner cell");
    shape(0);
    field_start(TURBIDITY, "turbidity text");
    words(u"0.21", "the value");
    field_end();
    one_unit(13, "paragraph end");
    paragraph((struct look){.level = 4, .header = "turbidity", .text = "turbidity text", .lines = 1, .last = 1});
    field_header(5, "turbidity field", TURBIDITY, u"turbidity", 0);
}

/* ---- DocInfo ---- */

static void face(const char16_t *name)
{
    record(19, 1, "face");
    n8(0, "properties (table 15)");
    n16(units_of(name), "units of the name");
    units(name, "the face's name");
}

static void character_shape(unsigned size, uint32_t properties, uint32_t colour)
{
    record(21, 1, "character shape");
    zeros(14, "face of each of seven languages: the first (table 28)");
    for (int i = 0; i < 7; i++)
        n8(100, "width in percent");
    zeros(7, "space between characters");
    for (int i = 0; i < 7; i++)
        n8(100, "relative size in percent");
    zeros(7, "position above the line");
    n32(size, "size in hundredths of a point");
    n32(properties, "properties: bit 1 bold (table 30)");
    n8(10, "shadow to the right");
    n8(10, "shadow below");
    n32(colour, "colour");
    n32(0, "colour of the line below");
    n32(0xFFFFFFFF, "colour behind: none");
    n32(0x00B2B2B2, "colour of the shadow");
    n16(2, "border id");
    n32(0, "colour of the line through");
}

static void document_properties(void)
{
    record(16, 0, "document properties");
    n16(1, "number of sections (table 9)");
    for (int i = 0; i < 6; i++)
        n16(1, "first number: of pages, footnotes, endnotes, pictures, tables, equations");
    n32(0, "caret: list");
    n32(0, "caret: paragraph");
    n32(0, "caret: position");
    n32(0, "properties");
}

/* Record 17, the mapping counts (tables 10 and 11): so many of them, each so many bytes wide. Those of 32 bits, and
 * what the last two are about, stand in later revisions than 1.1. */
static void mapping_counts(int count, size_t width)
{
    static const struct {
        unsigned n;
        const char *what;
    } counts[18] = {
        {0, "count 0: binary data"},
        {1, "count 1: Hangul faces"},
        {1, "count 2: Latin faces"},
        {1, "count 3: Chinese faces"},
        {1, "count 4: Japanese faces"},
        {1, "count 5: other faces"},
        {1, "count 6: faces for signs"},
        {1, "count 7: faces of the user"},
        {2, "count 8: borders"},
        {3, "count 9: character shapes"},
        {1, "count 10: tabs"},
        {0, "count 11: numberings"},
        {0, "count 12: bullets"},
        {2, "count 13: paragraph shapes"},
        {1, "count 14: styles"},
        {0, "count 15: memo shapes"},
        {0, "count 16: tracked changes, not asked"},
        {1, "count 17: authors of tracked changes, not asked"},
    };
    record(17, 0, "counts");
    for (int i = 0; i < count; i++)
        number(counts[i].n, width, counts[i].what);
}

static void borders(void)
{
    for (int i = 0; i < 2; i++) {
        record(20, 1, "border");
        n16(0, "properties (table 19)");
        for (int k = 0; k < 4; k++)
            n8(i ? 1 : 0, "kind of the line on this side (table 20)");
        for (int k = 0; k < 4; k++)
            n8(1, "width of the line on this side (table 21)");
        for (int k = 0; k < 4; k++)
            n32(0, "colour of the line on this side");
        n8(0, "kind of the diagonal");
        n8(0, "width of the diagonal");
        n32(0, "colour of the diagonal");
        n32(0, "kind of filling: none");
        n32(0, "further bytes of the filling: none");
    }
}

static void paragraph_shapes(void)
{
    for (int i = 0; i < 2; i++) {
        record(25, 1, "paragraph shape");
        n32(i ? 0x18C : 0x180, "properties 1: first to both sides, second centred (table 39)");
        n32(0, "left margin");
        n32(0, "right margin");
        n32(0, "indent");
        n32(0, "space above");
        n32(0, "space below");
        n32(160, "line spacing of old versions");
        n16(0, "tabs id");
        n16(0, "numbering id");
        n16(1, "border id");
        zeros(8, "space to the border on four sides");
        n32(0, "properties 2 (table 40)");
        n32(0, "properties 3: by the characters (table 41)");
        n32(160, "line spacing in percent");
    }
}

static void style(void)
{
    record(26, 1, "style");
    n16(3, "units of its name");
    units(u"바탕글", "its name: 'body'");
    n16(6, "units of its Latin name");
    units(u"Normal", "its Latin name");
    n8(0, "properties: of paragraphs (table 43)");
    n8(0, "style that follows");
    n16(1042, "language");
    n16(0, "paragraph shape id");
    n16(0, "character shape id");
}

/* What the mapping counts are about, and what stands behind it. */
static void mapped(void)
{
    for (int i = 0; i < 7; i++)
        face(u"함초롬바탕");
    borders();
    character_shape(1000, 0, 0);
    character_shape(1000, 2, 0);
    character_shape(1000, 0, 0x000000FF);
    record(22, 1, "tabs");
    n32(0, "properties (table 32)");
    n16(0, "number of tabs: none");
    paragraph_shapes();
    style();
    record(30, 0, "compatible document");
    n32(0, "target: the present version (table 50)");
    record(31, 1, "layout compatibility");
    zeros(20, "five kinds of formatting: as the present version (table 51)");
}

static void docinfo_of(int count, size_t width)
{
    memset(&sheet, 0, sizeof sheet);
    document_properties();
    mapping_counts(count, width);
    mapped();
}

static void docinfo(void) { docinfo_of(16, 2); }
static void current_docinfo(void) { docinfo_of(18, 4); } /* as current word processors save it */
static void docinfo_of_15(void) { docinfo_of(15, 4); }   /* without the count of memo shapes */

/* ---- streams ---- */

static uint8_t stream[32768];
static size_t length;

/* Writes the headers and the bodies: bits 0 to 9 tag, 10 to 19 level, 20 to 31 size, or 4095 and the length. */
static void encode(void)
{
    length = 0;
    for (int i = 0; i < sheet.count; i++) {
        struct record *r = &sheet.records[i];
        uint32_t claimed = (uint32_t)r->len + (uint32_t)r->too_many;
        int is_long = claimed >= 4095 || r->long_form;
        uint32_t header[2] = {r->tag | r->level << 10 | (is_long ? 4095 : claimed) << 20, claimed};
        r->place = length;
        r->lead = is_long ? 8 : 4;
        if (length + r->lead + r->len > sizeof stream)
            stop("stream too long at", r->label);
        for (size_t k = 0; k < r->lead; k++)
            stream[length++] = (uint8_t)(header[k / 4] >> 8 * (k % 4));
        memcpy(stream + length, r->body, r->len);
        length += r->len;
    }
    length -= sheet.cut;
}

/* The first record with the label, or the last of all. */
static int index_of(const char *label)
{
    if (!strcmp(label, "last"))
        return sheet.count - 1;
    for (int i = 0; i < sheet.count; i++)
        if (!strcmp(sheet.records[i].label, label))
            return i;
    stop("no record", label);
    return 0;
}

static struct record *the(const char *label) { return &sheet.records[index_of(label)]; }

static void take_away(int index)
{
    memmove(&sheet.records[index], &sheet.records[index + 1], sizeof *sheet.records * (size_t)(sheet.count - index - 1));
    sheet.count--;
}

static void put_copy(int of, int before)
{
    struct record copy = sheet.records[of];
    memmove(&sheet.records[before + 1], &sheet.records[before], sizeof copy * (size_t)(sheet.count - before));
    sheet.records[before] = copy;
    sheet.count++;
}

static void put_half(struct record *r, size_t at, unsigned n)
{
    r->body[at] = (uint8_t)n;
    r->body[at + 1] = (uint8_t)(n >> 8);
}

static void put_word(struct record *r, size_t at, uint32_t n)
{
    put_half(r, at, n & 0xFFFF);
    put_half(r, at + 2, n >> 16);
}

/* ---- damage ---- */

/* The first wrong byte is this one of the body. */
static void wrong_at(struct record *r, size_t at) { r->wrong = (r->len < 4095 ? 4 : 8) + at; }

static void wrong_half(struct record *r, size_t at, unsigned n)
{
    put_half(r, at, n);
    wrong_at(r, at);
}

static void wrong_word(struct record *r, size_t at, uint32_t n)
{
    put_word(r, at, n);
    wrong_at(r, at);
}

static void header_cut(void) { sheet.cut = the("last")->len + 2; /* two bytes of the last header are left */ }
static void long_length_cut(void)
{
    the("last")->long_form = 1;
    sheet.cut = the("last")->len + 1; /* three bytes of the last long length are left */
}
static void long_form(void)
{
    the("chlorine text")->long_form = 1;
    the("chlorine text")->wrong = 4; /* the long length */
}
static void body_past_end(void) { the("last")->too_many = 1; }
static void tag_15(void) { the("page")->tag = 15; }
static void level_jump(void) { the("table properties")->level = 3; }
static void header_of_21(void) { the("date")->len = 21; }
static void text_outside(void)
{
    struct record *r = the("date text");
    r->level = 0;
    r->label = "lost";
    sheet.records[index_of("lost") + 1].level = 1;
}
static void text_twice(void)
{
    int at = index_of("turbidity text");
    put_copy(at, at + 1);
    sheet.records[at + 1].label = "second";
}
static void below_a_text(void)
{
    int at = index_of("closing text");
    put_copy(index_of("control data"), at + 1);
    sheet.records[at + 1].level = 2;
    sheet.records[at + 1].label = "child";
}
static void shapes_absent(void) { take_away(index_of("chlorine text") + 1); }
static void layout_absent(void) { take_away(index_of("closing text") + 2); }
static void count_too_high(void) { put_half(the("chlorine"), 0, (unsigned)the("chlorine text")->len / 2 + 1); }
static void layout_unasked(void)
{
    put_half(the("closing"), 16, 0);
    sheet.records[index_of("closing text") + 2].label = "unasked";
}
static void unit_0(void) { wrong_half(the("title text"), 2 * 18, 0); }
static void not_closed(void) { wrong_half(the("date text"), 2 * (sheet.fields[0].b + 7), 5); }
static void control_cut(void)
{ /* a tab that has seven units, the 13 of the paragraph's end among them */
    struct record *r = the("closing text");
    wrong_half(r, r->len - 2 * 7, 9);
}
static void no_13(void)
{
    struct record *r = the("turbidity text");
    put_half(r, r->len - 2, u'U');
    wrong_at(r, r->len); /* where the text ends */
}
static void two_13s(void) { wrong_half(the("word text"), 0, 13); }
static void starts_equal(void)
{ /* the second start is 0 like the first */
    struct record *r = &sheet.records[index_of("chlorine text") + 1];
    wrong_half(r, 8, 0);
    r->label = "starts";
}
static void mark_behind(void)
{
    put_half(the("marks"), 4, (unsigned)the("limit text")->len / 2 + 1);
    wrong_at(the("marks"), 0); /* the entry, not its end alone */
}
static void mark_backwards(void)
{ /* a second mark, whose start and end are those of the first exchanged */
    now = the("marks");
    put_half(the("limit"), 14, 2);
    wrong_at(now, now->len);
    mark_entry(sheet.fields[3].b, sheet.fields[3].a, HIGHLIGHT);
}
static void control_lost(void)
{
    int at = index_of("date field");
    take_away(at + 1); /* its control data */
    take_away(at);
}
static void command_too_long(void) { put_half(the("turbidity field"), 9, 200); }
static void same_id(void)
{
    struct record *r = the("turbidity field");
    put_half(r, r->len - 4, CHLORINE);
}
static void tab_in_value(void)
{ /* the field's end becomes a tab, closed by its own code */
    struct record *r = the("chlorine text");
    put_half(r, 2 * sheet.fields[1].b, 9);
    put_half(r, 2 * (sheet.fields[1].b + 7), 9);
}

static void counts_lost(void) { take_away(index_of("counts")); }
static void properties_twice(void)
{
    put_copy(index_of("document properties"), sheet.count);
    sheet.records[sheet.count - 1].label = "second";
}
static void counts_below(void) { the("counts")->level = 1; }
static void properties_of_29(void) { the("document properties")->len = 29; }
static void counts_of_56(void) { the("counts")->len = 56; /* fourteen counts of 32 bits */ }
static void counts_of_62(void) { the("counts")->len = 62; /* fifteen, and half a count */ }
static void count_negative(void) { wrong_half(the("counts"), 0, 0xFFFF); }
static void wide_negative(void)
{ /* the seven counts of faces still make seven */
    wrong_word(the("counts"), 4 * 1, (uint32_t)-1);
    put_word(the("counts"), 4 * 2, 3);
}
static void late_negative(void)
{ /* a border too many stands before it, and is not what is named */
    put_word(the("counts"), 4 * 8, 3);
    wrong_word(the("counts"), 4 * 14, (uint32_t)-1);
}
static void faces_wrap(void)
{ /* the seven counts of faces make seven, and 2 to the power 32; the first of them is named */
    wrong_word(the("counts"), 4 * 1, 0x7FFFFFFF);
    put_word(the("counts"), 4 * 2, 0x7FFFFFFF);
    put_word(the("counts"), 4 * 3, 5);
}
static void memo_shape_lost(void) { wrong_word(the("counts"), 4 * 15, 1); }
static void face_lost(void)
{
    take_away(index_of("face"));
    wrong_at(the("counts"), 2 * 1);
}

static void good_water(void) { water(last_week); }
static void filled_water(void) { water(this_week); }
static void good_long(void) { long_sheet(last_week); }
static void filled_long(void) { long_sheet(tenth_week); }

/* Every sample: how it is made, what is then done to it, and what its call answers. `at` is the label of the record
 * that is named or has the wrong byte, or "end" for the end of the stream; where it is empty the place is 0. */
static const struct sample {
    const char *name;
    void (*make)(void), (*damage)(void);
    unsigned number;
    const char *at;
    unsigned id; /* the call is field text with this id, and check accepts */
} samples[] = {
    {"water.section", good_water, NULL, 0, "", 0},
    {"water-filled.section", filled_water, NULL, 0, "", 0},
    {"long.section", good_long, NULL, 0, "", 0},
    {"long-filled.section", filled_long, NULL, 0, "", 0},
    {"nested.section", nested, NULL, 0, "", 0},
    {"damaged/02-header-cut.section", good_water, header_cut, 2, "end", 0},
    {"damaged/02-long-length-cut.section", good_water, long_length_cut, 2, "end", 0},
    {"damaged/03-long-length-too-small.section", good_water, long_form, 3, "chlorine text", 0},
    {"damaged/04-body-past-end.section", good_water, body_past_end, 4, "last", 0},
    {"damaged/05-tag-15.section", good_water, tag_15, 5, "page", 0},
    {"damaged/06-level-jump.section", good_water, level_jump, 6, "table properties", 0},
    {"damaged/08-paragraph-header-of-21.section", good_water, header_of_21, 8, "date", 0},
    {"damaged/09-text-outside.section", good_water, text_outside, 9, "lost", 0},
    {"damaged/09-text-twice.section", good_water, text_twice, 9, "second", 0},
    {"damaged/09-record-below-a-text.section", good_water, below_a_text, 9, "child", 0},
    {"damaged/10-shapes-absent.section", good_water, shapes_absent, 10, "chlorine", 0},
    {"damaged/10-layout-absent.section", good_water, layout_absent, 10, "closing", 0},
    {"damaged/11-count-too-high.section", good_water, count_too_high, 11, "chlorine text", 0},
    {"damaged/11-layout-unasked.section", good_water, layout_unasked, 11, "unasked", 0},
    {"damaged/12-unit-0.section", good_water, unit_0, 12, "title text", 0},
    {"damaged/12-control-not-closed.section", good_water, not_closed, 12, "date text", 0},
    {"damaged/12-control-cut-short.section", good_water, control_cut, 12, "closing text", 0},
    {"damaged/12-no-13-at-the-end.section", good_water, no_13, 12, "turbidity text", 0},
    {"damaged/12-13-before-the-end.section", good_water, two_13s, 12, "word text", 0},
    {"damaged/13-starts-equal.section", good_water, starts_equal, 13, "starts", 0},
    {"damaged/13-mark-behind-the-text.section", good_water, mark_behind, 13, "marks", 0},
    {"damaged/13-mark-ends-before-its-start.section", good_water, mark_backwards, 13, "marks", 0},
    {"damaged/14-control-header-lost.section", good_water, control_lost, 14, "date", 0},
    {"damaged/15-command-too-long.section", good_water, command_too_long, 15, "turbidity field", 0},
    {"damaged/22-same-id.section", good_water, same_id, 22, "turbidity field", CHLORINE},
    {"damaged/23-not-plain.section", good_water, tab_in_value, 23, "chlorine field", CHLORINE},
    {"water.docinfo", docinfo, NULL, 0, "", 0},
    {"water-current.docinfo", current_docinfo, NULL, 0, "", 0},
    {"water-fifteen.docinfo", docinfo_of_15, NULL, 0, "", 0},
    {"damaged/16-counts-lost.docinfo", docinfo, counts_lost, 16, "", 0},
    {"damaged/16-properties-twice.docinfo", docinfo, properties_twice, 16, "second", 0},
    {"damaged/16-counts-at-level-1.docinfo", docinfo, counts_below, 16, "counts", 0},
    {"damaged/17-properties-of-29.docinfo", docinfo, properties_of_29, 17, "document properties", 0},
    {"damaged/17-counts-of-56.docinfo", current_docinfo, counts_of_56, 17, "counts", 0},
    {"damaged/17-counts-of-62.docinfo", current_docinfo, counts_of_62, 17, "counts", 0},
    {"damaged/18-count-negative.docinfo", docinfo, count_negative, 18, "counts", 0},
    {"damaged/18-face-lost.docinfo", docinfo, face_lost, 18, "counts", 0},
    {"damaged/18-wide-count-negative.docinfo", current_docinfo, wide_negative, 18, "counts", 0},
    {"damaged/18-negative-behind-unmatched.docinfo", current_docinfo, late_negative, 18, "counts", 0},
    {"damaged/18-faces-over-32-bits.docinfo", current_docinfo, faces_wrap, 18, "counts", 0},
    {"damaged/18-memo-shape-lost.docinfo", current_docinfo, memo_shape_lost, 18, "counts", 0},
};

static void make(const struct sample *s)
{
    s->make();
    if (s->damage)
        s->damage();
    encode();
}

static int is_docinfo(const char *name) { return strstr(name, ".docinfo") != NULL; }

static FILE *opened(const char *folder, const char *name, const char *ending)
{
    char path[1024];
    const char *dot = strrchr(name, '.');
    int stem = ending ? (int)(dot - name) : (int)strlen(name);
    if (snprintf(path, sizeof path, "%s/%.*s%s", folder, stem, name, ending ? ending : "") >= (int)sizeof path)
        stop("path too long:", name);
    FILE *file = fopen(path, "wb");
    if (!file)
        stop("cannot write", path);
    return file;
}

static void closed(FILE *file)
{
    if (ferror(file) | fclose(file))
        stop("cannot write", "a file to its end");
}

/* What the lister prints of a sound section. */
static void write_listing(FILE *to)
{
    for (int i = 0; i < sheet.count; i++) {
        const struct record *r = &sheet.records[i];
        fprintf(to, "%zu %u %u %zu\n", r->place, r->tag, r->level, r->len);
    }
    fprintf(to, "ok %d\n", sheet.count);
}

/* A unit as UTF-8; the sheets hold no half of a pair. */
static void put_character(FILE *to, unsigned unit)
{
    if (unit < 0x80) {
        fputc((int)unit, to);
    } else if (unit < 0x800) {
        fprintf(to, "%c%c", 0xC0 | unit >> 6, 0x80 | (unit & 0x3F));
    } else {
        fprintf(to, "%c%c%c", 0xE0 | unit >> 12, 0x80 | (unit >> 6 & 0x3F), 0x80 | (unit & 0x3F));
    }
}

/* A piece of a text is a run of ordinary units, or one control whole. */
static void write_run(FILE *to, const uint8_t *at, size_t len)
{
    unsigned code = at[0] | (unsigned)at[1] << 8;
    if (code == 3)
        fputs("<field>", to);
    else if (code == 4)
        fputs("<end>", to);
    else if (code < 32 && code != 13)
        fprintf(to, "<control %u>", code);
    for (size_t i = 0; code >= 32 && i < len; i += 2)
        put_character(to, at[i] | (unsigned)at[i + 1] << 8);
}

static void write_kind(FILE *to, unsigned tag)
{
    static const char *const kinds[7] = {"paragraph", "text", "character shapes", "line layout", "marks", "control header", "list header"};
    if (tag >= 66 && tag <= 72)
        fputs(kinds[tag - 66], to);
    else if (tag == 87)
        fputs("control data", to);
    else
        fprintf(to, "record %u", tag);
}

/* What 'spool tree' prints of a sound section: here by the levels that the records were given. */
static void write_tree(FILE *to)
{
    for (int i = 0; i < sheet.count; i++) {
        const struct record *r = &sheet.records[i];
        fprintf(to, "%*s", (int)(2 * r->level), "");
        write_kind(to, r->tag);
        fprintf(to, " at %zu, %zu bytes", r->place + r->lead, r->len);
        if (r->tag == 67) {
            fputs(": \"", to);
            for (int p = 0; p < r->npieces; p++)
                write_run(to, r->body + r->pieces[p].at, r->pieces[p].len);
            fputc('"', to);
        }
        fputc('\n', to);
    }
}

/* The place that a refusal of this sample names. */
static size_t place_of(const struct sample *s)
{
    if (!*s->at)
        return 0;
    if (!strcmp(s->at, "end"))
        return length;
    return the(s->at)->place + the(s->at)->wrong;
}

/* The calls on this sample and their answers: number, place or what stands in its column, further number. */
static void expect(FILE *to, const struct sample *s)
{
    const char *call = is_docinfo(s->name) ? "docinfo" : "check";
    if (s->number && !s->id) {
        fprintf(to, "%s %s - %u %zu 0\n", s->name, call, s->number, place_of(s));
        return;
    }
    fprintf(to, "%s %s - 0 %d 0\n", s->name, call, sheet.count);
    if (s->id)
        fprintf(to, "%s field %u %u %zu 0\n", s->name, s->id, s->number, place_of(s));
    for (int i = 0; i < sheet.nfields && !s->id; i++) {
        const struct field *f = &sheet.fields[i];
        const struct record *r = the(f->label);
        fprintf(to, "%s field %u 0 %zu %u\n", s->name, f->id, r->place + r->lead + 2 * f->a, 2 * (f->b - f->a));
        if (f->id == LIMIT) /* its paragraph has marks */
            fprintf(to, "%s fill %u 24 %zu 0\n", s->name, f->id, the("limit")->place);
    }
}

static void write_all(const char *folder)
{
    char damaged[1024];
    snprintf(damaged, sizeof damaged, "%s/damaged", folder);
    mkdir(folder, 0777);
    mkdir(damaged, 0777);
    FILE *answers = opened(folder, "expected.txt", NULL);
    fprintf(answers, "# Written by make.c. FILE CALL ID NUMBER PLACE FURTHER: what the call answers for the file. CALL is check,\n"
                     "# field (field text) or fill (with the value 1) for a section and docinfo (DocInfo read) for a DocInfo; ID\n"
                     "# is - where there is none.\n");
    for (size_t i = 0; i < sizeof samples / sizeof *samples; i++) {
        const struct sample *s = &samples[i];
        make(s);
        FILE *file = opened(folder, s->name, NULL);
        fwrite(stream, 1, length, file);
        closed(file);
        expect(answers, s);
        if (!s->damage && !is_docinfo(s->name)) {
            file = opened(folder, s->name, ".listing");
            write_listing(file);
            closed(file);
            file = opened(folder, s->name, ".tree");
            write_tree(file);
            closed(file);
        }
    }
    closed(answers);
}

static void print_piece(size_t at, size_t len, const char *what)
{
    printf("%6zu ", at);
    for (size_t i = 0; i < 8; i++) {
        if (i < len && at + i < length)
            printf(" %02x", stream[at + i]);
        else
            printf("   ");
    }
    if (len > 8)
        printf(" .. %zu bytes: %s\n", len, what);
    else
        printf("  %s\n", what);
}

static int map(const char *name)
{
    for (size_t i = 0; i < sizeof samples / sizeof *samples; i++) {
        if (strcmp(samples[i].name, name))
            continue;
        make(&samples[i]);
        for (int k = 0; k < sheet.count; k++) {
            const struct record *r = &sheet.records[k];
            printf("\n%s: tag %u, level %u, %zu bytes\n", r->label, r->tag, r->level, r->len);
            print_piece(r->place, 4, "header: tag, level, size");
            if (r->lead == 8)
                print_piece(r->place + 4, 4, "header: long length");
            for (int p = 0; p < r->npieces && r->pieces[p].at < r->len; p++) {
                const struct piece *piece = &r->pieces[p];
                size_t left = r->len - piece->at; /* less than the piece where damage has cut it */
                print_piece(r->place + r->lead + piece->at, piece->len < left ? piece->len : left, piece->what);
            }
        }
        return 0;
    }
    stop("no sample", name);
    return 1;
}

int main(int argc, char **argv)
{
    if (argc >= 2 && argc <= 3 && !strcmp(argv[1], "map"))
        return map(argc == 3 ? argv[2] : "water.section");
    if (argc != 2) {
        fputs("usage: make-samples DIR\n       make-samples map [NAME]\n", stderr);
        return 2;
    }
    write_all(argv[1]);
    return 0;
}
