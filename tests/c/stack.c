/* stack.c: how much stack the seven functions of hwp.h need.
 *
 *   stack SAMPLES WHICH    SAMPLES is the folder of the samples with its expected.txt, WHICH a word for the archive
 *
 * Each call runs on the painted stack of 16 KiB (painted.h), on two paints, and before that on the ordinary stack: its
 * answer and what it writes have to be the same on all three. The inputs are every sample, accepted or refused;
 * paragraphs nested in each other to the last level, with a field at the bottom; and 16 MiB of the shortest records, to
 * the last level again and again, with a field at the end. The last line has the most that each of the seven needed.
 * More than ROOM is a failure, and so is a trap.
 */
#define _GNU_SOURCE
#define PROGRAM "stack"
#define SAMPLES
#include "lend.h"
#include "paragraph.h"

#include <sys/utsname.h>

#include "hwp.h"

#include "painted.h"
#include "table.h"

/* What the call at hand is lent, and what it answered. The table is what the reads write and pack takes. */
static struct {
    struct stream section, sheet;
    struct value value;
    uint32_t id;
    struct table table;
    size_t records; /* how many of the table are packed */
    uint64_t answer;
} hand;

static void call_check(void) { hand.answer = hwp_check(hand.section.bytes, hand.section.length); }

static void call_field_text(void)
{
    hand.answer = hwp_field_text(hand.section.bytes, hand.section.length, hand.id);
}

static void call_fill(void)
{
    hand.answer = hwp_fill(hand.section.bytes, hand.section.length, hand.id, hand.value.bytes, hand.value.length,
                           hand.sheet.bytes, hand.sheet.length);
}

static void read_by(read_call *read)
{
    const struct table *t = &hand.table;
    hand.answer = read(hand.section.bytes, hand.section.length, t->part[TAG], t->count, t->part[LEVEL], t->count,
                       t->part[PLACE], t->count, t->part[LENGTH], t->count, t->part[PARENT], t->count);
    if (hwp_number(hand.answer) == HWP_ACCEPTED)
        hand.records = hwp_place(hand.answer);
}

static void call_read(void) { read_by(hwp_read); }
static void call_read_section(void) { read_by(hwp_read_section); }
static void call_read_docinfo(void) { read_by(hwp_read_docinfo); }

static void call_pack(void)
{
    const struct table *t = &hand.table;
    hand.answer = hwp_pack(hand.records, t->part[TAG], t->count, t->part[LEVEL], t->count, t->part[PLACE], t->count,
                           t->part[LENGTH], t->count, t->part[PARENT], t->count, hand.section.bytes,
                           hand.section.length, hand.sheet.bytes, hand.sheet.length);
}

enum { CHECK, FIELD_TEXT, FILL, READ, READ_SECTION, READ_DOCINFO, PACK, CALLS };

static struct call {
    const char *name, *word; /* the word is that of expected.txt; read and pack have none */
    void (*function)(void);
    enum { NOTHING, ROWS, BYTES } writes; /* the table, or the sheet */
    uint64_t told;
    size_t most;
    size_t runs;
} calls[CALLS] = {
    {"check", "check", call_check, NOTHING, 0, 0, 0},
    {"field text", "field", call_field_text, NOTHING, 0, 0, 0},
    {"fill", "fill", call_fill, BYTES, 0, 0, 0},
    {"read", "", call_read, ROWS, 0, 0, 0},
    {"section read", "check", call_read_section, ROWS, 0, 0, 0},
    {"DocInfo read", "docinfo", call_read_docinfo, ROWS, 0, 0, 0},
    {"pack", "", call_pack, BYTES, 0, 0, 0},
};

/* By the word: an emulator may go through a memset byte by byte. */
static void wipe(void *from, size_t length)
{
    const uint64_t word = 0x0101010101010101u * FREE_BYTE;
    uint8_t *bytes = from;
    for (; length >= sizeof word; bytes += sizeof word, length -= sizeof word)
        memcpy(bytes, &word, sizeof word);
    memset(bytes, FREE_BYTE, length);
}

/* Takes away what an earlier run wrote. */
static void blank(const struct call *call)
{
    if (call->writes == BYTES)
        wipe(hand.sheet.bytes, hand.sheet.length);
    for (int k = 0; k < LISTS && call->writes == ROWS; k++)
        wipe(hand.table.part[k], 4 * hand.table.count);
}

/* A sum over bytes in their order: one word that differs makes another sum. */
static uint64_t sum_of(uint64_t sum, const void *from, size_t length)
{
    const uint8_t *bytes = from;
    uint64_t word;
    for (; length >= sizeof word; bytes += sizeof word, length -= sizeof word) {
        memcpy(&word, bytes, sizeof word);
        sum = (sum ^ word) * 0x9E3779B97F4A7C15u;
        sum ^= sum >> 32;
    }
    for (; length; bytes++, length--)
        sum = (sum ^ *bytes) * 0x9E3779B97F4A7C15u;
    return sum;
}

/* What a call has left in all that it may write. */
static uint64_t left_by(const struct call *call)
{
    uint64_t sum = 1;
    if (call->writes == BYTES)
        sum = sum_of(sum, hand.sheet.bytes, hand.sheet.length);
    for (int k = 0; k < LISTS && call->writes == ROWS; k++)
        sum = sum_of(sum, hand.table.part[k], 4 * hand.table.count);
    return sum;
}

/* Makes a call with what is at hand on the painted stack, and keeps what it needed. */
static void run(struct call *call, uint8_t paint)
{
    blank(call);
    runner = call->name;
    size_t need = need_on(call->function, paint);
    call->most = need > call->most ? need : call->most;
    call->runs++;
}

/* The same on the ordinary stack and on two paints, with one answer and the same entries and bytes written. */
static uint64_t measure(struct call *call)
{
    blank(call);
    call->function();
    uint64_t left = left_by(call);
    call->told = hand.answer;
    for (int i = 0; i < 2; i++) {
        run(call, paints[i]);
        expect(hand.answer == call->told, "another answer on 16 KiB");
        expect(left_by(call) == left, "other entries or bytes on 16 KiB");
    }
    return call->told;
}

/* Runs a call that has to give this refusal and write nothing. */
static void refuses(struct call *call, uint8_t paint, uint64_t asked)
{
    blank(call);
    uint64_t left = left_by(call);
    run(call, paint);
    expect(hand.answer == asked, call->name);
    expect(left_by(call) == left, "entries or bytes of a refusal");
}

/* The calls in turn; pack has the table that read enters, whatever the reads before it have left. */
static uint64_t measure_next(int i)
{
    if (i == PACK) {
        hand.records = 0;
        call_read();
    }
    return measure(&calls[i]);
}

/* Takes a section in hand, the longest value, a buffer for the longest sheet and lists for all of its records. */
static void take(struct stream section, uint32_t id)
{
    hand.table = new_table(NULL, 0, section.length / 4);
    hand.table.count = section.length / 4;
    hand.records = 0;
    hand.section = section;
    hand.id = id;
    hand.value = units(HWP_VALUE_LIMIT, '1');
    hand.sheet = new_stream(section.length + hand.value.length + 4);
    hand.sheet.length = section.length + hand.value.length + 4;
}

static void put_down(void)
{
    free(hand.section.bytes);
    free(hand.sheet.bytes);
    drop_table(hand.table);
}

/* All calls on a sample with the id of its line; the answer is asked of those that the line is about. */
static void sample(const char *folder, const struct line *line)
{
    now = line->name;
    take(read_sample(folder, line->name), line->id);
    for (int i = 0; i < CALLS; i++) {
        uint64_t told = measure_next(i);
        expect(strcmp(line->call, calls[i].word) || told == answer(line->number, line->place, line->further), "answer");
    }
    put_down();
}

/* ---- the deepest and the longest ---- */

#define DEEP 1000u
#define DEEPEST 1022u /* of a paragraph that has records below it; they stand at the last level */
#define SMALL 100u
#define LAST_RECORD 25u /* bytes of a field's control header, the last record of a bare paragraph */

/* The numbers of the calls in turn. */
static void numbers_are(const char *name, const unsigned numbers[CALLS])
{
    now = name;
    for (int i = 0; i < CALLS; i++)
        expect(hwp_number(measure_next(i)) == numbers[i], calls[i].name);
}

/* Paragraphs nested in each other, and below all of them short records and the paragraph with the field, at the end. */
static struct stream nested(struct paragraph last)
{
    struct stream s = new_stream(65536);
    for (uint32_t level = 0; level < last.level; level++) {
        put_header(&s, 66, level, 22);
        put_numbers(&s, 0, 1, 0, 0);
        put_header(&s, 68, level + 1, 8);
        put_word(&s, 0);
        put_word(&s, 0);
    }
    for (unsigned i = 0; i < SMALL; i++)
        put_header(&s, 200, last.level, 0);
    put_paragraph(&s, &last);
    return s;
}

/* The numbers of check, field text and fill; DocInfo read lacks a record 16, read and pack accept. */
static void nested_is(const char *name, struct stream s, unsigned check, unsigned field_text, unsigned fill)
{
    const unsigned numbers[CALLS] = {check, field_text, fill, 0, check, 16, 0};
    take(s, 7);
    numbers_are(name, numbers);
    put_down();
}

static const struct paragraph good = {
    .level = DEEP, .value = 3, .behind = 8, .unit = '1', .nstarts = 3, .starts = {0, 9, 11}, .lines = 1, .id = 7};

static void hostile(void)
{
    nested_is("nested", nested(good), 0, 0, 0);
    struct paragraph bad = good;
    bad.starts[2] = 9;
    nested_is("nested, a start that stays", nested(bad), 13, 13, 13);
    bad = good;
    bad.open = 1;
    nested_is("nested, not plain", nested(bad), 0, 23, 23);
    struct stream s = nested(good);
    s.bytes[control_header_of(&s) + 4 + 9] = 200;
    nested_is("nested, a command too long", s, 15, 15, 15);
}

/* The same down to the last level, and there each kind of refusal. */
static void hostile_to_the_last(void)
{
    struct paragraph last = good;
    last.level = DEEPEST;
    last.bare = 1;
    nested_is("nested to the last level", nested(last), 0, 0, 0);
    struct stream s = nested(last);
    s.bytes[s.length - LAST_RECORD] = 67;
    nested_is("nested to the last level, a second text", s, 9, 9, 9);
    s = nested(last);
    put_header(&s, 66, DEEPEST + 1, 22);
    put_numbers(&s, 0, 1, 0, 0);
    nested_is("nested to the last level, a paragraph there", s, 10, 10, 10);
    s = nested(last);
    s.bytes[s.length - LAST_RECORD + 4 + 9] = 200;
    nested_is("nested to the last level, a command too long", s, 15, 15, 15);
    last.unit = 0;
    nested_is("nested to the last level, a unit 0", nested(last), 12, 12, 12);
    last.unit = '1';
    last.starts[2] = 9;
    nested_is("nested to the last level, a start that stays", nested(last), 13, 13, 13);
}

/* As long and as deep as a stream can be: records of four bytes, to the last level again and again, and at the end a
 * paragraph whose records stand there. A record 16 and a record 17 of sixteen zeros come before them, so that the
 * DocInfo read too goes to its end. */
static struct stream longest_with(struct paragraph last)
{
    struct stream s = new_stream(LIMIT), end = new_stream(65536);
    put_paragraph(&end, &last);
    put_record(&s, 16, 0, 30);
    put_header(&s, 17, 0, 32);
    memset(s.bytes + s.length, 0, 32);
    s.length += 32;
    put_record(&s, 200, 0, (uint32_t)(LIMIT - s.length - end.length) % 4); /* so that the others end at the limit */
    uint32_t level = 0;
    for (size_t left = (LIMIT - s.length - end.length) / 4; left; left--) {
        level = left % 1024 ? level : 0;
        put_header(&s, 200, level++, 0);
    }
    memcpy(s.bytes + s.length, end.bytes, end.length);
    s.length += end.length;
    free(end.bytes);
    return s;
}

/* The last record is at fault. Read and the DocInfo read see it by its header alone. */
static void refused_at_the_end(const char *name, uint8_t paint, unsigned number)
{
    now = name;
    for (int i = 0; i < PACK; i++)
        if (number < HWP_NO_ROOM || (i != READ && i != READ_DOCINFO))
            refuses(&calls[i], paint, answer(number, LIMIT - LAST_RECORD, 0));
}

/* What a fill takes away here, 56 lines and two starts, is what the longest value adds: the sheet is as long. A refusal
 * is made on one paint and not on the ordinary stack, since its answer is known and it takes a second. */
static void longest(void)
{
    const struct paragraph last = {.level = DEEPEST, .value = 6, .behind = 8, .unit = '1', .nstarts = 4,
                                   .starts = {0, 9, 11, 13}, .lines = 56, .id = 7, .bare = 1};
    const unsigned accepted[CALLS] = {HWP_ACCEPTED};
    take(longest_with(last), 7);
    numbers_are("16 MiB of short records", accepted);
    expect(hand.section.length == LIMIT, "a section of 16 MiB");
    expect(calls[CHECK].told == answer(0, hand.records, 0), "the records that were read");
    expect(hwp_further(calls[FIELD_TEXT].told) == 12, "the length of the field's text");
    expect(calls[FILL].told == answer(0, LIMIT, 0), "a sheet of 16 MiB");
    hand.table.part[PARENT][hand.records - 1]++;
    refuses(&calls[PACK], paints[0], answer(HWP_PARENT_WRONG, hand.records - 1, 0));
    uint8_t *record = hand.section.bytes + LIMIT - LAST_RECORD;
    record[4 + 9] = 200;
    refused_at_the_end("16 MiB of short records, a command too long", paints[0], HWP_FIELD_HEADER_SHORT);
    record[0] = 67;
    refused_at_the_end("16 MiB of short records, a second text", paints[1], HWP_MISPLACED);
    record[0] = 15;
    refused_at_the_end("16 MiB of short records, a tag of 15", paints[0], HWP_TAG_OUTSIDE);
    put_down();
}

static void say_number(size_t n)
{
    if (n >= 1000)
        printf("%zu,%03zu", n / 1000, n % 1000);
    else
        printf("%zu", n);
}

static void say_needs(const char *which)
{
    struct utsname machine;
    size_t runs = 0;
    uname(&machine);
    printf(PROGRAM ":");
    for (int i = 0; i < CALLS; i++) {
        printf(i ? ", %s " : " %s ", calls[i].name);
        say_number(calls[i].most);
        printf(" bytes");
        runs += calls[i].runs;
    }
    printf("; all ");
    say_number(runs);
    printf(" runs on a stack of 16 KiB, of which ");
    say_number(deepest);
    printf(" bytes were touched (%s, %s)\n", which, machine.machine);
}

int main(int argc, char **argv)
{
    if (argc != 3) {
        fputs("usage: stack SAMPLES WHICH\n", stderr);
        return 2;
    }
    lay_ground();
    catch_overrun();
    self_test();
    each_line(argv[1], sample);
    hostile();
    hostile_to_the_last();
    longest();
    for (int i = 0; i < CALLS; i++) {
        now = calls[i].name;
        expect(fits(calls[i].most), "more than 4,096 bytes of stack");
        expect(calls[i].runs > 0, "no run on 16 KiB");
    }
    int status = result();
    say_needs(argv[2]);
    return status;
}
