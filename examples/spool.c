/* spool: a host in C over hwp.h.
 *
 *   spool check FILE               is the section sound? If not, the row of bytes around the place
 *   spool tree FILE                its records as a tree, each with the place and the length of its body; of a text the
 *                                  characters, with controls in angle brackets
 *   spool fields FILE ID           the text of the field with the id, as UTF-8
 *   spool fill FILE ID VALUE OUT   the section with VALUE (UTF-8) in that field, written to OUT
 *
 * FILE is a section stream that is already unpacked. ID is decimal, or hexadecimal behind 0x. What was asked for goes
 * to standard output, everything else to standard error. Exit status: 0 done; 1 refused by the library; 2 wrong use, or
 * a file that cannot be read or written. OUT has the whole sheet or is as it was.
 */
#define _XOPEN_SOURCE 700
#include <errno.h>
#include <fcntl.h>
#include <inttypes.h>
#include <signal.h>
#include <stdarg.h>
#include <stdio.h>
#include <stdlib.h>
#include <string.h>
#include <sys/stat.h>
#include <unistd.h>

#include "hwp.h"

enum { DONE = 0, REFUSED = 1, WRONG = 2 };

static const char usage[] = "usage: spool check FILE\n"
                            "       spool tree FILE    (each record with the place and the length of its body)\n"
                            "       spool fields FILE ID\n"
                            "       spool fill FILE ID VALUE OUT\n";

static int wrong(const char *format, ...)
{
    va_list words;
    va_start(words, format);
    fputs("spool: ", stderr);
    vfprintf(stderr, format, words);
    fputc('\n', stderr);
    va_end(words);
    return WRONG;
}

/* Number, place in decimal and hexadecimal, and what is wrong. */
static int refused(const char *file, uint64_t answer)
{
    unsigned number = hwp_number(answer);
    const char *where = hwp_place_words(number);
    fprintf(stderr, "spool: %s: refused %u at %" PRIu32 " (0x%" PRIx32 "): %s%s%s\n", file, number, hwp_place(answer),
            hwp_place(answer), hwp_words(number), *where ? "; at that place: " : "", where);
    return REFUSED;
}

struct bytes {
    uint8_t *at;
    size_t len;
};

enum { ROW = 16, TEXT = 62 }; /* the bytes of a row, and the column of its characters */

/* The column of a byte in its row; there is one for the spot behind the last, too. */
static size_t column(size_t nth) { return 10 + 3 * nth + (nth >= ROW / 2); }

/* The row of sixteen bytes around the place as a hex editor shows it, cut where the section ends, and ^^ under the
 * byte. Where the place is that end there is none: the row is the last, and the spot behind its last byte is marked. */
static void show_row(struct bytes section, size_t place)
{
    static const char digits[] = "0123456789abcdef";
    int at_end = place >= section.len;
    size_t first = (at_end && place ? place - 1 : place) / ROW * ROW;
    char row[TEXT + ROW + 3];
    memset(row, ' ', sizeof row);
    size_t n = 0;
    for (; n < ROW && first + n < section.len; n++) {
        uint8_t byte = section.at[first + n];
        row[column(n)] = digits[byte >> 4];
        row[column(n) + 1] = digits[byte & 15];
        row[TEXT + 1 + n] = byte >= 0x20 && byte < 0x7F ? (char)byte : '.';
    }
    row[TEXT] = row[TEXT + 1 + n] = '|';
    row[TEXT + 2 + n] = 0;
    fprintf(stderr, "%08zx%s\n%*s^^%s\n", first, row + 8, (int)column(place - first), "",
            at_end ? " the end of the stream, behind its last byte" : "");
}

/* A refusal of the section itself: its words, and the row around the place where it names one. */
static int not_sound(const char *file, struct bytes section, uint64_t answer)
{
    int status = refused(file, answer);
    if (*hwp_place_words(hwp_number(answer)))
        show_row(section, hwp_place(answer));
    return status;
}

/* Output is only done once it has left: a full disk is seen here. */
static int printed(void)
{
    if (fflush(stdout) == 0 && !ferror(stdout))
        return DONE;
    return wrong("standard output: %s", strerror(errno));
}

/* The whole file. Of one over the limit only as much is read as the library needs to refuse it. */
static int read_file(const char *name, struct bytes *file)
{
    size_t room = 65536;
    int from = open(name, O_RDONLY);
    if (from < 0)
        return wrong("%s: %s", name, strerror(errno));
    file->len = 0;
    file->at = malloc(room);
    while (file->at && file->len <= HWP_STREAM_LIMIT) {
        if (file->len == room) {
            uint8_t *more = realloc(file->at, room *= 2);
            if (!more)
                break;
            file->at = more;
        }
        ssize_t got = read(from, file->at + file->len, room - file->len);
        if (got == 0) {
            close(from);
            return DONE;
        }
        if (got > 0) {
            file->len += (size_t)got;
        } else if (errno != EINTR) {
            int why = errno;
            close(from);
            return wrong("%s: %s", name, strerror(why));
        }
    }
    close(from);
    return file->at && file->len > HWP_STREAM_LIMIT ? DONE : wrong("%s: no memory", name);
}

static int parse_id(const char *word, uint32_t *id)
{
    int hex = word[0] == '0' && (word[1] == 'x' || word[1] == 'X');
    const char *digits = hex ? word + 2 : word;
    char *end;
    errno = 0;
    unsigned long long n = strtoull(digits, &end, hex ? 16 : 10);
    size_t plain = strspn(digits, hex ? "0123456789abcdefABCDEF" : "0123456789");
    if (!*digits || digits[plain] || *end || errno || n > UINT32_MAX)
        return wrong("%s: an id is a number from 0 to 4294967295, decimal or behind 0x", word);
    *id = (uint32_t)n;
    return DONE;
}

/* The next character of UTF-8 text, or -1 where it is none. */
static int32_t next_character(const uint8_t **text)
{
    static const int32_t least[4] = {0, 0x80, 0x800, 0x10000};
    const uint8_t *t = *text;
    int more = t[0] < 0x80 ? 0 : t[0] < 0xC0 ? -1 : t[0] < 0xE0 ? 1 : t[0] < 0xF0 ? 2 : t[0] < 0xF8 ? 3 : -1;
    if (more < 0)
        return -1;
    int32_t c = more == 0 ? t[0] : t[0] & (0x3F >> more);
    for (int i = 1; i <= more; i++) {
        if ((t[i] & 0xC0) != 0x80)
            return -1;
        c = c << 6 | (t[i] & 0x3F);
    }
    *text += more + 1;
    return c < least[more] || c > 0x10FFFF || (c >= 0xD800 && c < 0xE000) ? -1 : c;
}

static void put_unit(struct bytes *value, uint32_t unit)
{
    value->at[value->len++] = (uint8_t)(unit & 255);
    value->at[value->len++] = (uint8_t)(unit >> 8);
}

/* UTF-8 text as units, two bytes each; how many and which the library judges. */
static int to_units(const char *word, struct bytes *value)
{
    const uint8_t *text = (const uint8_t *)word;
    value->len = 0;
    value->at = malloc(2 * strlen(word) + 1);
    if (!value->at)
        return wrong("no memory");
    while (*text) {
        int32_t c = next_character(&text);
        if (c < 0)
            return wrong("the value is not UTF-8");
        if (c < 0x10000) {
            put_unit(value, (uint32_t)c);
        } else {
            put_unit(value, 0xD800 + (uint32_t)(c - 0x10000) / 0x400);
            put_unit(value, 0xDC00 + (uint32_t)(c - 0x10000) % 0x400);
        }
    }
    return DONE;
}

static void print_character(uint32_t c)
{
    if (c < 0x80) {
        putchar((int)c);
    } else if (c < 0x800) {
        putchar((int)(0xC0 | c >> 6));
        putchar((int)(0x80 | (c & 0x3F)));
    } else if (c < 0x10000) {
        putchar((int)(0xE0 | c >> 12));
        putchar((int)(0x80 | (c >> 6 & 0x3F)));
        putchar((int)(0x80 | (c & 0x3F)));
    } else {
        putchar((int)(0xF0 | c >> 18));
        putchar((int)(0x80 | (c >> 12 & 0x3F)));
        putchar((int)(0x80 | (c >> 6 & 0x3F)));
        putchar((int)(0x80 | (c & 0x3F)));
    }
}

static uint32_t unit_at(const uint8_t *units, size_t at) { return units[at] | (uint32_t)units[at + 1] << 8; }

/* Units as UTF-8. What a terminal would act on, and half of a pair, is shown as its number. */
static void print_units(const uint8_t *units, size_t len)
{
    for (size_t i = 0; i + 1 < len; i += 2) {
        uint32_t unit = unit_at(units, i);
        uint32_t next = i + 3 < len ? unit_at(units, i + 2) : 0;
        if (unit >= 0xD800 && unit < 0xDC00 && next >= 0xDC00 && next < 0xE000) {
            print_character(0x10000 + (unit - 0xD800) * 0x400 + (next - 0xDC00));
            i += 2;
        } else if (unit < 0x20 || (unit >= 0x7F && unit < 0xA0) || (unit >= 0xD800 && unit < 0xE000)) {
            printf("\\u%04" PRIX32, unit);
        } else {
            print_character(unit);
        }
    }
}

enum { FIELD_START = 3, FIELD_END = 4, LINE_BREAK = 10, PARAGRAPH_END = 13, FIRST_OF_ONE = 24, FIRST_ORDINARY = 32 };

/* The positions that a control takes: its code alone, or eight with the code at both ends. */
static size_t positions(uint32_t code)
{
    return code == LINE_BREAK || code == PARAGRAPH_END || code >= FIRST_OF_ONE ? 1 : 8;
}

/* The end of the paragraph is not shown: every text has it, at its end. */
static void print_control(uint32_t code)
{
    if (code == FIELD_START)
        fputs("<field>", stdout);
    else if (code == FIELD_END)
        fputs("<end>", stdout);
    else if (code != PARAGRAPH_END)
        printf("<control %" PRIu32 ">", code);
}

/* The text of a sound section in quotes. */
static void print_text(const uint8_t *text, size_t len)
{
    size_t from = 0; /* the ordinary units that are not printed yet start here */
    putchar('"');
    for (size_t at = 0; at < len;) {
        uint32_t unit = unit_at(text, at);
        if (unit >= FIRST_ORDINARY) {
            at += 2;
            continue;
        }
        print_units(text + from, at - from);
        print_control(unit);
        from = at += 2 * positions(unit);
    }
    putchar('"');
}

static int write_all(int to, struct bytes file)
{
    while (file.len > 0) {
        ssize_t done = write(to, file.at, file.len);
        if (done < 0 && errno != EINTR)
            return -1;
        if (done > 0) {
            file.at += done;
            file.len -= (size_t)done;
        }
    }
    return fsync(to);
}

/* Writes a file beside OUT and gives it OUT's name when it is whole. A signal waits meanwhile. */
static int save(const char *out, struct bytes sheet)
{
    struct stat old;
    int there = lstat(out, &old) == 0;
    if (there && !S_ISREG(old.st_mode))
        return wrong("%s: there already, and no plain file", out);
    char *beside = malloc(strlen(out) + 8);
    if (!beside)
        return wrong("no memory");
    sprintf(beside, "%s.XXXXXX", out);

    sigset_t all, before;
    sigfillset(&all);
    sigprocmask(SIG_BLOCK, &all, &before);
    mode_t mask = umask(0);
    umask(mask);
    int why = 0, to = mkstemp(beside);
    if (to < 0) {
        why = errno;
    } else {
        if (fchmod(to, there ? old.st_mode & 0777 : 0666 & ~mask) || write_all(to, sheet))
            why = errno;
        if (close(to) && !why)
            why = errno;
        if (!why && rename(beside, out))
            why = errno;
        if (why)
            unlink(beside);
    }
    sigprocmask(SIG_SETMASK, &before, NULL);
    free(beside);
    return why ? wrong("%s: %s", out, strerror(why)) : DONE;
}

static int check(const char *file)
{
    struct bytes section = {NULL, 0};
    int status = read_file(file, &section);
    if (status == DONE) {
        uint64_t answer = hwp_check(section.at, section.len);
        if (hwp_number(answer) != HWP_ACCEPTED) {
            status = not_sound(file, section, answer);
        } else {
            printf("%s: accepted, %" PRIu32 " records\n", file, hwp_place(answer));
            status = printed();
        }
    }
    free(section.at);
    return status;
}

/* The table of a section's records, and the depth of each in the tree. */
struct table {
    size_t count;
    uint32_t *tags, *levels, *places, *lengths, *parents, *depths;
};

/* Lists of so many entries and one more, so that no list is null. */
static int new_table(struct table *t, size_t count)
{
    uint32_t **const lists[] = {&t->tags, &t->levels, &t->places, &t->lengths, &t->parents, &t->depths};
    size_t n = sizeof lists / sizeof *lists;
    uint32_t *all = malloc(n * (count + 1) * sizeof *all);
    if (!all)
        return wrong("no memory");
    for (size_t k = 0; k < n; k++)
        *lists[k] = all + k * (count + 1);
    t->count = count;
    return DONE;
}

/* The table of a sound section. Check says how many records there are, so the lists have room at the first try. */
static int read_table(const char *file, struct bytes section, struct table *t)
{
    uint64_t answer = hwp_check(section.at, section.len);
    if (hwp_number(answer) != HWP_ACCEPTED)
        return not_sound(file, section, answer);
    size_t n = hwp_place(answer);
    int status = new_table(t, n);
    if (status != DONE)
        return status;
    answer = hwp_read_section(section.at, section.len, t->tags, n, t->levels, n, t->places, n, t->lengths, n,
                              t->parents, n);
    return hwp_number(answer) == HWP_ACCEPTED ? DONE : not_sound(file, section, answer);
}

enum { PARAGRAPH = 66, TEXT_RECORD = 67, LIST_HEADER = 72, CONTROL_DATA = 87 };

static void print_kind(uint32_t tag)
{
    static const char *const words[] = {"paragraph", "text",           "character shapes", "line layout",
                                        "marks",     "control header", "list header"};
    if (tag >= PARAGRAPH && tag <= LIST_HEADER)
        fputs(words[tag - PARAGRAPH], stdout);
    else if (tag == CONTROL_DATA)
        fputs("control data", stdout);
    else
        printf("record %" PRIu32, tag);
}

/* A line of the tree: two blanks for each depth, kind, place and length of the body, and of a text the characters. */
static void print_record(struct bytes section, const struct table *t, size_t i)
{
    for (uint32_t n = 0; n < t->depths[i]; n++)
        fputs("  ", stdout);
    print_kind(t->tags[i]);
    printf(" at %" PRIu32 ", %" PRIu32 " bytes", t->places[i], t->lengths[i]);
    if (t->tags[i] == TEXT_RECORD) {
        fputs(": ", stdout);
        print_text(section.at + t->places[i], t->lengths[i]);
    }
    putchar('\n');
}

/* A parent stands before its children, so its depth is known when they come. */
static void print_tree(struct bytes section, const struct table *t)
{
    for (size_t i = 0; i < t->count; i++) {
        t->depths[i] = t->parents[i] == i ? 0 : t->depths[t->parents[i]] + 1;
        print_record(section, t, i);
    }
}

static int tree(const char *file)
{
    struct bytes section = {NULL, 0};
    struct table table = {0};
    int status = read_file(file, &section);
    if (status == DONE)
        status = read_table(file, section, &table);
    if (status == DONE) {
        print_tree(section, &table);
        status = printed();
    }
    free(section.at);
    free(table.tags); /* the lists are one piece, and this its start */
    return status;
}

static int fields(const char *file, const char *id_word)
{
    struct bytes section = {NULL, 0};
    uint32_t id = 0;
    int status = parse_id(id_word, &id);
    if (status == DONE)
        status = read_file(file, &section);
    if (status == DONE) {
        uint64_t answer = hwp_field_text(section.at, section.len, id);
        if (hwp_number(answer) != HWP_ACCEPTED) {
            status = refused(file, answer);
        } else {
            print_units(section.at + hwp_place(answer), hwp_further(answer));
            putchar('\n');
            status = printed();
        }
    }
    free(section.at);
    return status;
}

static int fill(const char *file, const char *id_word, const char *word, const char *out)
{
    struct bytes section = {NULL, 0}, value = {NULL, 0}, sheet = {NULL, 0};
    uint32_t id = 0;
    int status = parse_id(id_word, &id);
    if (status == DONE)
        status = to_units(word, &value);
    if (status == DONE)
        status = read_file(file, &section);
    if (status == DONE) {
        size_t room = section.len + value.len + 4; /* always enough: see hwp_fill */
        sheet.at = malloc(room);
        if (!sheet.at) {
            status = wrong("no memory");
        } else {
            uint64_t answer = hwp_fill(section.at, section.len, id, value.at, value.len, sheet.at, room);
            sheet.len = hwp_place(answer);
            status = hwp_number(answer) != HWP_ACCEPTED ? refused(file, answer) : save(out, sheet);
        }
    }
    free(section.at);
    free(value.at);
    free(sheet.at);
    return status;
}

int main(int argc, char **argv)
{
    signal(SIGXFSZ, SIG_IGN); /* a file that grows past the limit of the process is then an error of write */
    if (argc == 3 && !strcmp(argv[1], "check"))
        return check(argv[2]);
    if (argc == 3 && !strcmp(argv[1], "tree"))
        return tree(argv[2]);
    if (argc == 4 && !strcmp(argv[1], "fields"))
        return fields(argv[2], argv[3]);
    if (argc == 6 && !strcmp(argv[1], "fill"))
        return fill(argv[2], argv[3], argv[4], argv[5]);
    if (argc == 2 && (!strcmp(argv[1], "--help") || !strcmp(argv[1], "-h"))) {
        fputs(usage, stdout);
        return printed();
    }
    fputs(usage, stderr);
    return WRONG;
}
