/* lend.h: what the C tests share: counting, memory that traps beside what is lent, and streams in the making.
 *
 * Every list and buffer ends right before a page that traps, or starts right behind one, and what a call may only
 * read stands on pages that cannot be written: one entry or byte outside ends the program. Define PROGRAM, and
 * _GNU_SOURCE before any header, then include this; SAMPLES too where the samples are read.
 */
#include <signal.h>
#include <stdint.h>
#include <stdio.h>
#include <stdlib.h>
#include <string.h>
#include <sys/mman.h>
#include <unistd.h>

#define LIMIT 16777216u

static const char *now = "start"; /* the case at hand */
static unsigned checks, failed;

/* Ends the program where it trapped, with words. */
static void say_trap(const char *what)
{
    const char *const words[] = {PROGRAM ": FAILED, ", what, ": ", now, "\n"};
    ssize_t done = 0;
    for (size_t i = 0; i < sizeof words / sizeof *words; i++)
        done += write(1, words[i], strlen(words[i]));
    _exit(done > 0 ? 1 : 2);
}

static inline void trapped(int number)
{
    (void)number;
    say_trap("memory outside was touched");
}

static inline void catch_traps(void)
{
    struct sigaction action;
    memset(&action, 0, sizeof action);
    action.sa_handler = trapped;
    sigaction(SIGSEGV, &action, NULL);
    sigaction(SIGBUS, &action, NULL);
}

static void expect(int holds, const char *what)
{
    checks++;
    if (!holds) {
        failed++;
        printf(PROGRAM ": FAILED, %s: %s\n", now, what);
    }
}

static int result(void)
{
    printf(PROGRAM ": %u checks, %u failed\n", checks, failed);
    return failed != 0;
}

/* Memory with a trapping page on both sides; the lent part ends at the second, or starts at the first. */
struct lent {
    uint8_t *pages;
    size_t size;
    uint8_t *part;
    size_t length;
};

static struct lent lend(size_t length, int at_end)
{
    size_t page = (size_t)sysconf(_SC_PAGESIZE);
    size_t size = (length + page - 1) / page * page;
    struct lent lent = {NULL, size + 2 * page, NULL, length};
    lent.pages = mmap(NULL, lent.size, PROT_NONE, MAP_PRIVATE | MAP_ANONYMOUS, -1, 0);
    if (lent.pages == MAP_FAILED || (size && mprotect(lent.pages + page, size, PROT_READ | PROT_WRITE))) {
        printf(PROGRAM ": no memory\n");
        exit(2);
    }
    lent.part = lent.pages + page + (at_end ? size - length : 0);
    return lent;
}

static inline void only_read(struct lent lent)
{
    size_t page = (size_t)sysconf(_SC_PAGESIZE);
    if (lent.size > 2 * page && mprotect(lent.pages + page, lent.size - 2 * page, PROT_READ)) {
        printf(PROGRAM ": no protection\n");
        exit(2);
    }
}

static inline void give_back(struct lent lent) { munmap(lent.pages, lent.size); }

static inline struct lent given(const void *from, size_t length, int at_end)
{
    struct lent lent = lend(length, at_end);
    if (length)
        memcpy(lent.part, from, length);
    only_read(lent);
    return lent;
}

/* A stream in the making. */
struct stream {
    uint8_t *bytes;
    size_t length;
};

static inline struct stream new_stream(size_t most)
{
    struct stream s = {malloc(most + 1), 0};
    if (!s.bytes)
        exit(2);
    return s;
}

static inline void put_word(struct stream *s, uint32_t word)
{
    for (int i = 0; i < 4; i++)
        s->bytes[s->length++] = (uint8_t)(word >> 8 * i);
}

static inline void put_header(struct stream *s, uint32_t tag, uint32_t level, uint32_t length)
{
    put_word(s, tag | level << 10 | (length < 4095 ? length : 4095) << 20);
    if (length >= 4095)
        put_word(s, length);
}

/* A record whose body is its tag again and again. */
static inline void put_record(struct stream *s, uint32_t tag, uint32_t level, uint32_t length)
{
    put_header(s, tag, level, length);
    memset(s->bytes + s->length, (int)tag, length);
    s->length += length;
}

#ifdef SAMPLES
static struct stream read_sample(const char *folder, const char *name)
{
    char path[1024];
    struct stream s = new_stream(65536);
    snprintf(path, sizeof path, "%s/%s", folder, name);
    FILE *file = fopen(path, "rb");
    if (!file) {
        printf(PROGRAM ": cannot read %s\n", path);
        exit(2);
    }
    s.length = fread(s.bytes, 1, 65536, file);
    fclose(file);
    return s;
}

/* A line of the samples' expected.txt: what a call answers for a file. */
struct line {
    char name[128], call[16];
    uint32_t id;
    unsigned number;
    uint32_t place, further;
};

static void each_line(const char *folder, void (*visit)(const char *folder, const struct line *line))
{
    struct stream lines = read_sample(folder, "expected.txt");
    unsigned seen = 0;
    lines.bytes[lines.length] = 0;
    for (char *at = strtok((char *)lines.bytes, "\n"); at; at = strtok(NULL, "\n")) {
        struct line line;
        char id[16];
        if (*at == '#')
            continue;
        now = at;
        int whole = sscanf(at, "%127s %15s %15s %u %u %u", line.name, line.call, id, &line.number, &line.place,
                           &line.further) == 6;
        expect(whole, "a line of expected.txt");
        if (!whole)
            continue;
        line.id = (uint32_t)strtoul(id, NULL, 10);
        visit(folder, &line);
        seen++;
    }
    now = "expected.txt";
    expect(seen >= 40, "forty lines");
    free(lines.bytes);
}
#endif
