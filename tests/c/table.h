/* table.h: the reads and pack of hwp.h with every list and buffer against pages that trap. Include lend.h and hwp.h
 * first.
 *
 * Each call is made twice, with what is lent before the trapping page and behind it; its answer, every entry of the
 * lists that a read is lent and every byte of pack's buffer are compared.
 */
#define LISTS 5
#define PATTERN 0xC3A55A3Cu
#define FREE_BYTE 0xA5

static const char *const list_names[LISTS] = {"tags", "levels", "places", "lengths", "parents"};
enum { TAG, LEVEL, PLACE, LENGTH, PARENT };

/* What the five lists have of a record. */
struct row {
    uint32_t part[LISTS];
};

typedef uint64_t read_call(const uint8_t *stream, size_t stream_len, uint32_t *tags, size_t tags_count,
                           uint32_t *levels, size_t levels_count, uint32_t *places, size_t places_count,
                           uint32_t *lengths, size_t lengths_count, uint32_t *parents, size_t parents_count);

static inline uint64_t told(unsigned number, uint64_t place) { return number + 256 * place; }

static inline uint32_t *entries(struct lent lent) { return (uint32_t *)(void *)lent.part; }

/* A list whose entries differ from one another and from what a read writes. */
static inline struct lent list(size_t count, int at_end)
{
    struct lent lent = lend(4 * count, at_end);
    for (size_t i = 0; i < count; i++)
        entries(lent)[i] = PATTERN ^ (uint32_t)i;
    return lent;
}

/* The first entries are those of the rows, and each one behind them is as it was. */
static inline int list_is(struct lent lent, size_t room, int part, const struct row *rows, size_t count)
{
    for (size_t i = 0; i < room; i++)
        if (entries(lent)[i] != (i < count ? rows[i].part[part] : PATTERN ^ (uint32_t)i))
            return 0;
    return count <= room;
}

/* One read with lists of these rooms. A refusal has no rows. */
static inline void read_is(const char *name, read_call *read, const struct stream *s, const size_t rooms[LISTS],
                           uint64_t asked, const struct row *rows, size_t count)
{
    now = name;
    for (int at_end = 0; at_end < 2; at_end++) {
        struct lent stream = given(s->bytes, s->length, at_end), l[LISTS];
        for (int k = 0; k < LISTS; k++)
            l[k] = list(rooms[k], at_end);
        uint64_t found = read(stream.part, s->length, entries(l[TAG]), rooms[TAG], entries(l[LEVEL]), rooms[LEVEL],
                              entries(l[PLACE]), rooms[PLACE], entries(l[LENGTH]), rooms[LENGTH], entries(l[PARENT]),
                              rooms[PARENT]);
        expect(found == asked, "answer of read");
        for (int k = 0; k < LISTS; k++) {
            expect(list_is(l[k], rooms[k], k, rows, count), list_names[k]);
            give_back(l[k]);
        }
        give_back(stream);
    }
}

/* The same with five lists of one length. */
static inline void read_evenly(const char *name, read_call *read, const struct stream *s, size_t room, uint64_t asked,
                               const struct row *rows, size_t count)
{
    const size_t rooms[LISTS] = {room, room, room, room, room};
    read_is(name, read, s, rooms, asked, rows, count);
}

/* A table to pack, the bytes that it points into, and the room for the stream. */
struct packing {
    size_t count;
    const uint32_t *part[LISTS];
    size_t counts[LISTS];
    const uint8_t *bytes;
    size_t bytes_length;
    size_t room;
};

/* One pack. A refusal has nothing written. */
static inline void pack_is(const char *name, const struct packing *p, uint64_t asked, const struct stream *written)
{
    now = name;
    for (int at_end = 0; at_end < 2; at_end++) {
        struct lent bytes = given(p->bytes, p->bytes_length, at_end), out = lend(p->room, at_end), l[LISTS];
        for (int k = 0; k < LISTS; k++)
            l[k] = given(p->part[k], 4 * p->counts[k], at_end);
        if (p->room)
            memset(out.part, FREE_BYTE, p->room);
        uint64_t found =
            hwp_pack(p->count, entries(l[TAG]), p->counts[TAG], entries(l[LEVEL]), p->counts[LEVEL],
                     entries(l[PLACE]), p->counts[PLACE], entries(l[LENGTH]), p->counts[LENGTH], entries(l[PARENT]),
                     p->counts[PARENT], bytes.part, p->bytes_length, out.part, p->room);
        expect(found == asked, "answer of pack");
        size_t length = written ? written->length : 0;
        expect(length <= p->room && (!length || !memcmp(out.part, written->bytes, length)), "bytes written");
        int kept = 1;
        for (size_t i = length; i < p->room; i++)
            kept &= out.part[i] == FREE_BYTE;
        expect(kept, "bytes behind those written");
        for (int k = 0; k < LISTS; k++)
            give_back(l[k]);
        give_back(bytes);
        give_back(out);
    }
}

/* A table in five lists that can be changed. */
struct table {
    size_t count;
    uint32_t *part[LISTS];
};

/* The table of rows, with entries behind it that no pack may look at. */
static inline struct table new_table(const struct row *rows, size_t count, size_t behind)
{
    struct table t = {count, {NULL}};
    for (int k = 0; k < LISTS; k++) {
        t.part[k] = malloc(4 * (count + behind + 1));
        if (!t.part[k])
            exit(2);
        for (size_t i = 0; i < count + behind; i++)
            t.part[k][i] = i < count ? rows[i].part[k] : PATTERN;
    }
    return t;
}

static inline void drop_table(struct table t)
{
    for (int k = 0; k < LISTS; k++)
        free(t.part[k]);
}

/* Packing a table whose lists have some entries behind it, out of these bytes. */
static inline struct packing packing_of(const struct table *t, size_t behind, const struct stream *bytes, size_t room)
{
    struct packing p = {.count = t->count, .bytes = bytes->bytes, .bytes_length = bytes->length, .room = room};
    for (int k = 0; k < LISTS; k++) {
        p.part[k] = t->part[k];
        p.counts[k] = t->count + behind;
    }
    return p;
}
