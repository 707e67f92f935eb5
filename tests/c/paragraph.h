/* paragraph.h: paragraphs with one field, made by hand, values for it, and answers. Include lend.h first. */

static inline uint64_t answer(unsigned number, uint64_t place, uint64_t further)
{
    return number + 256 * place + (further << 36);
}

/* A value, two bytes for each unit. */
struct value {
    const uint8_t *bytes;
    size_t length;
};

static inline struct value units(unsigned count, uint16_t unit)
{
    static uint8_t bytes[4096];
    for (unsigned i = 0; i < count; i++) {
        bytes[2 * i] = (uint8_t)unit;
        bytes[2 * i + 1] = (uint8_t)(unit >> 8);
    }
    return (struct value){bytes, 2 * (size_t)count};
}

struct paragraph {
    uint32_t level;
    unsigned before, value, behind; /* ordinary units before the field, in it and behind its end */
    uint16_t unit;                  /* what the value is made of */
    int open;                       /* a tab stands where the field's end belongs */
    uint32_t starts[4];
    uint32_t shapes[4];
    int nstarts;
    unsigned lines, marks;
    uint32_t flag; /* bit 31 of the count */
    uint32_t id;
    int altered;
    int bare; /* nothing stands below the control header */
};

static inline void put_half(struct stream *s, unsigned n)
{
    s->bytes[s->length++] = (uint8_t)n;
    s->bytes[s->length++] = (uint8_t)(n >> 8);
}

static inline void put_control(struct stream *s, unsigned code)
{
    const unsigned six[6] = {1, 13, 0, 4, 31, 0xFFFF};
    put_half(s, code);
    for (int i = 0; i < 6; i++)
        put_half(s, six[i]);
    put_half(s, code);
}

static inline uint32_t count_of(const struct paragraph *p) { return p->before + 8 + p->value + 8 + p->behind + 1; }

/* The 22 bytes that a paragraph header has at least. */
static inline void put_numbers(struct stream *s, uint32_t count, unsigned shapes, unsigned marks, unsigned lines)
{
    put_word(s, count);
    put_word(s, 0x18);
    put_word(s, 0x04030201);
    put_half(s, shapes);
    put_half(s, marks);
    put_half(s, lines);
    put_word(s, 0x80000001);
}

static inline void put_text(struct stream *s, const struct paragraph *p)
{
    put_header(s, 67, p->level + 1, 2 * count_of(p));
    for (unsigned i = 0; i < p->before; i++)
        put_half(s, 0xAC00 + i % 100);
    put_control(s, 3);
    for (unsigned i = 0; i < p->value; i++)
        put_half(s, p->unit);
    put_control(s, p->open ? 9 : 4);
    for (unsigned i = 0; i < p->behind; i++)
        put_half(s, 'a' + i % 26);
    put_half(s, 13);
}

/* Shapes, layout and marks. */
static inline void put_entries(struct stream *s, const struct paragraph *p)
{
    put_header(s, 68, p->level + 1, 8 * (uint32_t)p->nstarts);
    for (int i = 0; i < p->nstarts; i++) {
        put_word(s, p->starts[i]);
        put_word(s, p->shapes[i]);
    }
    if (p->lines)
        put_record(s, 69, p->level + 1, 36 * p->lines);
    if (p->marks) {
        put_header(s, 70, p->level + 1, 12 * p->marks);
        for (unsigned i = 0; i < p->marks; i++) {
            put_word(s, 0);
            put_word(s, count_of(p));
            put_word(s, 0x0200FFFF);
        }
    }
}

/* The control header of the field, and control data below it unless it is bare. */
static inline void put_field(struct stream *s, const struct paragraph *p)
{
    put_header(s, 71, p->level + 1, 15 + 4 + 2);
    put_word(s, 0x25636C6B);
    put_word(s, p->altered ? 0x8001 : 1);
    s->bytes[s->length++] = 0;
    put_half(s, 2);
    put_word(s, 0x00420041);
    put_word(s, p->id);
    put_half(s, 0x5555); /* a tail behind the id */
    if (!p->bare)
        put_record(s, 87, p->level + 2, 3);
}

static inline void put_paragraph(struct stream *s, const struct paragraph *p)
{
    put_header(s, 66, p->level, 23);
    put_numbers(s, count_of(p) | p->flag, (unsigned)p->nstarts, p->marks, p->lines);
    s->bytes[s->length++] = 0x77; /* a tail behind the 22 bytes */
    put_text(s, p);
    put_entries(s, p);
    put_field(s, p);
}

/* The place of the field's control header, where a paragraph that is not bare stands at the end of a stream. */
static inline size_t control_header_of(const struct stream *s) { return s->length - 4 - 21 - 4 - 3; }
