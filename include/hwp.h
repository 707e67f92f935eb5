/* hwp.h: read a Hangul 5.0 record stream into a table, pack a table into a stream, check a section, find the text of a
 * field in it, fill a field.
 *
 * A section here is a section stream of BodyText, DocInfo the stream of that name, both already unpacked: a row of
 * records. Link libhost.a. The seven functions are Rattle, proved against documents 01 and 02; this header is C and is
 * not proved.
 *
 * What holds for all seven:
 *
 * - They take every input. None traps, none runs for ever, and there is nothing that a caller has to check first.
 * - They read what they are lent and nothing else, write nothing but an accepted sheet, table or packed stream, keep
 *   nothing between two calls and use no heap, lock, file or clock. Threads may call them at the same time, each with
 *   a buffer and lists of its own.
 * - A pointer goes to as many bytes as the length behind it says, that of a list to as many entries as the count behind
 *   it says, which nobody else changes during the call. It is not null, not even where the length or the count is 0.
 *   What a call writes to (the sheet, the five lists of a read, pack's buffer) overlaps nothing else that the call is
 *   lent: the lists of a read overlap neither one another nor the stream.
 * - The answer is one number of 64 bits:
 *       number  +  256 x place  +  2^36 x further number
 *   Each of the three stands in full, whatever the input (a theorem, with one exception that hwp_pack has). hwp_number,
 *   hwp_place and hwp_further below take it apart, hwp_words says it. Number 0 is 'accepted'; each other number is a
 *   refusal, and its further number is 0. A refusal changes no byte and no entry.
 * - The place of a refusal is a byte place in the section or stream: the first wrong byte, or the header of a record,
 *   as hwp_place_words tells; 0 where there is none to name. It can be the length, one behind the last byte: always for
 *   2, and for 12 where the text at the end of the section lacks its 13. So read the byte at the place only where the
 *   place is below the length. Of hwp_pack alone it is no byte place but the index of a record.
 * - The same input has the same answer, and where several rules are broken the order below says which one is named.
 */
#ifndef HWP_H
#define HWP_H

#include <stddef.h>
#include <stdint.h>

#ifdef __cplusplus
extern "C" {
#endif

/* The most bytes of a stream: a section, DocInfo, a sheet, what pack writes. */
#define HWP_STREAM_LIMIT 16777216
/* The most units (16-bit WCHARs) of a value. */
#define HWP_VALUE_LIMIT 1024

/* The numbers. */
enum {
    HWP_ACCEPTED = 0,
    HWP_STREAM_TOO_LONG = 1,
    HWP_HEADER_CUT = 2,
    HWP_LONG_LENGTH_TOO_SMALL = 3,
    HWP_BODY_PAST_END = 4,
    HWP_TAG_OUTSIDE = 5,
    HWP_LEVEL_RULE = 6,
    HWP_NO_ROOM = 7,
    HWP_PARAGRAPH_HEADER_SHORT = 8,
    HWP_MISPLACED = 9,
    HWP_RECORD_ABSENT = 10,
    HWP_LENGTH_WRONG = 11,
    HWP_TEXT_RULE = 12,
    HWP_ENTRIES_WRONG = 13,
    HWP_CONTROLS_UNMATCHED = 14,
    HWP_FIELD_HEADER_SHORT = 15,
    HWP_DOCINFO_RECORD = 16,
    HWP_DOCINFO_LENGTH = 17,
    HWP_COUNT_UNMATCHED = 18,
    HWP_VALUE_WRONG = 20,
    HWP_NO_FIELD = 21,
    HWP_FIELD_TWICE = 22,
    HWP_FIELD_NOT_PLAIN = 23,
    HWP_MARKS_IN_PARAGRAPH = 24,
    HWP_SHEET_TOO_LONG = 25,
    HWP_BUFFER_TOO_SHORT = 26,
    HWP_LIST_TOO_SHORT = 27,
    HWP_PARENT_WRONG = 28
};

/* Check: whether the section keeps every rule.
 *
 * Accepted exactly where all rules of records and paragraphs hold; the place column then has the number of records.
 * An empty section is accepted with 0 records.
 *
 * Refusals, in this order: 1; then record by record 2 (first four bytes), 5, 6, 2 (long length), 3, 4; then 9 over all
 * records; then paragraph by paragraph 8, 10, 11, 12, 13, 14, 15.
 */
uint64_t hwp_check(const uint8_t *section, size_t section_len);

/* Field text: where the text of the field with this id stands.
 *
 * Accepted exactly where hwp_check accepts, one field alone has the id, and it is plain: the next unit below 32 behind
 * its control is the field's end. The place column then has the byte place in the section where the text starts, and
 * the further number its length in bytes, two for each unit. An empty text has length 0.
 *
 * Refusals, in this order: those of hwp_check; 21, 22, 23.
 */
uint64_t hwp_field_text(const uint8_t *section, size_t section_len, uint32_t id);

/* Fill: writes to the sheet the section with the value as the text of the field with this id.
 *
 * The value comes as bytes, two for each unit, the lower first; each unit is 32 or more; no bytes are an empty value.
 * The id is looked up as in hwp_field_text. Accepted: the place column has the length of the sheet; the bytes of the
 * buffer behind it stay as they were. The sheet differs from the section in the field's paragraph alone:
 *   - the text of the field is the value, and the paragraph's count of units follows;
 *   - character shapes that start before the text stay; of those from its start up to the field's end only the last is
 *     kept, now at the field's end; those behind move with the text; their number follows;
 *   - the line layout record is gone and the number of lines is 0, so that the word processor lays it out again;
 *   - bit 15 of the field's properties (contents altered) is set;
 *   - a record whose length passes 4,095 has the header that its new length asks for.
 * An accepted sheet is itself accepted by hwp_check, and hwp_field_text with the same id is accepted and points to the
 * value in it (check-back and text-back in crates/host/proofs/ReadBack.antt). The sheet is the section itself only when
 * the field's text was the value already, with its count, and bit 15 set (template-sheet in
 * crates/orders/proofs/Promises.antt).
 *
 * A sheet never has more than section_len + value_len + 4 bytes: with that room 26 is not given (accepted-length and
 * enough-room in crates/orders/proofs/Room.antt). All these are theorems.
 *
 * Refusals, in this order: those of hwp_check; 20 (an odd number of bytes too), 21, 22, 23, 24, 25, 26.
 */
uint64_t hwp_fill(const uint8_t *section, size_t section_len, uint32_t id, const uint8_t *value, size_t value_len,
                  uint8_t *sheet, size_t sheet_len);

/* Read: the table of a stream's records, whatever their kinds.
 *
 * Entry i of the five lists is about record i, counted from 0 in the order of the stream:
 *   tags     its tag, 16 to 1,023
 *   levels   its level, 0 to 1,023
 *   places   the byte place of its body in the stream (behind its header, which has 4 or 8 bytes)
 *   lengths  the length of its body in bytes
 *   parents  the index of its parent, the nearest earlier record of smaller level; at level 0 its own index
 * So a parent is never behind its record, and one pass from the front meets every parent before its children.
 *
 * Accepted exactly where all rules of records hold and the shortest list has an entry for each record; the place column
 * then has the number of records. An empty stream is accepted with 0 records. Any list may be longer: its entries
 * behind the last record stay as they were. A record has at least four bytes, so with stream_len / 4 entries in each
 * list 7 is not given (enough-room in crates/records/proofs/Reader.antt).
 *
 * Refusals, in this order: 1; then record by record 2 (first four bytes), 5, 6, 2 (long length), 3, 4; then 7.
 */
uint64_t hwp_read(const uint8_t *stream, size_t stream_len, uint32_t *tags, size_t tags_count, uint32_t *levels,
                  size_t levels_count, uint32_t *places, size_t places_count, uint32_t *lengths, size_t lengths_count,
                  uint32_t *parents, size_t parents_count);

/* Section read: the same table, where the stream is a section that keeps every rule.
 *
 * Accepted exactly where hwp_check accepts the stream and the shortest list has an entry for each record: with as many
 * entries as the place column of hwp_check's answer has, 7 is not given. The lists are as in hwp_read.
 *
 * Refusals, in this order: those of hwp_read, with 7 among them; then those of hwp_check from 9 on.
 */
uint64_t hwp_read_section(const uint8_t *stream, size_t stream_len, uint32_t *tags, size_t tags_count, uint32_t *levels,
                          size_t levels_count, uint32_t *places, size_t places_count, uint32_t *lengths,
                          size_t lengths_count, uint32_t *parents, size_t parents_count);

/* DocInfo read: the same table, where the stream is a DocInfo that keeps every rule.
 *
 * Accepted exactly where all rules of records hold, the shortest list has an entry for each record, there is one record
 * 16 and one record 17, both at level 0 and of a lawful length, and the counts in record 17 are those of its children.
 * The lists are as in hwp_read.
 *
 * Refusals, in this order: those of hwp_read, with 7 among them; 16 for record 16, 16 for record 17; 17 for record 16,
 * 17 for record 17; 18.
 */
uint64_t hwp_read_docinfo(const uint8_t *stream, size_t stream_len, uint32_t *tags, size_t tags_count, uint32_t *levels,
                          size_t levels_count, uint32_t *places, size_t places_count, uint32_t *lengths,
                          size_t lengths_count, uint32_t *parents, size_t parents_count);

/* Pack: writes to out the stream of count records whose table is in the five lists.
 *
 * The lists are as hwp_read writes them, and a list may be longer: entries behind the first count are not looked at.
 * The places are those of the bodies in bytes, where bodies stand in any order and may overlap. Accepted: the place
 * column has the length written; the bytes of out behind it stay as they were. Each header has the form that its length
 * asks for. With count 0 nothing is written.
 *
 * Packing the table that hwp_read wrote of a stream, with the stream as the bytes and room for it, gives the stream
 * back; reading what was packed gives the tags, levels, lengths, parents and bodies that were packed (read-then-pack
 * and pack-then-read in crates/pack/proofs/RoundTrip.antt, theorems).
 *
 * Refusals, in this order: 27; then record by record 5, 6, 28, 4; 1, where the stream would be over the limit; 26. The
 * place of 5, 6, 28 and 4 is the record's index, where one of more than 28 bits, which only lists of more entries than
 * that have, is given as 268,435,455; that of 27, 1 and 26 is 0.
 */
uint64_t hwp_pack(size_t count, const uint32_t *tags, size_t tags_count, const uint32_t *levels, size_t levels_count,
                  const uint32_t *places, size_t places_count, const uint32_t *lengths, size_t lengths_count,
                  const uint32_t *parents, size_t parents_count, const uint8_t *bytes, size_t bytes_len, uint8_t *out,
                  size_t out_len);

/* The number of an answer. */
static inline unsigned hwp_number(uint64_t answer) { return (unsigned)(answer & 255u); }

/* The place of an answer, or what stands in its column where it is accepted. */
static inline uint32_t hwp_place(uint64_t answer) { return (uint32_t)(answer >> 8 & 0xFFFFFFFu); }

/* The further number of an answer: the length in bytes where hwp_field_text accepts, else 0. */
static inline uint32_t hwp_further(uint64_t answer) { return (uint32_t)(answer >> 36); }

/* What a number says. */
static inline const char *hwp_words(unsigned number)
{
    switch (number) {
    case HWP_ACCEPTED:
        return "accepted";
    case HWP_STREAM_TOO_LONG:
        return "the stream has more than 16,777,216 bytes";
    case HWP_HEADER_CUT:
        return "the stream ends inside a record header";
    case HWP_LONG_LENGTH_TOO_SMALL:
        return "a record of fewer than 4,095 bytes has the long form of the length";
    case HWP_BODY_PAST_END:
        return "the body of a record runs past the end of the stream, or in pack of the lent bytes";
    case HWP_TAG_OUTSIDE:
        return "a record has a tag below 16, and those are reserved, or in pack one above 1,023";
    case HWP_LEVEL_RULE:
        return "the first record is not at level 0, or a record is more than one level deeper than the one before it, "
               "or in pack at a level above 1,023";
    case HWP_NO_ROOM:
        return "there are more records than the lists have room for";
    case HWP_PARAGRAPH_HEADER_SHORT:
        return "a paragraph header has fewer than 22 bytes";
    case HWP_MISPLACED:
        return "a record of text, character shapes, line layout or marks is not below a paragraph header, is there "
               "twice, or has records below it";
    case HWP_RECORD_ABSENT:
        return "a paragraph lacks a record of text, character shapes, line layout or marks that it must have";
    case HWP_LENGTH_WRONG:
        return "a record of text, character shapes, line layout or marks does not have the length that the number in "
               "the paragraph header asks for, or is there though that number is 0";
    case HWP_TEXT_RULE:
        return "a text holds a unit 0, or a control that is cut short or not closed by its own code, or does not have "
               "its 13 at the end and only there";
    case HWP_ENTRIES_WRONG:
        return "the starts of the character shapes do not begin at 0, rise, and stay inside the text, or a mark ends "
               "before its start or behind the text";
    case HWP_CONTROLS_UNMATCHED:
        return "a paragraph does not have as many control headers as its text has extended controls";
    case HWP_FIELD_HEADER_SHORT:
        return "the control header of a field is too short for its command and its id";
    case HWP_DOCINFO_RECORD:
        return "DocInfo lacks record 16 or 17, has one twice, or has one that is not at level 0";
    case HWP_DOCINFO_LENGTH:
        return "record 16 of DocInfo has fewer than 30 bytes, or record 17 neither 32 nor a multiple of four from "
               "60 up";
    case HWP_COUNT_UNMATCHED:
        return "a count in record 17 of DocInfo is negative, or is not the number of records below it";
    case HWP_VALUE_WRONG:
        return "the value has more than 1,024 units, a unit below 32, or half a unit";
    case HWP_NO_FIELD:
        return "no field has the id";
    case HWP_FIELD_TWICE:
        return "more than one field has the id";
    case HWP_FIELD_NOT_PLAIN:
        return "the field is not plain: its end is not the next control behind it in its paragraph";
    case HWP_MARKS_IN_PARAGRAPH:
        return "the paragraph of the field has marks";
    case HWP_SHEET_TOO_LONG:
        return "the filled sheet would have more than 16,777,216 bytes";
    case HWP_BUFFER_TOO_SHORT:
        return "the sheet, or what pack is to write, is longer than the buffer lent for it";
    case HWP_LIST_TOO_SHORT:
        return "a list is shorter than the number of records";
    case HWP_PARENT_WRONG:
        return "the parent given for a record is not the nearest earlier record of smaller level, or at level 0 not "
               "the record itself";
    default:
        return "no number of this library";
    }
}

/* What the place of a refusal is the place of (in pack a record by its index); empty where it is always 0 and names
 * nothing. */
static inline const char *hwp_place_words(unsigned number)
{
    switch (number) {
    case HWP_HEADER_CUT:
        return "the end of the stream";
    case HWP_LONG_LENGTH_TOO_SMALL:
        return "the long length";
    case HWP_BODY_PAST_END:
    case HWP_TAG_OUTSIDE:
    case HWP_LEVEL_RULE:
    case HWP_LENGTH_WRONG:
    case HWP_DOCINFO_LENGTH:
        return "the record";
    case HWP_NO_ROOM:
        return "the first record that does not fit";
    case HWP_PARAGRAPH_HEADER_SHORT:
    case HWP_RECORD_ABSENT:
    case HWP_CONTROLS_UNMATCHED:
    case HWP_MARKS_IN_PARAGRAPH:
        return "the paragraph header";
    case HWP_MISPLACED:
        return "the record, or the first below it";
    case HWP_TEXT_RULE:
        return "the unit that breaks the rule, or the end of the text where its 13 is lacking";
    case HWP_ENTRIES_WRONG:
        return "the entry at fault";
    case HWP_FIELD_HEADER_SHORT:
    case HWP_FIELD_NOT_PLAIN:
        return "the control header of the field";
    case HWP_FIELD_TWICE:
        return "the control header of the second field";
    case HWP_DOCINFO_RECORD:
        return "the record too many or not at level 0, or 0 where one is lacking";
    case HWP_COUNT_UNMATCHED:
        return "the first negative count, else the first that does not match (of counts 1 to 7 count 1)";
    case HWP_PARENT_WRONG:
        return "the record, by its index";
    default:
        return "";
    }
}

#ifdef __cplusplus
}
#endif

#endif
