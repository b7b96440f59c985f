/*
 * quarto_yaml: from the text of a YAML file and the events of a YAML parser to a record for each node and, for each scalar, the
 * pieces that say from which bytes of the file every stretch of its value came.
 *
 *     tools/archive                                                        makes target/staticlib/libquarto_yaml.a
 *     cc -Iinclude program.c target/staticlib/libquarto_yaml.a -o program  links it; it needs nothing but `memset`
 *
 * No heap, no threads, no state, no input or output, a few kilobytes of stack: a call reads what it is given, writes the buffers that
 * it is lent, and returns. Every call ends, whatever the bytes are, and reads and writes nothing outside the lengths that it is given.
 * Calls may run at the same time on different lent buffers.
 *
 * POINTERS. A slice is a pointer and its length: in bytes for `uint8_t`, in numbers for `uint32_t`. With length 0 the pointer is not
 * used and may be NULL; otherwise it leads to so many elements, `uint32_t` ones aligned as such. A buffer lent for writing (a pointer
 * without `const`) must not overlap anything else that the same call is given. Text, events, value, markers and key are never written.
 *
 * EVENTS. All numbers high byte first. An event is
 *
 *     1 byte   which event: 1 sequence start, 2 sequence end, 3 mapping start, 4 mapping end, 5 scalar, 6 alias
 *     2 bytes  the length of the body that follows
 *     body     4 bytes  marker index: so many characters (code points, not bytes) of the text stand before the marker
 *              2, 4, 6: no more. 1, 3: the YAML tag. 5: 4 bytes column; 1 byte style: 0 plain, 1 single-quoted, 2 double-quoted,
 *              3 literal, 4 folded; 1 byte empty span: 0, or 1; the YAML tag; the value, to the end of the body
 *     YAML tag 1 byte 0 for none; or 1 byte 1, 2 bytes length, the handle, 2 bytes length, the suffix
 *
 * Handle, suffix and value are UTF-8, the value with its escapes and folds resolved, as a parser hands it over. There is no event for
 * the start and end of the stream or the document: the events are those of one root. A body has up to 65,535 bytes.
 *
 * The marker of a scalar or of a flow collection is its first character (the quote, `[`, `{`), not its tag or anchor; of a literal or
 * folded scalar the first character of its content, with that character's column; where it has no content its `|` or `>`, or the next
 * token with empty span 1. A block mapping's start may stand anywhere but on a `{`: its span starts at its first key. A missing value
 * has its marker on the `:` before it. An end has it on the closing bracket, or where a block collection ends.
 *
 * RECORDS. Fourteen `uint32_t` for each node, in the order in which nodes are complete: children before their collection, the root
 * last. Record n, from 0, starts at `records[14 * n]`. By place (QUARTO_YAML_AT_...):
 *
 *     0      kind, QUARTO_YAML_KIND_...
 *     1, 2   its span in the text: first byte, and the byte after the last
 *     3, 4   the span of its tag in the text
 *     5, 6   the tag's suffix in the events: place, length. 3 to 6 are all QUARTO_YAML_NONE where there is no tag
 *     7      records in its subtree, itself counted
 *     8, 9   its first piece, and how many; QUARTO_YAML_NONE and 0 where there is no list, as for every collection
 *     10, 11 boolean: 0 or 1, and 0. Integer: the high and low 32 bits of its 64, two's complement. Real, string: place of the value
 *            in the events (0 in a call on one scalar), and its length. Array: items, and 0. Hash: pairs, and 0. Else 0 and 0
 *     12     the record of its parent, always a higher number than its own; QUARTO_YAML_NONE for the root and in a call on one scalar
 *     13     1 if its span was measured, 0 if it was assumed; 1 for every collection and alias
 *
 * A scalar's span starts at its marker, that of a missing value behind the `:` that the marker is on: always at a character of the text
 * or at its end, whatever the event says, since an index past the text stands for the end.
 * It is measured if it was found in the text; a block's always is. That of a plain scalar whose value cannot be followed through the
 * text, and of a quoted one without both its marks, is assumed: as long as the value, cut to the text left.
 *
 * The children of a hash are its keys and values in turn; every pair is kept, equal keys too. An alias is a null of span length 0. A
 * scalar whose pieces cannot be found has no list. One with an empty value has a list of no pieces, if its walk can start: a quoted
 * one's starts a byte after the span does, so it has no list where that is past the text or inside a character.
 *
 * PIECES. Four `uint32_t` each: 1 verbatim or 2 replacement, first byte in the text, the byte after the last, and the length in bytes
 * of the content that they stand for; of a verbatim piece the bytes are the content. Piece n, from 0, starts at `pieces[4 * n]`. A
 * scalar's pieces in order stand for its value from the front. Of an escape the content is as long as what it names and is not
 * compared with the value, so the last content can reach past the value; and an escape that the text's end cuts off still claims its
 * whole length, so a piece can end up to 4 bytes past the text: compare with the text's length before you use an end.
 *
 * A span can end early or late, an assumed one even inside a character, a tag's span can lie in the content, pieces can reach past
 * the span: which files do this, and what one would expect there, is in docs/DIFFERENCES.md, "What an entry can get wrong".
 */
#ifndef QUARTO_YAML_H
#define QUARTO_YAML_H

#include <stdbool.h>
#include <stddef.h>
#include <stdint.h>

#ifdef __cplusplus
extern "C" {
#endif

/* No record, no count, no tag, no list, no parent. */
#define QUARTO_YAML_NONE 0xFFFFFFFFu

/* How many uint32_t a record and a piece have. */
#define QUARTO_YAML_RECORD_WIDTH 14
#define QUARTO_YAML_PIECE_WIDTH 4

/* The largest text, or value of a call on one scalar, and the largest event bytes, in bytes; open collections; pieces in all; markers of
 * `quarto_yaml_cursor_travel`. */
#define QUARTO_YAML_TEXT_LIMIT 1048576
#define QUARTO_YAML_EVENTS_LIMIT 4194304
#define QUARTO_YAML_DEPTH_LIMIT 64
#define QUARTO_YAML_PIECE_LIMIT 4294967294u
#define QUARTO_YAML_MARKERS_LIMIT 1048576

/* What a call answers, and the place that comes with it: of 3 to 8 the number of the event, from 0. Sizes and UTF-8 come first, then
 * the events in order, each tested from 3 upward. There is no other number. */
enum {
    QUARTO_YAML_OK = 0,
    QUARTO_YAML_TOO_LONG = 1,        /* text, value, events or markers above their limit. Place 0 */
    QUARTO_YAML_NOT_UTF8 = 2,        /* the text or the value. Place 0 */
    QUARTO_YAML_MALFORMED = 3,       /* unknown event or style, flag above 1, cut off, body short or overlong, not UTF-8 */
    QUARTO_YAML_MISMATCHED = 4,      /* an end that does not match the innermost open collection, or a key without value */
    QUARTO_YAML_AFTER_ROOT = 5,      /* a start, scalar or alias after the root */
    QUARTO_YAML_TOO_DEEP = 6,        /* a 65th open collection */
    QUARTO_YAML_NO_RECORD_ROOM = 7,  /* more nodes than whole records fit in the buffer */
    QUARTO_YAML_NO_PIECE_ROOM = 8,   /* more pieces than fit in the buffer, or than QUARTO_YAML_PIECE_LIMIT */
    QUARTO_YAML_UNFINISHED = 9       /* ended with no root or one still open. Place: how many events there were */
};

/* Which event. */
enum {
    QUARTO_YAML_EVENT_SEQUENCE_START = 1,
    QUARTO_YAML_EVENT_SEQUENCE_END = 2,
    QUARTO_YAML_EVENT_MAPPING_START = 3,
    QUARTO_YAML_EVENT_MAPPING_END = 4,
    QUARTO_YAML_EVENT_SCALAR = 5,
    QUARTO_YAML_EVENT_ALIAS = 6
};

/* How a scalar is written. */
enum {
    QUARTO_YAML_STYLE_PLAIN = 0,
    QUARTO_YAML_STYLE_SINGLE_QUOTED = 1,
    QUARTO_YAML_STYLE_DOUBLE_QUOTED = 2,
    QUARTO_YAML_STYLE_LITERAL = 3,
    QUARTO_YAML_STYLE_FOLDED = 4
};

/* What a node is. A bad value is one that does not fit its standard tag, as `!!int x`. */
enum {
    QUARTO_YAML_KIND_NULL = 1,
    QUARTO_YAML_KIND_BOOLEAN = 2,
    QUARTO_YAML_KIND_INTEGER = 3,
    QUARTO_YAML_KIND_REAL = 4,
    QUARTO_YAML_KIND_STRING = 5,
    QUARTO_YAML_KIND_BAD_VALUE = 6,
    QUARTO_YAML_KIND_ARRAY = 7,
    QUARTO_YAML_KIND_HASH = 8
};

/* What a piece is. */
enum { QUARTO_YAML_PIECE_VERBATIM = 1, QUARTO_YAML_PIECE_REPLACEMENT = 2 };

/* The places of a record's numbers. */
enum {
    QUARTO_YAML_AT_KIND = 0,
    QUARTO_YAML_AT_START = 1,
    QUARTO_YAML_AT_END = 2,
    QUARTO_YAML_AT_TAG_START = 3,
    QUARTO_YAML_AT_TAG_END = 4,
    QUARTO_YAML_AT_SUFFIX = 5,
    QUARTO_YAML_AT_SUFFIX_LEN = 6,
    QUARTO_YAML_AT_SUBTREE = 7,
    QUARTO_YAML_AT_FIRST_PIECE = 8,
    QUARTO_YAML_AT_PIECE_COUNT = 9,
    QUARTO_YAML_AT_PAYLOAD = 10,
    QUARTO_YAML_AT_PARENT = 12,
    QUARTO_YAML_AT_MEASURED = 13
};

/* ---- building */

/* code 0: what the call says of `first` and `second`. Otherwise a number of the table, its place, and 0. */
typedef struct {
    uint32_t code, first, second;
} quarto_yaml_answer;

/* The answer, and the scalar's record; all fourteen numbers 0 if it is refused. */
typedef struct {
    quarto_yaml_answer answer;
    uint32_t record[QUARTO_YAML_RECORD_WIDTH];
} quarto_yaml_scalar_answer;

/*
 * A whole document. Answers 0, how many records and how many pieces; they stand at the front of the buffers, and all numbers
 * past them are 0. Otherwise 1 to 9, its place, 0, and both buffers are 0. What the buffers held before does not matter.
 *
 * An event has at least 7 bytes, so `events_len / 7` records (fourteen numbers each) are always enough. As a rule a piece for each
 * byte of the text and one for each scalar are; where they are not, 8 says so.
 */
quarto_yaml_answer quarto_yaml_build(const uint8_t *text, size_t text_len, const uint8_t *events, size_t events_len,
                                     uint32_t *records, size_t records_len, uint32_t *pieces, size_t pieces_len);

/*
 * One scalar with no tag, as its event would give it. Answers 0, 1 (the nodes), and how many pieces; the record comes back by value, the
 * pieces stand as `quarto_yaml_build` leaves them. Otherwise 1, 2, 3 (the style) or 8, 0, 0, and the record and the pieces are 0.
 */
quarto_yaml_scalar_answer quarto_yaml_scalar(const uint8_t *text, size_t text_len, uint32_t index, uint32_t column, uint8_t style,
                                             bool empty_span, const uint8_t *value, size_t value_len, uint32_t *pieces,
                                             size_t pieces_len);

/*
 * The bytes of the character at a marker index, where a parser reports an error. Answers 0, first byte, the byte after the last (both
 * the text's length at or past its end). Otherwise 1 or 2, 0, 0.
 */
quarto_yaml_answer quarto_yaml_scan_error(const uint8_t *text, size_t text_len, uint32_t index);

/* ---- how far the cursor goes */

/* code 0 and what the call counts; otherwise a number of the table, and 0. */
typedef struct {
    uint32_t code;
    uint64_t count;
} quarto_yaml_count;

/*
 * How far the cursor travels: the character steps from one marker to the next, the part of a document's cost that its markers decide. An
 * index past the text stands for the text's end. The cursor starts at the text's start and goes straight from each index to the next,
 * forward or back, a character a step; a text that is ASCII needs no cursor, and no step. Answers 0 and the steps, at most 2^40; with
 * markers that never go back at most the text's characters. Otherwise 1 (the text, or more than QUARTO_YAML_MARKERS_LIMIT markers) or
 * 2, and 0.
 *
 * The markers of a document are the marker indices of all its events in order, starts and ends too: `quarto_yaml_build` takes its cursor
 * to each, and passes over characters in chunks where it can. So the steps are an upper bound on its work. Today a step back takes 1 to 3
 * ns, one forward as much, and a tenth of that on a long way, which is gone by 32 bytes at a time (docs/PERFORMANCE.md): a million steps
 * take 3 ms at most, and the most that events can bring, 6 * 10^11, some ten minutes. For this call no cursor goes from marker to marker:
 * its time is that of a look at each byte and each marker, however high the count.
 */
quarto_yaml_count quarto_yaml_cursor_travel(const uint8_t *text, size_t text_len, const uint32_t *markers, size_t markers_len);

/*
 * ---- reading
 *
 * `records` is a buffer that `quarto_yaml_build` filled, or any other: nothing is assumed of it. `n`, `c` are record numbers. A record
 * exists if it lies whole in the buffer and its kind is 1 to 8. Where a record, child or pair on the way does not exist the answer is
 * none: QUARTO_YAML_NONE, or a struct whose `present` is 0, and its other fields too. Nothing is written.
 *
 * Children are found from the last to the first: the one before c is the record c less c's subtree count. A count of 0 that is met on
 * the way answers none; that of the record at the way's end, and of the collection itself, is not looked at. (From a pair's value one
 * more step leads to its key.) A wrong count is followed, to any record that exists: no call notices.
 */

/* The record of the root, where `nodes` records were built: the record before number `nodes`. */
uint32_t quarto_yaml_root(const uint32_t *records, size_t records_len, uint32_t nodes);

/* 1 or 0, or none: neither array nor hash; an array; a hash; a node with no children. */
uint32_t quarto_yaml_is_scalar(const uint32_t *records, size_t records_len, uint32_t n);
uint32_t quarto_yaml_is_array(const uint32_t *records, size_t records_len, uint32_t n);
uint32_t quarto_yaml_is_hash(const uint32_t *records, size_t records_len, uint32_t n);
uint32_t quarto_yaml_is_empty(const uint32_t *records, size_t records_len, uint32_t n);

/* The items of an array, the pairs of a hash, 0 for a scalar, as the record says. (A record that was not built here may say
 * 0xFFFFFFFF, which looks like none; `quarto_yaml_is_array` and `quarto_yaml_is_hash` tell them apart.) */
uint32_t quarto_yaml_len(const uint32_t *records, size_t records_len, uint32_t n);

/* The last child of a collection, the value of the last pair for a hash. */
uint32_t quarto_yaml_last_child(const uint32_t *records, size_t records_len, uint32_t n);

/* The child before `c`. The first child has none before it, but this call cannot know: count with `quarto_yaml_len`. One step. */
uint32_t quarto_yaml_child_before(const uint32_t *records, size_t records_len, uint32_t c);

/* Item `i` of the array `n`, from 0. As many steps as it is away from the last. */
uint32_t quarto_yaml_get_array_item(const uint32_t *records, size_t records_len, uint32_t n, uint32_t i);

/* The value of the first pair of the hash `n` whose key is a string with the bytes `key`. `events` are those of the build. */
uint32_t quarto_yaml_get_hash_value(const uint32_t *records, size_t records_len, const uint8_t *events, size_t events_len, uint32_t n,
                                    const uint8_t *key, size_t key_len);

/* The records of a pair's key and value, the span of each, and the span from the key's start to the value's end. */
typedef struct {
    uint32_t present, key, value, key_start, key_end, value_start, value_end, entry_start, entry_end;
} quarto_yaml_entry;

/* Pair `i` of the hash `n`, from 0. As many steps as it is away from the last. */
quarto_yaml_entry quarto_yaml_hash_entry(const uint32_t *records, size_t records_len, uint32_t n, uint32_t i);

/* The collection that `n` is a child of: for a key as for a value, the hash. None for the root. (A record that was not built here may
 * hold any number there, which is told as it is: that record need not exist, and going up need not end. It ends on any buffer if you
 * stop at a number that is not higher.) */
uint32_t quarto_yaml_parent(const uint32_t *records, size_t records_len, uint32_t n);

/* Bytes of the text, `end` not counted in. */
typedef struct {
    uint32_t present, start, end;
} quarto_yaml_span;

/* The bytes of the text that a node spans. */
quarto_yaml_span quarto_yaml_source_info(const uint32_t *records, size_t records_len, uint32_t n);

/* 1 if that span was measured, 0 if it was assumed. (A record that was not built here may hold any number there, and 0xFFFFFFFF looks
 * like none.) */
uint32_t quarto_yaml_is_measured(const uint32_t *records, size_t records_len, uint32_t n);

/* A tag's span in the text, and the place and length of its suffix in the events. */
typedef struct {
    uint32_t present, start, end, suffix, len;
} quarto_yaml_tag_info;

/* The tag of a node; none also where it has no tag. */
quarto_yaml_tag_info quarto_yaml_tag(const uint32_t *records, size_t records_len, uint32_t n);

/* The number of a scalar's first piece, and how many it has. */
typedef struct {
    uint32_t present, first, count;
} quarto_yaml_piece_list;

/* The pieces of a scalar; none also where it has no list, and for a collection. */
quarto_yaml_piece_list quarto_yaml_content_source_info(const uint32_t *records, size_t records_len, uint32_t n);

#ifdef __cplusplus
}
#endif

#endif
