/* Every exported call against known numbers: the worked cases K1 to K12 of the scope document, the worked records of
 * crates/node/specs/Examples.antt, each row of the table, what docs/DIFFERENCES.md says that an entry can get wrong and which spans are
 * measured, where scalars start, parents beside children, how far the cursor travels, and the layout of every struct. Lent buffers hold
 * another number beforehand and have guards on both sides. Exit code 0 if all is as expected. */
#include "quarto_yaml.h"
#include <stdio.h>
#include <stdlib.h>
#include <string.h>

/* ---- layout: the fields in their order, each four bytes, nothing between them; a count has eight, from byte 8 */

#define FIELD(type, field, place) _Static_assert(offsetof(type, field) == 4 * (place), #type "." #field)
#define SIZE(type, numbers) _Static_assert(sizeof(type) == 4 * (numbers), #type)

SIZE(quarto_yaml_answer, 3);
FIELD(quarto_yaml_answer, code, 0);
FIELD(quarto_yaml_answer, first, 1);
FIELD(quarto_yaml_answer, second, 2);
SIZE(quarto_yaml_scalar_answer, 17);
FIELD(quarto_yaml_scalar_answer, answer, 0);
FIELD(quarto_yaml_scalar_answer, record, 3);
SIZE(quarto_yaml_entry, 9);
FIELD(quarto_yaml_entry, present, 0);
FIELD(quarto_yaml_entry, key, 1);
FIELD(quarto_yaml_entry, value, 2);
FIELD(quarto_yaml_entry, key_start, 3);
FIELD(quarto_yaml_entry, key_end, 4);
FIELD(quarto_yaml_entry, value_start, 5);
FIELD(quarto_yaml_entry, value_end, 6);
FIELD(quarto_yaml_entry, entry_start, 7);
FIELD(quarto_yaml_entry, entry_end, 8);
SIZE(quarto_yaml_span, 3);
FIELD(quarto_yaml_span, present, 0);
FIELD(quarto_yaml_span, start, 1);
FIELD(quarto_yaml_span, end, 2);
SIZE(quarto_yaml_tag_info, 5);
FIELD(quarto_yaml_tag_info, present, 0);
FIELD(quarto_yaml_tag_info, start, 1);
FIELD(quarto_yaml_tag_info, end, 2);
FIELD(quarto_yaml_tag_info, suffix, 3);
FIELD(quarto_yaml_tag_info, len, 4);
SIZE(quarto_yaml_piece_list, 3);
FIELD(quarto_yaml_piece_list, present, 0);
FIELD(quarto_yaml_piece_list, first, 1);
FIELD(quarto_yaml_piece_list, count, 2);
SIZE(quarto_yaml_count, 4);
FIELD(quarto_yaml_count, code, 0);
FIELD(quarto_yaml_count, count, 2);

/* ---- the means */

#define NONE QUARTO_YAML_NONE
#define BYTES(s) (const uint8_t *)(s), sizeof(s) - 1
#define NUMBERS(...) (const uint32_t[]){__VA_ARGS__}, sizeof((const uint32_t[]){__VA_ARGS__}) / sizeof(uint32_t)
#define CHECK(held) check((held), #held, __LINE__)

static int checked, failed;

static void check(bool held, const char *what, int line) {
    checked++;
    if (!held) {
        failed++;
        printf("interface.c:%d: not so: %s\n", line, what);
    }
}

/* A lent buffer with its guards. */
enum { GUARD = 4, ROOM = 1024 };
#define BEFORE 0xA5A5A5A5u

typedef struct {
    uint32_t numbers[GUARD + ROOM + GUARD];
    size_t len;
} lent;

static uint32_t *lend(lent *b, size_t len) {
    for (size_t i = 0; i < GUARD + ROOM + GUARD; i++)
        b->numbers[i] = BEFORE;
    b->len = len;
    return b->numbers + GUARD;
}

/* These numbers, then zeros, and nothing outside is written. */
static bool holds(const lent *b, const uint32_t *expected, size_t count) {
    for (size_t i = 0; i < GUARD + ROOM + GUARD; i++) {
        bool inside = i >= GUARD && i < GUARD + b->len;
        uint32_t number = !inside ? BEFORE : i - GUARD < count ? expected[i - GUARD] : 0;
        if (b->numbers[i] != number)
            return false;
    }
    return count <= b->len;
}

static bool is_zero(const lent *b) { return holds(b, NULL, 0); }

static bool told(quarto_yaml_answer a, uint32_t code, uint32_t first, uint32_t second) {
    return a.code == code && a.first == first && a.second == second;
}

static lent records, pieces;

static quarto_yaml_answer build(const uint8_t *text, size_t text_len, const uint8_t *events, size_t events_len, size_t record_room,
                                size_t piece_room) {
    uint32_t *r = lend(&records, record_room), *p = lend(&pieces, piece_room);
    return quarto_yaml_build(text, text_len, events, events_len, r, record_room, p, piece_room);
}

/* A row of the table, and that a refused call leaves nothing but zeros. */
static bool refused(quarto_yaml_answer a, uint32_t number, uint32_t place) {
    return told(a, number, place, 0) && is_zero(&records) && is_zero(&pieces);
}

/* ---- quarto_yaml_scalar */

static quarto_yaml_scalar_answer scalar_answer;

static bool scalar(const uint8_t *text, size_t text_len, uint32_t index, uint32_t column, uint8_t style, bool empty_span,
                   const uint8_t *value, size_t value_len, uint32_t code, uint32_t nodes, uint32_t kept) {
    uint32_t *p = lend(&pieces, 41);
    scalar_answer = quarto_yaml_scalar(text, text_len, index, column, style, empty_span, value, value_len, p, 41);
    return told(scalar_answer.answer, code, nodes, kept);
}

static bool record_is(const uint32_t *expected, size_t count) {
    return count == QUARTO_YAML_RECORD_WIDTH && memcmp(scalar_answer.record, expected, sizeof scalar_answer.record) == 0;
}

/* The accessors on the record of the last scalar: no parent, and whether its span was measured. */
static bool says_measured(uint32_t measured) {
    return quarto_yaml_parent(scalar_answer.record, QUARTO_YAML_RECORD_WIDTH, 0) == NONE
           && quarto_yaml_is_measured(scalar_answer.record, QUARTO_YAML_RECORD_WIDTH, 0) == measured;
}

/* Of a value that is its own text: kind and payload. */
static bool resolves(const char *value, uint32_t kind, uint32_t first, uint32_t second) {
    const uint8_t *v = (const uint8_t *)value;
    size_t n = strlen(value);
    return scalar(v, n, 0, 0, QUARTO_YAML_STYLE_PLAIN, false, v, n, 0, 1, 1) && scalar_answer.record[QUARTO_YAML_AT_KIND] == kind
           && scalar_answer.record[QUARTO_YAML_AT_PAYLOAD] == first && scalar_answer.record[QUARTO_YAML_AT_PAYLOAD + 1] == second
           && scalar_answer.record[QUARTO_YAML_AT_PARENT] == NONE && scalar_answer.record[QUARTO_YAML_AT_MEASURED] == 1
           && holds(&pieces, NUMBERS(1, 0, (uint32_t)n, (uint32_t)n));
}

static void scalars(void) {
    CHECK(resolves("9223372036854775807", QUARTO_YAML_KIND_INTEGER, 0x7FFFFFFF, 0xFFFFFFFF)); /* K2 */
    CHECK(resolves("9223372036854775808", QUARTO_YAML_KIND_REAL, 0, 19));                     /* K3 */
    CHECK(resolves("-9223372036854775808", QUARTO_YAML_KIND_INTEGER, 0x80000000, 0));         /* K4 */
    CHECK(resolves("0xFFFFFFFFFFFFFFFF", QUARTO_YAML_KIND_STRING, 0, 18));                    /* K5 */
    CHECK(resolves("+.nan", QUARTO_YAML_KIND_STRING, 0, 5));                                  /* K6 */
    CHECK(resolves("+.inf", QUARTO_YAML_KIND_REAL, 0, 5));
    CHECK(resolves("0o17", QUARTO_YAML_KIND_INTEGER, 0, 15));
    CHECK(resolves("-1", QUARTO_YAML_KIND_INTEGER, 0xFFFFFFFF, 0xFFFFFFFF));
    CHECK(resolves("true", QUARTO_YAML_KIND_BOOLEAN, 1, 0));
    CHECK(resolves("~", QUARTO_YAML_KIND_NULL, 0, 0));

    CHECK(scalar(BYTES("a \n  b"), 0, 0, QUARTO_YAML_STYLE_PLAIN, false, BYTES("a b"), 0, 1, 3)); /* K7 */
    CHECK(record_is(NUMBERS(5, 0, 6, NONE, NONE, NONE, NONE, 1, 0, 3, 0, 3, NONE, 1)));
    CHECK(holds(&pieces, NUMBERS(1, 0, 1, 1, 2, 1, 5, 1, 1, 5, 6, 1)));
    CHECK(scalar(BYTES("a\n\n\nb"), 0, 0, QUARTO_YAML_STYLE_PLAIN, false, BYTES("a\n\nb"), 0, 1, 3)); /* K8 */
    CHECK(record_is(NUMBERS(5, 0, 4, NONE, NONE, NONE, NONE, 1, 0, 3, 0, 4, NONE, 0)));
    CHECK(holds(&pieces, NUMBERS(1, 0, 1, 1, 2, 1, 4, 2, 1, 4, 5, 1)));
    CHECK(scalar(BYTES("'it''s'"), 0, 0, QUARTO_YAML_STYLE_SINGLE_QUOTED, false, BYTES("it's"), 0, 1, 3)); /* K9 */
    CHECK(record_is(NUMBERS(5, 0, 7, NONE, NONE, NONE, NONE, 1, 0, 3, 0, 4, NONE, 1)));
    CHECK(holds(&pieces, NUMBERS(1, 1, 3, 2, 2, 3, 5, 1, 1, 5, 6, 1)));
    CHECK(scalar(BYTES("\"\\u20AC\""), 0, 0, QUARTO_YAML_STYLE_DOUBLE_QUOTED, false, BYTES("A"), 0, 1, 1)); /* K10 */
    CHECK(record_is(NUMBERS(5, 0, 8, NONE, NONE, NONE, NONE, 1, 0, 1, 0, 1, NONE, 1)));
    CHECK(holds(&pieces, NUMBERS(2, 1, 7, 3)));
    CHECK(scalar(BYTES("a: |\n  b"), 7, 2, QUARTO_YAML_STYLE_LITERAL, false, BYTES("b\n"), 0, 1, 2)); /* K11 */
    CHECK(record_is(NUMBERS(5, 7, 8, NONE, NONE, NONE, NONE, 1, 0, 2, 0, 2, NONE, 1)));
    CHECK(holds(&pieces, NUMBERS(1, 7, 8, 1, 2, 8, 8, 1)));
    CHECK(scalar(BYTES("a: |\n  b"), 7, 2, QUARTO_YAML_STYLE_FOLDED, true, BYTES("b\n"), 0, 1, 2)); /* an empty span */
    CHECK(record_is(NUMBERS(5, 7, 7, NONE, NONE, NONE, NONE, 1, 0, 2, 0, 2, NONE, 1)));

    /* an empty value: a list of no pieces, from the next free entry; none where a quoted one's walk would start past the text or
     * inside a character. One node all the same */
    CHECK(scalar(BYTES(""), 0, 0, QUARTO_YAML_STYLE_PLAIN, false, BYTES(""), 0, 1, 0) && is_zero(&pieces));
    CHECK(record_is(NUMBERS(1, 0, 0, NONE, NONE, NONE, NONE, 1, 0, 0, 0, 0, NONE, 1)));
    CHECK(scalar(BYTES("''"), 0, 0, QUARTO_YAML_STYLE_SINGLE_QUOTED, false, BYTES(""), 0, 1, 0) && is_zero(&pieces));
    CHECK(record_is(NUMBERS(5, 0, 2, NONE, NONE, NONE, NONE, 1, 0, 0, 0, 0, NONE, 1)));
    CHECK(scalar(BYTES(""), 0, 0, QUARTO_YAML_STYLE_DOUBLE_QUOTED, false, BYTES(""), 0, 1, 0) && is_zero(&pieces));
    CHECK(record_is(NUMBERS(5, 0, 0, NONE, NONE, NONE, NONE, 1, NONE, 0, 0, 0, NONE, 0)));
    CHECK(scalar(BYTES("\xC3\xA9"), 0, 0, QUARTO_YAML_STYLE_SINGLE_QUOTED, false, BYTES(""), 0, 1, 0) && is_zero(&pieces));
    CHECK(record_is(NUMBERS(5, 0, 0, NONE, NONE, NONE, NONE, 1, NONE, 0, 0, 0, NONE, 0)));
    CHECK(scalar(BYTES("\xC3\xA9"), 1, 1, QUARTO_YAML_STYLE_LITERAL, false, BYTES(""), 0, 1, 0) && is_zero(&pieces));
    CHECK(record_is(NUMBERS(5, 2, 2, NONE, NONE, NONE, NONE, 1, 0, 0, 0, 0, NONE, 1)));

    CHECK(scalar(BYTES("a"), 0, 0, 5, false, BYTES("a"), QUARTO_YAML_MALFORMED, 0, 0) && is_zero(&pieces));
    CHECK(record_is(NUMBERS(0, 0, 0, 0, 0, 0, 0, 0, 0, 0, 0, 0, 0, 0)));
    CHECK(scalar(BYTES("a"), 0, 0, 0, false, BYTES("\xFF"), QUARTO_YAML_NOT_UTF8, 0, 0) && is_zero(&pieces));
    CHECK(record_is(NUMBERS(0, 0, 0, 0, 0, 0, 0, 0, 0, 0, 0, 0, 0, 0)) && says_measured(NONE)); /* a record that does not exist */
    scalar_answer = quarto_yaml_scalar(BYTES("a"), 0, 0, 0, false, BYTES("a"), lend(&pieces, 3), 3);
    CHECK(told(scalar_answer.answer, QUARTO_YAML_NO_PIECE_ROOM, 0, 0) && is_zero(&pieces));
    CHECK(record_is(NUMBERS(0, 0, 0, 0, 0, 0, 0, 0, 0, 0, 0, 0, 0, 0)));
}

/* ---- what an entry can get wrong (docs/DIFFERENCES.md), without a tag */

enum { ASSUMED = 0, MEASURED = 1 };

/* The span of the last scalar, whether it was measured, and its pieces; no list where there are no numbers. */
static bool entry_is(uint32_t start, uint32_t end, uint32_t measured, const uint32_t *list, size_t count) {
    const uint32_t *r = scalar_answer.record;
    bool listed = r[QUARTO_YAML_AT_FIRST_PIECE] == (count == 0 ? NONE : 0) && r[QUARTO_YAML_AT_PIECE_COUNT] == count / 4;
    return r[QUARTO_YAML_AT_START] == start && r[QUARTO_YAML_AT_END] == end && says_measured(measured) && listed
           && holds(&pieces, list, count);
}

static void wrong_entries(void) {
    enum { PLAIN = QUARTO_YAML_STYLE_PLAIN, LITERAL = QUARTO_YAML_STYLE_LITERAL };
    /* a plain span from the value's length: two blank lines inside; U+00A0 first on a line, with the span's end inside it */
    CHECK(scalar(BYTES("a\n\n\nb"), 0, 0, PLAIN, false, BYTES("a\n\nb"), 0, 1, 3));
    CHECK(entry_is(0, 4, ASSUMED, NUMBERS(1, 0, 1, 1, 2, 1, 4, 2, 1, 4, 5, 1)));
    CHECK(scalar(BYTES("a\n \xC2\xA0"), 0, 0, PLAIN, false, BYTES("a \xC2\xA0"), 0, 1, 3));
    CHECK(entry_is(0, 4, ASSUMED, NUMBERS(1, 0, 1, 1, 2, 1, 3, 1, 1, 3, 5, 2)));
    /* pieces past the span: a block's last newline; the next line's indentation */
    CHECK(scalar(BYTES("|\n x\n"), 3, 1, LITERAL, false, BYTES("x\n"), 0, 1, 1) && entry_is(3, 4, MEASURED, NUMBERS(1, 3, 5, 2)));
    CHECK(scalar(BYTES("- - |\n   x\n  -"), 9, 3, LITERAL, false, BYTES("x\n"), 0, 1, 2));
    CHECK(entry_is(9, 10, MEASURED, NUMBERS(1, 9, 10, 1, 2, 10, 13, 1)));
    /* no list: a blank line that is wider than the indentation; an empty line before the content */
    CHECK(scalar(BYTES("|\n a\n   \n"), 3, 1, LITERAL, false, BYTES("a\n  \n"), 0, 1, 0) && entry_is(3, 4, MEASURED, NULL, 0));
    CHECK(scalar(BYTES("|\n\n a"), 4, 1, LITERAL, false, BYTES("\na"), 0, 1, 0) && entry_is(4, 5, MEASURED, NULL, 0));
    /* a carriage return without a newline: no list, the span too short, or over the next item */
    CHECK(scalar(BYTES("a\r b"), 0, 0, PLAIN, false, BYTES("a b"), 0, 1, 0) && entry_is(0, 3, ASSUMED, NULL, 0));
    CHECK(scalar(BYTES("- |\r a\r- b"), 5, 1, LITERAL, false, BYTES("a\n"), 0, 1, 0) && entry_is(5, 10, MEASURED, NULL, 0));
}

/* Measured or assumed, with a list or without: the simplest input, and those of docs/DIFFERENCES.md. */
static void measured_and_assumed(void) {
    enum { PLAIN = QUARTO_YAML_STYLE_PLAIN, DOUBLE = QUARTO_YAML_STYLE_DOUBLE_QUOTED };
    CHECK(scalar(BYTES("a"), 0, 0, PLAIN, false, BYTES("a"), 0, 1, 1) && entry_is(0, 1, MEASURED, NUMBERS(1, 0, 1, 1)));
    CHECK(scalar(BYTES("a\n b"), 0, 0, PLAIN, false, BYTES("a b"), 0, 1, 3));
    CHECK(entry_is(0, 4, MEASURED, NUMBERS(1, 0, 1, 1, 2, 1, 3, 1, 1, 3, 4, 1)));
    CHECK(scalar(BYTES("a\n"), 0, 0, PLAIN, false, BYTES("a "), 0, 1, 2) && entry_is(0, 1, MEASURED, NUMBERS(1, 0, 1, 1, 2, 1, 2, 1)));
    CHECK(scalar(BYTES("\t\n"), 0, 0, PLAIN, false, BYTES("\t"), 0, 1, 0) && entry_is(0, 1, MEASURED, NULL, 0));
    CHECK(scalar(BYTES("a\n\xC2\xA0" "b"), 0, 0, PLAIN, false, BYTES("a b"), 0, 1, 0) && entry_is(0, 5, MEASURED, NULL, 0));
    CHECK(scalar(BYTES("a: x\n\n\ny"), 3, 3, PLAIN, false, BYTES("x\n\ny"), 0, 1, 3));
    CHECK(entry_is(3, 7, ASSUMED, NUMBERS(1, 3, 4, 1, 2, 4, 7, 2, 1, 7, 8, 1)));
    CHECK(scalar(BYTES("a\n\xC2\xA0"), 0, 0, PLAIN, false, BYTES("a \xC2\xA0"), 0, 1, 3));
    CHECK(entry_is(0, 4, ASSUMED, NUMBERS(1, 0, 1, 1, 2, 1, 2, 1, 1, 2, 4, 2)));
    CHECK(scalar(BYTES("a"), 0, 0, PLAIN, false, BYTES("b"), 0, 1, 0) && entry_is(0, 1, ASSUMED, NULL, 0));
    CHECK(scalar(BYTES("\"a"), 0, 0, DOUBLE, false, BYTES("a"), 0, 1, 1) && entry_is(0, 1, ASSUMED, NUMBERS(1, 1, 2, 1)));
    CHECK(scalar(BYTES("\"\\e\""), 0, 0, DOUBLE, false, BYTES("\x1B"), 0, 1, 0) && entry_is(0, 4, MEASURED, NULL, 0));
}

/* ---- quarto_yaml_build: its events, each row of the table */

#define MAP_START(at) "\3\0\5\0\0\0" at "\0"
#define MAP_END(at) "\4\0\4\0\0\0" at
#define SEQ_START(at) "\1\0\5\0\0\0" at "\0"
#define SEQ_END(at) "\2\0\4\0\0\0" at
#define ALIAS(at) "\6\0\4\0\0\0" at
#define SCALAR1(at, value) "\5\0\14\0\0\0" at "\0\0\0\0\0\0\0" value /* plain, no tag, one byte */

/* a tag `!t` on a scalar of one byte: the handle `!`, the suffix `t` */
#define STYLED(at, column, style, value) "\5\0\22\0\0\0" at "\0\0\0" column style "\0\1\0\1!\0\1t" value
#define TAGGED(at, value) STYLED(at, "\0", "\0", value)

static bool tag_is(uint32_t n, uint32_t start, uint32_t end) {
    quarto_yaml_tag_info tag = quarto_yaml_tag(records.numbers + GUARD, records.len, n);
    return tag.present == 1 && tag.start == start && tag.end == end;
}

/* What an entry can get wrong (docs/DIFFERENCES.md): a tag that is not found, its span guessed where the content stands. */
static void wrong_tags(void) {
    CHECK(told(build(BYTES("!t |\n x"), BYTES(STYLED("\6", "\1", "\3", "x")), 14, 4), 0, 1, 1) && tag_is(0, 6, 7));
    CHECK(told(build(BYTES("!t #\nx"), BYTES(TAGGED("\5", "x")), 14, 4), 0, 1, 1) && tag_is(0, 5, 6));
    CHECK(told(build(BYTES("!t # !\nx"), BYTES(TAGGED("\7", "x")), 14, 4), 0, 1, 1) && tag_is(0, 5, 6));
    CHECK(told(build(BYTES("!t x"), BYTES(TAGGED("\3", "x")), 14, 4), 0, 1, 1) && tag_is(0, 0, 2));
}

static void documents(void) {
    CHECK(told(build(BYTES("k: *a"), BYTES(MAP_START("\0") SCALAR1("\0", "k") ALIAS("\3") MAP_END("\5")), 50, 9), 0, 3, 1));
    CHECK(holds(&records, NUMBERS(5, 0, 1, NONE, NONE, NONE, NONE, 1, 0, 1, 22, 1, 2, 1,            /* `k`, byte 22 of the events */
                                  1, 3, 3, NONE, NONE, NONE, NONE, 1, NONE, 0, 0, 0, 2, 1,          /* the alias */
                                  8, 0, 5, NONE, NONE, NONE, NONE, 3, NONE, 0, 1, 0, NONE, 1)));    /* the hash, one pair */
    CHECK(holds(&pieces, NUMBERS(1, 0, 1, 1)));

    /* K12: tag `!t` of the second item */
    CHECK(told(build(BYTES("[a,!t b]"), BYTES(SEQ_START("\0") SCALAR1("\1", "a") TAGGED("\6", "b") SEQ_END("\7")), 42, 8), 0, 3, 2));
    CHECK(holds(&records, NUMBERS(5, 1, 2, NONE, NONE, NONE, NONE, 1, 0, 1, 22, 1, 2, 1,
                                  5, 6, 7, 6, 8, 42, 1, 1, 1, 1, 43, 1, 2, 1,
                                  7, 0, 8, NONE, NONE, NONE, NONE, 3, NONE, 0, 2, 0, NONE, 1)));
    quarto_yaml_tag_info tag = quarto_yaml_tag(records.numbers + GUARD, 42, 1);
    CHECK(tag.present == 1 && tag.start == 6 && tag.end == 8 && tag.suffix == 42 && tag.len == 1);
    quarto_yaml_piece_list list = quarto_yaml_content_source_info(records.numbers + GUARD, 42, 1);
    CHECK(list.present == 1 && list.first == 1 && list.count == 1);

    static uint8_t much[QUARTO_YAML_EVENTS_LIMIT + 1];
    memset(much, 'a', sizeof much);
    CHECK(refused(build(much, QUARTO_YAML_TEXT_LIMIT + 1, BYTES(ALIAS("\0")), 50, 50), QUARTO_YAML_TOO_LONG, 0));
    CHECK(told(build(much, QUARTO_YAML_TEXT_LIMIT, BYTES(ALIAS("\0")), 50, 50), 0, 1, 0));
    CHECK(refused(build(BYTES("a"), much, QUARTO_YAML_EVENTS_LIMIT + 1, 50, 50), QUARTO_YAML_TOO_LONG, 0));
    CHECK(refused(build(BYTES("a"), much, QUARTO_YAML_EVENTS_LIMIT, 50, 50), QUARTO_YAML_MALFORMED, 0));
    CHECK(refused(build(BYTES("\xC3"), BYTES(ALIAS("\0")), 50, 50), QUARTO_YAML_NOT_UTF8, 0));
    CHECK(refused(build(BYTES("[a]"), BYTES(SEQ_START("\0") SCALAR1("\1", "a") "\7"), 50, 50), QUARTO_YAML_MALFORMED, 2));
    CHECK(refused(build(BYTES("[a}"), BYTES(SEQ_START("\0") SCALAR1("\1", "a") MAP_END("\2")), 50, 50), QUARTO_YAML_MISMATCHED, 2));
    CHECK(refused(build(BYTES("a b"), BYTES(SCALAR1("\0", "a") SCALAR1("\2", "b")), 50, 50), QUARTO_YAML_AFTER_ROOT, 1));
    for (size_t i = 0; i < 65; i++)
        memcpy(much + 8 * i, SEQ_START("\0"), 8);
    CHECK(refused(build(BYTES("["), much, 8 * 65, 50, 50), QUARTO_YAML_TOO_DEEP, 64));
    CHECK(refused(build(BYTES("["), much, 8 * 64, 50, 50), QUARTO_YAML_UNFINISHED, 64));
    CHECK(refused(build(BYTES("[a]"), BYTES(SEQ_START("\0") SCALAR1("\1", "a") SEQ_END("\2")), 27, 50), QUARTO_YAML_NO_RECORD_ROOM, 2));
    CHECK(refused(build(BYTES("[a]"), BYTES(SEQ_START("\0") SCALAR1("\1", "a") SEQ_END("\2")), 28, 3), QUARTO_YAML_NO_PIECE_ROOM, 1));
    CHECK(told(build(BYTES("[a]"), BYTES(SEQ_START("\0") SCALAR1("\1", "a") SEQ_END("\2")), 28, 4), 0, 2, 1));
    CHECK(refused(build(BYTES("*a"), BYTES(ALIAS("\0")), 13, 0), QUARTO_YAML_NO_RECORD_ROOM, 0));
    CHECK(told(build(BYTES("*a"), BYTES(ALIAS("\0")), 14, 0), 0, 1, 0));
    CHECK(holds(&records, NUMBERS(1, 0, 0, NONE, NONE, NONE, NONE, 1, NONE, 0, 0, 0, NONE, 1)));
    CHECK(told(quarto_yaml_build(NULL, 0, NULL, 0, NULL, 0, NULL, 0), QUARTO_YAML_UNFINISHED, 0, 0));
    CHECK(told(quarto_yaml_build(NULL, 0, BYTES(ALIAS("\0")), NULL, 0, NULL, 0), QUARTO_YAML_NO_RECORD_ROOM, 0, 0));
}

/* ---- no scalar starts past the text or inside a character */

#define SCALAR0(at) "\5\0\13\0\0\0" at "\0\0\0\0\0\0\0" /* plain, no tag, no value */

/* Of a mapping of one pair, its key an alias and its value missing with a marker at `at`: the byte at which the value starts. */
#define VALUE_STARTS(text, at, byte)                                                                                                   \
    (told(build(BYTES(text), BYTES(MAP_START("\0") ALIAS("\0") SCALAR0(at) MAP_END("\0")), 42, 4), 0, 3, 0)                             \
     && quarto_yaml_source_info(records.numbers + GUARD, 42, 1).start == (byte))

static void starts(void) {
    /* each index of `é: a`, its end, past it, and far off: the offset of that character, and from the end on the text's length */
    static const uint32_t offsets[] = {0, 2, 3, 4, 5, 5, 5};
    for (uint32_t i = 0; i < 7; i++) {
        uint32_t index = i < 6 ? i : NONE;
        CHECK(scalar(BYTES("\xC3\xA9: a"), index, 0, QUARTO_YAML_STYLE_PLAIN, false, BYTES(""), 0, 1, 0));
        CHECK(scalar_answer.record[QUARTO_YAML_AT_START] == offsets[i] && scalar_answer.record[QUARTO_YAML_AT_END] == offsets[i]);
        CHECK(scalar_answer.record[QUARTO_YAML_AT_FIRST_PIECE] == 0);
    }
    /* a missing value steps past the colon that its marker is on, to a character or to the text's end */
    CHECK(VALUE_STARTS("a: ", "\1", 2) && VALUE_STARTS("a:\xC3\xA9", "\1", 2) && VALUE_STARTS("\xC3\xA9:", "\1", 3));
    CHECK(VALUE_STARTS("a:", "\1", 2));
    /* and past nothing else: not from the text's end, nor from another character */
    CHECK(VALUE_STARTS("a:", "\2", 2) && VALUE_STARTS("a:", "\11", 2) && VALUE_STARTS("a", "\1", 1) && VALUE_STARTS("", "\1", 0));
    CHECK(VALUE_STARTS("a\xC3\xA9", "\1", 1) && VALUE_STARTS("a\0", "\1", 1) && VALUE_STARTS("a,", "\1", 1));
}

/* ---- up from a record, and whether its span was measured */

/* In the records that were built: every record but the last is a child of the one that it calls its parent, and of no other. */
static bool up_and_down(uint32_t nodes) {
    const uint32_t *r = records.numbers + GUARD;
    uint32_t children = 0;
    for (uint32_t n = 0; n < nodes; n++) {
        uint32_t left = quarto_yaml_len(r, records.len, n) * (quarto_yaml_is_hash(r, records.len, n) == 1 ? 2 : 1);
        for (uint32_t c = quarto_yaml_last_child(r, records.len, n); left > 0; left--) {
            if (quarto_yaml_parent(r, records.len, c) != n || c >= n)
                return false;
            children++;
            c = quarto_yaml_child_before(r, records.len, c);
        }
    }
    return children == nodes - 1 && quarto_yaml_parent(r, records.len, nodes - 1) == NONE;
}

#define NESTED_TEXT "{k: [x, {y: *z}], [v]: {}}"
#define NESTED_EVENTS                                                                                                                  \
    MAP_START("\0") SCALAR1("\1", "k") SEQ_START("\4") SCALAR1("\5", "x") MAP_START("\10") SCALAR1("\11", "y") ALIAS("\14")            \
    MAP_END("\16") SEQ_END("\17") SEQ_START("\22") SCALAR1("\23", "v") SEQ_END("\24") MAP_START("\27") MAP_END("\30") MAP_END("\31")

static void parents(void) {
    CHECK(told(build(BYTES(NESTED_TEXT), BYTES(NESTED_EVENTS), 140, 16), 0, 10, 4) && up_and_down(10));
    static const uint32_t up[] = {9, 5, 4, 4, 5, 9, 7, 9, 9, NONE}; /* of `k`, `x`, `y`, `*z`, `{y: *z}`, `[x, {y: *z}]`, `v` and so on */
    const uint32_t *r = records.numbers + GUARD;
    for (uint32_t n = 0; n < 10; n++) {
        CHECK(quarto_yaml_parent(r, 140, n) == up[n] && r[14 * n + QUARTO_YAML_AT_PARENT] == up[n]);
        CHECK(quarto_yaml_is_measured(r, 140, n) == 1 && r[14 * n + QUARTO_YAML_AT_MEASURED] == 1);
    }
    CHECK(quarto_yaml_parent(r, 140, 10) == NONE && quarto_yaml_is_measured(r, 140, 10) == NONE);
    CHECK(refused(build(BYTES(NESTED_TEXT), BYTES(NESTED_EVENTS), 139, 16), QUARTO_YAML_NO_RECORD_ROOM, 14));

    static uint8_t deep[8 * 64 + 7 + 7 * 64];
    for (size_t i = 0; i < 64; i++) {
        memcpy(deep + 8 * i, SEQ_START("\0"), 8);
        memcpy(deep + 8 * 64 + 7 + 7 * i, SEQ_END("\0"), 7);
    }
    memcpy(deep + 8 * 64, ALIAS("\0"), 7);
    CHECK(told(build(BYTES(""), deep, sizeof deep, 14 * 65, 0), 0, 65, 0) && up_and_down(65));

    /* a scalar that is not its text, in an array that is measured all the same */
    CHECK(told(build(BYTES("[a]"), BYTES(SEQ_START("\0") SCALAR1("\1", "b") SEQ_END("\2")), 28, 4), 0, 2, 0));
    CHECK(holds(&records, NUMBERS(5, 1, 2, NONE, NONE, NONE, NONE, 1, NONE, 0, 22, 1, 1, 0,
                                  7, 0, 3, NONE, NONE, NONE, NONE, 2, NONE, 0, 1, 0, NONE, 1)));
    CHECK(quarto_yaml_is_measured(r, 28, 0) == 0 && quarto_yaml_is_measured(r, 28, 1) == 1);
}

static void errors(void) {
    CHECK(told(quarto_yaml_scan_error(BYTES("\xC3\xA9: a"), 3), 0, 4, 5)); /* K1 */
    CHECK(told(quarto_yaml_scan_error(BYTES("\xC3\xA9: a"), 9), 0, 5, 5));
    CHECK(told(quarto_yaml_scan_error(BYTES("\xC3\xA9: a"), 0), 0, 0, 2));
    CHECK(told(quarto_yaml_scan_error(BYTES("\xC3\xA9: a"), 0xFFFFFFFF), 0, 5, 5));
    CHECK(told(quarto_yaml_scan_error(BYTES("\xC3"), 0), QUARTO_YAML_NOT_UTF8, 0, 0));
    CHECK(told(quarto_yaml_scan_error(NULL, 0, 0), 0, 0, 0));
}

/* ---- quarto_yaml_cursor_travel */

_Static_assert(QUARTO_YAML_MARKERS_LIMIT == 1048576, "QUARTO_YAML_MARKERS_LIMIT");

/* The call on copies of text and markers (none of NULL), which it leaves as they are, and what stands before and after them. */
static bool travels(const uint8_t *text, size_t text_len, const uint32_t *markers, size_t markers_len, uint32_t code,
                    uint64_t count) {
    static uint8_t bytes[1 + QUARTO_YAML_TEXT_LIMIT + 2];
    static uint32_t numbers[1 + QUARTO_YAML_MARKERS_LIMIT + 2];
    uint8_t *t = bytes + 1;
    uint32_t *m = numbers + 1;
    memcpy(t, text == NULL ? bytes : text, text_len);
    memcpy(m, markers == NULL ? numbers : markers, markers_len * sizeof *m);
    bytes[0] = t[text_len] = 0xA5;
    numbers[0] = m[markers_len] = BEFORE;
    quarto_yaml_count a = quarto_yaml_cursor_travel(text == NULL ? NULL : t, text_len, markers == NULL ? NULL : m, markers_len);
    bool text_kept = bytes[0] == 0xA5 && t[text_len] == 0xA5 && (text == NULL || memcmp(t, text, text_len) == 0);
    bool markers_kept = numbers[0] == BEFORE && m[markers_len] == BEFORE
                        && (markers == NULL || memcmp(m, markers, markers_len * sizeof *m) == 0);
    return text_kept && markers_kept && a.code == code && a.count == count;
}

static void steps(void) {
    /* `é: a`: forward, back, where it stands; an index past the text is its end; the markers of its events */
    CHECK(travels(BYTES("\xC3\xA9: a"), NUMBERS(3), 0, 3) && travels(BYTES("\xC3\xA9: a"), NUMBERS(0, 1, 3, 4), 0, 4));
    CHECK(travels(BYTES("\xC3\xA9: a"), NUMBERS(3, 1), 0, 5) && travels(BYTES("\xC3\xA9: a"), NUMBERS(3, 3, 3), 0, 3));
    CHECK(travels(BYTES("\xC3\xA9: a"), NUMBERS(4, 0, 4, 0), 0, 16));
    CHECK(travels(BYTES("\xC3\xA9: a"), NUMBERS(9, 4, NONE), 0, 4));
    CHECK(travels(BYTES("\xC3\xA9: a"), NUMBERS(NONE, 1, 9), 0, 10));
    CHECK(travels(BYTES("\xC3\xA9: a"), NUMBERS(1, 0, 3, 4), 0, 6));
    /* characters of 2, 3 and 4 bytes, the smallest and largest among them */
    CHECK(travels(BYTES("\xC2\x80"), NUMBERS(1, 0), 0, 2) && travels(BYTES("\xEF\xBB\xBF"), NUMBERS(1, 0, 7), 0, 3));
    CHECK(travels(BYTES("\xE2\x82\xAC\xF4\x8F\xBF\xBF"), NUMBERS(2, 1, 2), 0, 4));
    /* ASCII needs no cursor; no markers, no text, and neither */
    CHECK(travels(BYTES("ab: c"), NUMBERS(5, 0, 3, NONE), 0, 0) && travels(BYTES("\x7F"), NUMBERS(1, 0), 0, 0));
    CHECK(travels(BYTES("\xC3\xA9: a"), NULL, 0, 0, 0) && travels(NULL, 0, NUMBERS(0, 5, 0, NONE), 0, 0));
    CHECK(travels(NULL, 0, NULL, 0, 0, 0));
    /* not UTF-8: a byte that goes on, a character cut off, a byte that is in none, a surrogate */
    CHECK(travels(BYTES("\x80"), NUMBERS(1, 0), QUARTO_YAML_NOT_UTF8, 0));
    CHECK(travels(BYTES("\xC3"), NULL, 0, QUARTO_YAML_NOT_UTF8, 0));
    CHECK(travels(BYTES("a\xFF"), NUMBERS(1), QUARTO_YAML_NOT_UTF8, 0));
    CHECK(travels(BYTES("\xED\xA0\x80"), NULL, 0, QUARTO_YAML_NOT_UTF8, 0));
}

/* The longest text and the most markers, and one more; sizes come before UTF-8. */
static void most_steps(void) {
    static uint8_t text[QUARTO_YAML_TEXT_LIMIT + 1];
    static uint32_t to_and_fro[QUARTO_YAML_MARKERS_LIMIT + 1];
    const size_t longest = QUARTO_YAML_TEXT_LIMIT, most = QUARTO_YAML_MARKERS_LIMIT;
    memset(text, 'a', sizeof text);
    for (size_t i = 0; i < most; i += 2)
        to_and_fro[i] = NONE;
    CHECK(travels(text, longest, to_and_fro, most, 0, 0));
    CHECK(travels(text, longest + 1, NULL, 0, QUARTO_YAML_TOO_LONG, 0));
    CHECK(travels(NULL, 0, to_and_fro, most + 1, QUARTO_YAML_TOO_LONG, 0));
    memcpy(text, "\xC3\xA9", 2);
    CHECK(travels(text, longest, to_and_fro, most, 0, UINT64_C(1048576) * 1048575));
    CHECK(travels(text, longest, to_and_fro, most + 1, QUARTO_YAML_TOO_LONG, 0));
    CHECK(travels(text, longest + 1, to_and_fro, most, QUARTO_YAML_TOO_LONG, 0));
    text[longest] = text[longest - 1] = 0xFF;
    CHECK(travels(text, longest, to_and_fro, most, QUARTO_YAML_NOT_UTF8, 0));
    CHECK(travels(text, longest, to_and_fro, most + 1, QUARTO_YAML_TOO_LONG, 0));
    CHECK(travels(text, longest + 1, to_and_fro, most, QUARTO_YAML_TOO_LONG, 0));
}

/* ---- the accessors, over the records of `k: [x, y]` and `k: z` as one hash, the span of `y` an assumed one */

#define UP(parent, measured, kind, start, end, subtree, p, q)                                                                            \
    kind, start, end, NONE, NONE, NONE, NONE, subtree, NONE, 0, p, q, parent, measured
#define ROW(kind, start, end, subtree, p, q) UP(NONE, 1, kind, start, end, subtree, p, q)
static const uint32_t rows[] = {
    UP(6, 1, 5, 0, 1, 1, 0, 1),   UP(3, 1, 5, 4, 5, 1, 1, 1),   UP(3, 0, 5, 7, 8, 1, 2, 1),  UP(6, 1, 7, 3, 9, 3, 2, 0),
    UP(6, 1, 5, 10, 11, 1, 0, 1), UP(6, 1, 5, 13, 14, 1, 3, 1), ROW(8, 0, 14, 7, 2, 0),
};
#define ROWS rows, 98

static bool no_entry(quarto_yaml_entry e) {
    static const quarto_yaml_entry zero;
    return memcmp(&e, &zero, sizeof e) == 0;
}

static void accessors(void) {
    CHECK(quarto_yaml_root(ROWS, 7) == 6 && quarto_yaml_root(ROWS, 0) == NONE && quarto_yaml_root(ROWS, 8) == NONE);
    CHECK(quarto_yaml_is_scalar(ROWS, 5) == 1 && quarto_yaml_is_scalar(ROWS, 3) == 0 && quarto_yaml_is_scalar(ROWS, 7) == NONE);
    CHECK(quarto_yaml_is_array(ROWS, 3) == 1 && quarto_yaml_is_array(ROWS, 6) == 0 && quarto_yaml_is_array(ROWS, 7) == NONE);
    CHECK(quarto_yaml_is_hash(ROWS, 6) == 1 && quarto_yaml_is_hash(ROWS, 3) == 0 && quarto_yaml_is_hash(ROWS, NONE) == NONE);
    CHECK(quarto_yaml_is_empty(ROWS, 0) == 1 && quarto_yaml_is_empty(ROWS, 3) == 0 && quarto_yaml_is_empty(ROWS, 7) == NONE);
    CHECK(quarto_yaml_is_empty(NUMBERS(ROW(7, 0, 2, 1, 0, 0)), 0) == 1 && quarto_yaml_last_child(NUMBERS(ROW(7, 0, 2, 1, 0, 0)), 0) == NONE);
    CHECK(quarto_yaml_len(ROWS, 3) == 2 && quarto_yaml_len(ROWS, 0) == 0 && quarto_yaml_len(ROWS, 7) == NONE);
    CHECK(quarto_yaml_last_child(ROWS, 6) == 5 && quarto_yaml_last_child(ROWS, 5) == NONE);
    CHECK(quarto_yaml_child_before(ROWS, 4) == 3 && quarto_yaml_child_before(ROWS, 3) == 0);
    CHECK(quarto_yaml_child_before(ROWS, 0) == NONE);
    CHECK(quarto_yaml_get_array_item(ROWS, 3, 0) == 1 && quarto_yaml_get_array_item(ROWS, 3, 1) == 2);
    CHECK(quarto_yaml_get_array_item(ROWS, 3, 2) == NONE && quarto_yaml_get_array_item(ROWS, 6, 0) == NONE);
    CHECK(quarto_yaml_get_hash_value(ROWS, BYTES("kxyz"), 6, BYTES("k")) == 3);
    CHECK(quarto_yaml_get_hash_value(ROWS, BYTES("kxyz"), 6, BYTES("x")) == NONE);
    CHECK(quarto_yaml_get_hash_value(ROWS, NULL, 0, 6, BYTES("k")) == NONE);
    CHECK(quarto_yaml_get_hash_value(ROWS, BYTES("kxyz"), 3, BYTES("k")) == NONE);

    quarto_yaml_entry first = quarto_yaml_hash_entry(ROWS, 6, 0), second = quarto_yaml_hash_entry(ROWS, 6, 1);
    CHECK(first.present == 1 && first.key == 0 && first.value == 3 && first.key_start == 0 && first.key_end == 1);
    CHECK(first.value_start == 3 && first.value_end == 9 && first.entry_start == 0 && first.entry_end == 9);
    CHECK(second.present == 1 && second.key == 4 && second.value == 5 && second.key_start == 10 && second.key_end == 11);
    CHECK(second.value_start == 13 && second.value_end == 14 && second.entry_start == 10 && second.entry_end == 14);
    CHECK(no_entry(quarto_yaml_hash_entry(ROWS, 6, 2)) && no_entry(quarto_yaml_hash_entry(ROWS, 3, 0)));

    quarto_yaml_span span = quarto_yaml_source_info(ROWS, 3), no_span = quarto_yaml_source_info(ROWS, 7);
    CHECK(span.present == 1 && span.start == 3 && span.end == 9);
    CHECK(no_span.present == 0 && no_span.start == 0 && no_span.end == 0);
    CHECK(quarto_yaml_parent(ROWS, 0) == 6 && quarto_yaml_parent(ROWS, 2) == 3 && quarto_yaml_parent(ROWS, 6) == NONE);
    CHECK(quarto_yaml_is_measured(ROWS, 1) == 1 && quarto_yaml_is_measured(ROWS, 2) == 0 && quarto_yaml_is_measured(ROWS, 6) == 1);
    quarto_yaml_tag_info no_tag = quarto_yaml_tag(ROWS, 3);
    CHECK(no_tag.present == 0 && no_tag.start == 0 && no_tag.end == 0 && no_tag.suffix == 0 && no_tag.len == 0);
    quarto_yaml_piece_list no_list = quarto_yaml_content_source_info(ROWS, 0);
    CHECK(no_list.present == 0 && no_list.first == 0 && no_list.count == 0);

    /* records that are cut off, or of kind 0 or 9; a count of 0; no buffer at all */
    CHECK(quarto_yaml_root(rows, 97, 7) == NONE && quarto_yaml_root(NULL, 0, 1) == NONE);
    CHECK(quarto_yaml_root(NUMBERS(ROW(0, 0, 0, 1, 0, 0)), 1) == NONE && quarto_yaml_root(NUMBERS(ROW(9, 0, 0, 1, 0, 0)), 1) == NONE);
    CHECK(quarto_yaml_child_before(NUMBERS(ROW(1, 0, 0, 1, 0, 0), ROW(1, 0, 0, 0, 0, 0)), 1) == NONE);
    CHECK(quarto_yaml_child_before(NUMBERS(ROW(1, 0, 0, 1, 0, 0), ROW(1, 0, 0, 2, 0, 0)), 1) == NONE);
    /* a count of 0 answers none where a step is taken from it, and is not met in what is answered, or in the collection asked: the
     * only item of an array is found, and the last of two */
    CHECK(quarto_yaml_get_array_item(NUMBERS(ROW(1, 0, 0, 0, 0, 0), ROW(7, 0, 0, 0, 1, 0)), 1, 0) == 0);
    CHECK(quarto_yaml_last_child(NUMBERS(ROW(1, 0, 0, 0, 0, 0), ROW(7, 0, 0, 0, 1, 0)), 1) == 0);
#define ZERO_LAST NUMBERS(ROW(1, 0, 0, 1, 0, 0), ROW(1, 0, 0, 0, 0, 0), ROW(7, 0, 0, 3, 2, 0))
    CHECK(quarto_yaml_get_array_item(ZERO_LAST, 2, 1) == 1 && quarto_yaml_get_array_item(ZERO_LAST, 2, 0) == NONE);
    /* of a pair the value's is met, and the key's if a pair stands before it */
#define KEY_ZERO NUMBERS(ROW(5, 0, 1, 0, 0, 1), ROW(1, 2, 3, 1, 0, 0), ROW(8, 0, 3, 3, 1, 0))
#define VALUE_ZERO NUMBERS(ROW(5, 0, 1, 1, 0, 1), ROW(1, 2, 3, 0, 0, 0), ROW(8, 0, 3, 3, 1, 0))
    CHECK(quarto_yaml_hash_entry(KEY_ZERO, 2, 0).present == 1 && no_entry(quarto_yaml_hash_entry(VALUE_ZERO, 2, 0)));
    CHECK(quarto_yaml_get_hash_value(KEY_ZERO, BYTES("k"), 2, BYTES("k")) == 1);
    CHECK(quarto_yaml_get_hash_value(VALUE_ZERO, BYTES("k"), 2, BYTES("k")) == NONE);
    /* a wrong count is followed, here from the second item to a record outside the array */
#define WRONG NUMBERS(ROW(1, 0, 0, 1, 0, 0), ROW(1, 0, 0, 1, 0, 0), ROW(1, 0, 0, 2, 0, 0), ROW(7, 0, 0, 3, 2, 0))
    CHECK(quarto_yaml_get_array_item(WRONG, 3, 0) == 0 && quarto_yaml_child_before(WRONG, 2) == 0);
    /* a damaged number of children is told as it is */
    CHECK(quarto_yaml_len(NUMBERS(ROW(7, 0, 0, 1, NONE, 0)), 0) == NONE && quarto_yaml_is_empty(NUMBERS(ROW(7, 0, 0, 1, NONE, 0)), 0) == 0);
    CHECK(quarto_yaml_get_array_item(NUMBERS(ROW(7, 0, 0, 1, NONE, 0)), 0, 0) == NONE);

    /* parent and flag of records that are past the end, also where 14 times the number wraps in 32 bits, cut off, or of kind 0 or 9 */
    CHECK(quarto_yaml_parent(ROWS, 7) == NONE && quarto_yaml_is_measured(ROWS, 7) == NONE);
    CHECK(quarto_yaml_parent(ROWS, NONE) == NONE && quarto_yaml_is_measured(ROWS, NONE) == NONE);
    CHECK(quarto_yaml_parent(ROWS, 0x80000000u) == NONE && quarto_yaml_is_measured(ROWS, 0x80000000u) == NONE);
    CHECK(quarto_yaml_parent(ROWS, 0x80000001u) == NONE && quarto_yaml_is_measured(ROWS, 0x80000001u) == NONE);
    CHECK(quarto_yaml_parent(rows, 83, 5) == NONE && quarto_yaml_is_measured(rows, 83, 5) == NONE);
    CHECK(quarto_yaml_parent(rows, 97, 6) == NONE && quarto_yaml_is_measured(rows, 97, 6) == NONE);
    CHECK(quarto_yaml_parent(rows, 13, 0) == NONE && quarto_yaml_is_measured(rows, 13, 0) == NONE);
    CHECK(quarto_yaml_parent(NULL, 0, 0) == NONE && quarto_yaml_is_measured(NULL, 0, 0) == NONE);
#define KIND_ZERO NUMBERS(UP(1, 1, 0, 0, 0, 1, 0, 0), UP(NONE, 1, 7, 0, 0, 2, 1, 0))
#define KIND_NINE NUMBERS(UP(1, 1, 9, 0, 0, 1, 0, 0), UP(NONE, 1, 7, 0, 0, 2, 1, 0))
    CHECK(quarto_yaml_parent(KIND_ZERO, 0) == NONE && quarto_yaml_is_measured(KIND_ZERO, 0) == NONE);
    CHECK(quarto_yaml_parent(KIND_NINE, 0) == NONE && quarto_yaml_is_measured(KIND_NINE, 0) == NONE);
    /* of one that exists both are told as they are: a parent that is cut off, the record itself, a lower one; a flag of any number */
    CHECK(quarto_yaml_parent(rows, 84, 5) == 6 && quarto_yaml_is_measured(rows, 84, 5) == 1);
#define ODD NUMBERS(UP(0, 2, 1, 0, 0, 1, 0, 0), UP(0, NONE, 1, 0, 0, 1, 0, 0), UP(0xFFFFFFFE, 0x80000000, 8, 0, 0, 1, 0, 0))
    CHECK(quarto_yaml_parent(ODD, 0) == 0 && quarto_yaml_is_measured(ODD, 0) == 2);
    CHECK(quarto_yaml_parent(ODD, 1) == 0 && quarto_yaml_is_measured(ODD, 1) == NONE);
    CHECK(quarto_yaml_parent(ODD, 2) == 0xFFFFFFFE && quarto_yaml_is_measured(ODD, 2) == 0x80000000);
}

int main(void) {
    scalars();
    wrong_entries();
    measured_and_assumed();
    documents();
    wrong_tags();
    starts();
    parents();
    errors();
    steps();
    most_steps();
    accessors();
    printf("%d checked, %d failed\n", checked, failed);
    return failed == 0 ? EXIT_SUCCESS : EXIT_FAILURE;
}
