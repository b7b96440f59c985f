/* The records of `k: [1, x]`, from events written by hand, and the way up from `x`. After `tools/archive`, from the repository's root:
 *
 *     cc -Iinclude examples/build.c target/staticlib/libquarto_yaml.a -o target/example && target/example
 */
#include "quarto_yaml.h"
#include <stdio.h>

#define BYTES(s) (const uint8_t *)(s), sizeof(s) - 1
#define SCALAR "\5\0\14" /* twelve bytes follow: index, column, plain, no empty span, no tag, a value of one byte */

enum { RECORD = QUARTO_YAML_RECORD_WIDTH, RECORDS = 8 * RECORD, PIECES = 8 * QUARTO_YAML_PIECE_WIDTH };

int main(void) {
    static const char *const kinds[] = {"", "null", "boolean", "integer", "real", "string", "bad value", "array", "hash"};
    static const char text[] = "k: [1, x]";
    static const char events[] = "\3\0\5\0\0\0\0\0" SCALAR "\0\0\0\0\0\0\0\0\0\0\0k"
                                 "\1\0\5\0\0\0\3\0" SCALAR "\0\0\0\4\0\0\0\4\0\0\0" "1"
                                 SCALAR "\0\0\0\7\0\0\0\7\0\0\0x" "\2\0\4\0\0\0\10" "\4\0\4\0\0\0\11";
    uint32_t records[RECORDS], pieces[PIECES];
    quarto_yaml_answer built = quarto_yaml_build(BYTES(text), BYTES(events), records, RECORDS, pieces, PIECES);
    if (built.code != QUARTO_YAML_OK)
        return fprintf(stderr, "refused: number %u at %u\n", built.code, built.first), 1;
    for (uint32_t n = 0; n < built.first; n++) {
        quarto_yaml_span span = quarto_yaml_source_info(records, RECORDS, n);
        quarto_yaml_piece_list list = quarto_yaml_content_source_info(records, RECORDS, n);
        printf("%u %-8s bytes %u..%u, %u children, %u pieces: %.*s\n", n, kinds[records[RECORD * n + QUARTO_YAML_AT_KIND]], span.start,
               span.end, quarto_yaml_len(records, RECORDS, n), list.count, (int)(span.end - span.start), text + span.start);
    }
    /* from a sentence up to its section: the first hash on the way */
    uint32_t section = quarto_yaml_parent(records, RECORDS, 2);
    while (quarto_yaml_is_hash(records, RECORDS, section) == 0)
        section = quarto_yaml_parent(records, RECORDS, section);
    printf("record 2 stands in hash %u\n", section);
    return 0;
}
