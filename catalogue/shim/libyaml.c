/* libyaml's parser and scanner, one item at a time, as flat numbers and strings. The text is UTF-8 and outlives the stream. */
#include <stdint.h>
#include <stdlib.h>
#include <string.h>
#include <yaml.h>

typedef struct {
    const uint8_t *bytes;
    size_t len;
} shim_string;

/* A place of the text; `index` and `column` count characters. */
typedef struct {
    size_t index, column;
} shim_mark;

/* An event or a token. Its strings hold until the next call. */
typedef struct {
    uint32_t kind;  /* by the tables below; 0 for those that nobody asks for */
    uint32_t style; /* of a scalar event: 0 plain, 1 single-quoted, 2 double-quoted, 3 literal, 4 folded */
    shim_mark start, end;
    shim_string first, second; /* a scalar's value; a tag's handle and suffix; a directive's handle and prefix */
} shim_item;

/* `at_byte` where libyaml could not read the text at all; else `at` is an index. */
typedef struct {
    const char *context, *problem;
    uint32_t at_byte;
    size_t at;
} shim_problem;

typedef struct {
    yaml_parser_t parser;
    yaml_event_t event;
    yaml_token_t token;
} shim_stream;

enum { ITEM, END, PROBLEM };

shim_stream *shim_open(const uint8_t *text, size_t len) {
    shim_stream *stream = calloc(1, sizeof *stream);
    if (!stream) return NULL;
    if (!yaml_parser_initialize(&stream->parser)) {
        free(stream);
        return NULL;
    }
    yaml_parser_set_input_string(&stream->parser, text, len);
    yaml_parser_set_encoding(&stream->parser, YAML_UTF8_ENCODING);
    return stream;
}

void shim_close(shim_stream *stream) {
    yaml_event_delete(&stream->event);
    yaml_token_delete(&stream->token);
    yaml_parser_delete(&stream->parser);
    free(stream);
}

static uint32_t event_kind(yaml_event_type_t type) {
    switch (type) {
    case YAML_SEQUENCE_START_EVENT: return 1;
    case YAML_SEQUENCE_END_EVENT: return 2;
    case YAML_MAPPING_START_EVENT: return 3;
    case YAML_MAPPING_END_EVENT: return 4;
    case YAML_SCALAR_EVENT: return 5;
    case YAML_ALIAS_EVENT: return 6;
    case YAML_DOCUMENT_START_EVENT: return 7;
    case YAML_DOCUMENT_END_EVENT: return 8;
    default: return 0;
    }
}

static uint32_t token_kind(yaml_token_type_t type) {
    switch (type) {
    case YAML_TAG_DIRECTIVE_TOKEN: return 1;
    case YAML_BLOCK_SEQUENCE_START_TOKEN: return 2;
    case YAML_BLOCK_MAPPING_START_TOKEN: return 3;
    case YAML_BLOCK_END_TOKEN: return 4;
    case YAML_FLOW_SEQUENCE_START_TOKEN: return 5;
    case YAML_FLOW_SEQUENCE_END_TOKEN: return 6;
    case YAML_FLOW_MAPPING_START_TOKEN: return 7;
    case YAML_FLOW_MAPPING_END_TOKEN: return 8;
    case YAML_BLOCK_ENTRY_TOKEN: return 9;
    case YAML_KEY_TOKEN: return 10;
    case YAML_VALUE_TOKEN: return 11;
    case YAML_TAG_TOKEN: return 12;
    case YAML_SCALAR_TOKEN: return 13;
    default: return 0;
    }
}

static uint32_t style_number(yaml_scalar_style_t style) {
    switch (style) {
    case YAML_SINGLE_QUOTED_SCALAR_STYLE: return 1;
    case YAML_DOUBLE_QUOTED_SCALAR_STYLE: return 2;
    case YAML_LITERAL_SCALAR_STYLE: return 3;
    case YAML_FOLDED_SCALAR_STYLE: return 4;
    default: return 0;
    }
}

static shim_mark mark_of(yaml_mark_t mark) {
    return (shim_mark){mark.index, mark.column};
}

static shim_string string_of(const yaml_char_t *text) {
    return (shim_string){text, strlen((const char *)text)};
}

static uint32_t problem_of(const yaml_parser_t *parser, shim_problem *problem) {
    uint32_t at_byte = parser->error == YAML_READER_ERROR;
    problem->context = parser->context;
    problem->problem = parser->problem ? parser->problem : "out of memory";
    problem->at_byte = at_byte;
    problem->at = at_byte ? parser->problem_offset : parser->problem_mark.index;
    return PROBLEM;
}

uint32_t shim_next_event(shim_stream *stream, shim_item *item, shim_problem *problem) {
    yaml_event_t *event = &stream->event;
    yaml_event_delete(event);
    if (!yaml_parser_parse(&stream->parser, event)) return problem_of(&stream->parser, problem);
    *item = (shim_item){.kind = event_kind(event->type), .start = mark_of(event->start_mark), .end = mark_of(event->end_mark)};
    if (event->type == YAML_SCALAR_EVENT) {
        item->style = style_number(event->data.scalar.style);
        item->first = (shim_string){event->data.scalar.value, event->data.scalar.length};
    }
    return event->type == YAML_STREAM_END_EVENT || event->type == YAML_NO_EVENT ? END : ITEM;
}

uint32_t shim_next_token(shim_stream *stream, shim_item *item, shim_problem *problem) {
    yaml_token_t *token = &stream->token;
    yaml_token_delete(token);
    if (!yaml_parser_scan(&stream->parser, token)) return problem_of(&stream->parser, problem);
    *item = (shim_item){.kind = token_kind(token->type), .start = mark_of(token->start_mark), .end = mark_of(token->end_mark)};
    if (token->type == YAML_TAG_TOKEN) {
        item->first = string_of(token->data.tag.handle);
        item->second = string_of(token->data.tag.suffix);
    } else if (token->type == YAML_TAG_DIRECTIVE_TOKEN) {
        item->first = string_of(token->data.tag_directive.handle);
        item->second = string_of(token->data.tag_directive.prefix);
    }
    return token->type == YAML_STREAM_END_TOKEN || token->type == YAML_NO_TOKEN ? END : ITEM;
}
