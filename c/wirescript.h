/* The Wirescript formatter for C: all that libwirescript.a exports.
 *
 * `scripts/archives.py wirescript` in the repository's root proves the library and writes
 * target/staticlib/libwirescript.a, for x86-64 Linux. A program is linked with it and the C library:
 * cc program.c target/staticlib/libwirescript.a
 *
 * What a caller must know:
 * - A slice is a pointer and the number of its elements, bytes or 64-bit numbers, and must have as many as it says. One
 *   of length 0 may have a null pointer.
 * - A slice that isn't const is written. It must not overlap another slice of the same call. Those that are const may
 *   overlap each other.
 * - Nothing else is asked: every call answers for every source, option, number and length, and never reads or writes
 *   outside its slices. What it can't do is a refusal, by number and place; then all other fields of the answer are 0.
 * - What stood in a slice that is written makes no difference. After a call scratch is all zeros; an output has the
 *   text and then zeros, a list its entries and then zeros; after a refusal all are zeros.
 * - Texts don't end in a zero byte: their length is in the answer.
 * - Lines and columns count from 0; a column is in characters, an offset and a length in bytes.
 * - No call keeps anything, allocates, reads or writes a file, or takes more than 256 KiB of stack. Several threads may
 *   call at once with slices of their own.
 */
#ifndef WIRESCRIPT_H
#define WIRESCRIPT_H

#include <stddef.h>
#include <stdint.h>

#ifdef __cplusplus
extern "C" {
#endif

/* The number of this interface is part of a symbol's name, to which every program that includes this file refers: an
 * archive with other signatures doesn't link. The function gives the number. */
uint64_t wirescript_interface_5(void);

#ifdef __GNUC__
__attribute__((used))
#endif
static uint64_t (*const wirescript_interface)(void) = wirescript_interface_5;

/* Refusals. Each call says which it gives, in the order in which they are tested. */
enum {
    WIRESCRIPT_ACCEPTED = 0,
    WIRESCRIPT_SOURCE_TOO_LONG = 1,   /* over WIRESCRIPT_MAX_SOURCE bytes; the place is that number */
    WIRESCRIPT_BAD_OPTION = 2,        /* an option that names no choice, an indent that isn't allowed, a size over 64 */
    WIRESCRIPT_SCRATCH_SHORT = 3,     /* the place is the length that is needed */
    WIRESCRIPT_NOT_UTF8 = 4,          /* the place is the length of the longest beginning that is UTF-8 */
    WIRESCRIPT_OUTPUT_SHORT = 5,      /* the place is the length that is needed */
    WIRESCRIPT_NO_PLACE = 6,          /* the source has no such line, or the line no such column */
    WIRESCRIPT_CONFIG_TOO_LONG = 7,   /* an .editorconfig text over WIRESCRIPT_MAX_CONFIG bytes */
    WIRESCRIPT_NAME_TOO_LONG = 8,     /* a section's name of more than 1,024 characters */
    WIRESCRIPT_PLACES_UNORDERED = 9,  /* a place stands before the one in front of it */
    WIRESCRIPT_KINDS_SHORT = 10,      /* fewer answer bytes than places */
    WIRESCRIPT_RULER_TOO_WIDE = 11,   /* over 16 columns */
    WIRESCRIPT_STRENGTHS_LENGTH = 12, /* the table has another length than 11 bytes */
    WIRESCRIPT_STRENGTHS_BITS = 13,   /* its last four bits are not zero */
    WIRESCRIPT_NOT_EXPRESSION = 14,   /* the place is where no expression goes on */
    WIRESCRIPT_TOO_DEEP = 15,         /* the place is that of a bracket deeper than 64 */
    WIRESCRIPT_LIST_SHORT = 16        /* the place is how many changes there are */
};

#define WIRESCRIPT_MAX_SOURCE 1048576
#define WIRESCRIPT_MAX_CONFIG 65536
#define WIRESCRIPT_MAX_INDENT 64

/* The scratch that a source of n bytes needs: for formatting and wirescript_group, and for text kinds. */
#define WIRESCRIPT_SCRATCH(n) (12 * (size_t)(n) + 256)
#define WIRESCRIPT_KINDS_SCRATCH(n) (8 * (size_t)(n) + 256)

/* Options of the calls that format:
 * indent         one level of indentation, up to 64 spaces and tabs
 * width_set      0: no print width; 1: width, in UTF-16 units
 * line_ending    how the text's lines end
 * final_newline  whether the text ends in a line ending
 * ruler_tab      0: a tab is one column of the width; up to 16: how far apart the tab stops are
 * strengths      how tightly operators bind where a line is broken: 4 bits for each of
 *                || ^^ && | ^ & == != < > <= >= << >> .. + - * / % **
 *                the upper ones of a byte first, then four zero bits; never broken before one of strength 0 */
enum { WIRESCRIPT_ENDING_KEPT = 0, WIRESCRIPT_ENDING_LF = 1, WIRESCRIPT_ENDING_CRLF = 2 };
enum { WIRESCRIPT_NEWLINE_AS_SOURCE = 0, WIRESCRIPT_NEWLINE_ALWAYS = 1, WIRESCRIPT_NEWLINE_NEVER = 2 };

/* The table of strengths by default, a string of WIRESCRIPT_STRENGTHS_BYTES bytes. */
#define WIRESCRIPT_STRENGTHS "\x11\x23\x45\x66\x77\x77\x88\x9a\xab\xbb\xc0"
#define WIRESCRIPT_STRENGTHS_BYTES 11

typedef struct {
    uint64_t refusal;
    uint64_t place;
    uint64_t length;        /* of the text */
    uint64_t imports_split; /* imports whose names were spread over lines */
    uint64_t blank_names;   /* blank names dropped in them */
    uint64_t open_brackets; /* brackets that are still open at the end */
} wirescript_answer;

/* Formats source into output. opened gets the source lines of the brackets that are still open at the end, the oldest
 * first, as many as it has room for. A text that is formatted again may change once more; see docs/DIFFERENCES.md.
 * Refusals 12, 13, 1, 2, 11, 3, 4, 5. */
wirescript_answer wirescript_format(
    const uint8_t *source, size_t source_length, const uint8_t *indent, size_t indent_length,
    uint64_t width_set, uint64_t width, uint64_t line_ending, uint64_t final_newline, uint64_t ruler_tab,
    const uint8_t *strengths, size_t strengths_length,
    uint8_t *output, size_t output_length, uint64_t *opened, size_t opened_length,
    uint8_t *scratch, size_t scratch_length);

typedef struct {
    uint64_t refusal;
    uint64_t place;
    uint64_t length;
    uint64_t imports_split;
    uint64_t blank_names;
    uint64_t line;   /* the caret's in the text */
    uint64_t column;
} wirescript_caret_answer;

/* Formats, and moves the caret from a line and a column of the source to the same letter of the text. Refusals as
 * wirescript_format, then 6. */
wirescript_caret_answer wirescript_format_caret(
    const uint8_t *source, size_t source_length, const uint8_t *indent, size_t indent_length,
    uint64_t width_set, uint64_t width, uint64_t line_ending, uint64_t final_newline, uint64_t ruler_tab,
    const uint8_t *strengths, size_t strengths_length, uint64_t line, uint64_t column,
    uint8_t *output, size_t output_length, uint8_t *scratch, size_t scratch_length);

typedef struct {
    uint64_t refusal;
    uint64_t place;
    uint64_t length;
    uint64_t imports_split;
    uint64_t blank_names;
    uint64_t changes; /* how many there are */
} wirescript_changes_answer;

/* Formats, and lists the changes from the source to the text in ascending order, four numbers to each: offset in the
 * source, bytes removed there, offset in the text, bytes put in from there. Refusals as wirescript_format, then 16. */
wirescript_changes_answer wirescript_format_changes(
    const uint8_t *source, size_t source_length, const uint8_t *indent, size_t indent_length,
    uint64_t width_set, uint64_t width, uint64_t line_ending, uint64_t final_newline, uint64_t ruler_tab,
    const uint8_t *strengths, size_t strengths_length,
    uint8_t *output, size_t output_length, uint64_t *changes, size_t changes_length,
    uint8_t *scratch, size_t scratch_length);

typedef struct {
    uint64_t refusal;
    uint64_t place;
    uint64_t formatted;  /* 1: the text would equal the source; 0: it would not */
    uint64_t lines_read; /* all where it would; a last LF is followed by one more line */
} wirescript_check_answer;

/* Whether formatting would leave the source as it is. No text is written, and reading stops soon after the first line
 * that changes. line_ending must not be WIRESCRIPT_ENDING_KEPT. Refusals 12, 13, 1, 2, 11, 3, 4. */
wirescript_check_answer wirescript_is_formatted(
    const uint8_t *source, size_t source_length, const uint8_t *indent, size_t indent_length,
    uint64_t width_set, uint64_t width, uint64_t line_ending, uint64_t final_newline, uint64_t ruler_tab,
    const uint8_t *strengths, size_t strengths_length, uint8_t *scratch, size_t scratch_length);

/* What a place is part of. Code is also a ${..} in a string, a prefab, and a place past the end. */
enum { WIRESCRIPT_KIND_CODE = 0, WIRESCRIPT_KIND_STRING = 1, WIRESCRIPT_KIND_COMMENT = 2 };

typedef struct {
    uint64_t refusal;
    uint64_t place;
    uint64_t kind;
} wirescript_kind;

/* The text kind at a line and a column. Refusals 1, 3, 4. */
wirescript_kind wirescript_text_kind_at(
    const uint8_t *source, size_t source_length, uint64_t line, uint64_t column,
    uint8_t *scratch, size_t scratch_length);

typedef struct {
    uint64_t refusal;
    uint64_t place;
    uint64_t lines_classified; /* how many lines were read */
} wirescript_kinds_answer;

/* The text kinds of places, line and column in turn, in ascending order: a byte for each in kinds. Refusals 1, 3, 4, 9,
 * 10. */
wirescript_kinds_answer wirescript_text_kinds(
    const uint8_t *source, size_t source_length, const uint64_t *places, size_t places_length,
    uint8_t *kinds, size_t kinds_length, uint8_t *scratch, size_t scratch_length);

typedef struct {
    uint64_t refusal;
    uint64_t place;
    uint64_t length;
} wirescript_group_answer;

/* Writes an expression with every operation bracketed. Refusals 1, 3, 4, then 14 or 15, then 5. */
wirescript_group_answer wirescript_group(
    const uint8_t *source, size_t source_length,
    uint8_t *output, size_t output_length, uint8_t *scratch, size_t scratch_length);

/* Options that a setting step gives; their indent is in the output. Ruler and strengths are not told to the steps: they
 * stay as they are. */
typedef struct {
    uint64_t refusal;
    uint64_t place;
    uint64_t indent_length;
    uint64_t width_set;
    uint64_t width;
    uint64_t line_ending;
    uint64_t final_newline;
} wirescript_settings;

/* One tab (tabs 1) or size spaces (tabs 0) as the indent; a size has at most 64. WIRESCRIPT_MAX_INDENT bytes of output
 * suffice. Refusals 2, 5. */
wirescript_settings wirescript_indent_with(
    const uint8_t *indent, size_t indent_length,
    uint64_t width_set, uint64_t width, uint64_t line_ending, uint64_t final_newline,
    uint64_t tabs, uint64_t size, uint8_t *output, size_t output_length);

/* What .editorconfig files say; 0 is unset. style: 1 tabs, 2 spaces. size_kind: 1 the tab width, 2 size. tab_set: 1
 * tab. max_kind: 1 off, 2 max. ending: 1 LF, 2 CRLF, 3 CR. newline: 1 false, 2 true. */
typedef struct {
    uint64_t refusal;
    uint64_t place;
    uint64_t style;
    uint64_t size_kind;
    uint64_t size;
    uint64_t tab_set;
    uint64_t tab;
    uint64_t max_kind;
    uint64_t max;
    uint64_t ending;
    uint64_t newline;
} wirescript_config_answer;

/* The options overridden by such values, which wirescript_read_editorconfig gives. Refusals 2, 5. */
wirescript_settings wirescript_editorconfig(
    const uint8_t *indent, size_t indent_length,
    uint64_t width_set, uint64_t width, uint64_t line_ending, uint64_t final_newline,
    uint64_t style, uint64_t size_kind, uint64_t size, uint64_t tab_set, uint64_t tab,
    uint64_t max_kind, uint64_t max, uint64_t ending, uint64_t newline,
    uint8_t *output, size_t output_length);

/* The values that the texts of .editorconfig files set for a path: the first of the file's own directory, each next of
 * one directory up; a missing file is an empty text. Refusals 7, 4, 8, each over all texts. */
wirescript_config_answer wirescript_read_editorconfig(
    const uint8_t *path, size_t path_length,
    const uint8_t *text_1, size_t length_1, const uint8_t *text_2, size_t length_2,
    const uint8_t *text_3, size_t length_3, const uint8_t *text_4, size_t length_4,
    const uint8_t *text_5, size_t length_5, const uint8_t *text_6, size_t length_6,
    const uint8_t *text_7, size_t length_7, const uint8_t *text_8, size_t length_8);

#ifdef __cplusplus
}
#endif

#endif
