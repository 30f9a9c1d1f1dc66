/* Calls every exported function through the header: each field of each answer, each refusal, empty slices with null
 * pointers, all on a thread with 256 KiB of stack. Status 0 if all is as it must be. */
#define _POSIX_C_SOURCE 200112L

#include "wirescript.h"

#include <pthread.h>
#include <stdio.h>
#include <string.h>

#define STALE 0x5a

static int failures;

#define CHECK(holds)                                                 \
    do {                                                             \
        if (!(holds)) {                                              \
            failures++;                                              \
            fprintf(stderr, "line %d: not so: %s\n", __LINE__, #holds); \
        }                                                            \
    } while (0)

/* What the calls are lent. */
static uint8_t source[WIRESCRIPT_MAX_SOURCE + 1];
static size_t source_length;
static uint8_t output[512];
static uint64_t list[40];
static uint8_t scratch[WIRESCRIPT_SCRATCH(WIRESCRIPT_MAX_SOURCE)];

/* The options of a call. */
typedef struct {
    const char *indent;
    uint64_t width_set, width, line_ending, final_newline, ruler_tab;
    const char *strengths;
    size_t strengths_length;
} options;

static const options defaults = {"  ", 1, 100, WIRESCRIPT_ENDING_KEPT, WIRESCRIPT_NEWLINE_ALWAYS, 0,
                                 WIRESCRIPT_STRENGTHS, WIRESCRIPT_STRENGTHS_BYTES};

static const uint8_t *bytes(const char *text)
{
    return (const uint8_t *)text;
}

/* Puts other values than 0 into all that a call is to write. */
static void stale(void)
{
    memset(output, STALE, sizeof output);
    memset(list, STALE, sizeof list);
    memset(scratch, STALE, sizeof scratch);
}

static void take(const void *text, size_t length)
{
    memcpy(source, text, length);
    source_length = length;
}

static int zeros(const void *from, size_t length)
{
    const uint8_t *byte = from;
    size_t i = 0;
    while (i < length && byte[i] == 0)
        i++;
    return i == length;
}

/* The output has a text and then zeros. */
static int holds(const char *text)
{
    size_t length = strlen(text);
    return memcmp(output, text, length) == 0 && zeros(output + length, sizeof output - length);
}

/* The list has numbers and then zeros. */
static int lists(const uint64_t *numbers, size_t count)
{
    return memcmp(list, numbers, count * sizeof *list) == 0 && zeros(list + count, sizeof list - count * sizeof *list);
}

static int cleared(size_t length)
{
    return zeros(scratch, length) && (length == sizeof scratch || scratch[length] == STALE);
}

/* The same options in front of each call that formats. */
#define CHOSEN(o)                                                                                                  \
    bytes((o).indent), strlen((o).indent), (o).width_set, (o).width, (o).line_ending, (o).final_newline,           \
        (o).ruler_tab, bytes((o).strengths), (o).strengths_length

static wirescript_answer format(options o, size_t room, size_t lines, size_t work)
{
    stale();
    return wirescript_format(source, source_length, CHOSEN(o), output, room, list, lines, scratch, work);
}

static wirescript_caret_answer caret(options o, uint64_t line, uint64_t column)
{
    stale();
    return wirescript_format_caret(source, source_length, CHOSEN(o), line, column, output, sizeof output, scratch,
                                   WIRESCRIPT_SCRATCH(source_length));
}

static wirescript_changes_answer changes(options o, size_t numbers)
{
    stale();
    return wirescript_format_changes(source, source_length, CHOSEN(o), output, sizeof output, list, numbers, scratch,
                                     WIRESCRIPT_SCRATCH(source_length));
}

/* Three brackets stay open, on two lines; an import is split, and two blank names go. */
static const char untidy[] = "import {a,,,b} from \"l\"\n(\n[{";
static const char tidy[] = "import {\n  a, b,\n} from \"l\"\n(\n  [{\n";

static void formatting(void)
{
    static const uint64_t lines[] = {1, 2, 2};
    options o = defaults;
    o.width = 10;
    take(untidy, strlen(untidy));
    wirescript_answer a = format(o, sizeof output, 40, WIRESCRIPT_SCRATCH(source_length));
    CHECK(a.refusal == WIRESCRIPT_ACCEPTED && a.place == 0 && a.length == strlen(tidy));
    CHECK(a.imports_split == 1 && a.blank_names == 2 && a.open_brackets == 3);
    CHECK(holds(tidy) && lists(lines, 3) && cleared(WIRESCRIPT_SCRATCH(source_length)));
    a = format(o, sizeof output, 2, WIRESCRIPT_SCRATCH(source_length));
    CHECK(a.open_brackets == 3 && list[1] == 2 && list[2] != 0);
}

/* Each option by a text that another choice would change. */
static void choosing(void)
{
    options o = defaults;
    o.indent = "\t";
    o.width_set = 0;
    o.line_ending = WIRESCRIPT_ENDING_CRLF;
    o.final_newline = WIRESCRIPT_NEWLINE_NEVER;
    take("{\na + b", 7);
    CHECK(format(o, sizeof output, 0, sizeof scratch).length == 9 && holds("{\r\n\ta + b"));
    o.line_ending = WIRESCRIPT_ENDING_LF;
    o.final_newline = WIRESCRIPT_NEWLINE_AS_SOURCE;
    CHECK(format(o, sizeof output, 0, sizeof scratch).length == 8 && holds("{\n\ta + b"));
    take("a\r\nb", 4);
    CHECK(format(defaults, sizeof output, 0, sizeof scratch).refusal == 0 && holds("a\r\nb\r\n"));
    o = defaults;
    o.width = 10;
    o.ruler_tab = 4;
    take("abcd\t+ e", 8);
    CHECK(format(o, sizeof output, 0, sizeof scratch).refusal == 0 && holds("abcd\n  + e\n"));
    /* `+` binds tightest: the line is broken before `*` */
    o.width = 6;
    o.strengths = "\x11\x23\x45\x66\x77\x77\x88\x9d\xdb\xbb\xc0";
    take("a + b*c", 7);
    CHECK(format(o, sizeof output, 0, sizeof scratch).refusal == 0 && holds("a + b\n  *c\n"));
}

/* The table by default has document 01's strengths. */
static void strengths(void)
{
    static const uint8_t listed[] = {1, 1, 2, 3, 4, 5, 6, 6, 7, 7, 7, 7, 8, 8, 9, 10, 10, 11, 11, 11, 12, 0};
    for (size_t i = 0; i < WIRESCRIPT_STRENGTHS_BYTES; i++) {
        uint8_t byte = bytes(WIRESCRIPT_STRENGTHS)[i];
        CHECK(byte >> 4 == listed[2 * i] && (byte & 15) == listed[2 * i + 1]);
    }
    CHECK(sizeof WIRESCRIPT_STRENGTHS == WIRESCRIPT_STRENGTHS_BYTES + 1);
}

static void editing(void)
{
    static const uint64_t three[] = {0, 1, 0, 0, 2, 2, 1, 1, 5, 1, 3, 1};
    options o = defaults;
    o.width = 10;
    take(untidy, strlen(untidy));
    wirescript_caret_answer c = caret(o, 2, 1);
    CHECK(c.refusal == 0 && c.place == 0 && c.length == strlen(tidy));
    CHECK(c.imports_split == 1 && c.blank_names == 2 && c.line == 4 && c.column == 3);
    CHECK(holds(tidy) && cleared(WIRESCRIPT_SCRATCH(source_length)));
    wirescript_changes_answer h = changes(o, 40);
    CHECK(h.refusal == 0 && h.place == 0 && h.length == strlen(tidy));
    CHECK(h.imports_split == 1 && h.blank_names == 2 && h.changes == 5 && holds(tidy));
    take(" a  b ", 6);
    h = changes(defaults, 40);
    CHECK(h.changes == 3 && holds("a b\n") && lists(three, 12) && cleared(WIRESCRIPT_SCRATCH(source_length)));
}

static wirescript_check_answer checked(options o, const char *text, size_t work)
{
    take(text, strlen(text));
    stale();
    return wirescript_is_formatted(source, source_length, CHOSEN(o), scratch, work);
}

static void checking(void)
{
    options o = defaults;
    o.line_ending = WIRESCRIPT_ENDING_LF;
    wirescript_check_answer c = checked(o, "a\nb\nc\n", WIRESCRIPT_SCRATCH(6));
    CHECK(c.refusal == 0 && c.place == 0 && c.formatted == 1 && c.lines_read == 4 && cleared(WIRESCRIPT_SCRATCH(6)));
    c = checked(o, " a\nb\nc\n", WIRESCRIPT_SCRATCH(7));
    CHECK(c.refusal == 0 && c.formatted == 0 && c.lines_read == 2 && cleared(WIRESCRIPT_SCRATCH(7)));
    c = checked(o, "a", WIRESCRIPT_SCRATCH(1) - 1);
    CHECK(c.refusal == WIRESCRIPT_SCRATCH_SHORT && c.place == WIRESCRIPT_SCRATCH(1) && c.lines_read == 0);
    c = checked(o, "a\xff", WIRESCRIPT_SCRATCH(2));
    CHECK(c.refusal == WIRESCRIPT_NOT_UTF8 && c.place == 1 && c.formatted == 0);
    CHECK(checked(defaults, "a\xff", 0).refusal == WIRESCRIPT_BAD_OPTION);
}

static void kinds(void)
{
    static const uint64_t places[] = {0, 0, 0, 2, 1, 1, 1, 3};
    take("a // b\n'c'\nd", 12);
    stale();
    wirescript_kind k =
        wirescript_text_kind_at(source, source_length, 1, 2, scratch, WIRESCRIPT_KINDS_SCRATCH(source_length));
    CHECK(k.refusal == 0 && k.place == 0 && k.kind == WIRESCRIPT_KIND_STRING);
    CHECK(cleared(WIRESCRIPT_KINDS_SCRATCH(source_length)));
    stale();
    wirescript_kinds_answer a = wirescript_text_kinds(source, source_length, places, 8, output, sizeof output, scratch,
                                                      WIRESCRIPT_KINDS_SCRATCH(source_length));
    CHECK(a.refusal == 0 && a.place == 0 && a.lines_classified == 2);
    CHECK(output[0] == WIRESCRIPT_KIND_CODE && output[1] == WIRESCRIPT_KIND_COMMENT);
    CHECK(output[2] == WIRESCRIPT_KIND_STRING && output[3] == WIRESCRIPT_KIND_CODE);
    CHECK(zeros(output + 4, sizeof output - 4) && cleared(WIRESCRIPT_KINDS_SCRATCH(source_length)));
    k = wirescript_text_kind_at(source, source_length, 1, 2, scratch, WIRESCRIPT_KINDS_SCRATCH(source_length) - 1);
    CHECK(k.refusal == WIRESCRIPT_SCRATCH_SHORT && k.place == WIRESCRIPT_KINDS_SCRATCH(source_length));
    a = wirescript_text_kinds(source, source_length, places, 8, output, 3, scratch, sizeof scratch);
    CHECK(a.refusal == WIRESCRIPT_KINDS_SHORT && a.place == 0);
    static const uint64_t back[] = {1, 0, 0, 0};
    a = wirescript_text_kinds(source, source_length, back, 4, output, 2, scratch, sizeof scratch);
    CHECK(a.refusal == WIRESCRIPT_PLACES_UNORDERED && a.place == 0);
}

static wirescript_group_answer group(const char *text)
{
    take(text, strlen(text));
    stale();
    return wirescript_group(source, source_length, output, sizeof output, scratch, WIRESCRIPT_SCRATCH(source_length));
}

static void grouping(void)
{
    char deep[70];
    wirescript_group_answer g = group("a + b*c");
    CHECK(g.refusal == 0 && g.place == 0 && g.length == 13 && holds("(a + (b * c))"));
    CHECK(cleared(WIRESCRIPT_SCRATCH(7)));
    g = group("a = b");
    CHECK(g.refusal == WIRESCRIPT_NOT_EXPRESSION && g.place == 3 && g.length == 0 && holds(""));
    memset(deep, '(', sizeof deep);
    deep[sizeof deep - 1] = 0;
    g = group(deep);
    CHECK(g.refusal == WIRESCRIPT_TOO_DEEP && g.place == 64);
}

static void settings(void)
{
    stale();
    wirescript_settings s = wirescript_indent_with(bytes("\t"), 1, 1, 90, 2, 1, 0, 3, output, sizeof output);
    CHECK(s.refusal == 0 && s.place == 0 && s.indent_length == 3 && s.width_set == 1 && s.width == 90);
    CHECK(s.line_ending == 2 && s.final_newline == 1 && holds("   "));
    s = wirescript_indent_with(bytes("  "), 2, 0, 0, 0, 2, 1, 8, output, sizeof output);
    CHECK(s.indent_length == 1 && s.width_set == 0 && s.final_newline == 2 && holds("\t"));
    s = wirescript_indent_with(bytes("  "), 2, 0, 0, 0, 2, 0, WIRESCRIPT_MAX_INDENT, output, WIRESCRIPT_MAX_INDENT);
    CHECK(s.refusal == 0 && s.indent_length == WIRESCRIPT_MAX_INDENT);
    s = wirescript_indent_with(bytes("  "), 2, 0, 0, 0, 2, 0, WIRESCRIPT_MAX_INDENT + 1, output, sizeof output);
    CHECK(s.refusal == WIRESCRIPT_BAD_OPTION && s.indent_length == 0 && holds(""));
    s = wirescript_indent_with(bytes("  "), 2, 0, 0, 0, 2, 0, 5, output, 4);
    CHECK(s.refusal == WIRESCRIPT_OUTPUT_SHORT && s.place == 5);
    /* spaces, the size, a tab width that loses, off, CRLF, false */
    stale();
    s = wirescript_editorconfig(bytes("\t"), 1, 1, 90, 0, 1, 2, 2, 3, 1, 8, 1, 7, 2, 1, output, sizeof output);
    CHECK(s.refusal == 0 && s.place == 0 && s.indent_length == 3 && s.width_set == 0 && holds("   "));
    CHECK(s.line_ending == WIRESCRIPT_ENDING_CRLF && s.final_newline == WIRESCRIPT_NEWLINE_NEVER);
    /* spaces, as wide as a tab, a length, LF, true */
    s = wirescript_editorconfig(bytes("\t"), 1, 0, 0, 0, 0, 2, 1, 3, 1, 5, 2, 70, 1, 2, output, sizeof output);
    CHECK(s.indent_length == 5 && s.width_set == 1 && s.width == 70);
    CHECK(s.line_ending == WIRESCRIPT_ENDING_LF && s.final_newline == WIRESCRIPT_NEWLINE_ALWAYS);
}

/* The answer for one text, which is the nth of eight; the path has a directory more. */
static wirescript_config_answer config(const char *text, size_t nth)
{
    const uint8_t *texts[8] = {NULL};
    size_t n[8] = {0};
    const char *path = "1/2/3/4/5/6/7/8/a.ws";
    texts[nth] = bytes(text);
    n[nth] = strlen(text);
    return wirescript_read_editorconfig(bytes(path), strlen(path), texts[0], n[0], texts[1], n[1], texts[2], n[2],
                                        texts[3], n[3], texts[4], n[4], texts[5], n[5], texts[6], n[6], texts[7], n[7]);
}

static void configuring(void)
{
    static char text[WIRESCRIPT_MAX_CONFIG + 2];
    wirescript_config_answer c = config("[*]\nindent_style=space\nindent_size=3\ntab_width=8\nmax_line_length=off\n"
                                        "end_of_line=cr\ninsert_final_newline=false\n", 0);
    CHECK(c.refusal == 0 && c.place == 0 && c.style == 2 && c.size_kind == 2 && c.size == 3);
    CHECK(c.tab_set == 1 && c.tab == 8 && c.max_kind == 1 && c.max == 0 && c.ending == 3 && c.newline == 1);
    c = config("[*]\nindent_style=tab\nindent_size=tab\nmax_line_length=90\nend_of_line=lf\n"
               "insert_final_newline=true\n", 7);
    CHECK(c.style == 1 && c.size_kind == 1 && c.size == 0 && c.tab_set == 0 && c.tab == 0);
    CHECK(c.max_kind == 2 && c.max == 90 && c.ending == 1 && c.newline == 2);
    c = config("[*]\nindent_style=space\nindent_size=tab\nend_of_line=crlf\ninsert_final_newline=true\n", 2);
    CHECK(c.style == 2 && c.size_kind == 1 && c.max_kind == 0 && c.ending == 2 && c.newline == 2);
    /* each text stands one directory further up */
    CHECK(config("[a.ws]\ntab_width=2\n", 0).tab == 2 && config("[8/a.ws]\ntab_width=3\n", 1).tab == 3);
    CHECK(config("[7/8/a.ws]\ntab_width=4\n", 2).tab == 4 && config("[6/7/8/a.ws]\ntab_width=5\n", 3).tab == 5);
    CHECK(config("[5/6/*/*/*]\ntab_width=6\n", 4).tab == 6 && config("[4/*/*/*/*/*]\ntab_width=7\n", 5).tab == 7);
    CHECK(config("[3/*/*/*/*/*/*]\ntab_width=8\n", 6).tab == 8 && config("[2/**]\ntab_width=9\n", 7).tab == 9);
    memset(text, '#', WIRESCRIPT_MAX_CONFIG);
    CHECK(config(text, 3).refusal == 0);
    text[WIRESCRIPT_MAX_CONFIG] = '#';
    CHECK(config(text, 3).refusal == WIRESCRIPT_CONFIG_TOO_LONG);
    memset(text, 'n', 1027);
    text[0] = '[';
    memcpy(text + 1026, "]\n", 3);
    CHECK(config(text, 4).refusal == WIRESCRIPT_NAME_TOO_LONG);
    CHECK(config("\xff", 5).refusal == WIRESCRIPT_NOT_UTF8);
}

/* The refusals of formatting by number and place; then all that is lent is zeros. */
static int refuses(options o, size_t room, size_t work, uint64_t refusal, uint64_t place)
{
    wirescript_answer a = format(o, room, 40, work);
    int rest = a.length == 0 && a.imports_split == 0 && a.blank_names == 0 && a.open_brackets == 0;
    return a.refusal == refusal && a.place == place && rest && zeros(output, room) && zeros(list, sizeof list)
        && cleared(work);
}

static void refusing(void)
{
    options o = defaults;
    take("ab\xff", 3);
    CHECK(refuses(o, 100, WIRESCRIPT_SCRATCH(3), WIRESCRIPT_NOT_UTF8, 2));
    CHECK(refuses(o, 100, WIRESCRIPT_SCRATCH(3) - 1, WIRESCRIPT_SCRATCH_SHORT, WIRESCRIPT_SCRATCH(3)));
    o.ruler_tab = 17;
    CHECK(refuses(o, 100, 0, WIRESCRIPT_RULER_TOO_WIDE, 0));
    o.indent = "x";
    CHECK(refuses(o, 100, 0, WIRESCRIPT_BAD_OPTION, 0));
    memset(source, 'a', sizeof source);
    source_length = sizeof source;
    CHECK(refuses(o, 100, 0, WIRESCRIPT_SOURCE_TOO_LONG, WIRESCRIPT_MAX_SOURCE));
    o.strengths = "\x11\x23\x45\x66\x77\x77\x88\x9a\xab\xbb\xc1";
    CHECK(refuses(o, 100, 0, WIRESCRIPT_STRENGTHS_BITS, 0));
    o.strengths_length = 10;
    CHECK(refuses(o, 100, 0, WIRESCRIPT_STRENGTHS_LENGTH, 0));
    take("abc", 3);
    CHECK(refuses(defaults, 3, WIRESCRIPT_SCRATCH(3), WIRESCRIPT_OUTPUT_SHORT, 4));
    CHECK(caret(defaults, 0, 3).refusal == 0 && caret(defaults, 0, 4).refusal == WIRESCRIPT_NO_PLACE);
    CHECK(caret(defaults, 1, 0).refusal == WIRESCRIPT_NO_PLACE && holds(""));
    take(" a  b ", 6);
    wirescript_changes_answer h = changes(defaults, 11);
    CHECK(h.refusal == WIRESCRIPT_LIST_SHORT && h.place == 3 && h.changes == 0 && zeros(list, 11 * sizeof *list));
}

/* Every slice empty, with a null pointer, in every call. */
static void empty(void)
{
    const uint8_t *strengths = bytes(WIRESCRIPT_STRENGTHS);
    CHECK(wirescript_format(NULL, 0, NULL, 0, 0, 0, 0, 0, 0, NULL, 0, NULL, 0, NULL, 0, NULL, 0).refusal == 12);
    CHECK(wirescript_format(NULL, 0, NULL, 0, 0, 0, 0, 0, 0, strengths, 11, NULL, 0, NULL, 0, NULL, 0).place == 256);
    stale();
    /* no indent, no source, no text and no list: accepted */
    CHECK(wirescript_format(NULL, 0, NULL, 0, 1, 0, 0, 0, 0, strengths, 11, NULL, 0, NULL, 0, scratch, 256).refusal
          == 0);
    CHECK(wirescript_format_caret(NULL, 0, NULL, 0, 1, 0, 0, 0, 0, strengths, 11, 0, 0, NULL, 0, scratch, 256).refusal
          == 0);
    CHECK(wirescript_format_changes(NULL, 0, NULL, 0, 1, 0, 0, 0, 0, strengths, 11, NULL, 0, NULL, 0, scratch, 256)
              .refusal == 0);
    CHECK(wirescript_is_formatted(NULL, 0, NULL, 0, 1, 0, 1, 0, 0, strengths, 11, NULL, 0).place == 256);
    CHECK(wirescript_is_formatted(NULL, 0, NULL, 0, 1, 0, 1, 0, 0, strengths, 11, scratch, 256).formatted == 1);
    CHECK(wirescript_text_kind_at(NULL, 0, 0, 0, NULL, 0).refusal == 3);
    CHECK(wirescript_text_kind_at(NULL, 0, 0, 0, scratch, 256).refusal == 0);
    CHECK(wirescript_text_kinds(NULL, 0, NULL, 0, NULL, 0, scratch, 256).refusal == 0);
    CHECK(wirescript_group(NULL, 0, NULL, 0, scratch, 256).refusal == WIRESCRIPT_NOT_EXPRESSION);
    CHECK(wirescript_indent_with(NULL, 0, 0, 0, 0, 0, 0, 0, NULL, 0).refusal == 0);
    CHECK(wirescript_editorconfig(NULL, 0, 0, 0, 0, 0, 0, 0, 0, 0, 0, 0, 0, 0, 0, NULL, 0).refusal == 0);
    wirescript_config_answer c =
        wirescript_read_editorconfig(NULL, 0, NULL, 0, NULL, 0, NULL, 0, NULL, 0, NULL, 0, NULL, 0, NULL, 0, NULL, 0);
    CHECK(c.refusal == 0 && c.style == 0 && c.newline == 0);
}

/* A line of a source as long as may be, with brackets and operators, and text kinds and grouping of it. */
static void largest(void)
{
    memset(source, '+', sizeof source);
    for (size_t i = 0; i < WIRESCRIPT_MAX_SOURCE; i += 2)
        source[i] = i % 64 == 0 ? '(' : 'a';
    source_length = WIRESCRIPT_MAX_SOURCE;
    CHECK(format(defaults, sizeof output, 40, sizeof scratch).refusal == WIRESCRIPT_OUTPUT_SHORT);
    CHECK(wirescript_text_kind_at(source, source_length, 0, 9, scratch, sizeof scratch).refusal == 0);
    memset(source, '-', WIRESCRIPT_MAX_SOURCE);
    memset(source, '(', 64);
    CHECK(wirescript_group(source, source_length, output, sizeof output, scratch, sizeof scratch).refusal
          == WIRESCRIPT_NOT_EXPRESSION);
}

static void *all(void *unused)
{
    formatting();
    choosing();
    strengths();
    editing();
    checking();
    kinds();
    grouping();
    settings();
    configuring();
    refusing();
    empty();
    largest();
    return unused;
}

int main(void)
{
    pthread_attr_t attributes;
    pthread_t thread;
    pthread_attr_init(&attributes);
    CHECK(pthread_attr_setstacksize(&attributes, 256 * 1024) == 0);
    CHECK(pthread_create(&thread, &attributes, all, NULL) == 0 && pthread_join(thread, NULL) == 0);
    if (failures == 0)
        puts("the C header's calls answer as they must");
    return failures != 0;
}
