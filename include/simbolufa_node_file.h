/*
 * Says in words what is wrong with a node file that is refused, and in which line. It also tells node files and
 * p sat texts apart.
 *
 * A node file is the text that the command `simbolufa` reads. docs/NODEFILE.md has its rules. Nothing here
 * allocates, keeps state, or reads a byte outside the text. The words are static strings. They begin with a
 * small letter and end with no full stop.
 */
#ifndef SIMBOLUFA_NODE_FILE_H
#define SIMBOLUFA_NODE_FILE_H

#include "simbolufa.h"

#ifdef __cplusplus
extern "C" {
#endif

/*
 * The line of a node file, from 1, that a refusal of it is about. It is 0 where that is no one line. Node 7
 * stands in line 9. A node file is refused by 1 only where line 2, its first node, is missing.
 */
static inline uint32_t simbolufa_line_of(uint32_t number, uint32_t place)
{
    if (simbolufa_is_record_refusal(number))
        return place + 2;
    switch (number) {
    case SIMBOLUFA_REFUSED_NODE_FILE:
        return place;
    case SIMBOLUFA_REFUSED_OPTIONS:
        return 1;
    case SIMBOLUFA_REFUSED_TABLE_LENGTH:
        return 2;
    default:
        return 0;
    }
}

/*
 * What a text is by its first lines. They are looked at byte by byte, so that a text may come in parts.
 *
 * The first line that does not begin with `c` decides. Where it begins with `p` and a space or a tab, the text is a
 * p sat text, right or wrong. Else it is a node file, right or wrong, and so is a text without such a line.
 */
enum simbolufa_first_lines {
    /* Before the first byte, or behind a comment line. */
    SIMBOLUFA_AT_LINE,
    /* In a line that begins with `c`. */
    SIMBOLUFA_IN_COMMENT,
    /* Behind a `p` that begins a line. */
    SIMBOLUFA_BEHIND_P,
    /* It is decided. */
    SIMBOLUFA_IS_SAT,
    SIMBOLUFA_IS_NODE_FILE
};

/* What it is after one more byte. */
static inline enum simbolufa_first_lines simbolufa_look(enum simbolufa_first_lines so_far, uint8_t byte)
{
    switch (so_far) {
    case SIMBOLUFA_AT_LINE:
        return byte == 'c' ? SIMBOLUFA_IN_COMMENT : byte == 'p' ? SIMBOLUFA_BEHIND_P : SIMBOLUFA_IS_NODE_FILE;
    case SIMBOLUFA_IN_COMMENT:
        return byte == '\n' ? SIMBOLUFA_AT_LINE : SIMBOLUFA_IN_COMMENT;
    case SIMBOLUFA_BEHIND_P:
        return byte == ' ' || byte == '\t' ? SIMBOLUFA_IS_SAT : SIMBOLUFA_IS_NODE_FILE;
    default:
        return so_far;
    }
}

/* Whether no further byte changes it. */
static inline int simbolufa_is_decided(enum simbolufa_first_lines so_far)
{
    return so_far == SIMBOLUFA_IS_SAT || so_far == SIMBOLUFA_IS_NODE_FILE;
}

/* Whether a whole text is a p sat text, right or wrong. */
static inline int simbolufa_is_sat_text(const uint8_t *text, size_t length)
{
    enum simbolufa_first_lines so_far = SIMBOLUFA_AT_LINE;
    size_t at = 0;
    for (; at < length && !simbolufa_is_decided(so_far); at++)
        so_far = simbolufa_look(so_far, text[at]);
    return so_far == SIMBOLUFA_IS_SAT;
}

/* Where the first line begins that does not begin with `c`: the length where there is none. */
static inline size_t simbolufa_behind_comments(const uint8_t *text, size_t length)
{
    enum simbolufa_first_lines so_far = SIMBOLUFA_AT_LINE;
    size_t at = 0;
    for (; at < length; at++) {
        so_far = simbolufa_look(so_far, text[at]);
        if (so_far != SIMBOLUFA_AT_LINE && so_far != SIMBOLUFA_IN_COMMENT)
            return at;
    }
    return length;
}

/* A part of a text: its bytes from `at` to before `end`. The functions on it serve those at the end of this file. */
struct simbolufa_text_part {
    const uint8_t *text;
    size_t at;
    size_t end;
};

/* Where a byte stands first in a part, or the part's end. */
static inline size_t simbolufa_find(struct simbolufa_text_part part, uint8_t byte)
{
    size_t at = part.at;
    while (at < part.end && part.text[at] != byte)
        at++;
    return at;
}

static inline int simbolufa_has(struct simbolufa_text_part part, uint8_t byte)
{
    return simbolufa_find(part, byte) < part.end;
}

/* Whether a part begins with these characters. */
static inline int simbolufa_begins_with(struct simbolufa_text_part part, const char *characters)
{
    for (; *characters != '\0'; characters++, part.at++)
        if (part.at == part.end || part.text[part.at] != *characters)
            return 0;
    return 1;
}

/* Whether a text begins with the byte order mark of UTF-8 or of UTF-16. */
static inline int simbolufa_has_order_mark(const uint8_t *text, size_t length)
{
    if (length >= 3 && text[0] == 0xEF && text[1] == 0xBB && text[2] == 0xBF)
        return 1;
    return length >= 2 && ((text[0] == 0xFF && text[1] == 0xFE) || (text[0] == 0xFE && text[1] == 0xFF));
}

static inline int simbolufa_is_letter(uint8_t byte)
{
    return (byte >= 'a' && byte <= 'z') || (byte >= 'A' && byte <= 'Z');
}

/* The letters that a part begins with, behind spaces and tabs. */
static inline struct simbolufa_text_part simbolufa_first_word(struct simbolufa_text_part part)
{
    const size_t end = part.end;
    while (part.at < end && (part.text[part.at] == ' ' || part.text[part.at] == '\t'))
        part.at++;
    part.end = part.at;
    while (part.end < end && simbolufa_is_letter(part.text[part.end]))
        part.end++;
    return part;
}

/* Whether a part is this word. Where `in_any_case` is not 0, capital letters count as small ones. */
static inline int simbolufa_is_word(struct simbolufa_text_part part, const char *word, int in_any_case)
{
    for (; part.at < part.end; part.at++, word++) {
        int byte = part.text[part.at];
        if (in_any_case && byte >= 'A' && byte <= 'Z')
            byte += 'a' - 'A';
        if (byte != *word || *word == '\0')
            return 0;
    }
    return *word == '\0';
}

static inline int simbolufa_is_digit(uint8_t byte)
{
    return byte >= '0' && byte <= '9';
}

/* Whether a line has what begins a comment in other languages. Two minus signs before a digit do not count. */
static inline int simbolufa_has_comment(struct simbolufa_text_part line)
{
    int is_behind_blank = 1;
    for (; line.at < line.end; line.at++) {
        const uint8_t byte = line.text[line.at];
        if (byte == '#' || byte == ';' || simbolufa_begins_with(line, "//") || simbolufa_begins_with(line, "/*"))
            return 1;
        if (is_behind_blank && simbolufa_begins_with(line, "--") &&
            (line.end - line.at == 2 || !simbolufa_is_digit(line.text[line.at + 2])))
            return 1;
        is_behind_blank = byte == ' ' || byte == '\t';
    }
    return 0;
}

/* What is wrong with a field that is to be a number up to `most`: empty words where nothing is. */
static inline const char *simbolufa_number_fault(struct simbolufa_text_part field, uint32_t most)
{
    const uint32_t zero = '0';
    uint32_t value = 0;
    size_t at = field.at;
    int has_sign = 0;
    if (at < field.end && (field.text[at] == '+' || field.text[at] == '-')) {
        has_sign = 1;
        at++;
    }
    if (at == field.end)
        return "a field is no decimal number";
    for (; at < field.end; at++)
        if (!simbolufa_is_digit(field.text[at]))
            return "a field is no decimal number";
    if (has_sign)
        return "a number has a sign, and numbers are written in digits alone";
    if (field.end - field.at > 1 && field.text[field.at] == '0')
        return "a number has a leading zero";
    for (at = field.at; at < field.end && value <= most; at++)
        value = value * 10 + (field.text[at] - zero);
    if (value <= most)
        return "";
    return most == 255 ? "a kind is over 255" : "a number is over 65,535";
}

/* Whether a field is this number, as it is written in decimal. */
static inline int simbolufa_is_number(struct simbolufa_text_part field, uint32_t number)
{
    const uint32_t zero = '0';
    do {
        if (field.at == field.end || field.text[field.end - 1] != zero + number % 10)
            return 0;
        field.end--;
        number /= 10;
    } while (number > 0);
    return field.at == field.end;
}

/* Whether the header of a text is that of a p sat text, as far as its word. */
static inline int simbolufa_has_sat_header(const uint8_t *text, size_t length)
{
    struct simbolufa_text_part header;
    if (!simbolufa_is_sat_text(text, length))
        return 0;
    header.text = text;
    header.at = simbolufa_behind_comments(text, length) + 1;
    header.end = length;
    return simbolufa_is_word(simbolufa_first_word(header), "sat", 0);
}

static inline const char *simbolufa_other_word(void)
{
    return "the first field is not the word options, with which a node file begins";
}

/* What is wrong with the fields of a line: empty words where nothing is. `line` is counted from 1. */
static inline const char *simbolufa_fields_fault(struct simbolufa_text_part part, uint32_t line)
{
    const uint32_t wanted = line == 1 ? 2 : 4;
    struct simbolufa_text_part field = part;
    uint32_t count = 0;
    size_t at;
    for (at = part.at; at <= part.end; at = field.end + 1, count++) {
        field.at = at;
        field.end = part.end;
        field.end = simbolufa_find(field, '\t');
        if (field.at == field.end)
            return "a field is empty: there are two tabs in a row, or a tab at an end of the line";
    }
    if (count != wanted && line == 1)
        return "the first line needs two fields: the word options and the option count, with one tab between";
    if (count != wanted)
        return "a node line needs four fields: the node's number, its kind, a and b, with one tab between two";
    for (at = part.at, count = 0; at <= part.end; at = field.end + 1, count++) {
        const char *fault = "";
        field.at = at;
        field.end = part.end;
        field.end = simbolufa_find(field, '\t');
        if (line == 1 && count == 0)
            fault = simbolufa_is_word(field, "options", 0) ? "" : simbolufa_other_word();
        else
            fault = simbolufa_number_fault(field, line != 1 && count == 1 ? 255 : 65535);
        if (*fault != '\0')
            return fault;
        if (line != 1 && count == 0 && !simbolufa_is_number(field, line - 2))
            return "the first field is not the node's number: the nodes of a guard count 0, 1, 2 and so on";
    }
    return "";
}

/* What is wrong with a line that is there: empty words where nothing is. */
static inline const char *simbolufa_line_fault(struct simbolufa_text_part part, uint32_t line, int has_newline)
{
    const struct simbolufa_text_part word = simbolufa_first_word(part);
    if (part.at == part.end)
        return "the line is empty";
    if (simbolufa_has_comment(part))
        return "the line has a comment, by its #, //, /*, ; or --, and a node file has no comments";
    if (line == 1026)
        return "this is a node line too many: there are at most 1,024";
    if (has_newline && part.text[part.end - 1] == '\r')
        return "the line ends with CR LF, and lines end with LF alone";
    if (simbolufa_has(part, '\r'))
        return "the line has a CR, and lines end with LF alone";
    if (!has_newline)
        return "the last line has no newline at its end";
    if (line == 1 && !simbolufa_is_word(word, "options", 0))
        return simbolufa_is_word(word, "options", 1) ? "the word options is not in small letters" : simbolufa_other_word();
    if (line != 1 && simbolufa_is_word(word, "options", 0))
        return "the word options stands behind the first line, and a node file is one guard";
    if (simbolufa_has(part, ' '))
        return "the line has a space, and between two fields stands one tab";
    return simbolufa_fields_fault(part, line);
}

/* What is wrong with the line `line` of a text, from 1: empty words where nothing is, or there is no such line. */
static inline const char *simbolufa_text_fault(const uint8_t *text, size_t length, uint32_t line)
{
    struct simbolufa_text_part part;
    uint32_t before = 1;
    part.text = text;
    part.at = 0;
    part.end = length;
    if (line <= 1 && simbolufa_has_sat_header(text, length))
        return "it looks like a p sat file and no node file: the nightly pass reads such files";
    if (length > 65536)
        return "the node file is over 65,536 bytes";
    if (length == 0)
        return "the node file is empty";
    if (line == 0)
        return "";
    if (line == 1 && simbolufa_has_order_mark(text, length))
        return "the node file begins with a byte order mark";
    for (; before < line && part.at < length; before++) {
        part.at = simbolufa_find(part, '\n');
        if (part.at < length)
            part.at++;
    }
    if (part.at == length)
        return "";
    part.end = simbolufa_find(part, '\n');
    return simbolufa_line_fault(part, line, part.end < length);
}

/*
 * What is wrong, in words, with a node file that is refused by this number at this place. `text` is the whole
 * file: of refusal 10 the words say which rule the line breaks. What begins the text is enough where it has
 * 65,537 bytes.
 */
static inline const char *simbolufa_node_file_sentence(const uint8_t *text, size_t length, uint32_t number,
                                                       uint32_t place)
{
    const char *fault = "";
    switch (number) {
    case SIMBOLUFA_REFUSED_NODE_FILE:
        fault = simbolufa_text_fault(text, length, place);
        return *fault != '\0' ? fault : simbolufa_sentence(number);
    case SIMBOLUFA_REFUSED_TABLE_LENGTH:
        return "there is no node line, and a guard has at least one node";
    case SIMBOLUFA_REFUSED_OPTIONS:
        return "the option count is over 32,000";
    case SIMBOLUFA_REFUSED_ROOM:
        return "the output needs more than 65,536 bytes";
    default:
        return simbolufa_sentence(number);
    }
}

#ifdef __cplusplus
}
#endif

#endif
