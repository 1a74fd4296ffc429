/*
 * Says in words what is wrong with a p sat text that is refused, and in which line and column.
 *
 * simbolufa_read_sat reads such a text. docs/SATFILE.md has its rules. Nothing here allocates, keeps state, or
 * reads a byte outside the text. The words are static strings. They begin with a small letter and end with no
 * full stop.
 */
#ifndef SIMBOLUFA_SAT_FILE_H
#define SIMBOLUFA_SAT_FILE_H

#include "simbolufa_node_file.h"

#ifdef __cplusplus
extern "C" {
#endif

/* Where a byte of a text stands, for people. Lines and columns count from 1, and a column is a byte. */
struct simbolufa_position {
    size_t line;
    size_t column;
};

/* Where the byte behind so many others stands. The text may end there. */
static inline struct simbolufa_position simbolufa_position_of(const uint8_t *text, size_t length, size_t place)
{
    struct simbolufa_position found;
    size_t at = 0;
    found.line = 1;
    found.column = 1;
    for (; at < length && at < place; at++) {
        found.column++;
        if (text[at] == '\n') {
            found.line++;
            found.column = 1;
        }
    }
    return found;
}

static inline int simbolufa_is_blank(uint8_t byte)
{
    return byte == ' ' || byte == '\t';
}

static inline int simbolufa_is_white_space(uint8_t byte)
{
    return simbolufa_is_blank(byte) || byte == '\r' || byte == '\n';
}

/* What stands in a header before a place of it. The functions on it serve those at the end of this file. */
struct simbolufa_sat_header {
    /* How many words stand there, the last one whole or not: `p`, `sat`, V. */
    int words;
    /* Whether a space or a tab is the last byte. */
    int is_parted;
    /* The number that the last word is, as far as it is digits. It stays over 32,000 where it is. */
    uint32_t number;
};

/* Reads a part of a header from its start. */
static inline struct simbolufa_sat_header simbolufa_read_header(struct simbolufa_text_part part)
{
    const uint32_t zero = '0';
    struct simbolufa_sat_header header;
    header.words = 0;
    header.is_parted = 1;
    header.number = 0;
    for (; part.at < part.end; part.at++) {
        const uint8_t byte = part.text[part.at];
        if (simbolufa_is_blank(byte)) {
            header.is_parted = 1;
            continue;
        }
        if (header.is_parted) {
            header.words++;
            header.number = 0;
        }
        header.is_parted = 0;
        if (simbolufa_is_digit(byte) && header.number <= 32000)
            header.number = header.number * 10 + (byte - zero);
    }
    return header;
}

/* What is wrong with a header at a place. `line` is the header from its start, and `place` is in it or at its end. */
static inline const char *simbolufa_header_fault(struct simbolufa_text_part line, size_t place, int is_text_end)
{
    const uint8_t byte = place < line.end ? line.text[place] : 0;
    struct simbolufa_text_part before = line;
    struct simbolufa_text_part word = line;
    struct simbolufa_sat_header header;
    int is_sat;
    before.end = place;
    header = simbolufa_read_header(before);
    word.at = word.at < word.end ? word.at + 1 : word.end;
    word = simbolufa_first_word(word);
    if (is_text_end && place == line.end)
        return header.words == 0 ? "the text ends before its header, which is p sat and the option count"
                                 : "the text ends in its header, which is p sat, the option count and a newline";
    if (header.words == 0)
        return "before the header stand only lines that begin with c";
    if (byte == '\r')
        return "the header has a CR, and its line ends with LF alone";
    is_sat = simbolufa_is_word(word, "sat", 0);
    if (!header.is_parted && (header.words == 1 || (header.words == 2 && is_sat && simbolufa_is_digit(byte))))
        return "a space or a tab is missing between p, sat and the option count";
    if (header.words < 3 && simbolufa_is_word(word, "cnf", 0))
        return "the header is p cnf, so the text is clauses and no formula";
    if (header.words < 3 && !is_sat)
        return "the word behind p is not sat, in small letters";
    if (header.words < 3)
        return "the option count is missing behind p sat, or is no number";
    if (header.is_parted || !simbolufa_is_digit(byte))
        return "something stands behind the option count, and the header ends there";
    return header.number == 0 ? "a number has a leading zero" : "the option count is over 32,000";
}

/* What stands in a formula before a place of it. */
struct simbolufa_sat_spot {
    /* How many parentheses are open. */
    uint32_t open;
    /* Whether they are lists, bit by bit. The lowest bit is the innermost one. */
    uint64_t lists;
    /* Whether a formula stands in the innermost one, or outside of all. */
    int is_filled;
    /* The last byte, or a newline before the first one. */
    uint8_t last;
};

/* Reads a part of a formula from its start. */
static inline struct simbolufa_sat_spot simbolufa_read_formula(struct simbolufa_text_part part)
{
    struct simbolufa_sat_spot spot;
    spot.open = 0;
    spot.lists = 0;
    spot.is_filled = 0;
    spot.last = '\n';
    for (; part.at < part.end; part.at++) {
        const uint8_t byte = part.text[part.at];
        if (byte == '(') {
            spot.open++;
            spot.lists = spot.lists << 1 | (spot.last == '*' || spot.last == '+' ? 1u : 0u);
            spot.is_filled = 0;
        } else if (byte == ')') {
            spot.open--;
            spot.lists >>= 1;
            spot.is_filled = 1;
        } else if (simbolufa_is_digit(byte)) {
            spot.is_filled = 1;
        }
        spot.last = byte;
    }
    return spot;
}

static inline int simbolufa_is_sign(uint8_t byte)
{
    return byte == '-' || byte == '*' || byte == '+';
}

/* What is wrong where a text ends in its formula. */
static inline const char *simbolufa_end_fault(struct simbolufa_sat_spot spot)
{
    if (spot.open > 0)
        return "the text ends, and a parenthesis is still open";
    if (simbolufa_is_sign(spot.last))
        return "the text ends behind -, * or +";
    return "the text ends, and no formula stands behind its header";
}

/* What is wrong with a number at a digit. */
static inline const char *simbolufa_option_fault(struct simbolufa_sat_spot spot, uint32_t options, uint8_t digit)
{
    if (digit == '0' && !simbolufa_is_digit(spot.last))
        return "a number begins with 0, and options count from 1";
    if (options == 0)
        return "the option count is 0, so there is no option";
    return "a number is over the option count";
}

/* What is wrong with a byte behind what stands before it. */
static inline const char *simbolufa_byte_fault(struct simbolufa_sat_spot spot, uint32_t options, uint8_t byte)
{
    const int is_digit = simbolufa_is_digit(byte);
    if (is_digit && simbolufa_is_digit(spot.last))
        return simbolufa_option_fault(spot, options, byte);
    if (spot.last == '-' && !is_digit && byte != '(')
        return "behind - comes a number or a ( at once, and nothing between";
    if ((spot.last == '*' || spot.last == '+') && byte != '(')
        return "behind * or + comes a ( at once, and nothing between";
    if (byte == ')' && spot.open == 0)
        return "a ) is too many: no parenthesis is open";
    if (byte == ')' && !spot.is_filled && (spot.lists & 1) == 0)
        return "the parentheses are empty, and only those of a list may be: *() or +()";
    if (spot.is_filled && spot.open == 0)
        return "something stands behind the formula, and a p sat text is one formula";
    if (!is_digit && !simbolufa_is_sign(byte) && byte != '(') {
        if (byte == 'c' && spot.last == '\n')
            return "a comment stands behind the header, and comment lines stand before it";
        return "this byte is of no formula, which has numbers, -, *, +, parentheses and white space";
    }
    if (spot.is_filled && (spot.lists & 1) == 0)
        return "a second formula stands in parentheses that are no list: a list has * or + before its (";
    if (spot.is_filled && !simbolufa_is_white_space(spot.last))
        return "white space is missing between two formulas of a list";
    if (is_digit)
        return simbolufa_option_fault(spot, options, byte);
    return "more than 64 parentheses would be open at once";
}

/*
 * What is wrong, in words, with a p sat text that is refused by this number at this place. `text` is the whole text,
 * or what begins it, where that goes beyond the place.
 */
static inline const char *simbolufa_sat_sentence(const uint8_t *text, size_t length, uint32_t number, uint32_t place)
{
    struct simbolufa_text_part header;
    struct simbolufa_text_part formula;
    struct simbolufa_sat_spot spot;
    /* The highest place stands for higher ones too. */
    if (number != SIMBOLUFA_REFUSED_SAT_TEXT || place > length || place == UINT32_MAX)
        return simbolufa_sentence(number);
    header.text = text;
    header.at = simbolufa_behind_comments(text, length);
    header.end = length;
    header.end = simbolufa_find(header, '\n');
    if (place <= header.end)
        return simbolufa_header_fault(header, place < header.at ? header.at : place, header.end == length);
    formula.text = text;
    formula.at = header.end + 1;
    formula.end = place;
    spot = simbolufa_read_formula(formula);
    if (place == length)
        return simbolufa_end_fault(spot);
    return simbolufa_byte_fault(spot, simbolufa_read_header(header).number, text[place]);
}

#ifdef __cplusplus
}
#endif

#endif
