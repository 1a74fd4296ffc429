/*
 * Simbolufa: converts a build guard's formula table to clauses, for a C or C++ host.
 *
 * The node table
 *
 *   A node is five bytes: its kind, then a, then b, each of the two a 16-bit little-endian number.
 *   Nodes are numbered from 0. The last node is the root. A child's number is below its parent's,
 *   and a node may be the child of several nodes. V is the caller's option count.
 *
 *     kind   meaning              a         b
 *     0      false                0         0
 *     1      true                 0         0
 *     2      an option symbol     1 to V    0
 *     3      not a                child     0
 *     4      a and b              child     child
 *     5      a or b               child     child
 *     6      a implies b          child     child
 *     7      a equivalent to b    child     child
 *
 *   A table has 1 to 1,024 nodes. V is 0 to 32,000. An option need not occur. Nodes that the root
 *   does not reach keep to the same rules.
 *
 * Renamed nodes and helpers
 *
 *   A set is one byte a node: 1 for a renamed node, else 0. A node may be renamed if its kind is 3 to
 *   7, the root reaches it and it is not the root. Renamed nodes get helpers V + 1, V + 2, .. in rising
 *   node number. A helper stands for its node in the clauses of the node's parents, and more clauses
 *   define it.
 *
 *   simbolufa_convert gives every guard the helpers from V + 1 on. So guards that are solved together are
 *   converted one after the other by simbolufa_convert_after, each with the variables that the call before
 *   reported. Then each variable is an option of the project, or the helper of one node of one guard.
 *
 * Totals
 *
 *   A clause total shows as 65,535 where it is that or more. A literal total shows as 1,000,000 where
 *   it is that or more, and where its clause total is 65,535 or more.
 *
 * Clause bytes
 *
 *   A literal is a 32-bit little-endian two's complement number: a variable, or minus a variable. A
 *   zero closes each clause. So clauses take four bytes for each literal and four for each clause.
 *
 * Origins of clauses
 *
 *   Every clause of a conversion has one origin. That is the root, or a renamed node and one half of the
 *   clauses that define its helper. A line of text tells it:
 *
 *     field    what it is
 *     1        the clause's number in the conversion, from 0
 *     2        the origin: the number of the root or of the renamed node
 *     3        the helper of the renamed node, or 0 for the root
 *     4        `root`; `down` for the half that says that the helper implies its node; `up` for the half
 *              that says the reverse
 *     5        the clause's number in this part, from 0. It begins anew in each half
 *     6 ..     its literals in the clause's order: each is the variable's name, with `!` before a negated one
 *
 *   A tab stands between two fields, and a newline ends the line. The line of an empty clause ends after
 *   field 5. No two clauses have the same fields 2 to 5.
 *
 *   The caller lends two lists of names: one has V names, the other has one for each renamed node. A newline
 *   stands behind each name, behind the last one too. A name has at least one byte, of any value but tab and
 *   newline. Option s has name s of the first list. Helper V + j has name j of the second, so these are in
 *   rising node number. A list for no variable is empty.
 *
 *   A line has at most 28 bytes beside its literals. A literal takes the bytes of its name and one or two
 *   more. So all lines of c clauses with l literals take at most 28 * c + (m + 2) * l bytes, where the
 *   longest name has m bytes. simbolufa_measure tells c and l.
 *
 *   Node 2 is s1 equivalent s2. The root, node 3, is node 2 equivalent node 2. With node 2 renamed and with the
 *   names JPEG, HDR and E, these are the six lines. Spaces stand for tabs here:
 *
 *     0 3 0 root 0 !E E
 *     1 3 0 root 1 !E E
 *     2 2 3 down 0 !E !JPEG HDR
 *     3 2 3 down 1 !E !HDR JPEG
 *     4 2 3 up 0 !JPEG !HDR E
 *     5 2 3 up 1 JPEG HDR E
 *
 * Tidied clauses
 *
 *   simbolufa_tidy goes through clauses in their order, whoever made them. A clause goes if it is a tautology or a
 *   repeat, and is kept otherwise. Of equal literals in a kept clause the first stays. A line of text tells of
 *   each clause and of each literal that goes:
 *
 *     field 2      when                                               field 3
 *     tautology    the clause has a literal and its negation          0
 *     repeat       it is no tautology, and an earlier clause that     that clause's number
 *                  is kept has the same literals: in which order
 *                  and how often plays no part
 *     literal      the clause is kept, and the same literal stands    the literal's position in the clause,
 *                  before this one in it                              from 0
 *
 *   Field 1 is the clause's number. All numbers and positions are those before anything went, and numbers count
 *   from 0. A tab stands between two fields, and a newline ends the line. A clause that goes has one line. Lines
 *   are in rising clause number, and those of one clause in rising position. An empty clause is a clause: the
 *   first one is kept.
 *
 *   A row of values satisfies the kept clauses exactly where it satisfies the given ones. Kept clauses that are
 *   tidied again stay as they are, without a line. The six clauses of the table above, with node 2 renamed, and
 *   two more have the lines on the right. Spaces stand for tabs here:
 *
 *     0    -3 3           0 tautology 0
 *     1    -3 3           1 tautology 0
 *     2    -3 -1 2
 *     3    -3 -2 1
 *     4    -1 -2 3
 *     5    1 2 3
 *     6    3 -1 3 -2      6 repeat 4
 *     7    2 1 2          7 literal 2
 *
 * DIMACS text, as it is written
 *
 *   `p cnf VARIABLES CLAUSES` and a newline. Then a line for each clause: its literals in decimal, a
 *   space after each, then `0` and a newline.
 *
 * DIMACS text, as it is read
 *
 *   Any number of lines that start with `c`. Then the header line: `p`, `cnf`, the variables and the
 *   clauses, with one or more spaces or tabs between and any number after. It ends with a newline. Then
 *   literals and zeros, parted by one or more of space, tab, CR and LF. The same may stand before the
 *   first and after the last. Numbers have no leading zero and no plus, and `-0` is wrong. There are
 *   at most 40,000 variables, 65,534 clauses and 999,999 literals. A literal is at most the declared
 *   variables in magnitude. There are exactly as many clauses as declared, and each is closed.
 *
 * p sat text
 *
 *   The other DIMACS text, a formula. Any number of lines that start with `c`. Then the header line: `p`,
 *   `sat` and V, with one or more spaces or tabs between and any number after. It ends with a newline. Then
 *   one formula, with any number of space, tab, CR and LF before and after it. A formula is one of these:
 *
 *     text          meaning                  nodes, in this order
 *     NUMBER        an option, 1 to V        one of kind 2
 *     (FORMULA)     the formula              those of the formula
 *     -NUMBER       not the option           one of kind 2, then one of kind 3
 *     -(FORMULA)    not the formula          those of the formula, then one of kind 3
 *     *(LIST)       all formulas of a list   those of the first; for each further one its own and one of kind 4
 *     +(LIST)       one of them              the same with kind 5
 *
 *   A list has any number of formulas, parted by one or more of space, tab, CR and LF. The same may stand
 *   behind each `(` and before each `)`. Nothing stands between `-`, `*` or `+` and what it is put before. A list
 *   of one formula is that formula. The empty lists `*()` and `+()` are a node of kind 1 and one of kind 0. Every
 *   symbol has a node wherever it occurs. The last node is the root.
 *
 *   Numbers have no leading zero. V is 0 to 32,000. At most 64 parentheses are open at once. The text may have
 *   any number of nodes, and a table has 1,024 at most. So `*(1 -2 3)` with V = 3 is the table s1, s2, not node 1,
 *   node 0 and node 2, s3, node 3 and node 4.
 *
 * Every call
 *
 *   A buffer is lent as a pointer and its length in bytes. Buffers lent to one call must not overlap.
 *   A null pointer with length 0 is fine, and so is any alignment. No pointer is kept after the call.
 *   A call allocates nothing, keeps no state and always ends. It may run in several threads at once.
 *
 *   Deepest stack, measured on x86-64: check, write_dimacs and read_dimacs less than 1 KiB, measure and
 *   choose 14 KiB, read_sat 9 KiB, origin and origins 38 KiB, tidy 55 KiB, convert and convert_after 18 KiB. For deep tables
 *   these two take more, up to 83,368 bytes for 1,024 nested nodes. A stack of 160 KiB is enough for every entry.
 *
 *   A call checks its own input. It returns 0 or the number of a refusal. A refusal changes no lent
 *   byte outside the answer part.
 *
 * The answer part
 *
 *   It is 16 bytes: four 32-bit little-endian numbers. They are the number that the call returns, the
 *   place, and two values of the call. A refusal writes it too, with both values 0. Only refusal 11
 *   writes nothing.
 */
#ifndef SIMBOLUFA_H
#define SIMBOLUFA_H

#include <stddef.h>
#include <stdint.h>

/*
 * The version of this header, and of the library that is installed with it. CHANGELOG.md says what may change in which
 * version.
 */
#define SIMBOLUFA_VERSION "3.1.0"
#define SIMBOLUFA_VERSION_MAJOR 3
#define SIMBOLUFA_VERSION_MINOR 1
#define SIMBOLUFA_VERSION_PATCH 0

#ifdef __cplusplus
extern "C" {
#endif

/*
 * What a call returns. The checks go in this order, as far as a call has them:
 * 11, 1, 2, the records, 4, 5, 6, 15, 16, 8, 9, 17, 18, 7. The place is 0 unless it is given here. A place over
 * 4,294,967,295 shows as that number.
 *
 * A wrong record is refused by 3, 12, 13 or 14, which are looked at in this order. The lowest node whose
 * record is wrong decides, whatever its fault is, and it is the place.
 *
 * simbolufa_sentence, below, says each of them in words.
 */
enum simbolufa_number {
    /* Nothing is wrong. */
    SIMBOLUFA_ACCEPTED = 0,
    /* The table is empty, is not a multiple of 5 bytes, or is over 5,120 bytes. */
    SIMBOLUFA_REFUSED_TABLE_LENGTH = 1,
    /* V is over 32,000. Or, looked at after the records, what is taken is below V or over 32,000. */
    SIMBOLUFA_REFUSED_OPTIONS = 2,
    /* A node's kind is none of 0 to 7. Place: the node. */
    SIMBOLUFA_REFUSED_KIND = 3,
    /* The former name of 3, from when every wrong record was refused by it. */
    SIMBOLUFA_REFUSED_RECORD = SIMBOLUFA_REFUSED_KIND,
    /*
     * The set's length is not the node count. Place: the node count.
     * Or a byte of the set is not 0 or 1, or is 1 on a node that may not be renamed. Place: the lowest
     * such node.
     */
    SIMBOLUFA_REFUSED_SET = 4,
    /* The conversion has 65,535 clauses or more. */
    SIMBOLUFA_REFUSED_CLAUSES = 5,
    /* The conversion has 1,000,000 literals or more. */
    SIMBOLUFA_REFUSED_LITERALS = 6,
    /* The output needs more bytes than the lent buffer has. Of two outputs, one of them does. */
    SIMBOLUFA_REFUSED_ROOM = 7,
    /*
     * The DIMACS text is not accepted. Place: the length of the longest beginning of it that also
     * begins some accepted text.
     */
    SIMBOLUFA_REFUSED_TEXT = 8,
    /*
     * The clause bytes to write or to tidy are not a multiple of 4 bytes, their last clause is not
     * closed, a magnitude is over the declared variables, those are over 40,000, or there are over
     * 65,534 clauses or over 999,999 literals.
     */
    SIMBOLUFA_REFUSED_CLAUSE_BYTES = 9,
    /*
     * A line of the node file is wrong or missing. Only the program gives it. Place: the line, from 1,
     * or 0 where the file is too long.
     */
    SIMBOLUFA_REFUSED_NODE_FILE = 10,
    /* The answer part is not 16 bytes. Nothing is written. */
    SIMBOLUFA_REFUSED_ANSWER_LENGTH = 11,
    /* A node's kind does not use one of the two fields, and that field is not 0. Place: the node. */
    SIMBOLUFA_REFUSED_UNUSED_FIELD = 12,
    /* A node's child is not below it: the child's number is the node's or a higher one. Place: the node. */
    SIMBOLUFA_REFUSED_CHILD = 13,
    /* A node's symbol is 0 or over V. Place: the node. */
    SIMBOLUFA_REFUSED_SYMBOL = 14,
    /* The conversion has no clause of the number that is asked for: they count from 0. Place: that number. */
    SIMBOLUFA_REFUSED_CLAUSE_NUMBER = 15,
    /*
     * A list of names has a name too few or too many, an empty name, a tab, or no newline behind its last
     * name.
     */
    SIMBOLUFA_REFUSED_NAMES = 16,
    /*
     * The p sat text is not accepted. Place: the length of the longest beginning of it that also begins some
     * accepted text.
     */
    SIMBOLUFA_REFUSED_SAT_TEXT = 17,
    /* The formula of the p sat text has more than 1,024 nodes. */
    SIMBOLUFA_REFUSED_NODES = 18
};

/* The length of the answer part. */
enum { SIMBOLUFA_ANSWER_LENGTH = 16 };

/*
 * Checks a node table. `options` is V.
 *
 * Returns 0 where every node keeps to the rules, else 1, 2, 3, 12, 13, 14 or 11. Both values of the
 * answer part are 0.
 */
uint32_t simbolufa_check(const uint8_t *table, size_t table_len, uint32_t options, uint8_t *answer,
                         size_t answer_len);

/*
 * Measures a conversion under a set. `options` is V, and `set` has one byte a node.
 *
 * Returns 0, 1, 2, 3, 12, 13, 14, 4 or 11. The values of the answer part are the clause total and the
 * literal total, each at its ceiling. A conversion of c clauses and l literals takes 4 * (c + l) bytes. It
 * is refused where c shows as 65,535 or l shows as 1,000,000.
 */
uint32_t simbolufa_measure(const uint8_t *table, size_t table_len, uint32_t options, const uint8_t *set,
                           size_t set_len, uint8_t *answer, size_t answer_len);

/*
 * Chooses a set. `options` is V, and `allowance` is the most nodes to rename. `set` is a buffer of one
 * byte a node. What it holds before the call plays no part.
 *
 * Nodes that may be renamed are tried from the highest number down. A node is put in where the clause
 * total, at its ceiling, becomes lower. If that ends at the ceiling, and the allowance is enough for all
 * of these nodes, they are all put in instead. Then they are tried again from the highest down, and a
 * node is taken out where the clause total does not become higher. A larger allowance renames at least
 * the same nodes, and its clause total is not higher.
 *
 * With an allowance of 1,022 or more the clause total is always below 65,535: the set is never refusal 5
 * of simbolufa_convert. It may be 6, since literals play no part here.
 *
 * Returns 0, 1, 2, 3, 12, 13, 14, 4 or 11. On 0 every byte of `set` is written. The values of the answer
 * part are the number of renamed nodes and the clause total. A total of 65,535 is not refused here.
 */
uint32_t simbolufa_choose(const uint8_t *table, size_t table_len, uint32_t options, uint32_t allowance,
                          uint8_t *set, size_t set_len, uint8_t *answer, size_t answer_len);

/*
 * Converts a table to clause bytes under a set. `options` is V, and `set` has one byte a node.
 *
 * The clauses of the root come first. Then come those of the renamed nodes, in rising node number. Rows
 * of values that satisfy the clauses satisfy the formula. A row that satisfies the formula satisfies
 * the clauses with each helper at its node's truth. Nothing is simplified: that is simbolufa_tidy.
 *
 * Returns 0, 1, 2, 3, 12, 13, 14, 4, 5, 6, 7 or 11. On 0 the clause bytes are the first bytes of `out`,
 * and the bytes after them are not changed. The values of the answer part are the variables (V and the
 * number of helpers) and the clauses. simbolufa_measure tells how many bytes are needed.
 */
uint32_t simbolufa_convert(const uint8_t *table, size_t table_len, uint32_t options, const uint8_t *set,
                           size_t set_len, uint8_t *out, size_t out_len, uint8_t *answer,
                           size_t answer_len);

/*
 * Converts a guard that is solved together with others. `options` is V, and the table is checked by it: a
 * helper of another guard is no symbol. `taken` is the highest variable in use: V for the first guard, then
 * the variables that the call before reported. Helpers are taken + 1, taken + 2, .. . With taken equal to V
 * it is simbolufa_convert.
 *
 * Returns what simbolufa_convert returns. After the checks of the table it is 2 also where `taken` is
 * below V or over 32,000. The values of the answer part are the variables (`taken` and the number of
 * helpers) and the clauses.
 */
uint32_t simbolufa_convert_after(const uint8_t *table, size_t table_len, uint32_t options, uint32_t taken,
                                 const uint8_t *set, size_t set_len, uint8_t *out, size_t out_len,
                                 uint8_t *answer, size_t answer_len);

/*
 * Tells where one clause of a conversion comes from. `options` is V, `set` has one byte a node, and `clause`
 * is the clause's number in what simbolufa_convert gives for them, from 0. `option_names` has V names, and
 * `helper_names` has one for each renamed node.
 *
 * Returns 0, 1, 2, 3, 12, 13, 14, 4, 5, 6, 15, 16, 7 or 11. On 0 the line is the first bytes of `line`, and
 * the bytes after it are not changed. The values of the answer part are those of simbolufa_convert: the
 * variables and the clauses. The line's length is not reported: the line ends with its only newline. Where the
 * length is not known before, lend a longer buffer after 7. `origin_line` of simbolufa.hpp does so.
 */
uint32_t simbolufa_origin(const uint8_t *table, size_t table_len, uint32_t options, const uint8_t *set,
                          size_t set_len, uint32_t clause, const uint8_t *option_names,
                          size_t option_names_len, const uint8_t *helper_names, size_t helper_names_len,
                          uint8_t *line, size_t line_len, uint8_t *answer, size_t answer_len);

/*
 * Tells where all clauses of a conversion come from: the lines of simbolufa_origin for clause 0, 1, 2 and so
 * on, one after the other. Table, set and names are checked once, and not again for each clause.
 *
 * Returns what simbolufa_origin returns, without 15; 7 where all lines together do not fit. On 0 the lines are
 * the first bytes of `lines`, and the bytes after them are not changed. The values of the answer part are the
 * variables and the clauses. There is one newline for each clause, so the lines end with the newline of that
 * number. With no clause there is no byte. `origin_lines` of simbolufa.hpp makes room for them.
 */
uint32_t simbolufa_origins(const uint8_t *table, size_t table_len, uint32_t options, const uint8_t *set,
                           size_t set_len, const uint8_t *option_names, size_t option_names_len,
                           const uint8_t *helper_names, size_t helper_names_len, uint8_t *lines,
                           size_t lines_len, uint8_t *answer, size_t answer_len);

/*
 * Writes clause bytes as DIMACS text. `variables` is the variable count that the header declares.
 *
 * Returns 0, 9, 7 or 11. On 0 the text is the first bytes of `text`, without a closing NUL, and the
 * bytes after it are not changed. The values of the answer part are the variables and the clauses. The
 * text's length is not reported: it ends with the newline after the last clause, or after the header
 * where there is no clause. So it has one newline for the header and one for each clause. `text_bytes` of
 * simbolufa.hpp tells it before the call.
 */
uint32_t simbolufa_write_dimacs(const uint8_t *clauses, size_t clauses_len, uint32_t variables,
                                uint8_t *text, size_t text_len, uint8_t *answer, size_t answer_len);

/*
 * Reads DIMACS text into clause bytes. The text may be of any length.
 *
 * Returns 0, 8, 7 or 11. On 0 the clause bytes are the first bytes of `clauses`, and the bytes after
 * them are not changed. The values of the answer part are the declared variables and clauses. What
 * simbolufa_write_dimacs wrote comes back as it was.
 */
uint32_t simbolufa_read_dimacs(const uint8_t *text, size_t text_len, uint8_t *clauses, size_t clauses_len,
                               uint8_t *answer, size_t answer_len);

/*
 * Reads p sat text into a node table. The text may be of any length.
 *
 * Returns 0, 17, 18, 7 or 11. On 0 the nodes are the first bytes of `table`, five for each, and the bytes after
 * them are not changed. The values of the answer part are V and the number of nodes. The table is right for that
 * V, so it can be given to simbolufa_choose and simbolufa_convert as it is. 5,120 bytes are enough for every
 * text. Where a text only ends too early, the place of 17 is its length.
 */
uint32_t simbolufa_read_sat(const uint8_t *text, size_t text_len, uint8_t *table, size_t table_len,
                            uint8_t *answer, size_t answer_len);

/*
 * Takes out of clauses what changes nothing: literals that stand twice in a clause, tautologies, and clauses that
 * were there before. `variables` is the variable count: no literal is over it. What goes is told in lines, as above.
 *
 * Returns 0, 9, 7 or 11. On 0 the kept clauses are the first bytes of `out`, the lines are the first bytes of
 * `changes`, and the bytes after them are not changed. The values of the answer part are the number of lines and
 * the number of kept clauses. There is one newline for each line and one zero for each kept clause, so both outputs
 * end with the newline and the zero of these numbers. `out` never needs more than clauses_len bytes, and `changes`
 * never more than 21 for every four of these. 7 says that one of the two is too short, and then neither is
 * changed. `tidied` of simbolufa.hpp makes room for both.
 *
 * The kept clauses can be given to simbolufa_write_dimacs with the same variables, and to simbolufa_tidy again.
 * Clauses are compared in blocks of 1,024, so the time grows with the clause bytes' length and once more with the
 * number of blocks. A list that is made to be slow can take more than a minute.
 */
uint32_t simbolufa_tidy(const uint8_t *clauses, size_t clauses_len, uint32_t variables, uint8_t *out,
                        size_t out_len, uint8_t *changes, size_t changes_len, uint8_t *answer,
                        size_t answer_len);

/* Whether a number is the refusal of a record: 3, 12, 13 or 14. Then the place is a node. */
static inline int simbolufa_is_record_refusal(uint32_t number)
{
    switch (number) {
    case SIMBOLUFA_REFUSED_KIND:
    case SIMBOLUFA_REFUSED_UNUSED_FIELD:
    case SIMBOLUFA_REFUSED_CHILD:
    case SIMBOLUFA_REFUSED_SYMBOL:
        return 1;
    default:
        return 0;
    }
}

/*
 * What a number says, in words. They begin with a small letter and end with no full stop, so that they can
 * stand behind a place. simbolufa_node_file.h has more words for node files, and simbolufa_sat_file.h for p sat
 * texts.
 */
static inline const char *simbolufa_sentence(uint32_t number)
{
    switch (number) {
    case SIMBOLUFA_ACCEPTED:
        return "nothing is wrong";
    case SIMBOLUFA_REFUSED_TABLE_LENGTH:
        return "the table is empty, is not a multiple of 5 bytes, or is over 5,120 bytes";
    case SIMBOLUFA_REFUSED_OPTIONS:
        return "the option count is over 32,000, or what is taken is below it or over 32,000";
    case SIMBOLUFA_REFUSED_KIND:
        return "the kind is none of 0 to 7";
    case SIMBOLUFA_REFUSED_UNUSED_FIELD:
        return "a field that the kind does not use is not 0";
    case SIMBOLUFA_REFUSED_CHILD:
        return "a child is not below its node";
    case SIMBOLUFA_REFUSED_SYMBOL:
        return "a symbol is not one of 1 to V, the option count";
    case SIMBOLUFA_REFUSED_SET:
        return "the set is not one byte 0 or 1 for each node, or has a 1 on a node that may not be renamed";
    case SIMBOLUFA_REFUSED_CLAUSES:
        return "there are 65,535 clauses or more";
    case SIMBOLUFA_REFUSED_LITERALS:
        return "there are 1,000,000 literals or more";
    case SIMBOLUFA_REFUSED_ROOM:
        return "the output needs more bytes than the buffer has";
    case SIMBOLUFA_REFUSED_TEXT:
        return "the DIMACS text is not accepted";
    case SIMBOLUFA_REFUSED_CLAUSE_BYTES:
        return "the clause bytes break a rule of clause bytes, or the variables are over 40,000";
    case SIMBOLUFA_REFUSED_NODE_FILE:
        return "a line of the node file is wrong or missing, or the file is over 65,536 bytes";
    case SIMBOLUFA_REFUSED_ANSWER_LENGTH:
        return "the answer part is not 16 bytes";
    case SIMBOLUFA_REFUSED_CLAUSE_NUMBER:
        return "there is no clause of this number";
    case SIMBOLUFA_REFUSED_NAMES:
        return "a list of names has a name too few or too many, an empty name, a tab, or no newline at its end";
    case SIMBOLUFA_REFUSED_SAT_TEXT:
        return "the p sat text is not accepted";
    case SIMBOLUFA_REFUSED_NODES:
        return "the formula has more than 1,024 nodes";
    default:
        return "there is no such number";
    }
}

/* The four numbers of an answer part. */
struct simbolufa_answer {
    /* What the call returned. */
    uint32_t number;
    uint32_t place;
    /*
     * Variables, renamed nodes, the clause total of a measure, V of a p sat text, or the lines of a tidying; 0
     * for a check.
     */
    uint32_t first;
    /*
     * Clauses, a clause total, the literal total of a measure, the nodes of a p sat text, or the kept clauses of
     * a tidying; 0 for a check.
     */
    uint32_t second;
};

/* Reads a 32-bit little-endian number from four bytes. */
static inline uint32_t simbolufa_read_number(const uint8_t *bytes)
{
    uint32_t number = bytes[3];
    number = number << 8 | bytes[2];
    number = number << 8 | bytes[1];
    return number << 8 | bytes[0];
}

/* Reads the 16 bytes of an answer part. */
static inline struct simbolufa_answer simbolufa_read_answer(const uint8_t *answer)
{
    struct simbolufa_answer read;
    read.number = simbolufa_read_number(answer);
    read.place = simbolufa_read_number(answer + 4);
    read.first = simbolufa_read_number(answer + 8);
    read.second = simbolufa_read_number(answer + 12);
    return read;
}

#ifdef __cplusplus
}
#endif

#endif
