/*
 * The words of the command: how it is used, the refusals for its help, and the line about a refused node file.
 * command.c and why.c say them, so that the installed command and ./simbolufa speak alike.
 */
#ifndef SIMBOLUFA_COMMAND_WORDS_H
#define SIMBOLUFA_COMMAND_WORDS_H

#include <stdio.h>

#include "simbolufa_node_file.h"

/* ./simbolufa takes the usage from here too, line by line: each line is one string that ends with its newline. */
static inline int print_usage(FILE *to)
{
    return fputs("usage: simbolufa [FILE]\n"
                 "\n"
                 "Reads a node file, FILE or standard input, and prints its clauses as DIMACS text. Where the node\n"
                 "file is refused it prints one line: refused, the number and the place, parted by tabs. Then\n"
                 "standard error says in words what is wrong, and in which line of the file. --help lists the\n"
                 "numbers, and --version prints the version.\n"
                 "\n"
                 "The page NODEFILE.md says how a node file is written and how each refusal is mended. It stands in\n"
                 "docs/ of the tree and in share/doc/simbolufa/ of an installation.\n"
                 "\n"
                 "Exit status: 0 where clauses were printed, 1 where the node file was refused, 2 where nothing was\n"
                 "converted. Then standard error says why: bad usage, a file that cannot be read, output that was\n"
                 "not written, or a build that failed.\n",
                 to);
}

/* The words for a number that the command gives, where they do not hang on the file. */
static inline const char *words_of(uint32_t number)
{
    const uint8_t none = 0;
    return number == SIMBOLUFA_REFUSED_NODE_FILE ? simbolufa_sentence(number)
                                                 : simbolufa_node_file_sentence(&none, 0, number, 0);
}

/* Prints the refusals that the command gives, in the order in which they are looked at. */
static inline int print_numbers(FILE *to)
{
    static const uint32_t numbers[] = {10, 1, 2, 3, 12, 13, 14, 5, 6, 7};
    size_t at;
    fputs("\n"
          "The refusals, in the order in which they are looked at. Of 3, 12, 13 and 14 the lowest wrong node\n"
          "decides:\n"
          "\n",
          to);
    for (at = 0; at < sizeof numbers / sizeof numbers[0]; at++)
        fprintf(to, "  %2u  %s\n", (unsigned)numbers[at], words_of(numbers[at]));
    return fputs("\n"
                 "The place of 10 is the line, counted from 1, or 0 where the file is too long. The place of 3, 12,\n"
                 "13 and 14 is the node, counted from 0, and node N stands in line N + 2. The place of the others is\n"
                 "0.\n",
                 to);
}

/* Prints a file's name. Control characters are shown as \xHH, so that the name stays in its line, and a backslash twice. */
static inline void print_name(FILE *to, const char *name)
{
    for (; *name != '\0'; name++) {
        const unsigned char byte = (unsigned char)*name;
        if (byte < 0x20 || byte == 0x7f)
            fprintf(to, "\\x%02x", (unsigned)byte);
        else if (byte == '\\')
            fputs("\\\\", to);
        else
            fputc(byte, to);
    }
}

/* A node file as it was read, at most its first 65,537 bytes. The name is null for standard input. */
struct node_file {
    const char *name;
    const uint8_t *text;
    size_t length;
};

/* Prints the line about a refused node file: its name, the line, the number, the node, and what is wrong. */
static inline int print_refusal(FILE *to, struct node_file file, uint32_t number, uint32_t place)
{
    const uint32_t line = simbolufa_line_of(number, place);
    fputs("simbolufa: ", to);
    print_name(to, file.name != NULL ? file.name : "standard input");
    if (line != 0)
        fprintf(to, ", line %lu", (unsigned long)line);
    fprintf(to, ": refused by %lu", (unsigned long)number);
    if (simbolufa_is_record_refusal(number))
        fprintf(to, " at node %lu", (unsigned long)place);
    return fprintf(to, ": %s\n", simbolufa_node_file_sentence(file.text, file.length, number, place));
}

#endif
