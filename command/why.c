/*
 * Says the words of the command for ./simbolufa, which has none of its own.
 *
 *   why numbers                        prints the refusals for the help
 *   why refusal NUMBER PLACE [NAME]    reads a node file from standard input, and prints the line about its refusal
 */
#include <stdio.h>
#include <stdlib.h>
#include <string.h>

#include "words.h"

/* What is read of a node file. */
static uint8_t text[65537];

static uint32_t number_of(const char *word)
{
    return (uint32_t)strtoul(word, NULL, 10);
}

int main(int count, char **words)
{
    if (count > 3 && strcmp(words[1], "refusal") == 0) {
        struct node_file file;
        file.name = count > 4 ? words[4] : NULL;
        file.text = text;
        file.length = fread(text, 1, sizeof text, stdin);
        print_refusal(stdout, file, number_of(words[2]), number_of(words[3]));
    } else {
        print_numbers(stdout);
    }
    return ferror(stdin) || ferror(stdout) || fflush(stdout) != 0 ? EXIT_FAILURE : EXIT_SUCCESS;
}
