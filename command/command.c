/*
 * The installed command: what stands round the proved program. It opens the file, says what went wrong, and tells the exit
 * status. What is printed on standard output is the program's.
 *
 * The program is linked with --wrap for main, read and write: its main is __real_main here, and its reads and writes come
 * through __wrap_read and __wrap_write. So a read or a write that fails is known, a refusal is seen, and the node file is
 * there to be looked at again. It asks for the last error by rattle_errno, which stands in the kit's C code otherwise.
 */
#define _POSIX_C_SOURCE 200809L

#include <errno.h>
#include <fcntl.h>
#include <signal.h>
#include <stdarg.h>
#include <stdio.h>
#include <stdlib.h>
#include <string.h>
#include <sys/stat.h>
#include <unistd.h>

#include "words.h"

enum { CONVERTED = 0, REFUSED = 1, NOTHING_CONVERTED = 2 };

int __real_main(void);
ssize_t __real_read(int descriptor, void *to, size_t length);
ssize_t __real_write(int descriptor, const void *from, size_t length);
int __wrap_main(int count, char **words);
ssize_t __wrap_read(int descriptor, void *to, size_t length);
ssize_t __wrap_write(int descriptor, const void *from, size_t length);
int32_t rattle_errno(void);

/* What a broken pipe does, before the program says that it is an error. */
static struct sigaction broken_pipe;

/* The number of a read or a write that failed, or 0. */
static int read_error = 0;
static int write_error = 0;

/* The node file, as it was read. */
static uint8_t text[65537];
static size_t text_length = 0;

/* How a refusal begins. */
static const char refused[] = "refused\t";

/* What was printed first. A refusal is shorter, and a zero stands behind it. */
static char printed[64];
static size_t printed_length = 0;

int32_t rattle_errno(void)
{
    return errno;
}

static int stop(const char *form, ...)
{
    va_list words;
    va_start(words, form);
    fputs("simbolufa: ", stderr);
    vfprintf(stderr, form, words);
    fputs("\n", stderr);
    va_end(words);
    return NOTHING_CONVERTED;
}

/* Puts bytes behind those that are kept, as far as there is room. Gives how many are kept then. */
static size_t keep(void *room, size_t size, size_t kept, const void *bytes, size_t length)
{
    if (length > size - kept)
        length = size - kept;
    memcpy((char *)room + kept, bytes, length);
    return kept + length;
}

ssize_t __wrap_read(int descriptor, void *to, size_t length)
{
    ssize_t count;
    do
        count = __real_read(descriptor, to, length);
    while (count < 0 && errno == EINTR);
    if (count < 0)
        read_error = errno;
    else
        text_length = keep(text, sizeof text, text_length, to, (size_t)count);
    return count;
}

ssize_t __wrap_write(int descriptor, const void *from, size_t length)
{
    ssize_t count;
    /* The program says in its own words that a read or a write failed. That is told below. */
    if (read_error != 0 || write_error != 0)
        return (ssize_t)length;
    sigaction(SIGPIPE, &broken_pipe, NULL);
    do
        count = __real_write(descriptor, from, length);
    while (count < 0 && errno == EINTR);
    if (count < 0)
        write_error = errno;
    else
        printed_length = keep(printed, sizeof printed - 1, printed_length, from, (size_t)count);
    return count;
}

/* Ends what was printed by the command itself. */
static int end_print(void)
{
    if (ferror(stdout) || fflush(stdout) != 0)
        return stop("standard output was not written: %s", strerror(errno));
    return 0;
}

static int bad_usage(void)
{
    print_usage(stderr);
    return NOTHING_CONVERTED;
}

/* Makes a file the standard input. Gives whether that was done. */
static int take_file(const char *path)
{
    struct stat status;
    const int file = open(path, O_RDONLY);
    if (file < 0) {
        stop("%s cannot be read: %s", path, strerror(errno));
        return 0;
    }
    if (fstat(file, &status) == 0 && S_ISDIR(status.st_mode)) {
        stop("%s is a folder", path);
        return 0;
    }
    if (file == STDIN_FILENO)
        return 1;
    if (dup2(file, STDIN_FILENO) < 0) {
        stop("%s cannot be read: %s", path, strerror(errno));
        return 0;
    }
    close(file);
    return 1;
}

/* Says in words what was refused. Whether anybody reads it plays no part. */
static void explain(const char *path)
{
    struct node_file file;
    char *behind = NULL;
    const unsigned long number = strtoul(printed + sizeof refused - 1, &behind, 10);
    const unsigned long place = strtoul(behind, NULL, 10);
    file.name = path;
    file.text = text;
    file.length = text_length;
    signal(SIGPIPE, SIG_IGN);
    print_refusal(stderr, file, (uint32_t)number, (uint32_t)place);
}

static int convert(const char *path)
{
    int status;
    /* A closed standard input is an empty one, as for ./simbolufa. */
    if (fcntl(STDIN_FILENO, F_GETFD) < 0)
        open("/dev/null", O_RDONLY);
    if (path != NULL && !take_file(path))
        return NOTHING_CONVERTED;
    sigaction(SIGPIPE, NULL, &broken_pipe);
    status = __real_main();
    sigaction(SIGPIPE, &broken_pipe, NULL);
    if (read_error != 0)
        return stop("%s cannot be read: %s", path != NULL ? path : "standard input", strerror(read_error));
    if (write_error != 0)
        return stop("standard output was not written: %s", strerror(write_error));
    if (status != 0)
        return NOTHING_CONVERTED;
    if (strncmp(printed, refused, sizeof refused - 1) != 0)
        return CONVERTED;
    explain(path);
    return REFUSED;
}

int __wrap_main(int count, char **words)
{
    static char line[BUFSIZ];
    const char *word = count > 1 ? words[1] : NULL;
    /* A line is written at once, also where several commands write to one file. */
    setvbuf(stderr, line, _IOLBF, sizeof line);
    if (count > 2)
        return bad_usage();
    if (word == NULL || word[0] != '-')
        return convert(word);
    if (strcmp(word, "-h") == 0 || strcmp(word, "--help") == 0) {
        print_usage(stdout);
        print_numbers(stdout);
        return end_print();
    }
    if (strcmp(word, "--version") == 0) {
        puts("simbolufa " SIMBOLUFA_VERSION);
        return end_print();
    }
    return bad_usage();
}
