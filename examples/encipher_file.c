/*
 * Enciphers or deciphers a file in portions; the two are the same.
 *
 *     encipher_file KEY_FILE IV_FILE INPUT OUTPUT [POSITION]
 *
 * KEY_FILE has the 32 or 64 bytes of the key, which are not all zero, IV_FILE the 32 of the IV. The first byte of INPUT meets keystream byte
 * POSITION, 0 where it is not given.
 *
 * Where OUTPUT is a regular file, or is not there, what is written goes to OUTPUT.part, which must not be there yet, and takes the name
 * OUTPUT once it is whole; so INPUT and OUTPUT may be the same file. The owner and the mode of a file that is replaced are kept; a new file
 * has mode 0600, since it may hold plain text. Where OUTPUT is a symbolic link, the file that it leads to is replaced, and the link stays.
 * Anything else, such as a device, a pipe or a terminal, is written to directly.
 *
 * The status is 0 where all of INPUT was worked and written; else it is 1, and a message on standard error says what failed.
 *
 *     gcc -std=c11 -O2 -Iinclude examples/encipher_file.c target/staticlib/libstrumok_c.a -o encipher_file
 */
#define _XOPEN_SOURCE 700 /* POSIX: open, stat, fchmod, realpath */

#include "strumok.h"

#include <errno.h>
#include <fcntl.h>
#include <signal.h>
#include <stdbool.h>
#include <stdio.h>
#include <stdlib.h>
#include <string.h>
#include <sys/stat.h>
#include <unistd.h>

enum { LONGEST_KEY = 64, IV_LENGTH = 32, PORTION = 4096 };

/* Says on standard error what failed; false, for the caller to hand on. */
static bool failed(const char *what, const char *why)
{
    fprintf(stderr, "encipher_file: %s: %s\n", what, why);
    return false;
}

static bool accepted(uint64_t number)
{
    switch (number) {
    case STRUMOK_ACCEPTED:
        return true;
    case STRUMOK_REFUSED_KEY_LENGTH:
        return failed("refused 1", "the key length is neither 32 nor 64");
    case STRUMOK_REFUSED_IV_LENGTH:
        return failed("refused 2", "the IV length is not 32");
    case STRUMOK_REFUSED_NEW_POSITION_ABOVE:
        return failed("refused 7", "the new position would be above 16777216");
    case STRUMOK_REFUSED_ZERO_KEY:
        return failed("refused 14", "the key is all zeros");
    default:
        return failed("refused", "a state that strumok_open did not make");
    }
}

/* Overwrites a secret; volatile keeps the compiler from leaving this out. */
static void wipe(void *secret, size_t length)
{
    volatile uint8_t *byte = secret;
    while (length-- != 0)
        *byte++ = 0;
}

/* Reads a file of at most room bytes; of a longer one, so many. */
static bool read_bytes(const char *name, uint8_t *bytes, size_t room, size_t *length)
{
    FILE *file = fopen(name, "rb");
    if (file == NULL)
        return failed(name, strerror(errno));
    *length = fread(bytes, 1, room, file);
    const bool done = ferror(file) ? failed(name, strerror(errno)) : true;
    fclose(file);
    return done;
}

/* Opens the state. There is room for a byte too many, so that strumok_open sees a file that is too long, and refuses it. */
static bool open_state(uint64_t state[STRUMOK_STATE_WORDS], const char *key_name, const char *iv_name)
{
    uint8_t key[LONGEST_KEY + 1], iv[IV_LENGTH + 1];
    size_t key_len, iv_len;
    const bool done = read_bytes(key_name, key, sizeof key, &key_len)
                      && read_bytes(iv_name, iv, sizeof iv, &iv_len)
                      && accepted(strumok_open(key, key_len, iv, iv_len, state));
    wipe(key, sizeof key);
    return done;
}

/* Moves the state on by as many bytes as the text says. strtoll makes the largest of a number too large, and strumok_move refuses that. */
static bool move_on(uint64_t state[STRUMOK_STATE_WORDS], const char *text)
{
    char *end;
    const long long distance = strtoll(text, &end, 10);
    if (*text < '0' || *text > '9' || *end != '\0')
        return failed(text, "not a position in decimal digits");
    return accepted(strumok_move(state, distance));
}

/* Applies the keystream to the input, portion by portion. One that is not full is the last. */
static bool apply_to_all(uint64_t state[STRUMOK_STATE_WORDS], FILE *input, FILE *output)
{
    uint8_t portion[PORTION];
    size_t count;
    do {
        count = fread(portion, 1, sizeof portion, input);
        if (ferror(input))
            return failed("reading the input", strerror(errno));
        if (!accepted(strumok_window(state, portion, sizeof portion, 0, count)))
            return false;
        if (fwrite(portion, 1, count, output) != count)
            return failed("writing the output", strerror(errno));
    } while (count == sizeof portion);
    return true;
}

/* Writes all of it by a descriptor that was just opened, and closes that. Owner and mode are those of old where that is not NULL. */
static bool write_all(uint64_t state[STRUMOK_STATE_WORDS], FILE *input, int descriptor, const char *name, const struct stat *old)
{
    FILE *output = descriptor < 0 ? NULL : fdopen(descriptor, "wb");
    if (output == NULL)
        return failed(name, strerror(errno));
    bool done = apply_to_all(state, input, output);
    if (done && old != NULL && (fchown(descriptor, old->st_uid, old->st_gid) != 0 || fchmod(descriptor, old->st_mode & 0777) != 0))
        done = failed("keeping the output's owner and mode", strerror(errno));
    if (fclose(output) != 0 && done)
        done = failed(name, strerror(errno));
    return done;
}

/* Writes a file under another name, and gives it its own only where all of it is written. old is what it replaces, or NULL. */
static bool write_file(uint64_t state[STRUMOK_STATE_WORDS], FILE *input, const char *name, const struct stat *old)
{
    char part[FILENAME_MAX];
    const int length = snprintf(part, sizeof part, "%s.part", name);
    if (length < 0 || (size_t)length >= sizeof part)
        return failed(name, "the name is too long");
    const int descriptor = open(part, O_WRONLY | O_CREAT | O_EXCL, 0600);
    if (descriptor < 0 && errno == EEXIST)
        return failed(part, "is there already: another run is under way, or one was cut off; if none is under way, remove it");
    if (descriptor < 0)
        return failed(part, strerror(errno));
    bool done = write_all(state, input, descriptor, part, old);
    if (done && rename(part, name) != 0)
        done = failed(name, strerror(errno));
    if (!done)
        remove(part);
    return done;
}

/* Writes the output: a file under its real name, so that a symbolic link stays; anything else that is there directly. */
static bool write_output(uint64_t state[STRUMOK_STATE_WORDS], FILE *input, const char *name)
{
    struct stat old;
    if (stat(name, &old) != 0) {
        if (errno != ENOENT)
            return failed(name, strerror(errno));
        if (lstat(name, &old) == 0)
            return failed(name, "a symbolic link that leads to nothing");
        return write_file(state, input, name, NULL);
    }
    if (!S_ISREG(old.st_mode))
        return write_all(state, input, open(name, O_WRONLY), name, NULL);
    char *real = realpath(name, NULL);
    if (real == NULL)
        return failed(name, strerror(errno));
    const bool done = write_file(state, input, real, &old);
    free(real);
    return done;
}

static bool encipher(uint64_t state[STRUMOK_STATE_WORDS], const char *input_name, const char *output_name)
{
    FILE *input = fopen(input_name, "rb");
    if (input == NULL)
        return failed(input_name, strerror(errno));
    const bool done = write_output(state, input, output_name);
    fclose(input);
    return done;
}

int main(int argc, char **argv)
{
    uint64_t state[STRUMOK_STATE_WORDS];
    if (argc != 5 && argc != 6) {
        fputs("usage: encipher_file KEY_FILE IV_FILE INPUT OUTPUT [POSITION]\n", stderr);
        return EXIT_FAILURE;
    }
    signal(SIGPIPE, SIG_IGN); /* to write to a pipe that nobody reads fails, with a message */
    const bool done = open_state(state, argv[1], argv[2])
                      && (argc == 5 || move_on(state, argv[5]))
                      && encipher(state, argv[3], argv[4]);
    wipe(state, sizeof state);
    return done ? EXIT_SUCCESS : EXIT_FAILURE;
}
