/*
 * example INDEX DATA KEY [LIMIT]: a key's value within the limit and the listing at that limit, from an index file of
 * the store and its data. Without LIMIT it is 2^64 - 1. What fails is said on standard error, with exit code 1.
 *
 *     make library
 *     cc -std=c99 -I bindings/c -o target/example bindings/c/example.c target/staticlib/libkiban_c.a
 *     target/example sample/wash.idx sample/wash.dat "2026-03-02 05:40 tram 2017"
 */
#include "kiban.h"
#include "kiban_file.h"

#include <errno.h>
#include <stdio.h>
#include <stdlib.h>
#include <string.h>

/* A file's bytes, or a part of them. */
struct bytes {
    uint8_t *at;
    size_t length;
};

/* Says what failed, and why. Returns 0, which stands for failure in all of this file but main. */
static int failed(const char *what, const char *why)
{
    fprintf(stderr, "example: %s: %s\n", what, why);
    return 0;
}

/* Says a refusal and its cause. */
static int refused(const char *path, uint64_t number)
{
    fprintf(stderr, "example: %s: refused %llu: %s\n", path, (unsigned long long)number, kiban_cause(number));
    return 0;
}

/* Reads a stream to its end; file->at is to be freed, also where this fails. */
static int read_all(FILE *stream, struct bytes *file)
{
    const size_t step = 65536;
    while (!feof(stream) && !ferror(stream)) {
        uint8_t *longer = (uint8_t *)realloc(file->at, file->length + step);
        if (longer == NULL)
            return 0;
        file->at = longer;
        file->length += fread(longer + file->length, 1, step, stream);
    }
    return !ferror(stream);
}

/* Reads a file. */
static int read_file(const char *path, struct bytes *file)
{
    FILE *stream = fopen(path, "rb");
    if (stream == NULL)
        return failed(path, strerror(errno));
    const int whole = read_all(stream, file) || failed(path, strerror(errno));
    fclose(stream);
    return whole;
}

/* Reads a limit: decimal digits, up to 2^64 - 1. */
static int read_limit(const char *text, uint64_t *limit)
{
    errno = 0;
    *limit = strtoull(text, NULL, 10);
    if (errno != 0 || *text == '\0' || text[strspn(text, "0123456789")] != '\0')
        return failed(text, "LIMIT is not a decimal number up to 18446744073709551615");
    return 1;
}

/* Says where a value within a limit is no longer the key's: it was withdrawn or corrected past the limit. */
static void print_since(const struct kiban_index *index, const char *key, const uint8_t *value, size_t length)
{
    const uint8_t *newest;
    size_t newest_length;
    if (kiban_value(index, (const uint8_t *)key, strlen(key), 0, 0, &newest, &newest_length) == KIBAN_ANSWER_WITHDRAWN)
        printf("%s: withdrawn since\n", key);
    else if (newest != value || newest_length != length)
        printf("%s: corrected since\n", key);
}

/* Prints a key's value within the limit, or why there is none. */
static int print_value(const char *path, const struct kiban_index *index, const char *key, uint64_t limit)
{
    const uint8_t *value;
    size_t length;
    switch (kiban_value(index, (const uint8_t *)key, strlen(key), 1, limit, &value, &length)) {
    case KIBAN_ANSWER_PUT:
        printf("%s: %llu bytes: ", key, (unsigned long long)length);
        fwrite(value, 1, length, stdout);
        printf("\n");
        print_since(index, key, value, length);
        break;
    case KIBAN_ANSWER_WITHDRAWN:
        printf("%s: withdrawn\n", key);
        break;
    case KIBAN_ANSWER_NOTHING:
        printf("%s: no record within the limit\n", key);
        break;
    case KIBAN_ANSWER_DAMAGE:
        return refused(path, KIBAN_REFUSED_DAMAGE);
    }
    return 1;
}

/* Writes a number's eight bytes, the lowest first. */
static void put_u64(uint8_t *at, uint64_t number)
{
    unsigned i;
    for (i = 0; i < 8; i++)
        at[i] = (uint8_t)(number >> 8 * i);
}

/* Prints the listing at the limit. An index that is too long to be listed was looked up all the same. */
static int print_listing(const char *path, const struct kiban_index *index, uint64_t limit)
{
    static uint8_t text[KIBAN_LISTING_BYTES];
    uint64_t length = 0;
    uint8_t *input = (uint8_t *)malloc(16 + index->body_length);
    if (input == NULL)
        return failed("listing", strerror(errno));
    put_u64(input, limit);
    put_u64(input + 8, index->data_length);
    memcpy(input + 16, index->body, index->body_length);
    uint64_t number = kiban_listing(input, 16 + index->body_length, text, sizeof text, &length, 1);
    free(input);
    if (memcmp(text, "refused ", 8) == 0)
        number = strtoull((const char *)text + 8, NULL, 10);
    if (number == KIBAN_REFUSED_INPUT)
        fprintf(stderr, "example: %s: too long to be listed; what stands above holds\n", path);
    else if (number != 0)
        return refused(path, number);
    else
        fwrite(text, 1, length, stdout);
    return (fflush(stdout) == 0 && !ferror(stdout)) || failed("standard output", "it took no more: the text is cut");
}

/* Tests and cuts the trailer, opens the index, which validates it, and prints what was asked for. */
static int show(const char *path, struct bytes file, struct bytes data, const char *key, uint64_t limit)
{
    struct kiban_index index;
    size_t body_length;
    if (!kiban_file_body(file.at, file.length, &body_length))
        return failed(path, "no right trailer: the file is cut, damaged or no index file of the store");
    const uint64_t number = kiban_open(file.at, body_length, data.at, data.length, &index);
    if (number != 0)
        return refused(path, number);
    return print_value(path, &index, key, limit) && print_listing(path, &index, limit);
}

int main(int argc, char **argv)
{
    struct bytes file = {NULL, 0}, data = {NULL, 0};
    uint64_t limit = UINT64_MAX;
    int done = 0;
    if (argc != 4 && argc != 5)
        failed("usage", "example INDEX DATA KEY [LIMIT]");
    else if ((argc == 4 || read_limit(argv[4], &limit)) && read_file(argv[1], &file) && read_file(argv[2], &data))
        done = show(argv[1], file, data, argv[3], limit);
    free(file.at);
    free(data.at);
    return done ? 0 : 1;
}
