/*
 * test INDEX: every call of kiban.h on the example of the user's document, on slices of no elements and on washes, one
 * of them corrected and one withdrawn; kiban_open and kiban_value, also on versions oldest first, and kiban_cause; the
 * trailer of kiban_file.h on INDEX, an index file of the store; and lists of keys that finish cannot place, through
 * kiban_keys.h. Says nothing where all is as expected; else says what differs, and ends with 1.
 */
#include "kiban_file.h"
#include "kiban_keys.h"

#include <stdio.h>
#include <string.h>

enum { KEYS = 3, RECORDS = 5, ARENA = 132, BODY = 204, DATA = 116, CELLS = 3 + 256, MOST = 65536 };
/* The most keys of a list here, and room for the arena and the body of each. */
enum { FEW = 4, ROOM = 512 };
/* The bytes of a version: kind, sequence, length, offset; and where its length stands. */
enum { VERSION = 21, VERSION_LENGTH = 9 };

struct record {
    const char *key;
    uint8_t kind, new_key;
    uint64_t sequence, offset, length;
};

/* Keys rise; each key's versions, newest first. */
static const struct record records[RECORDS] = {
    {"A", KIBAN_PUT, 1, 9, 100, 8},
    {"A", KIBAN_PUT, 0, 4, 40, 8},
    {"B", KIBAN_TOMBSTONE, 1, 7, 108, 0},
    {"B", KIBAN_PUT, 0, 3, 60, 8},
    {"C", KIBAN_PUT, 1, 12, 108, 8},
};

static int differing;

/* A number has to be this one. */
static void expect(const char *what, uint64_t have, uint64_t want)
{
    if (have != want) {
        fprintf(stderr, "%s: %llu, expected %llu\n", what, (unsigned long long)have, (unsigned long long)want);
        differing = 1;
    }
}

/* Something has to be so. */
static void holds(const char *what, int so)
{
    expect(what, so != 0, 1);
}

/* A text as bytes. */
static const uint8_t *bytes(const char *text)
{
    return (const uint8_t *)text;
}

/* The seed of the first attempt, and three numbers sorted. */
static void numbers(void)
{
    uint64_t three[3] = {9, 4, 7};
    expect("mix", kiban_mix(UINT64_C(0x9e3779b97f4a7c15)), UINT64_C(0xe220a8397b1dcdaf));
    expect("sort", kiban_sort(three, 3), 0);
    holds("sorted", three[0] == 4 && three[1] == 7 && three[2] == 9);
}

/* Whether a number is that of a refusal. */
static int has_cause(uint64_t number)
{
    return strcmp(kiban_cause(number), "no number of a refusal") != 0;
}

/* The first number with the same cause. */
static uint64_t first_of_cause(uint64_t number)
{
    uint64_t first = 0;
    while (strcmp(kiban_cause(first), kiban_cause(number)) != 0)
        first++;
    return first;
}

/* Each refusal has a cause of its own, and no other number has one. */
static void causes(void)
{
    uint64_t number;
    for (number = 0; number <= 31; number++) {
        const int none = number == 0 || number == 13 || (number >= 17 && number <= 19) || number == 31;
        holds("a cause, or none", has_cause(number) != none);
        expect("the first of that cause", first_of_cause(number), none ? 0 : number);
    }
    holds("no cause past 32 bits", !has_cause((UINT64_C(1) << 32) + 4) && !has_cause(UINT64_MAX));
    holds("the cause of 10", strcmp(kiban_cause(KIBAN_REFUSED_ATTEMPTS), "all eight attempts failed") == 0);
}

/* One more record in an arena that has so much room. */
static uint64_t add(uint8_t *arena, size_t room, uint64_t *state, const struct record *r, uint64_t *place)
{
    return kiban_add(arena, room, state, KIBAN_STATE_WORDS, bytes(r->key), strlen(r->key), r->kind, r->length,
                     r->sequence, r->new_key, place, 1);
}

/* Adds records with their offsets; the place of the last one's. */
static uint64_t add_all(uint8_t *arena, size_t room, uint64_t *state, const struct record *from, size_t count)
{
    uint64_t place = 0;
    size_t i;
    for (i = 0; i < count; i++) {
        expect("add", add(arena, room, state, &from[i], &place), 0);
        expect("set offset", kiban_set_offset(arena, room, state, KIBAN_STATE_WORDS, place, from[i].offset), 0);
    }
    return place;
}

/* Adds the document's records; a newer version after an older is refused, and what has no room. */
static void build(uint8_t *arena, uint64_t *state)
{
    const struct record newer = {"C", KIBAN_PUT, 0, 13, 0, 8}, further = {"D", KIBAN_PUT, 1, 1, 0, 8};
    uint64_t place = add_all(arena, ARENA, state, records, RECORDS);
    expect("a newer version after an older", add(arena, ARENA, state, &newer, &place), KIBAN_REFUSED_ORDER);
    expect("a key more than there is room for", add(arena, ARENA, state, &further, &place), KIBAN_REFUSED_BUFFER);
    expect("used", state[KIBAN_STATE_USED], ARENA);
    expect("keys", state[KIBAN_STATE_KEYS], KEYS);
    expect("the last place", place, ARENA - 8);
}

/* Finishes an arena of up to FEW keys: finish's number, and the body's length. */
static uint64_t finish_few(const uint8_t *arena, const uint64_t *state, uint8_t *body, uint64_t *length)
{
    const size_t n = state[KIBAN_STATE_KEYS], used = state[KIBAN_STATE_USED];
    uint64_t wide[2 * FEW];
    uint32_t narrow[8 * FEW + 8];
    return kiban_finish(arena, used, body, kiban_body_bytes(n, used), wide, kiban_finish_wide(n), narrow,
                        kiban_finish_narrow(n), length, 1);
}

/* Finishes the document's arena, and validates the body for its data and for a byte less. */
static void finish(const uint8_t *arena, const uint64_t *state, uint8_t *body)
{
    uint64_t length = 0;
    expect("wide", kiban_finish_wide(KEYS), 2 * KEYS);
    expect("narrow", kiban_finish_narrow(KEYS), 8 * KEYS + 8);
    expect("the body's bytes", kiban_body_bytes(KEYS, ARENA), BODY);
    expect("finish", finish_few(arena, state, body, &length), 0);
    expect("the body's length", length, BODY);
    expect("validate", kiban_validate(body, BODY, DATA), 0);
    expect("validate for less data", kiban_validate(body, BODY, DATA - 1), KIBAN_REFUSED_VALUE);
}

/* Looks a key up; expected is the record, or none. */
static void look_up(const uint8_t *body, const uint8_t *data, const char *key, uint8_t limited, uint64_t limit,
                    const struct record *expected)
{
    uint64_t answer[KIBAN_RECORD_WORDS] = {0, 0, 0, 0};
    uint64_t got = kiban_get(body, BODY, data, DATA, bytes(key), strlen(key), limited, limit, answer,
                             KIBAN_RECORD_WORDS);
    expect("get", got, expected ? KIBAN_FOUND : KIBAN_NOTHING);
    expect("kind", answer[KIBAN_RECORD_KIND], expected ? expected->kind : 0);
    expect("sequence", answer[KIBAN_RECORD_SEQUENCE], expected ? expected->sequence : 0);
    expect("offset", answer[KIBAN_RECORD_OFFSET], expected ? expected->offset : 0);
    expect("length", answer[KIBAN_RECORD_LENGTH], expected ? expected->length : 0);
}

/* Builds a filter of hashes: its length. */
static uint64_t build_filter(uint64_t *hashes, uint8_t *out)
{
    uint64_t wide[CELLS + KEYS], length = 0;
    uint32_t narrow[2 * CELLS + KEYS];
    expect("wide", kiban_filter_wide(KEYS), sizeof wide / sizeof *wide);
    expect("narrow", kiban_filter_narrow(KEYS), sizeof narrow / sizeof *narrow);
    expect("the filter's room", kiban_filter_bytes(KEYS), 48 + CELLS);
    expect("filter build", kiban_filter_build(hashes, KEYS, wide, CELLS + KEYS, narrow, 2 * CELLS + KEYS, out,
                                              48 + CELLS, &length, 1), 0);
    expect("the filter's length", length, 48 + 14);
    return length;
}

/* The header's lengths suffice for every count of hashes: workspace is tested before output, of which none is lent. */
static void filter_room(void)
{
    static uint64_t hashes[MOST], wide[3 * MOST];
    static uint32_t narrow[4 * MOST];
    uint64_t answer = 0;
    size_t n;
    for (n = 1; n <= MOST; n++)
        expect("room", kiban_filter_build(hashes, n, wide, kiban_filter_wide(n), narrow, kiban_filter_narrow(n), NULL,
                                          0, &answer, 1), KIBAN_REFUSED_BUFFER);
}

/* Reads and asks a filter: none of its hashes is absent, another is. They stand for the store's: XXH3 of A, B, C, D. */
static void filter(void)
{
    const uint64_t absent = UINT64_C(0xcbcb1bf38c89196e);
    uint64_t hashes[KEYS] = {UINT64_C(0xd0d496e05c553485), UINT64_C(0x74d3766ca02423f3), UINT64_C(0x616e98f5aa1c80c0)};
    uint64_t answer[KIBAN_FILTER_WORDS];
    uint8_t out[48 + CELLS], maybe[KEYS];
    const uint64_t length = build_filter(hashes, out);
    size_t i;
    expect("filter read", kiban_filter_read(out, length, answer, KIBAN_FILTER_WORDS), 0);
    expect("form", answer[KIBAN_FILTER_FORM], KIBAN_FUSE);
    expect("keys of the filter", answer[KIBAN_FILTER_KEYS], KEYS);
    expect("cells", answer[KIBAN_FILTER_CELLS], 14);
    expect("ask all", kiban_filter_ask_all(out, length, hashes, KEYS, maybe, KEYS), 0);
    for (i = 0; i < KEYS; i++)
        expect("maybe", maybe[i], KIBAN_MAYBE);
    expect("ask", kiban_filter_ask(out, length, absent), KIBAN_ABSENT);
    expect("ask a filter cut short", kiban_filter_ask(out, length - 1, absent), KIBAN_REFUSED_FILTER);
}

/* The listing at limit 8. */
static void listing(const uint8_t *body)
{
    static const char expected[] = "limit 8 keys 3 shown 1\n41 4 put 40 8\n";
    static uint8_t text[KIBAN_LISTING_BYTES];
    uint8_t input[16 + BODY] = {8, 0, 0, 0, 0, 0, 0, 0, DATA};
    uint64_t length = 0;
    memcpy(input + 16, body, BODY);
    expect("listing", kiban_listing(input, sizeof input, text, sizeof text, &length, 1), 0);
    expect("the text's length", length, sizeof expected - 1);
    holds("the text", memcmp(text, expected, sizeof expected - 1) == 0);
}

/* A slice of no elements may have a null pointer: here all have. */
static void all_empty(void)
{
    expect("hash", kiban_hash(NULL, 0, 0), 0);
    expect("sort", kiban_sort(NULL, 0), 0);
    expect("add", kiban_add(NULL, 0, NULL, 0, NULL, 0, KIBAN_PUT, 0, 0, 1, NULL, 0), KIBAN_REFUSED_BUFFER);
    expect("set offset", kiban_set_offset(NULL, 0, NULL, 0, 0, 0), KIBAN_REFUSED_STATE);
    expect("finish", kiban_finish(NULL, 0, NULL, 0, NULL, 0, NULL, 0, NULL, 0), KIBAN_REFUSED_BUFFER);
    expect("validate", kiban_validate(NULL, 0, 0), KIBAN_REFUSED_MAGIC);
    expect("get", kiban_get(NULL, 0, NULL, 0, NULL, 0, 0, 0, NULL, 0), KIBAN_REFUSED_BUFFER);
    expect("build", kiban_filter_build(NULL, 0, NULL, 0, NULL, 0, NULL, 0, NULL, 0), KIBAN_REFUSED_BUFFER);
    expect("read", kiban_filter_read(NULL, 0, NULL, 0), KIBAN_REFUSED_BUFFER);
    expect("ask", kiban_filter_ask(NULL, 0, 0), KIBAN_REFUSED_FILTER);
    expect("ask all", kiban_filter_ask_all(NULL, 0, NULL, 0, NULL, 0), KIBAN_REFUSED_FILTER);
    expect("listing", kiban_listing(NULL, 0, NULL, 0, NULL, 0), KIBAN_REFUSED_BUFFER);
}

/* The same where the call goes on to look at its input, or has nothing to do. */
static void some_empty(void)
{
    uint64_t state[KIBAN_STATE_WORDS] = {0, 0, 0}, answer[KIBAN_FILTER_WORDS];
    uint8_t out[48];
    expect("add, no state", kiban_add(NULL, 0, NULL, 0, NULL, 0, KIBAN_PUT, 0, 0, 1, answer, 1), KIBAN_REFUSED_STATE);
    expect("add, no room", kiban_add(NULL, 0, state, KIBAN_STATE_WORDS, NULL, 0, KIBAN_PUT, 0, 0, 1, answer, 1),
           KIBAN_REFUSED_BUFFER);
    expect("set offset, nothing added", kiban_set_offset(NULL, 0, state, KIBAN_STATE_WORDS, 0, 0), KIBAN_REFUSED_PLACE);
    expect("finish, no key", kiban_finish(NULL, 0, NULL, 0, NULL, 0, NULL, 0, answer, 1), KIBAN_REFUSED_COUNT);
    expect("get, no body", kiban_get(NULL, 0, NULL, 0, NULL, 0, 0, 0, answer, KIBAN_RECORD_WORDS),
           KIBAN_REFUSED_DAMAGE);
    expect("build, no room", kiban_filter_build(NULL, 0, NULL, 0, NULL, 0, NULL, 0, answer, 1), KIBAN_REFUSED_BUFFER);
    expect("build of no hashes", kiban_filter_build(NULL, 0, NULL, 0, NULL, 0, out, 48, answer, 1), 0);
    expect("ask for no hashes", kiban_filter_ask_all(out, 48, NULL, 0, NULL, 0), 0);
    expect("read nothing", kiban_filter_read(NULL, 0, answer, KIBAN_FILTER_WORDS), KIBAN_REFUSED_FILTER);
    expect("listing, no room", kiban_listing(NULL, 0, NULL, 0, answer, 1), KIBAN_REFUSED_BUFFER);
    expect("listing of nothing", kiban_listing(NULL, 0, out, 48, answer, 1), 0);
}

/* A list whose one key has no bytes, and a value of none, beside data of none. */
static void empty_key(void)
{
    uint64_t state[KIBAN_STATE_WORDS] = {0, 0, 0}, wide[2], answer = 0;
    uint32_t narrow[16];
    uint8_t arena[29], body[32 + 4 + 12 + 29];
    struct kiban_index index;
    const uint8_t *value = body;
    const size_t size = sizeof body;
    size_t length = 1;
    expect("add", kiban_add(arena, 29, state, KIBAN_STATE_WORDS, NULL, 0, KIBAN_PUT, 0, 5, 1, &answer, 1), 0);
    expect("finish, no workspace", kiban_finish(arena, 29, body, size, NULL, 0, NULL, 0, &answer, 1),
           KIBAN_REFUSED_WORKSPACE);
    expect("finish, no room", kiban_finish(arena, 29, NULL, 0, wide, 2, narrow, 16, &answer, 1), KIBAN_REFUSED_BUFFER);
    expect("finish", kiban_finish(arena, 29, body, size, wide, 2, narrow, 16, &answer, 1), 0);
    expect("open", kiban_open(body, size, NULL, 0, &index), 0);
    expect("value", kiban_value(&index, NULL, 0, 0, 0, &value, &length), KIBAN_ANSWER_PUT);
    holds("the data's NULL, no bytes", value == NULL && length == 0);
}

/* The litres of the washes, as the meter's text. */
static const char litres[] = "8120812655";

/* Tram 17's figure of 4 was corrected at 9. Tram 23's of 3 was withdrawn at 7: the tombstone has the old offset. */
static const struct record washes[] = {
    {"tram 17", KIBAN_PUT, 1, 9, 4, 3},
    {"tram 17", KIBAN_PUT, 0, 4, 0, 4},
    {"tram 23", KIBAN_TOMBSTONE, 1, 7, 7, 0},
    {"tram 23", KIBAN_PUT, 0, 3, 7, 3},
};

/* The answers' numbers: past those of kiban_get and of every refusal. */
static void answers(void)
{
    expect("put", KIBAN_ANSWER_PUT, 101);
    expect("withdrawn", KIBAN_ANSWER_WITHDRAWN, 102);
    expect("nothing", KIBAN_ANSWER_NOTHING, 103);
    expect("damage", KIBAN_ANSWER_DAMAGE, 104);
}

/* Asks for a key's value; expected is the answer, and the put whose value it is, or none. */
static void expect_value(const struct kiban_index *index, const char *key, uint8_t limited, uint64_t limit,
                         enum kiban_answer answer, const struct record *put)
{
    const uint8_t *value = bytes(key);
    size_t length = strlen(key);
    expect(key, kiban_value(index, bytes(key), strlen(key), limited, limit, &value, &length), answer);
    holds("the value's place", value == (put ? index->data + put->offset : NULL));
    expect("the value's length", length, put ? put->length : 0);
}

/* The washes, asked before and after the correction and the withdrawal. */
static void values(const struct kiban_index *index)
{
    expect_value(index, "tram 17", 0, 4, KIBAN_ANSWER_PUT, &washes[0]);
    expect_value(index, "tram 17", 1, 9, KIBAN_ANSWER_PUT, &washes[0]);
    expect_value(index, "tram 17", 1, 8, KIBAN_ANSWER_PUT, &washes[1]);
    expect_value(index, "tram 17", 1, 3, KIBAN_ANSWER_NOTHING, NULL);
    expect_value(index, "tram 23", 1, UINT64_MAX, KIBAN_ANSWER_WITHDRAWN, NULL);
    expect_value(index, "tram 23", 1, 7, KIBAN_ANSWER_WITHDRAWN, NULL);
    expect_value(index, "tram 23", 1, 6, KIBAN_ANSWER_PUT, &washes[3]);
    expect_value(index, "tram 23", 1, 2, KIBAN_ANSWER_NOTHING, NULL);
    expect_value(index, "tram 99", 0, 0, KIBAN_ANSWER_NOTHING, NULL);
}

/* What an index has is opened again, into itself, and refused with a number: it is then all zero, and has no value. */
static void open_refused(struct kiban_index index, uint64_t number)
{
    expect("open", kiban_open(index.body, index.body_length, index.data, index.data_length, &index), number);
    holds("no body", index.body == NULL && index.body_length == 0);
    holds("no data", index.data == NULL && index.data_length == 0);
    expect_value(&index, "tram 17", 0, 0, KIBAN_ANSWER_DAMAGE, NULL);
    expect_value(&index, "tram 23", 0, 0, KIBAN_ANSWER_DAMAGE, NULL);
    expect_value(&index, "", 1, 0, KIBAN_ANSWER_DAMAGE, NULL);
}

/* Asks for tram 23's record without a limit, of bytes that validation refuses with 29. */
static void get_refused(const struct kiban_index *index, uint64_t *found)
{
    expect("validate", kiban_validate(index->body, index->body_length, index->data_length), KIBAN_REFUSED_VALUE);
    expect("get", kiban_get(index->body, index->body_length, index->data, index->data_length, bytes("tram 23"), 7, 0, 0,
                            found, KIBAN_RECORD_WORDS), KIBAN_FOUND);
}

/*
 * Tram 23's two versions swapped, so oldest first. A lookup in these bytes gives the withdrawn figure; kiban_open does
 * not let it come to that.
 */
static void oldest_first(struct kiban_index index)
{
    const size_t older = index.body_length - VERSION, newer = older - VERSION;
    uint64_t found[KIBAN_RECORD_WORDS] = {0, 0, 0, 0};
    uint8_t swapped[ROOM];
    memcpy(swapped, index.body, newer);
    memcpy(swapped + newer, index.body + older, VERSION);
    memcpy(swapped + older, index.body + newer, VERSION);
    index.body = swapped;
    get_refused(&index, found);
    expect("a put", found[KIBAN_RECORD_KIND], KIBAN_PUT);
    expect("the withdrawn one", found[KIBAN_RECORD_SEQUENCE], washes[3].sequence);
    open_refused(index, KIBAN_REFUSED_VALUE);
}

/* An index changed since it was opened: a tombstone that has the old length, less data, no body. None gives a value. */
static void changed(struct kiban_index index)
{
    const size_t whole = index.data_length;
    uint64_t found[KIBAN_RECORD_WORDS] = {0, 0, 0, 0};
    uint8_t body[ROOM];
    memcpy(body, index.body, index.body_length);
    body[index.body_length - 2 * VERSION + VERSION_LENGTH] = 3;
    index.body = body;
    get_refused(&index, found);
    expect("a tombstone", found[KIBAN_RECORD_KIND], KIBAN_TOMBSTONE);
    expect("its length", found[KIBAN_RECORD_LENGTH], 3);
    expect_value(&index, "tram 23", 0, 0, KIBAN_ANSWER_WITHDRAWN, NULL);
    index.data_length = 6;
    expect_value(&index, "tram 17", 0, 0, KIBAN_ANSWER_DAMAGE, NULL);
    index.data_length = whole;
    index.body_length = 0;
    expect_value(&index, "tram 17", 0, 0, KIBAN_ANSWER_DAMAGE, NULL);
}

/* An index opened for less data than it was made for, and with less of its body. */
static void open_less(struct kiban_index index)
{
    index.data_length--;
    open_refused(index, KIBAN_REFUSED_VALUE);
    index.data_length++;
    index.body_length--;
    open_refused(index, KIBAN_REFUSED_VERSION);
    index.body_length = 0;
    open_refused(index, KIBAN_REFUSED_MAGIC);
}

/* The washes' values, by kiban_open and kiban_value. */
static void figures(void)
{
    struct kiban_index index;
    uint8_t arena[ROOM], body[ROOM];
    uint64_t state[KIBAN_STATE_WORDS] = {0, 0, 0}, length = 0;
    add_all(arena, sizeof arena, state, washes, sizeof washes / sizeof *washes);
    expect("finish", finish_few(arena, state, body, &length), 0);
    expect("open", kiban_open(body, length, bytes(litres), sizeof litres - 1, &index), 0);
    values(&index);
    oldest_first(index);
    changed(index);
    open_less(index);
}

/* The published check value of CRC-32; trailers of the shortest body and of none, and one with another first byte. */
static void made_trailers(void)
{
    static const uint8_t right[] = {'A', 0, 0xbb, 0x6c, 0xbb, 0xa8}, other[] = {'A', 1, 0x2d, 0x5c, 0xbc, 0xdf};
    uint8_t trailer[KIBAN_TRAILER_BYTES];
    size_t length = 0;
    expect("the check value", kiban_crc32(0, bytes("123456789"), 9), 0xcbf43926);
    expect("the same in two parts", kiban_crc32(kiban_crc32(0, bytes("1234"), 4), bytes("56789"), 5), 0xcbf43926);
    kiban_trailer(right, 1, trailer);
    holds("a trailer made", memcmp(trailer, right + 1, sizeof trailer) == 0);
    holds("a body of a byte", kiban_file_body(right, sizeof right, &length));
    expect("its length", length, 1);
    holds("another first byte", !kiban_file_body(other, sizeof other, &length));
    kiban_trailer(NULL, 0, trailer);
    holds("no body", !kiban_file_body(trailer, sizeof trailer, &length));
    holds("no file", !kiban_file_body(NULL, 0, &length));
}

/* A file of the store, of so many bytes: with any byte changed, and cut anywhere, its trailer is not right. */
static void damaged_trailers(uint8_t *file, size_t length)
{
    size_t i, body_length;
    for (i = 0; i < length; i++) {
        file[i] = (uint8_t)~file[i];
        holds("a damaged file", !kiban_file_body(file, length, &body_length) && body_length == 0);
        file[i] = (uint8_t)~file[i];
        holds("a cut file", !kiban_file_body(file, i, &body_length) && body_length == 0);
    }
}

/* The store's own file: its trailer is right, and is the one that is made of its body. */
static void stored_trailer(const char *path)
{
    uint8_t file[4096], trailer[KIBAN_TRAILER_BYTES];
    size_t length, body_length = 0;
    FILE *stream = fopen(path, "rb");
    holds(path, stream != NULL);
    if (stream == NULL)
        return;
    length = fread(file, 1, sizeof file, stream);
    fclose(stream);
    holds("the stored file", kiban_file_body(file, length, &body_length));
    expect("its body's length", body_length + KIBAN_TRAILER_BYTES, length);
    kiban_trailer(file, body_length, trailer);
    holds("its trailer", memcmp(file + body_length, trailer, KIBAN_TRAILER_BYTES) == 0);
    damaged_trailers(file, length);
}

/* The keys of the document's arena, which have several versions: each one's hash and place. */
static void hashed_keys(const uint8_t *arena)
{
    struct kiban_pair hashed[KEYS];
    size_t i;
    kiban_hash_keys(arena, KEYS, 0, hashed);
    for (i = 0; i < KEYS; i++) {
        expect("a key's hash", hashed[i].first, kiban_hash(bytes("ABC") + i, 1, 0));
        expect("a key's place", hashed[i].second, 51 * i);
    }
}

/* Keys of 16 bytes, finish's number, each attempt's two with equal hashes or twice 0, the first with the fewest. */
struct keys {
    const char *keys[FEW];
    size_t count;
    uint64_t finished;
    uint8_t equal[KIBAN_ATTEMPTS][2];
    unsigned fewest;
};

static const struct keys key_lists[] = {
    {{"T0410-2024110300", "T0413-2024110308", "T0415-2024110308", "T0416-2024110300"}, 4, KIBAN_REFUSED_ATTEMPTS,
     {{2, 3}, {0, 1}, {0, 1}, {2, 3}, {0, 2}, {0, 2}, {0, 1}, {0, 2}}, 0},
    {{"T0151-2019110300", "T0152-2019110308", "T0420-2019110300", "T0423-2019110308"}, 4, 0,
     {{0, 1}, {2, 3}, {2, 3}, {0, 1}, {0, 1}, {0, 1}, {2, 3}, {0, 0}}, 7},
    {{"AAAAAAAABBBBBBBB", "AAAAQAAABBBBBBB\xc2"}, 2, KIBAN_REFUSED_ATTEMPTS,
     {{0, 1}, {0, 1}, {0, 1}, {0, 1}, {0, 1}, {0, 1}, {0, 1}, {0, 1}}, 0},
    {{"W-20241103000410", "W-20241103080413"}, 2, 0, {{0, 0}}, 0},
};

/* Adds the first so many keys of a list and finishes them: finish's number. */
static uint64_t finish_keys(const struct keys *list, size_t count, uint8_t *arena, uint8_t *body)
{
    uint64_t state[KIBAN_STATE_WORDS] = {0, 0, 0}, place = 0, length = 0;
    struct record put = {NULL, KIBAN_PUT, 1, 1, 0, 0};
    size_t i;
    for (i = 0; i < count; i++) {
        put.key = list->keys[i];
        expect("add a key", add(arena, ROOM, state, &put, &place), 0);
    }
    return finish_few(arena, state, body, &length);
}

/* The entry at a place of the arena has to be a key of the list. */
static void expect_key(const uint8_t *arena, uint64_t place, const struct keys *list, uint8_t key)
{
    size_t length;
    const uint8_t *at = kiban_key_at(arena, place, &length);
    expect("a key's place", place, key * kiban_record_bytes(16, 1));
    expect("a key's length", length, 16);
    holds("a key", memcmp(at, list->keys[key], 16) == 0);
}

/* So many pairs were found for an attempt: the one that the list says, or none. */
static void expect_pairs(const uint8_t *arena, const struct keys *list, unsigned attempt,
                         const struct kiban_pair *pairs, size_t found)
{
    const uint8_t *equal = list->equal[attempt];
    expect("pairs", found, equal[1] != 0);
    if (found != 0) {
        expect_key(arena, pairs[0].first, list, equal[0]);
        expect_key(arena, pairs[0].second, list, equal[1]);
    }
}

/* The body's seed is that of an attempt. */
static void expect_seed(const uint8_t *body, unsigned attempt)
{
    expect("the seed's low half", kiban_u32_at(body, 8), kiban_seed(attempt) & 0xffffffff);
    expect("the seed's high half", kiban_u32_at(body, 12), kiban_seed(attempt) >> 32);
}

/* The keys that keep a list from being placed are named. Each list's last key is the second of the fewest pairs. */
static void equal_hashes(const struct keys *list)
{
    uint8_t arena[ROOM], body[ROOM];
    struct kiban_pair pairs[FEW];
    unsigned attempt;
    size_t found;
    expect("finish keys", finish_keys(list, list->count, arena, body), list->finished);
    for (attempt = 0; attempt < KIBAN_ATTEMPTS; attempt++) {
        found = kiban_equal_hashes(arena, list->count, attempt, pairs);
        expect_pairs(arena, list, attempt, pairs, found);
    }
    found = kiban_fewest_equal_hashes(arena, list->count, pairs, &attempt);
    expect("the attempt with the fewest", attempt, list->fewest);
    expect_pairs(arena, list, attempt, pairs, found);
    if (list->finished != 0)
        expect("finish without the last key", finish_keys(list, list->count - 1, arena, body), 0);
    expect_seed(body, list->fewest);
}

/* Three keys with one hash under every seed: two pairs, and each key but the first is second in one. */
static void three_equal(void)
{
    static const struct keys three = {
        {"AAAAAAAAAAAAAAAAAAAAAAAA", "AAAAAAAAAAAAQAAAAAAAAAA\xc1", "AAAAQAAAAAAAAAA\xc1" "AAAAAAAA"}, 3,
        KIBAN_REFUSED_ATTEMPTS, {{0, 0}}, 0};
    const size_t entry = kiban_record_bytes(24, 1);
    struct kiban_pair pairs[FEW];
    uint8_t arena[ROOM], body[ROOM];
    unsigned attempt;
    expect("finish three", finish_keys(&three, 3, arena, body), three.finished);
    for (attempt = 0; attempt < KIBAN_ATTEMPTS; attempt++) {
        expect("pairs of three", kiban_equal_hashes(arena, 3, attempt, pairs), 2);
        holds("the first pair", pairs[0].first == 0 && pairs[0].second == entry);
        holds("the second pair", pairs[1].first == entry && pairs[1].second == 2 * entry);
    }
}

/* The document's example: built, finished, looked up and listed; its keys by their hashes. */
static void document(void)
{
    uint8_t arena[ARENA], body[BODY], data[DATA];
    uint64_t state[KIBAN_STATE_WORDS] = {0, 0, 0};
    size_t i;
    for (i = 0; i < DATA; i++)
        data[i] = (uint8_t)i;
    build(arena, state);
    finish(arena, state, body);
    look_up(body, data, "A", 0, 0, &records[0]);
    look_up(body, data, "A", 1, 8, &records[1]);
    look_up(body, data, "A", 1, 3, NULL);
    look_up(body, data, "B", 0, 0, &records[2]);
    look_up(body, data, "", 0, 0, NULL);
    listing(body);
    hashed_keys(arena);
}

int main(int argc, char **argv)
{
    size_t i;
    if (argc != 2) {
        fprintf(stderr, "usage: test INDEX\n");
        return 1;
    }
    numbers();
    causes();
    document();
    filter();
    filter_room();
    all_empty();
    some_empty();
    empty_key();
    answers();
    figures();
    made_trailers();
    stored_trailer(argv[1]);
    for (i = 0; i < sizeof key_lists / sizeof *key_lists; i++)
        equal_hashes(&key_lists[i]);
    three_equal();
    return differing;
}
