/*
 * The functions of target/staticlib/libkiban_c.a (x86-64 Linux). C99, or C++11.
 *
 *     make library
 *     cc -std=c99 -I bindings/c -o target/example bindings/c/example.c target/staticlib/libkiban_c.a
 *
 * For a figure open the index by kiban_open, and ask it by kiban_value: it gives a put's value and nothing else.
 * kiban_file.h tests and writes the trailer, the last five bytes of an index file; kiban_keys.h names the keys that
 * finish could not place. example.c reads an index file and its data, test.c has every call. What is `static inline` in
 * the three headers is plain C beside the library, and not proved.
 *
 * Every call ends, on all bytes and numbers, and returns 0 or the number of a refusal unless its comment says
 * otherwise. A refused call changes nothing that was lent to it, but the workspace of a kiban_finish that answers 10
 * (or 11, which is proved never to come), which is then zero.
 *
 * A slice passes as a pointer and a length in elements. The host sees to it that
 * - a pointer leads to as many elements as its length says, aligned for their type. Nothing is read or written
 *   through the pointer of a slice of length 0: it may be null, or lead anywhere;
 * - a part that a call may write (a pointer without const) overlaps no other part lent to that call.
 * Output and workspace may hold anything before a call, and may be longer than said: output and answers past the
 * written part stay as they were, workspace is zero to its end after a call that passed its checks of lengths.
 *
 * Threads: calls share nothing. No call keeps anything for the next one, or touches memory that was not lent to it.
 * Any number of threads may call at once, as long as what one call may write is lent to no other call meanwhile.
 */
#ifndef KIBAN_H
#define KIBAN_H

#include <stddef.h>
#include <stdint.h>

#ifdef __cplusplus
extern "C" {
#endif

/* The refusals: docs/NUMBERS.md says what to do at each. 13 and 17 to 19 are not given. */
enum kiban_refusal {
    KIBAN_REFUSED_STATE = 1,
    KIBAN_REFUSED_TOO_LONG = 2,
    KIBAN_REFUSED_TOMBSTONE = 3,
    KIBAN_REFUSED_ORDER = 4,
    KIBAN_REFUSED_COUNT = 5,
    KIBAN_REFUSED_BUFFER = 6,
    KIBAN_REFUSED_PLACE = 7,
    KIBAN_REFUSED_ARENA = 8,
    KIBAN_REFUSED_WORKSPACE = 9,
    KIBAN_REFUSED_ATTEMPTS = 10,
    KIBAN_REFUSED_SELF_CHECK = 11,
    KIBAN_REFUSED_HASHES = 12,
    KIBAN_REFUSED_DAMAGE = 14,
    KIBAN_REFUSED_FILTER = 15,
    KIBAN_REFUSED_INPUT = 16,
    KIBAN_REFUSED_MAGIC = 20,
    KIBAN_REFUSED_DIMENSIONS = 21,
    KIBAN_REFUSED_PILOT = 22,
    KIBAN_REFUSED_HEAD = 23,
    KIBAN_REFUSED_KEY = 24,
    KIBAN_REFUSED_KEY_ORDER = 25,
    KIBAN_REFUSED_SLOT = 26,
    KIBAN_REFUSED_VERSION = 27,
    KIBAN_REFUSED_KIND = 28,
    KIBAN_REFUSED_VALUE = 29,
    KIBAN_REFUSED_LEFT_OVER = 30
};

/*
 * The cause of a refusal, in the words of docs/NUMBERS.md. It is for the number of a call that refused: 1 of kiban_get
 * (nothing) and of kiban_filter_ask (maybe) is no refusal.
 */
static inline const char *kiban_cause(uint64_t number)
{
    switch (number) {
    case KIBAN_REFUSED_STATE: return "builder state and buffer do not fit";
    case KIBAN_REFUSED_TOO_LONG: return "key over 1,048,576 or value over 16,777,216 bytes";
    case KIBAN_REFUSED_TOMBSTONE: return "tombstone with nonzero length";
    case KIBAN_REFUSED_ORDER: return "new key not greater than the last; continued key absent or unequal to the last; sequence not below the last one of that key";
    case KIBAN_REFUSED_COUNT: return "add: a 65,537th key, or a version beyond 4,294,967,295; finish: no key, or more than 65,536";
    case KIBAN_REFUSED_BUFFER: return "buffer too short";
    case KIBAN_REFUSED_PLACE: return "place is not used - 8, or nothing added";
    case KIBAN_REFUSED_ARENA: return "arena breaks a key or version rule (23 to 25, 27 to 29 without the data test)";
    case KIBAN_REFUSED_WORKSPACE: return "workspace too short";
    case KIBAN_REFUSED_ATTEMPTS: return "all eight attempts failed";
    case KIBAN_REFUSED_SELF_CHECK: return "self-check (slots unfilled or mismatched)";
    case KIBAN_REFUSED_HASHES: return "more than 65,536 hashes";
    case KIBAN_REFUSED_DAMAGE: return "lookup meets damage";
    case KIBAN_REFUSED_FILTER: return "filter bytes not accepted";
    case KIBAN_REFUSED_INPUT: return "input under 16 or over 65,536 bytes";
    case KIBAN_REFUSED_MAGIC: return "body under 32 bytes or wrong magic";
    case KIBAN_REFUSED_DIMENSIONS: return "dimensions (n from 1 to 2^31 - 1, b, arena start, arena start below the body's length)";
    case KIBAN_REFUSED_PILOT: return "a direct pilot at or past n";
    case KIBAN_REFUSED_HEAD: return "under 8 bytes left for a key's head";
    case KIBAN_REFUSED_KEY: return "key length over the limit or past the end, or no versions";
    case KIBAN_REFUSED_KEY_ORDER: return "keys not strictly rising";
    case KIBAN_REFUSED_SLOT: return "slot offset or fingerprint wrong";
    case KIBAN_REFUSED_VERSION: return "under 21 bytes left for a version";
    case KIBAN_REFUSED_KIND: return "kind neither 1 (put) nor 2 (tombstone)";
    case KIBAN_REFUSED_VALUE: return "value length, offset + length past the data, tombstone with length, sequences not strictly falling";
    case KIBAN_REFUSED_LEFT_OVER: return "bytes left over";
    default: return "no number of a refusal";
    }
}

/* A record's kind. */
enum kiban_kind { KIBAN_PUT = 1, KIBAN_TOMBSTONE = 2 };
/* What kiban_get returns beside 14 (and 6). What is found may be a tombstone: its kind tells. */
enum kiban_got { KIBAN_FOUND = 0, KIBAN_NOTHING = 1 };
/* What kiban_filter_ask returns beside 15. */
enum kiban_asked { KIBAN_ABSENT = 0, KIBAN_MAYBE = 1 };
/* What kiban_filter_read finds, as KIBAN_FILTER_FORM. */
enum kiban_filter_form { KIBAN_POSITIVE = 0, KIBAN_FUSE = 1 };

/* ---- Words of arrays, and lengths, all in elements ---- */

/* The words of a builder's state, and how many there are. All zero: the empty builder. */
enum kiban_state_word { KIBAN_STATE_USED, KIBAN_STATE_KEYS, KIBAN_STATE_HEAD, KIBAN_STATE_WORDS };
/* The words of kiban_get's answer, and how many there are. Only a KIBAN_PUT has a value. */
enum kiban_record_word {
    KIBAN_RECORD_KIND,
    KIBAN_RECORD_SEQUENCE,
    KIBAN_RECORD_OFFSET,
    KIBAN_RECORD_LENGTH,
    KIBAN_RECORD_WORDS
};
/* The words of kiban_filter_read's answer, and how many there are. */
enum kiban_filter_word {
    KIBAN_FILTER_FORM,
    KIBAN_FILTER_KEYS,
    KIBAN_FILTER_SEED,
    KIBAN_FILTER_SEGMENT,
    KIBAN_FILTER_COUNT,
    KIBAN_FILTER_CELLS,
    KIBAN_FILTER_WORDS
};
/* The bytes that hold any listing's text. */
#define KIBAN_LISTING_BYTES 131072

/* The bytes that a record takes in the arena: 8 and the key for a new key, and 21. */
static inline size_t kiban_record_bytes(size_t key_length, int new_key)
{
    return new_key ? 8 + key_length + 21 : 21;
}

/* The body of n keys over an arena: 32 + 4b + 12n + arena, b = n/3 rounded up. */
static inline size_t kiban_body_bytes(size_t n, size_t arena_length)
{
    return 32 + 4 * (n / 3 + (n % 3 != 0)) + 12 * n + arena_length;
}

/* kiban_finish's workspace for n keys. */
static inline size_t kiban_finish_wide(size_t n)
{
    return 2 * n;
}
static inline size_t kiban_finish_narrow(size_t n)
{
    return 8 * n + 8;
}

/* At least the cells of a filter of n hashes, n up to 65,536. The library has the exact numbers in a table. */
static inline size_t kiban_filter_cells(size_t n)
{
    return n == 0 ? 0 : n + n / 4 + 256;
}

/* kiban_filter_build's workspace and output for n hashes. */
static inline size_t kiban_filter_wide(size_t n)
{
    return kiban_filter_cells(n) + n;
}
static inline size_t kiban_filter_narrow(size_t n)
{
    return 2 * kiban_filter_cells(n) + n;
}
static inline size_t kiban_filter_bytes(size_t n)
{
    return 48 + kiban_filter_cells(n);
}

/* ---- Arithmetic ---- */

/* Mixes a number. Returns the mixed number; never refuses. */
uint64_t kiban_mix(uint64_t h);

/*
 * The index's own hash of a key. Returns the hash; never refuses. The store's filters do not take it: they take XXH3
 * of the key, by the host's own code (the store's src/xxh3.rs, which is not carried over).
 */
uint64_t kiban_hash(const uint8_t *key, size_t key_length, uint64_t seed);

/* Sorts hashes where they lie, in rising order. Returns 0. */
uint64_t kiban_sort(uint64_t *hashes, size_t hashes_length);

/* ---- Building an index ---- */

/*
 * Adds a record to the list that buffer and state hold, with the value's length, and offset 0 till kiban_set_offset.
 * kind: KIBAN_PUT or KIBAN_TOMBSTONE. new_key: 0 for a further version of the last key. Newest version first. state:
 * KIBAN_STATE_WORDS, zero at first, then as the last call left them. buffer: room for kiban_record_bytes past the
 * used ones; at 6 lend a longer buffer that begins with the used bytes, and call again. answer: 1 word, the place to
 * hand to kiban_set_offset. Returns 0 or, first of these: 6 for the answer, 1 for the state's length, 28, 1, 2, 3, 4,
 * 5, 6.
 */
uint64_t kiban_add(uint8_t *buffer, size_t buffer_length, uint64_t *state, size_t state_length, const uint8_t *key,
                   size_t key_length, uint8_t kind, uint64_t length, uint64_t sequence, uint8_t new_key,
                   uint64_t *answer, size_t answer_length);

/* Sets the value offset of the last record. place: as kiban_add answered it. state: as above. Returns 0, 1 or 7. */
uint64_t kiban_set_offset(uint8_t *buffer, size_t buffer_length, const uint64_t *state, size_t state_length,
                          uint64_t place, uint64_t offset);

/*
 * Writes the body of an arena (the used bytes of a buffer, and no more): an index file without its last five bytes.
 * For n keys, which is state[KIBAN_STATE_KEYS]: out kiban_body_bytes(n, arena_length), wide kiban_finish_wide(n),
 * narrow kiban_finish_narrow(n). answer: 1 word, the body's length. Returns 0 or, first of these: 6 for the answer,
 * 8, 5, 9, 6, 10, 11. At 10 kiban_keys.h names the keys that stand in the way.
 */
uint64_t kiban_finish(const uint8_t *arena, size_t arena_length, uint8_t *out, size_t out_length, uint64_t *wide,
                      size_t wide_length, uint32_t *narrow, size_t narrow_length, uint64_t *answer,
                      size_t answer_length);

/* ---- Reading an index ---- */

/* Validates a body for data of a length. Returns 0, or 20 to 30. */
uint64_t kiban_validate(const uint8_t *body, size_t body_length, uint64_t data_length);

/*
 * The key's record of greatest sequence within the limit; for a figure call kiban_value. limited: 0 for no limit, and
 * limit is then not looked at. answer: KIBAN_RECORD_WORDS, written where a record is found. Returns 0 found, 1
 * nothing, 6 for the answer, or 14, which is proved never to come on a body that was validated for the data's length.
 * On a body that kiban_validate did not accept for this data the answer may be any record of the key, a withdrawn
 * figure too.
 *
 * Test the kind before anything is read. Of a KIBAN_PUT the value is the part of the data at that offset, of that
 * length, and lies inside the data. A KIBAN_TOMBSTONE was found too: the key was withdrawn and has no value, though
 * its offset can be where an older, withdrawn value starts.
 */
uint64_t kiban_get(const uint8_t *body, size_t body_length, const uint8_t *data, size_t data_length, const uint8_t *key,
                   size_t key_length, uint8_t limited, uint64_t limit, uint64_t *answer, size_t answer_length);

/* An index that kiban_open validated, beside its data. It borrows both: they stay as they are while it is asked. */
struct kiban_index {
    const uint8_t *body;
    size_t body_length;
    const uint8_t *data;
    size_t data_length;
};

/*
 * Validates a body for its data, and where it is accepted fills index, for kiban_value. Otherwise index is all zero: it
 * has no value for any key. Returns 0, or 20 to 30. Plain C over kiban_validate.
 */
static inline uint64_t kiban_open(const uint8_t *body, size_t body_length, const uint8_t *data, size_t data_length,
                                  struct kiban_index *index)
{
    const struct kiban_index accepted = {body, body_length, data, data_length}, refused = {NULL, 0, NULL, 0};
    const uint64_t number = kiban_validate(body, body_length, data_length);
    *index = number == 0 ? accepted : refused;
    return number;
}

/* What kiban_value answers. None is a number that kiban_get returns: taken for that, none passes a test. */
enum kiban_answer {
    KIBAN_ANSWER_PUT = 101, /* a put: its value is given, which may have no bytes */
    KIBAN_ANSWER_WITHDRAWN, /* a tombstone: the key was withdrawn, and has no value */
    KIBAN_ANSWER_NOTHING,   /* no record within the limit */
    KIBAN_ANSWER_DAMAGE     /* an index that kiban_open refused, or that was changed since */
};

/*
 * The key's value within the limit, or none. Only at KIBAN_ANSWER_PUT is there a value: *value_length bytes of the
 * data, from *value on. Otherwise *value is NULL and *value_length 0. Go by the answer, for a value of no bytes in data
 * that is NULL is NULL too. index: filled by kiban_open. limited, limit: as in kiban_get, over which this is plain C.
 * Past a limit the value may have been corrected or withdrawn: what stands now is asked without one.
 */
static inline enum kiban_answer kiban_value(const struct kiban_index *index, const uint8_t *key, size_t key_length,
                                            uint8_t limited, uint64_t limit, const uint8_t **value,
                                            size_t *value_length)
{
    uint64_t found[KIBAN_RECORD_WORDS];
    const uint64_t got = kiban_get(index->body, index->body_length, index->data, index->data_length, key, key_length,
                                   limited, limit, found, KIBAN_RECORD_WORDS);
    *value = NULL;
    *value_length = 0;
    if (got == KIBAN_NOTHING)
        return KIBAN_ANSWER_NOTHING;
    if (got != KIBAN_FOUND)
        return KIBAN_ANSWER_DAMAGE;
    if (found[KIBAN_RECORD_KIND] != KIBAN_PUT)
        return KIBAN_ANSWER_WITHDRAWN;
    *value = index->data_length == 0 ? index->data : index->data + found[KIBAN_RECORD_OFFSET];
    *value_length = found[KIBAN_RECORD_LENGTH];
    return KIBAN_ANSWER_PUT;
}

/* ---- The filter ---- */

/*
 * A filter takes hashes, and which they are is the host's: the store's filters take XXH3 of the key, and not
 * kiban_hash. A filter that is asked with another hash than it was built of calls present keys absent.
 */

/*
 * Builds the filter of n hashes, which are the host's, and leaves them sorted. wide: kiban_filter_wide(n), narrow:
 * kiban_filter_narrow(n), out: kiban_filter_bytes(n). answer: 1 word, the bytes written. Returns 0 or, first of these:
 * 6 for the answer, 12, 9, 6.
 */
uint64_t kiban_filter_build(uint64_t *hashes, size_t hashes_length, uint64_t *wide, size_t wide_length,
                            uint32_t *narrow, size_t narrow_length, uint8_t *out, size_t out_length, uint64_t *answer,
                            size_t answer_length);

/*
 * Reads a filter. answer: KIBAN_FILTER_WORDS; those after a form of KIBAN_POSITIVE are zero.
 * Returns 0, 6 for the answer, or 15.
 */
uint64_t kiban_filter_read(const uint8_t *bytes, size_t bytes_length, uint64_t *answer, size_t answer_length);

/* Asks a filter for a hash, made as those that it was built of. Returns 0 absent, 1 maybe, or 15. */
uint64_t kiban_filter_ask(const uint8_t *bytes, size_t bytes_length, uint64_t hash);

/*
 * Asks a filter, whose header is read once, for hashes. answers: a byte for each hash, 0 absent or 1 maybe.
 * Returns 0, 6 for fewer answers than hashes, or 15.
 */
uint64_t kiban_filter_ask_all(const uint8_t *bytes, size_t bytes_length, const uint64_t *hashes, size_t hashes_length,
                              uint8_t *answers, size_t answers_length);

/* ---- The listing ---- */

/*
 * The listing of an input: u64 limit, u64 data length (little-endian), body. out: KIBAN_LISTING_BYTES hold every
 * text. answer: 1 word, the text's length. Returns 0, also where the text is `refused R` and a line's end, or 6. Any
 * other text begins with `limit L keys N shown S`; each of its S lines has key in hex, sequence, put or tomb, offset
 * and length.
 */
uint64_t kiban_listing(const uint8_t *input, size_t input_length, uint8_t *out, size_t out_length, uint64_t *answer,
                       size_t answer_length);

#ifdef __cplusplus
}
#endif

#endif
