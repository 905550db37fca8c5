/*
 * Where kiban_finish answers 10: the keys that no attempt could place together. Finish tries eight seeds, and an
 * attempt fails if two keys have equal hashes under its seed. These helpers name such pairs, by kiban_hash and
 * sorting; they are plain C beside the library, and not part of what is proved. README.md, "What a list can meet",
 * says what to do then.
 *
 * arena: one that kiban_finish answers 10 for, or a body for; n: its keys, which is state[KIBAN_STATE_KEYS]. Nothing
 * is allocated here.
 */
#ifndef KIBAN_KEYS_H
#define KIBAN_KEYS_H

#include "kiban.h"

#include <stdlib.h>

#ifdef __cplusplus
extern "C" {
#endif

/* The attempts of kiban_finish. */
#define KIBAN_ATTEMPTS 8

/* Two keys with equal hashes, as the places of their entries in the arena: kiban_key_at reads the key there. */
struct kiban_pair {
    uint64_t first, second;
};

/* The seed of an attempt, from 0 to 7. */
static inline uint64_t kiban_seed(unsigned attempt)
{
    return kiban_mix(UINT64_C(0x9e3779b97f4a7c15) * (attempt + 1));
}

/* The u32 at a place of the arena. */
static inline size_t kiban_u32_at(const uint8_t *arena, uint64_t place)
{
    const uint8_t *at = arena + place;
    return at[0] | (size_t)at[1] << 8 | (size_t)at[2] << 16 | (size_t)at[3] << 24;
}

/* The key of the entry at a place of the arena: its bytes, and how many. */
static inline const uint8_t *kiban_key_at(const uint8_t *arena, uint64_t place, size_t *key_length)
{
    *key_length = kiban_u32_at(arena, place);
    return arena + place + 8;
}

/* Each key's hash as first and place as second. */
static inline void kiban_hash_keys(const uint8_t *arena, size_t n, uint64_t seed, struct kiban_pair *hashed)
{
    uint64_t place = 0;
    size_t i, length;
    for (i = 0; i < n; i++) {
        const uint8_t *key = kiban_key_at(arena, place, &length);
        hashed[i].first = kiban_hash(key, length, seed);
        hashed[i].second = place;
        place += 8 + length + 21 * (uint64_t)kiban_u32_at(arena, place + 4);
    }
}

/* The order of qsort: by hash, then by place. */
static inline int kiban_hashed_order(const void *left, const void *right)
{
    const struct kiban_pair *a = (const struct kiban_pair *)left, *b = (const struct kiban_pair *)right;
    if (a->first != b->first)
        return a->first < b->first ? -1 : 1;
    return a->second < b->second ? -1 : a->second > b->second;
}

/*
 * The pairs of keys with equal hashes under the seed of an attempt. pairs: n of them are lent; those found stand first
 * afterwards. Returns how many. Of more than two keys with one hash each but the first is the second of one pair.
 * None, after 10: that attempt found no pilot. It is not to be expected; keep the list and report it.
 */
static inline size_t kiban_equal_hashes(const uint8_t *arena, size_t n, unsigned attempt, struct kiban_pair *pairs)
{
    size_t i, found = 0;
    kiban_hash_keys(arena, n, kiban_seed(attempt), pairs);
    qsort(pairs, n, sizeof *pairs, kiban_hashed_order);
    for (i = 1; i < n; i++)
        if (pairs[i].first == pairs[i - 1].first) { /* found is below i: what is written was looked at */
            pairs[found].first = pairs[i - 1].second;
            pairs[found].second = pairs[i].second;
            found++;
        }
    return found;
}

/*
 * The same of the attempt with the fewest pairs, and which that is. With the second key of each pair, and all its
 * versions, in another index, that attempt has no equal hashes left, and finish can be expected to place the rest.
 */
static inline size_t kiban_fewest_equal_hashes(const uint8_t *arena, size_t n, struct kiban_pair *pairs,
                                               unsigned *attempt)
{
    size_t fewest = n;
    unsigned i;
    *attempt = 0;
    for (i = 0; i < KIBAN_ATTEMPTS; i++) {
        const size_t found = kiban_equal_hashes(arena, n, i, pairs);
        if (found < fewest) {
            fewest = found;
            *attempt = i;
        }
    }
    return kiban_equal_hashes(arena, n, *attempt, pairs);
}

#ifdef __cplusplus
}
#endif

#endif
