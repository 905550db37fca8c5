/*
 * The trailer: the five bytes that stand behind the body in an index file of the store. They are a zero, then the
 * CRC-32 of the body and that zero, lowest byte first. The CRC-32 is that of zip and gzip (IEEE, 0xEDB88320 reflected).
 * A body with its trailer behind it is a file as the store writes it. The store's filter blocks have a trailer of their
 * own, with another first byte: it is not tested here.
 *
 * Plain C beside the library, and not proved. A right trailer says that the file is whole; kiban_validate says whether
 * its body is an index for the data.
 */
#ifndef KIBAN_FILE_H
#define KIBAN_FILE_H

#include <stddef.h>
#include <stdint.h>
#include <string.h>

#ifdef __cplusplus
extern "C" {
#endif

/* The bytes of a trailer. */
#define KIBAN_TRAILER_BYTES 5

/* The CRC-32 of bytes that follow others: before is the CRC-32 of those, 0 where there are none. */
static inline uint32_t kiban_crc32(uint32_t before, const uint8_t *bytes, size_t length)
{
    static const uint32_t of_half_byte[16] = {
        0x00000000, 0x1db71064, 0x3b6e20c8, 0x26d930ac, 0x76dc4190, 0x6b6b51f4, 0x4db26158, 0x5005713c,
        0xedb88320, 0xf00f9344, 0xd6d6a3e8, 0xcb61b38c, 0x9b64c2b0, 0x86d3d2d4, 0xa00ae278, 0xbdbdf21c,
    };
    uint32_t crc = ~before;
    size_t i;
    for (i = 0; i < length; i++) {
        crc ^= bytes[i];
        crc = crc >> 4 ^ of_half_byte[crc & 15];
        crc = crc >> 4 ^ of_half_byte[crc & 15];
    }
    return ~crc;
}

/* Writes the trailer of a body; it may lie right behind the body. */
static inline void kiban_trailer(const uint8_t *body, size_t body_length, uint8_t trailer[KIBAN_TRAILER_BYTES])
{
    const uint8_t zero = 0;
    const uint32_t crc = kiban_crc32(kiban_crc32(0, body, body_length), &zero, 1);
    unsigned i;
    trailer[0] = zero;
    for (i = 0; i < 4; i++)
        trailer[1 + i] = (uint8_t)(crc >> 8 * i);
}

/*
 * Whether a file is a body of at least one byte and its right trailer. Returns 1, with the body's length: the body is
 * the file's first bytes. Otherwise returns 0, with a length of 0: the file is cut, damaged or no index file of the
 * store.
 */
static inline int kiban_file_body(const uint8_t *file, size_t file_length, size_t *body_length)
{
    uint8_t trailer[KIBAN_TRAILER_BYTES];
    *body_length = 0;
    if (file_length <= KIBAN_TRAILER_BYTES)
        return 0;
    kiban_trailer(file, file_length - KIBAN_TRAILER_BYTES, trailer);
    if (memcmp(file + file_length - KIBAN_TRAILER_BYTES, trailer, KIBAN_TRAILER_BYTES) != 0)
        return 0;
    *body_length = file_length - KIBAN_TRAILER_BYTES;
    return 1;
}

#ifdef __cplusplus
}
#endif

#endif
