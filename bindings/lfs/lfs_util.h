/* What programs on littlefs take from its lfs_util.h: standard headers, a checksum, and small functions. lfs.c needs lfs_min and
 * lfs_fromle32 of it.
 *
 * As with littlefs's own, LFS_CONFIG names a header that stands in place of this one, LFS_DEFINES one that is included first, and
 * LFS_CRC, LFS_MALLOC, LFS_FREE, LFS_ASSERT, LFS_TRACE, LFS_DEBUG, LFS_WARN and LFS_ERROR may be given. lfs.c prints nothing, asserts
 * nothing, and always allocates by malloc, also with LFS_NO_MALLOC. */
#ifndef LFS_UTIL_H
#define LFS_UTIL_H

#define LFS_STRINGIZE(x) LFS_STRINGIZE2(x)
#define LFS_STRINGIZE2(x) #x

#ifdef LFS_CONFIG
#include LFS_STRINGIZE(LFS_CONFIG)
#else

#ifdef LFS_DEFINES
#include LFS_STRINGIZE(LFS_DEFINES)
#endif

#include <inttypes.h>
#include <stdbool.h>
#include <stdint.h>
#include <string.h>

#ifndef LFS_NO_MALLOC
#include <stdlib.h>
#endif
#ifndef LFS_NO_ASSERT
#include <assert.h>
#endif

#ifdef __cplusplus
extern "C" {
#endif

#ifndef LFS_TRACE
#define LFS_TRACE(...)
#endif
#ifndef LFS_DEBUG
#define LFS_DEBUG(...)
#endif
#ifndef LFS_WARN
#define LFS_WARN(...)
#endif
#ifndef LFS_ERROR
#define LFS_ERROR(...)
#endif

#ifndef LFS_ASSERT
#ifndef LFS_NO_ASSERT
#define LFS_ASSERT(test) assert(test)
#else
#define LFS_ASSERT(test)
#endif
#endif

static inline uint32_t lfs_max(uint32_t a, uint32_t b) { return a > b ? a : b; }
static inline uint32_t lfs_min(uint32_t a, uint32_t b) { return a < b ? a : b; }

/* The multiple of a number below another one, or above it. */
static inline uint32_t lfs_aligndown(uint32_t a, uint32_t alignment) { return a - a % alignment; }
static inline uint32_t lfs_alignup(uint32_t a, uint32_t alignment) { return lfs_aligndown(a + alignment - 1, alignment); }

/* How many bits are 1. */
static inline uint32_t lfs_popc(uint32_t a) {
    uint32_t count = 0;
    for (; a; a &= a - 1) count++;
    return count;
}

/* How many bits 0 are below the lowest bit 1 of a number that isn't 0. */
static inline uint32_t lfs_ctz(uint32_t a) { return lfs_popc((a & -a) - 1); }

/* The least n of which 2 to the n isn't below the number. */
static inline uint32_t lfs_npw2(uint32_t a) {
    uint32_t n = 0;
    while (n < 32 && ((uint64_t)1 << n) < a) n++;
    return n;
}

/* Which of two numbers is ahead, where they count on from the highest to 0. */
static inline int lfs_scmp(uint32_t a, uint32_t b) { return (int)(unsigned)(a - b); }

/* A number of four bytes, the lowest or the highest first, in this machine's order; and the other way. */
static inline uint32_t lfs_fromle32(uint32_t a) {
    uint8_t bytes[4];
    memcpy(bytes, &a, 4);
    return bytes[0] | (uint32_t)bytes[1] << 8 | (uint32_t)bytes[2] << 16 | (uint32_t)bytes[3] << 24;
}
static inline uint32_t lfs_frombe32(uint32_t a) {
    uint8_t bytes[4];
    memcpy(bytes, &a, 4);
    return bytes[3] | (uint32_t)bytes[2] << 8 | (uint32_t)bytes[1] << 16 | (uint32_t)bytes[0] << 24;
}
static inline uint32_t lfs_tole32(uint32_t a) { return lfs_fromle32(a); }
static inline uint32_t lfs_tobe32(uint32_t a) { return lfs_frombe32(a); }

/* The CRC-32 of bytes (polynomial 0x04c11db7), from that of the bytes before them on. */
#ifdef LFS_CRC
static inline uint32_t lfs_crc(uint32_t crc, const void *buffer, size_t size) { return LFS_CRC(crc, buffer, size); }
#else
uint32_t lfs_crc(uint32_t crc, const void *buffer, size_t size);
#endif

static inline void *lfs_malloc(size_t size) {
#if defined(LFS_MALLOC)
    return LFS_MALLOC(size);
#elif !defined(LFS_NO_MALLOC)
    return malloc(size);
#else
    (void)size;
    return NULL;
#endif
}

static inline void lfs_free(void *at) {
#if defined(LFS_FREE)
    LFS_FREE(at);
#elif !defined(LFS_NO_MALLOC)
    free(at);
#else
    (void)at;
#endif
}

#ifdef __cplusplus
}
#endif

#endif
#endif
