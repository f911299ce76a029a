/* The checksum of lfs_util.h, for programs that call it. */
#include "lfs_util.h"

#if !defined(LFS_CONFIG) && !defined(LFS_CRC)
uint32_t lfs_crc(uint32_t crc, const void *buffer, size_t size) {
    const uint8_t *bytes = buffer;
    for (size_t at = 0; at < size; at++) {
        crc ^= bytes[at];
        for (int bit = 0; bit < 8; bit++) crc = crc >> 1 ^ (crc & 1 ? 0xedb88320 : 0);
    }
    return crc;
}
#endif
