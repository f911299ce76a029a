/* Writes a line at the end of a log in an image, and shows the log: in the image that the file has, or in a new one. */
#include <inttypes.h>
#include <stdio.h>
#include <stdlib.h>

#include "littlefs_c.h"

#define PATH(text) (const uint8_t *)(text), sizeof(text) - 1

/* Returns the answer of a call, or says what failed and ends the program. */
static int64_t done(const char *what, int64_t answer) {
    if (answer >= 0) return answer;
    fprintf(stderr, "%s: error %" PRId64 "\n", what, -answer);
    exit(1);
}

int main(int count, char **arguments) {
    static uint8_t image[16 * 4096], text[1000];
    if (count != 2) return puts("usage: example FILE"), 1;
    const char *name = arguments[1];
    lfs_c_config config = LFS_C_CONFIG(4096, 256);
    lfs_c_volume fs = LFS_C_CLOSED;

    FILE *disk = fopen(name, "rb");
    if (disk) {
        done("mount", lfs_c_mount(&fs, &config, image, fread(image, 1, sizeof image, disk)));
        fclose(disk);
    } else {
        done("mkfs", lfs_c_mkfs(&fs, &config, sizeof image / config.block_size));
        done("mkdir", lfs_c_mkdir_at(&fs, PATH("/log")));
    }

    uint32_t file = done("open", lfs_c_open(&fs, PATH("/log/today"), LFS_C_WRITE | LFS_C_CREATE | LFS_C_APPEND));
    done("write", lfs_c_file_write(&fs, file, (const uint8_t *)"21.5 degrees\n", 13));
    done("close", lfs_c_file_close(&fs, file));

    file = done("open", lfs_c_open(&fs, PATH("/log/today"), LFS_C_READ));
    printf("%.*s", (int)done("read", lfs_c_file_read(&fs, file, text, sizeof text)), (char *)text);
    done("close", lfs_c_file_close(&fs, file));
    int64_t room = done("list", lfs_c_list_at(&fs, PATH("/log"), text, sizeof text));
    if ((size_t)room <= sizeof text) printf("%.*s", (int)room, (char *)text);

    size_t size = done("image", lfs_c_image(&fs, image, sizeof image));
    lfs_c_unmount(&fs);
    disk = fopen(name, "wb");
    if (!disk || fwrite(image, 1, size, disk) != size || fclose(disk)) return perror(name), 1;
    return 0;
}
