/* Performs COUNT operations in an order that is always the same. A checksum of what each call returns and puts into a buffer is printed
 * ten times, at the end the tree's by tree.h, and the flash goes to the host's file flash.img. So two machines can be compared. */
#include <string.h>

#include "flash.h"
#include "littlefs_flash.h"
#include "print.h"
#include "tree.h"

enum { ROOM = 20000, READERS = 3, NONE = -1 };

static lfs_flash fs = LFS_FLASH(0, BLOCK, PAGE, BLOCKS);
static uint8_t buffer[ROOM];
static uint64_t sum = 0xcbf29ce484222325, seed = 88172645463325252;
static int64_t writer = NONE, readers[READERS] = { NONE, NONE, NONE };
static uint32_t done, refused;

static uint32_t any(uint32_t below) {
    seed ^= seed << 13, seed ^= seed >> 7, seed ^= seed << 17;
    return (uint32_t)((seed >> 20) % below);
}

static void add(const void *bytes, size_t count) {
    for (size_t at = 0; at < count; at++) sum = (sum ^ ((const uint8_t *)bytes)[at]) * 0x100000001b3;
}

static int64_t note(int64_t answer) {
    add(&answer, sizeof answer);
    if (answer < 0) refused++;
    else done++;
    return answer;
}

static void note_buffer(int64_t answer, size_t room) {
    if (answer > 0) add(buffer, (size_t)answer < room ? (size_t)answer : room);
    note(answer);
}

/* Makes a path of one or two names, each of which is one of a few, and returns how long it is. */
static uint32_t path_of(uint8_t *path) {
    uint32_t len = 0;
    if (any(2)) {
        memcpy(path, "/dir0", 5);
        path[4] = (uint8_t)('0' + any(4));
        len = 5;
    }
    if (any(12)) {
        memcpy(path + len, "/name-a", 7);
        path[len + 6] = (uint8_t)('a' + any(12));
        len += 7;
    }
    if (!len) path[len++] = '/';
    return len;
}

/* What an operation may need. All is drawn first, since C may evaluate arguments in any order. */
typedef struct {
    uint8_t path[16], to[16];
    uint32_t path_len, to_len, count, kind, size, place, flags;
    int reader;
} draw;

static draw any_draw(void) {
    draw it;
    it.path_len = path_of(it.path);
    it.to_len = path_of(it.to);
    it.count = any(8) ? any(600) : any(ROOM);
    it.kind = any(3);
    it.size = any(100);
    it.place = any(30000);
    it.flags = LFS_FLASH_WRITE | LFS_FLASH_CREATE;
    if (!any(3)) it.flags |= LFS_FLASH_TRUNCATE;
    if (!any(3)) it.flags |= LFS_FLASH_APPEND;
    it.reader = (int)any(READERS);
    return it;
}

static void change_entries(const draw *it, uint32_t which) {
    if (which < 2) note(lfs_flash_mkdir(&fs, it->path, it->path_len));
    else if (which < 4) note(lfs_flash_remove(&fs, it->path, it->path_len));
    else note(lfs_flash_rename(&fs, it->path, it->path_len, it->to, it->to_len));
}

static void write_file(const draw *it) {
    if (writer < 0) writer = note(lfs_flash_file_open(&fs, it->path, it->path_len, it->flags));
    if (writer < 0) return;
    for (uint32_t at = 0; at < it->count; at++) buffer[at] = (uint8_t)(at * 7 + it->count);
    note(lfs_flash_file_write(&fs, (uint32_t)writer, buffer, it->count));
}

static void use_writer(const draw *it, uint32_t which) {
    if (writer < 0) return;
    uint32_t file = (uint32_t)writer;
    if (which == 9) note(lfs_flash_file_seek(&fs, file, it->place));
    else if (which == 10) note(lfs_flash_file_truncate(&fs, file, it->place));
    else if (which == 11) note(lfs_flash_file_sync(&fs, file)), note(lfs_flash_file_tell(&fs, file)), note(lfs_flash_file_size(&fs, file));
    else note(lfs_flash_file_close(&fs, file)), writer = NONE;
}

static void open_or_close(const draw *it) {
    int64_t *reader = &readers[it->reader];
    if (*reader < 0) *reader = note(lfs_flash_file_open(&fs, it->path, it->path_len, LFS_FLASH_READ));
    else note(lfs_flash_file_close(&fs, (uint32_t)*reader)), *reader = NONE;
}

static void read_file(const draw *it) {
    if (readers[it->reader] < 0) return;
    uint32_t file = (uint32_t)readers[it->reader];
    note(lfs_flash_file_seek(&fs, file, it->place % 9000));
    note_buffer(lfs_flash_file_read(&fs, file, buffer, it->count), it->count);
}

static void use_attribute(const draw *it) {
    uint8_t kind = (uint8_t)it->kind;
    uint32_t which = any(5);
    if (which < 2) note(lfs_flash_set_attr(&fs, it->path, it->path_len, kind, buffer, it->size));
    else if (which < 4) note_buffer(lfs_flash_get_attr(&fs, it->path, it->path_len, kind, buffer, ROOM), ROOM);
    else note(lfs_flash_remove_attr(&fs, it->path, it->path_len, kind));
}

static void describe(const draw *it) {
    lfs_flash_info info;
    note(lfs_flash_stat(&fs, it->path, it->path_len));
    note(lfs_flash_used_blocks(&fs));
    note(lfs_flash_is_used(&fs, it->size));
    note(lfs_flash_gstate(&fs));
    note(lfs_flash_name_order(&fs));
    note(lfs_flash_is_writable(&fs));
    note(lfs_flash_read_only_reason(&fs));
    if (note(lfs_flash_fs_stat(&fs, &info)) == 0) add(&info, sizeof info);
}

static void recover_or_remount(void) {
    if (any(10)) return;
    if (any(2)) {
        note(lfs_flash_recover(&fs));
        return;
    }
    note(lfs_flash_remount(&fs));
    writer = NONE;
    for (int at = 0; at < READERS; at++) readers[at] = NONE;
}

static void operation(void) {
    draw it = any_draw();
    uint32_t which = any(22);
    if (which < 6) change_entries(&it, which);
    else if (which < 9) write_file(&it);
    else if (which < 14) use_writer(&it, which);
    else if (which < 16) open_or_close(&it);
    else if (which < 18) read_file(&it);
    else if (which == 18) note_buffer(lfs_flash_list(&fs, it.path, it.path_len, buffer, ROOM), ROOM);
    else if (which == 19) use_attribute(&it);
    else if (which == 20) describe(&it);
    else recover_or_remount();
}

int main(void) {
    const lfs_flash_config config = { 0, 255, 2147483647, 1022, 1022, 101 };
    memset(flash, 0xff, sizeof flash);
    note(lfs_flash_mount(&fs, &config));
    must("format", note(lfs_flash_format(&fs, &config)));
    must("mount", note(lfs_flash_mount(&fs, &config)));
    for (int at = 1; at <= COUNT; at++) {
        operation();
        if (at % (COUNT / 10)) continue;
        board_write("sum ");
        print_hex(sum, 16);
        board_write("\n");
    }
    must("remount", note(lfs_flash_remount(&fs)));
    board_write("tree ");
    print_hex(tree_sum(&fs, 0), 8);
    board_write("\n");
    must("unmount", note(lfs_flash_unmount(&fs)));
    print_number(done, 0);
    board_write(" done, ");
    print_number(refused, 0);
    board_write(" refused\n");
    board_save("flash.img", flash, sizeof flash);
    return 0;
}
