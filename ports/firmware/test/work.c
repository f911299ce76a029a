#include "work.h"

#include <string.h>

#include "fs.h"
#include "print.h"

void (*part_begins)(void);
void (*part_ends)(const char *name);

static uint8_t bytes[4096];
static char path[] = "/file00", other[] = "/moved00";

static const char *file(int at) {
    path[5] = other[6] = (char)('0' + at / 10);
    path[6] = other[7] = (char)('0' + at % 10);
    return path;
}

static void boot(void) {
    uint32_t count = 0;
    must("mount", fs_mount());
    fs_get("/boots", &count, sizeof count);
    count++;
    must("boots", fs_put("/boots", &count, sizeof count));
    must("unmount", fs_unmount());
}

static void format_and_mount(void) {
    part_begins();
    must("format", fs_format());
    part_ends("format          ");
    part_begins();
    must("mount", fs_mount());
    part_ends("mount           ");
}

static void write_files(void) {
    part_begins();
    for (int at = 0; at < 20; at++) {
        memset(bytes, 'a' + at, 100);
        must("put", fs_put(file(at), bytes, 100));
    }
    part_ends("20 files        ");
}

static void write_log(void) {
    part_begins();
    must("log", fs_log_open("/log"));
    for (int at = 0; at < 100; at++) must("line", fs_log_line("21.5 degrees, 40 % and 1013 hPa\n", 32));
    must("close", fs_log_close());
    part_ends("100 log lines   ");
    part_begins();
    must_be("the log read", fs_get("/log", bytes, sizeof bytes) == 3200);
    part_ends("read the log    ");
}

static void change_entries(void) {
    part_begins();
    must_be("a list of 21", fs_list("/") == 21);
    part_ends("list            ");
    part_begins();
    for (int at = 0; at < 10; at++) must("remove", fs_remove(file(at)));
    part_ends("10 removes      ");
    part_begins();
    for (int at = 10; at < 20; at++) must("rename", fs_rename(file(at), other));
    part_ends("10 renames      ");
}

static void boot_often(void) {
    must("unmount", fs_unmount());
    part_begins();
    for (int at = 0; at < 50; at++) boot();
    part_ends("50 boots        ");
    part_begins();
    must("mount", fs_mount());
    part_ends("mount           ");
}

static void look(void) {
    uint32_t boots = 0;
    must_be("a list of 12", fs_list("/") == 12);
    for (int at = 10; at < 20; at++) {
        file(at);
        must_be("a file", fs_get(other, bytes, sizeof bytes) == 100 && bytes[0] == 'a' + at && bytes[99] == 'a' + at);
    }
    must_be("50 boots", fs_get("/boots", &boots, sizeof boots) == 4 && boots == 50);
}

static void make_directories(void) {
    char below[] = "/dir0/settings";
    part_begins();
    for (int at = 0; at < 10; at++) {
        below[4] = (char)('0' + at), below[5] = 0;
        must("make", fs_make(below));
        below[5] = '/';
        must("put", fs_put(below, "on", 2));
    }
    part_ends("10 directories  ");
}

void perform_work(void) {
    format_and_mount();
    write_files();
    write_log();
    change_entries();
    boot_often();
    look();
    make_directories();
    must("unmount", fs_unmount());
}
