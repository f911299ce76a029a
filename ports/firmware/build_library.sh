#!/bin/sh
# Proves the library for C over a flash of its own, and builds it for x86-64 Linux.
#
# usage: ports/firmware/build_library.sh FOLDER [WORDS]
#
# FOLDER gets a copy of the crates with littlefs_flash_c among them, whose files lose their ending .txt. `rt WORDS` runs on that crate;
# without WORDS it is `rt lib`. Libraries that are built in the checkout are copied too, so they aren't proved twice.
set -eu
here=$(cd "$(dirname "$0")" && pwd)
top=$(cd "$here/../.." && pwd)
folder=$1
shift
mkdir -p "$folder"
rm -rf "$folder"/crates/*/src "$folder"/crates/*/specs "$folder"/crates/*/proofs
tar -C "$top" --exclude=out -cf - crates crates.txt | tar -C "$folder" -xf -
for built in "$top"/crates/*/out/rlib; do
    copy=$folder${built#"$top"}
    if [ -e "$built/stamp" ] && ! cmp -s "$built/stamp" "$copy/stamp"; then
        rm -rf "$copy"
        mkdir -p "${copy%/rlib}"
        cp -R "$built" "$copy"
    fi
done
echo 'littlefs_flash_c staticlib: core lfs_device lfs_fs lfs_model littlefs_flash littlefs_values std_alloc std_heap' >>"$folder/crates.txt"

crate=$folder/crates/littlefs_flash_c
mkdir -p "$crate/c" # rt wants the folder c of a crate that declares functions of C
(cd "$here/littlefs_flash_c" && find . -name '*.txt') | while read -r file; do
    mkdir -p "$crate/$(dirname "$file")"
    cp "$here/littlefs_flash_c/$file" "$crate/${file%.txt}"
done

cd "$crate"
RT_ALLOW_C=littlefs_flash_c rt "${@:-lib}"
