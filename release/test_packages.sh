#!/bin/sh
# Uses the packages in release/out as their users do: release/test_packages.sh
#
# The tarball by pkg-config, by CMake and by hand; the wheel by pip; the npm package by npx; the .zip for Windows by CMake, under wine;
# and as root, where MIRROR is an address of Debian's packages, the Debian package in a system of its own.
set -eu
top=$(realpath "$(dirname "$0")/..") made=$(realpath "$(dirname "$0")/out") work=$(mktemp -d)
trap 'rm -rf "$work"' EXIT; cd "$work"
(cd "$made"; sha256sum --quiet -c SHA256SUMS)

# a folder, its image, and what is in it
mkdir -p data/log; echo "21.5 degrees" > data/log/today
lines="d 0 /log
f 13 /log/today"
tar -xf "$made"/mklittlefs-*-linux-x86_64.tar.gz; cd mklittlefs-*-linux-x86_64; at=$PWD; cd ..
"$at/bin/mklittlefs" -c data -s 64k disk.img; [ "$("$at/bin/mklittlefs" -l disk.img)" = "$lines" ]

# pkg-config, with the shared and the static library
export PKG_CONFIG_PATH="$at/lib/pkgconfig"
cc -o shared "$at/share/doc/mklittlefs/example.c" $(pkg-config --cflags --libs littlefs_c); LD_LIBRARY_PATH="$at/lib" ./shared one.img > one
cc -o static "$at/share/doc/mklittlefs/example.c" $(pkg-config --cflags littlefs_c) "$at/lib/liblittlefs_c.a"; ./static two.img > two
cmp one.img two.img; cmp one two

# lfs.h, whose example counts its runs
lfs=$(pkg-config --variable=lfs littlefs_c)
cc -o counter -I"$lfs" "$at/share/doc/mklittlefs/lfs_example.c" "$lfs/lfs.c" "$lfs/lfs_util.c" $(pkg-config --cflags littlefs_c) "$at/lib/liblittlefs_c.a"
mkdir counted by_cmake on_windows
(cd counted; ../counter; ../counter; "$at/bin/mklittlefs" -l disk.img) > runs
[ "$(cat runs)" = "run 1
run 2
f 4 /runs" ]

# CMake, for Linux and for Windows
unzip -q "$made"/littlefs_c-*-windows-x86_64.zip; cd littlefs_c-*-windows-x86_64; windows=$PWD; cd ..
mkdir program; cp "$at"/share/doc/mklittlefs/*.c program; cat > program/CMakeLists.txt <<'CMAKE'
cmake_minimum_required(VERSION 3.20)
project(program C)
find_package(littlefs_c 1.0 REQUIRED)
add_executable(by_shared example.c)
target_link_libraries(by_shared littlefs_c::shared)
add_executable(by_static example.c)
target_link_libraries(by_static littlefs_c::static)
add_executable(counter lfs_example.c)
target_link_libraries(counter littlefs_c::lfs littlefs_c::static)
CMAKE
cmake -S program -B linux -Dlittlefs_c_DIR="$at/lib/cmake/littlefs_c" > log; cmake --build linux >> log
linux/by_shared three.img > three; cmp one.img three.img; linux/by_static four.img > four; cmp one.img four.img
cmake -S program -B for_windows -Dlittlefs_c_DIR="$windows/lib/cmake/littlefs_c" -DCMAKE_SYSTEM_NAME=Windows -DCMAKE_C_COMPILER=x86_64-w64-mingw32-gcc \
    -DCMAKE_C_FLAGS=-D__USE_MINGW_ANSI_STDIO=1 >> log; cmake --build for_windows >> log
cp "$windows/bin/littlefs_c.dll" for_windows
for program in by_shared by_static; do
    WINEDEBUG=-all /usr/lib/wine/wine64 "for_windows/$program.exe" "$program.img" > "$program"; cmp one.img "$program.img"
done
(cd by_cmake; ../linux/counter; ../linux/counter) > log
(cd on_windows; for run in 1 2; do WINEDEBUG=-all /usr/lib/wine/wine64 ../for_windows/counter.exe; done) > log
cmp counted/disk.img by_cmake/disk.img; cmp counted/disk.img on_windows/disk.img
echo "pkg-config, CMake, and CMake for Windows: the examples make the same images"

# the wheels
python3 -m venv venv; venv/bin/pip install -q --no-index "$made"/littlefs_c-*-manylinux*x86_64.whl
venv/bin/python -c 'import littlefs_c; image = littlefs_c.Image.by_superblock(open("disk.img", "rb").read()); print("wheel:", image.read("/log/today"))'
for wheel in "$made"/*.whl; do unzip -l "$wheel" | grep "littlefs_c/littlefs_c\.\(so\|dll\)" > names; done

# the npm package
mkdir npm; cd npm; echo '{"type": "module"}' > package.json; npm install --silent --no-audit --no-fund --offline "$made"/littlefs-proved-*.tgz
npx --no-install mklittlefs -c ../data -s 64k disk.img; cmp disk.img ../disk.img; [ "$(npx --no-install mklittlefs -l disk.img)" = "$lines" ]
node --input-type=module -e 'import { readFileSync } from "node:fs"; import { Image } from "littlefs-proved";
console.log("npm:", Image.mount(readFileSync("disk.img")).readText("/log/today").trim())'; cd ..

# the Debian package
[ -n "${MIRROR:-}" ] || exit 0
debootstrap --variant=minbase bookworm debian "$MIRROR" > log
cp -r data "$made"/mklittlefs_*_amd64.deb debian
chroot debian /bin/sh -eu <<'INSIDE'
dpkg -i mklittlefs_*.deb
mklittlefs -c data -s 64k disk.img
mklittlefs --check disk.img
mklittlefs -u copy disk.img; cmp data/log/today copy/log/today
ls /usr/include/littlefs_c.h /usr/share/littlefs_c/lfs/lfs.h /usr/lib/*/liblittlefs_c.a /usr/lib/*/pkgconfig/littlefs_c.pc /usr/share/man/man1/mklittlefs.1.gz
ldconfig -p | grep -q liblittlefs_c.so.1
dpkg -r mklittlefs; [ ! -e /usr/bin/mklittlefs ]
INSIDE
cmp disk.img debian/disk.img
echo "the Debian package works in a system of its own"
