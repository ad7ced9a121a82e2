#!/usr/bin/env bash
# Looks at the release, its program, library and page, and at how ./sagas chooses the program that it runs. No proof, and no kit but a false one.
#
# First that the release in dist/ is whole, of these sources, and asks for no more of a machine than docs/dev/testing.md says. Then, in copies of
# this tree: that a copy answers at once without the kit; that it builds where a source was changed, and not where another file was; that a
# release with a byte changed or of older sources is refused by name; and starts in other folders, through links, two at a time, and where
# nothing can be written.
set -uo pipefail
cd "$(dirname "$0")/.." || exit 1
top=$PWD
work=$(mktemp -d)
trap 'chmod -R u+w "$work"; rm -rf "$work"' EXIT
chmod 755 "$work"
looked=0
wrong=0

# The newest C library that the libraries may ask for.
most_libc=2.14
most_libc_aarch64=2.17

fail() {
  wrong=$((wrong + 1))
  echo "wrong: $*"
}

# expect WHAT WANTED FOUND: compares.
expect() {
  looked=$((looked + 1))
  [ "$2" = "$3" ] || fail "$1: found '$3', wanted '$2'"
}

# expect_piece WHAT WANTED FOUND: whether what was found has a piece.
expect_piece() {
  looked=$((looked + 1))
  case $3 in *"$2"*) ;; *) fail "$1: found '$3', which has no '$2'" ;; esac
}

# The folders of PATH, where one that has the kit's command stands as links to all else in it.
path_without_kit() {
  local folders folder path='' number=0
  IFS=: read -r -a folders <<<"$PATH"
  for folder in "${folders[@]}"; do
    if [ -e "$folder/rt" ]; then
      number=$((number + 1))
      mkdir -p "$work/path$number"
      find "$folder" -mindepth 1 -maxdepth 1 ! -name rt -exec ln -s -t "$work/path$number" {} +
      folder=$work/path$number
    fi
    path=$path:$folder
  done
  echo "${path#:}"
}

# stands_alone FILE: a program that asks for no loader and no library.
stands_alone() {
  expect "what $1 asks for" '' "$(readelf -Wld "$1" | grep -E 'NEEDED|INTERP')"
}

# asks_for_libc FILE MOST: a library that asks for nothing but the C library, of a version that is at most this.
asks_for_libc() {
  local needed newest
  needed=$(readelf -Wd "$1" | sed -n 's/.*(NEEDED).*\[\(.*\)\]/\1/p' | grep -vxE 'lib(c\.so\.6|m\.so\.6|gcc_s\.so\.1)|ld-linux-[a-z0-9-]*\.so\.[0-9]')
  expect "libraries beside the C library, of $1" '' "$needed"
  newest=$(readelf -W --dyn-syms "$1" | grep -oE 'GLIBC_[0-9.]+' | sort -uV | tail -n 1)
  expect "the newest libc asked for, by $1" "GLIBC_$2" "$(printf '%s\n' "$newest" "GLIBC_$2" | sort -V | tail -n 1)"
  expect "the name of $1" libsagas.so.1 "$(readelf -Wd "$1" | sed -n 's/.*(SONAME).*\[\(.*\)\]/\1/p')"
  expect "a stack that runs, in $1" '' "$(readelf -Wl "$1" | grep GNU_STACK | grep -o RWE)"
}

# runs_on_v2 FILE: code of ours for x86-64 has no instruction past x86-64-v2. (glibc, in the program, has others, and looks at the processor before.)
runs_on_v2() {
  local beyond
  looked=$((looked + 1))
  # (AVX and what came with it begin with v; tzcnt is bsf where there is no BMI)
  beyond=$(objdump -d --no-show-raw-insn "$1" | awk -F '\t' '
    NF > 1 { split($2, word, " "); seen[word[1]] = 1 }
    END { for (it in seen) print it }' | grep -E '^v|^(andn|bextr|bls[ir]|blsmsk|bzhi|mulx|pdep|pext|rorx|sarx|shlx|shrx|lzcnt|movbe|adcx|adox|sha(1|256).*|aes.*|pclmul.*|rdrand|rdseed|xsave.*|xgetbv)[lqwb]?$')
  [ -z "$beyond" ] || fail "$1 has instructions past x86-64-v2: $(tr '\n' ' ' <<<"$beyond")"
}

# is_for FILE MACHINE: a program, library or object for this processor.
is_for() {
  expect "the processor of $1" "$2" "$(readelf -Wh "$1" | sed -n 's/^ *Machine: *//p' | sort -u)"
}

# What the libraries show to others: the calls of sagas.h, and nothing else. What they ask for: the C library's memory.
shows_what_it_should() {
  local calls asked archive=$1/libsagas.a
  calls=$(sed -nE 's/^(uint32_t|void) (sagas_[a-z_]*)\(.*/\2/p' dist/sagas.h | sort | tr '\n' ' ')
  expect "the calls of $1/libsagas.so" "$calls" "$(readelf -W --dyn-syms "$1/libsagas.so" | awk '$5 == "GLOBAL" && $7 != "UND" { print $8 }' | sort | tr '\n' ' ')"
  expect "the calls of $archive" "$calls" "$(readelf -Ws "$archive" | awk '$5 == "GLOBAL" && $7 != "UND" { print $8 }' | sort | tr '\n' ' ')"
  asked=$(readelf -Ws "$archive" | awk '$7 == "UND" && $8 != "" { print $8 }' | grep -vxE 'malloc|realloc|free|mem(cpy|move|set|cmp|chr)|bcmp|strlen' | sort -u | tr '\n' ' ')
  expect "what $archive asks for beside memory" '' "$asked"
}

# fresh NAME: a copy of this tree, as a clone has it; gives its path.
fresh() {
  cp -a "$work/tree" "$work/$1"
  echo "$work/$1"
}

# blocked FOLDER: what `./sagas check` says of the example `licence` there, and its status, without the kit.
blocked() {
  (cd "$1" && PATH=$bare ./sagas check examples/licence.toml examples/licence.case.json examples/licence.answer.json 2>&1; echo "$?")
}
answer=$'blocked\n0'

# builds FOLDER: what a start says there where a kit is on the PATH.
builds() {
  (cd "$1" && PATH=$work/kit:$bare ./sagas --version 2>&1) | tail -n 20
}

# check FOLDER: what ./release --check says there, and its status.
check() {
  (cd "$1" && PATH=$bare ./release --check 2>&1; echo "$?")
}

tests/need --for release || exit 77
said=$(./release --check 2>&1)
expect 'the release in dist/' '' "$said"
[ -x dist/sagas ] || { echo "release: $looked looks, $wrong wrong"; exit 1; }
for place in . aarch64; do
  machine='Advanced Micro Devices X86-64'
  [ "$place" = . ] || machine=AArch64
  stands_alone "dist/$place/sagas"
  for file in sagas sagas.o runtime.o libsagas.so libsagas.a; do is_for "dist/$place/$file" "$machine"; done
  shows_what_it_should "dist/$place"
done
asks_for_libc dist/libsagas.so "$most_libc"
asks_for_libc dist/aarch64/libsagas.so "$most_libc_aarch64"
runs_on_v2 dist/sagas.o
runs_on_v2 dist/libsagas.so

mkdir "$work/tree" "$work/kit"
tar -C "$top" --exclude=./.git --exclude=out --exclude=__pycache__ -cf - . | tar -C "$work/tree" -xf -
bare=$(path_without_kit)
printf '#!/bin/sh\necho "the kit was called: $*"\nexit 1\n' >"$work/kit/rt"
chmod +x "$work/kit/rt"
[ -z "$(PATH=$bare command -v rt)" ] || fail 'there is a kit on the PATH that should have none'

# A fresh copy answers at once, and says what it is.
tree=$(fresh first)
begin=${EPOCHREALTIME/./}
expect 'a first start' "$answer" "$(blocked "$tree")"
took=$((${EPOCHREALTIME/./} - begin))
[ "$took" -lt 1000000 ] || fail "a first start took $took microseconds"
expect 'the choice that was kept' 'dist/sagas' "$(cat "$tree/out/start")"
expect 'a second start' "$answer" "$(blocked "$tree")"
kit=$(sed -n 's/^kit: //p' dist/sagas.txt)
expect 'the version' "$(dist/sagas --version), proved with $kit (the release)" "$(cd "$tree" && PATH=$bare ./sagas --version)"
expect 'an unknown word beside --version' "$(dist/sagas --version x 2>&1)" "$(cd "$tree" && PATH=$bare ./sagas --version x 2>&1)"
expect 'a fresh copy, by ./release --check' 0 "$(check "$tree")"

# On ARM64 it starts the other program, which does not run here.
tree=$(fresh arm)
mkdir "$work/arm64"
printf '#!/bin/sh\necho aarch64\n' >"$work/arm64/uname"
chmod +x "$work/arm64/uname"
found=$(cd "$tree" && PATH=$work/arm64:$bare ./sagas --version 2>&1)
case $found in
  *'the release in dist/ does not run on this machine'* | "$(dist/sagas --version), proved with $kit (the release)") looked=$((looked + 1)) ;;
  *) fail "a start on ARM64: $found" ;;
esac
printf 'X' | dd of="$tree/dist/aarch64/sagas" bs=1 seek=5000 conv=notrunc status=none
expect_piece 'a start on ARM64 with a changed byte' 'dist/aarch64/sagas is not the program that dist/sagas.txt tells of' "$(cd "$tree" && PATH=$work/arm64:$bare ./sagas --version 2>&1)"
expect_piece './release --check of a changed byte for ARM64' 'dist/aarch64/sagas is not what dist/sagas.txt tells of' "$(check "$tree")"
tree=$work/first

# It starts from elsewhere, through links, and in a folder with a blank in its name.
mkdir "$work/other place"
ln -s "$tree/sagas" "$work/other place/far"
ln -s far "$work/other place/near"
ln -s ../first "$work/other place/folder"
for start in "$tree/sagas" "$work/other place/far" "$work/other place/near" "$work/other place/folder/sagas"; do
  expect "a start as $start" blocked "$(cd "$tree/examples" && PATH=$bare "$start" check licence.toml licence.case.json licence.answer.json 2>&1)"
done
expect 'a start as ./near' "$(dist/sagas --help)" "$(cd "$work/other place" && PATH=$bare ./near --help 2>&1)"
expect 'a start by the PATH' "$(dist/sagas --help)" "$(PATH="$work/other place:$bare" near --help 2>&1)"
mv "$(fresh blank)" "$work/other place/sources"
expect 'a folder with a blank' "$answer" "$(blocked "$work/other place/sources")"

# A changed source: it is built anew, by a kit that only says that it was called.
changed='// changed'
for file in crates/saga_def/src/lib.rt crates/saga_tool/src/main.rt; do
  for before in '' started; do
    rm -rf "$work/changed"
    tree=$(fresh changed)
    [ -z "$before" ] || expect 'a start before a change' "$answer" "$(blocked "$tree")"
    echo "$changed" >>"$tree/$file"
    [ -z "$before" ] || touch -d 2020-01-01 "$tree/$file"
    expect_piece "without the kit, $file changed" "the sources differ from those of the release" "$(blocked "$tree")"
    expect "the status without the kit, $file changed" 4 "$(blocked "$tree" | tail -n 1)"
    expect_piece "$file changed" 'the kit was called' "$(builds "$tree")"
    expect_piece "./release --check, $file changed" 'the release in dist/ is of other sources' "$(check "$tree")"
  done
done
tree=$(fresh fewer)
expect 'a start before a source is removed' "$answer" "$(blocked "$tree")"
rm -r "$tree/crates/saga_def/specs"
expect_piece 'a source removed' 'the kit was called' "$(builds "$tree")"
tree=$(fresh lines)
sed -i 's/^saga_case: saga_def$/saga_case: saga_def memchr/' "$tree/crates.txt"
expect_piece 'a line of crates.txt changed' 'the kit was called' "$(builds "$tree")"

# Another file: it is not.
tree=$(fresh pages)
expect 'a start before pages are changed' "$answer" "$(blocked "$tree")"
for file in docs/FORMATS.md README.md crates/saga_trials/src/main.rt crates/saga_tool/stdout; do
  [ -e "$tree/$file" ] || continue
  echo "$changed" >>"$tree/$file"
  expect "a start with $file changed" "$answer" "$(blocked "$tree")"
  expect "./release --check, $file changed" 0 "$(check "$tree")"
done
touch "$tree/crates/saga_def/src/lib.rt"
expect 'a start with a source that is only newer' "$answer" "$(blocked "$tree")"

# A release that is not what it says.
tree=$(fresh byte)
expect 'a start before a byte is changed' "$answer" "$(blocked "$tree")"
printf 'X' | dd of="$tree/dist/sagas" bs=1 seek=5000 conv=notrunc status=none
expect_piece './release --check of a changed byte' 'dist/sagas is not what dist/sagas.txt tells of' "$(check "$tree")"
expect_piece 'a start with a changed byte' 'dist/sagas is not the program that dist/sagas.txt tells of' "$(blocked "$tree")"
tree=$(fresh library)
printf 'X' | dd of="$tree/dist/libsagas.so" bs=1 seek=5000 conv=notrunc status=none
expect_piece './release --check of a changed byte of the library' 'dist/libsagas.so is not what dist/library.txt tells of' "$(check "$tree")"
tree=$(fresh module)
printf 'X' | dd of="$tree/dist/sagas.wasm" bs=1 seek=5000 conv=notrunc status=none
expect_piece './release --check of a changed byte of the module' 'dist/sagas.wasm is not what dist/library.txt tells of' "$(check "$tree")"
tree=$(fresh page)
echo "/* changed */" >>"$tree/page/src/page.css"
expect_piece './release --check of a changed page' 'dist/sagas.html is of other pages' "$(check "$tree")"
(cd "$tree" && PATH=$bare ./release --page)
expect 'a page that was made anew, by ./release --check' 0 "$(check "$tree")"
echo "/* changed */" >>"$tree/library/sagas.h"
expect_piece './release --check of a changed header' 'dist/sagas.h is not library/sagas.h' "$(check "$tree")"
cp "$tree/dist/sagas.h" "$tree/library/sagas.h"
echo "/* changed */" >>"$tree/library/c/tail.c"
expect_piece './release --check of a changed C file' 'dist/sagas.c.xz is of another library/c/head.c or tail.c' "$(check "$tree")"
echo "// changed" >>"$tree/crates/saga_c/src/lib.rt"
expect 'a start with a changed saga_c' "$answer" "$(blocked "$tree")"
expect_piece './release --check of a changed saga_c' 'the library in dist/ is of other sources' "$(check "$tree")"
tree=$work/byte
rm -r "$tree/dist"
expect_piece './release --check of none' 'there is no release in dist/' "$(check "$tree")"
expect_piece 'a start with none' 'there is no release in dist/' "$(blocked "$tree")"

# A program that was built here goes first, while no source is newer.
tree=$(fresh built)
expect 'a start before there is a program' "$answer" "$(blocked "$tree")"
mkdir "$tree/crates/saga_tool/out"
printf '#!/bin/sh\necho "built here"\n' >"$tree/crates/saga_tool/out/saga_tool"
chmod +x "$tree/crates/saga_tool/out/saga_tool"
expect 'a program that was built here' $'built here\n0' "$(blocked "$tree")"
expect 'the version of what was built here' 'built here (built here)' "$(cd "$tree" && PATH=$bare ./sagas --version)"
touch "$tree/crates/saga_def/src/lib.rt"
expect 'a program that is older than its sources' "$answer" "$(blocked "$tree")"

# Two at once, and where nothing can be written.
tree=$(fresh two)
for number in 1 2 3 4; do blocked "$tree" >"$work/two.$number" & done
wait
for number in 1 2 3 4; do expect 'starts at once' "$answer" "$(cat "$work/two.$number")"; done
expect 'what starts at once left' start "$(ls "$tree/out")"
tree=$(fresh fixed)
chmod -R a-w,a+rX "$tree"
as=()
[ "$(id -u)" != 0 ] || as=(setpriv --reuid=65534 --regid=65534 --clear-groups)
for number in 1 2; do
  expect 'a start where nothing can be written' blocked "$(cd "$tree" && PATH=$bare "${as[@]}" ./sagas check examples/licence.toml examples/licence.case.json examples/licence.answer.json 2>&1)"
done
expect 'what was written where nothing can be' '' "$(ls "$tree/out" 2>/dev/null)"

echo "release: $looked looks, $wrong wrong; a first start took $((took / 1000)) ms"
[ "$wrong" = 0 ]
