#!/usr/bin/env bash
# Builds the wheels, installs each into an environment of its own, and runs the tests of the store over what was installed, not over the checkout.
#   tests/by-hand/wheels.sh [x86_64 | aarch64 | compiled]..    without a word all three
# x86_64 and aarch64 carry the released programs; compiled is for a machine that has none: the build is told that it is on another processor, and
# compiles the C file. For aarch64, Debian's Python for ARM64 runs by qemu, in a folder that debootstrap fills, as root, and the kernel starts
# ARM64 programs there alone (a name space of its own, of Linux 6.7 or later); PostgreSQL is left out there. Takes some 10, 20 and 10 minutes, and no kit.
set -uo pipefail
cd "$(dirname "$0")/../.." || exit 1
work=$(mktemp -d)
chmod 755 "$work" # (a test runs as another user)
trap 'rm -rf "$work"' EXIT
wrong=0
python=/usr/bin/python3

# What is of the checkout and not of the package.
left_out=(--ignore-glob='*celery*' --ignore-glob='*service*' --ignore-glob='*_page.py' --ignore-glob='*definition.py' --ignore-glob='*wrong*' --ignore-glob='*kills*'
  --ignore-glob='*follower.py' --ignore-glob='*layers.py' --ignore-glob='*architecture.py')
# What needs no more than Python, and not much time, which is short by qemu.
alone=(test_store test_outcomes test_library test_platforms test_pairs test_requests test_retention test_values test_answers)

for it in python:venv,python3-venv python:ensurepip,python3-venv python:pip,python3-pip python:pytest,python3-pytest python:xdist,python3-pytest-xdist \
  python:hypothesis,python3-hypothesis python:psycopg,python3-psycopg python:psycopg_pool,python3-psycopg-pool initdb,postgresql gcc,gcc; do
  tests/need "${it%,*}" "${it#*,}" || exit 1
done

# fail WHAT: says it.
fail() {
  wrong=$((wrong + 1))
  echo "wrong: $*"
}

# tree FOLDER PACKAGE: the tests in a folder that has of the checkout what they read, and no sources of the package; its program stands for dist/.
tree() {
  mkdir -p "$1/python"
  cp -r python/tests "$1/python/tests"
  cp -r examples docs tests README.md "$1"
  ln -s "$2/bin" "$1/dist"
}

# tested NAME WORD..: runs the tests over a wheel that is here, but for what the words for pytest leave out.
tested() {
  local folder=$work/$1 package
  shift
  $python -m venv --system-site-packages "$folder/env" || return 1
  "$folder/env/bin/python" -m pip install -q --no-index --no-deps "$folder"/*.whl || return 1
  package=$(cd / && "$folder/env/bin/python" -B -c 'import sagas; print(sagas.__path__[0])')
  case $package in "$folder/env/"*) ;; *) echo "the package is that of $package" && return 1 ;; esac
  tree "$folder/tree" "$package"
  (cd "$folder/tree/python" && PATH=$folder/env/bin:$PATH exec python -B -m pytest -q -p no:cacheprovider -n 2 "${left_out[@]}" "$@" tests)
}

# The wheel for this machine, if it is that.
x86_64() {
  mkdir "$work/x86_64"
  $python -m pip wheel -q --no-index --no-deps -w "$work/x86_64" ./python || return 1
  tested x86_64
}

# The wheel that is built on a machine for which no program was released, as this one would be with another processor.
compiled() {
  mkdir "$work/compiled"
  $python -B - "$work/compiled" <<'END_OF_BUILD' || return 1
import platform, sys
sys.path.insert(0, "python/packaging")
platform.machine = lambda: "another"
import wheels
print(wheels.build_wheel(sys.argv[1]))
END_OF_BUILD
  # (it has no library to be loaded: the package starts the program; and that program adds no definitions, so that further engines are started)
  tested compiled --deselect tests/test_library.py::test_any_buffer --deselect tests/test_shapes_store.py::test_definitions_start_no_further_engine -k 'not [library'
}

# Leaves out what takes a server, since there is none for ARM64; and a program without its loader, which qemu starts, and then ends.
plugin='
def is_left_out(item):
    takes_server = {"postgresql", "url"} & set(getattr(item, "fixturenames", ())) or "postgresql" in item.name
    return takes_server or ("cannot_be_run" in item.name and "loader" in item.name)

def pytest_collection_modifyitems(config, items):
    config.hook.pytest_deselected(items=[item for item in items if is_left_out(item)])
    items[:] = [item for item in items if not is_left_out(item)]
'

# In a name space of its own: lets the kernel start programs for ARM64 by qemu, and runs a command in the root folder.
# shellcheck disable=SC2016 # (it is expanded there)
inside='
set -e
root=$1; shift
mount -t binfmt_misc binfmt_misc /proc/sys/fs/binfmt_misc
magic="\x7fELF\x02\x01\x01\x00\x00\x00\x00\x00\x00\x00\x00\x00\x02\x00\xb7\x00"
mask="\xff\xff\xff\xff\xff\xff\xff\x00\xff\xff\xff\xff\xff\xff\xff\xff\xfe\xff\xff\xff"
printf %s ":arm64:M::$magic:$mask:$(command -v qemu-aarch64-static):FP" >/proc/sys/fs/binfmt_misc/register
for folder in proc dev sys; do mount --rbind /$folder "$root/$folder"; done
exec chroot "$root" /usr/bin/env -i HOME=/root LANG=C.UTF-8 PATH=/work/env/bin:/usr/sbin:/usr/bin:/sbin:/bin "$@"
'

# The wheel for ARM64, by a Python for ARM64.
aarch64() {
  local root=$work/root folder=$work/root/work package=/work/env/lib/python3.11/site-packages/sagas
  for it in debootstrap,debootstrap qemu-aarch64-static,qemu-user-static; do tests/need "${it%,*}" "${it#*,}" || return 1; done
  [ "$(id -u)" = 0 ] || { echo 'wheels: the root folder for ARM64 takes root'; return 1; }
  debootstrap --foreign --arch=arm64 --variant=minbase \
    --include=python3-venv,python3-pytest,python3-pytest-xdist,python3-hypothesis,python3-psycopg,python3-psycopg-pool bookworm "$root" >"$work/log" 2>&1 ||
    { tail "$work/log"; return 1; }
  for it in "$root"/var/cache/apt/archives/*.deb; do dpkg-deb --fsys-tarfile "$it" | tar -C "$root" --keep-directory-symlink -xf - || return 1; done
  mkdir "$folder"
  $python -m pip wheel -q --no-index --no-deps --config-settings=processor=aarch64 -w "$folder" ./python || return 1
  tree "$folder/tree" "$package"
  echo "$plugin" >"$folder/leaves_out.py"
  run() { unshare --user --map-root-user --mount sh -c "$inside" sh "$root" "$@"; }
  run ldconfig && run python3 -m venv --system-site-packages /work/env || return 1
  run sh -c 'python -m pip install -q --no-index --no-deps /work/*.whl' || return 1
  run python -B -c 'import platform, sagas; from sagas import library, program
print(platform.machine(), program.path(), library.loaded(library.path()))
assert platform.machine() == "aarch64" and sagas.__path__[0].startswith("/work/env") and library.loaded(library.path())' || return 1
  # (each file in a process of its own: what one leaves under way, goes on for long by qemu)
  run sh -c 'cd /work/tree/python/tests || exit; status=0
for name; do PYTHONPATH=/work timeout 1800 python -B -m pytest -q -p no:cacheprovider -p leaves_out -n 2 "$name.py" || status=1; done
exit $status' sh "${alone[@]}"
}

[ $# -gt 0 ] || set -- x86_64 aarch64 compiled
for name; do
  echo "== $name"
  begin=$SECONDS
  "$name" || fail "$name"
  echo "wheels: $name, $((SECONDS - begin)) s"
done
[ "$wrong" = 0 ]
