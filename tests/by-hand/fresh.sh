#!/usr/bin/env bash
# Runs what the README says on a fresh machine: Debian 12 with git, python3 and python3-venv, and nothing else. First the quick start, and then
# ./test --quick --install. With the packages that this installs, `sagas demo` shows its first page, and leaves nothing when it ends; and the
# test of a project of `sagas new` passes. Ends with their status. The checkout is a clone of HEAD in root's home folder.
#   tests/by-hand/fresh.sh [FOLDER]   makes the machine in FOLDER, and keeps it there; else in a folder that is removed
# Takes some 25 minutes, as root, with debootstrap. It is no part of `./test`.
set -euo pipefail
top=$(cd "$(dirname "$0")/../.." && pwd)
"$top/tests/need" debootstrap debootstrap
root=${1:-$(mktemp -d)}
[ -n "${1:-}" ] && kept=1 || kept=

end() {
  for place in dev/pts dev/shm dev proc sys; do
    mountpoint -q "$root/$place" && umount -l "$root/$place"
  done
  [ -n "$kept" ] || rm -rf --one-file-system "$root"
}
trap end EXIT

if ! [ -e "$root/etc/debian_version" ]; then
  debootstrap --variant=minbase --include=ca-certificates,git,python3,python3-venv bookworm "$root" "${MIRROR:-http://deb.debian.org/debian}" >"$root.log" 2>&1 ||
    { tail -n 20 "$root.log"; exit 1; }
  cp /etc/resolv.conf "$root/etc/resolv.conf"
  for file in /etc/apt/sources.list.d/debian.sources /etc/apt/apt.conf.d/*proxy*; do
    [ ! -f "$file" ] || cp "$file" "$root${file}"
  done
fi
chmod 755 "$root" # other users of the machine enter it
mkdir -p "$root"/{proc,sys,dev}
mount -t proc proc "$root/proc"
mount -t sysfs sys "$root/sys"
mount --rbind /dev "$root/dev"
mount --make-rslave "$root/dev"
rm -rf "$root/root/sagas"
git clone -q "file://$top" "$root/root/sagas"

# as COMMAND: runs a command in the checkout, with the environment of a login and no more.
as() {
  chroot "$root" /usr/bin/env -i HOME=/root USER=root LANG=C.UTF-8 TERM=dumb PATH=/usr/local/sbin:/usr/local/bin:/usr/sbin:/usr/bin:/sbin:/bin \
    bash -c "cd ~/sagas && $1"
}

# The commands and the program of the quick start, as the README has them.
sed -n '/^## Quick start/,/^## /p' "$root/root/sagas/README.md" | awk '/^```python/ { on = 1; next } /^```/ { on = 0 } on' >"$root/root/server.py"
install=$(sed -n '/^## Quick start/,/^## /p' "$root/root/sagas/README.md" | awk '/^```/ { is_open = !is_open; on = is_open && $0 == "```"; next } on && /venv/')
begin=$SECONDS
as "$install && cd ~ && python server.py" >"$root/root/said" 2>&1 || { cat "$root/root/said"; echo "fresh: the quick start failed"; exit 1; }
grep -q '^server customer-1: recovered, plan of cost 14$' "$root/root/said" || { cat "$root/root/said"; echo "fresh: the quick start prints something else"; exit 1; }
echo "fresh: the quick start took $((SECONDS - begin)) s"
begin=$SECONDS
status=0
as "./test --quick --install" || status=$?
echo "fresh: ./test --quick --install took $(((SECONDS - begin) / 60)) minutes, and ended with status $status"

# The demo and a new project, in an environment with Debian's packages of the service.
cat >"$root/root/look.sh" <<'END'
set -euo pipefail
/usr/bin/python3 -m venv --system-site-packages ~/look
. ~/look/bin/activate
pip install -q './python[server]'
cd ~
rm -rf demo shop
mkdir demo
TMPDIR=$HOME/demo sagas demo --no-browser >address &
until grep -q http address; do
  kill -0 $!
  sleep 0.1
done
python -c 'import sys, urllib.request; print(urllib.request.urlopen(sys.argv[1]).read().decode())' "$(grep -o 'http://[0-9.:]*' address)/ui" >page
grep -q '<h1>Inbox' page
kill -INT $!
wait $!
[ -z "$(ls -A demo)" ]
if grep -lz "^TMPDIR=$HOME/demo$" /proc/[0-9]*/environ 2>/dev/null; then
  echo "a process of the demo is left"
  exit 1
fi
sagas new shop --language python
cd shop
python -m pytest -q
END
if as "bash ~/look.sh" >"$root/root/said" 2>&1; then
  echo "fresh: the demo and a new project do what they should"
else
  cat "$root/root/said"
  echo "fresh: the demo or a new project failed"
  status=1
fi
exit "$status"
