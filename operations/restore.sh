#!/usr/bin/env bash
# usage: restore.sh BACKUP F     (puts a backup in place of a stored log that no server has open)
#
# BACKUP, with BACKUP-wal if that is there, was made by backup.sh, or is F of a server that has ended. F is that
# of `serve --file`, or a symbolic link to it. First end the server and what starts it again, as its loop or unit.
#
# F and F-wal are moved aside, to F.before-TIME and F.before-TIME-wal, and nothing is deleted. BACKUP stays as it
# is. The new F gets the owner, group and rights of the old one; where there is none, of the folder and 0600. The
# folder of F needs free room for BACKUP twice. JCRDT names the program; otherwise it is jcrdt of PATH, or that of
# this clone.
#
# In a folder of another user, root does all with that user's rights: so nobody can let it change a file of root's.
# Then the new F is that user's, and the check takes room for BACKUP twice in the folder for temporary files (TMPDIR).
# A folder of root's that others may write into isn't taken.
#
# Then serve F under a NAME that this server never had, since it would give names of replicas out twice, and
# let peers deliver what the backup lacks. The last line printed says which NAMEs are used.
#
# Status 0: F is as BACKUP. 1: F is as before; if a server made a new one meanwhile, F.before-TIME is. 2: a wrong
# command line.
set -euo pipefail
if [ $# -ne 2 ] || [ "$1" = --help ]; then sed -n '2s/^# //p' "$0" >&2; exit 2; fi
fail() { echo "restore: $*" >&2; exit 1; }
here=$(dirname "$(realpath "$0")")
program=${JCRDT:-$(command -v jcrdt || echo "$here/../jcrdt")}
program=$(realpath -- "$(command -v -- "$program" || echo "$program")")
backup=$(realpath -e -- "$1" 2>/dev/null) || fail "$1 isn't there"
file=$(realpath -m -- "$2")
[ "$backup" != "$file" ] || fail "BACKUP and F are one file"

# All names are below this folder from here on: another one that takes its place changes nothing.
folder=$(dirname -- "$file")
cd -P -- "$folder" 2>/dev/null || fail "there is no folder $folder"
file=./$(basename -- "$file")
# What is before each command that changes the folder: nothing, or the change to its owner. A session of its own keeps
# that user's programs from the terminal.
as_owner=()
if [ "$(id -u)" -eq 0 ]; then
  owner=$(stat -c %u .)
  if [ "$owner" -ne 0 ]; then
    group=$(stat -c %g .)
    if [ "$(stat -c %u -- "$file" 2>/dev/null)" = "$owner" ]; then group=$(stat -c %g -- "$file"); fi
    as_owner=(setsid --wait setpriv "--reuid=$owner" "--regid=$group" --clear-groups --)
  elif [ -n "$(find . -maxdepth 0 -perm /022 ! -perm -1000)" ]; then
    fail "others may write into $folder: restore as the user who serves F, or chmod go-w it"
  fi
fi
umask 077
own=
room=
leave() {
  if [ -n "$room" ]; then "${as_owner[@]}" rm -rf -- "$room"; fi
  if [ -n "$own" ]; then rm -rf -- "$own"; fi
}
trap leave EXIT
trap 'exit 1' HUP INT TERM
room=$("${as_owner[@]}" mktemp -d -- "$file.XXXXXX" </dev/null) || fail "no folder beside $2"
if [ ${#as_owner[@]} -eq 0 ]; then
  trusted=$room
else
  trusted=$(mktemp -d) || fail "no folder for temporary files"
  own=$trusted
fi

# What stays as it is is copied: `check` may change the file that it reads.
cp -- "$backup" "$trusted/log" || fail "$backup can't be copied"
if [ -e "$backup-wal" ]; then cp -- "$backup-wal" "$trusted/log-wal" || fail "$backup-wal can't be copied"; fi
mkdir "$trusted/checked"
cp -- "$trusted"/log* "$trusted/checked/" || fail "$backup can't be copied"
"$program" check --file "$trusted/checked/log" >"$trusted/told" 2>"$trusted/why" ||
  fail "the backup isn't good: $(tail -n 1 "$trusted/why")"
rm -rf -- "$trusted/checked"
if [ -n "$own" ]; then
  for log in "$own"/log*; do
    # shellcheck disable=SC2016  # the inner shell has $1
    "${as_owner[@]}" sh -c 'cat >"$1"' sh "$room/${log##*/}" <"$log" || fail "$backup can't be copied to $folder"
  done
fi

# Whether a server that can be seen has a file open: root sees those of all users.
is_served() {
  local process
  for process in $(find -L /proc/[0-9]*/fd -maxdepth 1 -samefile "$1" 2>/dev/null | cut -d / -f 3); do
    if [ "$(tr '\0' '\n' 2>/dev/null <"/proc/$process/cmdline" | sed -n 2p)" = serve ]; then return 0; fi
  done
  return 1
}
# Whether a program has a file locked, also one that can't be seen: it keeps `check` out.
is_locked() {
  ! "${as_owner[@]}" "$program" check --file "$1" >/dev/null 2>"$trusted/why" </dev/null && grep -q 'another program uses it' "$trusted/why"
}

like=.
mode=600
if [ -e "$file" ]; then
  if is_served "$file" || is_locked "$file"; then fail "a server has $2 open: end it first, and its loop or unit"; fi
  like=$file
  mode=$(stat -c %a -- "$file")
fi
if [ ${#as_owner[@]} -eq 0 ]; then
  chown --no-dereference --reference="$like" -- "$room"/log* || fail "the owner of $2 can't be given to another file: be root"
fi
# The folder of another user may have other files now than those that were put there: these names are tried by its rights.
new=("$room/log")
if [ -e "$trusted/log-wal" ]; then new+=("$room/log-wal"); fi
"${as_owner[@]}" chmod "$mode" -- "${new[@]}"
"${as_owner[@]}" sync -- "${new[@]}"

# F goes first and comes last: a server that is started in between finds F-wal alone, and refuses that.
aside=$file.before-$(date -u +%Y%m%dT%H%M%SZ)
if [ -e "$aside" ] || [ -e "$aside-wal" ]; then fail "$folder/${aside#./} is there already: wait a second"; fi
if [ -e "$file" ]; then
  "${as_owner[@]}" mv -T -- "$file" "$aside"
  # A server that was started since the last look goes on with what was moved: it gets its F back.
  if is_served "$aside"; then
    "${as_owner[@]}" mv -n -T -- "$aside" "$file"
    fail "a server has opened $2 meanwhile: end it first, and its loop or unit"
  fi
fi
if [ -e "$file-wal" ]; then "${as_owner[@]}" mv -T -- "$file-wal" "$aside-wal"; fi
if [ ${#new[@]} -eq 2 ]; then
  "${as_owner[@]}" ln -- "$room/log-wal" "$file-wal" || fail "$2-wal came meanwhile; F is $folder/${aside#./}"
fi
"${as_owner[@]}" ln -- "$room/log" "$file" || fail "$2 came meanwhile; what it was is $folder/${aside#./}"
"${as_owner[@]}" sync -- .
cat -- "$trusted/told"
names=$(grep -o '\["[a-z0-9-]*-[0-9]*",[0-9]*\]' "$trusted/told" | sed 's/^\["//; s/-[0-9]*",.*//' | sort -u | paste -sd ' ' -) || true
if [ -e "$aside" ]; then echo "restore: what was there is $folder/${aside#./}"; fi
echo "restore: serve $2 under a NAME that was never used, which is none of: ${names:-(nobody wrote yet)}"
