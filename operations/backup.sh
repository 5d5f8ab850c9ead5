#!/usr/bin/env bash
# usage: backup.sh F BACKUP     (a safe copy of a stored log, also while a server writes to it)
#        backup.sh DIR BACKUP   (the same of all documents of a hub with --data DIR, also while it runs)
#
# F is that of `serve --file`, or a symbolic link to it. The stored log is F with F-wal, and so is the backup:
# BACKUP with BACKUP-wal. What was accepted and isn't in the file yet isn't in the backup.
#
# It copies F and then F-wal, again until F and the head of F-wal were the same before and after. Then
# `jcrdt check` reads a copy of the backup, and its lines are printed. The folder of BACKUP needs free room for
# F and F-wal twice. Root takes no folder that another user may change. JCRDT names the program; otherwise it is jcrdt
# of PATH, or that of this clone.
#
# Of DIR, BACKUP is such a folder, each file in it as above, without the bin. A document that can't be copied is named
# and left out. A document that is made or renamed meanwhile is in it or not.
#
# Status 0: BACKUP and BACKUP-wal are complete, and on disk. 1: there is no backup, and nothing is left of it.
# 2: a wrong command line. 3: of DIR, some documents were left out.
#
# Serve a backup of F under a NAME that was never used before (restore.sh says more). A hub takes such names by itself: to
# restore, end it, move DIR aside and copy BACKUP to DIR.
set -euo pipefail
if [ $# -ne 2 ] || [ "$1" = --help ]; then sed -n '2s/^# //p' "$0" >&2; exit 2; fi
fail() { echo "backup: $*" >&2; exit 1; }
own=$(realpath "$0")
here=$(dirname "$own")
program=${JCRDT:-$(command -v jcrdt || echo "$here/../jcrdt")}
# The program writes F-wal beside the file that a link leads to.
file=$(realpath -e -- "$1" 2>/dev/null) || fail "$1 isn't there"
backup=$2
[ -f "$file" ] || [ -f "$file/hub.json" ] || fail "$1 is no file, and no folder of a hub"
for it in "$backup" "$backup-wal"; do
  if [ -e "$it" ] || [ -L "$it" ]; then fail "$it is there already"; fi
done
folder=$(dirname -- "$backup")
if [ "$(id -u)" -eq 0 ] && [ -n "$(find -L "$folder" -maxdepth 0 \( ! -uid 0 -o -perm /022 ! -perm -1000 \))" ]; then
  fail "another user may change $folder: back up as that user, or into a folder of root's"
fi
umask 077
room=$(mktemp -d -- "$backup.XXXXXX") || fail "no folder beside $backup"
half=
trap 'rm -rf -- "$room"; if [ -n "$half" ]; then rm -f -- "$half"; fi' EXIT
trap 'exit 1' HUP INT TERM

# The folder of a hub. A record says which file of a document takes changes: it is copied last, and all again if it
# changed meanwhile, as when the document is renewed.
# Copies the document in folder $1 to folder $2. Status 1: its record changed, or a file can't be copied.
document_copied() {
  local it before
  rm -rf -- "$2"
  mkdir -- "$2"
  before=$(cat -- "$1/record.json") || return 1
  for it in "$1"/*.db; do
    # One that is empty has no operation yet: its server is only just started.
    if [ -s "$it" ]; then "$own" "$it" "$2/${it##*/}" >>"$2/told" || return 1; fi
  done
  for it in "$1"/*.map; do
    if [ -e "$it" ]; then cp -p -- "$it" "$2/" || return 1; fi
  done
  cp -p -- "$1/record.json" "$2/" || return 1
  sync -- "$2"/* || return 1
  [ "$before" = "$(cat -- "$2/record.json")" ] && [ "$before" = "$(cat -- "$1/record.json")" ]
}

if [ -d "$file" ]; then
  mkdir -- "$room/all" "$room/all/documents" "$room/all/bin"
  left_out=0
  for folder in "$file"/documents/*/; do
    folder=${folder%/}
    [ -e "$folder/record.json" ] || continue # there is no document, or it has gone meanwhile
    name=${folder##*/}
    tries=0
    until document_copied "$folder" "$room/all/documents/$name" 2>"$room/why"; do
      tries=$((tries + 1))
      if [ "$tries" -lt 3 ] && [ -e "$folder/record.json" ]; then continue; fi
      rm -rf -- "$room/all/documents/$name"
      break
    done
    if [ -e "$room/all/documents/$name/record.json" ]; then
      echo "[\"document\",\"$name\"]"
      cat -- "$room/all/documents/$name/told" 2>/dev/null || true
      rm -f -- "$room/all/documents/$name/told"
    else
      if [ ! -e "$folder/record.json" ]; then continue; fi
      echo "backup: $name is left out: $(tail -n 1 "$room/why")" >&2
      left_out=$((left_out + 1))
    fi
  done
  cp -p -- "$file/hub.json" "$room/all/" || fail "$file/hub.json can't be copied"
  if [ -d "$file/deleted" ]; then
    cp -Rp -- "$file/deleted" "$room/all/" || fail "$file/deleted can't be copied"
  fi
  sync -- "$room/all"/* "$room/all" || fail "the copy can't be written to disk"
  mv -T -- "$room/all" "$backup" || fail "$backup can't be made"
  sync -- "$(dirname -- "$backup")" || fail "the folder of $backup can't be written to disk"
  if [ "$left_out" -gt 0 ]; then exit 3; fi
  exit 0
fi

# When F was last changed, its size, and the head of F-wal, which is another after each time that F-wal
# was moved into F.
state() {
  stat -c '%i %y %s' -- "$file" || return 1
  if [ -e "$file-wal" ]; then head -c 32 -- "$file-wal" | od -An -tx1; fi
}

# Copies both files. The status is 1 if they changed meanwhile. A copy that fails ends the script.
copied() {
  local before
  before=$(state) || fail "$file can't be read"
  rm -f -- "$room/log" "$room/log-wal"
  cp -p --reflink=auto -- "$file" "$room/log" || fail "$file can't be copied"
  if [ -e "$file-wal" ]; then
    cp -p --reflink=auto -- "$file-wal" "$room/log-wal" || { [ ! -e "$file-wal" ] && return 1; fail "$file-wal can't be copied"; }
  fi
  [ "$before" = "$(state)" ]
}

tries=0
until copied; do
  tries=$((tries + 1))
  [ "$tries" -lt 100 ] || fail "$file never stood still for long enough: try when less is written"
  sleep 0.05
done

# `check` may change the file that it reads, so it reads another copy.
mkdir "$room/checked"
cp --reflink=auto -- "$room"/log* "$room/checked/" || fail "the copy can't be copied"
"$program" check --file "$room/checked/log" >"$room/told" 2>"$room/why" ||
  fail "the copy isn't good: $(tail -n 1 "$room/why")"
rm -rf -- "$room/checked"

# The -wal comes first: there is no BACKUP without it at any time. Neither is written over.
sync -- "$room"/log* || fail "the copy can't be written to disk"
if [ -e "$room/log-wal" ]; then
  ln -- "$room/log-wal" "$backup-wal" || fail "$backup-wal can't be made"
  half=$backup-wal
fi
ln -- "$room/log" "$backup" || fail "$backup can't be made"
half=
sync -- "$folder" || fail "the folder of $backup can't be written to disk"
cat -- "$room/told"
