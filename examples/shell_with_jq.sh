#!/usr/bin/env bash
# Two replicas from the shell, with jq: the operations of one are saved as lines, handed to the other, and read there.
# usage: shell_with_jq.sh     (JCRDT names the program, ../jcrdt if it is unset)
set -euo pipefail
case ${1-} in
'') ;;
--help) exec sed -n 's/^# //p' "$0" ;;
*) sed -n 's/^# //p' "$0" >&2; exit 2 ;;
esac
program=${JCRDT:-$(dirname "$0")/../jcrdt}
saved=$(mktemp)
trap 'rm -f "$saved"' EXIT

# Runs the requests of its standard input as the replica of this name, and ends where one is refused.
replica() {
  "$program" run --name "$1" d | jq -c 'if .[0] == "no" then error("refused: \(.[1]) \(.[2])") else . end'
}

printf '%s\n' '["open","d"]' '["assign","d",[0,"colour"],"red"]' '["add","d",[0,"votes"],2]' '["ops","d",[],64]' |
  replica ann | jq -c 'select(.[0] == "ops") | .[1][]' >"$saved"
cat "$saved"

{
  printf '%s\n' '["open","d"]' '["assign","d",[0,"colour"],"blue"]' '["add","d",[0,"votes"],1]'
  jq -c '["deliver", "d", .]' "$saved"
  printf '%s\n' '["values","d",[0,"colour"]]' '["sum","d",[0,"votes"]]'
} | replica ben | tail -n 2
