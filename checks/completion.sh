#!/usr/bin/env bash
# Completion of command lines in bash: what is offered with the tool, and with a small one that has commands of two words.
#
#     bash checks/completion.sh TOOL [COMPLETION]
#
# COMPLETION is packaging/tuormik.bash where it is not given.
set -eu
tool=$1
completion=${2:-$(dirname "$0")/../packaging/tuormik.bash}
page=$(dirname "$0")/../rust/tuormik.1
room=$(mktemp -d)
trap 'rm -rf "$room"' EXIT
# shellcheck disable=SC1090
. "$completion"

# bash has it only inside a completion; the one that is asked for turns names of files off
compopt() {
  [ "$*" = "+o default" ] || { echo "checks/completion.sh: compopt $*"; exit 1; }
  files=
}

wrong=0
# is EXPECTED WORD..: what is offered for the last word of a command line, in the order of letters; FILES stands for names of files.
is() {
  local expected=$1 found files=FILES
  shift
  COMP_WORDS=("$tool" "$@") COMP_CWORD=$#
  _tuormik || true
  found=$(printf '%s\n' "${COMPREPLY[@]}" $files | sed '/^$/d' | LC_ALL=C sort -u | paste -sd ' ')
  [ "$found" = "$expected" ] || { echo "tuormik $*: '$found' is offered, and not '$expected'"; wrong=1; }
}

# the commands: those of the manual page
is "$(sed -nE '/^\.SH COMMANDS/,/^\.SH [^C]/ s/^\.SS ([a-z-]+).*/\1/p' "$page" | LC_ALL=C sort -u | paste -sd ' ')" ""
is "verify" ver
is "verify" help ver
is "" nosuch
is "" help nosuch ""

# options of the command, and those by which a volume is given
is "--json" info --js
is "--json" info field.img --js
is "--output" read field.img 0 --o
is "--cut" save field.img new may12 --cu
is "--maps --marks" info field.img --ma
is "--spares" make field.img --sp
is "FILES" info field.img --nosuch ""

# values of options
is "cdr cdrw" make field.img --media ""
is "cdrw" make field.img --media cdrw
is "cdr cdrw" make field.img --media = cd
is "cdr cdrw" make field.img --media =
is "" make field.img --media dvd
is "" make field.img --sectors ""
is "" save field.img new may12 --cut ""
for option in --output -o --marks --maps; do
  is "FILES" read field.img 0 "$option" ""
done
is "FILES" read field.img 0 --output = ""

# names of files elsewhere, after a flag and after an option with its value too
is "FILES" info ""
is "FILES" info --json fie
is "FILES" save field.img new may12 --cut 1:old may
is "FILES" save field.img new - ""

# a tool that is not there
tool=$room/nosuch
is "" ""
is "FILES" info ""

# a tool with commands of two words, an option of several values and one of a short name, and a help that leads to another
tool=$room/tuormik
cat >"$tool" <<'TOOL'
#!/bin/sh
case "$*" in
--help)
  echo "usage: tuormik COMMAND"
  echo "  info          what it is"
  echo "  season add    a season added"
  echo "  season close  the last one closed"
  echo "'tuormik help COMMAND' tells the rest."
  echo "  0  done"
  ;;
'season add --help')
  echo "tuormik season add FILE [--state open|closed FROM COUNT]"
  echo "  --state open|closed FROM COUNT"
  echo "                what it is, and not"
  echo "  --page FILE, -p  where the page goes"
  echo "  --count N, -n    how many"
  echo "  --all            every one"
  echo "'tuormik help volume' tells how a volume is given."
  ;;
'help volume') echo "  --start S     the first sector" ;;
esac
TOOL
chmod +x "$tool"
is "info season" ""
is "add close" season ""
is "close" season c
is "add close" help season ""
is "" help season add ""
is "FILES" season add ""
is "--all --count --page --start --state -n -p" season add -
is "closed open" season add --state ""
is "" season add --state open ""
is "" season add --state open 3 ""
is "FILES" season add --state open 3 4 ""
is "FILES" season add --state open --all ""
is "FILES" season add -p ""
is "" season add -n ""
is "" season add --start ""
is "FILES" info --s ""

# its place as it is typed
# shellcheck disable=SC2088
HOME=$room tool='~/tuormik'
is "info season" ""

[ "$wrong" -eq 0 ] || exit 1
echo "Command lines are completed as the tool's help tells them."
