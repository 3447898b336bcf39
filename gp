#!/bin/sh
# Runs the program `gp`: the proved one where it has been made, and first brought up to date where a source is newer. Where
# it hasn't been made yet, the sources are run as they are, unproved, and a line on standard error says so.
set -u
self=$0
if [ -L "$self" ]; then self=$(readlink -f -- "$self"); fi
case $self in
  */*) top=${self%/*} ;;
  *) top=. ;;
esac
crate=$top/crates/gp_cli
program=$crate/out/gp_cli
# What an unproved run takes, and how many octets it can write.
octets=100000
lines=2000
report=1000000

say() { echo "gp: $1" >&2; }

# Says why the program can't be run, with a status that it hasn't itself.
fail() {
  say "$1"
  exit 125
}

page() {
  case $1 in
    gp | decode | format | pcap | sim | sink | statuses | terms) cat -- "$top/docs/help/$1.txt" ;;
    *) fail "there is no page '$1'; 'gp help' names the pages" ;;
  esac
}

needs_toolchain() {
  command -v rt > /dev/null || fail "the toolchain's command rt isn't there"
}

# Whether the proved program is there, and neither a source nor a definition is newer. What a proof file says can't change what the
# program was proved to do.
is_current() {
  [ -x "$program" ] && [ -z "$(find "$top/crates.txt" "$top"/crates/*/src "$top"/crates/*/specs -newer "$program" -type f -print -quit 2> /dev/null)" ]
}

# Proves what has changed and links the program. Where nothing but dates has changed, the program gets a new date.
make_program() {
  (cd "$crate" && rt run -- decode) < /dev/null > /dev/null 2>&1 && touch -- "$program"
}

version() {
  commit=$(git -C "$top" rev-parse --short=12 HEAD 2> /dev/null) || commit="no commit"
  if [ -n "$(git -C "$top" status --porcelain 2> /dev/null | head -n 1)" ]; then commit="$commit, changed"; fi
  echo "gp $commit"
  if command -v rt > /dev/null; then rt version; else echo "no toolchain"; fi
}

# The crates that the program is made of, lowest first.
parts() {
  awk -F: '
    /^[a-z]/ { names[++count] = $1; needs[$1] = $2 }
    END {
      wanted["gp_cli"] = 1
      for (i = count; i > 0; i--) {
        if (!(names[i] in wanted)) continue
        n = split(needs[names[i]], below, " ")
        for (j = 1; j <= n; j++) wanted[below[j]] = 1
      }
      for (i = 1; i <= count; i++) if (names[i] in wanted) print names[i]
    }' "$top/crates.txt"
}

# Proves each crate that the program is made of, a line each, and links the program.
build() {
  needs_toolchain
  names=$(parts)
  count=$(echo "$names" | wc -l)
  say "proving $count crates; from nothing this takes some 40 minutes on two processors, and 20 on four"
  begun=$(date +%s)
  done=0
  for name in $names; do
    if [ "$name" = gp_cli ]; then
      make_program || fail "gp_cli isn't proved as it stands; 'rt check' in crates/gp_cli says why"
    else
      (cd "$top/crates/$name" && rt lib) < /dev/null > /dev/null 2>&1 || fail "$name isn't proved as it stands; 'rt check' in crates/$name says why"
    fi
    done=$((done + 1))
    say "$done of $count: $name is proved ($(($(date +%s) - begun)) s)"
  done
  say "the proved program is there"
}

# Says more where the status alone leaves a user in doubt: the status, where the input came from, and the command.
explain() {
  case $1 in
    1)
      if [ "$3" = sink ]; then
        say "in $2; 'gp help sink' has the forms of a line"
      elif [ "$3" = sim ]; then
        say "in $2; 'gp help sim' has the forms of a line, and says what each reason means"
      else
        say "a line has pairs of hexadecimal digits, or 'zcl ' and such pairs; 'gp help decode' says more"
      fi
      ;;
    2) say "'gp --help' has the commands" ;;
    3) say "$2 can't be read" ;;
    5) say "the disk is the file gp.disk in $PWD" ;;
    7)
      if [ "$3" = sink ]; then
        say "the disk is the file gp.disk in $PWD; 'gp format' writes an empty store"
      else
        say "the disk is the file gp.disk in $PWD; 'gp help format' says more"
      fi
      ;;
    8) say "the disk is the file gp.disk in $PWD" ;;
    9)
      if [ "$3" = pcap ]; then
        say "in $2: at most 1,000,000 packets can be listed; 'editcap -F pcap -c 1000000 IN OUT' cuts it into parts"
      else
        say "in $2: there may be at most 1,000,000 lines of at most 1,024 characters"
      fi
      ;;
    10) say "in $2; 'gp help pcap' has the reasons, and what makes a file that can be listed" ;;
  esac
}

# Lists the standard input by the sources as they are. Nothing of the toolchain's own text is shown.
look() {
  needs_toolchain
  case "$*" in
    *[!\ -~]*)
      say usage
      return 2
      ;;
  esac
  if [ $# = 0 ]; then
    say usage
    return 2
  fi
  [ "$1" != sink ] || fail "sink wants the proved program; 'gp --build' makes it, once"
  [ "$1" != format ] || fail "format wants the proved program; 'gp --build' makes it, once"
  folder=$(mktemp -d 2> /dev/null) || fail "there is no folder for temporary files at ${TMPDIR:-/tmp}"
  trap 'rm -rf "$folder"' EXIT
  trap 'exit 130' INT TERM
  if ! head -c $((octets + 1)) > "$folder/in" 2> /dev/null; then
    say "read fault"
    return 3
  fi
  if [ "${1-}" = pcap ]; then
    [ "$(wc -c < "$folder/in")" -le $octets ] || fail "unproved, at most $octets octets can be taken; 'gp --build' makes the proved program, once"
  elif [ "$(wc -c < "$folder/in")" -gt $octets ] || [ "$(wc -l < "$folder/in")" -gt $lines ]; then
    fail "unproved, at most $lines lines of together $octets octets can be taken; 'gp --build' makes the proved program, once"
  fi
  say "unproved: this runs the sources as they are, for about half a minute; 'gp --build' makes the proved program, once"
  (cd "$crate" && rt try -- "$@") < "$folder/in" > "$folder/out" 2> "$folder/err"
  status=$?
  if [ "$(wc -c < "$folder/out")" -ge $report ]; then
    fail "unproved, a report of fewer than $report octets can be written; 'gp --build' makes the proved program, once"
  fi
  if [ "$status" != 0 ] && ! grep -q '^gp: ' "$folder/err"; then
    fail "the sources can't be run; 'rt try -- decode' in crates/gp_cli says why"
  fi
  if ! cat "$folder/out" 2> /dev/null; then
    say "write fault"
    return 4
  fi
  grep '^gp: ' "$folder/err" >&2
  return "$status"
}

# Whether these are 32 hexadecimal digits.
is_key() {
  case $1 in *[!0-9A-Fa-f]*) return 1 ;; esac
  [ ${#1} = 32 ]
}

# Whether a file is there that isn't all zeros and whose first octet isn't that of a store.
has_other_content() {
  [ -f "$1" ] && [ "$(od -An -tx1 -N1 < "$1" | tr -d ' ')" != a5 ] && [ "$(tr -d '\000' < "$1" | head -c 1 | wc -c)" != 0 ]
}

case ${1-} in
  --help | -h | help)
    page "${2-gp}"
    exit 0
    ;;
  --version)
    version
    exit 0
    ;;
  --build)
    build
    exit 0
    ;;
esac

# The last argument of decode, of pcap, of sim and of sink is a file, where it is no option and no key.
input="standard input"
case ${1-} in
  decode) most=4 ;;
  pcap) most=3 ;;
  sim | sink) most=2 ;;
  *) most=0 ;;
esac
if [ $# -gt 1 ] && [ $# -le "$most" ]; then
  for last in "$@"; do :; done
  case $last in
    --*) ;;
    -) count=$(($# - 1)) ;;
    *) is_key "$last" || { input=$last; count=$(($# - 1)); } ;;
  esac
  if [ -n "${count-}" ]; then
    # Drops the last argument.
    for word in "$@"; do
      shift
      if [ "$count" -gt 0 ]; then set -- "$@" "$word"; fi
      count=$((count - 1))
    done
  fi
fi
if [ "$input" != "standard input" ]; then
  if [ -d "$input" ] || ! [ -r "$input" ]; then
    say "read fault"
    if [ -d "$input" ]; then
      say "$input is a folder"
    elif [ -e "$input" ]; then
      say "$input can't be read"
    else
      if [ "$1" = sim ] || [ "$1" = sink ]; then say "there is no file $input"; else say "there is no file $input; a KEY has 32 hexadecimal digits"; fi
    fi
    exit 3
  fi
  exec < "$input"
fi
if [ "${1-}" = format ] && [ "${2-}" = --force ] && [ $# = 2 ]; then
  set -- format
elif [ "${1-}" = format ] && [ $# = 1 ] && has_other_content gp.disk; then
  fail "gp.disk is there and holds no store, but other content; 'gp format --force' overwrites it"
fi

current=
if is_current; then
  current=yes
elif [ -x "$program" ]; then
  needs_toolchain
  say "a source is newer than the program; what has changed is proved again"
  if make_program; then current=yes; else say "the sources aren't proved as they stand"; fi
fi
if [ -n "$current" ]; then
  "$program" "$@"
else
  look "$@"
fi
status=$?
if [ "$status" = 0 ]; then
  if [ "${1-}" = format ]; then sync . 2> /dev/null; fi
  exit 0
fi
explain "$status" "$input" "${1-}"
exit "$status"
