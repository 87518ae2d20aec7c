# shellcheck shell=bash disable=SC2034,SC2154
# Sourced by the commands: the stream, and its bytes for a second look.
#
# $file is what was asked for, - for standard input; $stream is its descriptor. If it is a file that
# can be read again, $again is a path to it, and $start the place in it where the stream begins. Of
# any other stream $first has the first bytes, each as \x and two digits.

# How many first bytes are taken: a payload of the program, which prints nothing before it has one.
# So nothing is delayed.
front=4096

# take_words WORD..: the code of the stream's syntax, into $code, and the words behind it, into the
# list $arguments. A first -- is none of them.
take_words() {
  [ $# -ge 1 ] || misused "which syntax has the stream?"
  case $1 in
    0 | ac3) code=0 ;;
    1 | mpeg) code=1 ;;
    2 | adts) code=2 ;;
    *) misused "'$1' is no code: 0 is for AC-3 and E-AC-3, 1 for MPEG audio, 2 for ADTS" ;;
  esac
  shift
  [ "${1-}" != -- ] || shift
  arguments=("$@")
}

open_stream() {
  local place
  again='' start=0 first='' taken=0 ended=''
  if [ "$file" = - ]; then
    if [ -t 0 ]; then say "reading the stream from the terminal"; fi
    { exec {stream}<&0; } 2>/dev/null || fail "standard input is closed"
  else
    [ -e "$file" ] || fail "there is no file $(called)"
    [ ! -d "$file" ] || fail "$(called) is a directory"
    { exec {stream}<"$file"; } 2>/dev/null || fail "$(called) cannot be opened for reading"
  fi
  if [ -f "/dev/fd/$stream" ] && { : <"/dev/fd/$stream"; } 2>/dev/null; then
    again=/dev/fd/$stream
    place_in "$stream"
    start=$place
  fi
}

# What messages call the stream.
called() {
  if [ "$file" = - ]; then printf 'standard input'; else typed "$file"; fi
}

# The stream's file in a command to type, so that no tool takes its name for an option or an
# address. Standard input and pipes have no name that a later command could use.
typed_file() {
  if [ "$file" = - ] || [ -z "$again" ]; then return; fi
  case $file in
    /* | ./* | ../*) typed "$file" ;;
    -* | *:*) typed "./$file" ;;
    *) typed "$file" ;;
  esac
}

# place_in DESCRIPTOR: the place that reading or writing has come to, for all that have it open,
# into $place.
place_in() {
  { read -r _ place <"/proc/self/fdinfo/$1"; } 2>/dev/null
}

# Takes the first bytes of a stream that cannot be read again. $taken counts them; $ended is set
# where there are no more.
take_front() {
  local pipe count text
  exec {pipe}<> <(:)
  LC_ALL=C dd bs="$front" count=1 iflag=fullblock <&"$stream" >&"$pipe" 2>&"$reasons" 3>&- &
  reader=$!
  awaited "$reader" || unreadable
  written "$reasons"
  count_in "$text"
  taken=$count
  first=$(od -An -v -tx1 -w"$front" -N "$taken" <&"$pipe" | sed 's/ /\\x/g')
  exec {pipe}>&-
  [ "$taken" -eq "$front" ] || ended=1
}

# Hands on the stream, its first bytes too where these were taken.
hand_on() {
  printf '%b' "$first"
  [ -z "$ended" ] || return 0
  export LC_ALL=C
  exec dd bs=131072 <&"$stream"
}

# count_in TEXT: the number of bytes that dd says it has copied, into $count.
count_in() {
  count=0
  [[ ! $1 =~ (^|$'\n')([0-9]+)\ byte ]] || count=${BASH_REMATCH[2]}
}

unreadable() {
  local text line reason=''
  written "$reasons"
  while IFS= read -r line; do
    [[ $line != dd:* ]] || reason=${line##*: }
  done <<<"$text"
  fail "$(called) cannot be read${reason:+: $reason}"
}

# bytes FROM COUNT: bytes of the stream, counted from 0; as many of them as are known.
bytes() {
  if [ -n "$again" ]; then
    dd iflag=skip_bytes,count_bytes skip=$((start + $1)) count="$2" bs=65536 status=none <"$again" 2>/dev/null
  else
    printf '%b' "${first:$1 * 4:$2 * 4}"
  fi
}

# hex FROM COUNT: the same as hexadecimal digits, into $hex.
hex() {
  if [ -n "$again" ]; then
    hex=$(od -An -v -tx1 -w"$2" -j $((start + $1)) -N "$2" "$again" 2>/dev/null)
    hex=${hex// /}
  else
    hex=${first:$1 * 4:$2 * 4}
    hex=${hex//\\x/}
  fi
}

# While a large file is read, says on a terminal how far it is.
start_progress() {
  local size place
  [ -t 2 ] && [ -n "$again" ] || return 0
  size=$(stat -L -c %s "$again" 2>/dev/null) || return 0
  [ "$size" -gt 50000000 ] || return 0
  while sleep 0.5 && kill -0 $$ 2>/dev/null; do
    place_in "$stream" || exit
    printf '\r%s: %3d %%' "$me" $((place * 100 / size)) >&2
  done >/dev/null 3>&- &
  progress=$!
  trap stop_progress EXIT
}

stop_progress() {
  [ -n "${progress-}" ] || return 0
  kill "$progress" 2>/dev/null
  wait "$progress" 2>/dev/null
  progress=''
  printf '\r%20s\r' '' >&2
}
