# shellcheck shell=bash disable=SC2034,SC2154
# Sourced by ./cue: the stream and the times that are asked for. $asked has the times as they were
# typed, $times in ticks of 1/90000 second, and $times_typed as they stand in a command to type.

# How many there may be: the program takes no more.
most_times=32

# take_file WORD..: the stream, into $file, and not a time in its place.
take_file() {
  local ticks
  [ $# -ge 1 ] || misused "which stream, and at which time?"
  file=$1
  if [ ! -e "$file" ] && ticks_of "$file"; then
    misused "'$file' is a time: the file comes first, and then the times; - is for standard input"
  fi
}

# take_times WORD..
take_times() {
  local word ticks
  [ $# -ge 1 ] || misused "at which time? Write it behind the file, as 83.5s or 1:23.5"
  [ $# -le "$most_times" ] || misused "$# times are too many: at most $most_times at once"
  asked=("$@") times=() times_typed=" $*"
  for word; do
    ticks_of "$word" || misused "'$word' is no time: $(instead_of "$word")"
    times+=("$ticks")
  done
}

# asked_at PLACE: one of the times in words.
asked_at() {
  local ticks=${times[$1]}
  if [ "${asked[$1]}" = "$ticks" ]; then
    printf '%s ticks' "$ticks"
  else
    printf '%s (%s ticks)' "${asked[$1]}" "$ticks"
  fi
}

# ticks_of WORD: a time in ticks, into $ticks. What is given in seconds is rounded down.
ticks_of() {
  local LC_ALL=C hours minutes seconds billionths part
  if [[ $1 =~ ^(-?)([0-9]{1,18})$ ]]; then
    ticks=$((${BASH_REMATCH[1]}10#${BASH_REMATCH[2]}))
  elif numbers_of "$1" '([0-5]?[0-9])'; then
    ticks=$(((hours * 3600 + minutes * 60 + seconds) * 90000 + billionths * 90000 / 1000000000))
  else
    return 1
  fi
}

# numbers_of WORD BELOW: the numbers of a time in seconds, or with minutes, or with hours; $part is
# the point and what stands behind it. BELOW is what may stand behind a colon. With so few digits
# nothing can wrap.
numbers_of() {
  local first='([0-9]{1,9})' last='(\.([0-9]{1,9}))?'
  [[ $1 =~ ^()()${first}${last}s$ || $1 =~ ^()${first}:$2${last}$ ||
    $1 =~ ^${first}:$2:$2${last}$ ]] || return 1
  hours=$((10#0${BASH_REMATCH[1]})) minutes=$((10#0${BASH_REMATCH[2]}))
  seconds=$((10#${BASH_REMATCH[3]})) part=${BASH_REMATCH[4]}
  billionths=${BASH_REMATCH[5]}000000000
  billionths=$((10#${billionths:0:9}))
}

# instead_of WORD: what to write for a word that is no time.
instead_of() {
  local LC_ALL=C hours minutes seconds billionths part ticks point=${1//,/.}
  [[ ! $point =~ ^[0-9]+\.[0-9]+$ ]] || point+=s
  if [[ $1 == *,* ]] && ticks_of "$point"; then
    printf '%s' "write a point, not a comma: $point"
  elif [[ $1 =~ ^-.*[.:s] ]]; then
    printf 'only ticks can be below 0, such as -5'
  elif [[ $1 =~ ^[0-9]+\.[0-9]+$ ]]; then
    printf '%s' "ticks are whole numbers; for seconds write ${1}s"
  elif [[ $1 =~ ^-?[0-9]{19,}$ ]]; then
    printf 'ticks have at most 18 digits'
  elif [[ $1 =~ [0-9]{10,} ]]; then
    printf 'at most 9 digits stand before the point, and 9 behind it'
  elif [[ $1 == *:*s ]] && ticks_of "${1%s}"; then
    printf '%s' "where there is a colon, no s stands behind: write ${1%s}"
  elif numbers_of "$1" '([0-9]{1,9})'; then
    printf '%s' "behind a colon stand 0 to 59; write $(carried "$1")"
  else
    printf 'write ticks as 7515000, seconds as 83.5s, or minutes and seconds as 1:23.5'
  fi
}

# carried WORD: the time of its numbers with no more than 59 behind a colon.
carried() {
  local all=$((hours * 3600 + minutes * 60 + seconds))
  case $1 in
    *:*:*) printf '%d:%02d:%02d' $((all / 3600)) $((all / 60 % 60)) $((all % 60)) ;;
    *) printf '%d:%02d' $((all / 60)) $((all % 60)) ;;
  esac
  printf '%s' "$part"
}
