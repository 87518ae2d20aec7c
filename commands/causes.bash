# shellcheck shell=bash disable=SC2034,SC2154
# Sourced by the commands: why a stream gives no frames, or not from its first byte on, and what to
# do about it. $command_typed is this command in a line to type, $file_typed the stream's file, if
# it has one, and $times_typed the times behind it, if the command has any.
#
# Whether a part of the stream is sound, the proved program that cuts it is asked.
asked_program=$root/target/bin/cutsheet

# How much of a stream is looked at: many frames of any kind.
piece=65536

because() {
  cause+=("$@")
}

# advise WORDS COMMAND: a command to type. Without a file's name it takes the place of this one, as
# in a pipe.
advise() {
  local how=''
  [ -n "$file_typed" ] || how=', with the same standard input'
  because "$1$how:" "  $2"
}

# find_cause: lines for a message, into the list $cause.
find_cause() {
  local found=$code hex
  cause=()
  find_tags
  hex "$before" 600
  if [ "$before" -ge "$total" ]; then
    because "By its first bytes $before_tags there, and nothing behind: the stream is cut off."
  elif [ -z "$hex" ]; then
    sound_found
    because "Through a pipe no more is seen of it. If something else is wrong, the next message says so."
  elif ! is_text_16 && syntax_at "$before" && explains; then
    sound_found
  else
    [ "$before" -eq 0 ] || because "${before_tags^} at its front, and behind it no frame."
    known_format "$hex" || sound_within || not_known
  fi
}

# Whether the syntax $found explains anything. Where no frame was found, the one that was asked for
# does so only behind tags or before them.
explains() {
  [ "$found" -ne "$code" ] || [ $((before + behind)) -gt 0 ] || [[ $first_line != E* ]]
}

# syntax CODE: its name.
syntax() {
  local names=('AC-3 or E-AC-3' 'MPEG audio' 'AAC in ADTS')
  printf '%s' "${names[$1]}"
}

# to_run CODE [FILE]: this command with that code and file, or with standard input, which is - where
# times stand behind it.
to_run() {
  local from=${2-}
  [ -z "$times_typed" ] || from=${from:--}
  printf '%s' "$command_typed $1${from:+ $from}$times_typed"
}

# to_cut FROM BEHIND CODE: the command that cuts the stream without its first FROM bytes and its
# last BEHIND bytes.
to_cut() {
  local from=$file_typed line=''
  if [ "$1" -gt 0 ]; then line="tail -c +$(($1 + 1))${from:+ $from} | " from=''; fi
  if [ "$2" -gt 0 ]; then line+="head -c -$2${from:+ $from} | " from=''; fi
  printf '%s' "$line$(to_run "$3" "$from")"
}

# sound_found: the sound of syntax $found begins behind the tags, if there are any.
sound_found() {
  local words="To $verb the sound alone"
  if [ $((before + behind)) -eq 0 ]; then
    [ "$found" -ne "$code" ] || { lost_elsewhere; return; }
    words="To $verb it"
  fi
  [ "$found" -eq "$code" ] || because "It is $(syntax "$found"), whose code is $found."
  [ "$before" -eq 0 ] || because "${before_tags^} before the first frame."
  [ "$behind" -eq 0 ] || because "${behind_tags^} behind the last frame, and that frame is lost."
  advise "$words" "$(to_cut "$before" "$behind" "$found")"
}

# The front is as it should be, and no tag is seen at the end.
lost_elsewhere() {
  because "They stand between frames or behind the last: the stream is damaged there, or has something" \
    "else than sound in it."
  [ -z "$again" ] && [ -z "$ended" ] || return 0
  because "If it ends with a tag, that costs the last frame. A tag ID3v1 has 128 bytes."
  advise "To $verb without the last 128 bytes" "$(to_cut 0 128 "$code")"
}

# cut_part CODE FROM [FRONT]: the program over the stream from there on, as much as is looked at,
# and without tags at its end; before that over what FRONT prints. It finds the number of $frames,
# the bytes $given in them, $lost between them and $left at the end, and the first $stamp.
cut_part() {
  local size=$((total - behind - $2))
  probe "$1" "$2" $((size < piece ? size : piece)) "${3:-true}"
}

# probe CODE FROM COUNT [FRONT]: the same with COUNT bytes.
probe() {
  read -r frames given lost left stamp < <(
    { printf '%s\n' "$1"; ${4:-true}; bytes "$2" "$3"; } | "$asked_program" 2>/dev/null |
      awk '/^E/ { print n + 0, sum + 0, $2, $3, n ? stamp : "-"; next }
        { sum += $2; if (!n++) stamp = $8 }'
  )
}

# reads CODE PLACE: whether the stream from there on is sound of that syntax: frames with few bytes
# between them, or the beginning of a frame that is longer than what is known of the stream.
reads() {
  cut_part "$1" "$2"
  if [ "$frames" -eq 0 ]; then
    [ "$lost" -eq 0 ] && [ "$left" -gt 0 ]
  else
    [ "$stamp" != - ] && [ "$given" -ge $((4 * lost)) ]
  fi
}

# codes_in_turn: the code that was asked for, and then the others.
codes_in_turn() {
  codes=("$code" $(((code + 1) % 3)) $(((code + 2) % 3)))
}

# syntax_at PLACE: which syntax reads there, into $found. $hex has the bytes there, which need be
# asked about only if they begin with a sync word.
syntax_at() {
  local frames given lost left stamp codes
  [[ $hex == 0b77* || $hex == fff* ]] || return 1
  codes_in_turn
  for found in "${codes[@]}"; do
    if reads "$found" "$1"; then return; fi
  done
  return 1
}

# Looks for the first frame behind bytes that are none. The program searches once it has seen a
# frame: so frames are put before them. What it then discards is what stands before the sound, if
# from there on nothing is lost.
sound_within() {
  local frames given lost left stamp codes place
  codes_in_turn
  for found in "${codes[@]}"; do
    cut_part "$found" "$before" "whole_payload $found"
    [ "$given" -gt 4096 ] || continue
    place=$((before + lost))
    if ! reads "$found" "$place" || [ "$lost" -gt 0 ] || [ "$frames" -lt 2 ]; then continue; fi
    because "$(syntax "$found") begins behind the first $(counted "$place"), which are something else."
    advise "To $verb from there" "$(to_cut "$place" "$behind" "$found")"
    return
  done
  return 1
}

# whole_payload CODE: frames of that syntax, 4096 bytes together.
whole_payload() {
  local n
  case $1 in
    0) printf '\x0b\x77\x07\xff\x3f\x80%04090d' 0 ;;
    1) for n in {1..16}; do printf '\xff\xff\x84\x00%0252d' 0; done ;;
    2) printf '\xff\xf1\x50\x82\x00\x00\x00%04089d' 0 ;;
  esac
}

not_known() {
  if is_text_16 || is_text; then
    because "It is text, as a web page or a play list is, and no sound."
  elif [[ $hex =~ ^0+$ ]]; then
    because "It begins with zeros. Perhaps it was not copied to its end: copy it once more."
  elif is_type_3; then
    because "It begins as E-AC-3 of stream type 3, which the standard reserves: such frames are not read." \
      "What can be cut is E-AC-3 of the types 0 to 2. Ask for the stream again where it was made."
  else
    because "The cause is not known: it begins with nothing that this command knows." \
      "Its first bytes are$(bytes "$before" 16 | od -An -tx1)."
    copy_out "Perhaps ffprobe knows it, and says which kind of sound it has"
  fi
}

# Whether $hex has no control characters.
is_text() {
  [[ $hex =~ ^(09|0a|0d|1b|[2-6].|7[0-9a-e]|[89a-f].){8,}$ ]]
}

# Whether $hex is the head of an E-AC-3 frame whose stream type is 3: the top two bits of byte 2, where
# byte 5 begins with a bsid of 11 to 16.
is_type_3() {
  [[ $hex =~ ^0b77[c-f].{5}(5[89a-f]|[67].|8[0-7]) ]]
}

# Whether $hex is text in 16-bit characters, by the two bytes before it. They can also begin a
# frame.
is_text_16() {
  [[ $hex =~ ^(fffe(..00){4}|feff(00..){4}) ]]
}
