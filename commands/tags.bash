# shellcheck shell=bash disable=SC2034,SC2154
# Sourced by the commands: tags before the first frame and behind the last, which are no sound.

# find_tags: $before bytes of tags stand before the sound, and $behind bytes behind it; $before_tags
# and $behind_tags say so in words.
find_tags() {
  find_tags_before
  find_tags_behind
}

# Tags can follow each other. More than a few do not.
find_tags_before() {
  local kind length n kinds=''
  before=0 before_tags=''
  for n in 1 2 3 4 5 6 7 8; do
    tag_at "$before" || break
    before=$((before + length))
    kinds+="${kinds:+, }$kind"
  done
  [ -z "$kinds" ] || before_tags=$(tag_words "$before" "$kinds")
}

# Of a stream that cannot be read again, the end is known only where the first bytes are all.
find_tags_behind() {
  local kind length n kinds=''
  behind=0 behind_tags=''
  [ -n "$again" ] || [ -n "$ended" ] || return 0
  for n in 1 2 3 4 5 6 7 8; do
    if ! tag_before $((total - behind)) || [ $((before + behind + length)) -gt "$total" ]; then break; fi
    behind=$((behind + length))
    kinds="$kind${kinds:+, }$kinds"
  done
  [ -z "$kinds" ] || behind_tags=$(tag_words "$behind" "$kinds")
}

# tag_words COUNT KINDS
tag_words() {
  if [[ $2 == *,* ]]; then
    printf 'tags of %s together (%s) stand' "$(counted "$1")" "$2"
  else
    printf 'a tag of %s (%s) stands' "$(counted "$1")" "$2"
  fi
}

# tag_at PLACE: the tag that begins there, into $kind and $length.
tag_at() {
  local hex
  hex "$1" 16
  case $hex in
    494433??????????????*) kind=ID3v2 && id3v2_length "${hex:10:10}" 10 ;;
    4150455441474558????????????????) kind=APE && length=$((32 + $(little "${hex:24:8}"))) ;;
    *) return 1 ;;
  esac
}

# tag_before PLACE: the tag that ends there.
tag_before() {
  local size=$(($1 < 128 ? $1 : 128)) hex
  hex $(($1 - size)) "$size"
  case $hex in
    544147*) [ "$size" -eq 128 ] && id3v1_length "$1" ;;
    *4150455441474558????????????????????????????????????????????????)
      kind=APE && ape_length "${hex: -48}" ;;
    *4c5952494353323030) kind=Lyrics3 && lyrics_length $(($1 - 15)) ;;
    *4c5952494353454e44) kind=Lyrics3 && old_lyrics_length "$1" ;;
    *334449??????????????) kind=ID3v2 && id3v2_length "${hex: -10}" 20 ;;
    *) return 1 ;;
  esac
}

# id3v2_length HEX MORE: from a head's flags and size, which has seven bits in each of four bytes,
# or from a footer's. MORE is what the size does not count: the head, or head and footer.
id3v2_length() {
  local flags=$((16#${1:0:2})) size=$((16#${1:2})) more=$2
  [ $((size & 0x80808080)) -eq 0 ] || return 1
  [ $((flags & 16)) -eq 0 ] || more=20
  size=$((size & 127 | size >> 1 & 127 << 7 | size >> 2 & 127 << 14 | size >> 3 & 127 << 21))
  length=$((size + more))
}

# id3v1_length PLACE: an enhanced tag may stand before it.
id3v1_length() {
  local hex=''
  kind=ID3v1 length=128
  [ "$1" -lt 355 ] || hex $(($1 - 355)) 4
  [ "$hex" != 5441472b ] || length=355
}

# ape_length HEX: from a footer's version, size, number of items and flags. The size does not count
# a head, which the highest flag tells of.
ape_length() {
  length=$(($(little "${1:8:8}") + ($(little "${1:24:8}") >> 31) * 32))
  [ "$length" -ge 32 ]
}

# lyrics_length PLACE: from the six digits there, which nine bytes follow.
lyrics_length() {
  local hex
  hex "$1" 6
  [[ $hex =~ ^3(.)3(.)3(.)3(.)3(.)3(.)$ ]] || return 1
  hex=${BASH_REMATCH[*]:1}
  [[ $hex != *[a-f]* ]] && length=$((10#${hex// /} + 15))
}

# old_lyrics_length PLACE: from the word LYRICSBEGIN, at most 5100 bytes before the last nine.
old_lyrics_length() {
  local size=$(($1 < 5120 ? $1 : 5120)) hex word=4c5952494353424547494e
  hex $(($1 - size)) "$size"
  [[ $hex == *$word* ]] || return 1
  hex=${hex##*"$word"}
  length=$((${#hex} / 2 + 11))
}

# little HEX: four bytes as a number, the lowest first.
little() {
  printf '%s' $((16#${1:6:2}${1:4:2}${1:2:2}${1:0:2}))
}
