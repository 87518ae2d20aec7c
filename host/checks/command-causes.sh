# shellcheck shell=bash disable=SC2034,SC2154
# Sourced by host/checks/command: what the command says of streams that give no frames, or not all of
# them, and whether what it advises helps.

cause_parts=(corners demos outputs losses wrong_codes tags_before tags_behind tags_at_both_ends
  tag_names long_tags formats other_sound ffmpeg_lines junk unknown)

# The command as it has to be typed.
shown=$folder/cutsheet
case $shown in *[!A-Za-z0-9_./:+,@%=-]*) shown=${shown@Q} ;; esac
demo=$root/demo
mp3=$demo/mp3-44100-stereo-112k.mp3
aac=$demo/adts-44100-stereo-64k.aac
ac3=$demo/ac3-44100-stereo-128k.ac3

# ---- bytes

zeros() { head -c "$1" /dev/zero; }
# fill COUNT: bytes that begin no frame, and no text.
fill() { zeros "$1" | tr '\0' '\1'; }
# digits HEX: these bytes.
digits() {
  local hex=${1// /} text=''
  for (( ; ${#hex} > 0; )); do text+="\\x${hex:0:2}" hex=${hex:2}; done
  printf '%b' "$text"
}
# byte NUMBER..
byte() {
  local hex
  printf -v hex '%02x' "$@"
  digits "$hex"
}
# little NUMBER: four bytes, the lowest first.
little() { byte $(($1 & 255)) $(($1 >> 8 & 255)) $(($1 >> 16 & 255)) $(($1 >> 24 & 255)); }

# id3v2 SIZE [FLAGS]: a tag of 10 + SIZE bytes; with the flag 16, and 10 more behind it.
id3v2() {
  printf 'ID3'
  id3v2_numbers "$1" "${2:-0}"
  fill "$1"
  [ "${2:-0}" -ne 16 ] || { printf '3DI'; id3v2_numbers "$1" 16; }
}
id3v2_numbers() { byte 4 0 "$2" $(($1 >> 21 & 127)) $(($1 >> 14 & 127)) $(($1 >> 7 & 127)) $(($1 & 127)); }
id3v1() { printf 'TAG%125s' ''; }
enhanced_id3v1() { printf 'TAG+%223s' ''; id3v1; }
# ape_end SIZE FLAGS: the 32 bytes at its end, and with other flags at its beginning.
ape_end() { printf 'APETAGEX'; little 2000; little "$1"; little 1; little "$2"; zeros 8; }
# ape SIZE: without a head, SIZE + 32 bytes. ape_with_head SIZE: SIZE + 64 bytes.
ape() { fill "$1"; ape_end $(($1 + 32)) 0; }
ape_with_head() { ape_end $(($1 + 32)) 0xa0000000; fill "$1"; ape_end $(($1 + 32)) 0x80000000; }
lyrics() { printf 'LYRICSBEGININD0000200LYR00006words.%06dLYRICS200' 35; }
old_lyrics() { printf 'LYRICSBEGIN[00:01]words of a songLYRICSEND'; }

# ---- what is advised

# through_cat CODE: the command at the end of a pipe.
through_cat() { cat | "$command" "$1"; }
export -f through_cat

# helped WHAT STATUS CODE STREAM SHEET: with the stream as a file, and then through a pipe, the
# message's advice must give this sheet.
helped() {
  try "$1" "$command" "$3" "$4"
  [ "$status" -eq "$2" ] || fail "status $status, not $2"
  cp err said
  followed "$1" "$5"
  cp "$4" in
  try "$1, through a pipe" through_cat "$3"
  [ "$status" -eq "$2" ] || fail "status $status, not $2"
  followed "$1, through a pipe" "$5"
  : >in
  cp said err
}

# ---- whether a sheet can be relied on

part_corners() {
  local name code
  for name in "$corners"/*.in; do
    name=${name%.in}
    IFS= read -r code <"$name.in" || continue
    [[ $code == [012] ]] || continue
    tail -c +3 "$name.in" >cornered
    judged "${name##*/}" "$code" cornered "$name.out" from_file pipe_to_pipe
  done
}

part_demos() {
  local stream code
  for stream in "$demo"/*.{ac3,eac3,mp2,mp3,aac}; do
    case $stream in *ac3) code=0 ;; *.mp?) code=1 ;; *.aac) code=2 ;; esac
    modelled "$code" "$stream"
    judged "${stream##*/}" "$code" "$stream" expected from_pipe file_to_pipe
  done
}

# Other ways of the sheet: behind another text, behind another sheet, over a longer text, to
# nowhere.
appended() {
  echo earlier >kept
  "$command" "$1" "$2" >>kept
  set -- $?
  tail -c +9 kept
  return "$1"
}
second() {
  { "$command" 2 track.adts; "$command" "$1" "$2"; } >kept
  set -- $?
  tail -c +156 kept
  return "$1"
}
overwritten() {
  { cat "$2" "$2"; zeros 300000; printf 'E%21s%6s\n' 7 7; } >kept
  "$command" "$1" "$2" 5<>kept >&5
  set -- $?
  head -c "$(wc -c <expected)" kept
  return "$1"
}
to_nowhere() {
  "$command" "$1" "$2" >/dev/null
  set -- $?
  cat expected
  return "$1"
}
export -f appended second overwritten to_nowhere zeros

part_outputs() {
  local name
  cp "$aac" whole
  head -c -9 "$aac" >cut-off
  { cat "$aac"; fill 50; cat "$aac"; } >damaged
  { fill 8192; cat "$aac"; fill 50; cat "$aac"; } >unstamped
  fill 5000 >none-at-all
  for name in whole cut-off damaged unstamped none-at-all; do
    modelled 2 "$name"
    judged "$name" 2 "$name" expected from_file from_pipe file_to_pipe pipe_to_pipe \
      appended second overwritten to_nowhere
  done
}

part_losses() {
  local way
  head -c -100 "$aac" >cut-off
  { cat "$aac"; head -c 6 "$aac"; } >begun
  { cat "$ac3"; head -c 7 "$ac3"; } >begun.ac3
  { cat "$ac3"; head -c 8 "$ac3"; } >cut.ac3
  { cat "$aac"; fill 50; cat "$aac"; } >damaged
  head -c 90 "$aac" >first-cut
  for way in from_file from_pipe; do
    try "a last frame that is cut off" "$way" 2 cut-off
    said 'the last frame of' 'is cut off after'
    not_said WARNING
    try "six bytes of a frame" "$way" 2 begun
    said 'the last 6 bytes of' 'too few for a frame'
    try "seven bytes of a frame" "$way" 0 begun.ac3
    said 'the last 7 bytes of' 'too few for a frame'
    try "eight bytes of a frame" "$way" 0 cut.ac3
    said 'is cut off after 8 bytes'
    try "a damaged stream" "$way" 2 damaged
    said 'numbers are too low and stamps too early' 'between frames or behind the last'
    try "less than a frame" "$way" 2 first-cut
    ended 3
    said 'ends within its first frame, after 90 bytes'
  done
  cp damaged in
  try "a damaged stream in a pipe" through_cat 2
  said 'If it ends with a tag, that costs the last frame' "head -c -128 | $shown 2"
  : >in
  try "the same in a file" "$command" 2 damaged
  not_said 'If it ends with a tag'
}

# ---- the wrong code

part_wrong_codes() {
  local stream code wrong names=('AC-3 or E-AC-3' 'MPEG audio' 'AAC in ADTS')
  for stream in "$demo"/{ac3-48000-51-384k.ac3,eac3-48000-stereo-1536k.eac3,mp2-24000-mono-32k.mp2} "$mp3" "$aac"; do
    case $stream in *ac3) code=0 ;; *.mp?) code=1 ;; *.aac) code=2 ;; esac
    modelled "$code" "$stream"
    for wrong in 0 1 2; do
      [ "$wrong" -ne "$code" ] || continue
      helped "${stream##*/} with code $wrong" 3 "$wrong" "$stream" expected
      said "no frame of ${names[wrong]} (code $wrong)" "It is ${names[code]}, whose code is $code."
    done
  done
  # Of the front of a pipe less than a frame is known.
  { digits FFF15083C00000; fill 7673; digits FFF15083C00000; fill 7673; } >long-frames
  modelled 2 long-frames
  helped "frames of 7680 bytes with code 1" 3 1 long-frames expected
  # A frame of another syntax in the fifth payload gives lines, and no less a warning.
  { cat "$mp3" "$mp3" "$mp3" | head -c 12288; cat track.adts; cat "$mp3"; } >mixed
  modelled 2 mixed
  judged "lines by chance" 2 mixed expected from_file
  said 'no cue can be hung' 'It is MPEG audio, whose code is 1.'
}

# ---- tags

# tagged WHAT COUNT STATUS [WORD..]: the file `tagged`, whose tags have COUNT bytes together.
tagged() {
  local what_tag=$1 wanted=$3
  [ $(($(wc -c <tagged) - $(wc -c <"$mp3"))) -eq "$2" ] || fail "the tag has not $2 bytes"
  helped "$what_tag" "$wanted" 1 tagged expected
  shift 3
  said "$@"
}

part_tags_before() {
  modelled 1 "$mp3"
  { id3v2 35; cat "$mp3"; } >tagged
  tagged "ID3v2" 45 3 'A tag of 45 bytes (ID3v2) stands before the first frame.' 'tail -c +46'
  { id3v2 300 16; cat "$mp3"; } >tagged
  tagged "ID3v2 with a footer" 320 3 'A tag of 320 bytes (ID3v2)'
  { id3v2 2000; id3v2 0; id3v2 130; cat "$mp3"; } >tagged
  tagged "three tags" 2160 3 'Tags of 2160 bytes together (ID3v2, ID3v2, ID3v2) stand before'
  { ape_with_head 100; cat "$mp3"; } >tagged
  tagged "APE before" 164 3 'A tag of 164 bytes (APE) stands before'
  { id3v2 4086; cat "$mp3"; } >tagged
  tagged "a tag of a whole payload" 4096 0 'its first 4096 bytes were passed over.' 'no line has a stamp'
  { id3v2 35; cat "$mp3"; } >tagged
  helped "ID3v2 and another code" 3 2 tagged expected
  said 'A tag of 45 bytes (ID3v2) stands before' 'It is MPEG audio, whose code is 1.' \
    "tail -c +46 tagged | $shown 1"
  id3v2 500 | head -c 400 >tagged
  try "a tag that is cut off" "$command" 1 tagged
  ended 3
  said 'a tag of 510 bytes (ID3v2)' 'the stream is cut off'
  { printf 'ID3\4\0\0\0\0\377\177'; cat "$mp3"; } >tagged
  tagged "what only looks like a tag" 10 3 'MPEG audio begins behind the first 10 bytes'
}

part_tags_behind() {
  local part make bytes kind
  modelled 1 "$mp3"
  { cat "$mp3"; id3v1; } >tagged
  try "ID3v1" "$command" 1 tagged
  [ "$status" -eq 0 ] || fail "status $status, not 0"
  said 'the last frame of tagged is not on the sheet' 'a tag of 128 bytes (ID3v1) stands behind it' \
    'bytes that were discarded and ' 'The lines that are on the sheet are right.'
  followed "ID3v1" expected
  for part in enhanced_id3v1:355:ID3v1 'ape 40:72:APE' 'ape_with_head 1000:1064:APE' 'id3v2 200 16:220:ID3v2'; do
    IFS=: read -r make bytes kind <<<"$part"
    { cat "$mp3"; $make; } >tagged
    try "$make behind" "$command" 1 tagged
    said "a tag of $bytes bytes ($kind) stands behind it"
    followed "$make behind" expected
  done
  { cat "$mp3"; fill 50; ape_end 10 0; } >tagged
  try "what only looks like a tag" "$command" 1 tagged
  not_said APE
  { cat "$mp3"; lyrics; id3v1; } >tagged
  try "Lyrics3 and ID3v1" "$command" 1 tagged
  said 'tags of 178 bytes together (Lyrics3, ID3v1) stand behind it'
  followed "Lyrics3 and ID3v1" expected
  { cat "$mp3"; old_lyrics; ape 33; id3v1; } >tagged
  try "three tags behind" "$command" 1 tagged
  said '(Lyrics3, APE, ID3v1) stand behind it'
  followed "three tags behind" expected
}

part_tags_at_both_ends() {
  modelled 1 "$mp3"
  { id3v2 35; cat "$mp3"; id3v1; } >tagged
  try "tags at both ends" "$command" 1 tagged
  ended 3
  said 'A tag of 45 bytes (ID3v2) stands before the first frame.' \
    'A tag of 128 bytes (ID3v1) stands behind the last frame, and that frame is lost.' \
    "tail -c +46 tagged | head -c -128 | "
  followed "tags at both ends" expected
  # Frames that end with a payload: the tag behind them costs none.
  tail -c +3 "$corners/4096-bytes.in" >eight
  { cat eight; id3v1; } >tagged
  modelled 2 tagged
  judged "a tag that costs nothing" 2 tagged expected from_file
  said 'a tag of 128 bytes (ID3v1) stands at its end' 'All frames are on the sheet'
  # A stream whose only frame is lost to the tag. Through a pipe, it is known whole.
  head -c 365 "$mp3" >one
  modelled 1 one
  { cat one; id3v1; } >tagged
  helped "one frame and a tag" 3 1 tagged expected
  { cat one one one; fill 40; cat one one one; id3v1; } >tagged
  try "a loss in the middle too" "$command" 1 tagged
  said 'numbers are too low' 'A tag of 128 bytes (ID3v1) stands behind the last frame'
  not_said 'lines that are on the sheet are right'
}

part_tag_names() {
  local name
  modelled 1 "$mp3"
  for name in 'two words.mp3' \
    "it's \"odd\" & \$HOME \`;.mp3" ./-lead.mp3 a:b.mp3 'ä.mp3' '~' $'line\nfeed \xff*.mp3'; do
    { id3v2 35; cat "$mp3"; id3v1; } >"$name"
    try "a tag in $name" "$command" 1 -- "${name#./}"
    ended 3
    followed "a tag in $name" expected
  done
  # The command under another name, and by its name alone.
  mkdir 'odd folder'
  ln -s "$command" 'odd folder/cut it'
  try "a tag, by 'cut it'" 'odd folder/cut it' 1 a:b.mp3
  followed "a tag, by 'cut it'" expected
  copied
  cp "$program" copy/target/bin
  try "a tag, by bash" bash -c 'cd copy && bash cutsheet 1 ../a:b.mp3'
  ended 3
  try "a tag, by bash: $(advised)" bash -c "cd copy && $(advised)"
  ended 0
  printed expected
}

# A tag that is longer than what is known of a pipe, and than what is looked at of a file.
part_long_tags() {
  local n
  for n in {1..20}; do cat "$mp3"; done >track.mp3
  modelled 1 track.mp3
  { id3v2 90000; cat track.mp3; } >tagged
  { echo 1; cat tagged; } | "$model" >tagged.sheet
  helped "a tag of 90010 bytes" "$(due tagged.sheet 0 | head -n 1)" 1 tagged expected
  said 'A tag of 90010 bytes (ID3v2) stands before the first frame.'
  cp tagged in
  try "a tag of 90010 bytes, through a pipe" through_cat 1
  said 'Through a pipe no more is seen of it'
  : >in
  { id3v2 90000; id3v2 70000; cat track.mp3; ape 5000; id3v1; } >tagged
  try "long tags at both ends" "$command" 1 tagged
  said 'Tags of 160020 bytes together (ID3v2, ID3v2)' 'Tags of 5160 bytes together (APE, ID3v1)'
  followed "long tags at both ends" expected
  # Standard input that is a file, and does not begin at its beginning.
  { printf 'a line\n'; cat tagged; } >in
  try "long tags behind a line" behind_a_line 1
  said 'Tags of 160020 bytes together (ID3v2, ID3v2)' 'Tags of 5160 bytes together (APE, ID3v1)'
  tail -c +8 in >rest && mv rest in
  followed "long tags behind a line" expected
  : >in
}
behind_a_line() {
  read -r _
  "$command" "$1"
}
export -f behind_a_line

# ---- what is no elementary stream

# format WORDS HEX PIPED: a file that begins so is named so, also through a pipe, where these words
# stand in the advice.
format() {
  { digits "$2"; fill 9000; } >in
  try "$1, through a pipe" through_cat 1
  ended 3
  said "It is $1" "$3"
  mv in "$1"
  : >in
  try "$1" "$command" 2 "$1"
  ended 3
  said "It is $1" "'$1'"
}

# Those out of which sound is copied, and those that have none that can be cut.
part_formats() {
  local wave='52494646FFFFFFFF57415645666D742010000000'
  while IFS=: read -r words hex; do
    format "$words" "$hex" 'cat >track.in && '
    said 'has first to be copied' ffprobe '-c:a copy track.aac' '-write_xing 0 track.mp3' '-c:a ac3 track.ac3'
  done <<END
an MP4, M4A or MOV file:0000002066747970 4D34412000000000
an MP4, M4A or MOV file:00000108 6D6F6F76
an MP4, M4A or MOV file:7FFFFFFF 6D646174
an AVI file:52494646 00112233 41564920
a WAVE file:$wave 5500
a WAVE file:$wave 0020
a Matroska file:1A45DFA3A34286810142F7810142F2810442F381084282886D6174726F736B61
an ASF or WMA file:3026B2758E66CF11A6D900AA0062CE6C
an MPEG program stream:000001BA44000400
an FLV file:464C5601050000000900000000
a CAF file:63616666000100006465736300000000
END
  while IFS=: read -r words hex; do
    format "$words" "$hex" 'ffmpeg -i /dev/stdin '
    said 'has first to be encoded' '-c:a ac3 track.ac3'
    not_said '-c:a copy'
  done <<END
a WAVE file:$wave 0100
a WAVE file:$wave FEFF
a WebM file:1A45DFA3 9F4286810142F7810142F2810442F3810842828477 65626D42
an Ogg file:4F67675300020000000000000000
a FLAC file:664C614300000022
an AIFF file:464F524D 00112233 41494646434F4D4D
an AU file:2E736E6400000018
an AMR file:2321414D520A
a DTS stream:7FFE8001FC3C
END
}

part_other_sound() {
  local n
  for n in {0..49}; do digits 47; fill 187; done >transport
  for n in {0..49}; do little 7; digits 47; fill 187; done >transport-192
  tail -c +101 transport >transport-cut
  for n in {0..19}; do digits 56E12C; fill 300; done >latm
  { digits 56E1FF; fill 9000; } >no-latm
  { digits FFE390C4; fill 9000; } >mpeg-2.5
  { id3v2 35; digits FFF304C4; fill 9000; } >free
  digits 504B030414000000 >zip
  for n in transport:transport\ stream transport-192:transport\ stream transport-cut:transport\ stream \
    latm:AAC\ in\ LATM mpeg-2.5:MPEG-2.5\ audio free:'MPEG audio in free format' zip:'unpack it'; do
    try "${n%:*}" "$command" 1 "${n%:*}"
    ended 3
    said "${n#*:}"
  done
  try "what only looks like LATM" "$command" 1 no-latm
  ended 3
  not_said LATM
  modelled 0 "$ac3"
  dd conv=swab <"$ac3" >swapped 2>/dev/null
  helped "AC-3 with swapped bytes" 3 0 swapped expected
  said 'swapped in pairs'
}

# What ffmpeg and ffprobe are asked: stand-ins note their arguments, and write what is in the file.
part_ffmpeg_lines() {
  local name
  mkdir stand-ins
  printf '#!/bin/bash\nprintf "%%s\\n" "$@" >arguments\n' | tee stand-ins/ffprobe >stand-ins/ffmpeg
  # shellcheck disable=SC2016
  printf '%s\n' '[ -e "$2" ] || exit 1' 'case ${!#} in' "*.aac) cat '$aac' ;;" "*.mp3) cat '$mp3' ;;" \
    "*.ac3) cat '$ac3' ;;" 'esac >"${!#}"' >>stand-ins/ffmpeg
  chmod +x stand-ins/*
  for name in film.mp4 'two words.mp4' "it's \$odd.mp4" -lead.mp4 a:b.mp4; do
    { digits 0000002066747970; fill 9000; } >"./$name"
    try "$name" "$command" 2 -- "$name"
    followed_by_ffmpeg "$name"
  done
  cp film.mp4 in
  try "standard input that is a file" "$command" 2
  followed_by_ffmpeg "standard input that is a file"
  try "a film through a pipe" through_cat 2
  try "a film through a pipe: $(advised)" bash -c "$(advised)"
  ended 3
  said 'was found in track.in'
  : >in
  followed_by_ffmpeg "a film through a pipe"
}

# followed_by_ffmpeg WHAT: all four commands that the last message advises.
followed_by_ffmpeg() {
  local asked n=2
  cp err said
  bash -c "PATH='$scratch/stand-ins:$PATH'; $(advised 1)" <in
  [ -e "$(tail -n 1 arguments)" ] || fail "ffprobe is given no file"
  grep -qx 'stream=codec_name' arguments || fail "ffprobe is asked otherwise"
  for asked in "2 $aac" "1 $mp3" "0 $ac3"; do
    modelled "${asked%% *}" "${asked#* }"
    cp said err
    PATH=$scratch/stand-ins:$PATH followed "$1" expected "$n"
    grep -qx '0:a:0' arguments || fail "ffmpeg is asked otherwise"
    n=$((n + 1))
  done
}

# Bytes before the first frame that are nothing known; a stream that begins within a frame.
part_junk() {
  local stream code
  for stream in "$ac3" "$mp3" "$aac"; do
    case $stream in *.ac3) code=0 ;; *.mp3) code=1 ;; *.aac) code=2 ;; esac
    modelled "$code" "$stream"
    { fill 1000; cat "$stream"; } >junk
    helped "junk before ${stream##*/}" 3 "$code" junk expected
    said 'begins behind the first 1000 bytes' 'To cut from there'
    helped "junk, and the wrong code" 3 $(((code + 1) % 3)) junk expected
    { zeros 1; cat "$stream"; } >junk
    helped "a zero before ${stream##*/}" 3 "$code" junk expected
  done
  tail -c +101 "$mp3" >junk
  modelled 1 <(tail -c +366 "$mp3")
  helped "a stream that begins within a frame" 3 1 junk expected
  { fill 50000; cat "$mp3" "$mp3"; id3v1; } >junk
  modelled 1 <(cat "$mp3" "$mp3")
  try "a lot of junk, and a tag" "$command" 1 junk
  said 'begins behind the first 50000 bytes' 'head -c -128'
  followed "a lot of junk, and a tag" expected
}

part_unknown() {
  printf '<!DOCTYPE html>\n<html><head><title>Not found</title></head>\n' >text
  { printf '\xff\xfe'; printf 'H\0a\0l\0l\0 \0%.0s' {1..100}; } >text-16
  printf 'Grüße aus dem Museum, und viel Licht.\n%.0s' {1..300} >text-8
  zeros 9000 >empty-sound
  { digits 0102030405060708090A0B0C0D0E0F10; fill 9000; } >unknown
  head -c 60 text-16 >text-short
  for n in text:'It is text' text-16:'It is text' text-8:'It is text' empty-sound:'begins with zeros'; do
    for code in 0 1 2; do
      try "${n%:*}, code $code" "$command" "$code" "${n%:*}"
      ended 3
      said "${n#*:}"
      not_said ffmpeg
    done
  done
  for code in 0 2; do
    try "a short text, code $code" "$command" "$code" text-short
    said 'It is text'
  done
  # The head of a long frame, and no other: in a pipe no more is seen.
  { digits FFF15083C00000; fill 20000; } >in
  try "one head and no frame" through_cat 2
  ended 3
  said 'The cause is not known'
  : >in
  try "unknown bytes" "$command" 1 unknown
  ended 3
  said 'The cause is not known' '01 02 03 04 05 06 07 08' ffprobe '-c:a copy'
  stream_type_3
}

# E-AC-3 of the reserved stream type, at both ends of its bsid; with bsid 10 and 17 it is not known. Behind one such
# frame the others can be cut.
stream_type_3() {
  local bsid
  for bsid in 58 80; do
    for n in {0..1199}; do digits "0B77C0033F${bsid}0000"; done >type-3
    try "E-AC-3 of stream type 3, $bsid" "$command" 0 type-3
    ended 3
    said 'E-AC-3 of stream type 3'
    not_said ffmpeg
  done
  for bsid in 50 88; do
    for n in {0..1199}; do digits "0B77C0033F${bsid}0000"; done >no-type
    try "what only looks like stream type 3, $bsid" "$command" 0 no-type
    ended 3
    said 'The cause is not known'
  done
  { head -c 8 type-3; cat "$demo/eac3-48000-stereo-128k.eac3"; } >first-of-type-3
  modelled 0 "$demo/eac3-48000-stereo-128k.eac3"
  helped "a first frame of stream type 3" 3 0 first-of-type-3 expected
  said 'begins behind the first 8 bytes'
}
