# shellcheck shell=bash disable=SC2016,SC2034,SC2154
# Sourced by host/checks/command: the command ./cue. What all commands have to do alike is tried for
# it too, by the parts of host/checks/command and command-builds.sh.

cue_parts=(clock order wrong_times misuse manual files stamps corner_stamps rates silence ends
  unfinished broken losses_told causes_told tags_told films_told names_told both_programs signals)

# The command as it has to be typed.
shown_cue=$folder/cue
case $shown_cue in *[!A-Za-z0-9_./:+,@%=-]*) shown_cue=${shown_cue@Q} ;; esac

# Ways of a stream into the command, and of the answers out of it. CODE STREAM TIME..
cue_from_file() { "$command" "$@"; }
# shellcheck disable=SC2002
cue_from_pipe() { cat "$2" | "$command" "$1" - "${@:3}"; }
cue_to_pipe() {
  "$command" "$@" | cat
  return "${PIPESTATUS[0]}"
}
# Behind another text.
cue_to_file() {
  echo earlier >kept
  "$command" "$@" >>kept
  set -- $?
  tail -c +9 kept
  return "$1"
}
export -f cue_from_file cue_from_pipe cue_to_pipe cue_to_file

# ---- what is due

# picked SHEET TICKS..: by a sheet, the lines into the file `expected`, and the messages about the
# times into `words`.
picked() {
  awk -v times="${*:2}" '
    function is_over(at) { return (at - column[8] - 1) * column[5] >= column[4] * 90000 }
    BEGIN { n = split(times, time, " ") }
    length($0) == 62 && $8 != "-" { for (i = 1; i <= n; i++) if ($8 <= time[i]) line[i] = $0 }
    END {
      printf "" >"words"
      for (i = 1; i <= n; i++) {
        printf "%62s\n", i in line ? line[i] : "none" >"expected"
        if (!(i in line)) {
          if (time[i] < 0)
            print "cue: no frame sounds at " time[i] " ticks: the sheet" \
              "\047" "s times begin with 0" >"words"
          continue
        }
        split(line[i], column, " ")
        for (over = column[8] + int(column[4] * 90000 / column[5]); !is_over(over); over++);
        if (is_over(time[i]))
          print "cue: WARNING: at " time[i] " ticks the sound of frame " column[1] \
            " is over, at the latest since " over " ticks" >"words"
      }
    }' "$1"
}

# found WHAT CODE STREAM TICKS..: what is due by the sheet that ./cutsheet prints of the stream, in
# the ways of the list $ways.
found() {
  local about=$1 way due=0
  shift
  "$folder/cutsheet" "$1" "$2" >printed-sheet 2>/dev/null
  picked printed-sheet "${@:3}"
  ! grep -q 'none$' expected || due=3
  for way in "${ways[@]}"; do
    try "$about at ${*:3}, $way" "$way" "$@"
    printed expected
    grep -e '^cue: WARNING: at ' -e '^cue: no frame sounds ' err | cmp -s - words ||
      fail "other words about the times"
    [ "$status" -eq "$due" ] || fail "status $status, not $due"
  done
}
ways=(cue_from_file)

# ---- times

# noting: a program of ours notes what it is asked, and has the right one answer it.
noting() {
  copied
  made "tee '$scratch/asked' | '$program'"
}

# The ticks of each time were worked out by hand.
part_clock() {
  local time ticks
  noting
  while read -r time ticks; do
    try "$time" copy/cue 2 track.adts "$time"
    [ "$(head -n 1 asked)" = "2 $ticks" ] || fail "'$(head -n 1 asked)' was asked, not '2 $ticks'"
    tail -n +2 asked | cmp -s - track.adts || fail "another stream was handed on"
  done <<'END'
0 0
5 5
0089 89
7515000 7515000
999999999999999999 999999999999999999
-5 -5
-08 -8
-0 0
-999999999999999999 -999999999999999999
83.5s 7515000
83s 7470000
0083.50s 7515000
0s 0
08s 720000
0.5s 45000
0.1s 9000
0.00001s 0
0.000011111s 0
0.000011112s 1
0.00002s 1
0.000022222s 1
0.000022223s 2
0.999999999s 89999
1.000000001s 90000
999999999s 89999999910000
999999999.999999999s 89999999999999
1:23.5 7515000
01:23.50 7515000
1:23 7470000
0:00 0
1:5 5850000
1:05 5850000
09:08.09 49328100
0:59.999999999 5399999
59:59 323910000
90:00 486000000
999999999:59.5 5399999999955000
1:02:03.5 335115000
1:2:3.5 335115000
0:01:23.5 7515000
0:59:59 323910000
100:00:00 32400000000
999999999:59:59.999999999 323999999999999999
END
}

# Each time has its line, wherever it stands among the others.
part_order() {
  local ways=(cue_from_file cue_from_pipe cue_to_pipe cue_to_file) many=({2070..2101})
  noting
  try "three forms" copy/cue 2 track.adts 83.5s -5 0:0.03
  [ "$(head -n 1 asked)" = '2 7515000 -5 2700' ] || fail "'$(head -n 1 asked)' was asked"
  found "times that rise" 2 track.adts 0 1 2088 2089 4178
  found "times that fall" 2 track.adts 4178 2090 2089 2088 1 0
  found "a time twice" 2 track.adts 0 2089 0 2089 2089
  found "times before 0 among them" 2 track.adts -1 0 -2 2089 -999999999999999999
  [ ${#many[@]} -eq 32 ] || fail "not 32 times"
  found "32 times" 2 track.adts "${many[@]}"
  bad 2 "33 times" "$command" 2 track.adts 7 "${many[@]}"
  said '33 times are too many: at most 32 at once' 'usage: ./cue CODE FILE TIME..'
}

# no_time WORD SAID: what is said of a word that is no time, alone and behind another.
no_time() {
  bad 2 "the time '$1'" "$command" 2 track.adts "$1"
  said "cue: '$1' is no time: $2" 'usage: ./cue CODE FILE TIME..' \
    'example: ./cue 2 track.adts 1:23.5'
  bad 2 "the time '$1', behind another" "$command" 2 track.adts 0 "$1"
  said "cue: '$1' is no time: $2"
}

part_wrong_times() {
  local word forms='write ticks as 7515000, seconds as 83.5s, or minutes and seconds as 1:23.5'
  no_time 83.5 'ticks are whole numbers; for seconds write 83.5s'
  no_time 83,5s 'write a point, not a comma: 83.5s'
  no_time 83,5 'write a point, not a comma: 83.5s'
  no_time 1:23,5 'write a point, not a comma: 1:23.5'
  no_time 1:75 'behind a colon stand 0 to 59; write 2:15'
  no_time 1:60 'behind a colon stand 0 to 59; write 2:00'
  no_time 1:75.25 'behind a colon stand 0 to 59; write 2:15.25'
  no_time 1:60:00 'behind a colon stand 0 to 59; write 2:00:00'
  no_time 0:75:10.5 'behind a colon stand 0 to 59; write 1:15:10.5'
  no_time 1:02:60 'behind a colon stand 0 to 59; write 1:03:00'
  no_time 1:005 'behind a colon stand 0 to 59; write 1:05'
  no_time 1:23.5s 'where there is a colon, no s stands behind: write 1:23.5'
  no_time -1s 'only ticks can be below 0, such as -5'
  no_time -0.5s 'only ticks can be below 0, such as -5'
  no_time -1:23 'only ticks can be below 0, such as -5'
  no_time 1000000000000000000 'ticks have at most 18 digits'
  no_time -1000000000000000000 'ticks have at most 18 digits'
  no_time 18446744073709551616 'ticks have at most 18 digits'
  no_time 1000000000s 'at most 9 digits stand before the point, and 9 behind it'
  no_time 1000000000:00 'at most 9 digits stand before the point, and 9 behind it'
  no_time 1000000000:00:00 'at most 9 digits stand before the point, and 9 behind it'
  no_time 0.0000000001s 'at most 9 digits stand before the point, and 9 behind it'
  for word in '' ' ' 5x s .s .5s 5.s 5,s +5 --5 - '- 5' '5 ' ' 5' 5e3 0x10 1: :5 1::5 1:2:3:4 1:2: \
    1:-5 1:2.5:3 83.5S 83.5sec 5m 2h 1.2.3s '1 s' 1,000,000 $'5\n6' $'5\n' '*' 'a[$(echo 1)]' \
    track.adts $'\xb2s'; do
    no_time "$word" "$forms"
  done
  # There are more digits than ten.
  LC_ALL=C.UTF-8 no_time '٣s' "$forms"
  LC_ALL=C.UTF-8 no_time '5²' "$forms"
}

part_misuse() {
  local word
  bad 2 "no argument" "$command"
  said 'which syntax has the stream?' 'usage: ./cue CODE FILE TIME..' \
    'example: ./cue 2 track.adts 1:23.5'
  bad 2 "a code alone" "$command" 2
  said 'which stream, and at which time?' usage:
  bad 2 "no time" "$command" 2 track.adts
  said 'at which time? Write it behind the file, as 83.5s or 1:23.5' usage:
  bad 2 "a wrong code" "$command" 3 track.adts 5
  said "'3' is no code" '0 is for AC-3 and E-AC-3' '1 for MPEG audio' '2 for ADTS' usage:
  bad 2 "the file before the code" "$command" track.adts 2 5
  said "'track.adts' is no code"
  for word in 83.5s 5 -5 1:23.5; do
    bad 2 "the time $word before the file" "$command" 2 "$word" track.adts
    said "'$word' is a time: the file comes first, and then the times" \
      '- is for standard input' usage:
    bad 2 "the time $word and no file" "$command" 2 "$word"
    said "'$word' is a time: the file comes first"
    bad 2 "the time $word and no file, behind --" "$command" 2 -- "$word" 7
    said "'$word' is a time: the file comes first"
  done
  bad 2 "two files" "$command" 2 track.adts track.adts 5
  said "'track.adts' is no time"
  bad 2 "an unknown option" "$command" --verbose
}

part_manual() {
  local word part same
  for word in -h --help; do
    try "$word" "$command" "$word"
    ended 0
    for part in './cue CODE FILE TIME..' '0 or ac3' '1 or mpeg' '2 or adts' '.ac3 .eac3 .ec3' \
      '.mp1 .mp2 .mp3 .mpa .m2a' '.aac .adts' '- stands for standard input' 'Up to 32 times' \
      './cue 2 track.adts 1:23.5' 'hours, minutes and seconds' 'ticks of 1/90000 second' \
      'not a comma' 'rounded down' '0 to 59' 'the word none' \
      'stands last' 'Lines without a stamp' WARNING 'is over' 'before 0' 'is cut off' 'tail -c +' \
      'head -c -M | ./cue 1 - 1:23.5' './cutsheet --help' 'EXIT STATUS' '0 each time has a frame' \
      '1 the stream could not be read' '2 wrong usage' '3 for at least one time'; do
      grep -qF -- "$part" out || fail "no word of '$part'"
    done
    grep -qxF "  $("$folder/cutsheet" 0 "$ac3" | sed -n 3p)" out ||
      fail "its example is no line of the sheet"
    cp out help
  done
  mapfile -t same < <(
    sed -n '/the first four are the same/,/^Seconds/s/^  \([0-9][0-9:.s]*\) .*/\1/p' help
  )
  [ ${#same[@]} -eq 4 ] || fail "not four times"
  for part in "${same[@]}"; do
    try "the help's $part" "$command" 2 track.adts "$part"
    said '7515000 ticks'
  done
  try "help behind times" "$command" 2 track.adts 5 --help
  ended 0
  printed help
}

# ---- streams

part_files() {
  local name
  for name in track.adts 'two words.adts' -lead.adts ./- ./-h "$scratch/track.adts" "$longest" \
    $'line\nfeed, \xff and * '; do
    good "the file $name" "$command" 2 "$name" 0.01s 2089
    good "the file $name, behind --" "$command" adts -- "$name" 0.01s 2089
  done
  good "a file named -h, behind --" "$command" 2 -- -h 0.01s 2089
  # A name that could be a time.
  cp track.adts 5s
  good "a file named 5s" "$command" 2 5s 0.01s 2089
  cp track.adts in
  good "standard input" "$command" 2 - 0.01s 2089
  good "standard input, behind --" "$command" 2 -- - 0.01s 2089
  good "a device" "$command" 2 /dev/stdin 0.01s 2089
  : >in
  good "through a pipe" cue_from_pipe 2 track.adts 0.01s 2089
  bad 1 "a missing file" "$command" 2 nowhere.adts 5
  said 'there is no file nowhere.adts'
  bad 1 "an empty name" "$command" 2 '' 5
  bad 1 "a directory" "$command" 2 folder 5
  said 'folder is a directory'
  bad 1 "a closed standard input" closed_input "$command" 2 - 5
  said 'standard input is closed'
  bad 1 "a directory as standard input" directory_input "$command" 2 - 5
  said 'standard input cannot be read: Is a directory'
}

# Times at and around each stamp, about the end of the last frame, and far behind it.
part_stamps() {
  local stream code times at
  for stream in "$demo"/*.{ac3,eac3,mp2,mp3,aac}; do
    case $stream in *ac3) code=0 ;; *.mp?) code=1 ;; *.aac) code=2 ;; esac
    mapfile -t times < <("$folder/cutsheet" "$code" "$stream" 2>/dev/null | awk '
      length($0) == 62 { print $8 - 1; print $8; print $8 + 1; end = int($8 + $4 * 90000 / $5) }
      END { for (n = -1; n < 4; n++) print end + n; print 99999999 }')
    [ ${#times[@]} -gt 9 ] || fail "${stream##*/} has hardly a stamp"
    for ((at = 0; at < ${#times[@]}; at += 32)); do
      found "${stream##*/}" "$code" "$stream" "${times[@]:at:32}"
    done
  done
}

# Of some corners the sheet has no line, or none with a stamp.
part_corner_stamps() {
  local ways=(cue_from_file cue_from_pipe) name code unstamped=0
  for name in "$corners"/*.in; do
    name=${name%.in}
    IFS= read -r code <"$name.in" || continue
    [[ $code == [012] ]] || continue
    tail -c +3 "$name.in" >cornered
    found "${name##*/}" "$code" cornered -1 0 1 2089 9000 123456 999999999999999999
    grep -q '[0-9]$' expected || unstamped=$((unstamped + 1))
  done
  [ "$unstamped" -gt 2 ] || fail "every corner has a stamp"
}

# Streams of two rates, one behind the other. Whichever comes first, the times go on from one to the
# other (K7): no stamp falls back, and at the tick before a stamp the frame before it still sounds.
# But the last frame of the fast one is cut off: before the slow one it is kept at the payload's end,
# counted, and lost, which leaves a gap.
part_rates() {
  local slow=$demo/adts-8000-mono-16k.aac name times
  head -c 4000 "$aac" >fast
  cat "$slow" fast >slow-first.aac
  cat fast "$slow" >fast-first.aac
  for name in slow-first fast-first; do
    "$folder/cutsheet" 2 "$name.aac" >rates.sheet 2>/dev/null
    awk 'length($0) == 62 { rates += $5 != rate; rate = $5; if ($8 < last) fell = 1; last = $8 }
      END { exit rates != 2 || fell }' rates.sheet || fail "not two rates, or a stamp falls"
    mapfile -t times < <(awk 'length($0) == 62 { print $8; print $8 + 1 }' rates.sheet)
    [ ${#times[@]} -gt 32 ] || fail "too few stamps"
    found "stamps of two rates, $name" 2 "$name.aac" "${times[@]:0:32}"
    found "stamps of two rates, $name" 2 "$name.aac" "${times[@]: -32}"
    mapfile -t times < <(awk 'length($0) == 62 && $8 > 0 { print $8 - 1 }' rates.sheet)
    found "the ticks before them, $name" 2 "$name.aac" "${times[@]: -32}"
    case $name in
      slow-first) ! grep -q 'is over' words || fail "there is a gap" ;;
      fast-first) grep -q 'is over' words || fail "there is no gap" ;;
    esac
  done
}

# ---- no frame sounds

part_silence() {
  try "a time before 0" "$command" 2 track.adts -5
  ended 3
  only_said "cue: no frame sounds at -5 ticks: the sheet's times begin with 0"
  printf '%62s\n' none >expected
  printed expected
  try "two times before 0, and one behind" "$command" 2 track.adts -007 0 -9
  ended 3
  said 'no frame sounds at -007 (-7 ticks): the sheet' 'no frame sounds at -9 ticks: the sheet'
  [ "$(wc -l <err)" -eq 2 ] || fail "not two lines"
  { printf '%62s\n' none; head -n 1 "$sheet"; printf '%62s\n' none; } >expected
  printed expected
  { cat "$aac"; fill 50; cat "$aac"; } >damaged
  try "a damaged stream before 0" "$command" 2 damaged -5
  ended 3
  only_said "cue: no frame sounds at -5 ticks: the sheet's times begin with 0"
  try "no frame, and a time before 0 too" "$command" 0 "$aac" -5 5
  ended 3
  said 'no frame sounds at -5 ticks' 'with a time was found'
}

# The second frame of document 01's example has the stamp 2089 and lasts 2089.79 ticks. It could
# begin up to a tick behind its stamp, so that only from 4180 on it is surely over.
part_ends() {
  local is_over='the sound of frame 2 is over, at the latest since 4180 ticks'
  good "within the last frame" "$command" 2 track.adts 0 4178
  good "perhaps within it" "$command" 2 track.adts 0 4179
  try "behind the last frame" "$command" 2 track.adts 0 4180 83.5s
  [ "$status" -eq 0 ] || fail "status $status, not 0"
  { head -n 2 "$sheet"; sed -n 2p "$sheet"; } >expected
  printed expected
  said "cue: WARNING: at 4180 ticks $is_over" "cue: WARNING: at 83.5s (7515000 ticks) $is_over"
  [ "$(wc -l <err)" -eq 2 ] || fail "not two lines"
}

# Answers that are not whole, or more than were asked for.
part_unfinished() {
  local lines line none
  line=$(head -n 1 "$sheet") none=$(printf '%62s' none)
  copied
  while IFS= read -r lines; do
    made "cat >/dev/null; printf '$lines'"
    bad 1 "a program that prints '$lines'" "${call[@]}"
    only_said "cue: the program's answer is not whole"
  done <<END

?\\n
$line\\n$line\\n
$line\\nE                    0     0\\n
$line\\n$line\\n$line\\nE                    0     0\\n
E                    0     0\\n
$line\\n$line\\nE                    0\\n
END
  # A program that has enough before the stream ends.
  cp "$corners/65543-bytes.in" long
  made "head -c 2 >/dev/null; printf '$line\\n$none\\nE                    0     0\\n'"
  try "a program that does not read to the end" copy/cue 2 long 0 -5
  ended 3
  printf '%s\n' "$line" "$none" >expected
  printed expected
}

# A read that fails when most of the stream is through: there is no answer.
part_broken() {
  local way
  mkdir failing
  printf '#!/bin/sh\ncase $1 in bs=4096) PATH=%s exec dd "$@" ;; esac\n' "'$PATH'" >failing/dd
  printf 'head -c 20000\necho "dd: error reading: Input/output error" >&2\nexit 1\n' >>failing/dd
  chmod +x failing/dd
  for way in cue_from_file cue_from_pipe cue_to_pipe; do
    bad 1 "a read that fails, $way" env PATH="$scratch/failing:$PATH" \
      bash -c '"$@"' bash "$way" 2 stream 5
    said 'cannot be read: Input/output error'
  done
  bad 1 "a read that fails at once" "$command" 2 /proc/self/mem 5
  said '/proc/self/mem cannot be read: Input/output error'
}

# ---- what is said of the stream

# told WHAT STATUS CODE STREAM: the answers at 0 and at 0.1 seconds, with a message.
told() {
  try "$1" "$command" "$3" "$4" 0 0.1s
  [ "$status" -eq "$2" ] || fail "status $status, not $2"
  [ -s err ] || fail "no message"
}

# told_through_a_pipe WHAT STATUS CODE STREAM: the same, and `in` stays the stream.
told_through_a_pipe() {
  cp "$4" in
  try "$1, through a pipe" bash -c 'cat | "$command" "$1" - 0 0.1s' bash "$3"
  [ "$status" -eq "$2" ] || fail "status $status, not $2"
}

part_losses_told() {
  head -c -9 "$aac" >cut-off
  { cat "$aac"; head -c 6 "$aac"; } >begun
  { cat "$aac"; fill 50; cat "$aac"; } >damaged
  head -c 90 "$aac" >first-cut
  : >nothing
  told "a last frame that is cut off" 0 2 cut-off
  said 'the last frame of cut-off is cut off after' ', and is left out'
  not_said 'on the sheet'
  told "six bytes of a frame" 0 2 begun
  only_said 'cue: the last 6 bytes of begun are too few for a frame, and are left out'
  told "a damaged stream" 0 2 damaged
  said 'WARNING: ' ' bytes of damaged were discarded, since they are no frame' \
    'numbers are too low and stamps too early' 'between frames or behind the last'
  told_through_a_pipe "a damaged stream" 0 2 damaged
  said 'To search without the last 128 bytes, with the same standard input:' \
    "head -c -128 | $shown_cue 2 - 0 0.1s"
  : >in
  told "less than a frame" 3 2 first-cut
  only_said 'cue: first-cut ends within its first frame, after 90 bytes: no whole frame was found'
  told "an empty stream" 3 2 nothing
  only_said 'cue: nothing is empty: there is nothing to search'
  printf '%62s\n' none none >expected
  printed expected
}

part_causes_told() {
  local stream code wrong names=('AC-3 or E-AC-3' 'MPEG audio' 'AAC in ADTS')
  for stream in "$mp3" "$aac" "$ac3"; do
    case $stream in *ac3) code=0 ;; *.mp?) code=1 ;; *.aac) code=2 ;; esac
    cp "$stream" sound
    "$command" "$code" sound 0 0.1s >wanted
    wrong=$(((code + 1) % 3))
    told "${stream##*/} with code $wrong" 3 "$wrong" sound
    said "cue: no frame of ${names[wrong]} (code $wrong) with a time was found in sound" \
      "It is ${names[code]}, whose code is $code." 'To search it:' \
      "    $shown_cue $code sound 0 0.1s"
    followed "${stream##*/} with code $wrong" wanted
    { fill 1000; cat "$stream"; } >junk
    told "junk before ${stream##*/}" 3 "$code" junk
    said 'begins behind the first 1000 bytes' 'To search from there:'
    followed "junk before ${stream##*/}" wanted
    told_through_a_pipe "junk before ${stream##*/}" 3 "$code" junk
    followed "junk before ${stream##*/}, through a pipe" wanted
    : >in
  done
  dd conv=swab <"$ac3" >swapped 2>/dev/null
  told "AC-3 with swapped bytes" 3 0 swapped
  said 'To swap them back and search:' "dd conv=swab 2>/dev/null <swapped | $shown_cue 0 - 0 0.1s"
  followed "AC-3 with swapped bytes" wanted
  printf '<!DOCTYPE html>\n<html><head><title>Not found</title></head>\n' >text
  told "text" 3 1 text
  said 'with a time was found in text' 'It is text'
  digits 504B030414000000 >zip
  told "a packed file" 3 1 zip
  said 'unpack it, and search what is in it'
  # The head of a long frame, and no other: in a pipe no more is seen.
  { digits FFF15083C00000; fill 20000; } >one-head
  told_through_a_pipe "one head and no frame" 3 2 one-head
  said 'The cause is not known'
  : >in
}

part_tags_told() {
  local size
  "$command" 1 "$mp3" 0 0.1s >wanted
  # From 4096 bytes on there are frames behind it, and none of them has a time.
  for size in 45 4096 9000; do
    { id3v2 $((size - 10)); cat "$mp3"; } >song.mp3
    told "a tag of $size bytes" 3 1 song.mp3
    printf '%62s\n' none none >expected
    printed expected
    said 'cue: no frame of MPEG audio (code 1) with a time was found in song.mp3' \
      'To search the sound alone:' "A tag of $size bytes (ID3v2) stands before the first frame." \
      "    tail -c +$((size + 1)) song.mp3 | $shown_cue 1 - 0 0.1s"
    followed "a tag of $size bytes" wanted
  done
  { id3v2 35; cat "$mp3"; id3v1; } >song.mp3
  try "tags at both ends" "$command" 1 song.mp3 0 00:00.10
  ended 3
  said "    tail -c +46 song.mp3 | head -c -128 | $shown_cue 1 - 0 00:00.10"
  followed "tags at both ends" wanted
  { cat "$mp3"; id3v1; } >song.mp3
  told "a tag behind" 0 1 song.mp3
  printed wanted
  said 'WARNING: the last frame of song.mp3 is left out, since a tag of 128 bytes (ID3v1) stands' \
    'Numbers and stamps of the other frames are right.' 'To have it too:' \
    "    head -c -128 song.mp3 | $shown_cue 1 - 0 0.1s"
  not_said 'on the sheet'
  followed "a tag behind" wanted
  # Frames that end with a payload: the tag behind them costs none.
  { tail -c +3 "$corners/4096-bytes.in"; id3v1; } >tagged
  told "a tag that costs nothing" 0 2 tagged
  said 'a tag of 128 bytes (ID3v1) stands at its end' \
    'All frames were found, and their numbers and stamps are right.'
  not_said 'on the sheet'
}

# What is advised where the sound has first to be had out of a file.
part_films_told() {
  local make='ffmpeg -i film.mp4 -map 0:a:0 -c:a'
  { digits 0000002066747970; fill 9000; } >film.mp4
  try "a film" "$command" 2 film.mp4 1:23.5 -5
  ended 3
  said "    $make copy track.aac && $shown_cue 2 track.aac 1:23.5 -5" \
    "    $make copy -id3v2_version 0 -write_xing 0 track.mp3 && $shown_cue 1 track.mp3 1:23.5 -5" \
    "    $make ac3 track.ac3 && $shown_cue 0 track.ac3 1:23.5 -5"
  told_through_a_pipe "a film" 3 2 film.mp4
  said "    cat >track.in && $shown_cue 2 track.in 0 0.1s"
  : >in
  { digits 4F67675300020000; fill 9000; } >sound.ogg
  told "an Ogg file" 3 2 sound.ogg
  said 'To encode it as AC-3 and search it:' "-c:a ac3 track.ac3 && $shown_cue 0 track.ac3 0 0.1s"
}

# Names that have to be quoted, with times behind them. The last could itself be a time.
part_names_told() {
  local name
  "$command" 1 "$mp3" 0 0.1s >wanted
  for name in 'two words.mp3' "it's \"odd\" & \$HOME \`;.mp3" ./-lead.mp3 a:b.mp3 '~' \
    $'line\nfeed \xff*.mp3' 7; do
    { id3v2 35; cat "$mp3"; id3v1; } >"$name"
    try "a tag in $name" "$command" 1 -- "${name#./}" 0 0.1s
    ended 3
    followed "a tag in $name" wanted
    cp "$mp3" "$name"
    try "the wrong code for $name" "$command" 2 -- "${name#./}" 0 0.1s
    ended 3
    followed "the wrong code for $name" wanted
  done
}

# The program of ./cutsheet is wanted too, and built first. It is the one that is asked for causes.
part_both_programs() {
  copied
  rm copy/target/bin/cutsheet
  fake_rt "$linking"
  try "a first use of both" with_rt "${call[@]}"
  [ "$status" -eq 0 ] || fail "status $status, not 0"
  printed "$right"
  [ "$(paste -sd ' ' calls)" = 'cutsheet cuelines' ] || fail "built as: $(paste -sd ' ' calls)"
  good "a second use" with_rt "${call[@]}"
  [ "$(wc -l <calls)" -eq 2 ] || fail "built again"
  rm copy/target/bin/cutsheet
  fake_rt 'echo "rt: FAILED"; exit 1'
  bad 1 "no program that can be asked" with_rt "${call[@]}"
  said 'could not be built'
  copied
  made "cat >/dev/null; printf '%62s\n%62s\nE                    0     0\n' none none"
  try "a cause" copy/cue 2 "$mp3" 0 7
  ended 3
  said 'It is MPEG audio, whose code is 1.'
}
