# shellcheck shell=bash disable=SC2034,SC2154
# Sourced by host/checks/command: the command ./chart. What all commands have to do alike is tried
# for it too, by the parts of host/checks/command and command-builds.sh.

chart_parts=(forms words explained lookup input killed turns)

# Which table is right, host/checks/chart finds out: here it is what the program prints.
part_forms() {
  good "the list" "$command"
  [ "$(wc -l <out)" -eq 252 ] || fail "not 252 lines"
  "$program" --table >table
  try "the table" "$command" --table
  ended 0
  printed table
  [ "$(grep -c '^ID [01], Layer I' out)" -eq 6 ] || fail "not six parts"
  cat "$right" table >expected
  try "both into one pipe" list_and_table
  ended 0
  printed expected
}
list_and_table() { { "$command" && "$command" --table; } | cat; }
export -f list_and_table

# Words that are not known, beside --table and before it.
part_words() {
  local word
  for word in 1 --tables --tabl -table table -t '' - -- --table= ' --table' --verbose; do
    bad 2 "the word '$word'" "$command" "$word"
    said "'$word' is not known" 'usage: ./chart [--table]' 'example: ./chart --table | lp'
  done
  bad 2 "a word behind --table" "$command" --table x
  said 'too many words' usage:
  bad 2 "--table twice" "$command" --table --table
  bad 2 "a word before --table" "$command" x --table
  bad 2 "nothing, and --table" "$command" '' --table
  bad 2 "--table behind --" "$command" -- --table
}

part_explained() {
  local word part
  for word in -h --help; do
    try "$word" "$command" "$word"
    ended 0
    for part in './chart ' './chart --table' './chart --table | lp' './chart --table > chart.txt' '252 lengths' \
      ID layer bitrate_index sampling_frequency padding_bit 'FF FB 90 C0' '417 bytes' '4 bytes in Layer I,' \
      '1 byte in Layers II and III' 'free format' 'EXIT STATUS' '0 the chart is printed whole' \
      '1 it could not be written' '2 wrong usage'; do
      grep -qF -- "$part" out || fail "no word of '$part'"
    done
  done
  try "help behind --table" "$command" --table --help
  ended 0
  try "help on a full disk" full_output "$command" --help
  [ "$status" -eq 1 ] || fail "status $status, not 1"
}

# The way to a length in the list, as the help and README.md tell it: the formula must lead to every
# length of the table, and the example to the 417 bytes of FF FB 90 C0.
part_lookup() {
  local from text formula example
  good "the list" "$command"
  cp out list.out
  try "the table" "$command" --table
  cp out table.out
  for from in "$command" "$root/README.md"; do
    what="the way to a length in $from"
    count=$((count + 1))
    text=$({ [ "$from" = "$command" ] && "$from" --help || cat "$from"; } | tr -s ' \n' ' ')
    formula=$(grep -o '((ID \*[^=]*+ sampling_frequency + [0-9]*' <<<"$text") || fail "no formula"
    numbered "$formula" || fail "not that of the table"
    example=$(grep -o '((1 \* 3 [^=]*= [0-9]*' <<<"$text") || fail "no example"
    ((${example/=/==})) || fail "the example is not worked out right"
    example=${example#*= }
    [ "$(sed -n "${example}p" list.out)" = '   417' ] || fail "the example is another length's"
    [[ $text == *"./chart | sed -n ${example}p"* ]] || fail "the example is not shown"
  done
}

# numbered FORMULA: whether the lengths of the table stand in the list where it says.
numbered() {
  local ID layer bitrate_index sampling_frequency words list line seen=0
  mapfile -t -O 1 list <list.out
  while read -r -a words; do
    case ${words[0]-} in
      ID) ID=${words[1]%,} layer=${words[5]%)*} ;;
      [0-9]*)
        bitrate_index=${words[0]}
        for sampling_frequency in 0 1 2; do
          ((line = $1)) && ((list[line] == words[sampling_frequency + 2])) || return 1
          seen=$((seen + 1))
        done
        ;;
    esac
  done <table.out
  [ "$seen" -eq 252 ]
}

# What stands on standard input is for others, who come behind.
and_the_rest() { "$@" && cat; }
export -f and_the_rest

part_input() {
  "$program" --table >table
  seq 1000 >in
  cat "$right" in >expected
  try "standard input with something on it" and_the_rest "$command"
  ended 0
  printed expected
  cat table in >expected
  try "the same with --table" and_the_rest "$command" --table
  ended 0
  printed expected
  copied
  fake_rt "$linking"
  cat "$right" in >expected
  try "the same, and a first use" and_the_rest with_rt copy/chart
  [ "$status" -eq 0 ] || fail "status $status, not 0"
  printed expected
  made 'cat; echo end'
  { echo end; cat in; } >expected
  try "the same, and a program that reads" and_the_rest copy/chart
  ended 0
  printed expected
  : >in
  good "a directory as standard input" directory_input "$command"
}

# Signals that end the program, with a file for its output.
part_killed() {
  local signal
  copied
  for signal in KILL TERM HUP PIPE; do
    made "echo a part; kill -$signal \$\$"
    try "a program that is ended by $signal" copy/chart
    ended 1
    only_said "chart: the program failed with status $((128 + $(kill -l "$signal")))"
  done
}

# While another command builds its program, this one waits, and then builds its own.
part_turns() {
  copied
  fake_rt "$linking; sleep 0.3; echo end >>'$scratch/calls'"
  with_rt copy/cutsheet 2 track.adts >one.out 2>one.err &
  waited -s calls
  try "a chart while a cut sheet's program is built" with_rt copy/chart
  wait $!
  [ "$status" -eq 0 ] || fail "status $status, not 0"
  printed "$right"
  cmp -s one.out "$sheet" || fail "another sheet"
  [ "$(paste -sd ' ' calls)" = 'cutsheet end chart end' ] || fail "built as: $(paste -sd ' ' calls)"
  said 'another command is building; waiting' 'building the program'
}
