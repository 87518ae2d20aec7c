# shellcheck shell=bash disable=SC2034,SC2154
# Sourced by ./cue: the program's answers, a line for each time, and whether they can be relied on.

verb=search sought=' with a time' absent='left out'
all_right='All frames were found, and their numbers and stamps are right.'
rest_right='Numbers and stamps of the other frames are right.'

# Where the program writes: a pipe that is open at both ends here, and can hold all of it.
open_sheet() {
  exec {answers}<> <(:)
  exec {sheet}>&"$answers"
}

# take_answers: the lines for the times, into the list $lines, and the line E, into $last_line. If a
# line is missing, a later part of the stream was perhaps never looked at.
take_answers() {
  local text
  written "$answers"
  mapfile -t lines <<<"${text%$'\n'}"
  last_line=${lines[-1]}
  unset 'lines[-1]'
  take_losses && [ ${#lines[@]} -eq ${#times[@]} ] || fail "the program's answer is not whole"
}

# print_answers: $passed_on is not 0 where they did not come to standard output.
print_answers() {
  { (printf '%s\n' "${lines[@]}" >&3); } 2>/dev/null
  passed_on=$?
}

# Says what is wrong with the answers, if anything is. Without a frame for each time the command
# ends here.
judge_answers() {
  local place none='' missed=''
  first_line=$last_line
  for place in "${!times[@]}"; do
    if [[ ${lines[place]} != *none ]]; then
      first_line=${lines[place]}
      warn_if_over "$place"
    elif [ "${times[place]}" -lt 0 ]; then
      say "no frame sounds at $(asked_at "$place"): the sheet's times begin with 0"
      none=1
    else
      missed=1
    fi
  done
  if [ -n "$missed" ]; then no_frame; fi
  # Without a line nothing has to be relied on.
  [[ $first_line == E* ]] || judge_losses
  [ -z "$none" ] || exit 3
}

# warn_if_over PLACE: says so where the sound of that frame is surely over at its time. A stamp is
# rounded down: the frame begins up to a tick later.
warn_if_over() {
  local number samples rate stamp over at
  read -r number _ _ samples rate _ _ stamp <<<"${lines[$1]}"
  over=$((stamp + 1 + (samples * 90000 + rate - 1) / rate))
  [ "${times[$1]}" -ge "$over" ] || return 0
  at=$(asked_at "$1")
  say "WARNING: at $at the sound of frame $number is over, at the latest since $over ticks"
}
