# shellcheck shell=bash disable=SC2034,SC2154
# Sourced by ./cutsheet: the sheet on its way to standard output, and what is to be seen of it.
#
# The sheet goes to descriptor 3. If that is a file, it is looked at there afterwards, which costs
# next to nothing. Else it goes through tee, which hands it on as it comes, and copies it to
# watch_sheet.

# A pipe: what is written to descriptor $into comes out of descriptor $from.
open_pipe() {
  local both
  exec {both}<> <(:)
  exec {from}<"/dev/fd/$both" {into}>"/dev/fd/$both" {both}>&-
}

# Where the program writes: $sheet is descriptor 3 itself, or a pipe. Nobody reads what goes to
# /dev/null, so it need not be handed on.
open_sheet() {
  local from into
  sheet=3
  if [ -f /dev/fd/3 ] && { : </dev/fd/3; } 2>/dev/null; then
    sheet_begins
    return
  fi
  exec {findings}<> <(:)
  open_pipe
  watch_sheet <&"$from" >&"$findings" 3>&- {into}>&- &
  watcher=$! sheet=$into
  exec {from}<&-
  [ ! /dev/fd/3 -ef /dev/null ] || return 0
  open_pipe
  tee --output-error=exit "/dev/fd/$sheet" <&"$from" >&3 2>/dev/null {into}>&- &
  passer=$!
  exec {from}<&- {sheet}>&-
  sheet=$into
}

# Where the sheet begins in the file that it is written to: $begin. What is appended begins at the
# file's end.
sheet_begins() {
  local flags
  { read -r _ begin && read -r _ flags; } </proc/self/fdinfo/3
  [ $((flags & 02000)) -eq 0 ] || begin=$(stat -L -c %s /dev/fd/3)
}

# The sheet's first and last line, into $first_line and $last_line; if the first has no stamp, how
# many bytes all its frames have, into $lengths.
look_at_sheet() {
  first_line='' last_line='' lengths=0
  if [ -n "$watcher" ]; then look_at_findings; else look_back; fi
  last_line=${last_line:-$first_line}
  [[ $first_line != *- ]] || lengths=$((lengths + ${first_line:9:5}))
}

# What look_at_sheet wants of a sheet that passes by.
watch_sheet() {
  local line
  IFS= read -r line
  printf '%s\n' "$line"
  if [[ $line == *- ]]; then last_and_lengths; else tail -c 29; fi
}

look_at_findings() {
  local text
  written "$findings"
  { IFS= read -r first_line; IFS= read -r last_line; read -r lengths; } <<<"$text"
  lengths=${lengths:-0}
}

# The same of a sheet in a file.
look_back() {
  local place
  place_in 3
  [ $((place - begin)) -ge 29 ] || return 0
  if [ "$begin" -eq 0 ]; then
    IFS= read -r first_line </dev/fd/3
  else
    IFS= read -r first_line < <(tail -c "+$((begin + 1))" /dev/fd/3 2>/dev/null)
  fi
  if [[ $first_line == *- ]]; then
    { IFS= read -r last_line; read -r lengths; } < <(
      tail -c "+$((begin + 64))" /dev/fd/3 2>/dev/null | head -c $((place - begin - 63)) | last_and_lengths
    )
  else
    IFS= read -r last_line < <(tail -c "+$((place - 28))" /dev/fd/3 2>/dev/null)
  fi
}

# The last of the lines that are read, and the sum of the lengths in the others.
last_and_lengths() {
  awk 'length($0) == 62 { sum += substr($0, 10, 5) } { last = $0 } END { printf "%s\n%.0f\n", last, sum }'
}
