# shellcheck shell=bash disable=SC2034,SC2154
# Sourced by the commands: the program, run over the stream. What it prints goes to descriptor
# $sheet, which the function open_sheet of another part makes.

# written DESCRIPTOR: what was written to a pipe that is open at both ends here, up to the end that
# is put behind it, into $text.
written() {
  printf '\0' >&"$1"
  IFS= read -r -d '' text <&"$1"
}

# Where this command is ended, so are those that it started: first the program, which would take the
# end of its input for that of the stream.
end_by() {
  trap - "$1"
  # shellcheck disable=SC2086
  kill -KILL $cutter $reader $passer $watcher $! 2>/dev/null
  kill -s "$1" $$
}

# awaited PID: its status. The shell would have words of its own about one that was killed.
awaited() {
  { wait "$1"; } 2>/dev/null
}

# cut_stream LINE: runs the program over that line, a line feed and the stream. $status is how it
# ended, $message what it said, $total the stream's length, $passed_on how tee ended, if there is
# one.
cut_stream() {
  local feed words reasons go text count
  cutter='' reader='' passer='' watcher='' passed_on=0
  exec {words}<> <(:) {reasons}<> <(:) {go}<> <(:)
  trap 'end_by HUP' HUP
  trap 'end_by INT' INT
  trap 'end_by TERM' TERM
  [ -n "$again" ] || take_front
  open_sheet
  # The program waits until the shell knows it: of one that dies sooner, bash 5.2 loses the status (-1).
  exec {feed}> >(read -r -t 10 <&"$go"; exec "$program" 2>&"$words" >&"$sheet" 3>&- {stream}<&- {go}<&-)
  cutter=$!
  echo >&"$go"
  exec {go}>&-
  [ "$sheet" -eq 3 ] || exec {sheet}>&-
  { printf '%s\n' "$1"; hand_on; } 2>&"$reasons" >&"$feed" 3>&- &
  reader=$!
  awaited "$reader"
  end_feed $?
  trap - HUP INT TERM
  stop_progress
}

# end_feed STATUS: the reader has ended. Where reading the stream failed, the program is ended while
# its input is still open, so that it takes no part of a stream for the whole and prints no line E.
# A program that ends before the stream does, as at a payload that is refused, is none the worse for
# it. 141: there is nobody to write to any more.
end_feed() {
  [ "$1" -eq 0 ] || [ "$1" -eq 141 ] || kill -KILL "$cutter" 2>/dev/null
  exec {feed}>&-
  awaited "$cutter"
  status=$?
  [ "$status" -ne 137 ] || [ "$1" -eq 141 ] || unreadable
  written "$words"
  message=${text%$'\n'}
  written "$reasons"
  count_in "$text"
  total=$((taken + count))
  if [ -n "$passer" ]; then
    awaited "$passer"
    passed_on=$?
  fi
  [ -z "$watcher" ] || awaited "$watcher"
}
