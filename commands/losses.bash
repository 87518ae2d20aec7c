# shellcheck shell=bash disable=SC2034,SC2154
# Sourced by the commands: what of a stream is no frame, by the last line of its sheet and the
# stream's length, and the messages about it. $discarded and $pending are what that line says.
#
# Each command has words of its own: $verb is what it does with a stream, $sought what it looks for,
# $absent how it calls a frame that it does not have, $all_right and $rest_right what can be relied
# on all the same.

# take_losses: whether there is such a line, and what it says.
take_losses() {
  [[ $last_line =~ ^E\ +([0-9]+)\ +([0-9]+)$ ]] || return 1
  discarded=${BASH_REMATCH[1]} pending=${BASH_REMATCH[2]}
}

# The parts that only a message about a cause needs.
load_causes() {
  load tags causes formats
  file_typed=$(typed_file) command_typed=$(own_command)
}

# The command ends here.
no_frame() {
  if [ "$total" -eq 0 ]; then
    say "$(called) is empty: there is nothing to $verb"
  elif [ "$pending" -eq "$total" ]; then
    say "$(called) ends within its first frame, after $(counted "$pending"): no whole frame was found"
  else
    load_causes
    find_cause
    say "no frame of $(syntax "$code") (code $code)$sought was found in $(called)" "${cause[@]}"
  fi
  exit 3
}

# judge_losses: what is lost of a stream that has frames.
judge_losses() {
  if [ "$discarded" -gt 0 ]; then bytes_lost; elif [ "$pending" -gt 0 ]; then cut_off; fi
}

bytes_lost() {
  load_causes
  find_tags
  if [ $((discarded + pending)) -eq "$behind" ]; then
    say "WARNING: $(counted "$discarded") of $(called) were discarded, since $behind_tags at its end" \
      "$all_right"
  elif only_last_lost; then
    cause=()
    advise "To have it too" "$(to_cut 0 "$behind" "$code")"
    say "WARNING: the last frame of $(called) is $absent, since $behind_tags behind it" \
      "Together they are the $(counted "$discarded") that were discarded and $pending that are pending." \
      "$rest_right" "${cause[@]}"
  else
    find_cause
    say "WARNING: $(counted "$discarded") of $(called) were discarded, since they are no frame" \
      "Frames that were lost there are not counted: behind them, numbers are too low and stamps too early." \
      "${cause[@]}"
  fi
}

# Whether all that was lost is one frame, and the tags behind it.
only_last_lost() {
  local count=$((discarded + pending - behind)) frames given lost left stamp
  [ "$behind" -gt 0 ] && [ "$count" -gt 0 ] || return 1
  probe "$code" $((total - discarded - pending)) "$count"
  [ "$frames" -eq 1 ] && [ "$given" -eq "$count" ]
}

# Pending bytes begin with a head, unless they are too few for one.
cut_off() {
  local need=(8 4 7)
  if [ "$pending" -ge "${need[$code]}" ]; then
    say "the last frame of $(called) is cut off after $(counted "$pending"), and is $absent"
  else
    say "the last $(counted "$pending") of $(called) are too few for a frame, and are $absent"
  fi
}
