# shellcheck shell=bash disable=SC2034,SC2154
# Sourced by ./cutsheet: whether a sheet can be relied on, by its first and its last line and the
# stream's length.

verb=cut sought='' absent='not on the sheet' times_typed=''
all_right='All frames are on the sheet, and its lines are right.'
rest_right='The lines that are on the sheet are right.'

# Says what is wrong with the sheet, if anything is. Without a frame the command ends here.
judge_sheet() {
  look_at_sheet
  take_losses || return 0
  case $first_line in
    E*) no_frame ;;
    *-) no_stamp ;;
    *) judge_losses ;;
  esac
}

# As long as no frame was found, pieces of 4096 bytes that do not begin with a head are passed over,
# and the time 0 goes with the first of them.
no_stamp() {
  local passed=$((total - lengths - discarded - pending)) more=''
  [ "$discarded" -eq 0 ] || more=", and $(counted "$discarded") discarded"
  load_causes
  find_cause
  say "WARNING: no cue can be hung on this sheet, since no line has a stamp" \
    "$(called) does not begin with a frame: its first $(counted "$passed") were passed over$more." \
    "Only frames that were found are counted, so line 1 need not be the stream's first frame." \
    "${cause[@]}"
}
