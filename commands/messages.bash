# shellcheck shell=bash disable=SC2034,SC2154
# Sourced by the commands: messages, and the statuses that they end with. $me is the command's name.
#
# Statuses: 0 done; 1 something could not be read, written, built or run; 2 wrong usage; 3 the
# stream has no frame, or none at a time that was asked for.

# What a command shows of its progress would stand before a message. Those that show none have
# nothing to stop; the part stream has its own.
stop_progress() { true; }

# say LINE..: a message on standard error, its further lines below the first.
say() {
  stop_progress
  printf '%s: %s\n' "$me" "$1" >&2
  shift
  [ $# -eq 0 ] || printf '  %s\n' "$@" >&2
}

fail() {
  say "$@"
  exit 1
}

misused() {
  say "$1"
  usage >&2
  exit 2
}

# typed WORD: the word as it is typed in a shell.
typed() {
  case $1 in
    '' | *[!A-Za-z0-9_./:+,@%=-]*) printf '%s' "${1@Q}" ;;
    *) printf '%s' "$1" ;;
  esac
}

# This command as it was called.
own_command() {
  case $0 in
    */*) typed "$0" ;;
    *) typed "./$0" ;;
  esac
}

# counted NUMBER: as '1 byte' or '2 bytes'.
counted() {
  if [ "$1" -eq 1 ]; then printf '1 byte'; else printf '%s bytes' "$1"; fi
}
