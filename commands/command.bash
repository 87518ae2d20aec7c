# shellcheck shell=bash disable=SC2034,SC2154
# Sourced by each command, first of all: what all commands share. $me is the command's name, and
# $here its file, behind all symbolic links that it was called through. A command has a function
# usage, looks at its words, and then calls
#
#   ensure_built NAME     its program is there, built where that had to be done (part build)
#   open_output           descriptor 3 is where the program writes (part output)
#   run_program WORD..    the program (part output); those with a stream load parts of their own
#   check_written         the command ends here where not all was written (part output)

# $root is the repository, by the path that the command was called by, so that paths in messages are
# as short as what was typed. Only from a symbolic link that path does not lead to the parts.
root=${BASH_SOURCE[1]}
[ ! -L "$root" ] || root=$here
case $root in */*) root=${root%/*} ;; *) root=. ;; esac

# load PART..: more of the parts beside this file.
load() {
  local part
  for part; do
    # shellcheck source=/dev/null
    . "$root/commands/$part.bash" || exit 1
  done
}
load messages build output

# answer_help WORD..: the command's help, where one of its words asks for that. Behind -- a word is
# a name.
answer_help() {
  local word
  for word; do
    case $word in
      -h | --help) cat "$root/commands/$me.txt" && exit 0 || exit 1 ;;
      --) return ;;
    esac
  done
}
