# shellcheck shell=bash
# Sourced by the scripts of host/ and by .ci/run: it goes to the repository's root, and has what they share.
cd "$(dirname "${BASH_SOURCE[0]}")/../.." || exit 2
root=$PWD

# Where cargo puts the programs and libraries of the host side.
# shellcheck disable=SC2034
built=target/host/release

# die WORDS..: the script cannot do its work, which is neither success nor a difference.
die() {
  echo "$0: $*" >&2
  exit 2
}

# different WORDS..: what a check found, as its last line.
different() {
  echo "difference: $*"
  exit 1
}

# need TOOL..: each of them must be installed.
need() {
  local tool absent=()
  for tool; do
    command -v "$tool" >/dev/null || absent+=("$tool")
  done
  [ ${#absent[@]} -eq 0 ] || die "not installed: ${absent[*]}; nothing was made and nothing compared"
}

# need_program FILE..: each of them must be there.
need_program() {
  local file
  for file; do
    [ -x "$file" ] || die "there is no program $file"
  done
}

# use_scratch: makes the folder $scratch, which is removed at the end.
use_scratch() {
  scratch=$(mktemp -d) || exit 2
  trap 'rm -r "$scratch"' EXIT
}

# host_cargo COMMAND WORD..: cargo about the workspace. No crate comes from a network. $host_target may name another
# folder than target/host.
host_cargo() {
  (cd "$root/host" && cargo "$1" --offline --locked --target-dir "${host_target:-$root/target/host}" "${@:2}")
}

# build_host [MEMBER..]: the programs of these members of the workspace, or all.
build_host() {
  local member members=()
  for member; do members+=(-p "$member"); done
  host_cargo build --release "${members[@]}"
}

# strict_gcc WORD..: gcc over the header, every warning an error.
strict_gcc() {
  gcc -std=c11 -O2 -Wall -Wextra -Wpedantic -Werror -Iinclude "$@"
}

# stage NAME COMMAND..: runs a command, says how long it took, and ends the script where it fails.
stage() {
  local name=$1 start=$SECONDS
  shift
  echo "== $name"
  if ! "$@"; then
    echo "FAILED: $name, after $((SECONDS - start)) s"
    exit 1
  fi
  echo "== $name: $((SECONDS - start)) s"
}
