# shellcheck shell=bash disable=SC2154
# Sourced by the self-tests, behind common.sh: wrong versions of programs and texts, and the count of those that were
# caught. $mutants is the folder of the mutants, and $dir that of the present one.

count=0
caught=0

# What of host/ a copy of the workspace has: cargo wants all members, though it builds a few.
members=(Cargo.toml Cargo.lock oracle common heads splitter sheet cues cuecalls benchmarks)

# begin NAME: the folder, empty.
begin() {
  mutants=target/selftests/$1
  rm -rf "$mutants"
  mkdir -p "$mutants"
}

# replace FILE OLD NEW: puts NEW for OLD, which must stand in FILE exactly once.
replace() {
  local text without
  text=$(<"$1")
  without=${text//"$2"/}
  [ $((${#text} - ${#without})) -eq ${#2} ] || die "'$2' does not stand exactly once in $1"
  printf '%s\n' "${text/"$2"/"$3"}" >"$1"
}

# as_requested FILE: writes the Rust module as requested, by the rule of host/oracle/build.rs: of each pair of an edit
# the lines behind OLD, which stand in the text exactly once, give way to those behind NEW; stamping.rs and parts.rs
# follow.
as_requested() {
  local edit pairs pair old new
  cp host/oracle/audio_frame.rs "$1"
  for edit in host/oracle/requested/*.edit; do
    pairs=$(<"$edit")
    [[ $pairs == *$'\nOLD\n'* ]] || die "$edit has no line OLD"
    pairs=${pairs#*$'\nOLD\n'}$'\nOLD\n'
    while [ -n "$pairs" ]; do
      pair=${pairs%%$'\nOLD\n'*}$'\n'
      pairs=${pairs#*$'\nOLD\n'}
      [[ $pair == *$'\nNEW\n'* ]] || die "$edit has no line NEW behind a line OLD"
      old=${pair%%$'\nNEW\n'*}$'\n'
      new=${pair#*$'\nNEW\n'}
      replace "$1" "$old" "${new:-$'\n'}"
    done
  done
  cat host/oracle/requested/stamping.rs host/oracle/parts.rs >>"$1"
}

# expect_difference NAME COMMAND..: runs a command that has to stop at a difference. What a program
# that it stops has to say about that goes to another file.
expect_difference() {
  local name=$1 status=0 message
  shift
  count=$((count + 1))
  "$@" >"$dir/out" 2>"$dir/err" || status=$?
  message=$(tail -n 1 "$dir/out")
  if [ "$status" -eq 1 ] && [[ $message == difference:* ]]; then
    caught=$((caught + 1))
    echo "caught    $name: ${message#difference: }"
  else
    echo "SURVIVED  $name (status $status): $message"
  fi
}

# The last line, and whether all were caught.
verdict() {
  echo "$count mutants, $caught caught"
  [ "$caught" -eq "$count" ]
}

# script NAME COMMAND: the program $dir/program, as a shell command, in which $right is the right program.
script() {
  dir=$mutants/$1
  mkdir -p "$dir"
  printf '#!/bin/sh\nright=%q\n%s\n' "$right" "$2" >"$dir/program"
  chmod +x "$dir/program"
}

# Wrong texts that are modules of one program, which takes the name of one of them: to build a program for each would
# take minutes. Beside its own module a mutant has the right ones.
names=()
modules=()
arms=()

# module NAME ITEMS ARM: a mutant by its Rust name, the items of its module, whose files are in $mutants/NAME, and what
# the program does when its argument is that name.
module() {
  names+=("$1")
  modules+=("mod $1 { $2 }")
  arms+=("        \"$1\" => $3,")
}

# build_modules LIBRARY FRONT: the program $mutants/wrong over that library of the host side, with FRONT before the
# modules.
build_modules() {
  printf '%s\n' '#![allow(warnings)]' "$2" "${modules[@]}" \
    'fn main() -> Result<(), Box<dyn std::error::Error>> {' \
    '    match std::env::args().nth(1).expect("a name").as_str() {' "${arms[@]}" \
    '        name => panic!("no mutant {name}"),' '    }' '}' >"$mutants/wrong.rs"
  rustc --edition 2021 -C opt-level=0 -C debug-assertions=off --extern "$1=$built/lib$1.rlib" \
    -L "dependency=$built/deps" -o "$mutants/wrong" "$mutants/wrong.rs" || die "a mutant does not build"
}

# Wrong runners: a copy of the workspace in which all changes are made at once. Each is made only where the environment
# names it in WRONG, so that one build serves all of them. With UNCHECKED set a runner leaves out the cases that were
# worked out by hand, so that its run alone has to show the change.
changes=()

# copy_host: the copy, $copy, without any change.
copy_host() {
  unset AUDIO_FRAME_RS
  copy=$root/$mutants/copy
  mkdir -p "$copy/host"
  cp -r "${members[@]/#/host/}" "$copy/host"
  cat >>"$copy/host/oracle/src/lib.rs" <<'END'

/// Whether the environment names that change.
pub fn is_wrong(name: &str) -> bool {
    static NAME: std::sync::LazyLock<String> =
        std::sync::LazyLock::new(|| std::env::var("WRONG").unwrap_or_default());
    *NAME == name
}

/// Whether the cases that were worked out by hand are held to.
pub fn is_checked() -> bool {
    std::env::var_os("UNCHECKED").is_none()
}
END
}

# instead NAME FILE OLD NEW: the change NAME, in FILE of the copy's host/ the expression NEW for OLD. Changes of one
# expression may stand in each other.
instead() {
  local is_wrong=oracle::is_wrong
  [[ $2 != oracle/* ]] || is_wrong=crate::is_wrong
  replace "$copy/host/$2" "$3" "match $is_wrong(\"$1\") { true => $4, false => $3 }"
  changes+=("$1")
}

# wrong_edit NAME NEW: K3's edit gives an ADTS head another length.
wrong_edit() {
  instead "$1" oracle/requested/K3-adts-head-length.edit \
    'if protection_absent == 1 { 7 } else { 9 + 2 * raw_blocks as usize }' "if protection_absent == 1 $2"
}

# wrong_type NAME NEW: K6's edit refuses E-AC-3 heads by another condition.
wrong_type() {
  instead "$1" oracle/requested/K6-stream-type-3.edit 'b[2] >> 6 == 3' "$2"
}

# wrong_domain NAME OLD NEW: another domain of equality.
wrong_domain() {
  instead "$1" oracle/src/domain/mod.rs "$2" "$3"
}

# wrong_since NAME OLD NEW: the same, in what K7 asks of it.
wrong_since() {
  instead "$1" oracle/src/domain/since.rs "$2" "$3"
}

# build_runner MEMBER PROGRAM: builds that program of the copy, which is then $runner.
build_runner() {
  root=$copy host_cargo build --quiet --profile mutant -p "$1" --bin "$2" || die "a wrong $2 does not build"
  runner=$copy/target/host/mutant/$2
}

# run_changes WORD..: expects a difference at each change where $runner is run with these words, and none without one.
run_changes() {
  local name
  "$runner" "$@" >/dev/null || die "$runner $* finds a difference without a change"
  for name in "${changes[@]}"; do
    dir=$mutants/$name
    mkdir "$dir"
    WRONG=$name UNCHECKED=yes expect_difference "$name" "$runner" "$@"
  done
}
