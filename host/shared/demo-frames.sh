# shellcheck shell=bash
# Sourced by checks/demo, tools/demo-make and tools/demo-long: a stream's frames as ffprobe reports
# them, and the cut sheet that they call for.
#
# Frames are lines 'LENGTH KIND SAMPLES RATE CHANNELS', the sheet's columns 2 to 6; a stream of N bit/s
# has '-Nk' in its name, one of changing bit rate '-vbr', and one whose last frame is cut short '-cut'.

# code_of STREAM: its syntax code, by the ending of its name.
code_of() {
  case $1 in
  *.ac3 | *.eac3) echo 0 ;;
  *.mp2 | *.mp3) echo 1 ;;
  *.aac) echo 2 ;;
  *) return 1 ;;
  esac
}

# probe STREAM: its frames by ffprobe. A packet has a length and a duration; kind, rate and channels
# are the stream's. A duration in ticks that do not divide it was rounded down by less than half a
# sample, so that the nearest number of samples is the right one.
probe() {
  local demuxer=${1##*.}
  [ "$demuxer" != mp2 ] || demuxer=mp3
  ffprobe -v error -f "$demuxer" -of compact \
    -show_entries stream=codec_name,sample_rate,channels,time_base:packet=size,duration "$1" |
    awk -F'[|=]' '
      BEGIN { split("ac3 eac3 mp1 mp2 mp3 aac", names, " "); for (k in names) kind[names[k]] = k }
      { for (i = 2; i < NF; i += 2) value[$i] = $(i + 1) }
      $1 == "packet" { size[++count] = value["size"]; ticks[count] = value["duration"] }
      $1 == "stream" { streams++ }
      END {
        if (streams != 1 || !(value["codec_name"] in kind)) exit 1
        split(value["time_base"], base, "/")
        rate = value["sample_rate"]
        for (n = 1; n <= count; n++)
          printf "%s %s %.0f %s %s\n", size[n], kind[value["codec_name"]],
            ticks[n] * base[1] * rate / base[2], rate, value["channels"]
      }'
}

# bytes_of FRAMES: the sum of their lengths.
bytes_of() {
  awk '{ bytes += $1 } END { printf "%.0f\n", bytes }' "$1"
}

# cut_sheet PROGRAM STREAM SHEET: writes the sheet that the program prints of a stream.
cut_sheet() {
  { code_of "$2" && cat "$2"; } >"$3.in"
  "$1" <"$3.in" >"$3"
}

# wanted_sheet STREAM FRAMES SHEET: prints the sheet that the frames call for: nothing discarded, and
# pending what the stream has beyond the frames. A bit rate is the name's. In a stream of changing bit
# rate it is taken from SHEET, the program's, where it gives the frame's length, padded or not.
wanted_sheet() {
  awk -v name="${1##*/}" -v size="$(wc -c <"$1")" '
    function floor_ratio(a, b) { return (a - a % b) / b }
    function bit_rate(n, length_, kind, samples, rate,   slots) {
      if (kind == 2 || kind == 6) return "-"
      if (match(name, /-[0-9]+k[-.]/)) return substr(name, RSTART + 1, RLENGTH - 3) "000"
      if (name !~ /-vbr[-.]/ || (kind != 4 && kind != 5) || printed[n] !~ /^[1-9][0-9]*$/) return "?"
      slots = floor_ratio(samples / 8 * printed[n], rate)
      return length_ == slots || length_ == slots + 1 ? printed[n] : "?"
    }
    FILENAME == ARGV[1] { printed[FNR] = $7; next }
    {
      printf "%8s %5s %2s %5s %6s %2s %7s %20.0f\n", FNR, $1, $2, $3, $4, $5,
        bit_rate(FNR, $1, $2, $3, $4), floor_ratio((FNR - 1) * $3 * 90000, $4)
      bytes += $1
    }
    END { printf "E %20d %5d\n", 0, size - bytes }
  ' "$3" "$2"
}

# as_wanted STREAM FRAMES SHEET: whether the program's sheet is the one that the frames call for. If not,
# it shows the first line that only the frames call for ('<') and the first that only the program printed
# ('>').
as_wanted() {
  local lines
  wanted_sheet "$1" "$2" "$3" >"$3.wanted"
  cmp -s "$3.wanted" "$3" && return
  lines=$(diff -a "$3.wanted" "$3" | awk '/^[<>]/ && !seen[$1]++ { $1 = $1; print }' | paste -sd ' ')
  echo "difference: ${1##*/}: $lines"
  return 1
}
