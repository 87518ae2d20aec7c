# shellcheck shell=bash disable=SC2034,SC2154
# Sourced by the commands: what is no stream that can be cut, by its first bytes, and how the sound
# is had out of it.

# known_format HEX: names what begins so, and says what to do about it.
known_format() {
  case $1 in
    00??????66747970* | 00??????6d6f6f76* | 00??????77696465* | 00??????66726565* | ????????6d646174*)
      container 'an MP4, M4A or MOV file' ;;
    52494646????????57415645*) wave "$1" ;;
    52494646????????41564920*) container 'an AVI file' ;;
    1a45dfa3*7765626d*) encoded 'a WebM file' ;;
    1a45dfa3*) container 'a Matroska file' ;;
    3026b2758e66cf11*) container 'an ASF or WMA file' ;;
    000001ba*) container 'an MPEG program stream' ;;
    464c5601*) container 'an FLV file' ;;
    63616666*) container 'a CAF file' ;;
    4f676753*) encoded 'an Ogg file' ;;
    664c6143*) encoded 'a FLAC file' ;;
    464f524d????????4149464[36]*) encoded 'an AIFF file' ;;
    2e736e64*) encoded 'an AU file' ;;
    2321414d52*) encoded 'an AMR file' ;;
    7ffe8001* | fe7f0180* | 1fffe800* | ff1f00e8*) encoded 'a DTS stream' ;;
    504b0304* | 1f8b08*) because "It is a packed file (ZIP or gzip): unpack it, and $verb what is in it." ;;
    *) other_sound "$1" || transport_stream "$1" ;;
  esac
}

# other_sound HEX: sound that cannot be cut, or not in this form. It takes more than a sync word.
other_sound() {
  case $1 in
    ffe[2-7][0-9a-e][0-9ab]*) encoded 'MPEG-2.5 audio, with a rate below 16000 Hz' ;;
    fff[2-7a-f]0[0-9ab]*) encoded 'MPEG audio in free format' ;;
    56[ef]*) is_latm "$1" && encoded 'AAC in LATM, not in ADTS' ;;
    770b????[0-7]* | 770b????8[0-7]*)
      because "It is AC-3 whose bytes are swapped in pairs."
      advise "To swap them back and $verb" \
        "dd conv=swab 2>/dev/null${file_typed:+ <$file_typed} | $(to_run 0)"
      ;;
    *) return 1 ;;
  esac
}

# is_latm HEX: behind the first frame, by its length, must stand another, as far as can be seen.
is_latm() {
  local next=$(((16#${1:2:4} & 0x1fff) + 3))
  next=${1:next * 2:3}
  [[ $next == 56[ef] || ${#next} -lt 3 ]]
}

# transport_stream HEX: packets of 188 bytes, or of 192 with a time before each. The stream may
# begin within one.
transport_stream() {
  local size at
  for size in 188 192; do
    for ((at = 0; at < size; at++)); do
      [ "${1:at * 2:2}${1:(at + size) * 2:2}${1:(at + 2 * size) * 2:2}" = 474747 ] || continue
      container 'an MPEG transport stream'
      return
    done
  done
  return 1
}

# wave HEX: whether a WAVE file has samples or coded sound, by the number behind 'fmt '.
wave() {
  if [[ ${1:24:8}${1:40:4} =~ ^666d7420(0100|0200|0300|0600|0700|1100|feff)$ ]]; then
    encoded 'a WAVE file'
  else
    container 'a WAVE file'
  fi
}

container() {
  because "It is $1, out of which the sound has first to be copied."
  copy_out "ffprobe says which kind of sound it has"
}

encoded() {
  because "It is $1. What can be cut is AC-3, E-AC-3, MPEG audio and AAC in ADTS." \
    "It has first to be encoded, and what was encoded is then what has to be played."
  advise "To encode it as AC-3 and $verb it" "$(to_encode)"
}

to_encode() {
  printf '%s' "ffmpeg -i ${file_typed:-/dev/stdin} -map 0:a:0 -c:a ac3 track.ac3 &&" \
    " $(to_run 0 track.ac3)"
}

# copy_out WORDS: how to see which kind of sound it has, and how to copy that out. Some files ffmpeg
# cannot read through a pipe. Left to itself it puts a tag and a frame of its own before MP3 sound,
# and that would be counted as frame 1.
copy_out() {
  local from=${file_typed:-/dev/stdin} copy
  if [ -z "$again" ]; then
    advise "To see how, put it into a file and try that" "cat >track.in && $(to_run "$code" track.in)"
    return
  fi
  copy="ffmpeg -i $from -map 0:a:0 -c:a copy"
  advise "$1" \
    "ffprobe -v error -select_streams a:0 -show_entries stream=codec_name -of default=nw=1:nk=1 $from"
  advise "If that is aac" "$copy track.aac && $(to_run 2 track.aac)"
  because "If it is ac3, eac3 or mp2, do the same with that word in the place of aac, and code 0, 0 or 1."
  advise "If it is mp3" \
    "$copy -id3v2_version 0 -write_xing 0 track.mp3 && $(to_run 1 track.mp3)"
  advise "Any other kind cannot be cut and has first to be encoded" "$(to_encode)"
}
