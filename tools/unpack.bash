# Files that gzip compressed: the programs that are proved start no other one, so the scripts ./em_trace and ./em_debug
# unpack them, into which this is read. Such a script has set `top`, its name as `me`, and `through`.
#
# It takes bash, and where there is such a file coreutils, gzip and /proc.

# Sets `words` to the words given, in which a file that gzip compressed is one with its octets unpacked: `through` then
# has what says the file's own name. It is a word of its own, or stands behind `--frames=`; what stands behind --pcap is
# written, and stays.
unpack_words() {
  local word option before='' is_file='' output=''
  find_output "$@"
  words=()
  for word; do
    option=''
    if [ -z "$is_file" ]; then
      case $word in
      --) is_file=yes ;;
      --frames=*) option=--frames= word=${word#--frames=} ;;
      esac
    fi
    if [[ $before != --pcap && ($is_file || $option || $word != -*) ]] && is_to_unpack "$word"; then
      unpack "$word"
    fi
    words+=("$option$word")
    before=${is_file:+file}${word}
  done
}

# Sets `output` to the file that is to be written, if the words name one.
find_output() {
  local word before=''
  for word; do
    [ "$before" != -- ] || return 0
    [ "$before" != --pcap ] || output=$word
    [[ $word != --pcap=* ]] || output=${word#--pcap=}
    before=$word
  done
}

# Whether a file begins as gzip writes it, by its first two octets, and can be unpacked here. What is to be written over
# is the program's to refuse, and so is all where there is no gzip.
is_to_unpack() {
  local front=''
  [ -f "$1" ] && [ -r "$1" ] || return 1
  # (a NUL ends what is read, and would be left out otherwise)
  IFS= read -r -d '' -n 2 front <"$1" || return 1
  [ "$front" = $'\x1f\x8b' ] && ! [ "$1" -ef "$output" ] && command -v gzip >/dev/null
}

# Unpacks a file, and sets `word` to what it is read by: a file that has no name any more, so that it goes with the last
# process that has it.
unpack() {
  local desk fd
  desk=$(mktemp -d 2>/dev/null) || cannot_unpack "$1"
  trap 'rm -rf -- "$desk"' EXIT
  gzip -dc <"$1" >"$desk/octets" 2>/dev/null || cannot_unpack "$1"
  exec {fd}<"$desk/octets"
  rm -rf -- "$desk"
  trap - EXIT
  word=/dev/fd/$fd
  through+=("$BASH" "$top/tools/say_name.bash" "$me" "$word" "$1")
}

# Ends where a file is broken, or its octets cannot be written here.
cannot_unpack() {
  local why="gzip cannot unpack it"
  ! gzip -t <"$1" 2>/dev/null || why="it is compressed by gzip, and a temporary file cannot be written"
  printf '%s: %s: %s\n' "$me" "$1" "$why" >&2
  exit 3
}
