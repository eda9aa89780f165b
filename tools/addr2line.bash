# --addr2line of em_debug and em_page: names the program counters that lines of a script come from, by binutils'
# addr2line. The programs that are proved start no other one, so the scripts ./em_debug and ./em_page do it, into which
# this is read. Such a script has set `top`, its name as `me`, the program that plays the script as `player`, and `stdin`
# to yes where that takes a script from standard input whatever the other words are. Where it has a folder of its own in
# `room`, which it removes at its end, the files that are made lie there.
#
# It takes bash, coreutils, awk and addr2line, and /proc.

# An awk program. docs/language.md says what the source of a line is. It reads, each told by `part`:
#   script     and prints each program counter that is a source, once
#   keys       those counters for which addr2line was asked, in that order
#   answers    what addr2line answered: of each an address, and then function and place; where functions were put into
#              others, of each of them, the innermost first
#   named      the script, and prints it with names in the place of counters; its last line gets a newline where `ends`
#              is 1
# shellcheck disable=SC2016 # it is for awk
NAMER='
# The digits of the program counter that the source of a line is, in lower case and without zeros in front; nothing
# where it is none. It stands at `first` then, and has `count` letters.
function counter_in(line,  rest, digits) {
  if (!index(line, "0x") || !match(line, /(^|[ \t\r])[#@]/)) return ""
  first = RSTART + RLENGTH
  if (substr(line, first - 1, 1) == "#") return ""
  rest = substr(line, first)
  if (!match(rest, /^[ \t\r]*(before[ \t\r]+)?0x[0-9A-Fa-f]+([ \t\r]+#|[ \t\r]*$)/)) return ""
  first += index(rest, "0x") - 1
  digits = substr(line, first + 2)
  match(digits, /^[0-9A-Fa-f]+/)
  count = RLENGTH + 2
  digits = tolower(substr(digits, 1, RLENGTH))
  sub(/^0+/, "", digits)
  return length(digits) > 16 ? "" : digits == "" ? "0" : digits
}
# A function and a place as a source: nothing in it breaks a line, or ends the source (docs/c-library.md).
function source_of(called, place,  text) {
  text = (called ~ /\(/ ? called : called "()") ", " place
  gsub(/[\001-\037\177]/, "?", text)
  gsub(/ #/, " ?", text)
  sub(/^[ #]/, "?", text)
  return text
}
function take_place(place) {
  sub(/ \(discriminator [0-9]+\)$/, "", place)
  if (key == "" || is_final || called ~ /^\?/ || place ~ /^\?/ || place !~ /:[1-9][0-9]*$/) return
  is_final = place !~ /\.(h|hh|hpp):[0-9]+$/
  if (is_final || !(key in sources)) sources[key] = source_of(called, place)
}
part == "script" { key = counter_in($0); if (key != "" && !(key in seen)) { seen[key]; print key } }
part == "keys" { keys[FNR] = $0 }
part == "answers" {
  if (!is_called && /^0x[0-9a-f]+$/) { key = keys[++asked]; is_final = 0 }
  else if (!is_called) { called = $0; is_called = 1 }
  else { take_place($0); is_called = 0 }
}
part == "named" {
  if (FNR > 1) printf "\n"
  key = counter_in($0)
  if (key != "" && key in sources) $0 = substr($0, 1, first - 1) sources[key] substr($0, first + count)
  printf "%s", $0
}
END { if (ends) printf "\n" }
'

refuse() {
  printf '%s: %s\n' "$me" "$2" >&2
  exit "$1"
}

# Sets `words` to the words without the option, and where one of those is the script, that word to a file with names in
# it: `through` then has what says the script's own name of it.
with_names() {
  local script='' scripts=0 at=0 capture='' program='' is_read=${stdin-} asks=''
  words=()
  take_words "$@"
  # (a word may have those letters within it)
  [ "$program" ] && [ -z "$asks" ] || return 0
  [ "$scripts" -gt 0 ] || refuse 2 "--addr2line wants a script"
  local base='' type=''
  take_program
  # what the player refuses, it says best
  is_left || put_names
}

# Takes the words apart as the players do, up to one that asks for help or the version.
take_words() {
  local word
  while [ $# -gt 0 ]; do
    word=$1
    shift
    case $word in
    --addr2line) take_option "${1-}" && shift && continue ;;
    --addr2line=*) take_option "${word#*=}" && continue ;;
    -h | --help | -V | --version) asks=yes words+=("$word" "$@") && return ;;
    --) words+=(--) && for word; do take_script "$word"; done && return ;;
    -x | --batch | --compare) is_read=yes ;;
    --pcap=*) capture=${word#*=} ;;
    -?*) ;;
    *) take_script "$word" && continue ;;
    esac
    words+=("$word")
    case $word in
    -x | --pcap | --memory | --base | --budget | --mac)
      [ "$word" != --pcap ] || capture=${1-}
      [ $# = 0 ] || { words+=("$1") && shift; }
      ;;
    esac
  done
}

take_option() {
  [ "$1" ] || refuse 2 "--addr2line wants a file"
  [ -z "$program" ] || refuse 2 "--addr2line stands twice"
  program=$1
}

take_script() {
  script=$1 at=${#words[@]} scripts=$((scripts + 1))
  words+=("$1")
}

# Takes the program, and the address behind it, from which its counters are counted.
take_program() {
  if [ ! -e "$program" ] && [[ $program == *@* ]]; then
    base=${program##*@} program=${program%@*} base=${base#0x}
    [[ $base =~ ^[0-9A-Fa-f]{1,16}$ ]] || refuse 2 "--addr2line $program@ wants 1 to 16 hexadecimal digits behind the @"
  fi
  [ -e "$program" ] || refuse 3 "--addr2line $program: there is no such file"
  [ -r "$program" ] && [ ! -d "$program" ] || refuse 3 "--addr2line $program: it cannot be read"
  command -v awk >/dev/null || refuse 3 "--addr2line: there is no awk here, which puts the names in"
  command -v addr2line >/dev/null || refuse 3 "--addr2line: there is no addr2line here; Debian's binutils has it"
  # of a module, which is not linked yet, the address is that of its code
  case $(od -An -tx1 -j16 -N2 -- "$program" 2>/dev/null) in
  " 01 00" | " 00 01") type=module ;;
  esac
}

# Whether the script is the player's alone: it is not there, or the words do not go with it.
is_left() {
  [ "$scripts" = 1 ] || return 0
  if [ "$script" = - ]; then
    [ -z "$is_read" ]
  elif [ -r "$script" ] && [ ! -d "$script" ]; then
    [ "$script" -ef /dev/stdout ] || { [ "$capture" ] && [ "$script" -ef "$capture" ]; }
  fi
}

# Writes the script with names into a file that has no name any more, so that it goes with the last process that has it.
put_names() {
  local desk no_file="--addr2line: a temporary file cannot be written"
  desk=$(mktemp -d ${room:+-p "$room"} 2>/dev/null) || refuse 3 "$no_file"
  [ "${room-}" ] || trap 'rm -rf -- "$desk"' EXIT
  if [ "$script" = - ]; then cat; else cat <"$script"; fi >"$desk/script" 2>/dev/null || refuse 3 "$no_file"
  ask_names || refuse 3 "--addr2line $program: addr2line cannot read it"
  if [ -s "$desk/answers" ]; then
    name_counters || refuse 3 "$no_file"
  else
    mv -- "$desk/script" "$desk/named"
  fi
  exec 9<"$desk/named"
  rm -rf -- "$desk"
  [ "${room-}" ] || trap - EXIT
  words[at]=/dev/fd/9
  through+=("$BASH" "$top/tools/say_name.bash" "$player" /dev/fd/9 "$script")
}

# Asks for all counters of the script at once: `keys` has those that were asked for, `answers` what was answered.
ask_names() {
  local key number keys=() numbers=() least=$((1 << 63)) from=$((16#${base:-0}))
  LC_ALL=C awk "$NAMER" part=script "$desk/script" >"$desk/counters" || refuse 3 "$no_file"
  while read -r key; do
    number=$((16#$key))
    # (numbers have a sign here, and counters none)
    [ $((number ^ least)) -lt $((from ^ least)) ] || { keys+=("$key") && numbers+=($((number - from))); }
  done <"$desk/counters"
  : >"$desk/answers"
  : >"$desk/keys"
  [ ${#keys[@]} -gt 0 ] || return 0
  printf '%s\n' "${keys[@]}" >"$desk/keys"
  printf '0x%x\n' "${numbers[@]}" >"$desk/numbers"
  addr2line -a -f -i -C -s -e "$program" ${type:+-j .text} <"$desk/numbers" >"$desk/answers" 2>/dev/null
}

name_counters() {
  local ends=0
  [ "$(tail -c 1 -- "$desk/script" | od -An -tx1)" != " 0a" ] || ends=1
  LC_ALL=C awk -v ends="$ends" "$NAMER" part=keys "$desk/keys" part=answers "$desk/answers" part=named "$desk/script" \
    >"$desk/named" 2>/dev/null
}
