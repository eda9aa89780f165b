# What the scripts of this folder know of crates: what each names, what it is made of, and how it is proved and built.
# It is read into a script that has set `top`, and its name as `me`.

# by crate: what it names; the seconds that it took when all was proved from nothing on four processors; those of the
# longest chain of crates above it, without and with it; and whether it is on the longest chain of all
declare -gA uses=() seconds=() above=() chain=() is_longest=()
# by crate: its process, when that began, its place among them, and whether it is proved
declare -gA process=() began=() place=() proved=()
# where what they print goes, where they are built, and what else an end removes; what show_how_far said last; the table
# of seconds
room='' lanes='' rooms=() shown='' table=$top/tools/crates.seconds
# crates, each after those that it stands on; the files that they are made of, and the folders that these lie in
order=() files=() folders=()

say() {
  echo "$me: $*" >&2
}

# Ends with a status that is none of a program's.
stop() {
  say "$2"
  exit "$1"
}

read_crates() {
  local line crate
  [ "${#uses[@]}" = 0 ] || return 0
  while IFS= read -r line || [ -n "$line" ]; do
    line=${line%%#*}
    [[ $line == *:* ]] || continue
    read -r crate _ <<<"${line%%:*}"
    uses[$crate]=${line#*:}
  done <"$top/crates.txt"
}

# Puts these crates into `order`, and before each those that it stands on.
put_in_order() {
  local crate
  read_crates
  for crate; do
    [[ ${uses[$crate]+there} && " ${order[*]} " != *" $crate "* ]] || continue
    # shellcheck disable=SC2086
    put_in_order ${uses[$crate]}
    order+=("$crate")
  done
}

# Lists in `files` and `folders`, named from the top, what these crates and those below them are made of.
find_files() {
  local crate at found was
  was=$(shopt -p globstar nullglob) || :
  shopt -s globstar nullglob
  order=() files=(crates.txt) folders=()
  put_in_order "$@"
  for crate in "${order[@]}"; do
    at=$top/crates/$crate
    found=("$at"/src/**/*.rt "$at"/specs/**/*.antt "$at"/proofs/**/*.antt)
    files+=("${found[@]#"$top/"}")
    found=("$at"/{src,specs,proofs}/**/)
    folders+=("${found[@]#"$top/"}")
  done
  eval "$was"
}

# As many checks as there are processors, and 4 GB of memory for each.
side_by_side() {
  local word amount most=1
  while read -r word amount _; do
    [ "$word" != MemAvailable: ] || most=$((amount / 4194304))
  done </proc/meminfo
  amount=$(nproc)
  echo $((most < 1 ? 1 : most < amount ? most : amount))
}

# What crates.seconds says of each crate, or a minute; the longest chain above each; and which are on the longest of
# all.
read_seconds() {
  local crate word at rest
  for crate in "${order[@]}"; do
    seconds[$crate]=60
  done
  while read -r crate word _; do
    [[ ! $word =~ ^[0-9]+$ ]] || seconds[$crate]=$word
  done <"$table"
  for ((at = ${#order[@]} - 1; at >= 0; at--)); do
    crate=${order[at]}
    chain[$crate]=$((seconds[$crate] + ${above[$crate]-0}))
    for word in ${uses[$crate]}; do
      [ "${above[$word]-0}" -ge "${chain[$crate]}" ] || above[$word]=${chain[$crate]}
    done
  done
  mapfile -t order < <(for crate in "${order[@]}"; do echo "${chain[$crate]} $crate"; done | sort -srn)
  order=("${order[@]#* }")
  rest=${chain[${order[0]}]}
  for crate in "${order[@]}"; do
    [ "${chain[$crate]}" != "$rest" ] || {
      is_longest[$crate]=yes
      rest=$((rest - seconds[$crate]))
    }
  done
}

# Writes a line, or on a terminal nothing, where show_how_far has one line that it writes over.
tell() {
  [ -t 2 ] || say "$*"
}

clear_line() {
  [ ! -t 2 ] || printf '\r%*s\r' $((${COLUMNS:-80} - 1)) "" >&2
}

# Says once a second on a terminal, and once a minute elsewhere, how many crates are proved, and what is left.
show_how_far() {
  local crate rest left=0 spent text width=$((${COLUMNS:-80} - 1))
  if [ -t 2 ]; then rest=$SECONDS; else rest=$((SECONDS / 60)); fi
  [ "$rest" != "$shown" ] || return 0
  shown=$rest
  for crate in "${order[@]}"; do
    [ -z "${proved[$crate]-}" ] || continue
    spent=$((SECONDS - ${began[$crate]-SECONDS}))
    rest=$((chain[$crate] - (spent < seconds[$crate] ? spent : seconds[$crate])))
    [ "$rest" -le "$left" ] || left=$rest
  done
  # what is done took longer than the table has it: so will the rest
  spent=$((chain[${order[0]}] - left))
  [ "$spent" -lt 60 ] || [ "$SECONDS" -lt "$spent" ] || left=$((left * SECONDS / spent))
  text="$me: ${#proved[@]} of ${#order[@]} crates proved, $((SECONDS / 60)) min so far"
  text+=", about $(((left + 59) / 60)) left"
  if [ -t 2 ]; then
    text+=" (${!process[*]})"
    printf '\r%-*s' "$width" "${text:0:width}" >&2
  elif [ "$shown" != 0 ]; then
    echo "$text" >&2
  fi
}

is_ready() {
  local word
  for word in ${uses[$1]}; do
    [ -z "${uses[$word]+there}" ] || [ -n "${proved[$word]-}" ] || return 1
  done
}

# Gives the copy of a crate in the folder $1 what is built of it, without a second copy of its octets where that can be.
share_built() {
  local built=$top/crates/${1##*/}/out/rlib
  [ -e "$built" ] || return 0
  mkdir -p -- "$1/out"
  cp -rlp -- "$built" "$1/out/" 2>/dev/null || { rm -rf -- "$1/out/rlib" && cp -rp -- "$built" "$1/out/"; }
}

# Makes the folder $lanes/CRATE: copies of the crate and of those below it. rt holds the folders of all these for
# itself, so only in copies can two crates be proved side by side.
make_lane() {
  local crate part order=() lane=$lanes/$1
  mkdir -p -- "$lane"
  cp -p -- "$top/crates.txt" "$lane/"
  [ ! -e "$top/HANDLES" ] || cp -p -- "$top/HANDLES" "$lane/"
  # (rt wants a folder for each crate of crates.txt; those that take no part stay empty)
  for crate in "${!uses[@]}"; do
    mkdir -p -- "$lane/crates/$crate/src"
  done
  put_in_order "$1"
  for crate in "${order[@]}"; do
    for part in src specs proofs; do
      [ ! -e "$top/crates/$crate/$part" ] || cp -rp -- "$top/crates/$crate/$part" "$lane/crates/$crate/"
    done
    share_built "$lane/crates/$crate"
  done
}

# Puts what was built of a crate in its lane, or only what this pattern names of it, into its own folder, and removes
# the lane.
take_from_lane() {
  local part to=$top/crates/$1/out
  mkdir -p -- "$to"
  # shellcheck disable=SC2086
  for part in "$lanes/$1/crates/$1/out/"${2-*}; do
    [ -e "$part" ] || continue
    rm -rf -- "$to/${part##*/}"
    mv -- "$part" "$to/"
  done
  rm -rf -- "${lanes:?}/$1"
}

# A crate off the longest chain gives way to those on it, and is proved by fewer processes.
begin() {
  local verb=lib way=(nice) jobs=2
  [ ! -e "$top/crates/$1/src/main.rt" ] || verb=run
  [ -z "${is_longest[$1]-}" ] || way=() jobs=4
  make_lane "$1"
  # under -m it gets a group of processes of its own
  set -m
  (CDPATH='' cd -- "$lanes/$1/crates/$1" && exec "${way[@]}" rt "$verb" --jobs "$jobs") </dev/null >"$room/$1" 2>&1 &
  set +m
  process[$1]=$! began[$1]=$SECONDS
  place[$1]="crate ${#began[@]} of ${#order[@]}, $1"
  tell "${place[$1]}"
}

# Looks whether the crate's process has ended. It stops where the crate is not proved.
look_at() {
  ! kill -0 "${process[$1]}" 2>/dev/null || return 0
  wait "${process[$1]}" || {
    clear_line
    { grep -E 'error|not proved|no proof' "$room/$1" | head -n 10; tail -n 3 "$room/$1"; } >&2
    # what was proved of it serves the next check
    take_from_lane "$1" incremental
    stop 70 "$1 is not proved: rt check in crates/$1 says more"
  }
  unset "process[$1]"
  take_from_lane "$1"
  proved[$1]=yes
  tell "${place[$1]}, is proved, in $((SECONDS - began[$1])) s"
}

# Ends what was started, and leaves nothing that is not whole.
end_all() {
  local id crate tries=0
  trap '' HUP INT TERM
  for id in "${process[@]}"; do
    kill -TERM -- "-$id" 2>/dev/null || :
  done
  while [ "$tries" -lt 50 ] && for id in "${process[@]}"; do kill -0 -- "-$id" 2>/dev/null && break; done; do
    tries=$((tries + 1))
    sleep 0.1
  done
  for crate in "${!process[@]}"; do
    kill -KILL -- "-${process[$crate]}" 2>/dev/null || :
  done
  clear_line
  rm -rf -- "$room" "$lanes" "${rooms[@]}"
}

# Proves these crates and those below them, and builds these: side by side as far as processors and memory go, the
# longest chain first.
prove_and_build() {
  local crate most
  [ -w "$top" ] && [ -w "$top/crates" ] || stop 73 "$top cannot be written, so nothing can be built there"
  order=()
  put_in_order "$@"
  read_seconds
  most=$(side_by_side)
  room=$(mktemp -d)
  # (beside the crates, so that what is built is moved and never copied)
  lanes=$(mktemp -d "$top/.lanes.XXXXXX")
  touch "$room/began"
  SECONDS=0
  trap end_all EXIT
  trap 'exit 129' HUP
  trap 'exit 130' INT
  trap 'exit 143' TERM
  say "proving and building, which takes some 17 minutes, once"
  while [ "${#proved[@]}" -lt "${#order[@]}" ]; do
    for crate in "${order[@]}"; do
      if [ -n "${process[$crate]-}" ]; then
        look_at "$crate"
      elif [ -z "${proved[$crate]-}" ] && [ "${#process[@]}" -lt "$most" ] && is_ready "$crate"; then
        begin "$crate"
      fi
    done
    show_how_far
    sleep 0.2
  done
  # what is edited meanwhile is newer than the program
  for crate; do
    [ ! -e "$top/crates/$crate/out/$crate" ] || touch -r "$room/began" "$top/crates/$crate/out/$crate"
  done
  clear_line
  trap - EXIT HUP INT TERM
  rm -rf -- "$room" "$lanes"
}
