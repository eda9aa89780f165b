# Runs the program $me of the folder $top: that of dist/ where the sources stand as in dist/SOURCES; else one that was
# built here since they changed; else one that is proved and built now. It is read into a script that has set `top`, its
# name as `me`, and in `through` the command that a program is run by, if there is one.
#
# The way to the program of dist/ takes no more than bash and coreutils: no find, no awk, no rt.

# the last part of a pipe runs in this shell. (Process substitution takes /proc, which a bare chroot has not.)
shopt -s lastpipe
own=$top/crates/$me/out/$me

# as dist/ has it: x86_64-linux, say. Where this bash is for no Linux with glibc, the whole name, which dist/ never has.
system=${BASH_VERSINFO[5]}
[[ $system != *-linux-gnu ]] || system=${system%%-*}-linux
given=$top/dist/$system/$me
seen_file=$top/dist/.seen-$me
# of these files it was seen that they are as dist/SOURCES has them
well_file=$seen_file.well

# What stat says of a file; a change of it that keeps all this stays unseen (docs/team/dist.md says when that can be).
LOOK='%i %s %.Y %.Z'
# dist or own, the program to run; and why it is not that of dist/
chosen='' why=''

# Looks at these files, named from the top: a line for each that is there, with its name behind. It ends its shell, so
# it is called in one of its own.
look() {
  CDPATH='' cd -- "$top/" && exec stat --format="$LOOK %n" -- "$@" 2>/dev/null
}

# Sets `chosen` to what an earlier run chose, where nothing has changed since. The file has a line with what was chosen
# (dist or own), a line with the sum of what stat said of all that this rests on, and the names of that, each with a NUL.
recall() {
  local what='' sum=''
  {
    read -r what && read -r sum && [[ $what == @(dist|own) && $sum ]] && [ "$(sum_of_looks)" = "$sum" ] && chosen=$what
  } 2>/dev/null <"$seen_file"
}

# The sum of what stat says of the files whose names are on standard input. (xargs, which coreutils has not, takes names a
# few milliseconds faster than this shell does. b2sum starts faster than sha256sum, which loads a large library on some
# systems.)
sum_of_looks() {
  local names
  CDPATH='' cd -- "$top/" || return
  if command -v xargs >/dev/null; then
    xargs -0 stat --format="$LOOK" -- 2>/dev/null | exec b2sum
  else
    mapfile -t -d '' names
    stat --format="$LOOK" -- "${names[@]}" 2>/dev/null | exec b2sum
  fi
}

# Chooses the program of dist/ where it is made of these sources, or else the one built here where it is newer than
# they.
choose() {
  local names=(dist/SOURCES) found=() seen=()
  local -A is_well=()
  . "$top/tools/crates.bash"
  if sums_stand; then
    chosen=dist
    keep_seen
  else
    find_files "$me"
    names=(dist/SOURCES "${files[@]}" "${folders[@]}" "${own#"$top/"}")
    look "${names[@]}" | mapfile -t found || :
    ! is_newer || chosen=own
    keep_seen
  fi
}

# Whether each file of dist/SOURCES that this program is made of has the sum given there; if not, why. Of those that
# are as they were seen none is taken.
sums_stand() {
  local line name listed=(dist/SOURCES) changed=() order=()
  local -A is_listed=() is_seen=() is_below=()
  is_well[dist/SOURCES]=yes
  put_in_order "$me"
  for name in "${order[@]}"; do
    is_below[_$name]=yes
  done
  [ -r "$top/dist/SOURCES" ] || {
    why="there is no dist/SOURCES"
    return 1
  }
  while read -r line; do
    [[ $line != \#* ]] || continue
    name=${line#*  crates/}
    [[ $line == *"  crates.txt" || ${is_below[_${name%%/*}]-} ]] || continue
    is_listed[_$line]=yes
    listed+=("${line#*  }")
  done <"$top/dist/SOURCES"
  names=("${listed[@]}")
  look "${names[@]}" | mapfile -t found || :
  mapfile -t seen 2>/dev/null <"$well_file" || :
  for line in "${seen[@]}"; do
    is_seen[_$line]=yes
  done
  # where SOURCES itself changed, what was seen says nothing
  [[ ${is_seen[_${found[0]-}]-} ]] || is_seen=()
  for line in "${found[@]}"; do
    name=${line#* * * * }
    if [[ ${is_seen[_$line]-} ]]; then is_well[$name]=yes; else changed+=("$name"); fi
  done
  # (with no file named, sha256sum would read the script that is on standard input)
  (CDPATH='' cd -- "$top/" && exec sha256sum -- /dev/null "${changed[@]}" 2>/dev/null) |
    while read -r line; do
      [[ ! ${is_listed[_$line]-} ]] || is_well[${line#*  }]=yes
    done
  for name in "${listed[@]}"; do
    [[ ${is_well[$name]-} ]] || {
      why="$name is not as dist/SOURCES has it"
      return 1
    }
  done
}

# Keeps for the next run what was chosen and what has its sum, if the folder can be written. A file that changed in the
# last two seconds could change again and keep its times, so it is left out, and then there is no sum of all.
keep_seen() {
  local line rest name written sum='' looks=() before=$(($(printf '%(%s)T' -1) - 2))
  [ -w "$top/dist" ] || return 0
  seen=()
  for line in "${found[@]}"; do
    rest=${line#* * } written=${rest%%.*} rest=${rest#* } name=${rest#* }
    looks+=("${line%" $name"}")
    if [[ $written -ge $before || ${rest%%.*} -ge $before ]]; then
      sum=-
    elif [[ ${is_well[$name]-} ]]; then
      seen+=("$line")
    fi
  done
  [ -n "$sum" ] || sum=$(printf '%s\n' "${looks[@]}" | b2sum)
  keep "$well_file" printf '%s\n' "${seen[@]}"
  keep "$seen_file" write_seen
}

write_seen() {
  printf '%s\n' "$chosen" "$sum" && printf '%s\0' "${names[@]}"
}

# Writes a file anew by a command. None is half made: a new one takes the old one's place.
keep() {
  local file=$1 new=$1.$$
  shift
  trap 'rm -f -- "$new"; exit 130' HUP INT TERM
  { "$@" >"$new" && mv -f -- "$new" "$file"; } 2>/dev/null || rm -f -- "$new"
  trap - HUP INT TERM
}

# Whether the program built here is newer than all that it is made of, and than the folders, which a file's end changes.
is_newer() {
  local file
  [ -x "$own" ] || return 1
  for file in "${files[@]}" "${folders[@]}"; do
    [ ! "$top/$file" -nt "$own" ] || return 1
  done
}

# The program of dist/ is there and may not be run, as where an archive has dropped the modes of files.
stop_where_none_runs() {
  local it=dist/$system
  . "$top/tools/crates.bash"
  stop 69 "$it/$me may not be run here: chmod +x $it/* mends it (archives as ZIP drop that mode)"
}

# Where there is no rt, it says what to do.
stop_without_rt() {
  local there=("$top"/dist/*-*)
  case $why in
  "") why="there is no command rt, which proves and builds" ;;
  other) why="dist/ has the program for ${there[*]##*/}, and this is $system without rt: run it on such a machine" ;;
  *)
    why+=", and there is no rt to prove and build"
    [ ! -x "$given" ] || why+="; ${given#"$top/"} can be run as it is"
    ;;
  esac
  stop 69 "$why ($top/README.md, \"The toolchain\", says where it comes from)"
}

# Runs the program; after its version, the sum of what it is made of where it is the one of dist/.
run() {
  local program=$1 sum
  shift
  [ "$program" = "$given" ] && [ $# = 1 ] && [[ $1 == --version || $1 == -V ]] || exec "${through[@]}" "$program" "$@"
  "$program" "$@" || exit
  sum=$(sha256sum <"$top/dist/SOURCES")
  echo "dist/SOURCES ${sum%% *}"
  exit
}

# Runs it with these words; the word --build, first among them, has one proved and built here, whatever is there.
run_program() {
  if [ "${1-}" != --build ]; then
    recall || choose
    [ "$chosen" != own ] || run "$own" "$@"
    if [ "$chosen" = dist ]; then
      [ ! -x "$given" ] || run "$given" "$@"
      [ ! -f "$given" ] || stop_where_none_runs
      why=other
    fi
  else
    shift
  fi
  . "$top/tools/crates.bash"
  if [ "$why" = other ]; then
    find_files "$me"
    ! is_newer || run "$own" "$@"
  fi
  command -v rt >/dev/null || stop_without_rt
  prove_and_build "$me"
  run "$own" "$@"
}
