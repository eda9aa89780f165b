# Runs a program, and hands on what it says, with the name that the user gave in the place of the path of a file.
#
#   bash tools/say_name.bash PLAYER PATH NAME PROGRAM WORD ..   runs a program that reads a file at PATH; what PLAYER
#                                                               says of that on standard error is said of NAME
#
# It takes bash alone. The status is the program's.
set -u
player=$1 path=$2 name=$3
shift 3
{
  "$@" 2>&1 >&3 3>&- | while IFS= read -r line || [ "$line" ]; do
    [[ $line != "$player: "@(|-x )"$path: "* ]] || line=${line/"$path: "/"$name: "}
    printf '%s\n' "$line" >&2
  done 3>&-
  status=${PIPESTATUS[0]}
} 3>&1
exit "$status"
