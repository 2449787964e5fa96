# Sourced by the benches with the program as their first word: `program` and `here` are absolute paths, the working folder is new
# and on a tmpfs, and goes when the bench ends. Prints the machine and the date.
program=$(realpath "$1")
here=$(dirname "$(realpath "$0")")
folder=$(mktemp -d /dev/shm/metasync-bench.XXXXXX)
trap 'rm -rf "$folder"' EXIT
cd "$folder"
printf '%s, %s processors, %s\n' "$(sed -n 's/^model name[^:]*: //p' /proc/cpuinfo | head -n 1)" "$(nproc)" "$(date -u '+%Y-%m-%d %H:%M UTC')"

# want STATUS FILE command...: ends the bench where the command does not end with this status, prints anything but what is in the
# file, or says anything on standard error. FILE is `-` where its output is free.
want() {
  local status=$1 told=$2 ended=0
  shift 2
  "$@" >got 2>said || ended=$?
  if [ "$ended" != "$status" ] || [ -s said ] || { [ "$told" != - ] && ! cmp -s "$told" got; }; then
    echo "not as wanted, with status $ended: $*" >&2
    head -c 2000 got said >&2
    exit 1
  fi
}

# median STATUS command...: the median of five runs' wall time in milliseconds; each has to end with that status.
median() {
  local status=$1 times=() start end ended
  shift
  for _ in 1 2 3 4 5; do
    ended=0
    start=$(date +%s%N)
    "$@" >/dev/null || ended=$?
    end=$(date +%s%N)
    [ "$ended" = "$status" ] || {
      echo "status $ended: $*" >&2
      exit 1
    }
    times+=($(((end - start) / 1000)))
  done
  printf '%s\n' "${times[@]}" | sort -n | sed -n 3p | awk '{printf "%.2f", $1 / 1000}'
}

# ratio A B: A / B with one digit.
ratio() {
  awk -v a="$1" -v b="$2" 'BEGIN {printf "%.1f", a / b}'
}
