# What tools/test and the gate share: parts, which count what passes and fails. To be read by `.`, in bash.
#
# `room` is a folder that is gone at the end, and the one for the temporary files of all parts; `passed` and `failed` are
# the counts so far, `skipped` what was not tried, for want of something; `begun` of `parts` parts have begun.

passed=0 failed=0 skipped=() begun=0
# (short names, since the gate's room has that of tools/test in it, and a Chromium's socket a path of some 100 bytes)
room=$(mktemp -d "${TMPDIR:-/tmp}/adp.XXXXXX") || exit 1
mkdir "$room/t" && export TMPDIR=$room/t || exit 1
trap 'rm -rf "$room"' EXIT
trap 'exit 1' INT TERM HUP

# Says what a part tries, and how far all is.
heading() {
  printf '\n-- %s of %s, after %s s: %s: %s\n' $((begun += 1)) "$parts" $SECONDS "$1" "$2"
}

# Says that something is not tried, and why.
skip() {
  printf 'skipped: %s\n' "$1"
  skipped+=("$1")
}

# The first of these commands that is not there, in words; nothing where each is.
lacking() {
  local name
  for name; do
    if ! command -v "$name" >/dev/null; then
      echo "$name"
      return
    elif [ "$name" = python3 ] && ! python3 -c 'import sys; sys.exit(sys.version_info < (3, 10))' 2>/dev/null; then
      echo "python3 of version 3.10 or a later one"
      return
    fi
  done
}

# Adds what a part came to, by its status and what it wrote: its counts, which it tells in its last line with such. One
# that counts nothing counts as one, unless it says that it is skipped; and one that fails has at least one failure.
add() {
  local name=$1 status=$2 line counts=() is_skipped=
  while read -r line; do
    if [[ $line == skipped:* ]]; then
      skipped+=("${line#skipped: }") is_skipped=1
    elif [[ $line =~ ^([a-z]+:\ )?([0-9]+)\ passed,\ ([0-9]+)\ failed$ ]]; then
      counts=("${BASH_REMATCH[@]:2:2}")
    fi
  done <"$room/told"
  if [ ${#counts[@]} = 0 ]; then
    counts=(0 0)
    [ "$status" != 0 ] || [ -n "$is_skipped" ] || counts=(1 0)
  fi
  if [ "$status" != 0 ] && [ "${counts[1]}" = 0 ]; then
    counts[1]=1
    echo "FAILED: $name: status $status"
  fi
  passed=$((passed + counts[0])) failed=$((failed + counts[1]))
}

# Says what a part tries, runs it where each of these commands is there, shows what it writes, and counts:
# part NAME WHAT COMMANDS RUN..
part() {
  local name=$1 what=$2 missing
  missing=$(lacking $3)
  shift 3
  heading "$name" "$what"
  if [ -n "$missing" ]; then
    skip "$name, since there is no $missing"
    return
  fi
  "$@" 2>&1 </dev/null | tee "$room/told"
  add "$name" "${PIPESTATUS[0]}"
}

# Ends with the counts as the last line. Where nothing was tried, nothing is shown.
finish() {
  echo "$passed passed, $failed failed"
  [ $failed = 0 ] && [ $passed -gt 0 ]
  exit
}
