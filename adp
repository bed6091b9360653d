#!/bin/bash
# Runs the proved program on these arguments and on each file that they name. The program that stands in prebuilt/ is
# used where it was built from these very sources; else it is proved and built first, which is told on standard error.
# `--help` says the rest.
set -u -o pipefail
CDPATH='' LC_ALL=C
export LC_ALL
self=${BASH_SOURCE[0]}
most_bytes=4194304
# (raised with each format that the program reads)
version=1.3
formats='adp 1, adp 2, adp 3'

help() {
  local usage
  read -r -d '' usage <<'TEXT'
adp: the best score of a word under a tree grammar, and the first tree that has it

usage: adp MODE [OPTION VALUE].. [--explain] [FILE]..

modes
  best               the report of each word of the job, by evaluators that share one table
  serial             the same bytes, by one sweep over each word: most often the quickest, in the least memory
  wins               as best, and behind each report how many answers each evaluator put into the table
  replay             as wins, with evaluators that are stepped one by one, in the order of a schedule
  lex                the best by one algebra and, among equals, by a second one; as best, with both scores; of jobs in
                     the format adp 1 alone
  kbest              the first trees of each word in the order of preference, as many as --best says, with their scores
  cert               a certificate: every cell that an answer may depend on with its score, and behind them the job, so
                     that whoever gets it can check it line by line
  verify             reads a certificate with its job, checks each line by its neighbours, and writes the score of each
                     word
  big                a word that is made from seed and size: its size, best score and cells; reads no job

options, in any order, each at most once
  --algebra NAME     the algebra that scores; the first of the job where none is named; not of big
  --then NAME        the algebra that decides among equals; of lex, which needs it
  --workers N        how many evaluators, 1 to 32; 1 where nothing is said; not of kbest and verify
  --seed N           the seed of their visiting orders, and of the word of big, below 2^64; 0 where nothing is said; not
                     of kbest and verify
  --schedule S       who makes each step: 1 to 4096 characters, 0 to 9 and a to v for the evaluators 0 to 31; at its end
                     evaluator 0 goes on alone; of replay, which needs it
  --best N           how many trees of each word are listed, 1 to 64; of kbest, which needs it
  --size N           how many letters are made, 1 to 2046; of big, which needs it

Each FILE is a job, or a certificate of one for verify, run in its turn; `-`, or no file, is standard input. big reads
no job. Of several files standard error has the name of each before its run. The status is that of the first run that
did not end with 0; after a faulty command or a failed output no further file is run.

of the launcher
  --words FILE       more words, a line each, behind those of each job; `-` is standard input; not of verify
  --only-words FILE  the same, but in the place of those of each job
  --certificates DIR puts a certificate for each word into this folder, as 00001.cert; of cert, and of one job
  --time-limit S     ends each run after S seconds, with status 124 and a line that says at which word it was
  --explain          tells behind a fault's line, and of words without a tree, what is wrong, where, and what to do
  --quiet            no line on standard error where no word has a tree, or a certificate is too long for verify
  --version, -V      what stands here: version, formats, the number of its sources, and the toolchain that built it
  --help, -h         this text

status
  0 done   2 faulty command   3 input failed   4 output failed   5 faulty text   6 faulty grammar   7 a limit is passed
  8 no memory   10 a false line of a certificate   1 the program could not be built or found   124 the time limit came

Each fault is one line on standard error: docs/FAULTS.md has them all, with the mend; of a faulty command and of input
that cannot be read a line `adp: ..` behind it says the cause. A reader that ends early, as head, is a failed output. On
a terminal a run of more than two seconds shows there at which word it is, and for how long it has run.

How to write a job: docs/GUIDE.md, and exactly: docs/FORMAT.md. Jobs to begin with: jobs/, as ./adp best jobs/bar.adp
Reports as JSON, trees, DOT or SVG: tools/report. A page that draws them: tools/view.html, opened in a browser.
Words from a CSV table, and reports as one: tools/table. Words without end: tools/spread.
The longest word that a job admits: tools/longest. Words from FASTA files: tools/fasta. From Python: tools/adp.py.
A second opinion on a certificate, without this program: tools/check-certificate.
All of this as a page: man -l docs/adp.1
TEXT
  printf '%s\n' "$usage"
}

say() {
  printf 'adp: %s\n' "$1" >&2
}

# Ends with a line that says why, before any program was run.
fail() {
  say "$1"
  exit 1
}

# ---- Which program: prebuilt/adp, or the one that was built here

# Ends where one of these commands is not there.
need() {
  local name
  for name; do
    command -v "$name" >/dev/null || fail "the command '$name' is needed, and is not on the PATH"
  done
}

# The crates that the program is built from: `adp` and all that it stands on.
crates() {
  awk '
    { sub(/#.*/, ""); sub(/:/, " ") }
    NF { name = $1; $1 = ""; below[name] = $0 }
    END {
      queue[count = 1] = "adp"
      for (at = 1; at <= count; at++) {
        if (!(queue[at] in below) || is_told[queue[at]]++) continue
        print queue[at]
        others = split(below[queue[at]], names, " ")
        for (i = 1; i <= others; i++) queue[++count] = names[i]
      }
    }' "$top/crates.txt"
}

# The checksum of each file that the program is proved and built from: crates.txt, and the code, the definitions and the
# proofs of these crates. What else lies about, as an editor's files, does not count. The roots are on standard input.
checksums() {
  local given
  mapfile -t given
  (
    cd -- "$top" || exit
    [ ${#given[@]} -gt 1 ] || exit
    find "${given[@]}" -path 'crates/*/out' -prune -o -type f \
      \( -name '*.rt' -o -name '*.antt' -o -name crates.txt \) -print0 | sort -z | xargs -0 sha256sum
  )
}

roots() {
  local names
  names=$(crates) || return
  printf 'crates.txt\n'
  printf 'crates/%s\n' ${names//$'\n'/ }
}

# One number for all of these files.
sources() {
  roots | checksums | sha256sum | cut -d ' ' -f 1
}

checksum() {
  sha256sum <"$1" | cut -d ' ' -f 1
}

# Where the last check's findings may stand, the better place first; paths are absolute, or below the checkout.
stamps() {
  local home=${XDG_CACHE_HOME:-${HOME:+$HOME/.cache}} whole
  echo prebuilt/checked
  whole=$(cd -- "$top" && pwd -P) && [ -n "$home" ] && echo "$home/adp/${whole//\//%}"
}

# Walks over these files and folders of the checkout, and does this with each that decides which program is used.
walk() {
  # (they stand in one line, and no name has a space)
  local roots=$1
  shift
  cd -- "$top" && exec find . $roots -path . -prune "$@" -o -path 'crates/*/out' -prune -o "$@"
}

# Finds the program by a stamp, where nothing was changed since: `program` is its path then. The time of a stamp is that
# of the last change which the check saw. Each later change, of a file's rights or by a move too, gives a file or a
# folder a later time, which no command can set back.
find_checked() {
  local stamp told path roots machine
  for stamp in prebuilt/checked ''; do
    [ -n "$stamp" ] || stamp=$(stamps | sed 1d)
    { read -r machine && read -r path && read -r roots; } 2>/dev/null <"${stamp/#prebuilt/$top/prebuilt}" || continue
    [ "$machine" = "$MACHTYPE" ] || continue
    case $path in prebuilt/adp | crates/adp/out/adp) ;; *) continue ;; esac
    told=$(walk "$roots" -cnewer "$stamp" -print -quit 2>&1) && [ -z "$told" ] || continue
    program=$top/$path
    return
  done
  return 1
}

# The time of the last change of what these roots hold.
last_change() {
  (walk "$1" -printf '%C@\n') | sort -nr | sed -n 1p
}

# Leaves a stamp: that this program may be run as long as the last change is this one. What was changed a moment ago
# could be changed again without a trace, so nothing is left then.
leave_stamp() {
  local path=$1 roots=$2 last=$3 stamp
  [ "${last%.*}" -lt $((EPOCHSECONDS - 1)) ] || return 0
  while read -r stamp; do
    case $stamp in /*) mkdir -p -- "${stamp%/*}" 2>/dev/null ;; esac
    stamp=${stamp/#prebuilt/$top/prebuilt}
    { printf '%s\n' "$MACHTYPE" "$path" "$roots" >"$stamp.$$"; } 2>/dev/null &&
      touch -d "@$last" "$stamp.$$" && mv -f -- "$stamp.$$" "$stamp" && return
    rm -f -- "$stamp.$$" 2>/dev/null
  done < <(stamps)
  return 0
}

# Whether a program stands here that was built from the sources of this number, which its file of sources tells in
# line 1, and its own checksum in line 3.
is_built() {
  local told wanted=$2
  mapfile -t told 2>/dev/null <"$top/${1%/*}/sources" || return
  [ -x "$top/$1" ] && [ "${told[0]-}" = "$wanted" ] && [ "${told[2]-}" = "checksum $(checksum "$top/$1")" ]
}

# Which source files are others than those that prebuilt/adp was built from: the first, and how many there are besides.
changed_sources() {
  [ -r "$top/prebuilt/files" ] || { echo "a source was changed since prebuilt/adp was built"; return; }
  cut -c 1-8,65- <<<"$1" | awk '
    NR == FNR { told[$2] = $1; next }
    !($2 in told) { note($2 " is new") }
    $2 in told && told[$2] != $1 { note($2 " was changed") }
    { delete told[$2] }
    function note(what) { if (!count++) first = what }
    END {
      for (name in told) note(name " is gone")
      print first " since prebuilt/adp was built" (count > 1 ? " (as were " count - 1 " more files)" : "")
    }' "$top/prebuilt/files" -
}

# Why prebuilt/adp can't be used, in words, for sources of these checksums and this number.
why_not_prebuilt() {
  local told=() system machine
  read -r system machine < <(uname -sm)
  if [ "$system" != Linux ]; then
    echo "prebuilt/adp is for Linux, and this is $system"
  elif [ "$machine" != x86_64 ]; then
    echo "prebuilt/adp is for processors of x86-64, and this one is $machine"
  elif [ ! -f "$top/prebuilt/adp" ] || [ ! -r "$top/prebuilt/sources" ]; then
    echo "prebuilt/ has no program with its sources' number"
  else
    mapfile -t told <"$top/prebuilt/sources"
    if [ "${told[2]-}" != "checksum $(checksum "$top/prebuilt/adp")" ]; then
      echo "prebuilt/adp is cut off or exchanged: its checksum is not the one in prebuilt/sources"
    elif [ ! -x "$top/prebuilt/adp" ]; then
      echo "prebuilt/adp is not executable (chmod +x prebuilt/adp mends that)"
    elif [ -n "$2" ] && [ "${told[0]}" != "$2" ]; then
      changed_sources "$1"
    fi
  fi
}

# Tells on standard error which crate is at hand, until the build ends: on a terminal in one line that changes.
watch() {
  local log=$1 pid=$2 start=$SECONDS of finished at
  [ -t 2 ] || return
  of=$(crates | wc -l)
  while kill -0 "$pid" 2>/dev/null; do
    finished=$(grep -cE '^logic=proved' "$log")
    at=$(grep -oE '^(fn|impl|crate) [a-z_]+' "$log" | tail -n 1 | cut -d ' ' -f 2)
    printf '\radp: proving and building, once: crate %-16s %d of %d done, %d s ' \
      "${at:-adp_io}" "$finished" "$of" $((SECONDS - start)) >&2
    sleep 2
  done
  printf '\n' >&2
}

# Proves and builds the program from the sources of this number, and says why first.
build() {
  local sum=$1 why=$2 before='' log job built=$top/crates/adp/out/adp
  case $why in *since\ prebuilt/adp*) before="; as it was before that, $top/prebuilt/adp can be run by itself" ;; esac
  command -v rt >/dev/null ||
    fail "$why, so the program has to be built, and 'rt' of the Rattle toolchain is not on the PATH$before"
  need grep tail wc
  say "$why"
  say "so the program is proved and built now, once: this takes 20 to 40 minutes$before"
  make_file || return 1
  log=$made
  # The build ends by a run of the program; what that run prints is of no use here. It has a process group of its own,
  # so that all of it can be ended.
  set -m
  (cd -- "$top/crates/adp" && exec rt run -- usage) >"$log" 2>&1 </dev/null &
  job=$!
  set +m
  trap 'kill -- -"$job" 2>/dev/null; echo >&2; exit 1' INT TERM HUP
  watch "$log" "$job"
  wait "$job"
  trap - INT TERM HUP
  if [ -x "$built" ] && grep -q '^rt: running out/adp' "$log"; then
    printf '%s\nbuilt here\nchecksum %s\n' "$sum" "$(checksum "$built")" >"${built%/*}/sources"
    close_copies
    return 0
  fi
  tail -n 20 "$log" >&2
  return 1
}

# Finds the program by reading all that it depends on: sets `program`. Where it has to be built it is, unless the
# argument is `look`: then `why` says why.
find_program() {
  local listed='' sum='' names=() folders='' last path=prebuilt/adp
  need awk cut find mv rm sed sha256sum sort touch uname xargs
  if [ -d "$top/crates" ]; then
    mapfile -t names < <(roots)
    [ ${#names[@]} -gt 1 ] || fail "$top/crates.txt does not tell what the program is built from"
    folders=${names[*]}
    last=$(last_change "$folders $path prebuilt/sources" 2>/dev/null) || last=
    listed=$(checksums < <(roots)) && sum=$(sha256sum <<<"$listed" | cut -d ' ' -f 1)
    [ -n "$sum" ] || fail "the sources in $top/crates cannot be read"
  elif [ -f "$top/prebuilt/adp" ]; then
    last=$(last_change "$path prebuilt/sources") || last=
  else
    fail "neither prebuilt/ nor crates/ stands beside $self: run it in its checkout, or install it by tools/install"
  fi
  why=$(why_not_prebuilt "$listed" "$sum")
  if [ -n "$why" ]; then
    path=crates/adp/out/adp
    [ -n "$sum" ] || fail "$why"
    if ! is_built "$path" "$sum"; then
      [ "${1-}" != look ] || return 1
      build "$sum" "$why" || fail "the program could not be built"
    fi
    last=$(last_change "$folders $path ${path%/*}/sources") || last=
  fi
  program=$top/$path
  folders="$folders $path ${path%/*}/sources"
  if [ -n "$last" ] && [ "$last" = "$(last_change "$folders")" ]; then
    leave_stamp "$path" "$folders" "$last"
  fi
}

# ---- What is asked: the words of the program, the files, and the launcher's own options

# Whether this is one of the launcher's options that have a value, and the value one of its own. What is none of these
# goes to the program, which refuses it.
takes() {
  case $1 in
    --words | --only-words)
      case $mode in big | verify) return 1 ;; esac
      [ -z "$words_file" ] && { [ "$2" = - ] || [ -e "$2" ]; } && ! is_job "$2"
      ;;
    --certificates) [ "$mode" = cert ] && [ -z "$folder" ] && [ -n "$2" ] ;;
    --time-limit) [ -z "$time_limit" ] && [[ $2 =~ ^[0-9]{1,9}(\.[0-9]{1,6})?$ ]] && [[ $2 == *[1-9]* ]] ;;
    *) false ;;
  esac
}

# Whether a file begins as a job does. (What is no file can be read only once.)
is_job() {
  local line=''
  [ ! -f "$1" ] || { IFS= read -r line <"$1"; } 2>/dev/null
  [[ ${line%$'\r'} =~ ^adp\ [0-9]+$ ]]
}

# Sorts the arguments: `words` are those of the program, `files` the jobs. Each option but --explain and --quiet has a
# value.
sort_arguments() {
  local word option=''
  for word; do
    if [ -n "$option" ]; then
      if ! takes "$option" "$word"; then
        words+=("$option" "$word")
      else
        case $option in
          --words) words_file=$word ;;
          --only-words) words_file=$word replaces=1 ;;
          --certificates) folder=$word ;;
          --time-limit) time_limit=$word ;;
        esac
      fi
      option=
    elif [ "$word" = --explain ]; then
      explains=1
    elif [ "$word" = --quiet ]; then
      is_quiet=1
    elif [ "${word#--}" != "$word" ] && [ -n "$mode" ]; then
      option=$word
    elif [ -z "$mode" ]; then
      words+=("$word") mode=$word
    elif [ "$mode" != big ] && { [ "$word" = - ] || [ -e "$word" ]; }; then
      files+=("$word")
    else
      words+=("$word")
    fi
  done
  [ -z "$option" ] || words+=("$option")
  if [ ${#files[@]} = 0 ]; then files=(-); fi
  # (one text is no job and its words, and a folder has the certificates of one job)
  if [ "$words_file" = - ] && is_among - "${files[@]}"; then words+=(--words -); fi
  if [ -n "$folder" ] && [ ${#files[@]} != 1 ]; then words+=(--certificates "$folder"); fi
}

is_among() {
  local one=$1 other
  shift
  for other; do [ "$one" != "$other" ] || return 0; done
  return 1
}

# Whether the words make a command that reads a job; where they make none `fault` is what the program says of it. (What
# `big` is asked for is seen by its run.)
takes_input() {
  [ "$mode" != big ] || return
  fault=$("$program" "${words[@]}" 2>&1 >/dev/null </dev/null)
  [ $? != 2 ]
}

# ---- Input: `input` is what the run reads, `job` a file with the same bytes, where there is one

# A file without a name, which is gone when nothing has it open, however the launcher ends: sets `made`.
make_file() {
  local name file
  name=$(mktemp 2>/dev/null) || return
  { exec {file}<>"$name"; } 2>/dev/null || return
  rm -f -- "$name"
  made=/proc/self/fd/$file
  copies+=("$file")
}

# Lets go of the files of a run.
close_copies() {
  local file
  for file in ${copies[@]+"${copies[@]}"}; do exec {file}>&-; done
  copies=()
}

# Why this cannot be read, in words; nothing where it can.
why_not_read() {
  if [ -d "$1" ]; then
    echo "is a folder"
  elif [ ! -r "$1" ]; then
    echo "may not be read"
  fi
}

why_not_input() {
  if [ -d /dev/fd/0 ]; then
    echo "standard input is a folder"
  else
    echo "standard input is closed, or cannot be read"
  fi
}

say_that_it_waits() {
  if [ -t 0 ] && [ -t 2 ]; then
    say "waiting for $1: type or paste it, and end it by Ctrl-D (adp --help says more)"
  fi
}

# Opens a job; what may not be read is opened as a folder, whose reading fails just so. A job that is looked at again,
# and comes from elsewhere than a file, is kept in one, which has one byte more than a job may have at most.
open_job() {
  local name=$1
  job='' front='' cause='' input=0
  if [ "$name" = - ]; then
    [ "$mode" = big ] || say_that_it_waits "a job"
  else
    cause=$(why_not_read "$name")
    [ -z "$cause" ] || cause="\`$name\` $cause"
    if [ -n "$cause" ]; then name=/; elif [ -f "$name" ]; then job=$name; fi
    { exec {input}<"$name"; } 2>/dev/null || { exec {input}</ && cause="\`$name\` cannot be opened"; }
  fi
  if [ -n "$words_file" ] && [ -z "$cause" ]; then
    put_words
  elif [ -n "$explains$folder" ] && [ -z "$job$cause" ] && [ "$mode" != big ]; then
    keep_input
  fi
}

# Opens a file in the place of what the run reads so far.
reopen() {
  [ "$input" = 0 ] || exec {input}<&-
  exec {input}<"$1"
}

# The folder of certificates, which is made, or empty.
make_folder() {
  local why=''
  if ! mkdir -p -- "$folder" 2>/dev/null; then
    why="cannot be made"
  elif [ -n "$(find "$folder/" -mindepth 1 -print -quit)" ]; then
    why="is not empty"
  fi
  [ -z "$why" ] || { say "\`$folder\` $why"; exit 4; }
}

# Puts what comes from here into a file, up to one byte more than a job may have. Fails where it cannot be read. (While
# it waits the launcher can be ended.)
keep() {
  local ended
  need head
  head -c $((most_bytes + 1)) <&"$1" >"$2" 2>/dev/null &
  child=$!
  wait "$child"
  ended=$?
  child=
  return "$ended"
}

keep_input() {
  if ! make_file; then
    [ -z "$folder" ] || fail "no file can be made in ${TMPDIR:-/tmp}"
    say "no file can be made in ${TMPDIR:-/tmp}, so lines of the job are not shown"
  elif keep "$input" "$made"; then
    job=$made
    reopen "$made"
  else
    cause=$(why_not_input)
  fi
}

# Puts the words of --words behind the job, in a file, or those of --only-words in the place of its own: `front` is the
# number of lines before them. A job without the line `words` gets none, and is refused for that alone.
put_words() {
  local last
  need awk head tail wc
  if [ "$words_file" != - ]; then
    cause=$(why_not_read "$words_file")
    if [ -n "$cause" ]; then cause="\`$words_file\` $cause"; reopen /; return; fi
  elif [ -z "$words_copy" ]; then
    make_file || fail "no file can be made in ${TMPDIR:-/tmp}"
    words_copy=$made copies=()
    say_that_it_waits "a text of words"
    keep 0 "$words_copy" || { cause=$(why_not_input); reopen /; return; }
  fi
  make_file || fail "no file can be made in ${TMPDIR:-/tmp}"
  job=$made
  keep "$input" "$job" || { cause=$(why_not_input); reopen /; return; }
  last=$(words_line)
  if [ -n "$last" ]; then
    if [ -n "$replaces" ]; then
      make_file || fail "no file can be made in ${TMPDIR:-/tmp}"
      head -n "$last" "$job" >"$made"
      job=$made
    fi
    # (the last line may have no end)
    if [ "$(tail -c 1 "$job" | wc -l)" = 0 ]; then echo >>"$job"; fi
    front=$(wc -l <"$job")
    head -c $((most_bytes + 1)) -- "${words_copy:-$words_file}" >>"$job"
  fi
  reopen "$job"
}

# The number of the line behind which the words of the job stand.
words_line() {
  awk 'NR > 1 && /^ *words *\r?$/ { print NR; exit }' "$job"
}

# How many words the job has; nothing where that is not known.
count_words() {
  [ -z "$job" ] || awk 'is_there { count++ } NR > 1 && /^ *words *\r?$/ { is_there = 1 } END { print count + 0 }' "$job"
}

# ---- Runs

# Ends with the program, and by the same signal.
end_by() {
  trap '' INT TERM HUP
  [ -z "$child" ] || kill "$child" 2>/dev/null
  wipe
  trap - "$1"
  kill -s "$1" $$
}

# Microseconds, from any beginning on.
now() {
  local time=${EPOCHREALTIME-}
  if [ -n "$time" ]; then time=${time/[.,]/}; else time=$((SECONDS * 1000000)); fi
  moment=$time
}

wipe() {
  [ "$shown" = 0 ] || printf '\r%*s\r' "$shown" '' >&2
  shown=0
}

# Shows at which word a run is and how long it takes already; the cursor stands before it.
show_progress() {
  local text="$1 s"
  if [ "$mode" != big ]; then
    [ -n "$all_words" ] || all_words=$(count_words)
    find_finished
    text="$(place_of $((finished + 1))), $text"
  fi
  [ ${#text} -ge "$shown" ] || wipe
  printf '%s\r' "$text" >&2
  shown=${#text}
}

place_of() {
  if [ -z "$all_words" ]; then
    echo "word $1"
  elif [ "$1" -le "$all_words" ]; then
    echo "word $1 of $all_words"
  else
    echo "word $all_words of $all_words"
  fi
}

# Waits for the end of a run: of the lines that the program writes, where these come here, to be passed on to a terminal
# that shows progress too. The run is ended where its time is up.
follow() {
  local line start last=1 seconds pause=1 ended
  now
  start=$moment
  while :; do
    line=
    IFS= read -r -t "$pause" -u "$lines" line
    ended=$?
    [ -z "$line" ] || wipe
    if [ $ended = 0 ]; then
      printf '%s\n' "$line"
      # (what else is there already goes on as one block)
      ! read -t 0 -u "$lines" || dd bs=65536 count=1 status=none <&"$lines"
    else
      printf '%s' "$line"
      [ $ended -gt 128 ] || break
    fi
    now
    if [ -n "$time_limit" ] && [ -z "$is_late" ]; then
      if [ $((moment - start)) -ge "$limit" ]; then
        is_late=1
        kill "$child" 2>/dev/null
      elif [ $((limit - moment + start)) -lt 1000000 ]; then
        printf -v pause '0.%06d' $((limit - moment + start))
      fi
    fi
    seconds=$(((moment - start) / 1000000))
    if [ "$seconds" -gt "$last" ] && [ -n "$shows" ]; then
      last=$seconds
      show_progress "$seconds"
    fi
  done
  wipe
}

# Lets what the program writes pass on to file 9, and to a command that looks at it; a certificate for each word goes to
# its folder instead.
relay() {
  local ended
  if [ -n "$folder" ]; then
    part_certificates
    return
  fi
  tee /dev/fd/8 8>&1 >&9 9>&- 2>/dev/null | look 9>&-
  ended=${PIPESTATUS[0]}
  return "$ended"
}

# Writes to the file `counts` the lines that tell how far a run is, where that is followed; at the end how many bytes a
# certificate has, or that there are words and none has a tree.
look() {
  if [ "$mode" = cert ]; then
    awk -v follows="$follows" '
      follows && /^word [0-9]+ cells [0-9]+$/ { print; fflush() }
      { bytes += length($0) + 1 }
      END { print "bytes", bytes + 0 }' >"$counts"
  elif [ -n "$follows" ]; then
    grep --line-buffered -aE '^(word [0-9]+( cells [0-9]+)?|none|listed 0)$' >"$counts"
  else
    awk '/^score / { is_there = 1 } END { if (NR && !is_there) print "none" }' >"$counts"
  fi
}

# Writes each block of a certificate with its word, and the job up to its words, into a file of the folder.
part_certificates() {
  ADP_FOLDER=$folder ADP_JOB=$job awk '
    BEGIN {
      folder = ENVIRON["ADP_FOLDER"]
      job = ENVIRON["ADP_JOB"]
      while ((getline line < job) > 0) {
        header = header line "\n"
        if (++lines > 1 && line ~ /^ *words *\r?$/) break
      }
    }
    is_job || NR == 1 { next }
    $0 == "job" { end_block(); is_job = 1; next }
    /^word [0-9]+ cells [0-9]+$/ {
      print
      fflush()
      end_block()
      path = sprintf("%s/%05d.cert", folder, $2)
      printf "cert\nword 1 cells %s\n", $4 >path
      next
    }
    { print >path }
    function end_block() {
      if (path == "") return
      line = ""
      getline line < job
      printf "job\n%s%s\n", header, line >path
      if (close(path)) exit 1
    }' >"$counts"
}

# Starts the relay: `output` leads to it, and `lines` has what comes back, and an end when all is done.
start_relay() {
  if [ -n "$follows" ]; then
    counts=/dev/null
    make_file && counts=$made
    if [ -t 2 ] && [ ! -t "$input" ]; then shows=1; fi
  fi
  exec {screen}>&1
  if [ -n "$shows" ] && [ -t 1 ]; then
    coproc passing { relay 9>&1; }
  else
    coproc passing { relay 9>&"$screen"; }
  fi
  passer=$passing_PID
  exec {lines}<&"${passing[0]}" {output}>&"${passing[1]}" {screen}>&-
  exec {passing[0]}<&- {passing[1]}>&-
}

# The last word with a report.
find_finished() {
  finished=$(tail -n 2 "$counts" | awk '/^word/ { last = $2 } END { print last + 0 }')
}

# Has the C library keep what is freed, since the next group of words takes as much again, and ask for large pages, in
# which a large table is worked at faster, where the system gives them to those who ask. Settings of that library that
# the caller has stand as they are.
tune_memory() {
  local pages
  [ -z "${GLIBC_TUNABLES+set}" ] || return 0
  export GLIBC_TUNABLES=glibc.malloc.trim_threshold=1073741824:glibc.malloc.mmap_threshold=33554432
  { read -r pages </sys/kernel/mm/transparent_hugepage/enabled; } 2>/dev/null || return 0
  case $pages in *'[madvise]'*) GLIBC_TUNABLES+=:glibc.malloc.hugetlb=1 ;; esac
}

# Runs the program over `input`: `fault` is then what it wrote on standard error, `status` how it ended, `finished` the
# last word with a report, `treeless` are the first words without a tree, of which there are `treeless_count`, and
# `remark` is what was seen at the end of the output.
run() {
  local output=1 faults lines line screen passer='' is_cut='' is_late='' shows='' all_words='' counts=/dev/stdout
  finished=0 treeless='' treeless_count=0 fault='' remark=''
  # (a pipe holds what is written before it is read, which is a line)
  exec {faults}<> <(:)
  [ -z "$follows$looks" ] || start_relay
  ${guard[@]+"${guard[@]}"} "$program" ${words[@]+"${words[@]}"} <&"$input" >&"$output" 2>&"$faults" &
  child=$!
  if [ -n "$follows" ]; then
    exec {output}>&-
    follow
    exec {lines}<&-
    wait "$passer" 2>/dev/null || is_cut=1
    find_finished
    # (a certificate ends with the words of its job)
    [ "$mode" = cert ] || read -r treeless_count treeless < <(awk '
      $1 != "word" && ++count <= 20 { these = these " " last }
      { last = $2 }
      END { print count + 0 these }' "$counts")
    if [ "$mode" = cert ]; then
      remark=$(tail -n 1 "$counts")
    elif [ "$finished" != 0 ] && [ "$finished" = "$treeless_count" ]; then
      remark=none
    fi
  fi
  wait "$child" 2>/dev/null
  status=$?
  child=
  if [ -n "$looks" ]; then
    exec {output}>&-
    wait "$passer" 2>/dev/null || is_cut=1
    while read -r -u "$lines" line; do remark=$line; done
    exec {lines}<&-
  fi
  printf '\nend\n' >&"$faults"
  while read -r -u "$faults" line && [ "$line" != end ]; do fault+=${fault:+${line:+$'\n'}}$line; done
  exec {faults}>&-
  if [ -n "$is_late" ]; then
    status=124 fault=
  elif [ -n "$is_cut" ] && [ "$status" = 0 ]; then
    status=4 fault="fault write"
  fi
}

# Which words of the job this is, for whoever reads a number behind the words of the job itself.
place_in_words() {
  local number=$1 name=$words_file
  [ "$name" != - ] || name="standard input"
  [ "$number" -le 0 ] || say "that is line $number of $name"
}

# Says behind a fault's line what it lacks for those who know no more than the command.
say_cause() {
  case $fault in
    "fault usage") brief=1 explain "$1" ;;
    "fault read") [ -z "$cause" ] || say "$cause" ;;
    "fault text line "*)
      set -- $fault
      [ -z "$front" ] || place_in_words $(($4 - front))
      ;;
    "fault limit word "*)
      set -- $fault
      [ -z "$front" ] || place_in_words $(($4 - (front - $(words_line))))
      ;;
  esac
  tell_sort
  if [ -t 2 ] && [ -z "$cause" ]; then
    case $fault in
      "fault text line "* | "fault grammar "* | "fault limit "* | "fault certificate "*)
        say "--explain says what is wrong, and what to do"
        ;;
    esac
  fi
}

# Says of a text that is no job what it is, where it is one of those that the program writes.
tell_sort() {
  local line=''
  [ "$fault" = "fault text line 1 kind 1" ] && [ -n "$job" ] && [ "$mode" != verify ] || return
  IFS= read -r line <"$job"
  case ${line%$'\r'} in
    cert) say "this is a certificate: adp verify FILE checks it" ;;
    "word "[0-9]*) say "this is a report, and no job: tools/view.html and tools/report show it" ;;
  esac
}

# Says what was seen of an output that is right: that no word has a tree, or that a certificate is too long.
say_remark() {
  case $remark in
    none) say "no word has a tree (--explain says why)" ;;
    bytes\ *)
      [ "${remark#bytes }" -le $most_bytes ] || say "the certificate has ${remark#bytes } bytes, and verify reads \
$most_bytes: --certificates DIR writes one for each word"
      ;;
  esac
}

# Explains a fault, or words without a tree; a faulty command in one line where it is to be brief. A command and its
# cause are known; of a job what its text tells.
explain() {
  local colour='' name=$1 job=$job reason=''
  need awk
  case $mode$fault in
    "verifyfault certificate "*) reason=$(why_false) ;;
    verify*) part_job ;;
  esac
  [ -t 2 ] && [ -z "${NO_COLOR-}" ] && [ "${TERM-dumb}" != dumb ] && colour=1
  (
    export ADP_FAULT=${fault##*$'\n'} ADP_JOB=$job ADP_NAME=$name ADP_COLOUR=$colour ADP_GUIDE=$top/docs/FAULTS.md
    export ADP_COMMAND=$command ADP_BRIEF=$brief ADP_CAUSE=$cause ADP_WORDS=$words_file ADP_FRONT=$front
    export ADP_TREELESS="$treeless_count $treeless" ADP_REASON=$reason ADP_LONGEST
    ADP_LONGEST=$(longest)
    exec awk -f "$top/tools/explain.awk" -- ${words[@]+"${words[@]}"} >&2
  ) &
  child=$!
  wait "$child"
  child=
}

# Why a line of a certificate is false, where Python is there to tell.
why_false() {
  local words=("${words[@]:1}")
  [ -n "$job" ] && python3 "$top/tools/check-certificate" --explain "${words[@]}" "$job" 2>&1 >/dev/null | sed 1,2d
}

# The job behind a certificate, whose lines a fault counts.
part_job() {
  [ "$name" != - ] || name="standard input"
  name="the job of $name"
  [ -z "$job" ] || { make_file && awk 'is_there; /^job\r?$/ { is_there = 1 }' "$job" >"$made" && job=$made; }
}

# The length up to which this job admits words, where one passes a limit that depends on it.
longest() {
  local asked=${words[0]-}
  # (a certificate's job is admitted as any is)
  [ "$asked" != verify ] || asked=best
  case $fault in
    "fault limit "*" kind "[2-9]" "*)
      ADP=$program "$top/tools/longest" "$job" "$asked" "${words[@]:1}" 2>/dev/null
      ;;
  esac
}

# Runs the program over a file, or over standard input, and says what is to be said behind it.
run_file() {
  [ ${#files[@]} = 1 ] || say "$1:"
  open_job "$1"
  run
  [ "$input" = 0 ] || exec {input}<&-
  [ -z "$fault" ] || printf '%s\n' "$fault" >&2
  if [ "$status" = 124 ]; then
    say_late "$1"
  elif [ -n "$explains" ] && [ -n "$fault$treeless" ]; then
    explain "$1"
  elif [ -n "$fault" ]; then
    say_cause "$1"
  elif [ "$status" -gt 128 ]; then
    say "the program was ended by the signal $((status - 128))"
  elif [ -n "$remark" ] && [ -z "$is_quiet" ]; then
    say_remark
  elif [ -n "$treeless" ] && [ -t 2 ]; then
    say "--explain says why words have no tree"
  fi
  close_copies
  return "$status"
}

say_late() {
  local name=$1 all_words=''
  [ "$name" != - ] || name="standard input"
  if [ "$mode" = big ]; then
    say "ended after $time_limit s"
  else
    all_words=$(count_words)
    say "$name: ended after $time_limit s, at $(place_of $((finished + 1)))"
  fi
}

run_all() {
  local file all=0
  for file; do
    run_file "$file"
    [ "$all" != 0 ] || all=$status
    case $status in 2 | 4) break ;; esac
  done
  return "$all"
}

# What stands here; nothing is built for it.
version() {
  local told=() which
  if find_checked || find_program look; then
    which="program $program"
  else
    which="program to be built: $why"
    program=$top/prebuilt/adp
  fi
  mapfile -t told 2>/dev/null <"${program%/*}/sources"
  printf '%s\n' "adp $version: algebraic dynamic programming, with proved answers" "formats $formats" "$which" \
    "sources ${told[0]-unknown}" "${told[1]-}"
}

if [ -L "$self" ]; then
  need readlink
  self=$(readlink -f -- "$self") || fail "$self leads nowhere"
fi
case $self in */*) top=${self%/*} ;; *) top=. ;; esac
[ -n "$top" ] || top=/

case "${1-}" in
  help) help || exit 4; exit 0 ;;
  --sources) need awk cut find sha256sum sort xargs; sources; exit ;;
  --source-files) need awk cut find sha256sum sort xargs; roots | checksums | cut -c 1-8,65-; exit ;;
esac
for word; do
  case $word in
    -h | --help) help || exit 4; exit 0 ;;
    -V | --version) need find; version || exit 4; exit 0 ;;
  esac
done

words=() files=() copies=() guard=()
treeless='' treeless_count=0 shown=0
mode='' explains='' is_quiet='' words_file='' words_copy='' replaces='' folder='' time_limit='' program='' why=''
brief='' cause='' fault='' front='' job='' made='' child='' remark=''
command="adp${*:+ $*}"
need find
# (a stream that is closed is one that fails)
[ -e /dev/fd/0 ] || exec 0>/dev/null
[ -e /dev/fd/1 ] || exec 1</dev/null
find_checked || find_program
sort_arguments "$@"

for signal in INT TERM HUP; do trap "end_by $signal" $signal; done
if [ "$mode" != big ] && ! takes_input; then
  printf '%s\n' "$fault" >&2
  [ -n "$explains" ] || brief=1
  explain "${files[0]}"
  exit 2
fi
if [ -n "$time_limit" ]; then
  printf -v limit '%s%06d' "${time_limit%.*}" 0
  fraction=000000
  case $time_limit in *.*) fraction=${time_limit#*.}000000 ;; esac
  limit=$((10#${time_limit%.*} * 1000000 + 10#${fraction:0:6}))
fi
if [ -n "$folder" ]; then make_folder; fi
tune_memory
follows='' looks=''
if [ -t 2 ] || [ -n "$explains$time_limit" ]; then
  need awk dd grep tail tee
  follows=1
elif [ -n "$folder" ] || { [ -z "$is_quiet" ] && [ "$mode" != big ] && [ -x "$(command -v tee)" ] &&
  [ -x "$(command -v awk)" ]; }; then
  looks=1
fi
if [ -z "$follows$looks$words_file" ] && [ ${#files[@]} = 1 ] && [ "$mode" != big ]; then
  open_job "${files[0]}"
  if [ -z "$cause" ]; then
    [ "$input" = 0 ] || exec <&"$input" {input}<&-
    trap - INT TERM HUP
    exec "$program" "${words[@]}"
  fi
  [ "$input" = 0 ] || exec {input}<&-
fi
# (so that the program ends too where the launcher is killed)
if setpriv --pdeathsig KILL true 2>/dev/null; then guard=(setpriv --pdeathsig KILL); fi
run_all "${files[@]}"
