# Completion of `adp` for bash: modes, options of the mode, algebras of the job that is named, and files.

# The options of a mode: a line for each.
_adp_options_of() {
  case $1 in
    best | serial | wins) echo '--algebra --workers --seed --words --only-words' ;;
    cert) echo '--algebra --workers --seed --words --only-words --certificates' ;;
    replay) echo '--algebra --workers --seed --schedule --words --only-words' ;;
    lex) echo '--algebra --then --workers --seed --words --only-words' ;;
    kbest) echo '--algebra --best --words --only-words' ;;
    verify) echo '--algebra' ;;
    big) echo '--workers --seed --size' ;;
  esac
}
_adp_modes='best serial wins replay lex kbest cert verify big'
_adp_common='--time-limit --explain --quiet --help --version'

# The mode that is named already.
_adp_mode() {
  local word
  for word in "${COMP_WORDS[@]:1}"; do
    case " $_adp_modes " in *" $word "*) echo "$word"; return ;; esac
  done
}

# Files with this ending, and folders, that begin so; where there are none, files of any name. What is hidden has to be
# begun.
_adp_files() {
  local found
  mapfile -t found < <(compgen -f -X "!*.$2" -- "$1"; compgen -d -- "$1")
  case ${1##*/} in .*) ;; *) mapfile -t found < <(printf '%s\n' "${found[@]}" | grep -Ev '(^|/)\.[^/]*$|^$') ;; esac
  [ ${#found[@]} != 0 ] || mapfile -t found < <(compgen -f -- "$1")
  COMPREPLY=("${found[@]}")
}

_adp() {
  local word=${COMP_WORDS[COMP_CWORD]} before=${COMP_WORDS[COMP_CWORD - 1]} mode job
  COMPREPLY=()
  mode=$(_adp_mode)
  case $before in
    --algebra | --then)
      for job in "${COMP_WORDS[@]}"; do
        [ -f "$job" ] && mapfile -t -O ${#COMPREPLY[@]} COMPREPLY < <(
          compgen -W "$(sed -n '/^ *words *$/q; s/^ *algebra  *\([A-Za-z0-9_]*\).*/\1/p' "$job")" -- "$word"
        )
      done
      return
      ;;
    --workers) mapfile -t COMPREPLY < <(compgen -W '1 2 4 8 16 32' -- "$word"); return ;;
    --words | --only-words) compopt -o filenames 2>/dev/null; mapfile -t COMPREPLY < <(compgen -f -- "$word"); return ;;
    --certificates) compopt -o filenames 2>/dev/null; mapfile -t COMPREPLY < <(compgen -d -- "$word"); return ;;
    --[a-z]*) case $before in --explain | --quiet | --help | --version) ;; *) return ;; esac ;;
  esac
  if [ "${word#-}" != "$word" ]; then
    mapfile -t COMPREPLY < <(compgen -W "$(_adp_options_of "$mode") $_adp_common" -- "$word")
  elif [ -z "$mode" ]; then
    mapfile -t COMPREPLY < <(compgen -W "$_adp_modes $_adp_common" -- "$word")
  elif [ "$mode" != big ]; then
    compopt -o filenames 2>/dev/null
    case $mode in verify) _adp_files "$word" cert ;; *) _adp_files "$word" adp ;; esac
  fi
}
complete -F _adp adp ./adp
