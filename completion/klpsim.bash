# Completion of klpsim, klpwatch, klppage, klplint, klpsee and klpko for bash: what they do, and files of the kind that they take in
# this place. Folders are completed too, and behind `<` or `>` files of any kind. To have it without installing: source
# completion/klpsim.bash

_klp_files() {
  local ending="$1" word="$2"
  compopt -o filenames 2>/dev/null
  mapfile -t COMPREPLY < <(compgen -d -- "$word"; compgen -f -X "!*.$ending" -- "$word")
}

# Puts the words up to the one at the cursor into klp_words, without redirections. Where the cursor is at the file of one, that
# is completed, and nothing else is to be.
_klp_words() {
  local at
  klp_words=()
  for ((at = 1; at <= COMP_CWORD; at++)); do
    case "${COMP_WORDS[at]}" in
      *'<' | *'>' | *'>&' | *'>|') ;;
      *) klp_words+=("${COMP_WORDS[at]}") && continue ;;
    esac
    [ "$at" -lt "$COMP_CWORD" ] || return
    # the number in front of it, as in 2>
    [[ ${#klp_words[@]} -gt 0 && "${klp_words[-1]}" == [0-9] ]] && unset 'klp_words[-1]'
    ((at++))
    if [ "$at" -eq "$COMP_CWORD" ]; then
      compopt -o filenames 2>/dev/null
      mapfile -t COMPREPLY < <(compgen -f -- "${COMP_WORDS[at]}")
      return 1
    fi
  done
}

_klpsim() {
  local klp_words
  _klp_words || return 0
  local word="${klp_words[-1]-}"
  case "${#klp_words[@]} ${klp_words[0]-}" in
    "1 "*) mapfile -t COMPREPLY < <(compgen -W "console live" -- "$word") ;;
    "2 console" | "2 live") _klp_files catalog "$word" ;;
    "3 live") _klp_files steps "$word" ;;
  esac
}

# Puts the files in front of the word at the cursor into klp_before, and that word into klp_word. The options that take a value
# are named. Fails where the word is the value of such an option, which klp_option is then, or begins as an option does.
_klp_options() {
  local at
  klp_before=() klp_option='' klp_word="${klp_words[-1]-}"
  for ((at = 0; at < ${#klp_words[@]} - 1; at++)); do
    if [ -n "$klp_option" ]; then klp_option=''
    elif [[ " $* " == *" ${klp_words[at]} "* ]]; then klp_option="${klp_words[at]}"
    elif [[ "${klp_words[at]}" != -* ]]; then klp_before+=("${klp_words[at]}"); fi
  done
  [[ -z "$klp_option" && "$klp_word" != -* ]]
}

_klp_offer() { mapfile -t COMPREPLY < <(compgen -W "$1" -- "$klp_word"); }

_klpwatch() {
  local klp_words klp_before klp_option klp_word
  _klp_words || return 0
  if ! _klp_options; then _klp_offer '--help --version'
  elif [ "${#klp_before[@]}" = 0 ]; then _klp_files catalog "$klp_word"
  else _klp_files trace "$klp_word"; fi
}

_klppage() {
  local klp_words klp_before klp_option klp_word
  _klp_words || return 0
  if ! _klp_options --trace; then
    if [ "$klp_option" = --trace ]; then _klp_files trace "$klp_word"; else _klp_offer '--trace --help --version'; fi
    return
  fi
  case "${#klp_before[@]} ${klp_words[*]}" in
    0*) _klp_files catalog "$klp_word" ;;
    2* | *' --trace '*) _klp_files names "$klp_word" ;;
    *) _klp_files script "$klp_word" ;;
  esac
}

_klplint() {
  local klp_words klp_before klp_option klp_word
  _klp_words || return 0
  if ! _klp_options; then _klp_offer '--json --help --version'
  elif [ "${#klp_before[@]}" = 0 ]; then _klp_files catalog "$klp_word"
  else _klp_files script "$klp_word"; fi
}

_klpsee() {
  local klp_words klp_before klp_option klp_word
  _klp_words || return 0
  if _klp_options -o --catalog; then _klp_files log "$klp_word"
  elif [ "$klp_option" = --catalog ]; then _klp_files catalog "$klp_word"
  elif [ "$klp_option" = -o ]; then
    compopt -o filenames 2>/dev/null
    mapfile -t COMPREPLY < <(compgen -d -- "$klp_word")
  else _klp_offer '-o --json --catalog --follow --metrics --help --version'; fi
}

_klpko() {
  local klp_words klp_before klp_option klp_word
  _klp_words || return 0
  if _klp_options --btf --symbols --module --traceable --kernel; then _klp_files ko "$klp_word"
  elif [ "$klp_option" = --module ]; then _klp_files ko "$klp_word"
  elif [[ "$klp_option" = --@(btf|symbols|traceable|kernel) ]]; then
    compopt -o filenames 2>/dev/null
    mapfile -t COMPREPLY < <(compgen -f -- "$klp_word")
  else _klp_offer '--list --matrix --json --btf --symbols --module --traceable --kernel --cut --help --version'; fi
}

complete -F _klpsim klpsim
complete -F _klpwatch klpwatch
complete -F _klppage klppage
complete -F _klplint klplint
complete -F _klpsee klpsee
complete -F _klpko klpko
