# Completion of klpcap for bash: its options, and files for the log. To have it without installing: source
# completion/klpcap.bash

_klpcap() {
  local word="${COMP_WORDS[COMP_CWORD]}" before="${COMP_WORDS[COMP_CWORD - 1]}"
  case "$before $word" in
    '--root '*)
      compopt -o filenames 2>/dev/null
      mapfile -t COMPREPLY < <(compgen -d -- "$word")
      ;;
    '-i '* | '-c '* | '-f '*) COMPREPLY=() ;;
    *' -'*) mapfile -t COMPREPLY < <(compgen -W '-i -c -f --once --zero --root --help --version' -- "$word") ;;
    *)
      compopt -o filenames 2>/dev/null
      mapfile -t COMPREPLY < <(compgen -f -- "$word")
      ;;
  esac
}

complete -F _klpcap klpcap
