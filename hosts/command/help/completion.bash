_knellstone() {
  local word=${COMP_WORDS[COMP_CWORD]} before=${COMP_WORDS[COMP_CWORD-1]}
  local commands="settings train change inspect report panel trace demo stand-in completion help"
  if [ "$COMP_CWORD" -eq 1 ]; then
    mapfile -t COMPREPLY < <(compgen -W "$commands --help --version" -- "$word")
    return
  fi
  case $before in
    --simulator) mapfile -t COMPREPLY < <(compgen -c -- "$word"); return ;;
    --records) mapfile -t COMPREPLY < <(compgen -W "hex file" -- "$word"); return ;;
    --jobs | --timeout | --at) return ;;
    completion) mapfile -t COMPREPLY < <(compgen -W "bash" -- "$word"); return ;;
    help) mapfile -t COMPREPLY < <(compgen -W "$commands" -- "$word"); return ;;
  esac
  local options="--help"
  case ${COMP_WORDS[1]} in
    settings) options="$options --record" ;;
    train) options="$options --simulator --jobs --record --timeout --records" ;;
    inspect) options="$options --counts --at --json" ;;
    report) options="$options --counts --log" ;;
    trace) options="$options --text" ;;
  esac
  if [[ $word == -* ]]; then
    mapfile -t COMPREPLY < <(compgen -W "$options" -- "$word")
  else
    compopt -o filenames 2>/dev/null
    mapfile -t COMPREPLY < <(compgen -f -- "$word")
  fi
}
complete -F _knellstone knellstone
