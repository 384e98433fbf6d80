# Completes the words of sqzlook in bash.
_sqzlook() {
  local word=${COMP_WORDS[COMP_CWORD]} options='--clear-weak --human --json --past-damage --help'
  if ((COMP_CWORD == 1)); then
    mapfile -t COMPREPLY < <(compgen -W 'check mend info census digest list show why refs top diff code senders implementors stacks find dump explore --help --version' -- "$word")
    return
  fi
  case ${COMP_WORDS[1]} in
    check) options+=' --all --strict' ;;
    mend) options+=' --nil' ;;
    show | refs | diff | senders | implementors | stacks | find) options+=' --all' ;;
    code) options+=' --all --classes --unsent --unimplemented' ;;
    list) options+=' --all --by --dead' ;;
    census) options+=' --all --by --dead --retained' ;;
    why) options+=' --all --raw' ;;
    top) options+=' --depth --min --folded' ;;
    explore) options+=' --min' ;;
  esac
  if [[ $word == -* ]]; then
    mapfile -t COMPREPLY < <(compgen -W "$options" -- "$word")
  else
    compopt -o filenames
    mapfile -t COMPREPLY < <(compgen -f -- "$word")
  fi
}
complete -F _sqzlook sqzlook
