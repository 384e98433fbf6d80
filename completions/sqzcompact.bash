# Completes the words of sqzcompact in bash.
_sqzcompact() {
  local word=${COMP_WORDS[COMP_CWORD]} before=${COMP_WORDS[COMP_CWORD - 1]} words=
  case $before in
    --workers) words='1 2 4 8 16 32 64' ;;
    --region-words) words=65536 ;;
  esac
  [[ -z $words && $word == -* ]] && words='--workers --region-words --census --clear-weak --help --version'
  if [[ -n $words ]]; then
    mapfile -t COMPREPLY < <(compgen -W "$words" -- "$word")
  else
    compopt -o filenames
    mapfile -t COMPREPLY < <(compgen -f -- "$word")
  fi
}
complete -F _sqzcompact sqzcompact
