# Completions of nujwamek for bash: the commands, then the files of the current folder where a command takes one.
_nujwamek() {
  local word=${COMP_WORDS[COMP_CWORD]} at=$COMP_CWORD files=
  COMPREPLY=()
  if [ "$at" = 1 ]; then
    mapfile -t COMPREPLY < <(compgen -W "register enrol withdraw title package trace accuse check sample" -- "$word")
    return
  fi
  # The numbers of the words at which a command takes a file.
  case ${COMP_WORDS[1]} in
    register) files=" 6 " ;;
    enrol | withdraw) files=" 2 4 " ;;
    title) files=" 2 3 4 " ;;
    package) files=" 2 3 5 " ;;
    trace) files=" 2 3 4 " ;;
    accuse) files=" 2 3 " ;;
    check) files=" 2 3 4 5 " ;;
  esac
  if [[ $files == *" $at "* ]]; then mapfile -t COMPREPLY < <(compgen -f -- "$word"); fi
}
complete -F _nujwamek nujwamek
