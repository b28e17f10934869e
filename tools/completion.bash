# Completions of pathfinder for bash, to be sourced. tools/manual makes them from its help.

_pathfinder() {
  local word=${COMP_WORDS[COMP_CWORD]} before=${COMP_WORDS[COMP_CWORD - 1]} words= values=
  case ${COMP_WORDS[1]} in
    route)
      values='--width --rest --workers --iterations --first-pres --init-pres --mult --acc --bb --log --schedule --follow'
      words="$values --global --explain --steady -h --help"
      ;;
    width)
      values='--start --verify --keep --workers --iterations --first-pres --init-pres --mult --acc --bb --log --schedule --follow'
      words="$values --upward --no-bound --global --explain --steady -h --help"
      ;;
    check)
      values='--width'
      words="$values --global --explain -h --help"
      ;;
    report)
      values='--width'
      words="$values --global --full-stats --map --json --explain -h --help"
      ;;
    bound)
      values='--cut'
      words="$values --explain -h --help"
      ;;
    graph)
      values=''
      words="$values --global --types --explain -h --help"
      ;;
    nets)
      values='--width'
      words="$values --global --explain -h --help"
      ;;
    help)
      values=''
      words="$values route width check report bound graph nets"
      ;;
  esac
  if [ "$COMP_CWORD" -eq 1 ]; then
    words='route width check report bound graph nets help -h --help -V --version'
  elif [[ " $values " == *" $before "* ]]; then
    compopt +o default 2>/dev/null
    words=''
  elif [[ $word != -* && ${COMP_WORDS[1]} != help ]]; then
    words=''
  fi
  COMPREPLY=($(compgen -W "$words" -- "$word"))
}
complete -o default -F _pathfinder pathfinder
