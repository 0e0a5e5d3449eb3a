# Completion of hazard's words for bash.

# Leaves netlists and folders of what may come, if there is any.
_hazard_netlists() {
  local name netlists=()
  for name in "${COMPREPLY[@]}"; do
    [[ ${name,,} == *.bench || ${name,,} == *.blif || -d $name ]] && netlists+=("$name")
  done
  ((${#netlists[@]})) && COMPREPLY=("${netlists[@]}")
}

_hazard() {
  local word=${COMP_WORDS[COMP_CWORD]} before=${COMP_WORDS[COMP_CWORD - 1]}
  # bash makes three words of `--show=nodes`
  if [[ $word == = ]]; then
    word=
  elif [[ $before == = ]]; then
    before=${COMP_WORDS[COMP_CWORD - 2]}
  fi
  case $before in
    --show) COMPREPLY=($(compgen -W 'nodes all' -- "$word")); return ;;
    --cap) COMPREPLY=(); return ;;
  esac
  if [[ $word == -* ]]; then
    COMPREPLY=($(compgen -W '--cap --show' -- "$word"))
  elif ((COMP_CWORD == 1)); then
    COMPREPLY=($(compgen -W 'analyse edges explore split replay convert vcd batch reset demo' -- "$word"))
  elif [[ ${COMP_WORDS[1]} == demo ]]; then
    COMPREPLY=()
  else
    compopt -o filenames 2>/dev/null
    COMPREPLY=($(compgen -f -- "$word"))
    ((COMP_CWORD == 2)) && _hazard_netlists
  fi
}
complete -F _hazard hazard
