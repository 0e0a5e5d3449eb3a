# Completion of hazard-look's words for bash.

_hazard_look() {
  local word=${COMP_WORDS[COMP_CWORD]} job=${COMP_WORDS[1]} at place=0 ends=()
  if ((COMP_CWORD == 1)); then
    COMPREPLY=($(compgen -W 'start summary expect why orders testbench page table clock from-yosys from-verilog --help --version' -- "$word"))
    return
  fi
  case ${COMP_WORDS[COMP_CWORD - 1]} in
    --only | --top) COMPREPLY=(); return ;;
    --save | --write | --hazard) compopt -o filenames 2>/dev/null; COMPREPLY=($(compgen -f -- "$word")); return ;;
  esac
  if [[ $word == -* ]]; then
    case $job in
      summary) COMPREPLY=($(compgen -W '--help --hazard --only --outputs --roots --all --fail --json' -- "$word")) ;;
      expect) COMPREPLY=($(compgen -W '--help --hazard --json --junit' -- "$word")) ;;
      table) COMPREPLY=($(compgen -W '--help --hazard --all --fail --page' -- "$word")) ;;
      orders) COMPREPLY=($(compgen -W '--help --hazard --write --fail --json' -- "$word")) ;;
      why) COMPREPLY=($(compgen -W '--help --hazard --save' -- "$word")) ;;
      from-yosys) COMPREPLY=($(compgen -W '--help --top --join' -- "$word")) ;;
      from-verilog) COMPREPLY=($(compgen -W '--help --gates --top --join' -- "$word")) ;;
      *) COMPREPLY=($(compgen -W '--help --hazard' -- "$word")) ;;
    esac
    return
  fi
  # the place of the word among those that are neither options nor their values
  for ((at = 2; at < COMP_CWORD; at++)); do
    case ${COMP_WORDS[at]} in
      --only | --top | --save | --write | --hazard) ((at++)) ;;
      -*) ;;
      *) ((place++)) ;;
    esac
  done
  case $job:$place in
    from-yosys:0) ends=(json) ;;
    from-verilog:*) ends=(v sv) ;;
    from-yosys:* | start:[1-9] | *:[2-9]) COMPREPLY=(); return ;;
    *:0) ends=(bench blif) ;;
  esac
  compopt -o filenames 2>/dev/null
  COMPREPLY=($(compgen -f -- "$word"))
  local name end kept=()
  for name in "${COMPREPLY[@]}"; do
    for end in "${ends[@]}"; do
      [[ ${name,,} == *."$end" ]] && kept+=("$name")
    done
    [[ -d $name ]] && kept+=("$name")
  done
  ((${#ends[@]} && ${#kept[@]})) && COMPREPLY=("${kept[@]}")
}
complete -F _hazard_look hazard-look
