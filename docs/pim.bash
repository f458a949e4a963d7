# Completion of pim's commands and options for bash: source this file, or put it where bash-completion looks, as `pim`.

_pim() {
  local word=${COMP_WORDS[COMP_CWORD]} before=${COMP_WORDS[COMP_CWORD - 1]} command=${COMP_WORDS[1]}
  COMPREPLY=()
  if ((COMP_CWORD == 1)); then
    COMPREPLY=($(compgen -W "compile run list explain debug prove share imply implyrun bench asm convert" -- "$word"))
    return
  fi
  case $before in
  --target) COMPREPLY=($(compgen -W "magic plim" -- "$word")) ;;
  --level) COMPREPLY=($(compgen -W "0 1 2" -- "$word")) ;;
  --fill) COMPREPLY=($(compgen -W "zeros ones" -- "$word")) ;;
  --form) COMPREPLY=($(compgen -W "1 2" -- "$word")) ;;
  --cells) ;;
  *)
    case $command:$COMP_CWORD in
    compile:*) COMPREPLY=($(compgen -W "--target --cells --level" -- "$word")) ;;
    convert:*) COMPREPLY=($(compgen -W "--form" -- "$word")) ;;
    run:2 | list:2 | explain:2 | debug:2 | prove:2 | share:2 | implyrun:2)
      compopt -o filenames 2>/dev/null
      mapfile -t COMPREPLY < <(compgen -f -- "$word")
      ;;
    run:* | debug:* | implyrun:*) COMPREPLY=($(compgen -W "--fill" -- "$word")) ;;
    explain:*) COMPREPLY=($(compgen -W "--tree" -- "$word")) ;;
    share:* | imply:*) COMPREPLY=($(compgen -W "--cells" -- "$word")) ;;
    esac
    ;;
  esac
}

complete -F _pim pim
