# Completion of gract's command words in bash. Where bash-completion finds it, it is loaded by itself; else `source` it.

_gract() {
  local word=${COMP_WORDS[COMP_CWORD]}
  COMPREPLY=()
  case $COMP_CWORD,${COMP_WORDS[1]} in
    1,*) mapfile -t COMPREPLY < <(compgen -W 'once build ask sample upgrade merge extend --help --version' -- "$word") ;;
    2,once | 2,build | 3,build | 2,ask | 3,ask | 2,upgrade | 3,upgrade | 2,merge | 3,merge | 4,merge | \
      2,extend | 3,extend | 4,extend)
      # So bash quotes names, and puts a slash after those of folders.
      compopt -o filenames 2> /dev/null
      mapfile -t COMPREPLY < <(compgen -f -- "$word")
      ;;
  esac
}

complete -F _gract gract
