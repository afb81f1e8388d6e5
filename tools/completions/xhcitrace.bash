# Completion of xhcitrace's command line for bash
_xhcitrace() {
  local word=${COMP_WORDS[COMP_CWORD]} before=${COMP_WORDS[COMP_CWORD-1]} command=${COMP_WORDS[1]}
  local options
  COMPREPLY=()
  if [ "$COMP_CWORD" -eq 1 ]; then
    mapfile -t COMPREPLY < <(compgen -W 'check verify schedule replay show write bench decode explain help --help --version -h -V' -- "$word")
    return
  fi
  case $command in
    check) options='--cert --show --search --follow --format --unjudged --summary --explain --color --help -h' ;;
    verify | replay | show) options='--format --explain --color --help -h' ;;
    schedule | write) options='--explain --color --help -h' ;;
    bench) options='--seed --policy --errors --steps --out --help -h' ;;
    decode) options='--explain --help -h' ;;
    explain)
      [ "$before" = --format ] || mapfile -t COMPREPLY < <(compgen -W '10 11 12 13 14 15 16 17 18 19 20 21 22 23 24 25 32 33 34 35 36 WriteToOwned NotAsSubmitted NotDeclared NotWhole
        LinkFault RingFull BadDescriptor BadRegister BadDoorbell BadCommand Busy ImpossibleEvent BadErdp NotInProfile AfterStop BadMove
        BadWithdraw NotRestored BadFree BadRing ImpossibleRead 1 2 3 4 5 6 7 8 26 30 31 Header Row Number Limit Shape Magic Length Field NotGiven Memory
        Device harm-1 harm-2 harm-3 harm-4 harm-5 harm-6 --format --help -h' -- "$word")
      [ "$before" = --format ] || return ;;
    help)
      mapfile -t COMPREPLY < <(compgen -W 'check verify schedule replay show write bench decode explain help' -- "$word")
      return ;;
    *) return ;;
  esac
  if [ "$before" = --format ]; then
    [ "$command" != check ] || options='text json sarif'
    [ "$command" = check ] || options='text json'
    mapfile -t COMPREPLY < <(compgen -W "$options" -- "$word")
  elif [ "$before" = --color ]; then
    mapfile -t COMPREPLY < <(compgen -W 'auto always never' -- "$word")
  elif [ "$before" = --policy ]; then
    mapfile -t COMPREPLY < <(compgen -W 'random eager lazy' -- "$word")
  elif [ "$before" = --seed ] || [ "$before" = --errors ] || [ "$before" = --steps ]; then
    return
  elif [ "$before" = --unjudged ]; then
    return
  elif [ "$before" != --cert ] && [ "${word#-}" != "$word" ]; then
    mapfile -t COMPREPLY < <(compgen -W "$options" -- "$word")
  elif [ "$command" != decode ]; then
    compopt -o filenames 2>/dev/null
    mapfile -t COMPREPLY < <(compgen -f -- "$word")
  fi
}
complete -F _xhcitrace xhcitrace
