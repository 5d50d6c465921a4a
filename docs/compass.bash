# Completes the words of compass. Made by bench/manual of what the program tells of itself.
_compass() {
  local word=${COMP_WORDS[COMP_CWORD]} before=${COMP_WORDS[COMP_CWORD - 1]} options=
  case $before in
    --root) mapfile -t COMPREPLY < <(compgen -d -- "$word"); return ;;
    --binary|--image|--journal|--listing|--map|--name|-o) mapfile -t COMPREPLY < <(compgen -f -- "$word"); return ;;
  esac
  case ${COMP_WORDS[1]} in
    asm) options='--fold-case --tabs --last-line --journal --version --listing --map -o --image --binary --layout --symbols --quiet --check --explain --name -h --help' ;;
    dump) options='-h --help' ;;
    diff) options='-h --help' ;;
    log) options='--deck -h --help' ;;
    serve) options='--root --port --page --workers --sessions --readers --idle --journal --compact --once -h --help' ;;
    stop) options='--root -h --help' ;;
  esac
  if [ "$COMP_CWORD" = 1 ]; then
    mapfile -t COMPREPLY < <(compgen -W 'asm dump diff log serve stop help -h --help -V --version' -- "$word")
  elif [[ $word == -* ]]; then
    mapfile -t COMPREPLY < <(compgen -W "$options" -- "$word")
  else
    mapfile -t COMPREPLY < <(compgen -f -- "$word")
  fi
}
complete -o filenames -F _compass compass
