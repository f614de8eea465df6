# Completion of edv's words for bash. `tests/usage --write` makes it of packaging/words.toml.

# The files whose names begin with the word and end so, and folders; all files where none ends so.
_edv_files() { # WORD [SUFFIX]
  mapfile -t COMPREPLY < <(compgen -f -X "!*${2:-}" -- "$1")
  if [ "${#COMPREPLY[@]}" -eq 0 ]; then
    mapfile -t COMPREPLY < <(compgen -f -- "$1")
  elif [ -n "${2:-}" ]; then
    mapfile -t -O "${#COMPREPLY[@]}" COMPREPLY < <(compgen -d -- "$1")
  fi
}

_edv() {
  local word=${COMP_WORDS[COMP_CWORD]} before=${COMP_WORDS[COMP_CWORD - 1]} job=${COMP_WORDS[1]:-} words= operands=0 at
  COMPREPLY=()
  if [ "$COMP_CWORD" -eq 1 ]; then
    mapfile -t COMPREPLY < <(compgen -W "edit vouch explain check run fits help --help --version" -- "$word")
    return
  fi
  if [ "$job" = help ]; then
    mapfile -t COMPREPLY < <(compgen -W "edit vouch explain check run fits" -- "$word")
    return
  fi
  # `--like=F` is three words here.
  if [ "$word" = = ]; then
    word=
  elif [ "$before" = = ]; then
    before=${COMP_WORDS[COMP_CWORD - 2]}
  fi
  case $before in
  --like)
    _edv_files "$word"
    return
    ;;
  -f)
    _edv_files "$word" .ed
    return
    ;;
  --max)
    mapfile -t COMPREPLY < <(compgen -W "any" -- "$word")
    return
    ;;
  --at | --backup | -p | --min | --has)
    :
    return
    ;;
  esac
  case $job in
  edit) words="--vouched --like --at --whole --backup --unchanged -n --dry-run --diff -s -p -f --help" ;;
  vouch) words="--like --min --max --all -q --quiet --patterns --has --at -f --help" ;;
  explain) words="--like --min --max --patterns --has --at -f --help" ;;
  check) words="-f --help" ;;
  run) words="--whole --backup -n --dry-run --diff -s -f --help" ;;
  fits) words="--help" ;;
  esac
  if [[ $word == -* ]]; then
    mapfile -t COMPREPLY < <(compgen -W "$words" -- "$word")
    return
  fi
  for ((at = 2; at < COMP_CWORD; at++)); do
    case ${COMP_WORDS[at]} in
    --like | --at | --backup | -p | -f | --min | --max | --has)
      at=$((at + 1))
      [ "${COMP_WORDS[at]}" != = ] || at=$((at + 1))
      ;;
    -*) ;;
    *) operands=$((operands + 1)) ;;
    esac
  done
  case $job$operands in
  edit0) _edv_files "$word" ;;
  vouch0) _edv_files "$word" ;;
  explain0) _edv_files "$word" .cert ;;
  check0) _edv_files "$word" .cert ;;
  run0) _edv_files "$word" .cert ;;
  run1) _edv_files "$word" ;;
  fits0) _edv_files "$word" .cert ;;
  fits1) _edv_files "$word" ;;
  esac
}
complete -o filenames -F _edv edv ed_main
