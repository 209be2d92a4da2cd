# Completion of segcached's words for bash. They are taken from the program's own help, so the two agree.

# The values that the help of a command has for an option.
_segcached_values() {
  "$1" "$2" --help 2>/dev/null \
    | awk -v option="$3" '/^ *(-[a-z], )?--/ { is_it = $1 == option || $2 == option } is_it' \
    | tr '\n' ' ' | sed -nE 's/.*\[possible values: ([^]]*)\].*/\1/p' | tr -d ,
}

_segcached() {
  local word=${COMP_WORDS[COMP_CWORD]} command=${COMP_WORDS[1]} option help
  # (bash takes the sign of `--evict=oldest` for a word of its own)
  [ "$word" != = ] || word=
  option=${COMP_WORDS[COMP_CWORD - 1]}
  [ "$option" != = ] || option=${COMP_WORDS[COMP_CWORD - 2]}
  if [ "$COMP_CWORD" -eq 1 ]; then
    help=$("$1" --help 2>/dev/null | sed -nE 's/^  ([a-z]+) .*/\1/p')
    mapfile -t COMPREPLY < <(compgen -W "$help --help --version" -- "$word")
  elif [[ $word == -* ]]; then
    help=$("$1" "$command" --help 2>/dev/null | grep -oE '^ *(-[a-z], )?--[a-z-]+' | grep -oE -e '--.*')
    mapfile -t COMPREPLY < <(compgen -W "$help" -- "$word")
  elif [[ $option == --* ]]; then
    help=$(_segcached_values "$1" "$command" "$option")
    mapfile -t COMPREPLY < <(compgen -W "$help" -- "$word")
  fi
}
# (if it has no word to offer, names of files: a script to replay)
complete -o default -F _segcached segcached
