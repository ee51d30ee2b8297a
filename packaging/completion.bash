# Completion for bash: of `lab` the words, the options of each, the numbers of workers, and scripts; of each script of
# tools/ its options and files. What those take stands below, in tables that tools/package makes of their answers to
# --help.

# Offers files of a kind that begin with a word.
_lab_files() {
  local kind=$1 word=$2
  compopt -o filenames 2>/dev/null
  case $kind in
    files) mapfile -t COMPREPLY < <(compgen -f -- "$word") ;;
    folders) mapfile -t COMPREPLY < <(compgen -d -- "$word") ;;
    scripts) mapfile -t COMPREPLY < <(compgen -d -- "$word"; compgen -f -X '!*.resc' -- "$word") ;;
  esac
}

# Sets COMPREPLY to what may stand at the cursor.
_lab() {
  local word=${COMP_WORDS[COMP_CWORD]} before=${COMP_WORDS[COMP_CWORD - 1]} offered=()
  COMPREPLY=()
  if [ "$COMP_CWORD" -eq 1 ]; then
    mapfile -t COMPREPLY < <(compgen -W 'run check gen --help --version --program' -- "$word")
    return
  fi
  case ${COMP_WORDS[1]} in
    run) offered=(--workers --until) ;;
    gen) offered=(--workers) ;;
    check) ;;
    *) return ;;
  esac
  if [ "$before" = --workers ] && [ "${#offered[@]}" -gt 0 ]; then
    mapfile -t COMPREPLY < <(compgen -W '1 2 3 4 5 6 7 8' -- "$word")
  elif [[ $word == -* ]]; then
    mapfile -t COMPREPLY < <(compgen -W "${offered[*]}" -- "$word")
  elif [ "${COMP_WORDS[1]}" != gen ] && [ "$before" != --until ]; then
    _lab_files scripts "$word"
  fi
}

# The same of a script of tools/, also where it is called as lab-NAME.
_lab_script() {
  local name=${COMP_WORDS[0]##*/} word=${COMP_WORDS[COMP_CWORD]} before=${COMP_WORDS[COMP_CWORD - 1]} kind
  name=${name#lab-}
  COMPREPLY=()
  kind=${_lab_values["$name $before"]-}
  if [ -n "$kind" ]; then
    _lab_files "$kind" "$word"
  elif [[ $word == -* ]]; then
    mapfile -t COMPREPLY < <(compgen -W "${_lab_options["$name"]}" -- "$word")
  else
    _lab_files "${_lab_operands["$name"]}" "$word"
  fi
}

complete -F _lab lab
declare -gA _lab_options _lab_values _lab_operands
