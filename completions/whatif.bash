# Completion of whatif for bash: source this file, or put it under the name `whatif` among the completions of bash-completion.

# The stages of the recording in a file, as `report` names them.
_whatif_stages() {
  [ -f "$2" ] && WHATIF_NO_BUILD=1 "$1" report "$2" 2>/dev/null | sed -n '2,$ s/ .*//p'
}

# The ids of the traces in a file, as `import --list` names them.
_whatif_traces() {
  [ -f "$2" ] && WHATIF_NO_BUILD=1 "$1" import --list "$2" 2>/dev/null | sed 's/ .*//'
}

# The first file among the words behind the cursor.
_whatif_file_behind() {
  local word
  for word in "${COMP_WORDS[@]:COMP_CWORD + 1}"; do
    if [ -f "$word" ]; then
      printf '%s\n' "$word"
      return
    fi
  done
}

# What can stand at the cursor: words, nothing for the name of a file, or - for nothing that is known.
_whatif_words() {
  local typed=$2 command='' file='' option='' closed='' places=0 at
  for ((at = 1; at < COMP_CWORD; at++)); do
    case $closed${COMP_WORDS[at]} in
      --) closed=after- ;;
      --top | --want | --within | --by | --as | --workers | --trace | --unit | --reply | --try | --stage | --origin | --what | --from | --to | --min | --group | --script | --format)
        option=${COMP_WORDS[at]}
        if [ "${COMP_WORDS[at + 1]}" = = ]; then at=$((at + 1)); fi
        at=$((at + 1))
        ;;
      --slowest)
        # (its number may be left out)
        if [ "${COMP_WORDS[at + 1]}" = = ]; then at=$((at + 1)); fi
        case ${COMP_WORDS[at + 1]} in
          -*) ;;
          *)
            option=--slowest
            at=$((at + 1))
            ;;
        esac
        ;;
      --version)
        # (without a command it takes no number)
        if [ -n "$command" ]; then
          option=--version
          if [ "${COMP_WORDS[at + 1]}" = = ]; then at=$((at + 1)); fi
          at=$((at + 1))
        fi
        ;;
      -?*) ;;
      *)
        if [ -z "$command" ]; then
          command=${COMP_WORDS[at]}
        else
          places=$((places + 1))
          if [ "$places" -eq 1 ]; then file=${COMP_WORDS[at]}; fi
        fi
        ;;
    esac
  done
  if [ "$at" -gt "$COMP_CWORD" ]; then
    case $option in
      --workers) echo {1..16} ;;
      --stage | --origin) _whatif_stages "$1" "${file:-$(_whatif_file_behind)}" ;;
      --trace) _whatif_traces "$1" "${file:-$(_whatif_file_behind)}" ;;
      --unit) echo us ns ms ;;
      --by)
        case $command in
          fleet) echo span service ;;
          *) echo - ;;
        esac
        ;;
      --what) echo all path ;;
      --group) echo service ;;
      --script) ;;
      --want) echo value ;;
      --format)
        case $command in
          draw) echo svg trace ;;
          *) echo text json ;;
        esac
        ;;
      *) echo - ;;
    esac
  elif [[ -z $closed && $typed == -?* || -z $closed && $typed == - ]]; then
    case $command in
      '') echo -h --help -V --version ;;
      sweep) echo --top --want --queued --by --quiet --strict --format -h --help ;;
      slack) echo --within --quiet --strict --format -h --help ;;
      rescue) echo --by --as --top --quiet --strict --format -h --help ;;
      failures) echo --origin --quiet --strict --format -h --help ;;
      try) echo --stage --save --draw --quiet --strict --format -h --help ;;
      draw) echo --stage --what --from --to --min --group --script --version --format --quiet --strict -h --help ;;
      page) echo --stage --quiet --strict -h --help ;;
      many) echo --workers --quiet --strict --format -h --help ;;
      check) echo --strict -h --help ;;
      fleet) echo --reply --by --try --slowest --workers --part --join --unit --clocks --calls --quiet --strict --format -h --help ;;
      import) echo --list --each --trace --unit --clocks --calls --format --quiet -h --help ;;
      console) echo --steps --quiet --strict -h --help ;;
      export) echo --quiet --strict -h --help ;;
      new) echo -h --help ;;
      help) echo - ;;
      *) echo --quiet --strict --format -h --help ;;
    esac
  elif [ -z "$command" ]; then
    echo report explain sweep slack rescue ends failures try compare draw page check serve console export many import fleet new help
  else
    case $command:$places in
      help:0) echo report explain sweep slack rescue ends failures try compare draw page check serve console export many import fleet new help ;;
      new:0) echo first timeout timer retry fallback breaker cache queue race batch ;;
      explain:1 | sweep:1 | slack:1 | rescue:1 | compare:2 | try:[1-9]*) _whatif_stages "$1" "$file" ;;
      report:0 | explain:0 | sweep:0 | slack:0 | rescue:0 | ends:0 | failures:0 | try:0 | compare:0 | compare:1 | draw:0 | page:0 | page:1 | check:0 | serve:0 | console:0 | export:0 | export:1 | many:* | import:0 | fleet:*) ;;
      *) echo - ;;
    esac
  fi
}

_whatif() {
  local found word
  COMPREPLY=()
  found=$(_whatif_words "$1" "$2")
  if [ "$found" = - ]; then
    compopt +o default 2>/dev/null
  elif [ -n "$found" ]; then
    while IFS= read -r word; do COMPREPLY+=("$word"); done < <(compgen -W "$found" -- "$2")
  fi
}

complete -o default -F _whatif whatif
