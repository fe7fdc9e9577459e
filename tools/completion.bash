# shellcheck shell=bash
# Completion of lpis and the tools beside it, for bash.

_lpis_files() { mapfile -t COMPREPLY < <(compgen "$@" -- "${COMP_WORDS[COMP_CWORD]}"); }

# The table of commands and their words, in the repository or installed.
_lpis_words=$(cat -- "${BASH_SOURCE[0]%/*}"/{,../../../lib/lpis/}words.txt 2>/dev/null | grep -v -e '^#' -e '^$')

# By the command and the place of the word among those that are no options: a folder, a number or an identifier, or a file; or its options.
_lpis() {
  local words row=() options=() valued=' ' word before='' place=0
  if [[ $COMP_CWORD -eq 1 ]]; then
    _lpis_files -W "$(sed -n '/^[^ ]*\/ /!s/ .*//p' <<<"$_lpis_words") --help --version"
    return
  fi
  read -ra words < <(grep "^${COMP_WORDS[1]-} " <<<"$_lpis_words")
  for word in "${words[@]}"; do
    case $word in
      --*=*) options+=("${word%%=*}") valued+="${word%%=*} " ;;
      --*) options+=("$word") ;;
      *) row+=("$word") ;;
    esac
  done
  for word in "${COMP_WORDS[@]:1:COMP_CWORD-1}"; do
    [[ $word == -* || $valued == *" $before "* ]] || place=$((place + 1))
    before=$word
  done
  if [[ $valued == *" $before "* ]]; then
    _lpis_files -f
    return
  elif [[ ${COMP_WORDS[COMP_CWORD]} == -* ]]; then
    _lpis_files -W "${options[*]}"
    return
  fi
  [[ ${row[*]} != *' -..' || $place -lt ${#row[@]} ]] || place=$((${#row[@]} - 1))
  case ${row[place]-} in
    */) _lpis_files -d ;;
    - | -..) COMPREPLY=() ;;
    *) _lpis_files -f ;;
  esac
}

# The options of a tool or a command, or files; with -d folders alone.
_lpis_options() {
  if [[ ${COMP_WORDS[COMP_CWORD]} == -* ]]; then
    _lpis_files -W "$1"
  else
    _lpis_files "${2--f}"
  fi
}

_lpis_country() {
  if [[ $COMP_CWORD -eq 1 ]]; then
    _lpis_files -W 'prepare split cut check publish status --version --help'
    return
  fi
  case ${COMP_WORDS[1]-} in
    prepare) _lpis_options '--accept --accept-from --between --keep --classes --epsg --name --identifiers --previous --tables --workers --snakemake --profile --lineage --parcels --covers --points --anew --quiet --help' ;;
    split) _lpis_options '--lineage --parcels --covers --points --anew --quiet --help' -d ;;
    cut) _lpis_options '--jobs --snakemake --profile --lpis --quiet --help' -d ;;
    publish) _lpis_options '--lineage --source --new --year-anyway --register-anyway --source-anyway --previous --jump --accept-from --jobs --snakemake --profile --lpis --quiet --help' ;;
    status) _lpis_options '--quiet --help' -d ;;
    *) _lpis_options '--parcels --lpis --quiet --help' -d ;;
  esac
}
_lpis_check() { _lpis_options '--out --accept --accept-from --between --keep --certificate --classes --epsg --name --identifiers --previous --quiet --lpis --version --help'; }
_lpis_explain() { _lpis_options '--cert --register --area --points --svg --geojson --epsg --status --name --codes --version --help'; }
_lpis_faults() { _lpis_options '--html --epsg --lpis --version --help'; }
_lpis_lineage() { _lpis_options '--register --check --rows --workers --quiet --version --help'; }
_lpis_prepare() { _lpis_options '--accept --accept-from --between --keep --classes --epsg --name --identifiers --previous --quiet --version --help'; }
_lpis_report() { _lpis_options '--json --html --diff --jump --changes --accept-from --register --year --audit --source --quiet --lpis --version --help'; }
_lpis_year() {
  _lpis_options '--new --year-anyway --register-anyway --source-anyway --audit --source --previous --jump --accept-from --certificate --verify --undo --status --lpis --version --help'
}

complete -o filenames -F _lpis lpis
complete -o filenames -F _lpis_check lpis-check
complete -o filenames -F _lpis_country lpis-country
complete -o filenames -F _lpis_explain lpis-explain
complete -o filenames -F _lpis_faults lpis-faults
complete -o filenames -F _lpis_lineage lpis-lineage
complete -o filenames -F _lpis_prepare lpis-prepare
complete -o filenames -F _lpis_report lpis-report
complete -o filenames -F _lpis_year lpis-year
