# Completes the words of gaffcurrant and the options of the programs gaffcurrant-NAME, which their --help tells; everything else by files' names.
_gaffcurrant() {
  local current=${COMP_WORDS[COMP_CWORD]} words=
  if [[ ${1##*/} == gaffcurrant ]]; then
    ((COMP_CWORD > 1)) || words=$("$1" --help 2>&1 | awk '$1 == "gaffcurrant" { print $2 }')
  elif [[ $current == -* ]]; then
    words=$("$1" --help 2>/dev/null | grep -oE '(^|[ ,[|])--?[a-z][a-z-]*' | tr -d ' ,[|' | sort -u)
  fi
  mapfile -t COMPREPLY < <(compgen -W "$words" -- "$current")
}
