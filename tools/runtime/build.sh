# What tools/library and tools/program have in common. They read it, with `top` set to the repository.
# shellcheck shell=bash disable=SC2154,SC2034

kit=$(command -v rt) || { echo "${0##*/}: the Rattle kit isn't there: no 'rt' is found" >&2; exit 70; }
kit=$(dirname "$(dirname "$(readlink -f "$kit")")")

# Has `target` be the kit's name of a processor, and `cc` and `ar` the programs that link for it.
use_target() {
  target=$1-unknown-linux-gnu
  case $1 in
    x86_64) cc=${CC:-cc} ar=${AR:-ar} ;;
    aarch64) cc=${CC:-aarch64-linux-gnu-gcc} ar=${AR:-aarch64-linux-gnu-ar} ;;
    *) echo "${0##*/}: --target takes aarch64 or x86_64" >&2; exit 2 ;;
  esac
  command -v "$cc" >/dev/null && return
  echo "${0##*/}: there is no $cc (on Debian: apt-get install gcc-aarch64-linux-gnu)" >&2
  exit 70
}

# The crates that crates.txt names for one.
named_by() { awk -v crate="$1" '$1 ~ "^" crate ":?$" { sub(/^[^:]*:/, ""); print }' "$top/crates.txt"; }

# Proves and builds a crate over the libraries below as they stand: build_standing CRATE WORDS..
build_standing() {
  local crate=$1 name rlib words=(--extern "std=$kit/rlibs/std.rlib" -L "dependency=$kit/rlibs")
  shift
  for name in $(named_by "$crate"); do
    rlib=$kit/rlibs/$name.rlib
    [[ -d $rlib ]] || rlib=$top/crates/$name/out/rlib/$name.rlib
    words+=(--extern "$name=$rlib")
  done
  for name in "$top"/crates/*/out/rlib; do words+=(-L "dependency=$name"); done
  "$kit/bin/rattle" build --crate-name "$crate" "${words[@]}" --antt-project "$kit/rattle/logic/antt-project.json" \
    --logic-built "$kit/logic_built" --toolchain "$kit/toolchain" "$@"
}

# Compiles lines of tools/runtime for the target: compile_runtime NAME OBJECT.
compile_runtime() { "$cc" -std=c99 -pedantic -Wall -Wextra -O2 -fPIC -c "$top/tools/runtime/$1.c" -o "$2"; }
