# What ./rota, ./switches, ./ask and ./sweep are: each runs the program of its own name on standard input. Sourced by them.
# Builds the program first, by proving it, where it is missing or older than its sources.
# Ends with status 1 where the program says more on standard error than its progress: what it printed is no whole answer then.
set -uo pipefail
here=$(dirname "$(readlink -f "$0")")
name=$(basename "$(readlink -f "$0")")
. "$here/front/build.sh"
. "$here/front/run.sh"

if ! command -v rt >/dev/null 2>&1; then
  echo "$name: the Rattle kit's command rt is not on the PATH" >&2
  exit 2
fi
build "$name" "$name" || exit 2
run "$name" "$@"
