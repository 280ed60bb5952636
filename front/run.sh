# How a program of the proofs is run. Sourced by front/program.sh and ./rack, which have set `here`.

# run PROGRAM ARGUMENTS: the program, on this standard input. Where it says more on standard error than its progress, what it printed is
# no whole answer, and the status is 1.
# Its standard error is shown as it comes, and looked at when all of it has been.
run() {
  local program=$1 said status
  shift
  said=$(mktemp)
  { "$here/crates/$program/out/$program" "$@"; } 2> >(tee "$said" >&2)
  status=$?
  wait "$!"
  if grep -qvxE 'sweep: [0-9]+ names read' "$said"; then status=1; fi
  rm -f "$said"
  return "$status"
}
