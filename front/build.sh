# Building, in one place: programs and static libraries are proved and linked where one is missing or older than its sources.
# Sourced by front/program.sh, ./rack and front/archive.sh, which have set `here`.

# What the building of a crate leaves: a program, or an archive.
built_of() {
  local folder=$here/crates/$1
  if [ -f "$folder/src/main.rt" ]; then echo "$folder/out/$1"; else echo "$folder/out/lib$1.a"; fi
}

# The crates that these stand on, themselves too, one a line.
crates_of() {
  awk -v wanted="$*" '
    function take(crate,  below, count, i) {
      if (crate in taken || !(crate in needs)) return
      taken[crate] = 1
      print crate
      count = split(needs[crate], below, " ")
      for (i = 1; i <= count; i++) take(below[i])
    }
    /^[a-z]/ { at = index($0, ":"); split(substr($0, 1, at - 1), name, " "); needs[name[1]] = substr($0, at + 1) }
    END { count = split(wanted, names, " "); for (i = 1; i <= count; i++) take(names[i]) }
  ' "$here/crates.txt"
}

# Whether a file is older than these crates' own files and crates.txt. What lies in out/ was built.
is_older() {
  local file=$1
  shift
  [ -n "$(find "${@/#/"$here/crates/"}" "$here/crates.txt" -name out -prune -o -newer "$file" -type f -print -quit)" ]
}

# Whether one of these crates has to be built.
stale() {
  local crate file below
  for crate; do
    file=$(built_of "$crate")
    mapfile -t below < <(crates_of "$crate")
    if [ ! -f "$file" ] || is_older "$file" "${below[@]}"; then return 0; fi
  done
  return 1
}

# How many crates to check side by side: one a processor, where 3 GB of memory are free for each.
side_by_side() {
  awk -v processors="$(nproc)" '
    /^MemAvailable:/ { room = int($2 / 3000000) }
    END { most = room < processors ? room : processors; print most < 1 ? 1 : most }
  ' /proc/meminfo
}

# Whether each library below a crate has been built once. What has changed of it since, rt sees by itself. What rt ci builds has no stamp,
# and is not taken.
all_built() {
  local below
  while read -r below; do
    [ "$below" = "$1" ] || [ -e "$here/crates/$below/out/rlib/stamp" ] || return 1
  done < <(crates_of "$1")
}

# Proves a crate and those below it, side by side where these have yet to be built, and then links it. rt runs a program once it is linked,
# here on no input, and what it prints is dropped: it is built where rt says that it runs it.
build_one() {
  cd "$here/crates/$1" || return
  all_built "$1" || rt all check --jobs "$(side_by_side)" || return
  if [ -f src/main.rt ]; then
    rt run 2>&1 >/dev/null | awk -v line="rt: running out/$1;" '{ print } index($0, line) == 1 { runs = 1 } END { exit !runs }'
    return "${PIPESTATUS[1]}"
  fi
  rt lib
}

# A line for each crate that rt is done with: overwritten on a terminal, otherwise every tenth and the last.
progress() {
  local name=$1 all=$2 line crate done=0
  local -A seen=()
  while read -r line; do
    [[ $line =~ ^==\ ([a-z0-9_]+)$ ]] || continue
    crate=${BASH_REMATCH[1]}
    [ "$crate" != summary ] && [ -z "${seen[$crate]:-}" ] || continue
    seen[$crate]=1
    done=$((done + 1))
    if [ -t 2 ]; then
      printf '\r%s: %d of %d crates done, last %-20s' "$name" "$done" "$all" "$crate" >&2
    elif [ $((done % 10)) -eq 0 ] || [ "$done" -eq "$all" ]; then
      echo "$name: $done of $all crates done" >&2
    fi
  done
  if [ -t 2 ]; then echo >&2; fi
}

# build NAME CRATES: builds these programs and static libraries if one of them is stale; NAME is who says so. Somebody else's build is
# waited for. What is proved already is not proved again, and rt keeps that by the files' contents.
build() {
  local name=$1 log all status crate
  shift
  stale "$@" || return 0
  exec 9<"$here/crates.txt"
  if ! flock -n 9; then
    echo "$name: another build is under way; waiting for it" >&2
    flock 9
  fi
  stale "$@" || { exec 9<&-; return 0; }
  all=$(crates_of "$@" | wc -l)
  echo "$name: building: $all crates, each proved first where it is not proved yet, $(side_by_side) at a time" >&2
  log=$(mktemp)
  for crate; do build_one "$crate" || exit; done </dev/null 2>&1 9<&- | tee "$log" | progress "$name" "$all"
  status=${PIPESTATUS[0]}
  exec 9<&-
  if [ "$status" -ne 0 ]; then
    tail -n 20 "$log" >&2
    echo "$name: not built; the whole output is in $log" >&2
    return 2
  fi
  rm -f "$log"
  for crate; do touch "$(built_of "$crate")"; done
}
