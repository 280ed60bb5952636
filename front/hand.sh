# What comes into `rack` and what goes out of it.

# The task file into $work/tasks. Reading looks at its first 3 KB at most, so 64 are enough of a file that never ends.
take_file() {
  local said
  if [ -z "$file" ] && [ -t 0 ]; then echo "rack: reading a task file from the terminal" >&2; fi
  if ! said=$(head -c 65536 -- "${file:--}" 2>&1 >"$work/tasks"); then fail "${said#head: }"; fi
}

# Hands a finished answer over. A reader that stops early has what it wanted; any other failure to write is one.
hand_over() {
  local said status
  { said=$(cat "$1" 2>&1 >&3); } 3>&1
  status=$?
  [ "$status" -eq 0 ] || [ "$status" -eq 141 ] || [[ $said == *'Broken pipe'* ]] || fail "${said#cat: }"
}

# ask_program PROGRAM ARGUMENTS: what the program answers about the file, into $work/PROGRAM. A refusal ends everything here.
ask_program() {
  local program=$1
  shift
  if ! run "$program" "$@" <"$work/tasks" >"$work/$program" 2>"$work/said"; then
    if grep -q '^usage' "$work/said"; then
      usage "$verb"
      exit 2
    fi
    fail "$program: $(cat "$work/said")"
  fi
  if grep -q '^1F' "$work/$program"; then refuse "$work/$program"; fi
}

# The refusal's line on standard output, what it means on standard error, and status 1.
refuse() {
  hand_over "$1"
  words_of "$(cat "$1")" >&2
  exit 1
}

# What a refusal means. Row 11 is about the question, so the plan tells what there would be to ask about. What is no printable
# character is spelt out, so that a terminal does not obey it.
words_of() {
  local script scripts=()
  for script in model rows faults limits refusal; do scripts+=(-f "$here/front/$script.awk"); done
  cat -vt "$work/tasks" >"$work/visible"
  [ -s "$work/rota" ] || run rota <"$work/tasks" >"$work/rota" 2>/dev/null
  REFUSAL=$1 QUESTION="$verb ${question[*]}" awk -v unended="$(unended)" "${scripts[@]}" "$work/visible" "$work/rota"
}

# 1 if the file's last line lacks its LF.
unended() { [ -s "$work/tasks" ] && [ "$(tail -c 1 "$work/tasks" | od -An -tu1 | tr -d ' ')" != 10 ] && echo 1; }
