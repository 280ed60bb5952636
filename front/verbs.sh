# One function for each verb of `rack`.

answer_plan() {
  ask_program rota
  hand_over "$work/rota"
}

answer_switches() {
  ask_program switches
  hand_over "$work/switches"
}

answer_question() {
  ask_program ask "$verb" "${question[@]}"
  hand_over "$work/ask"
}
answer_who() { answer_question; }
answer_pass() { answer_question; }

# The names in a list are looked up from where the caller stands.
sweep_list() {
  if [ -n "$file" ] && [ "$file" != - ]; then
    [ -r "$file" ] && [ ! -d "$file" ] || fail "cannot read the list $file"
    exec <"$file"
  fi
  run sweep "${options[@]}" >"$work/sweep" || exit 2
  hand_over "$work/sweep"
}

# explain and draw read the file, its plan, its switch list and how close each server was, and work nothing of it out again.
# show SCRIPTS: these awk programs over all of that.
show() {
  local script scripts=(-f "$here/front/model.awk")
  for script; do scripts+=(-f "$here/front/$script.awk"); done
  ask_program rota
  ask_program switches
  NAME=${file##*/} awk "${scripts[@]}" "$work/tasks" "$work/rota" "$work/switches" "$work/answers" >"$work/shown" ||
    fail "$verb: awk failed"
  hand_over "$work/shown"
}

answer_draw() {
  : >"$work/answers"
  show svg looks axis blocks legend draw
}

answer_explain() {
  ask_program rota
  closest_of_all
  show table explain
}

# The verdict on each server of the plan with the reserve that it has there.
closest_of_all() {
  local server reserve
  sed -n 's/^12\(..\)\(......\).*/\1 \2/p' "$work/rota" | while read -r server reserve; do
    "$here/crates/ask/out/ask" pass $((16#$server)) $((16#$reserve)) <"$work/tasks"
  done >"$work/answers" 2>"$work/said"
  [ "$(grep -c '^server .* passes' "$work/answers")" -eq "$(grep -c ^12 "$work/rota")" ] || fail "ask: $(head -n 1 "$work/said")"
}
