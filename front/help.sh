# What `rack` says of itself.

# The verbs: name and arguments, what it does, an example.
verbs() {
  cat <<'END'
plan [FILE]|the plan, in its lines|./rack plan examples/a.tasks
who P X [FILE]|who runs on processor P at tick X|./rack who 2 0 examples/a.tasks
pass Q R [FILE]|does server Q pass with reserve R, how close|./rack pass 1 6 examples/a.tasks
switches [FILE]|every switch of one turn, for boot code|./rack switches examples/a.tasks
sweep [LIST]|how many files have a plan, what others meet|ls examples/*.tasks \| ./rack sweep
explain [FILE]|the plan in words and small tables|./rack explain examples/a.tasks
draw [FILE]|one turn of the rota as a picture, an SVG|./rack draw examples/a.tasks > rota.svg
END
}

help() {
  echo "rack VERB ..: the rota of a gas-detection rack"
  echo
  verbs | while IFS='|' read call does example; do
    printf '  %-15s  %-44s  %s\n' "$call" "$does" "$example"
  done
  cat <<'END'

FILE is a task file and LIST a list of file names; without one, or with -, standard input is read.
Status: 0 a plan or an answer, 1 a refusal (its 1F line, and in words why), 2 something failed.
END
}

# How the verb of this name is called.
usage() {
  echo "rack: usage: ./rack $(verbs | grep "^$1 " | cut -d '|' -f 1)" >&2
}

unknown() {
  printf 'rack: there is no verb %q; there are: %s\n' "$1" "$(verbs | cut -d ' ' -f 1 | xargs | sed 's/ /, /g')" >&2
  echo "rack: ./rack help says what each does" >&2
}
