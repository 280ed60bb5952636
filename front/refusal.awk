# A refusal in words: the row, the place with the line of the file that stands there, and what would have to change.
# The file as it can be shown comes first, then its plan or refusal.

FILENAME == ARGV[1] { line[FNR] = $0; lines = FNR }

function at(n, what) {
  if (n > lines) print "  line " n what ", after the last"
  else print "  line " n what ": " substr(line[n], 1, 80) (length(line[n]) > 80 ? " .." : "")
}
function task(i) { return ", task " i " (id " id[i] ")" }

# Row 11: what there would be to ask about.
function question_fault(  asked, own, places, k) {
  split(ENVIRON["QUESTION"], asked, " ")
  if (asked[1] == "who") return "there is no processor " asked[2] ": the plan has 1 to " (ring + wholes)
  if (asked[2] < 1 || asked[2] > servers) return "there is no server " asked[2] ": the plan has 1 to " servers
  own = entering
  split(members[asked[2] + 0], places, " ")
  for (k in places) own = most(own, entering + cache[places[k]])
  return "a reserve of " asked[3] " is not allowed: it must be " (own + 1 < slot ? grouped(own + 1) " to " : "") grouped(slot)
}

# Rows whose place is a task, or 64 and the position of an interrupt.
function say_task(number, place) {
  if (number == 6 && place > 64) {
    at(interrupt_line[place - 64], ", interrupt " (place - 64))
    return interrupt_fault(place - 64)
  }
  at(task_line[place], task(place))
  if (number == 6) return range_fault(cost[place], deadline[place], period[place])
  if (number == 7) return slot_fault(place)
  if (number == 8) return tight_fault(place)
  return alone_fault()
}

# Rows whose place is no line: the header, or the line where a sum goes past its limit.
function say_set(number, place) {
  if (number == 9) {
    at(horizon_line(), "")
    return "the slot and the periods up to here have the least common multiple " grouped(horizon) \
      ": choose periods that divide each other"
  }
  if (number == 5 && board_is_good()) at(rule_line, "")
  else if (number < 11) at(1, ", the header")
  if (number == 5) return board_fault()
  if (number == 10) return full_fault(place)
  return number == 11 ? question_fault() : ""
}

END {
  number = hex(substr(ENVIRON["REFUSAL"], 3, 2))
  place = hex(substr(ENVIRON["REFUSAL"], 5, 2))
  print "refused, row " number " " title[number] ": " when[number]
  if (number <= 4) {
    at(place, "")
    said = fault_of_line(number, place)
  } else if (number == 13 || number >= 6 && number <= 8) said = say_task(number, place)
  else said = say_set(number, place)
  if (said != "") print "  " said
}
