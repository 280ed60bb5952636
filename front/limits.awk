# What limit the figures of a task set pass, and what would have to change: rows 5 to 10 and 13.

function board_fault() {
  if (slot == 0) return "the slot S is 0: it must be at least 1"
  if (board_is_good()) return "there is no packing rule " substr(line[rule_line], 3, 2) ": it must be 00 to 08"
  return "m is " processors ": it must be 1 to 64"
}
function board_is_good() { return slot > 0 && processors >= 1 && processors <= 64 }

# Row 6, of a task, and of an interrupt.
function range_fault(C, D, T) {
  if (C < 1) return "C is 0: it must be at least 1"
  if (C > D) return "C " grouped(C) " is above D " grouped(D) ": 1 <= C <= D <= T <= 1,000,000"
  if (D > T) return "D " grouped(D) " is above T " grouped(T) ": 1 <= C <= D <= T <= 1,000,000"
  return "T " grouped(T) " is above 1,000,000"
}
function interrupt_fault(i) {
  if (its_cost[i] < 1 || its_cost[i] > its_deadline[i] || its_deadline[i] > its_period[i] || its_period[i] > 1000000)
    return range_fault(its_cost[i], its_deadline[i], its_period[i])
  if (its_jitter[i] >= its_deadline[i]) return "the jitter " its_jitter[i] " must be below D " grouped(its_deadline[i])
  return "it is bound to processor " bound[i] ": the board has 1 to " processors
}

function slot_fault(i) {
  return "D " grouped(deadline[i]) " is below the slot " grouped(slot) ": D must be at least " grouped(slot) \
    ", or the slot at most " grouped(deadline[i])
}

function tight_fault(i,  c) {
  if (jitter >= deadline[i]) return "RelJ " jitter " leaves nothing of D " grouped(deadline[i]) ": D must be above RelJ"
  c = cost[i] + release + 2 * switching + cache[i]
  return "C " grouped(cost[i]) " + RelO " release " + 2 * CtswO " switching " + cache " cache[i] " = " grouped(c) \
    " is above D " grouped(deadline[i]) " - RelJ " jitter " = " grouped(deadline[i] - jitter) ": it is " \
    counted(c - deadline[i] + jitter, "tick", "ticks") " too much"
}

function measure(a, b) { return b == 0 ? a : measure(b, a % b) }
function multiple(a, b) { return a / measure(a, b) * b }

# The first line whose period takes the least common multiple past the limit.
function horizon_line(  i) {
  horizon = slot
  for (i = 1; i <= tasks; i++) if ((horizon = multiple(horizon, period[i])) > 10000000) return task_line[i]
  for (i = 1; i <= interrupts; i++) if ((horizon = multiple(horizon, its_period[i])) > 10000000) return interrupt_line[i]
}

function full_fault(needed) {
  return "the plan needs " needed " processors and the board has " processors ": m must be at least " needed \
    ", or the tasks must need fewer (less C, longer D or T, lower overheads, another packing rule)"
}

function alone_fault() {
  return "with what interrupts take, even a whole processor is too little for it: " \
    "it needs less C or a longer D, or the interrupts must take less"
}
