# The plan in plain words and small tables.

function share(part, all) { return all == 0 ? "" : sprintf("%.1f %%", 100 * part / all) }

function board() {
  print "Board"
  print "  " counted(processors, "processor", "processors") ", slots of " counted(slot, "tick", "ticks")
  print "  overheads: RelJ " jitter ", RelO " release ", CtswO " switching ", ResD " entering ", CpmdO " caching
  if (masked != "") print "  a job can hold interrupts off for " counted(masked, "tick", "ticks")
  if (rule != "") print "  packing: " packing(rule) " (rule 0" rule ")"
}

# Which server takes a task, and in which order tasks are placed.
function packing(rule,  fit, order) {
  split("first fit,best fit,worst fit", fit, ",")
  split("in file order,by falling load,by rising load", order, ",")
  return fit[int(rule / 3) + 1] " " order[rule % 3 + 1]
}

function rota() {
  print "\nRota"
  print "  " counted(tasks, "task", "tasks") " in " counted(servers, "server", "servers") ", on " \
    (ring + wholes) " of " counted(processors, "processor", "processors")
  if (ring > 0) {
    print "  " counted(ring, "processor walks the ring", "processors walk the ring, a slot apart") "; one turn is " \
      counted(turn, "tick", "ticks")
    print "  " grouped(turn - idle) " of " counted(turn, "position", "positions") " reserved, " grouped(idle) " idle"
  }
  if (wholes > 0) print "  " counted(wholes, "server has a processor to itself", "servers have a processor each to themselves")
}

function standing(q) {
  if (whole[q]) return "whole processor " on[q]
  if (reserve[q] == 1) return "position " grouped(start[q])
  return "positions " grouped(start[q]) " to " grouped(start[q] + reserve[q] - 1)
}

# A server's figures stand beside its first task; its other tasks follow below.
function server_rows(q,  count, places, i, task) {
  count = split(members[q], places, " ")
  for (i = 1; i <= count; i++) {
    task = places[i]
    row((i > 1 ? "||||||" : \
      q "|" grouped(reserve[q]) "|" share(reserve[q], slot) "|" standing(q) "|" grouped(loss[q] + 0) "|" grouped(spare[q]) "|" \
      grouped(closest[q])) \
      "|" id[task] "|" grouped(cost[task]) "|" grouped(deadline[task]) "|" grouped(period[task]) (own_costs ? "|" grouped(cache[task]) : ""))
  }
}

function server_table(  q, p) {
  for (p = ring + 1; p <= ring + wholes; p++) on[first[p]] = p
  print "\nServers, each with its tasks"
  begin_table("server|reserve|of slot|<stands at|entry loss|to spare|at length|task|C|D|T" (own_costs ? "|cache cost" : ""))
  for (q = 1; q <= servers; q++) server_rows(q)
  end_table()
  print "  to spare: supply less demand at the length where the server is closest to failing;"
  print "  a reserve of one tick less would fail or is not allowed"
  if (own_costs) print "  cache cost: the task's own; its server is charged by the largest among its tasks"
}

function processor_table(  p, k, rest, entered) {
  print "\nProcessors, over " (ring > 0 ? "one turn of " grouped(turn) " ticks" : "one slot of " grouped(slot) " ticks")
  begin_table("processor|<begins with|for ticks|utilisation|idle ticks|lost on entry")
  for (p = 1; p <= ring; p++) {
    rest = entered = 0
    for (k = 1; k <= stretches[p]; k++) {
      if (runs[p, k] == 0) rest += ends(p, k) - from[p, k] + 1
      entered += lost(p, k)
    }
    row(p "|" (first[p] == 0 ? "idle" : "server " first[p]) "|" grouped(lasting[p]) "|" share(turn - rest, turn) "|" \
      grouped(rest) "|" grouped(entered))
  }
  for (p = ring + 1; p <= ring + wholes; p++) row(p "|server " first[p] "|throughout|" share(1, 1) "|0|0")
  end_table()
}

function interrupt_table(  i) {
  if (interrupts == 0) return
  print "\nInterrupts"
  begin_table("processor|C|D|T|jitter")
  for (i = 1; i <= interrupts; i++)
    row(bound[i] "|" grouped(its_cost[i]) "|" grouped(its_deadline[i]) "|" grouped(its_period[i]) "|" grouped(its_jitter[i]))
  end_table()
}

END {
  board()
  rota()
  server_table()
  processor_table()
  interrupt_table()
}
