# What a task file, its plan, its switch list and the answers to `ask pass` say, in numbers. Their lines are told apart by how
# they begin. The fields are those of docs/RULES.md 5.1.

function hex(digits,  number, i) {
  number = 0
  for (i = 1; i <= length(digits); i++) number = 16 * number + index("0123456789ABCDEF", substr(digits, i, 1)) - 1
  return number
}
function field(from, width) { return hex(substr($0, from, width)) }

function least(a, b) { return a < b ? a : b }
function most(a, b) { return a > b ? a : b }

# A number with its thousands set apart, and a word in the number that goes with a count.
function grouped(number,  text) {
  text = sprintf("%.0f", number)
  while (match(text, /[0-9][0-9][0-9][0-9]($|,)/)) text = substr(text, 1, RSTART) "," substr(text, RSTART + 1)
  return text
}
function counted(number, one, many) { return grouped(number) " " (number == 1 ? one : many) }

/^01/ {
  processors = field(3, 2); slot = field(5, 6)
  jitter = field(11, 4); release = field(15, 4); switching = field(19, 4); entering = field(23, 4); caching = field(27, 4)
}
/^05/ { masked = field(3, 4) }
/^06/ { rule = field(3, 2); rule_line = FNR }
/^0[23]/ {
  tasks++
  id[tasks] = field(3, 2); cost[tasks] = field(5, 6); deadline[tasks] = field(11, 6); period[tasks] = field(17, 6)
  cache[tasks] = /^03/ ? field(23, 4) : caching
  if (/^03/) own_costs = 1
  task_line[tasks] = FNR
}
/^07/ {
  interrupts++
  bound[interrupts] = field(3, 2); its_cost[interrupts] = field(5, 6); its_deadline[interrupts] = field(11, 6)
  its_period[interrupts] = field(17, 6); its_jitter[interrupts] = field(23, 4)
  interrupt_line[interrupts] = FNR
}

/^11/ { wholes = field(3, 2); ring = field(5, 2); servers = field(7, 2); idle = field(15, 8); turn = ring * field(9, 6) }
/^12/ {
  number = field(3, 2)
  reserve[number] = field(5, 6)
  whole[number] = substr($0, 11, 8) == "FFFFFFFF"
  start[number] = field(11, 8)
}
# Entering costs a ring server what the board takes for a reserve and the largest cache cost of its tasks.
/^13/ {
  placed++
  server_of[placed] = field(5, 2)
  members[server_of[placed]] = members[server_of[placed]] " " placed
  if (!whole[server_of[placed]])
    loss[server_of[placed]] = most(loss[server_of[placed]] + 0, entering + cache[placed])
}
/^14/ { number = field(3, 2); first[number] = field(5, 2); lasting[number] = field(7, 6) }

# A stretch is what a processor runs from one of its switches to the next, or to the turn's end.
/^21/ {
  number = field(11, 2)
  stretches[number]++
  from[number, stretches[number]] = field(3, 8)
  runs[number, stretches[number]] = field(13, 2)
}
function ends(p, k) { return (k < stretches[p] ? from[p, k + 1] : turn) - 1 }

# The ticks of a stretch that are lost on entering. At tick 0 a processor may stand amid a reserve (RULES 3.5): as many
# positions of it are behind the processor as its first reserve is short of the whole.
function lost(p, k,  server, behind) {
  server = runs[p, k]
  behind = from[p, k] == 0 ? reserve[server] - lasting[p] : 0
  return server == 0 ? 0 : least(most(loss[server] - behind, 0), ends(p, k) - from[p, k] + 1)
}

# "server 1 passes with reserve 6: closest at length 10, demand 6, supply 6, ticks to spare 0"
/^server [0-9]+ passes/ {
  closest[$2] = $10 + 0; spare[$2] = $18 + 0
}
