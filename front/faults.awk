# What is wrong with a line of a task file, and what would have to change: rows 1 to 4, whose place is a line.

# Row 1. `last` says that the line is the file's last one.
function line_fault(text, last,  kind) {
  kind = substr(text, 1, 2)
  if (text == "") return "the line is empty: take it out"
  if (last && unended) return "the file's last line must be closed by an LF too"
  if (text ~ /\^M$/) return "the line ends in CR LF: lines are closed by LF alone"
  if (text ~ /^[0-9A-Fa-f]+$/ && text ~ /[a-f]/) return "digits above 9 are written as capitals, A to F"
  if (text !~ /^[0-9A-F]+$/) return "a line has the digits 0-9 and A-F and nothing else, no spaces"
  if (!(kind in long)) return "a task file has no lines of kind " kind
  if (length(text) != long[kind]) return "a line of kind " kind " has " long[kind] " digits, this one " length(text)
  return "lines of kind " kind " are not read"
}

# Row 2.
function order_fault(n, text) {
  if (n > lines) return "the file is empty: its first line must be the header, kind 01"
  if (n == 1) return "the first line must be the header, kind 01"
  if (text ~ /^01/) return "there is one header, on line 1: take this one out"
  if (text ~ /^05/) return "the 05 line must be line 2"
  if (text ~ /^06/) return "a file has one 06 line at most, directly behind the " (line[2] ~ /^05/ ? "05 line" : "header")
  return "all tasks stand before the first 07 line, which is line " interrupt_line[1]
}

# Row 3.
function count_fault(n, text) {
  if (text ~ /^07/) return "32 interrupts are the most: take this one out"
  if (tasks > 64) return "64 tasks are the most: take this one out"
  return "a file has at least one task: put a 02 line here"
}

# Row 4.
function twice_fault(n,  i, own) {
  own = substr(line[n], 3, 2)
  for (i = 1; i <= tasks; i++)
    if (task_line[i] < n && substr(line[task_line[i]], 3, 2) == own)
      return "id " hex(own) " is that of line " task_line[i] " already: give one of the two another"
}

function fault_of_line(number, n) {
  if (number == 1) return line_fault(line[n], n == lines)
  if (number == 2) return order_fault(n, line[n])
  if (number == 3) return count_fault(n, line[n])
  return twice_fault(n)
}
