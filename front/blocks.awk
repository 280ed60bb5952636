# A row for each processor, a block for each stretch. Each block says in its attributes which stretch it is, and in its title,
# which viewers show under the pointer, the same in words.

function rows_of_all(  p, k) {
  for (p = 1; p <= ring; p++) {
    name_row(p, "processor " p)
    for (k = 1; k <= stretches[p]; k++) stretch(p, runs[p, k], from[p, k], ends(p, k), lost(p, k))
  }
  for (p = ring + 1; p <= ring + wholes; p++) {
    name_row(p, "processor " p)
    stretch(p, first[p], 0, span - 1, 0)
  }
}

function row_top(p) { return top + (p - 1) * (high + gap) }

function name_row(p, name) { label(left - 10, row_top(p) + high / 2 + 4, "end", name) }

function stretch(p, q, a, b, entered,  x, y, usable) {
  x = across(a)
  y = row_top(p)
  usable = across(a + entered)
  print "<g class=\"stretch" (q == 0 ? " idle" : "") "\" data-processor=\"" p "\" data-server=\"" q \
    "\" data-from=\"" whole_number(a) "\" data-to=\"" whole_number(b) "\" data-lost=\"" whole_number(entered) \
    "\"><title>" in_words(p, q, a, b, entered) "</title>"
  if (q == 0) box(x, y, across(b + 1) - x, high, "#F4F4F4")
  if (entered > 0) box(x, y, usable - x, high, lossy(q))
  if (q > 0 && b + 1 > a + entered) box(usable, y, across(b + 1) - usable, high, look(q))
  number_block(q == 0 ? "idle" : q, usable, x, across(b + 1), y + high / 2)
  print "</g>"
}

function whole_number(value) { return sprintf("%.0f", value) }

function in_words(p, q, a, b, entered) {
  return (q == 0 ? "idle" : "server " q) ", processor " p ", ticks " whole_number(a) " to " whole_number(b) \
    (entered > 0 ? ", the first " whole_number(entered) " lost on entry" : "")
}

# A block's number stands in its usable part, or across the whole, or upright, or nowhere. Numbers are kept until the slot
# boundaries are drawn, and stand above these.
function number_block(text, usable, x, end, y,  size, class, room) {
  size = least(14, most(9, high / 2))
  class = text == "idle" ? "rest" : "number"
  room = digits_width(text, size) + 3
  if (end - usable >= room) numbers_kept[++kept] = number_at((usable + end) / 2, y, size, class, text, 0)
  else if (end - x >= room) numbers_kept[++kept] = number_at((x + end) / 2, y, size, class, text, 0)
  else if (end - x >= size + 1 && high >= room) numbers_kept[++kept] = number_at((x + end) / 2, y, size, class, text, 1)
}
function draw_numbers(  i) { for (i = 1; i <= kept; i++) print numbers_kept[i] }

# Centred at (x, y): not every renderer knows how to, but digits are some 0.7 of their size high.
function number_at(x, y, size, class, text, upright) {
  return "<text x=\"" px(x) "\" y=\"" px(y + 0.35 * size) "\" class=\"" class "\" style=\"font-size:" px(size) "px\"" \
    (upright ? " transform=\"rotate(-90 " px(x) " " px(y) ")\"" : "") ">" text "</text>"
}
