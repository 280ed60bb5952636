# Which server is which: its look, reserve and tasks, in as many columns as the page has room for.

# The lines of one server's entry, in said[1..]: where it stands, and its tasks, as many on a line as fit.
function entry(q, room,  count, places, i, text, one) {
  split("", said)
  said[1] = "reserve " grouped(reserve[q]) " of " grouped(slot)
  said[1] = said[1] (whole[q] ? ", a whole processor" : ", from position " grouped(start[q]))
  lines_said = 1
  if (loss[q] > 0) said[++lines_said] = "entry loss " counted(loss[q], "tick", "ticks")
  count = split(members[q], places, " ")
  text = count == 1 ? "task " : "tasks "
  for (i = 1; i <= count; i++) {
    one = id[places[i]] ": " cost[places[i]] "/" deadline[places[i]] "/" period[places[i]] (i < count ? ", " : "")
    if (words_width(text one, 11) > room) {
      said[++lines_said] = text
      text = ""
    }
    text = text one
  }
  said[++lines_said] = text
  return lines_said
}

function draw_entry(q, x, y, room,  count, i) {
  count = entry(q, room)
  print "<g class=\"swatch\">"
  box(x, y, 34, 22, look(q))
  print number_at(x + 17, y + 11, 13, "number", q, 0)
  print "</g>"
  label(x + 44, y + 11, "strong", "server " q)
  for (i = 1; i <= count; i++) label(x + 44, y + 11 + 15 * i, "small", said[i])
}

# Where each server's entry stands, down one column and then the next; says how high the legend is.
function lay_legend(width,  q, all, column, down, deepest) {
  legend_columns = least(servers, most(1, int(width / 290)))
  legend_wide = width / legend_columns
  for (q = 1; q <= servers; q++) all += entry_height[q] = 15 * entry(q, legend_wide - 60) + 30
  for (q = 1; q <= servers; q++) {
    if (down > 0 && down + entry_height[q] / 2 > all / legend_columns && column < legend_columns - 1) {
      column++
      down = 0
    }
    entry_column[q] = column + 0
    entry_down[q] = down + 0
    down += entry_height[q]
    deepest = most(deepest, down)
  }
  return deepest
}

function draw_legend(x, y,  q) {
  for (q = 1; q <= servers; q++) draw_entry(q, x + entry_column[q] * legend_wide, y + entry_down[q], legend_wide - 60)
}

function sign(x, y, fill, class, text) {
  print "<g class=\"swatch" class "\">"
  box(x, y, 34, 14, fill)
  print "</g>"
  label(x + 44, y + 11, "small", text)
  return x + 44 + words_width(text, 11) + 16
}

# What the other marks mean; those that do not occur are left out.
function draw_signs(x, y,  q, lossy_one) {
  for (q = servers; q >= 1; q--) if (loss[q] > 0) lossy_one = q
  x = sign(x, y, look(1), "", "usable to its server")
  if (lossy_one) x = sign(x, y, lossy(lossy_one), "", "lost on entry")
  if (idle > 0) x = sign(x, y, "#F4F4F4", " idle", "idle")
  line_from(x + 17, y - 2, x + 17, y + 16, "slot")
  label(x + 28, y + 11, "small", "slot boundary")
  label(x + 28 + words_width("slot boundary", 11) + 16, y + 11, "small", "tasks: id: C/D/T, in ticks")
}
