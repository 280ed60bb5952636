# One turn of the rota as a picture: its page.

# Rows are as high as their number allows; the page is as wide as the stretches of a row need to be told apart.
function lay_page(  shown, stretches_most, p) {
  shown = ring + wholes
  high = shown <= 4 ? 44 : shown <= 12 ? 32 : shown <= 32 ? 24 : 18
  gap = shown <= 12 ? 10 : 5
  for (p = 1; p <= ring; p++) stretches_most = most(stretches_most, stretches[p])
  span = ring > 0 ? turn : slot
  left = 110
  top = 92
  plot = most(1000, 30 * stretches_most)
  bottom = top + shown * (high + gap) - gap
  page_wide = left + plot + 40
  signs_at = bottom + 46
  legend_at = signs_at + 34
  page_high = legend_at + lay_legend(page_wide - 40) + 6
}

function heading() {
  if (ring > 0) return "One turn of the rota: " counted(span, "tick", "ticks") ", then again from the left"
  return "The rota: one slot of " counted(span, "tick", "ticks") ", every processor with one server"
}

function summary(  text) {
  text = ENVIRON["NAME"] == "" || ENVIRON["NAME"] == "-" ? "" : escaped(ENVIRON["NAME"]) ": "
  text = text counted(tasks, "task", "tasks") " in " counted(servers, "server", "servers")
  text = text ", slots of " counted(slot, "tick", "ticks")
  text = text "; of " counted(processors, "processor", "processors") " "
  if (ring > 0) text = text ring (ring == 1 ? " walks" : " walk") " the ring" (wholes > 0 ? ", " : "")
  if (wholes > 0) text = text wholes (wholes == 1 ? " has one server" : " have one server each")
  if (processors > ring + wholes) text = text ", " (processors - ring - wholes) " not used"
  return text
}

END {
  lay_page()
  print "<svg xmlns=\"http://www.w3.org/2000/svg\" width=\"" px(page_wide) "\" height=\"" px(page_high) "\" viewBox=\"0 0 " \
    px(page_wide) " " px(page_high) "\" role=\"img\" aria-labelledby=\"title summary\">"
  print "<title id=\"title\">" heading() "</title><desc id=\"summary\">" summary() "</desc>"
  styles()
  looks()
  box(0, 0, page_wide, page_high, "#FFF")
  label(20, 30, "title", heading())
  label(20, 52, "", summary())
  rows_of_all()
  slot_axis(top, bottom + 4)
  draw_numbers()
  tick_axis(bottom + 4)
  draw_signs(20, signs_at)
  draw_legend(20, legend_at)
  print "</svg>"
}
