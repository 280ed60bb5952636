# Time from left to right: slots along the top, ticks along the bottom.

function across(tick) { return left + tick * plot / span }

# The smallest of 1, 2, 5, 10, 20, 50 .. ticks whose labels stand apart.
function tick_step(  step, room) {
  room = digits_width(grouped(span), 11) + 14
  step = 1
  while (step * plot / span < room) step *= (step ~ /^2/ ? 2.5 : 2)
  return step
}

function tick_axis(y,  tick, step) {
  step = tick_step()
  label(left - 10, y + 18, "small end", "tick")
  for (tick = 0; tick <= span; tick += step) {
    line_from(across(tick), y, across(tick), y + 5, "tick")
    label(across(tick), y + 18, "small middle time", grouped(tick))
  }
}

# Slots are named in their middle where their names have room, otherwise every second, fourth .. of them.
function slot_axis(y, bottom,  slots, k, every, wide) {
  slots = span / slot
  wide = plot / slots
  every = 1
  while (every * wide < 24) every *= 2
  label(left - 10, y - 6, "small end", "slot")
  for (k = 1; k <= slots; k++) if ((k - 1) % every == 0) label(across((k - 0.5) * slot), y - 6, "small middle", k)
  for (k = 0; k <= slots; k++) line_from(across(k * slot), y - 4, across(k * slot), bottom, "slot")
}
