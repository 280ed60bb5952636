# How a server looks: one of eight light colours that people with any colour vision tell apart (after Paul Tol's light scheme),
# and one of eight textures, so that 64 servers differ, and those of one colour differ in print too. Diagonals are for entry
# loss alone.

BEGIN {
  split("#77AADD #EE8866 #EEDD88 #FFAABB #99DDFF #44BB99 #BBCC33 #BBAA44", colours, " ")
  texture[2] = "M0 2H8M0 6H8"
  texture[3] = "M2 0V8M6 0V8"
  texture[4] = "M1 2h2M5 6h2"
  texture[5] = "M0 4H8M4 0V8"
  texture[6] = "M2 2H6V6H2Z"
  texture[7] = "M0 6L4 2L8 6"
  texture[8] = "M0 2H8M0 6H8M2 0V8M6 0V8"
}

function colour(q) { return colours[(q - 1) % 8 + 1] }
function textured(q) { return int((q - 1) / 8) % 8 + 1 }
function look(q) { return textured(q) == 1 ? colour(q) : "url(#server" q ")" }
function lossy(q) { return "url(#loss" (q - 1) % 8 + 1 ")" }

function tile(name, back, opacity, path, class) {
  print "<pattern id=\"" name "\" width=\"8\" height=\"8\" patternUnits=\"userSpaceOnUse\">"
  print "<rect width=\"8\" height=\"8\" fill=\"#FFF\"/><rect width=\"8\" height=\"8\" fill=\"" back "\" fill-opacity=\"" opacity "\"/>"
  print "<path d=\"" path "\" class=\"" class "\"/></pattern>"
}

function looks(  q) {
  print "<defs>"
  for (q = 1; q <= servers; q++) if (textured(q) > 1) tile("server" q, colour(q), 1, texture[textured(q)], "texture")
  for (q = 1; q <= least(servers, 8); q++) tile("loss" q, colour(q), 0.3, "M-2 2L2 -2M-2 10L10 -2M6 10L10 6", "hatch")
  print "</defs>"
}

function styles() {
  print "<style>"
  print "text{font-family:sans-serif;font-size:12px;fill:#222}"
  print ".title{font-size:18px;font-weight:bold}.strong{font-weight:bold}.small{font-size:11px;fill:#444}"
  print ".middle,.number,.rest{text-anchor:middle}.end{text-anchor:end}.number,.rest,.slot{pointer-events:none}"
  print ".number{font-weight:bold;paint-order:stroke;stroke:#FFF;stroke-opacity:.65;stroke-width:2.5px;stroke-linejoin:round}"
  print ".rest{fill:#666;font-style:italic}"
  print ".stretch rect,.swatch rect{stroke:#333;stroke-width:.8px}.idle rect{stroke:#888;stroke-dasharray:3 2}"
  print ".texture{stroke:#333;stroke-opacity:.55;stroke-width:1px;fill:none}.hatch{stroke:#222;stroke-width:1.3px;fill:none}"
  print ".slot{stroke:#000;stroke-width:1.4px;stroke-dasharray:5 3;fill:none}.tick{stroke:#666;stroke-width:1px;fill:none}"
  print "</style>"
}
