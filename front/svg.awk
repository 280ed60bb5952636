# Pieces of SVG. Coordinates are in pixels, with two decimals at most.

function px(value) { return sprintf("%.2f", value) + 0 }

function escaped(text) {
  gsub(/&/, "\\&amp;", text)
  gsub(/</, "\\&lt;", text)
  gsub(/>/, "\\&gt;", text)
  gsub(/"/, "\\&quot;", text)
  gsub(/[^ -~]/, "?", text)
  return text
}

function label(x, y, class, text) {
  print "<text x=\"" px(x) "\" y=\"" px(y) "\" class=\"" class "\">" text "</text>"
}
function box(x, y, width, height, fill) {
  print "<rect x=\"" px(x) "\" y=\"" px(y) "\" width=\"" px(width) "\" height=\"" px(height) "\" fill=\"" fill "\"/>"
}
function line_from(x1, y1, x2, y2, class) {
  print "<path d=\"M" px(x1) " " px(y1) "L" px(x2) " " px(y2) "\" class=\"" class "\"/>"
}

# How wide a text of this size may come out: fonts differ, and a wide one takes 0.65 of its size for a digit, less for letters.
function digits_width(text, size) { return 0.65 * size * length(text) }
function words_width(text, size) { return 0.58 * size * length(text) }
