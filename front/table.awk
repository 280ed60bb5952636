# Small tables for a terminal: every column is as wide as its widest cell. Cells have a bar between them.

# A heading that begins with < is of a column of words, which stand at its left; numbers stand at the right.
function begin_table(headings,  i) {
  rows = 0
  columns = split(headings, heading, "|")
  for (i = 1; i <= columns; i++) {
    wide[i] = 0
    side[i] = sub(/^</, "", heading[i]) ? "-" : ""
  }
  gsub(/</, "", headings)
  row(headings)
}

function row(cells,  i, values) {
  rows++
  split(cells, values, "|")
  for (i = 1; i <= columns; i++) {
    cell[rows, i] = values[i]
    wide[i] = most(wide[i], length(values[i]))
  }
}

function end_table(  i, k, line) {
  for (k = 1; k <= rows; k++) {
    line = ""
    for (i = 1; i <= columns; i++) line = line sprintf("  %" side[i] wide[i] "s", cell[k, i])
    sub(/ +$/, "", line)
    print line
  }
}
