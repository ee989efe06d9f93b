# Draws tapes as rows of cells, and candidates as bars under them. A row has ten cells in two halves: side by side on paper
# and on a wide screen, one under the other on a phone. A bar is cut where its row ends. What has the class phone is seen on
# a phone only, and what has the class wide everywhere else.
#
# What an empty stretch puts in is round: a pin between two cells of the tape, a narrow bar under it with its words beside
# it, and cells of the output. Pin and bar stand before the cell of their position, in that cell's row; at the tape's end
# they stand after the last cell, and the words before them.
#
#       0         1         2         3         4    | 5   ...   9       position
#   +---------+---------+---------+---------+--------|-
#   |    1    |    2    |    4    |    0    |    0   |                  TOP to TOP + BOX
#   | ripple  | press   | release | quiet   | quiet  |
#   +---------+---------+---------+---------+--------|-
#             [ rule 0 noise      ]                  |                  the lane of taken stretches
#             [ taken             ]                  |
#             [ rule 2 finish     ]                  |                  one more lane
#             [ rule 0 comes first]                  |
#                                () rule 3           |                  an empty stretch between 2 and 3
#                                () inside           |

BEGIN {
  HALF = 5
  ROW = 2 * HALF
  CELL = 64 # width of a cell; two halves are 640 and fit the 688 that A4 leaves between its margins
  TOP = 16
  BOX = 42
  LANE = 36
  BAR = 32
  PILL = 6 # width of an empty stretch's bar; the bars beside it leave it 8
}

function smaller(a, b) { return a < b ? a : b }
function larger(a, b) { return a > b ? a : b }

function svg_open(first, after, height, what) {
  print "<svg role=\"img\" aria-label=\"" what "\" width=\"" (after - first) * CELL \
    "\" height=\"" height "\" viewBox=\"0 0 " (after - first) * CELL " " height "\">"
}

function text_at(x, y, kind, words) {
  return "<text" (kind == "" ? "" : " class=\"" kind "\"") " x=\"" x "\" y=\"" y "\">" words "</text>"
}

# round is the radius of its corners, or empty
function rect_at(x, y, width, height, round) {
  return "<rect x=\"" x "\" y=\"" y "\" width=\"" width "\" height=\"" height "\"" \
    (round == "" ? "" : " rx=\"" round "\"") "/>"
}

# one cell; below is a text under it, or empty
function cell(x, position, c, kind, below,    middle, name) {
  middle = CELL / 2
  name = c in SYMBOL ? SYMBOL[c] : is_symbol(c) ? "" : "bad"
  print "<g class=\"cell" kind (is_symbol(c) ? "" : " bad") "\" transform=\"translate(" x " 0)\">" \
    rect_at(2, TOP, CELL - 4, BOX, kind == " inserted" ? BOX / 2 : "") \
    (is_symbol(c) ? "" : "<path d=\"M2 " TOP + 10 "v-10h10M" CELL - 12 " " TOP + BOX "h10v-10\"/>") \
    text_at(middle, 11, "at", position) \
    text_at(middle, TOP + (name == "" ? 27 : 19), "digit", c in UNSEEN ? UNSEEN[c] : escaped(c)) \
    (name == "" ? "" : text_at(middle, TOP + 35, "", name)) \
    (below == "" ? "" : text_at(middle, TOP + BOX + 14, "at", below)) "</g>"
}

# the deciding stretch by its rule; a rule that lost to a stretch of its own has its number in the bar already
function short_winner(line) { return deciding_rule[line] == rule[line] ? "taken" : "rule " deciding_rule[line] }

# what a bar says of its verdict, in the room of one cell or of more
function short_verdict(line, narrow) {
  if (verdict[line] == 0) return "taken"
  if (verdict[line] == 1) return narrow ? "shorter" : "shorter than " short_winner(line)
  if (verdict[line] == 2) return narrow ? deciding_rule[line] " first" : "rule " deciding_rule[line] " comes first"
  return narrow ? "inside" : "starts inside " short_winner(line)
}

function short_rule(line, narrow) {
  return narrow && (rule[line] in RULE) ? rule[line] " " RULE[rule[line]] : rule_word(rule[line])
}

# Teeth at a cut end of a bar: side is 1 where the bar goes on to the right, and -1 where it comes from the left.
function torn(x, y, side, where,    out, back) {
  out = 6 * side
  back = -out
  print "<path class=\"torn" where "\" d=\"M" x + side " " y - 1 "l" back " 6l" out " 5l" back " 6l" out " 6l" \
    back " 5l" out " 6\"/>"
}

# the outline of a bar, open at an end that is cut
function outline(left, right, y, cut_left, cut_right) {
  return "M" left " " y "H" right (cut_right ? "M" right " " y + BAR : "V" y + BAR) "H" left (cut_left ? "" : "V" y)
}

# Rule and verdict, in the middle of the cells from from up to and not including upto. That is the middle of a cut bar too:
# teeth take about as much of its last cell as the gap at an end that is not cut.
function bar_words(line, first, from, upto, y, where,    x, narrow) {
  x = (from + upto - 2 * first) * CELL / 2
  narrow = upto - from == 1
  print "<g class=\"words" (narrow ? " narrow" : "") where "\">" text_at(x, y + 13, "", short_rule(line, narrow)) \
    text_at(x, y + 26, "", short_verdict(line, narrow)) "</g>"
}

# The part of a candidate's bar that lies in the half from first up to and not including after. If the other half has a part
# too, the two touch and have one text between them; on a phone, where they do not touch, each has teeth and a text.
function bar(line, first, after, y,    from, upto, left, right, middle, both) {
  from = larger(start[line], first)
  upto = smaller(end[line], after)
  left = (from - first) * CELL + (start[line] < first ? 0 : 4)
  right = (upto - first) * CELL - (end[line] > after ? 0 : 4)
  middle = first - first % ROW + HALF
  both = start[line] < middle && end[line] > middle
  print "<g class=\"bar" (verdict[line] ? "" : " taken") "\">" rect_at(left, y, right - left, BAR) \
    "<path d=\"" outline(left, right, y, start[line] < first, end[line] > after) "\"/>"
  if (start[line] < first) torn(0, y, -1, first == middle ? " phone" : "")
  if (end[line] > after) torn(right, y, 1, after == middle ? " phone" : "")
  bar_words(line, first, from, upto, y, both ? " phone" : "")
  if (both && first == middle) bar_words(line, first, larger(start[line], middle - HALF), upto, y, " wide")
  print "</g>"
}

# The bar of an empty stretch, in the half that begins at first: it has no room for words inside.
function narrow_bar(line, first, y,    x, at_end, beside) {
  x = (start[line] - first) * CELL
  at_end = room_from[line] < start[line]
  beside = x + (at_end ? -8 : 8)
  print "<g class=\"bar empty" (verdict[line] ? "" : " taken") (at_end ? " last" : "") "\">" \
    rect_at(x - PILL / 2, y, PILL, BAR, PILL / 2) "<g class=\"narrow\">" \
    text_at(beside, y + 13, "", short_rule(line, 1)) text_at(beside, y + 26, "", short_verdict(line, 1)) "</g></g>"
}

# a pin in the gap between two cells, or at an end of the tape
function pin(x) {
  print "<g class=\"pin\"><path d=\"M" x " 8V" TOP + BOX + 4 "\"/><circle cx=\"" x "\" cy=\"8\" r=\"6\"/></g>"
}

# Gives each candidate the cells under which it is drawn, from room_from up to and not including room_upto. An empty one has
# that of its position, for its words; at the tape's end it has the last one.
function give_room(    line) {
  for (line = 0; line < candidates; line++) {
    room_from[line] = is_empty(line) ? smaller(start[line], larger(tape_length - 1, 0)) : start[line]
    room_upto[line] = is_empty(line) ? room_from[line] + 1 : end[line]
  }
}

function in_row(line, first, after) { return room_from[line] < after && room_upto[line] > first }

# Gives each candidate of a row its lane, those that are taken first. Answers the number of lanes.
function give_lanes(first, after) { return fill_lanes(first, after, 0, fill_lanes(first, after, 1, 0)) }

# Gives each candidate of a row that is taken, or each that is not, the first lane from base on where it has room. Answers
# the number of lanes with these. Taken stretches never overlap and have one lane; but the words of one at the tape's end
# may need another.
function fill_lanes(first, after, taken, base,    line, lanes, lane_end, n) {
  lanes = base
  for (line = 0; line < candidates; line++) {
    if (!in_row(line, first, after) || (verdict[line] == 0) != taken) continue
    for (n = base; n < lanes && lane_end[n] > room_from[line]; n++);
    lane[line] = n
    lane_end[n] = room_upto[line]
    if (n == lanes) lanes++
  }
  return lanes
}

function tape_half(first, after, lanes,    i, line, y, what) {
  what = tape_length ? "tape, " positions_word(first, after) : "the empty tape"
  svg_open(first, after, TOP + BOX + 4 + lanes * LANE, what)
  for (i = first; i < after && i < tape_length; i++)
    cell((i - first) * CELL, i, symbol_at(i), i in taken_line ? " taken" : "", "")
  for (i = first; i < after || i == tape_length; i++) if (put_in_at(i)) pin((i - first) * CELL)
  for (line = 0; line < candidates; line++) {
    if (!in_row(line, first, after)) continue
    y = TOP + BOX + 6 + lane[line] * LANE
    if (is_empty(line)) narrow_bar(line, first, y)
    else bar(line, first, after, y)
  }
  print "</svg>"
}

# The empty tape has the room of one cell, for what is put in there.
function draw_tape(    row, half, after, lanes) {
  give_room()
  for (row = 0; row < larger(tape_length, 1); row += ROW) {
    after = smaller(row + ROW, larger(tape_length, 1))
    lanes = give_lanes(row, after)
    print "<div class=\"row\">"
    for (half = row; half < after; half += HALF) tape_half(half, smaller(half + HALF, after), lanes)
    print "</div>"
  }
}

function written_kind(i) { return replaced_line(i) >= 0 ? " taken" : inserted_line(i) >= 0 ? " inserted" : "" }

function output_half(first, after,    i) {
  svg_open(first, after, TOP + BOX + 20, "output, " positions_word(first, after))
  for (i = first; i < after; i++) cell((i - first) * CELL, i, substr(output, i + 1, 1), written_kind(i), "from " origin[i])
  print "</svg>"
}

function draw_output(    row, half, after) {
  for (row = 0; row < output_length; row += ROW) {
    after = smaller(row + ROW, output_length)
    print "<div class=\"row\">"
    for (half = row; half < after; half += HALF) output_half(half, smaller(half + HALF, after))
    print "</div>"
  }
}
