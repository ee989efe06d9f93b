# Reads the program's answer for one tape: W, O and a C line a candidate; or X; or W, O and X. An answer that cannot be
# laid out over this tape is refused, and no page is written; so is one whose C lines do not agree on what was taken, since
# then the page could not say which rule won, or whose origins do not agree with them, since then it could not say what
# replaced a stretch or was put in.

BEGIN {
  LINE_WORDS = 6 # rule, start, end, verdict, deciding start, deciding rule
  tape = ENVIRON["TAPE"] ""
  tape_length = length(tape)
  origins = candidates = empty_candidates = taken_lines = 0
}

function fail(message) {
  print "picture: " message | "cat 1>&2"
  failed = 1
  exit 1
}

function fail_line(message) { fail("line " NR " of the answer: " message) }

NR == 1 && $0 ~ "^W [0-9]+ [0-9]+ [" DIGITS "]+$" || NR == 1 && /^W 0 [0-9]+ -$/ {
  given_output = 1
  output = $4 == "-" ? "" : $4 ""
  output_length = $2 + 0
  stretches_taken = $3 + 0
  next
}

/^W / && NR > 1 { fail_line("a second tape begins") }

NR == 2 && given_output && $0 == "O -" { next }

NR == 2 && given_output && /^O [0-9 ]+$/ {
  for (i = 2; i <= NF; i++) {
    origin[i - 2] = $i + 0
    word_from[$i + 0] = word_from[$i + 0] substr(output, i - 1, 1)
  }
  origins = NF - 1
  next
}

NR > 2 && given_output && !refused && /^C( [0-9]+)+$/ && NF == 1 + LINE_WORDS && $5 ~ /^[0-3]$/ {
  printed[candidates] = $0
  rule[candidates] = $2 + 0
  start[candidates] = $3 + 0
  end[candidates] = $4 + 0
  verdict[candidates] = $5 + 0
  deciding_start[candidates] = $6 + 0
  deciding_rule[candidates] = $7 + 0 # which rule won, wherever the page names it
  if ($3 + 0 > $4 + 0 || $4 + 0 > tape_length) fail_line("the stretch is not one of this tape")
  if ($5 == 0 && $6 + 0 != $3 + 0) fail_line("it is taken, and its deciding start is not its own")
  if ($5 == 0 && $7 + 0 != $2 + 0) fail_line("it is taken, and its deciding rule is not its own")
  if ($5 == 0) take(candidates)
  if (is_empty(candidates)) empty_candidates++
  candidates++
  next
}

(NR == 1 || NR == 3) && !refused && /^X [0-9]+ [0-9]+$/ {
  refused = 1
  number = $2 + 0
  place = $3 + 0
  next
}

{ fail_line("it is not what the program prints here") }

# Gives its line to the start of a taken stretch and to each position that it replaces; an empty one replaces none. Taken
# stretches never overlap, an empty one lies inside none, and "no start is taken twice" (document 02, No. 5), so a start and
# a position have one line at most.
function take(line,    i) {
  check_free(start[line])
  for (i = start[line] + 1; i < end[line]; i++) check_free(i)
  taken_lines++
  taken_from[start[line]] = line
  for (i = start[line]; i < end[line]; i++) taken_line[i] = line
}

function check_free(at) {
  if (at in taken_from) fail_line("it is taken, and so is start " at " by an earlier line")
  if (at in taken_line) fail_line("it is taken, and so is position " at " by an earlier line")
}

function is_empty(line) { return start[line] == end[line] }

# whether an empty stretch is taken at a position, or at the tape's end
function put_in_at(at) { return (at in taken_from) && is_empty(taken_from[at]) }

# the answer as a whole, once it has been read
function check_answer(    i) {
  if (NR == 0) fail("the answer is empty")
  if (given_output && NR == 1) fail("the line O is missing")
  if (output_length != length(output) || output_length != origins) fail("W and O do not agree")
  check_characters(first_bad())
  for (i = 0; i < candidates; i++) {
    check_deciding(deciding_start[i], deciding_rule[i])
    check_verdict(i, taken_from[deciding_start[i]])
  }
  for (i = 0; i < origins; i++) check_origin(i)
  if (refused) return
  for (i = 0; i < tape_length; i++) check_kept(i)
  if (stretches_taken != taken_lines) fail("W has " stretches_taken " stretches taken, and the lines have " taken_lines)
}

# The tape beside the answer. Document 01, reply 10: its place is the "first such position"; and such a tape has no output.
function check_characters(bad) {
  if (given_output && bad >= 0) fail("position " bad " of the tape is no symbol, and the tape has an output")
  if (number == 10 && place != bad) fail("position " place " of the tape is not the first that is no symbol")
}

# the first position of the tape whose character is no symbol; -1 if all are
function first_bad(    i) {
  for (i = 0; i < tape_length; i++) if (!is_symbol(symbol_at(i))) return i
  return -1
}

# what a line says of the deciding stretch, beside the line that was taken there
function check_deciding(at, by) {
  if (!(at in taken_from)) fail("no line is taken at start " at)
  if (rule[taken_from[at]] != by)
    fail("the line taken at start " at " is of rule " rule[taken_from[at]] ", not of rule " by)
}

# The verdict of a line beside the line of the deciding stretch. Document 01: "1 shorter than the taken one at the same
# start; 2 same stretch, lower rule taken; 3 start strictly inside a taken stretch".
function check_verdict(line, by) {
  if (verdict[line] == 1 && (start[line] != start[by] || end[line] >= end[by]))
    fail(printed[line] " is not shorter than the line taken at start " start[by])
  if (verdict[line] == 2 && (start[line] != start[by] || end[line] != end[by] || rule[line] <= rule[by]))
    fail(printed[line] " is not the stretch of a lower rule taken at start " start[by])
  if (verdict[line] == 3 && (start[line] <= start[by] || start[line] >= end[by]))
    fail(printed[line] " does not start inside the line taken at start " start[by])
}

# The origin of an output symbol, beside the one before it and the taken stretch that it lies in. Document 02, No. 4: "When
# a replacement has two or more symbols, the last one's origin is the last position of the stretch; the others keep the
# start." No. 5: "Every origin of an inserted word is its position, n at the tape's end." Without an account nothing says
# whether a word was inserted there.
function check_origin(i,    line, due) {
  if (origin[i] > tape_length || origin[i] == tape_length && !put_in_at(tape_length) && !refused)
    fail("an origin is outside this tape")
  if (i > 0 && origin[i] < origin[i - 1]) fail("the origins fall from " origin[i - 1] " to " origin[i])
  line = replaced_line(i)
  if (line < 0) return
  due = replaced_line(i - 1) == line && replaced_line(i + 1) != line ? end[line] - 1 : start[line]
  if (origin[i] != due)
    fail("output position " i " is from " origin[i] ", not from " due ", for " positions_word(start[line], end[line]))
}

# What the output has from a position that no taken stretch replaces. Document 02, No. 5: "the word is written and the
# symbol at that position is kept"; so that symbol is the last one from there, and the only one where nothing is put in.
function check_kept(at,    from) {
  if (at in taken_line) return
  from = word_from[at]
  if (from == "") fail("the output has nothing from position " at ", which is kept")
  if (substr(from, length(from)) != symbol_at(at))
    fail("the last output symbol from position " at " is " substr(from, length(from)) ", not the kept " symbol_at(at))
  if (length(from) > 1 && !put_in_at(at)) fail("the output has more than the kept symbol from position " at)
}

# The taken line whose stretch an output symbol replaces: the one that its origin lies in. -1 for a symbol that is kept or
# put in, whose own position is never replaced, and beyond the output.
function replaced_line(i) { return (i in origin) && (origin[i] in taken_line) ? taken_line[origin[i]] : -1 }

# The taken line of an empty stretch whose word an output symbol is of. -1 for every other symbol: also for the last one
# from its position, which is the kept one; but at the tape's end nothing is kept.
function inserted_line(i) {
  if (!put_in_at(origin[i])) return -1
  if (origin[i] < tape_length && !(((i + 1) in origin) && origin[i + 1] == origin[i])) return -1
  return taken_from[origin[i]]
}

# the taken line that wrote an output symbol; -1 for a kept one
function written_line(i) { return replaced_line(i) < 0 ? inserted_line(i) : replaced_line(i) }

# The word of each taken line, with the origins of its first and of its last symbol.
function read_words(    i, line) {
  for (i = 0; i < origins; i++) {
    line = written_line(i)
    if (line < 0) continue
    if (!(line in written)) first_origin[line] = origin[i]
    last_origin[line] = origin[i]
    written[line] = written[line] substr(output, i + 1, 1)
  }
}

function symbol_at(position) { return substr(tape, position + 1, 1) }

function stretch(line) { return substr(tape, start[line] + 1, end[line] - start[line]) }
