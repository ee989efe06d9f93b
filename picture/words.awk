# The words of the page: names of symbols and rules, the sentence of a candidate, the reasons of the replies. All of them
# are document 01's; a number that it may change stands in BEGIN, once.

BEGIN {
  DIGITS = "0123456789abcdefghijklmnopqrstuv" # of symbols 0 and up
  LAST_SYMBOL = length(DIGITS) - 1
  LONGEST_TAPE = "4,096"
  MOST_SETS = 256
  PRINTABLE = "!\"#$%&'()*+,-./:;<=>?@ABCDEFGHIJKLMNOPQRSTUVWXYZ[\\]^_`abcdefghijklmnopqrstuvwxyz{|}~" DIGITS
  UNSEEN[" "] = "space"; UNSEEN["\t"] = "tab"; UNSEEN["\r"] = "CR"
  LONGEST_LIST = 12 # so many groups of symbols are listed in a sentence before it is cut
  if (names == "house") {
    SYMBOL["0"] = "quiet"; SYMBOL["1"] = "ripple"; SYMBOL["2"] = "press"; SYMBOL["3"] = "hold"; SYMBOL["4"] = "release"
    SYMBOL["5"] = "push"; SYMBOL["8"] = "turn"; SYMBOL["9"] = "finish"; SYMBOL["a"] = "noise"
    RULE[0] = "noise"; RULE[1] = "turn"; RULE[2] = "finish"
  }
}

function escaped(c) {
  if (c == "&") return "&amp;"
  if (c == "<") return "&lt;"
  if (c == ">") return "&gt;"
  if (c == "\"") return "&quot;"
  return index(PRINTABLE, c) ? c : "&#xFFFD;"
}

function escaped_word(word,    i, out) {
  for (i = 1; i <= length(word); i++) out = out escaped(substr(word, i, 1))
  return out
}

function is_symbol(c) { return index(DIGITS, c) > 0 }

# a symbol in a sentence: by its name, or by its digit if it has none
function symbol_word(c) { return c in SYMBOL ? SYMBOL[c] : escaped(c) }

function rule_word(r) { return r in RULE ? "rule " r " " RULE[r] : "rule " r }

function count_word(n, one, many) {
  if (n == 0) return "no " one
  return n == 1 ? "1 " one : n " " (many == "" ? one "s" : many)
}

# the place of an empty stretch: between two positions, or at an end of the tape
function between_word(at) {
  if (tape_length == 0) return "on the empty tape"
  if (at == 0) return "before position 0"
  if (at == tape_length) return "after the last position"
  return "between positions " (at - 1) " and " at
}

# the stretch from first up to and not including after, named by the positions that belong to it
function positions_word(first, after) {
  if (after == first) return between_word(first)
  if (after - first == 1) return "position " first
  return "positions " first (after - first == 2 ? " and " : " to ") (after - 1)
}

# the symbols of a word of digits; three or more of a kind in a row are counted
function symbols_word(word,    i, run, groups, out) {
  if (word == "") return "nothing"
  if (names != "house") out = length(word) == 1 ? "symbol " : "symbols "
  for (i = 1; i <= length(word); i += run) {
    if (groups == LONGEST_LIST) return out " and " (length(word) - i + 1) " more"
    for (run = 1; substr(word, i + run, 1) == substr(word, i, 1); run++);
    if (run == 2) run = 1
    out = out (groups++ ? " " : "") symbol_word(substr(word, i, 1)) (run > 1 ? " (" run " times)" : "")
  }
  return out
}

# the positions of the deciding stretch
function deciding_positions(line) { return positions_word(deciding_start[line], end[taken_from[deciding_start[line]]]) }

# what a taken line writes; both times where its symbols have two
function written_words(line,    word) {
  word = written[line]
  if (first_origin[line] == last_origin[line]) return symbols_word(word)
  return symbols_word(substr(word, 1, length(word) - 1)) " from position " first_origin[line] " and " \
    symbols_word(substr(word, length(word))) " from position " last_origin[line]
}

# document 01, "The account": one sentence a line
function verdict_words(line,    by) {
  by = rule_word(deciding_rule[line])
  if (verdict[line] == 0 && is_empty(line)) return "taken, " written_words(line) " put in"
  if (verdict[line] == 0) return "taken, replaced by " written_words(line)
  if (verdict[line] == 1) return "shorter than " deciding_positions(line) ", taken at the same start by " by
  if (verdict[line] == 2) return (is_empty(line) ? "same place, " : "same stretch, ") by " comes first"
  return "starts inside " deciding_positions(line) ", taken by " by
}

function sentence(line) {
  return positions_word(start[line], end[line]) (is_empty(line) ? "" : ", " symbols_word(stretch(line))) ", " \
    rule_word(rule[line]) ": " verdict_words(line)
}

# document 01, "Reply numbers"; document 02, No. 5: "7 is no longer given"
function reason() {
  if (number == 1) return "the book stops before the kind byte of a record or inside its body"
  if (number == 2) return "the book has a record of an unknown kind"
  if (number == 3) return "the book has a 17th rule, a 65th state or a 513th arc"
  if (number == 4) return "the book has a state, an arc or its end before any rule"
  if (number == 5) return "a field of the book is outside its table, a symbol is above " LAST_SYMBOL ", or lowest is above highest"
  if (number == 6) return "an arc of the book names a state that the latest rule has not yet given, or joins two parts"
  if (number == 8) return "a byte follows the end record of the book"
  if (number == 9) return "the tape is longer than " LONGEST_TAPE " symbols"
  if (number == 10) return "the tape holds a character that is no symbol"
  if (number == 11) return "the workspace is too short"
  if (number == 12) return "the scratch is shorter than the tape and one more"
  if (number == 13) return "the book needs more than " MOST_SETS " left sets"
  if (number == 14) return "the book needs more than " MOST_SETS " right sets"
  if (number == 15 && given_output) return "the account has no room for all candidates"
  if (number == 15) return "an output buffer or the account has no room"
  return "a reply that this page has no words for"
}

# what the place means; empty where document 01 gives 0
function place_words() {
  if (number >= 1 && number <= 8 && number != 7) return "at byte " place " of the book"
  if (number == 10) return "the first one is at position " place
  if (number == 15) return place (given_output ? " words are needed" : " symbols or words are needed")
  return ""
}
