# The page: what the answer says in short, how to read it, the tape with its candidates, the output with its origins, and
# a sentence a candidate.

BEGIN { LONGEST_TITLE = 24 }

function print_style(    row) {
  print "<style>"
  while ((getline row < style) > 0) print row
  if (empty_candidates) while ((getline row < inserted_style) > 0) print row
  print "</style>"
}

function title_words() {
  if (tape_length == 0) return "The empty tape"
  return "Tape " escaped_word(substr(tape, 1, LONGEST_TITLE)) (tape_length > LONGEST_TITLE ? "…" : "")
}

function print_head() {
  print "<!DOCTYPE html>\n<html lang=\"en\">\n<head>\n<meta charset=\"utf-8\">"
  print "<meta name=\"viewport\" content=\"width=device-width, initial-scale=1\">"
  print "<title>" title_words() "</title>"
  print_style()
  print "</head>\n<body>\n<h1>" title_words() "</h1>"
}

function print_refusal() {
  print "<p class=\"refusal\"><strong>" (given_output ? "No account" : "Refused") ", reply " number ", place " place ":</strong>"
  print reason() (place_words() == "" ? "" : "; " place_words()) ".</p>"
}

function print_summary() {
  if (tape_length == 0) print "<p>The tape is empty."
  else print "<p>The tape has " count_word(tape_length, given_output ? "symbol" : "character") "."
  if (given_output) {
    print "The program takes " count_word(stretches_taken, "stretch", "stretches") (refused ? ", and" : ",")
    print "its output has " count_word(output_length, "symbol") (refused ? "." : ",")
  }
  if (given_output && !refused) print "and its account has " count_word(candidates, "candidate") "."
  print "</p>"
}

# what only a page with an empty candidate has to explain
function where_empty(words) { return empty_candidates ? "\n" words : "" }

function print_key() {
  print "<p class=\"key\">Positions are counted from 0, and a stretch is named by the positions that belong to it, the"
  print "last one too: “positions 1 to 5” are the five cells 1, 2, 3, 4 and 5. Thick cells and black bars are taken; a"
  print "dashed bar is a candidate that is not taken; a torn end goes on in the next row." \
    where_empty("A narrow bar, between two cells or at an end of the tape, is an empty stretch: its rule removes nothing" \
      "\nand puts its word in there. A pin on the tape shows where one is taken.") "</p>"
}

function print_tape() {
  print "<h2>The tape" (candidates ? " and its candidates" : "") "</h2>"
  if (candidates) print_key()
  draw_tape()
}

function print_output() {
  print "<h2>The output</h2>"
  if (output_length == 0) { print "<p>The output is empty.</p>"; return }
  print "<p class=\"key\">Under each symbol stands its origin: a kept symbol’s own position on the tape, or the start of"
  print "the stretch that was replaced" (candidates ? " (thick cells)" : "") ". Where two or more symbols replace a stretch,"
  print "the last one’s origin is the stretch’s last position." inserted_key() "</p>"
  draw_output()
}

# Without an account only an origin at the tape's end tells that something was put in.
function inserted_key() {
  if (!empty_candidates && origin[output_length - 1] < tape_length) return ""
  return "\nA symbol that was put in" (candidates ? " (round cells)" : "") \
    " has the position that it was put in before, and " tape_length " at the tape’s end."
}

function print_account(    line) {
  print "<h2>In words</h2>"
  if (!candidates) { print "<p>No rule has a candidate on this tape.</p>"; return }
  print "<p class=\"key\">Behind each sentence stands the program’s own line: rule, start, end, verdict, deciding start,"
  print "deciding rule. Its end is the position after the last one, so positions 1 to 5 stand there as 1 6; the deciding"
  print "start and rule are those of the stretch that was taken." \
    where_empty("The end of an empty stretch is its start, so between positions 3 and 4 stands there as 4 4.") "</p>\n<ul>"
  for (line = 0; line < candidates; line++)
    print "<li" (verdict[line] ? "" : " class=\"taken\"") "><span>" sentence(line) "</span>" \
      " <code>" printed[line] "</code></li>"
  print "</ul>"
}

END {
  if (failed) exit 1
  check_answer()
  read_words()
  print_head()
  if (refused) print_refusal()
  print_summary()
  if ((tape_length > 0 || candidates > 0) && number != 9) print_tape()
  if (given_output) print_output()
  if (given_output && !refused) print_account()
  print "<footer>Laid out from the program’s answer; nothing on this page was worked out anew.</footer>\n</body>\n</html>"
}
