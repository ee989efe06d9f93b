//! The hand-worked table of document 01, the account of case 8, and the program's example; lines have the sixth word of
//! document 02, No. 1. Beside the table stand rows of our own for document 02, No. 4 to No. 6.

use second::account::{Line, WORDS_A_LINE};
use second::answer::Answer;
use second::call::{Call, Lengths, Operation};
use second::digits::shown;
use second::draft::{self, Part, Rule};
use second::operations::answer;
use second::reading::Reading;
use second::{hand, house, program};

/// A call with room for everything.
fn call(operation: Operation, book: &[u8], tape: &[u8]) -> Call {
    let mut call = Call::new(operation);
    call.fill = 0xee;
    call.book = book.to_vec();
    call.tape = tape.to_vec();
    call.lengths = Lengths { rows: 16_384, sets: 512, scratch: tape.len() + 1, out: 50, origins: 50, lines: 100 };
    call
}

fn answered(operation: Operation, book: &[u8], tape: &[u8]) -> Answer {
    answer(&call(operation, book, tape), Reading::TRUE)
}

fn digits(tape: &str) -> Vec<u8> {
    tape.chars().map(|digit| digit.to_digit(32).expect("0 to 9 or a to v") as u8).collect()
}

/// One row of the table: output and origins, and nothing written past them.
fn works_out(case: &str, book: &[u8], tape: &[u8], output: &[u8], origins: &[u16]) {
    let answer = answered(Operation::Rewrite, book, tape);
    assert_eq!(answer.reply, 0, "{case}");
    assert_eq!(answer.counts[0] as usize, output.len(), "{case}");
    assert_eq!(shown(&answer.lent.out[..output.len()]), shown(output), "{case}");
    assert_eq!(&answer.lent.origins[..output.len()], origins, "{case}");
    assert!(answer.lent.out[output.len()..].iter().all(|symbol| *symbol == 0xee), "{case}");
    assert!(answer.lent.origins[output.len()..].iter().all(|origin| *origin == 0xeeee), "{case}");
}

#[test]
fn cases_1_to_11() {
    let house = house::book();
    let of_house: [(&str, &str, &[u16]); 7] = [
        ("12400", "1a00", &[0, 1, 3, 4]),
        ("023345", "085", &[0, 1, 5]),
        ("240", "240", &[0, 1, 2]),
        ("2400", "900", &[0, 2, 3]),
        ("1242400", "1a900", &[0, 1, 3, 5, 6]),
        ("24245", "2485", &[0, 1, 2, 4]),
        ("", "", &[]),
    ];
    for (at, (tape, output, origins)) in of_house.into_iter().enumerate() {
        works_out(&format!("case {}", at + 1), &house, &digits(tape), &digits(output), origins);
    }
    let of_letters: [(Vec<u8>, &str, &str, &[u16]); 4] = [
        (hand::p(), "aaaaaabaaab", "aAbaAb", &[0, 1, 6, 7, 8, 10]),
        (hand::q(), "baaaab", "bAab", &[0, 1, 4, 5]),
        (hand::s(), "xyzzxxyz", "xzxz", &[0, 3, 4, 7]),
        (hand::s(), "xyzzxxyzz", "xzxzz", &[0, 3, 4, 7, 8]),
    ];
    for (at, (book, tape, output, origins)) in of_letters.into_iter().enumerate() {
        works_out(&format!("case {}", at + 8), &book, &hand::tape(tape), &hand::tape(output), origins);
    }
}

/// Taken are 2334, 55 and 24.
const CONTACTS: &str = "12334055245";

/// Document 02, No. 4: rows of our own.
#[test]
fn time_of_a_mark() {
    let (output, origins) = (digits("1240676245"), [0, 1, 4, 5, 6, 6, 7, 8, 9, 10]);
    works_out("contacts", &hand::contacts(), &digits(CONTACTS), &output, &origins);
    // The one rule's focus and word, tape, output, origins.
    let rows: [(&str, &str, &str, &str, &[u16]); 7] = [
        ("1111", "", "011110", "00", &[0, 5]),
        ("1111", "9", "011110", "090", &[0, 1, 5]),
        ("1111", "98", "011110", "0980", &[0, 1, 4, 5]),
        ("1111", "987654", "011110", "09876540", &[0, 1, 1, 1, 1, 1, 4, 5]),
        ("12", "01234567", "12312", "01234567301234567", &[0, 0, 0, 0, 0, 0, 0, 1, 2, 3, 3, 3, 3, 3, 3, 3, 4]),
        ("1", "9", "010", "090", &[0, 1, 2]),
        ("1", "98", "0110", "098980", &[0, 1, 1, 2, 2, 3]),
    ];
    for (focus, word, tape, output, origins) in rows {
        let rule = Rule::new(Part::any(), Part::word(&digits(focus)), Part::any(), &digits(word));
        let case = format!("{focus} to {word}");
        works_out(&case, &draft::book(&[rule]), &digits(tape), &digits(output), origins);
    }
}

/// The account has these lines, and nothing is written past them.
fn accounts_for(book: &[u8], tape: &[u8], lines: &[Line]) {
    let answer = answered(Operation::Account, book, tape);
    assert_eq!((answer.reply, answer.counts), (0, [lines.len() as u64, 0, 0, 0]));
    let (written, past) = answer.lent.lines.split_at(WORDS_A_LINE * lines.len());
    assert_eq!(written, lines.concat());
    assert!(past.iter().all(|word| *word == 0xeeee));
}

#[test]
fn nine_lines_of_case_8() {
    let lines = [
        [0, 1, 3, 1, 1, 0],
        [0, 1, 4, 1, 1, 0],
        [0, 1, 6, 0, 1, 0],
        [0, 2, 4, 3, 1, 0],
        [0, 2, 6, 3, 1, 0],
        [0, 3, 6, 3, 1, 0],
        [0, 4, 6, 3, 1, 0],
        [1, 5, 7, 3, 1, 0],
        [0, 8, 10, 0, 8, 0],
    ];
    accounts_for(&hand::p(), &hand::tape("aaaaaabaaab"), &lines);
}

/// Document 02, No. 4, leaves accounts "as they are": no last position stands in a line.
#[test]
fn three_lines_of_the_contacts() {
    accounts_for(&hand::contacts(), &digits(CONTACTS), &[[0, 1, 5, 0, 1, 0], [1, 6, 8, 0, 6, 1], [0, 8, 10, 0, 8, 0]]);
}

/// Document 02, No. 5: rows of our own, each with its account.
struct Row<'a> {
    /// Left, focus and right word and replacement of each rule; an empty left or right word is no condition.
    rules: &'a [[&'a str; 4]],
    tape: &'a str,
    output: &'a str,
    origins: &'a [u16],
    lines: &'a [Line],
}

const INSERTED: [Row; 13] = [
    // At the tape's front, between, at its end, at each place, into the empty tape.
    Row {
        rules: &[["", "", "1", "9"]],
        tape: "123",
        output: "9123",
        origins: &[0, 0, 1, 2],
        lines: &[[0, 0, 0, 0, 0, 0]],
    },
    Row {
        rules: &[["1", "", "2", "9"]],
        tape: "0120",
        output: "01920",
        origins: &[0, 1, 2, 2, 3],
        lines: &[[0, 2, 2, 0, 2, 0]],
    },
    Row {
        rules: &[["3", "", "", "9"]],
        tape: "123",
        output: "1239",
        origins: &[0, 1, 2, 3],
        lines: &[[0, 3, 3, 0, 3, 0]],
    },
    Row {
        rules: &[["", "", "", "9"]],
        tape: "12",
        output: "91929",
        origins: &[0, 0, 1, 1, 2],
        lines: &[[0, 0, 0, 0, 0, 0], [0, 1, 1, 0, 1, 0], [0, 2, 2, 0, 2, 0]],
    },
    Row {
        rules: &[["", "", "", "9876"]],
        tape: "",
        output: "9876",
        origins: &[0, 0, 0, 0],
        lines: &[[0, 0, 0, 0, 0, 0]],
    },
    // Words of two symbols and of eight have their position throughout; an empty one is inserted too.
    Row {
        rules: &[["2", "", "", "98"]],
        tape: "121",
        output: "12981",
        origins: &[0, 1, 2, 2, 2],
        lines: &[[0, 2, 2, 0, 2, 0]],
    },
    Row {
        rules: &[["2", "", "", "01234567"]],
        tape: "12",
        output: "1201234567",
        origins: &[0, 1, 2, 2, 2, 2, 2, 2, 2, 2],
        lines: &[[0, 2, 2, 0, 2, 0]],
    },
    Row { rules: &[["1", "", "", ""]], tape: "12", output: "12", origins: &[0, 1], lines: &[[0, 1, 1, 0, 1, 0]] },
    // At the end of a taken stretch; inside one.
    Row {
        rules: &[["", "12", "", "7"], ["2", "", "", "9"]],
        tape: "0123",
        output: "0793",
        origins: &[0, 1, 3, 3],
        lines: &[[0, 1, 3, 0, 1, 0], [1, 3, 3, 0, 3, 1]],
    },
    Row {
        rules: &[["1", "", "", "9"], ["", "12", "", "78"]],
        tape: "0123",
        output: "0783",
        origins: &[0, 1, 2, 3],
        lines: &[[1, 1, 3, 0, 1, 1], [0, 2, 2, 3, 1, 1]],
    },
    // Shorter than another at its start; of two rules the lowest; a stretch is taken right after the symbol kept.
    Row {
        rules: &[["", "", "1", "9"], ["", "1", "", "7"]],
        tape: "010",
        output: "070",
        origins: &[0, 1, 2],
        lines: &[[0, 1, 1, 1, 1, 1], [1, 1, 2, 0, 1, 1]],
    },
    Row {
        rules: &[["", "3", "", ""], ["1", "", "", "9"], ["", "", "2", "8"]],
        tape: "12",
        output: "192",
        origins: &[0, 1, 1],
        lines: &[[1, 1, 1, 0, 1, 1], [2, 1, 1, 2, 1, 1]],
    },
    Row {
        rules: &[["0", "", "", "9"], ["", "23", "", "7"]],
        tape: "0123",
        output: "0917",
        origins: &[0, 1, 1, 2],
        lines: &[[0, 1, 1, 0, 1, 0], [1, 2, 4, 0, 2, 1]],
    },
];

#[test]
fn marks_put_in() {
    for Row { rules, tape, output, origins, lines } in INSERTED {
        let part = |word: &str| Part::word(&digits(word));
        let rule =
            |[left, focus, right, word]: &[&str; 4]| Rule::new(part(left), part(focus), part(right), &digits(word));
        let book = draft::book(&rules.iter().map(rule).collect::<Vec<_>>());
        works_out(&format!("{rules:?} on {tape}"), &book, &digits(tape), &digits(output), origins);
        accounts_for(&book, &digits(tape), lines);
        let taken = lines.iter().filter(|line| line[3] == 0).count();
        assert_eq!(answered(Operation::Rewrite, &book, &digits(tape)).counts[1], taken as u64, "{rules:?} on {tape}");
    }
}

/// Any number of 1's to 9: two of them are taken, and empty stretches before and after, also right at their end.
#[test]
fn a_focus_of_any_length() {
    let book = draft::book(&[Rule::new(Part::any(), Part::word(&[]).with_arc(0, 1, 1, 0), Part::any(), &[9])]);
    works_out("any number of 1's", &book, &digits("2112"), &digits("929929"), &[0, 0, 1, 3, 3, 4]);
    let lines = [
        [0, 0, 0, 0, 0, 0],
        [0, 1, 1, 1, 1, 0],
        [0, 1, 2, 1, 1, 0],
        [0, 1, 3, 0, 1, 0],
        [0, 2, 2, 3, 1, 0],
        [0, 2, 3, 3, 1, 0],
        [0, 3, 3, 0, 3, 0],
        [0, 4, 4, 0, 4, 0],
    ];
    accounts_for(&book, &digits("2112"), &lines);
}

/// Before the finish at the front 7; 234 is a turn, and 6 is put in at its end; the mark after the turn wins over the 7
/// before the finish; 24 wins over the mark after the turn before it; at the tape's end a mark once more.
const LAPS: &str = "9234898248";

#[test]
fn laps() {
    let origins = [0, 0, 1, 4, 4, 5, 5, 5, 6, 7, 9, 9, 10, 10];
    works_out("laps", &hand::laps(), &digits(LAPS), &digits("79868bc98868bc"), &origins);
    assert_eq!(answered(Operation::Rewrite, &hand::laps(), &digits(LAPS)).counts, [14, 7, 0, 0]);
    let lines = [
        [3, 0, 0, 0, 0, 3],
        [1, 1, 4, 0, 1, 1],
        [2, 2, 2, 3, 1, 1],
        [2, 3, 3, 3, 1, 1],
        [2, 4, 4, 0, 4, 2],
        [0, 5, 5, 0, 5, 0],
        [3, 5, 5, 2, 5, 0],
        [0, 7, 7, 1, 7, 1],
        [1, 7, 9, 0, 7, 1],
        [2, 8, 8, 3, 7, 1],
        [2, 9, 9, 0, 9, 2],
        [0, 10, 10, 0, 10, 0],
    ];
    accounts_for(&hand::laps(), &digits(LAPS), &lines);
}

/// Both times rule 0 takes what stands after f and before quiet, and wins over rule 1 there; at the end rule 1 has no
/// quiet after it.
const LEDGE: &str = "fgv0fghg0fg1";

/// Document 02, No. 6: a row of our own.
#[test]
fn ledge() {
    let origins = [0, 1, 3, 4, 5, 8, 9, 10, 10, 11];
    works_out("ledge", &hand::ledge(), &digits(LEDGE), &digits("fv0fv0fgf1"), &origins);
    let lines = [
        [1, 1, 2, 1, 1, 0],
        [0, 1, 3, 0, 1, 0],
        [0, 2, 3, 3, 1, 0],
        [1, 5, 6, 1, 5, 0],
        [0, 5, 8, 0, 5, 0],
        [0, 6, 8, 3, 5, 0],
        [0, 7, 8, 3, 5, 0],
        [1, 10, 11, 0, 10, 1],
    ];
    accounts_for(&hand::ledge(), &digits(LEDGE), &lines);
}

/// For each symbol a book that makes it 31 less that symbol, on a tape of all of them.
#[test]
fn every_symbol_is_replaced_kept_and_written() {
    let tape: Vec<u8> = (0..32).collect();
    let origins: Vec<u16> = (0..32).collect();
    for symbol in 0..32 {
        let (focus, word) = (Part::word(&[symbol]), 31 - symbol);
        let mut output = tape.clone();
        output[symbol as usize] = word;
        let book = draft::book(&[Rule::new(Part::any(), focus, Part::any(), &[word])]);
        works_out(&format!("{symbol} to {word}"), &book, &tape, &output, &origins);
    }
}

/// Rule 0 x, rule 1 y, rules 2 to 4 xyz: rule 2 decides by every verdict, and neither the lowest rule nor the last one
/// taken does.
#[test]
fn every_verdict_has_its_deciding_rule() {
    let foci = ["x", "y", "xyz", "xyz", "xyz"];
    let rules = foci.map(|focus| Rule::new(Part::any(), Part::word(&hand::tape(focus)), Part::any(), &[]));
    let lines = [
        [0, 0, 1, 1, 0, 2],
        [2, 0, 3, 0, 0, 2],
        [3, 0, 3, 2, 0, 2],
        [4, 0, 3, 2, 0, 2],
        [1, 1, 2, 3, 0, 2],
        [1, 3, 4, 0, 3, 1],
    ];
    accounts_for(&draft::book(&rules), &hand::tape("xyzy"), &lines);
}

#[test]
fn house_book_has_its_148_bytes() {
    let book = house::book();
    assert_eq!(book.len(), 148);
    assert_eq!(answered(Operation::Check, &book, &[]).counts, [3, 19, 12, 0]);
    assert_eq!(answered(Operation::Build, &book, &[]).counts[0], 2, "two left sets");
}

#[test]
fn program_prints_the_example() {
    let printed = "W 4 1 1a00\nO 0 1 3 4\nC 0 1 3 0 1 0\nC 2 1 3 2 1 0\n";
    assert_eq!(program::run(b"12400", Reading::TRUE), printed);
    assert_eq!(program::run(b"12400\n", Reading::TRUE), printed);
}

#[test]
fn program_at_its_edges() {
    let prints = |input: &[u8], printed: &str| assert_eq!(program::run(input, Reading::TRUE), printed, "{input:?}");
    prints(b"", "");
    prints(b"\n", "W 0 0 -\nO -\n");
    prints(b"\n\n", "W 0 0 -\nO -\nW 0 0 -\nO -\n");
    prints(b"0\r\n", "X 10 1\n");
    prints(b"0A\n5", "X 10 1\nW 1 0 5\nO 0\n");
    prints(&[b'0'; 4097], "X 9 0\n");
    prints(&[b'z'; 4097], "X 9 0\n");
    // One candidate for each "245": 1,000 lines fit into 6,000 words, 1,001 do not.
    let fits = program::run(&b"245".repeat(1000), Reading::TRUE);
    assert_eq!(fits.lines().filter(|line| line.starts_with('C')).count(), 1000);
    let short = program::run(&b"245".repeat(1001), Reading::TRUE);
    assert!(short.starts_with("W 2002 1001 85") && short.ends_with("\nX 15 6006\n"));
    assert_eq!(short.lines().count(), 3);
}

/// Document 02, No. 6: "The program prints and reads 0 to 9 and a to v, and another character counts as 32."
#[test]
fn program_reads_and_prints_0_to_9_and_a_to_v() {
    let prints = |input: &str, printed: &str| assert_eq!(program::run(input.as_bytes(), Reading::TRUE), printed);
    let origins = "O 0 1 2 3 4 5 6 7 8 9 10 11 12 13 14 15\n";
    prints("ghijklmnopqrstuv", &format!("W 16 0 ghijklmnopqrstuv\n{origins}"));
    prints("fedcba9876543210", &format!("W 16 0 fedcba9876543210\n{origins}"));
    // A touch between events of the ledge, before quiet and before them.
    prints("v2400g\n24g", "W 5 1 v900g\nO 0 1 3 4 5\nC 2 1 3 0 1 2\nW 3 0 24g\nO 0 1 2\n");
    prints("w", "X 10 0\n");
    prints("vw", "X 10 1\n");
    prints("gG\nvV0\nffF", "X 10 1\nX 10 1\nX 10 2\n");
    prints("g0`\n9:\n/v\nz", "X 10 2\nX 10 1\nX 10 0\nX 10 0\n");
    for byte in (0..=255u8).filter(|byte| *byte != b'\n') {
        let printed = match "0123456789abcdefghijklmnopqrstuv".contains(byte as char) {
            true => format!("W 2 0 v{}\nO 0 1\n", byte as char),
            false => "X 10 1\n".to_string(),
        };
        assert_eq!(program::run(&[b'v', byte], Reading::TRUE), printed, "{byte}");
    }
}

#[test]
fn show_hands_back_stretches() {
    let mut call = Call::new(Operation::Show);
    call.tape = hand::tape("aaaaaabaaab");
    let lines = [
        [0, 8, 10, 0, 8, 0],
        [1, 5, 7, 3, 1, 0],
        [0, 5, 5, 0, 5, 0],
        [0, 11, 11, 0, 11, 0],
        [0, 0, 0, 0, 0, 0],
        [0, 5, 4, 0, 5, 0],
        [0, 10, 12, 0, 10, 0],
        [0, 12, 12, 0, 12, 0],
    ];
    call.account = [lines.concat(), vec![1, 10, 11, 0, 10]].concat();
    let shown = |line: u32| {
        let answer = answer(&Call { line, ..call.clone() }, Reading::TRUE);
        (answer.place, answer.counts[0], answer.part)
    };
    assert_eq!(shown(0), (8, 2, hand::tape("aa")));
    assert_eq!(shown(1), (5, 2, hand::tape("ab")));
    // "SHOW gives an empty stretch as an empty part at its start": inside the tape, at its end, at its front.
    assert_eq!([2, 3, 4].map(shown), [5, 11, 0].map(|start| (start, 0, Vec::new())));
    // Start above end, end past the tape twice, a line without its sixth word, no such line, numbers that could wrap
    // around: 2^31 and one more would be lines 0 and 1.
    for line in [5, 6, 7, 8, 9, 715_827_882, 715_827_883, 1 << 31, (1 << 31) + 1, u32::MAX] {
        assert_eq!(shown(line), (0, 0, Vec::new()), "line {line}");
    }
}
