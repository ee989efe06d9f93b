//! The commands through pipes, against the reference itself with and without a wrong reading.

use std::process::{Command, Output};

use second::answer::Answer;
use second::call::{Call, Lane, Lengths, Operation, Request};
use second::generate::calls::call;
use second::operations::answer;
use second::reading::Reading;

const SECOND: &str = env!("CARGO_BIN_EXE_second");

fn second(arguments: &[&str]) -> Output {
    Command::new(SECOND).args(arguments).output().expect("the second program runs")
}

fn printed(output: &Output) -> String {
    String::from_utf8_lossy(&output.stdout).into_owned()
}

fn last_line(output: &Output) -> String {
    printed(output).lines().last().unwrap_or_default().to_string()
}

#[test]
fn requests_and_answers_are_read_as_they_were_written() {
    for number in 0..900 {
        let call = call(4, number);
        let bytes = call.to_bytes();
        let mut rest = &bytes[..];
        let Ok(Request::Call(read)) = Call::read(&mut rest) else { panic!("call {number} is no request") };
        assert!(rest.is_empty() && *read == call, "call {number}");
        let answer = answer(&call, Reading::TRUE);
        let answer_bytes = answer.to_bytes();
        let mut rest = &answer_bytes[..];
        assert_eq!(Answer::read(&call, &mut rest).expect("an answer"), answer);
        assert!(rest.is_empty(), "call {number}");
    }
}

/// Byte by byte, since reading and writing could share a mistake.
#[test]
fn a_heat_is_sent_and_answered_with_its_lanes_last() {
    let mut heat = Call::new(Operation::Heat);
    (heat.fill, heat.book, heat.tape) = (0x5a, vec![4], vec![7, 8, 9]);
    heat.lengths = Lengths { rows: 1, sets: 1, scratch: 3, out: 2, origins: 4, lines: 0 };
    heat.lanes = vec![Lane { start: 1, length: 2 }, Lane { start: 1 << 56, length: 0 }];
    let lengths = [1, 3, 1, 1, 3, 2, 4, 2, 0].map(u32::to_le_bytes).concat();
    let bounds = [[1u64, 2], [1 << 56, 0]].map(|lane| lane.map(u64::to_le_bytes).concat());
    assert_eq!(heat.to_bytes(), [&[6, 0x5a], &lengths[..], &[4, 7, 8, 9], &bounds.concat()].concat());
    // Its book is refused with 4, so that everything lent is as it was: rows, sets, scratch, out, two bytes an origin.
    let refused = [&[6, 4], &[0; 8 + 4 * 8][..], &[0x5a; 1 + 8 + 3 + 2 + 2 * 4]].concat();
    let lanes = bounds.map(|bounds| [&bounds[..], &[0x5a; 8 + 8 + 1 + 8]].concat());
    assert_eq!(answer(&heat, Reading::TRUE).to_bytes(), [refused, lanes.concat()].concat());
}

#[test]
fn bad_requests_are_refused() {
    let refused = |bytes: &[u8]| matches!(Call::read(&mut &bytes[..]), Ok(Request::Refused));
    let good = Call::new(Operation::Check).to_bytes();
    assert!(!refused(&good));
    assert!((1..good.len()).all(|length| refused(&good[..length])), "cut short");
    assert!([0, 8, 255].iter().all(|operation| refused(&[&[*operation], &good[1..]].concat())), "another operation");
    for length in 0..8 {
        let mut long = good.clone();
        long[2 + 4 * length..][..4].copy_from_slice(&131_073u32.to_le_bytes());
        assert!(refused(&long), "length {length}");
    }
    let heat =
        |lanes| Call { lanes: vec![Lane { start: 1, length: 2 }; lanes], ..Call::new(Operation::Heat) }.to_bytes();
    assert!(!refused(&heat(0)) && !refused(&heat(12)));
    assert!(refused(&heat(13)), "too many lanes to be sent");
    assert!((1..heat(2).len()).all(|length| refused(&heat(2)[..length])), "cut short");
    assert!(matches!(Call::read(&mut &[][..]), Ok(Request::Ended)));
}

#[test]
fn check_and_races_agree_with_themselves() {
    for run in ["check", "races"] {
        let output = second(&[run, "5", "600", "--door", &format!("{SECOND} serve")]);
        assert!(output.status.success(), "{}", printed(&output));
        assert_eq!(last_line(&output), "600 passed, 0 failed");
    }
}

#[test]
fn check_finds_and_repeats_a_small_case() {
    finds_and_repeats(["check", "one"], 250, "longest-focus-first");
    finds_and_repeats(["check", "one"], 250, "refused-lane-uses-needed");
    finds_and_repeats(["check", "one"], 250, "end-not-rewritten");
    finds_and_repeats(["check", "one"], 250, "destination-first");
    finds_and_repeats(["check", "one"], 250, "last-faulty-line");
    finds_and_repeats(["check", "one"], 250, "import-room-missing");
}

#[test]
fn races_find_and_repeat_a_small_case() {
    // The law is broken; the joined tape and the two tapes alone differ from the reference.
    finds_and_repeats(["races", "race"], 2400, "left-anchored");
    finds_and_repeats(["races", "race"], 2400, "highest-rule-ties");
}

/// The command that repeats the case is given as many hex digits at most.
fn finds_and_repeats([run, repeat]: [&str; 2], most_digits: usize, wrong: &str) {
    let door = format!("{SECOND} serve --wrong {wrong}");
    let output = second(&[run, "6", "600", "--door", &door]);
    assert!(!output.status.success());
    assert!(last_line(&output).ends_with(" passed, 1 failed"));
    let text = printed(&output);
    let command = text.lines().find(|line| line.starts_with("repeat it with: ")).expect("a command");
    let request = command.split(' ').next_back().expect("the request");
    assert!(request.len() < most_digits, "a case of {} digits is not small: {text}", request.len());
    let again = second(&[repeat, request, "--door", &door]);
    assert!(!again.status.success());
    assert!(printed(&again).contains("differs: "));
    assert!(second(&[repeat, request, "--door", &format!("{SECOND} serve")]).status.success());
}

#[test]
fn check_and_races_notice_a_door_that_stops() {
    for run in ["check", "races"] {
        for door in ["true", "false", "head -c 100000"] {
            let output = second(&[run, "5", "50", "--door", door]);
            assert!(!output.status.success(), "{door}");
            assert!(last_line(&output).ends_with(" passed, 1 failed"), "{door}: {}", printed(&output));
        }
        assert!(!second(&[run, "5", "50", "--door", "no-such-command"]).status.success());
    }
}

#[test]
fn program_agrees_with_itself_and_repeats_a_small_input() {
    let output = second(&["program", "5", "300", "--pads", &format!("{SECOND} pads")]);
    assert!(output.status.success(), "{}", printed(&output));
    assert_eq!(last_line(&output), "300 passed, 0 failed");
    let pads = format!("{SECOND} pads --wrong account-of-5999");
    let output = second(&["program", "5", "300", "--pads", &pads]);
    assert!(!output.status.success());
    let text = printed(&output);
    let command = text.lines().find(|line| line.starts_with("repeat it with: ")).expect("a command");
    let input = command.split(' ').next_back().expect("the input");
    assert!(!second(&["tapes", input, "--pads", &pads]).status.success());
    assert!(second(&["tapes", input, "--pads", &format!("{SECOND} pads")]).status.success());
}
