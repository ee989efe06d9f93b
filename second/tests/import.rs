//! IMPORT by hand: each sentence of document 02, No. 7, its replies with their places, and what is left in the buffer.

use second::answer::Answer;
use second::call::{Call, Operation};
use second::operations::answer;
use second::reading::Reading;
use second::record::{arc, state};

/// A call with more room than any of these texts needs.
fn call(text: &[u8], part: u8, first: u8) -> Call {
    let mut call = Call::new(Operation::Import);
    (call.book, call.fill) = (text.to_vec(), 0x5a);
    call.line = u32::from_le_bytes([part, first, 0, 0]);
    call.lengths.out = 4000;
    call
}

fn imported(call: &Call) -> Answer {
    answer(call, Reading::TRUE)
}

/// Accepted with exactly these records, and nothing else written.
fn gives(text: &[u8], part: u8, first: u8, records: &[Vec<u8>]) {
    let call = call(text, part, first);
    let answer = imported(&call);
    let records = records.concat();
    let said = text.escape_ascii();
    assert_eq!((answer.reply, answer.place), (0, 0), "{said}");
    assert_eq!(answer.counts, [records.len() as u64, 0, 0, 0], "{said}");
    assert_eq!(answer.lent.out[..records.len()], records, "{said}");
    assert!(answer.lent.out[records.len()..].iter().all(|byte| *byte == 0x5a), "{said}");
}

/// Refused, and nothing written.
fn refused(call: &Call, reply: u8, place: u64) {
    let answer = imported(call);
    let said = call.in_words();
    assert_eq!((answer.reply, answer.place, answer.counts), (reply, place, [0; 4]), "{said}");
    assert!(answer.lent.out.iter().all(|byte| *byte == 0x5a), "{said}");
}

fn refuses(text: &[u8], reply: u8, place: u64) {
    refused(&call(text, 1, 0), reply, place);
}

/// Start 7, then 3, 5 and 9 as they appear; 9 appears as final alone.
#[test]
fn states_by_first_appearance_then_arcs_in_text_order() {
    let text = b"7\t3\t1\n3\t3\t32\n5\t7\t16\n3\n9\n7\t3\t1\n";
    for part in 0..3 {
        let flags = [1, 2, 0, 2].map(|flags| state(part, flags));
        let arcs = |n: u8| [arc(n, 0, 0, n + 1), arc(n + 1, 31, 31, n + 1), arc(n + 2, 15, 15, n), arc(n, 0, 0, n + 1)];
        for first in [0, 1, 60] {
            gives(text, part, first, &[flags.to_vec(), arcs(first).to_vec()].concat());
        }
        refused(&call(text, part, 61), 21, 0);
    }
}

#[test]
fn the_first_lines_first_state_is_the_start() {
    gives(b"4\n2\t4\t1\n", 0, 0, &[state(0, 3), state(0, 0), arc(1, 0, 0, 0)]);
    gives(b"4\n2\t3\t1\n", 0, 0, &[state(0, 3), state(0, 0), state(0, 0), arc(1, 0, 0, 2)]);
    gives(b"9\t0\t1\n0\n", 0, 0, &[state(0, 1), state(0, 2), arc(0, 0, 0, 1)]);
    gives(b"6\t6\t2\n", 0, 0, &[state(0, 1), arc(0, 1, 1, 0)]);
    gives(b"6\t6\t2\n6\n6\n", 2, 5, &[state(2, 3), arc(5, 1, 1, 5)]);
    gives(b"0\n", 1, 63, &[state(1, 3)]);
}

#[test]
fn an_empty_text_gives_one_state_with_flags_0() {
    for part in 0..3 {
        gives(b"", part, 0, &[state(part, 0)]);
        gives(b"", part, 63, &[state(part, 0)]);
        for first in [64, 65, 128, 255] {
            refused(&call(b"", part, first), 21, 0);
        }
    }
}

/// "20 two or four fields", whatever stands in them, and without a newline too.
#[test]
fn two_or_four_fields() {
    for line in
        ["1\t2", "\t", "x\ty", "1\t0.5", "1\t2\t3\t4", "\t\t\t", "1\t2\t3\t", "-\t\r\t \t0", "99999\t1", "1\t1\r"]
    {
        for ended in [line.to_string(), format!("{line}\n"), format!("{line}\n\n")] {
            refuses(ended.as_bytes(), 20, 0);
            refuses(&[b"1\t2\t3\n", ended.as_bytes()].concat(), 20, 6);
        }
    }
}

/// "else 18 not such a line or a state above 65,535"
#[test]
fn not_such_a_line() {
    let lines = [
        "\n",
        "1\r\n",
        "1\t2\t3\r\n",
        "+1\n",
        "-1\n",
        " 1\n",
        "1 \n",
        "1 2 3\n",
        "1\t\t3\n",
        "\t\t\n",
        "a\n",
        "1\t2\tx\n",
        "1\t2\t+3\n",
        "1\t2\t-0\n",
        "0x1\n",
        "1.0\n",
        "\0\n",
        "1\t2\t3\t4\t5\n",
        "\t\t\t\t\n",
        "1\t2\t3\t4\t5\t6\n",
        "65536\n",
        "65536\t1\t1\n",
        "1\t65536\t1\n",
        "4294967296\n",
        "18446744073709551616\n",
        "1",
        "1\t2\t3",
        "1\t2\t3\t4\t5",
        "00065536\n",
        "1\t340282366920938463463374607431768211456\t1\n",
    ];
    for line in lines {
        refuses(line.as_bytes(), 18, 0);
        refuses(&[b"65535\t0\t32\n", line.as_bytes()].concat(), 18, 11);
    }
}

/// "else 19 a label 0 or above 32", however long.
#[test]
fn labels() {
    for label in
        ["0", "00", "33", "033", "256", "257", "65537", "4294967297", "18446744073709551617", "99999999999999999999999"]
    {
        refuses(format!("1\t2\t{label}\n").as_bytes(), 19, 0);
        refuses(format!("7\n1\t2\t{label}\n").as_bytes(), 19, 2);
        // "else 18 .. else 19": another fault of the same line comes first.
        refuses(format!("1\t2\t{label}").as_bytes(), 18, 0);
        refuses(format!("1\t2\t{label}\r\n").as_bytes(), 18, 0);
        refuses(format!("1\t65536\t{label}\n").as_bytes(), 18, 0);
        refuses(format!("1\t2\t{label}\t\n").as_bytes(), 20, 0);
    }
    for label in 1..=32 {
        let symbol = label - 1;
        let records = [state(0, 1), state(0, 0), arc(0, symbol, symbol, 1)];
        gives(format!("1\t2\t{label}\n").as_bytes(), 0, 0, &records);
        gives(format!("0001\t00000000000000000000000000000002\t0{label}\n").as_bytes(), 0, 0, &records);
    }
}

/// The number decides which states are the same, not how it is written.
#[test]
fn leading_zeros() {
    gives(b"01\t1\t01\n0000000000000000000000001\n", 1, 9, &[state(1, 3), arc(9, 0, 0, 9)]);
    gives(b"065535\t65535\t032\n00\n0\n", 1, 0, &[state(1, 1), state(1, 2), arc(0, 31, 31, 0)]);
}

/// "by the first faulty line, with its offset"
#[test]
fn the_first_faulty_line_decides() {
    let (two, label, other) = ("1\t2\n", "1\t2\t0\n", "\n");
    for (first, reply) in [(two, 20), (label, 19), (other, 18)] {
        for second in [two, label, other] {
            refuses(format!("{first}{second}").as_bytes(), reply, 0);
            refuses(format!("5\n{first}3\n{second}").as_bytes(), reply, 2);
        }
    }
}

/// A text of so many states in a chain, and so many arcs.
fn chain(states: usize, arcs: usize) -> Vec<u8> {
    let chain = (1..states).map(|at| format!("{}\t{at}\t1\n", at - 1));
    let loops = (states.saturating_sub(1)..arcs).map(|_| "0\t0\t2\n".to_string());
    chain.chain(loops).collect::<String>().into_bytes()
}

/// "then 21 more than 512 arcs or a state number above 63"
#[test]
fn limits() {
    for (states, arcs, first, reply) in [
        (64, 63, 0, 0),
        (65, 64, 0, 21),
        (64, 63, 1, 21),
        (2, 1, 62, 0),
        (2, 1, 63, 21),
        (2, 1, 255, 21),
        (10, 9, 250, 21),
        (64, 63, 192, 21),
        (64, 512, 0, 0),
        (64, 513, 0, 21),
        (1, 512, 63, 0),
        (1, 513, 0, 21),
    ] {
        let call = call(&chain(states, arcs), 0, first);
        let answer = imported(&call);
        let length = if reply == 0 { 3 * states + 5 * arcs } else { 0 };
        assert_eq!(
            (answer.reply, answer.place, answer.counts[0]),
            (reply, 0, length as u64),
            "{states} {arcs} {first}"
        );
    }
    // A faulty line comes first, wherever it stands.
    for text in [chain(65, 64), chain(1, 513)] {
        refused(&call(&[&text, &b"5"[..]].concat(), 0, 0), 18, text.len() as u64);
        refused(&call(&[b"\n", &text[..]].concat(), 0, 0), 18, 0);
        let mut short = call(&text, 0, 0);
        short.lengths.out = 0;
        refused(&short, 21, 0);
    }
}

/// "5 for a part above 2", first of all; "then 15 with the bytes needed", last of all.
#[test]
fn part_and_room() {
    for part in [3, 4, 128, 255] {
        for text in [&b""[..], b"1\t2\t3\n", b"\n", b"1\t2\t0\n", b"1\t2\n", &chain(65, 64)] {
            refused(&call(text, part, 0), 5, 0);
            refused(&call(text, part, 255), 5, 0);
        }
    }
    for (text, needed) in [(&b""[..], 3), (b"1\n", 3), (b"1\t1\t1\n", 8), (b"1\t2\t1\n", 11), (b"1\t2\t1\n3\n2\n", 14)]
    {
        for room in 0..needed {
            let mut short = call(text, 2, 1);
            short.lengths.out = room;
            refused(&short, 15, needed as u64);
        }
        let mut exact = call(text, 2, 1);
        exact.lengths.out = needed;
        assert_eq!(imported(&exact).counts[0], needed as u64);
    }
}

/// Byte by byte, since reading and writing could share a mistake. What stands above the first number is not looked at.
#[test]
fn sent_and_answered() {
    let mut sent = call(b"1\t1\t6\n", 2, 3);
    (sent.line, sent.lengths.out) = (0x0909_0302, 9);
    let lengths = [6, 0, 0, 0, 0, 9, 0, 0, 0x0909_0302].map(u32::to_le_bytes).concat();
    assert_eq!(sent.to_bytes(), [&[7, 0x5a], &lengths[..], b"1\t1\t6\n"].concat());
    let counts = [8u64, 0, 0, 0].map(u64::to_le_bytes).concat();
    let records = [2, 2, 1, 3, 3, 5, 5, 3, 0x5a];
    assert_eq!(imported(&sent).to_bytes(), [&[7, 0], &[0; 8][..], &counts, &records].concat());
}
