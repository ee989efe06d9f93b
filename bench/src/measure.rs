//! What each row of the table measures.

use crate::answer::{LANES, LINE, TAPE};
use crate::clock::{once, Contest, Pace};
use crate::heats::Heat;
use crate::lent::Lent;
use crate::pcre2::Pattern;
use crate::table::{Row, Unit};
use crate::walks::two_walks;
use crate::{foma, pcre2, plain, proved};
use std::cell::Cell;

/// The tapes, or the heats, one after the other, from the first again after the last.
struct Turns<'a, T> {
    all: &'a [T],
    at: Cell<usize>,
}

impl<'a, T> Turns<'a, T> {
    fn of(all: &'a [T]) -> Turns<'a, T> {
        Turns { all, at: Cell::new(0) }
    }

    fn next(&self) -> &'a T {
        self.at.set((self.at.get() + 1) % self.all.len());
        &self.all[self.at.get()]
    }
}

/// Which of the two other peers can express a book.
#[derive(Clone, Copy, Default)]
pub struct Peers {
    pub foma: bool,
    pub pcre2: Option<pcre2::Book>,
}

/// Below this share of the whole call, the part of the tape is the small difference of two large times.
const CLEAR: f64 = 0.1;

/// Seconds of REWRITE and BUILD by the proved library and by plain Rust, of the two walks, and of each other peer's compile and apply.
struct Times {
    whole: [f64; 2],
    build: [f64; 2],
    walks: f64,
    foma: Option<(f64, f64)>,
    pcre2: Option<(f64, f64)>,
}

fn time_rewrite(book: &[u8], tapes: &[Vec<u8>], peers: Peers, pace: Pace) -> Times {
    let mut lent: [Lent; 6] = std::array::from_fn(|_| Lent::for_lines(0));
    plain::build(book, &mut lent[4]);
    let [one, two, three, four, Lent { rows, scratch, .. }, six] = &mut lent;
    let turns: &[_; 4] = &std::array::from_fn(|_| Turns::of(tapes));
    let words: Vec<_> = tapes.iter().map(|tape| foma::word(tape)).collect();
    let words = &Turns::of(&words);
    let mut contest = Contest::default();
    let whole = [
        contest.enter(|| proved::rewrite(book, turns[0].next(), one)),
        contest.enter(|| plain::rewrite(book, turns[1].next(), two)),
    ];
    let build = [contest.enter(|| proved::build(book, three)), contest.enter(|| plain::build(book, four))];
    let walks = contest.enter(|| two_walks(rows, turns[2].next(), scratch));
    let foma = peers.foma.then(|| {
        let mut turn = foma::Turn::compile();
        (contest.enter(foma::Turn::compile), contest.enter(move || turn.apply(words.next()).count_bytes()))
    });
    let pcre2 = peers.pcre2.map(|book| {
        let pattern = Pattern::compile(book);
        (contest.enter(move || Pattern::compile(book)), contest.enter(move || pattern.substitute(turns[3].next(), six)))
    });
    let times = contest.run(pace);
    let both = |pair: (usize, usize)| (times[pair.0], times[pair.1]);
    Times {
        whole: whole.map(|k| times[k]),
        build: build.map(|k| times[k]),
        walks: times[walks],
        foma: foma.map(both),
        pcre2: pcre2.map(both),
    }
}

/// REWRITE in two rows: the whole call, and the tape alone, which is the whole call less BUILD of the same book.
pub fn rewrite(name: &str, book: &[u8], tapes: &[Vec<u8>], peers: Peers, pace: Pace) -> [Row; 2] {
    let times = time_rewrite(book, tapes, peers, pace);
    let unit = Unit::Symbols(tapes[0].len());
    let tape = [0, 1].map(|k| times.whole[k] - times.build[k]);
    let rough = (0..2).any(|k| tape[k] < CLEAR * times.whole[k]);
    let sum = |(compile, apply): (f64, f64)| compile + apply;
    let apply = |(_, apply): (f64, f64)| apply;
    [
        Row::new(format!("{name}: whole call"), unit, times.whole[0])
            .plain(times.whole[1])
            .walks(times.walks)
            .foma(times.foma.map(sum))
            .pcre2(times.pcre2.map(sum)),
        Row::new(format!("  tape part{}", if rough { " (rough)" } else { "" }), unit, tape[0])
            .plain(tape[1])
            .walks(times.walks)
            .foma(times.foma.map(apply))
            .pcre2(times.pcre2.map(apply)),
    ]
}

/// HEAT beside a REWRITE for each of its lanes.
pub fn heat(name: &str, book: &[u8], heats: &[Heat], pace: Pace) -> Row {
    let mut lent: [Lent; 3] = std::array::from_fn(|_| Lent::for_lanes(LANES));
    let [one, two, three] = &mut lent;
    let turns: [_; 3] = std::array::from_fn(|_| Turns::of(heats));
    let mut contest = Contest::default();
    contest.enter(|| turns[0].next().run(|tapes, lanes| proved::heat(book, tapes, lanes, one)));
    contest.enter(|| turns[1].next().run(|tapes, lanes| plain::heat(book, tapes, lanes, two)));
    contest.enter(|| turns[2].next().run(|tapes, lanes| proved::rewrites(book, tapes, lanes, three)));
    let times = contest.run(pace);
    Row::new(name, Unit::Micros, times[0]).plain(times[1]).calls(times[2])
}

pub fn check(name: &str, book: &[u8], pace: Pace) -> Row {
    let mut contest = Contest::default();
    contest.enter(|| proved::check(book));
    contest.enter(|| plain::check(book));
    let times = contest.run(pace);
    Row::new(name, Unit::Micros, times[0]).plain(times[1])
}

pub fn build(name: &str, book: &[u8], peers: Peers, pace: Pace) -> Row {
    let (mut one, mut two) = (Lent::for_lines(0), Lent::for_lines(0));
    let built = plain::build(book, &mut two);
    let mut contest = Contest::default();
    contest.enter(|| proved::build(book, &mut one));
    contest.enter(|| plain::build(book, &mut two));
    let foma = peers.foma.then(|| contest.enter(foma::Turn::compile));
    let pcre2 = peers.pcre2.map(|book| contest.enter(move || Pattern::compile(book)));
    let times = contest.run(pace);
    let name = format!("{name}: {} + {} sets", built.left, built.right);
    let of = |k: usize| times[k];
    Row::new(name, Unit::Micros, times[0]).plain(times[1]).foma(foma.map(of)).pcre2(pcre2.map(of))
}

/// The largest number of candidates among the tapes.
fn candidates(book: &[u8], tapes: &[Vec<u8>]) -> usize {
    let mut none = Lent::for_lines(0);
    tapes.iter().map(|tape| plain::account(book, tape, &mut none).place / LINE).max().unwrap_or(0)
}

/// Seconds of ACCOUNT and BUILD by the proved library and by plain Rust, and the most lines of a tape.
struct AccountTimes {
    whole: [f64; 2],
    build: [f64; 2],
    lines: usize,
}

fn time_account(book: &[u8], tapes: &[Vec<u8>], pace: Pace) -> AccountTimes {
    let lines = candidates(book, tapes);
    let mut lent: [Lent; 4] = std::array::from_fn(|_| Lent::for_lines(lines));
    let [one, two, three, four] = &mut lent;
    let turns: [_; 2] = std::array::from_fn(|_| Turns::of(tapes));
    let mut contest = Contest::default();
    contest.enter(|| proved::account(book, turns[0].next(), one));
    contest.enter(|| plain::account(book, turns[1].next(), two));
    contest.enter(|| proved::build(book, three));
    contest.enter(|| plain::build(book, four));
    let times = contest.run(pace);
    AccountTimes { whole: [times[0], times[1]], build: [times[2], times[3]], lines }
}

fn account_row(name: &str, symbols: usize, lines: usize, [proved, plain]: [f64; 2]) -> Row {
    Row::new(format!("{name}, {symbols} symbols, {lines} lines"), Unit::Micros, proved).plain(plain)
}

fn line_row(lines: usize, [proved, plain]: [f64; 2]) -> Row {
    Row::new("  nanoseconds a line", Unit::PerLine(lines), proved).plain(plain)
}

pub fn account(name: &str, book: &[u8], tapes: &[Vec<u8>], pace: Pace) -> Row {
    let AccountTimes { whole, lines, .. } = time_account(book, tapes, pace);
    account_row(name, tapes[0].len(), lines, whole)
}

/// ACCOUNT of a book of which every stretch is a candidate of every rule: the call; a line of it, BUILD taken off; and
/// what the longest tape, which has `most` lines, comes to by that.
pub fn hostile(name: &str, book: &[u8], most: usize, tape: &[u8], pace: Pace) -> [Row; 3] {
    let AccountTimes { whole, build, lines } = time_account(book, &[tape.to_vec()], pace);
    let tape_part = [0, 1].map(|k| whole[k] - build[k]);
    let [proved, plain] = [0, 1].map(|k| build[k] + tape_part[k] / lines as f64 * most as f64);
    [
        account_row(name, tape.len(), lines, whole),
        line_row(lines, tape_part),
        Row::new(format!("  so in seconds for {TAPE} symbols, {most} lines"), Unit::Seconds, proved).plain(plain),
    ]
}

/// The longest account that there can be, called once by each contestant into one buffer; what they wrote is compared
/// by its sum.
pub fn longest_account(name: &str, book: &[u8], tape: &[u8], lines: usize) -> [Row; 2] {
    let mut lent = Lent::for_lines(lines);
    let mut answer = None;
    let proved = once(&mut || answer = Some(proved::account(book, tape, &mut lent)));
    let (first, sum) = (answer, sum_of(&lent.lines));
    lent.lines.fill(0);
    let plain = once(&mut || answer = Some(plain::account(book, tape, &mut lent)));
    assert_eq!(first, answer, "the longest account");
    assert_eq!(sum, sum_of(&lent.lines), "the lines of the longest account");
    [account_row(name, tape.len(), lines, [proved, plain]), line_row(lines, [proved, plain])]
}

/// A sum in which the place of each word counts.
fn sum_of(lines: &[u16]) -> u64 {
    lines.iter().fold(0, |sum: u64, word| sum.wrapping_mul(0x100_0000_01b3) ^ *word as u64)
}
