//! The proved library side by side with its peers, in one run on this machine.
//! README.md says what each row is and how to read it.

mod agree;
mod clock;
mod foma;
mod heats;
mod lent;
mod measure;
mod pcre2;
mod plain;
mod proved;
mod table;
mod walks;

use alphabet::Alphabet;
use answer::{RULES, TAPE};
use bench::cases::{Cases, SEED};
use bench::{alphabet, answer, books, chance, tapes};
use chance::Chance;
use clock::Pace;
use measure::Peers;
use table::Section;

const DAMAGED: usize = 4000;
const SHORT: usize = 64;

/// The lengths of a heat's lanes.
const LANE: [usize; 2] = [TAPE, SHORT];

/// The lengths of the tapes on which every stretch is a candidate of every rule, and of that for the sets that never come again.
const HOSTILE: [usize; 2] = [256, 1024];
const ALIKE: usize = 64;

/// The lines of the longest account: every stretch, the empty one at each place too, by every rule.
const MOST_LINES: usize = RULES * stretches(TAPE + 1);

/// The stretches of a tape of `n` symbols, but for the empty ones; with those, there are as many as one symbol more has without.
const fn stretches(n: usize) -> usize {
    n * (n + 1) / 2
}

fn main() {
    let short = std::env::args().nth(1).is_some_and(|word| word == "short");
    let pace = Pace { slice: 1e-3, rounds: if short { 15 } else { 61 }, spend: if short { 1.0 } else { 4.0 } };
    let chance = &mut Chance::new(SEED);
    let cases = Cases::new(Alphabet::WHOLE, chance);
    agree(&cases, chance);
    introduce();
    rewrite(&cases, pace);
    heat(&cases, pace);
    build(&cases, pace);
    account(&cases, pace, short);
}

/// All contestants give the same on everything that is timed, on words of every length, replacing and put in, and on the empty tape.
fn agree(cases: &Cases, chance: &mut Chance) {
    for tape in [&cases.pool, &cases.one_stretch, &cases.no_candidate].into_iter().flatten() {
        agree::on_whole(&cases.house, tape);
        agree::on_whole(&cases.turn, tape);
        agree::on_whole(&cases.lap, tape);
        agree::with_pattern(&cases.house, pcre2::HOUSE, tape);
        agree::with_pattern(&cases.turn, pcre2::TURN, tape);
    }
    cases.pool.iter().for_each(|tape| agree::with_foma(tape));
    for tape in &cases.random {
        agree::on_whole(&cases.dense, tape);
        agree::on_whole(&cases.full, tape);
        agree::on_whole(&cases.lengths, tape);
        agree::on_whole(&cases.inserted, tape);
    }
    agree::on_whole(&cases.largest, &cases.random[0]);
    for tape in [&cases.random[0], &[][..]] {
        agree::on_whole(&cases.places, tape);
    }
    for book in [&cases.every, &cases.most] {
        agree::on_whole(book, &cases.random[0][..HOSTILE[0]]);
    }
    agree::on_whole(&cases.alike, &cases.random[0][..ALIKE]);
    agree::never_alike(&cases.alike, &cases.random[0]);
    agree_on_heats(cases);
    agree::on_damaged(DAMAGED, chance);
}

fn agree_on_heats(cases: &Cases) {
    for (_, book, tapes) in heats(cases) {
        for heat in LANE.iter().flat_map(|length| heats::of_pieces(tapes, *length)) {
            agree::on_heat(book, &heat);
        }
        agree::on_refused(book, tapes);
    }
    for book in
        [&cases.largest, &cases.every, &cases.most, &cases.places, &cases.alike, &cases.lengths, &cases.inserted]
    {
        heats::of_pieces(&cases.random[..1], SHORT).iter().for_each(|heat| agree::on_heat(book, heat));
    }
    heats::of_pieces(&cases.pool, SHORT).iter().for_each(|heat| agree::on_heat(&cases.lap, heat));
    agree::on_refused(&cases.lap, &cases.pool);
    for tapes in [&cases.one_stretch, &cases.no_candidate] {
        heats::of_pieces(tapes, TAPE).iter().for_each(|heat| agree::on_heat(&cases.house, heat));
        agree::on_refused(&cases.house, tapes);
    }
}

fn introduce() {
    let made = std::env::var("DECK_MADE").unwrap_or_else(|_| "a library that bench/run did not build".to_string());
    println!("proved     {made}; this processor: {}", std::env::consts::ARCH);
    println!("Rust       plain Rust of the same two passes, {}", env!("RUST_COMPILER"));
    println!("ten calls  of the proved library's REWRITE, one for each lane of a heat");
    println!("two walks  the limit: the right rows backward into scratch, the left rows forward, nothing else");
    println!("foma       library {}, compile + apply in the whole call, apply in the tape part", foma::version());
    println!("PCRE2      {}, compile + JIT + match in the whole call, match in the tape part", pcre2::version());
    println!("packages   {}", std::env::var("PEERS_MADE").unwrap_or_default().trim());
    println!("x          the proved library's time over the peer's: below 1 the proved library is faster");
    println!(
        "All gave the same outputs on every tape below; Rust also the same buffers, and on {DAMAGED} damaged books."
    );
}

fn rewrite(cases: &Cases, pace: Pace) {
    let house = Peers { foma: false, pcre2: Some(pcre2::HOUSE) };
    let turn = Peers { foma: true, pcre2: Some(pcre2::TURN) };
    let none = Peers::default();
    let short = vec![cases.pool[0][..SHORT].to_vec()];
    let title = "REWRITE, tapes of 4,096 symbols where no other length is said: million symbols per second";
    let section = Section::begin(title, table::PEERS);
    for (name, book, tapes, peers) in [
        ("house book, pool-like tapes", &cases.house, &cases.pool, house),
        ("turn rule alone, pool-like tapes", &cases.turn, &cases.pool, turn),
        ("turn rule alone, one tape of 64 symbols", &cases.turn, &short, turn),
        ("turn rule and lap marks, pool-like tapes", &cases.lap, &cases.pool, none),
        ("dense book (16 rules, 512 arcs), random tapes", &cases.dense, &cases.random, none),
        ("256 sets a side, random tapes", &cases.full, &cases.random, none),
        ("house book, one long stretch", &cases.house, &cases.one_stretch, house),
        ("house book, no candidate", &cases.house, &cases.no_candidate, house),
    ] {
        section.print(&measure::rewrite(name, book, tapes, peers, pace));
    }
}

/// A name, its book, and the tapes that lanes are cut from.
type Swum<'a> = (&'a str, &'a [u8], &'a [Vec<u8>]);

fn heats(cases: &Cases) -> [Swum<'_>; 4] {
    [
        ("house book, pool-like tapes", &cases.house, &cases.pool),
        ("turn rule alone, pool-like tapes", &cases.turn, &cases.pool),
        ("dense book, random tapes", &cases.dense, &cases.random),
        ("256 sets a side, random tapes", &cases.full, &cases.random),
    ]
}

fn heat(cases: &Cases, pace: Pace) {
    let section = Section::begin("HEAT, ten lanes in one call: microseconds a heat", table::CALLS);
    for (name, book, tapes) in heats(cases) {
        for length in LANE {
            let name = format!("{name}, lanes of {length} symbols");
            section.print(&[measure::heat(&name, book, &heats::of_pieces(tapes, length), pace)]);
        }
    }
}

fn build(cases: &Cases, pace: Pace) {
    let house = Peers { foma: false, pcre2: Some(pcre2::HOUSE) };
    let turn = Peers { foma: true, pcre2: Some(pcre2::TURN) };
    let section = Section::begin("CHECK and BUILD: microseconds a call", table::PEERS);
    section.print(&[
        measure::check("CHECK, house book", &cases.house, pace),
        measure::check("CHECK, largest book", &cases.largest, pace),
        measure::build("BUILD, house book", &cases.house, house, pace),
        measure::build("BUILD, turn rule alone", &cases.turn, turn, pace),
        measure::build("BUILD, dense book", &cases.dense, Peers::default(), pace),
        measure::build("BUILD, 19 states, 16 arcs", &cases.full, Peers::default(), pace),
        measure::build("BUILD, 64 states, 512 arcs", &cases.largest, Peers::default(), pace),
    ]);
}

fn account(cases: &Cases, pace: Pace, short: bool) {
    let section = Section::begin("ACCOUNT: microseconds a call, unless the row says otherwise", table::PEERS);
    let front = |symbols| &cases.random[0][..symbols];
    section.print(&[
        measure::account("house book, pool-like", &cases.house, &cases.pool, pace),
        measure::account("turn rule and lap marks, pool-like", &cases.lap, &cases.pool, pace),
    ]);
    section.print(&measure::hostile("no two focus sets alike", &cases.alike, stretches(TAPE), front(ALIKE), pace));
    for symbols in HOSTILE {
        section.print(&measure::hostile("every stretch, 16 rules", &cases.most, MOST_LINES, front(symbols), pace));
    }
    if short {
        println!("every stretch, 16 rules, {TAPE} symbols: not in a short run");
    } else if memory() < 4 << 30 {
        println!("every stretch, 16 rules, {TAPE} symbols: needs 1.6 GB for its lines, left out on this machine");
    } else {
        let name = "every stretch, 16 rules, once";
        section.print(&measure::longest_account(name, &cases.most, &cases.random[0], MOST_LINES));
    }
}

/// Bytes of memory that are free for use; 0 where the machine does not say.
fn memory() -> u64 {
    let said = std::fs::read_to_string("/proc/meminfo").unwrap_or_default();
    let line = said.lines().find(|line| line.starts_with("MemAvailable:"));
    line.and_then(|line| line.split_whitespace().nth(1)?.parse::<u64>().ok()).unwrap_or(0) << 10
}
