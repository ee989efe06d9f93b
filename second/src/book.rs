//! The book reader: document 01, "The book" and replies 1 to 8; by document 02, No. 5, "7 is no longer given".

use crate::reading::{Reading, Wrong};
use crate::record::{self, ACCEPT, ARC, BOTH, END, FOCUS, LONGEST_WORD, RIGHT, RULE, START, STATE};
use crate::wrong_symbol::{first_bad_instead, open_instead, Named};

/// "symbols 0 to 15". Document 02, No. 6: "Symbols run from 0 to 31, also in numbering."
pub const SYMBOLS: usize = 32;
pub const HIGHEST_SYMBOL: u8 = SYMBOLS as u8 - 1;
/// "rules 1 to 16; states at most 64; arcs at most 512"
pub const MOST_RULES: usize = 16;
pub const MOST_STATES: usize = 64;
pub const MOST_ARCS: usize = 512;

/// A book that was accepted (or what stood of it when it was refused).
#[derive(Default, Clone)]
pub struct Book {
    /// Each rule's replacement word; rules "are numbered from 0 as they appear".
    pub words: Vec<Vec<u8>>,
    /// All states; "numbered from 0 as they appear" over the whole book.
    pub states: Vec<State>,
    /// For each rule, the states of its left, focus and right part.
    pub parts: Vec<[PartStates; 3]>,
    pub arcs: Vec<Arc>,
}

#[derive(Clone)]
pub struct State {
    /// "A state belongs to the latest rule."
    pub rule: usize,
    pub part: u8,
    pub start: bool,
    pub accept: bool,
    /// The arcs that lead from it.
    pub arcs: Vec<Arc>,
}

/// The states of one part of one rule, lowest first: "A part may have several start and accept states, or none."
#[derive(Default, Clone)]
pub struct PartStates {
    pub states: Vec<usize>,
    pub starts: Vec<usize>,
    pub accepts: Vec<usize>,
}

#[derive(Clone, Copy)]
pub struct Arc {
    pub from: usize,
    pub lowest: u8,
    pub highest: u8,
    pub to: usize,
}

impl Arc {
    /// "An arc is open to each symbol from lowest to highest"
    pub fn open(&self, symbol: u8, reading: Reading) -> bool {
        let highest_counts = !reading.is(Wrong::HighestOpen) || symbol < self.highest;
        let truly = self.lowest <= symbol && symbol <= self.highest;
        open_instead(self, symbol, reading).unwrap_or(truly && highest_counts)
    }
}

/// A reply above 0 with its place.
#[derive(Clone, Copy, PartialEq, Eq, Debug)]
pub struct Refusal {
    pub reply: u8,
    pub place: usize,
}

/// Reads a whole book: "Records are tested from the front."
pub fn read(bytes: &[u8], reading: Reading) -> Result<Book, Refusal> {
    read_with_rest(bytes, reading).map_err(|(refusal, _)| refusal)
}

/// As `read`, but a refusal also tells what stood before the refused record.
pub fn read_with_rest(bytes: &[u8], reading: Reading) -> Result<Book, (Refusal, Book)> {
    let mut book = Book::default();
    let mut offset = 0;
    loop {
        let record = match Record::at(bytes, offset, reading) {
            Ok(record) => record,
            Err(refusal) => return Err((refusal, book)),
        };
        if let Some(reply) = first_fault(&book, &record, reading) {
            let place = match reply {
                1 => reading.value(offset, Wrong::CutPlaceAtEnd, bytes.len()),
                _ => offset,
            };
            return Err((Refusal { reply, place }, book));
        }
        offset += 1 + record.length;
        book.add(&record, reading);
        if record.kind == END {
            return after_end(bytes, offset, reading).map_or(Ok(book.clone()), |refusal| Err((refusal, book)));
        }
    }
}

/// "8: a byte follows the end record; its offset"
fn after_end(bytes: &[u8], offset: usize, reading: Reading) -> Option<Refusal> {
    let follows = offset < bytes.len() && !reading.is(Wrong::AfterEndIgnored);
    let place = reading.value(offset, Wrong::AfterEndPlace, offset - 1);
    follows.then_some(Refusal { reply: 8, place })
}

/// One record: a known kind, the length its body should have, and the body if it is all there.
struct Record<'a> {
    kind: u8,
    length: usize,
    body: Option<&'a [u8]>,
}

impl Record<'_> {
    /// "In one record: missing kind 1, then 2" and only then the rest.
    fn at(bytes: &[u8], offset: usize, reading: Reading) -> Result<Record<'_>, Refusal> {
        let Some(kind) = bytes.get(offset).copied() else {
            let place = reading.value(offset, Wrong::MissingKindPlace, offset.saturating_sub(1));
            return Err(Refusal { reply: 1, place });
        };
        match record::body_length(kind) {
            None => Err(Refusal { reply: 2, place: offset }),
            Some(length) => Ok(Record { kind, length, body: bytes.get(offset + 1..offset + 1 + length) }),
        }
    }
}

/// "then 2, cut body 1, then 4, 3, 5, 6, 7". Document 02, No. 5: "7 is no longer given."
fn order(reading: Reading) -> [u8; 5] {
    let orders = [
        (Wrong::NoRuleBeforeCut, [4, 1, 3, 5, 6]),
        (Wrong::FullBeforeCut, [3, 1, 4, 5, 6]),
        (Wrong::FieldsBeforeNoRule, [1, 5, 4, 3, 6]),
        (Wrong::NamesBeforeNoRule, [1, 6, 4, 3, 5]),
        (Wrong::FieldsBeforeFull, [1, 4, 5, 3, 6]),
        (Wrong::NamesBeforeFull, [1, 4, 6, 3, 5]),
        (Wrong::NamesBeforeFields, [1, 4, 3, 6, 5]),
    ];
    let wrongly = orders.iter().find(|(wrong, _)| reading.is(*wrong));
    wrongly.map_or([1, 4, 3, 5, 6], |(_, order)| *order)
}

fn first_fault(book: &Book, record: &Record, reading: Reading) -> Option<u8> {
    let fault = order(reading).into_iter().find(|reply| has_fault(book, record, *reply, reading));
    fault.or_else(|| refused_both(record, reading))
}

/// For wrong readings of "7 is no longer given": the reply for a focus state with flags 3.
fn refused_both(record: &Record, reading: Reading) -> Option<u8> {
    let is_both = record.kind == STATE && record.body == Some(&[FOCUS, BOTH]);
    let replies = [(Wrong::SevenStillGiven, 7), (Wrong::FiveForSeven, 5)];
    let reply = replies.iter().find(|(wrong, _)| is_both && reading.is(*wrong));
    reply.map(|(_, reply)| *reply)
}

fn has_fault(book: &Book, record: &Record, reply: u8, reading: Reading) -> bool {
    let Some(body) = record.body else {
        return match reply {
            1 => true,
            3 => book.is_full(record.kind, reading),
            4 => book.lacks_rule(record.kind, reading),
            _ => false,
        };
    };
    match reply {
        3 => book.is_full(record.kind, reading),
        4 => book.lacks_rule(record.kind, reading),
        5 => has_bad_field(record.kind, body, reading),
        6 => record.kind == ARC && !book.may_join(body[0] as usize, body[3] as usize, reading),
        _ => false,
    }
}

/// Document 02, No. 6: "5 and 10 now begin at 32".
pub fn is_bad(symbol: u8, named: Named, reading: Reading) -> bool {
    symbol as usize >= first_bad_instead(named, reading).unwrap_or(SYMBOLS)
}

/// "a field is outside the table above, a symbol above 15, or lowest above highest"; a symbol above 31 by document 02.
fn has_bad_field(kind: u8, body: &[u8], reading: Reading) -> bool {
    match kind {
        RULE => has_bad_word(body[0] as usize, &body[1..], reading),
        STATE => body[0] > RIGHT || body[1] > BOTH,
        ARC => has_bad_symbols(body[1], body[2], reading) || has_large_state(body, reading),
        _ => false,
    }
}

fn has_bad_word(length: usize, symbols: &[u8], reading: Reading) -> bool {
    if length > reading.value(LONGEST_WORD, Wrong::WordOfSeven, LONGEST_WORD - 1) {
        return true;
    }
    let (word, unused) = symbols.split_at(length);
    let bad_symbol = word.iter().any(|symbol| is_bad(*symbol, Named::InWord, reading));
    let used_beyond = unused.iter().any(|symbol| *symbol != 0);
    bad_symbol && !reading.is(Wrong::WordSymbolsFree) || used_beyond && !reading.is(Wrong::UnusedFree)
}

fn has_bad_symbols(lowest: u8, highest: u8, reading: Reading) -> bool {
    let bad_symbol = is_bad(lowest, Named::AsLowest, reading) || is_bad(highest, Named::AsHighest, reading);
    bad_symbol || lowest > highest || reading.is(Wrong::LowestBelowHighest) && lowest == highest
}

fn has_large_state(body: &[u8], reading: Reading) -> bool {
    reading.is(Wrong::LargeStateIsField) && (body[0] as usize >= MOST_STATES || body[3] as usize >= MOST_STATES)
}

/// "flags (1 start, 2 accept, 3 both, 0 neither)"; wrong readings halve the 3 of a focus state.
fn flags_read(part: u8, flags: u8, reading: Reading) -> u8 {
    if (part, flags) != (FOCUS, BOTH) {
        return flags;
    }
    let flags = reading.value(flags, Wrong::BothStartsAlone, START);
    reading.value(flags, Wrong::BothAcceptsAlone, ACCEPT)
}

impl Book {
    /// "17th rule, 65th state or 513th arc"
    fn is_full(&self, kind: u8, reading: Reading) -> bool {
        let rules = reading.value(MOST_RULES, Wrong::SeventeenRules, MOST_RULES + 1);
        let rules = reading.value(rules, Wrong::FifteenRules, MOST_RULES - 1);
        let states = reading.value(MOST_STATES, Wrong::SixtyThreeStates, MOST_STATES - 1);
        let arcs = reading.value(MOST_ARCS, Wrong::FiveHundredElevenArcs, MOST_ARCS - 1);
        let arcs = reading.value(arcs, Wrong::FiveHundredThirteenArcs, MOST_ARCS + 1);
        match kind {
            RULE => self.words.len() >= rules,
            STATE => self.states.len() >= states,
            ARC => self.arcs.len() >= arcs,
            _ => false,
        }
    }

    /// "state, arc or end before any rule"
    fn lacks_rule(&self, kind: u8, reading: Reading) -> bool {
        let end_free = kind == END && reading.is(Wrong::NoRuleUntested);
        kind != RULE && self.words.is_empty() && !end_free
    }

    /// "Both states of an arc belong to the latest rule, to the same part, and stand before it."
    fn may_join(&self, from: usize, to: usize, reading: Reading) -> bool {
        let (Some(from), Some(to)) = (self.states.get(from), self.states.get(to)) else {
            return false;
        };
        let latest = self.words.len().wrapping_sub(1);
        let in_latest = from.rule == latest && to.rule == latest;
        let same_part = from.part == to.part || reading.is(Wrong::TwoPartsNamed);
        same_part && (in_latest || reading.is(Wrong::EarlierRuleNamed))
    }

    fn add(&mut self, record: &Record, reading: Reading) {
        let body = record.body.unwrap_or_default();
        match record.kind {
            RULE => {
                self.words.push(body[1..1 + body[0] as usize].to_vec());
                self.parts.push(Default::default());
            }
            STATE => self.add_state(body[0], flags_read(body[0], body[1], reading)),
            ARC => {
                let arc = Arc { from: body[0] as usize, lowest: body[1], highest: body[2], to: body[3] as usize };
                self.arcs.push(arc);
                self.states[arc.from].arcs.push(arc);
            }
            _ => {}
        }
    }

    fn add_state(&mut self, part: u8, flags: u8) {
        let (number, rule) = (self.states.len(), self.words.len() - 1);
        let (start, accept) = (flags & START != 0, flags & ACCEPT != 0);
        self.states.push(State { rule, part, start, accept, arcs: Vec::new() });
        let part = &mut self.parts[rule][part as usize];
        part.states.push(number);
        part.starts.extend(start.then_some(number));
        part.accepts.extend(accept.then_some(number));
    }
}
