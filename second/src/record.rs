//! Records of a book, as bytes.
//!
//! Document 01, "The book": "A record is one byte of kind, then a body whose length the kind fixes."

pub const RULE: u8 = 1;
pub const STATE: u8 = 2;
pub const ARC: u8 = 3;
pub const END: u8 = 4;

pub const LEFT: u8 = 0;
pub const FOCUS: u8 = 1;
pub const RIGHT: u8 = 2;

/// Flags of a state: "1 start, 2 accept, 3 both, 0 neither".
pub const NEITHER: u8 = 0;
pub const START: u8 = 1;
pub const ACCEPT: u8 = 2;
pub const BOTH: u8 = 3;

/// "length 0 to 8 of the replacement, then eight symbol bytes"
pub const LONGEST_WORD: usize = 8;

/// The length of the body, or nothing for an unknown kind.
pub fn body_length(kind: u8) -> Option<usize> {
    match kind {
        RULE => Some(1 + LONGEST_WORD),
        STATE => Some(2),
        ARC => Some(4),
        END => Some(0),
        _ => None,
    }
}

/// A rule record; "unused ones are 0".
pub fn rule(word: &[u8]) -> Vec<u8> {
    let mut record = vec![RULE, word.len() as u8];
    record.extend_from_slice(word);
    record.resize(2 + LONGEST_WORD, 0);
    record
}

pub fn state(part: u8, flags: u8) -> Vec<u8> {
    vec![STATE, part, flags]
}

pub fn arc(from: u8, lowest: u8, highest: u8, to: u8) -> Vec<u8> {
    vec![ARC, from, lowest, highest, to]
}

pub fn end() -> Vec<u8> {
    vec![END]
}

/// Cuts a book, damaged or not, into its records as far as they can be told apart; the last piece may be
/// garbage. For shrinking and for printing, never for deciding a reply.
pub fn pieces(book: &[u8]) -> Vec<Vec<u8>> {
    let mut pieces = Vec::new();
    let mut rest = book;
    while let Some((kind, _)) = rest.split_first() {
        let whole = body_length(*kind).map_or(rest.len(), |body| (1 + body).min(rest.len()));
        let (piece, after) = rest.split_at(whole);
        pieces.push(piece.to_vec());
        rest = after;
    }
    pieces
}

/// One piece in words.
pub fn in_words(piece: &[u8]) -> String {
    match piece {
        [RULE, body @ ..] if body.len() == 1 + LONGEST_WORD => {
            format!("rule, length {}, symbols {:?}", body[0], &body[1..])
        }
        [STATE, part, flags] => format!("state, part {part}, flags {flags}"),
        [ARC, from, lowest, highest, to] => format!("arc, from {from}, symbols {lowest} to {highest}, to {to}"),
        [END] => "end".to_string(),
        _ => format!("bytes {piece:?}"),
    }
}
