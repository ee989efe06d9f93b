//! Texts with faults: every reply from 18 to 20, several faults in one line and in several lines.

use crate::chance::Chance;
use crate::text::{HIGHEST_LABEL, HIGHEST_STATE};

/// Spoils one to four lines of a text. A line stays what it is now and then.
pub fn spoil(lines: &mut Vec<Vec<u8>>, chance: &mut Chance) {
    for _ in 0..chance.weighted(&[(6, 1), (4, 2), (1, 3), (1, 4)]) {
        match chance.below(14) {
            0 => lines.insert(chance.below(lines.len() + 1), b"\n".to_vec()),
            1 => lines.push(b"\n".to_vec()),
            2 => drop_last_newline(lines, chance),
            _ if lines.is_empty() => lines.push(garbage(chance)),
            3 => {
                let at = chance.below(lines.len());
                lines[at] = garbage(chance);
            }
            4..=6 => spoil_label(lines, chance),
            _ => {
                let at = chance.below(lines.len());
                spoil_line(&mut lines[at], chance);
            }
        }
    }
}

/// The label of some arc, if there is one.
fn spoil_label(lines: &mut [Vec<u8>], chance: &mut Chance) {
    let arcs: Vec<usize> = (0..lines.len()).filter(|at| lines[*at].contains(&b'\t')).collect();
    if arcs.is_empty() {
        return;
    }
    let line = &mut lines[chance.pick(&arcs)];
    let ended = line.pop();
    let fields: Vec<Vec<u8>> = line.split(|byte| *byte == b'\t').map(<[u8]>::to_vec).collect();
    *line = with_label(&fields, chance).join(&b'\t');
    line.extend(ended);
}

/// The text's last newline, and with it now and then a part of the last line.
fn drop_last_newline(lines: &mut [Vec<u8>], chance: &mut Chance) {
    if let Some(last) = lines.last_mut() {
        last.pop();
        match chance.below(6) {
            0 => last.truncate(chance.below(last.len() + 1)),
            1 => last.extend([&b"\t"[..], &weight(chance)].concat()),
            2 | 3 => spoil_fields(last, chance),
            _ => {}
        }
    }
}

fn spoil_line(line: &mut Vec<u8>, chance: &mut Chance) {
    let ended = line.pop();
    spoil_fields(line, chance);
    if chance.one_in(3) {
        spoil_fields(line, chance);
    }
    // Without its newline a line goes on with the next one.
    line.extend(ended.filter(|_| !chance.one_in(30)));
}

fn spoil_fields(line: &mut Vec<u8>, chance: &mut Chance) {
    let mut fields: Vec<Vec<u8>> = line.split(|byte| *byte == b'\t').map(<[u8]>::to_vec).collect();
    let at = chance.below(fields.len());
    let state = at.min(1);
    match chance.weighted(&[(5, 0), (3, 1), (2, 2), (11, 3), (11, 4), (5, 5), (3, 6), (2, 7), (2, 8), (2, 9)]) {
        0 => fields.push(weight(chance)),
        1 => drop(fields.pop()),
        2 => fields.resize(chance.weighted(&[(1, 2), (1, 4), (4, 5), (3, 6), (1, 7), (1, 8)]), fields[at].clone()),
        3 => fields[state] = large_state(&fields[state], chance),
        4 => fields = with_label(&fields, chance),
        5 => fields[at] = with_sign(&fields[at], chance),
        6 => fields.last_mut().expect("a field").push(b'\r'),
        7 => fields[at].clear(),
        8 => return replace_tab(line, chance),
        _ => return spoil_byte(line, chance),
    }
    *line = fields.join(&b'\t');
}

/// What may stand in the place of a weight.
fn weight(chance: &mut Chance) -> Vec<u8> {
    let weights: [&[u8]; 9] = [b"0.5", b"1", b"0", b"33", b"", b"Infinity", b"-2", b"70000", b"1\r"];
    chance.pick(&weights).to_vec()
}

/// A number just past the highest state, just not past it, or so long that it wraps around to the one it was.
fn large_state(field: &[u8], chance: &mut Chance) -> Vec<u8> {
    let past = u128::from(HIGHEST_STATE) + chance.weighted(&[(1, 0), (3, 1), (1, 2)]);
    past_or_wrapping(field, past, &[16, 32, 64], chance)
}

/// The number, one of this field and a power of two, or one with very many digits.
fn past_or_wrapping(field: &[u8], past: u128, bits: &[u32], chance: &mut Chance) -> Vec<u8> {
    let own = std::str::from_utf8(field).ok().and_then(|digits| digits.parse().ok()).unwrap_or(0u128);
    let wraps = own.wrapping_add(1 << chance.pick(bits));
    let long = [b"1".to_vec(), b"0".repeat(chance.between(20, 50)), field.to_vec()].concat();
    match chance.weighted(&[(4, 0), (4, 1), (1, 2)]) {
        0 => past.to_string().into_bytes(),
        1 => wraps.to_string().into_bytes(),
        _ => long,
    }
}

/// An arc's label at the edges or past them; and now and then a state that is past its own.
fn with_label(fields: &[Vec<u8>], chance: &mut Chance) -> Vec<Vec<u8>> {
    let mut fields = fields.to_vec();
    let Some(label) = fields.get_mut(2) else { return fields };
    let edge = chance.weighted(&[(4, 0), (3, HIGHEST_LABEL + 1), (1, HIGHEST_LABEL + 2), (1, HIGHEST_LABEL), (1, 256)]);
    *label = match chance.below(3) {
        0 | 1 => edge.to_string().into_bytes(),
        _ => past_or_wrapping(label, 255, &[5, 8, 16, 32, 64], chance),
    };
    if chance.one_in(12) {
        label.insert(0, b'0');
    }
    if chance.one_in(4) {
        let state = chance.below(2);
        fields[state] = large_state(&fields[state].clone(), chance);
    }
    fields
}

/// A sign or a blank before a number, or something after it.
fn with_sign(field: &[u8], chance: &mut Chance) -> Vec<u8> {
    let before: [&[u8]; 5] = [b"+", b"+", b"-", b" ", b"0x"];
    let after: [&[u8]; 6] = [b" ", b".0", b"x", b"\0", b"\r", b"e0"];
    match chance.one_in(2) {
        true => [chance.pick(&before), field].concat(),
        false => [field, chance.pick(&after)].concat(),
    }
}

/// A tab, or all of them, made a blank; doubled; one put at an end of the line.
fn replace_tab(line: &mut Vec<u8>, chance: &mut Chance) {
    let tabs: Vec<usize> = (0..line.len()).filter(|at| line[*at] == b'\t').collect();
    match chance.below(5) {
        0 => line.push(b'\t'),
        1 => line.insert(0, b'\t'),
        _ if tabs.is_empty() => line.extend(b" "),
        2 => tabs.iter().for_each(|at| line[*at] = b' '),
        3 => line[chance.pick(&tabs)] = b' ',
        _ => line.insert(chance.pick(&tabs), b'\t'),
    }
}

/// Any byte put somewhere, or in the place of one that stood there.
fn spoil_byte(line: &mut Vec<u8>, chance: &mut Chance) {
    let byte = chance.pick(b"\0\r\t\n /:0123456789a+-.\x0b\xff");
    let at = chance.below(line.len() + 1);
    match line.get_mut(at).filter(|_| chance.one_in(2)) {
        Some(old) => *old = byte,
        None => line.insert(at, byte),
    }
}

/// A line without sense.
fn garbage(chance: &mut Chance) -> Vec<u8> {
    let length = chance.below(10);
    let mut line: Vec<u8> = (0..length).map(|_| chance.pick(b"\t\t\t0123456789\r -+x\0")).collect();
    line.push(b'\n');
    line
}
