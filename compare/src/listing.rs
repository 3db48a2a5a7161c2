//! The listing of a sheet as text.

use crate::arrangement::{codes, Arrangement};
use crate::forces;
use crate::loads::Tenths;
use crate::sheet::{Item, Refusal, Roof, Site, TERMINALS};
use crate::steps::Steps;

/// A number of bytes that holds the listing of any sheet.
pub const ROOM: usize = 267_373;

const HEADER: &[u8] = b"ITEM ARR START END LOAD LOAD\n";
const REFUSED: &[u8] = b"REFUSED";
/// Codes of the lines with local forces.
const OVERHANG: u32 = 21;
const GUARD: u32 = 22;

/// Appends the listing of a sheet, or the one line that refuses it or the store. No line is written
/// before every rule is checked.
pub fn list(store: &[u32], sheet: &[u8], out: &mut Vec<u8>) {
    out.reserve(ROOM);
    let mut items = Vec::with_capacity(TERMINALS.items);
    match Steps::of(store, sheet, TERMINALS, |_, item| items.push(*item)) {
        Ok(steps) => accepted(&items, &steps, out),
        Err(refusal) => refused(refusal, out),
    }
}

fn refused(refusal: Refusal, out: &mut Vec<u8>) {
    out.extend_from_slice(REFUSED);
    out.push(b' ');
    line(&[u32::from(refusal.number), refusal.item as u32], out);
}

fn accepted(items: &[Item], steps: &Steps, out: &mut Vec<u8>) {
    out.extend_from_slice(HEADER);
    let Some(Item::Site(site)) = items.first() else {
        return;
    };
    for index in steps.order() {
        if let Some(roof) = steps.roof(&items[index]) {
            segment_lines(index as u32, site, &roof, out);
            force_lines(index as u32, site, &roof, out);
        }
    }
}

fn segment_lines(index: u32, site: &Site, roof: &Roof, out: &mut Vec<u8>) {
    for code in codes(site, roof) {
        let Some(arrangement) = Arrangement::<Tenths>::of(site, roof, code) else {
            continue;
        };
        for stretch in arrangement.stretches() {
            let [start, end, load_start, load_end] = stretch.segment();
            let code = u32::from(code);
            line(&[index, code, start, end, load_start, load_end], out);
        }
    }
}

fn force_lines(index: u32, site: &Site, roof: &Roof, out: &mut Vec<u8>) {
    for slope in [1, 2] {
        let forces = [
            (OVERHANG, forces::overhang(site, roof, slope)),
            (GUARD, forces::guard_force(site, roof, slope)),
        ];
        for (code, force) in forces {
            if let Some(force) = force {
                line(&[index, code, u32::from(slope), force], out);
            }
        }
    }
}

/// Appends numbers with a space between them and a line feed behind.
///
/// The line is built from its end, where the last digit of each number is at hand first.
fn line<const N: usize>(numbers: &[u32; N], out: &mut Vec<u8>) {
    const { assert!(N <= 6) };
    let mut text = [0; 6 * 11];
    let mut at = text.len();
    let mut mark = b'\n';
    for &number in numbers.iter().rev() {
        at -= 1;
        text[at] = mark;
        mark = b' ';
        at = digits(number, &mut text, at);
    }
    out.extend_from_slice(&text[at..]);
}

/// Writes the decimal digits of a number before `end`; where they start.
fn digits(mut number: u32, text: &mut [u8], end: usize) -> usize {
    let mut at = end;
    while number >= 100 {
        let pair = (number % 100) as usize;
        number /= 100;
        at -= 2;
        text[at..at + 2].copy_from_slice(&PAIRS[pair]);
    }
    if number >= 10 {
        at -= 2;
        text[at..at + 2].copy_from_slice(&PAIRS[number as usize]);
    } else {
        at -= 1;
        text[at] = b'0' + number as u8;
    }
    at
}

/// 00 to 99, two digits each.
static PAIRS: [[u8; 2]; 100] = pairs();

const fn pairs() -> [[u8; 2]; 100] {
    let mut table = [[0; 2]; 100];
    let mut number = 0;
    while number < 100 {
        table[number] = [b'0' + (number / 10) as u8, b'0' + (number % 10) as u8];
        number += 1;
    }
    table
}
