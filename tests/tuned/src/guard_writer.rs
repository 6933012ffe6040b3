//! The line of a list of nodes, without recursion: a pass upward checks it and measures each node's part of the line, a pass
//! downward gives each node its place, as operands are lower, and writes there.

use crate::operators::*;
use crate::Refusal;

const MOST: usize = 1_024;
/// Lists of at most so many nodes need less room cleared: those of most guards, and those of any line that was read.
const FEW: usize = 32;
const SOME: usize = 256;

type Record = [u8; 16];

/// The number of bytes, or 3, 5, 6, 8, 24; then nothing is changed.
pub fn write(nodes: &[u8], text: &mut [u8]) -> Result<usize, Refusal> {
    let records = nodes.as_chunks::<16>().0;
    match records.len() {
        0..=FEW => write_by::<FEW>(records, text),
        0..=SOME => write_by::<SOME>(records, text),
        0..=MOST => write_by::<MOST>(records, text),
        _ => Err(3),
    }
}

#[inline(always)]
fn write_by<const N: usize>(records: &[Record], text: &mut [u8]) -> Result<usize, Refusal> {
    let mut measured =
        Measured { records, lengths: [0; N], used: [false; N], uses: 0, dangling: false, broken: false };
    measured.measure()?;
    let Some(root) = records.len().checked_sub(1).filter(|_| measured.is_tree()) else {
        return Err(8);
    };
    let length = usize::from(measured.lengths[root % N]);
    let Some(text) = text.get_mut(..length) else {
        return Err(24);
    };
    measured.put(text);
    Ok(length)
}

#[inline(always)]
fn operand(record: &Record, place: usize) -> usize {
    usize::from(u16::from_le_bytes([record[2 + 2 * place], record[3 + 2 * place]]))
}

#[inline(always)]
fn constant(record: &Record) -> i32 {
    i32::from_le_bytes([record[8], record[9], record[10], record[11]])
}

/// What the pass upward finds.
struct Measured<'a, const N: usize> {
    records: &'a [Record],
    /// Of each node the bytes of its part; going down, where that begins.
    lengths: [u16; N],
    used: [bool; N],
    uses: usize,
    dangling: bool,
    broken: bool,
}

impl<const N: usize> Measured<'_, N> {
    /// Refusals 5 and 6, and what 8 asks of operands. Lengths of what is no tree may be wrong.
    #[inline(always)]
    fn measure(&mut self) -> Result<(), Refusal> {
        for (own, record) in self.records.iter().enumerate() {
            let code = record[1];
            let level = LEVELS[usize::from(code)];
            let length = match code {
                CONSTANT => digits(constant(record)),
                VARIABLE => {
                    let number = operand(record, 0);
                    self.dangling |= number >= 64;
                    if number < 10 {
                        2
                    } else {
                        3
                    }
                }
                CHOICE => {
                    let truth = self.operand(own, operand(record, 0), true, 0);
                    let second = self.operand(own, operand(record, 1), false, 0);
                    let third = self.operand(own, operand(record, 2), false, 0);
                    truth.wrapping_add(second).wrapping_add(third).wrapping_add(2)
                }
                NOT => self.operand(own, operand(record, 0), true, level).wrapping_add(1),
                SUM..=REMAINDER | EQUAL..=AT_MOST | AND | OR => {
                    let left = self.operand(own, operand(record, 0), code >= AND, level);
                    let right = self.operand(own, operand(record, 1), code >= AND, level + 1);
                    left.wrapping_add(right).wrapping_add(sign_length(code) as u16)
                }
                _ => return Err(5),
            };
            self.lengths[own % N] = length;
        }
        if self.dangling {
            Err(6)
        } else {
            Ok(())
        }
    }

    /// One operand: that there is such a node, that it is lower, of its sort and not used before. Its part with parentheses.
    #[inline(always)]
    fn operand(&mut self, own: usize, number: usize, truth: bool, least: u8) -> u16 {
        if number >= own {
            self.dangling |= number >= self.records.len();
            self.broken = true;
            return 0;
        }
        let code = self.records[number][1];
        self.broken |= (code >= EQUAL) != truth || self.used[number % N];
        self.used[number % N] = true;
        self.uses += 1;
        self.lengths[number % N].wrapping_add(if LEVELS[usize::from(code)] < least { 2 } else { 0 })
    }

    /// Each operand was used once, so that all but the root are used where there are so many uses.
    #[inline(always)]
    fn is_tree(&self) -> bool {
        let truth = self.records.last().is_some_and(|root| root[1] >= EQUAL);
        !self.broken && truth && self.uses + 1 == self.records.len()
    }

    #[inline(always)]
    fn put(&mut self, text: &mut [u8]) {
        // The root's part begins where the line does.
        self.lengths[(self.records.len() - 1) % N] = 0;
        for (own, record) in self.records.iter().enumerate().rev() {
            let start = usize::from(self.lengths[own % N]);
            let code = record[1];
            let level = LEVELS[usize::from(code)];
            match code {
                CONSTANT => put_number(text, start, constant(record)),
                VARIABLE => {
                    text[start] = b'v';
                    put_number(text, start + 1, operand(record, 0) as i32);
                }
                CHOICE => {
                    let end = self.place(text, start, operand(record, 0), 0);
                    text[end] = b'?';
                    let end = self.place(text, end + 1, operand(record, 1), 0);
                    text[end] = b':';
                    self.place(text, end + 1, operand(record, 2), 0);
                }
                NOT => {
                    text[start] = b'!';
                    self.place(text, start + 1, operand(record, 0), level);
                }
                _ => {
                    let end = self.place(text, start, operand(record, 0), level);
                    let [first, second] = SIGNS[usize::from(code) % SIGNS.len()];
                    text[end] = first;
                    if second != 0 {
                        text[end + 1] = second;
                    }
                    self.place(text, end + sign_length(code), operand(record, 1), level + 1);
                }
            }
        }
    }

    /// Gives an operand its place, in parentheses where it needs them; the end of all that.
    #[inline(always)]
    fn place(&mut self, text: &mut [u8], start: usize, number: usize, least: u8) -> usize {
        let length = usize::from(self.lengths[number % N]);
        if LEVELS[usize::from(self.records[number][1])] < least {
            text[start] = b'(';
            text[start + 1 + length] = b')';
            self.lengths[number % N] = start as u16 + 1;
            start + length + 2
        } else {
            self.lengths[number % N] = start as u16;
            start + length
        }
    }
}

/// The bytes of operators of two operands, by code.
const SIGNS: [[u8; 2]; 32] = {
    let mut signs = [[0; 2]; 32];
    signs[SUM as usize] = *b"+\0";
    signs[DIFFERENCE as usize] = *b"-\0";
    signs[PRODUCT as usize] = *b"*\0";
    signs[QUOTIENT as usize] = *b"/\0";
    signs[REMAINDER as usize] = *b"%\0";
    signs[EQUAL as usize] = *b"==";
    signs[LESS as usize] = *b"<\0";
    signs[AT_MOST as usize] = *b"<=";
    signs[AND as usize] = *b"&&";
    signs[OR as usize] = *b"||";
    signs
};

#[inline(always)]
fn sign_length(code: u8) -> usize {
    1 + usize::from(SIGNS[usize::from(code) % SIGNS.len()][1] != 0)
}

/// The bytes of a constant.
#[inline(always)]
fn digits(value: i32) -> u16 {
    let digits = value.unsigned_abs().checked_ilog10().unwrap_or(0) as u16 + 1;
    digits + u16::from(value < 0)
}

#[inline(always)]
fn put_number(text: &mut [u8], start: usize, value: i32) {
    let mut rest = value.unsigned_abs();
    let mut at = start + usize::from(digits(value)) - 1;
    if value < 0 {
        text[start] = b'-';
    }
    while rest >= 10 {
        text[at] = b'0' + (rest % 10) as u8;
        rest /= 10;
        at -= 1;
    }
    text[at] = b'0' + rest as u8;
}
