//! A guard's line read into nodes: one pass with a stack of what waits for its right operand, into records that are copied once
//! all is well. There is no recursion, so that depth costs no more than breadth.

use crate::operators::*;
use crate::Refusal;

const LONGEST: usize = 256;
/// Lines of at most so many bytes, which most are, need less room cleared.
const SHORT: usize = 32;

/// The number of nodes, or 22, 23, 24; then nothing is changed.
pub fn read(line: &[u8], nodes: &mut [u8]) -> Result<usize, Refusal> {
    match line.len() {
        1..=SHORT => read_into::<SHORT>(line, nodes),
        1..=LONGEST => read_into::<LONGEST>(line, nodes),
        _ => Err(22),
    }
}

#[inline(always)]
fn read_into<const N: usize>(line: &[u8], nodes: &mut [u8]) -> Result<usize, Refusal> {
    let mut reader = Reader {
        line,
        at: 0,
        records: [0; N],
        count: 0,
        below: [BOTTOM; N],
        depth: 0,
        top: BOTTOM,
        sorted: true,
    };
    let Some(root) = reader.whole_line() else {
        return Err(22);
    };
    if !reader.sorted || root & TRUTH == 0 {
        return Err(23);
    }
    let records = &reader.records[..reader.count];
    let Some(places) = nodes.as_chunks_mut::<16>().0.get_mut(..records.len()) else {
        return Err(24);
    };
    for (place, record) in places.iter_mut().zip(records) {
        *place = record.to_le_bytes();
    }
    Ok(records.len())
}

/// A node's number, and this bit where it is a truth.
type Operand = u32;
const TRUTH: Operand = 1 << 16;

/// What waits for its right operand: its level, its code, and its left operand where it has one.
type Waiting = u32;
const LEFT: Waiting = (1 << 17) - 1;

const fn waiting(level: u8, code: u8) -> Waiting {
    (level as u32) << 28 | (code as u32) << 20
}

/// `(` and `?` hold back what waits below them; a choice that has met its `:` is the loosest of operations.
const BOTTOM: Waiting = waiting(0, 0);
const OPEN: Waiting = waiting(0, 1);
const QUESTION: Waiting = waiting(0, 2);
const COLON: Waiting = waiting(1, CHOICE);
const NEGATION: Waiting = waiting(1 + LEVELS[NOT as usize], NOT);

/// Of each byte that may follow an operand: what waits and binds at least so tight ends there; and the operator that it begins.
/// Any other byte ends nothing, and begins none.
const FOLLOWERS: [(u8, u8); 256] = {
    let operators = *b"+-*/%<=&|";
    let codes = [SUM, DIFFERENCE, PRODUCT, QUOTIENT, REMAINDER, LESS, EQUAL, AND, OR];
    let mut followers = [(8, 0); 256];
    let mut at = 0;
    while at < codes.len() {
        followers[operators[at] as usize] = (1 + LEVELS[codes[at] as usize], codes[at]);
        at += 1;
    }
    followers[b'?' as usize] = (2, 0);
    followers[b':' as usize] = (1, 0);
    followers[b')' as usize] = (1, 0);
    // The end of the line.
    followers[0] = (1, 0);
    followers
};

#[inline(always)]
fn field(operand: Operand, place: u32) -> u128 {
    u128::from(operand & 0xffff) << (16 + 16 * place)
}

/// A node takes a byte of the line at least, and so does what waits: a line of at most N bytes has at most N of each.
struct Reader<'a, const N: usize> {
    line: &'a [u8],
    at: usize,
    records: [u128; N],
    count: usize,
    /// What waits, below the top.
    below: [Waiting; N],
    depth: usize,
    top: Waiting,
    /// No operand so far is of the wrong sort.
    sorted: bool,
}

/// None is outside the grammar.
impl<const N: usize> Reader<'_, N> {
    #[inline(always)]
    fn whole_line(&mut self) -> Option<Operand> {
        let mut left = self.operand()?;
        loop {
            let byte = self.byte();
            if byte == b' ' {
                self.at += 1;
                continue;
            }
            let (level, code) = FOLLOWERS[usize::from(byte)];
            left = self.end_from(level, left);
            self.at += 1;
            match byte {
                b')' if self.top == OPEN => {
                    self.pop();
                    continue;
                }
                b'?' => self.wait(QUESTION | left),
                b':' if self.top & !LEFT == QUESTION => self.wait(COLON | left),
                0 => return (self.at > self.line.len() && self.top == BOTTOM).then_some(left),
                _ => {
                    let code = self.whole_operator(byte, code)?;
                    self.wait(waiting(level, code) | left);
                }
            }
            left = self.operand()?;
        }
    }

    #[inline(always)]
    fn byte(&self) -> u8 {
        self.line.get(self.at).copied().unwrap_or(0)
    }

    /// The operator whose first byte was passed.
    #[inline(always)]
    fn whole_operator(&mut self, first: u8, code: u8) -> Option<u8> {
        let second = self.byte();
        match code {
            0 => None,
            LESS if second == b'=' => {
                self.at += 1;
                Some(AT_MOST)
            }
            EQUAL | AND | OR => {
                self.at += 1;
                (first == second).then_some(code)
            }
            _ => Some(code),
        }
    }

    /// What stands before an operand, and the operand.
    #[inline(always)]
    fn operand(&mut self) -> Option<Operand> {
        loop {
            let byte = self.byte();
            self.at += 1;
            match byte {
                b' ' => {}
                b'(' => self.wait(OPEN),
                b'!' => self.wait(NEGATION),
                b'v' => {
                    let number = self.number().filter(|number| *number < 64)?;
                    return Some(self.push(VARIABLE, field(number, 0), 0));
                }
                b'-' => {
                    let value = self.number()?;
                    return Some(self.push(CONSTANT, u128::from(value.wrapping_neg()) << 64, 0));
                }
                _ => {
                    self.at -= 1;
                    let value = self.number().filter(|value| *value < 1 << 31)?;
                    return Some(self.push(CONSTANT, u128::from(value) << 64, 0));
                }
            }
        }
    }

    /// Digits here without a leading zero, up to 2,147,483,648.
    #[inline(always)]
    fn number(&mut self) -> Option<u32> {
        let digit = |byte: u8| Some(u64::from(byte.wrapping_sub(b'0'))).filter(|digit| *digit < 10);
        let mut value = digit(self.byte())?;
        self.at += 1;
        while let Some(next) = digit(self.byte()) {
            value = 10 * value + next;
            // Below 10 the first digit was a zero.
            if !(10..=1 << 31).contains(&value) {
                return None;
            }
            self.at += 1;
        }
        Some(value as u32)
    }

    /// Makes nodes of what waits and binds at least so tight; gives the last of them.
    #[inline(always)]
    fn end_from(&mut self, level: u8, mut right: Operand) -> Operand {
        while self.top >= waiting(level, 0) {
            let (code, left) = ((self.top >> 20) as u8, self.top & LEFT);
            self.pop();
            right = match code {
                NOT => {
                    self.sorted &= right & TRUTH != 0;
                    self.push(NOT, field(right, 0), TRUTH)
                }
                CHOICE => {
                    let first = self.top & LEFT;
                    self.pop();
                    self.sorted &= first & TRUTH != 0 && (left | right) & TRUTH == 0;
                    self.push(CHOICE, field(first, 0) | field(left, 1) | field(right, 2), 0)
                }
                _ => {
                    // Both are truths under `&&` and `||`, and numbers elsewhere.
                    let taken = if code >= AND { TRUTH } else { 0 };
                    self.sorted &= left & TRUTH == taken && right & TRUTH == taken;
                    let given = if code >= EQUAL { TRUTH } else { 0 };
                    self.push(code, field(left, 0) | field(right, 1), given)
                }
            };
        }
        right
    }

    #[inline(always)]
    fn wait(&mut self, next: Waiting) {
        self.below[self.depth & (N - 1)] = self.top;
        self.depth += 1;
        self.top = next;
    }

    #[inline(always)]
    fn pop(&mut self) {
        self.depth -= 1;
        self.top = self.below[self.depth & (N - 1)];
    }

    #[inline(always)]
    fn push(&mut self, operator: u8, fields: u128, sort: Operand) -> Operand {
        self.records[self.count & (N - 1)] = 5 | u128::from(operator) << 8 | fields;
        self.count += 1;
        (self.count - 1) as Operand | sort
    }
}
