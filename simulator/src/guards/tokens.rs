//! The tokens of a line. Spaces stand between tokens only; whose a minus is, is told by the token before it.

use super::binding::SPELLINGS;
use crate::operators::DIFFERENCE;
use crate::refusals::{self, Refusal};
use crate::variables::VARIABLE_PLACES;

#[derive(Clone, Copy, Debug, PartialEq, Eq)]
pub enum Token {
    Constant(i32),
    Variable(u16),
    Operator(u8),
    Question,
    Colon,
    Open,
    Close,
}

impl Token {
    /// Whether an operand stands before what follows.
    fn ends_operand(self) -> bool {
        matches!(self, Token::Constant(_) | Token::Variable(_) | Token::Close)
    }
}

pub fn tokens(line: &[u8]) -> Result<Vec<Token>, Refusal> {
    let mut tokens: Vec<Token> = Vec::new();
    let mut rest = past_spaces(line);
    while !rest.is_empty() {
        let after_operand = tokens.last().is_some_and(|token| token.ends_operand());
        let (token, length) = first_token(rest, after_operand).ok_or(refusals::LINE)?;
        tokens.push(token);
        rest = past_spaces(&rest[length..]);
    }
    Ok(tokens)
}

/// What follows the spaces at the start. A space is the byte 32 alone.
fn past_spaces(bytes: &[u8]) -> &[u8] {
    let spaces = bytes.iter().take_while(|byte| **byte == b' ').count();
    &bytes[spaces..]
}

/// The token at the start of some bytes, and its length.
fn first_token(bytes: &[u8], after_operand: bool) -> Option<(Token, usize)> {
    match bytes[0] {
        b'(' => Some((Token::Open, 1)),
        b')' => Some((Token::Close, 1)),
        b'?' => Some((Token::Question, 1)),
        b':' => Some((Token::Colon, 1)),
        b'v' => variable(bytes),
        b'0'..=b'9' => constant(bytes, 0),
        b'-' if after_operand => Some((Token::Operator(DIFFERENCE), 1)),
        b'-' => constant(bytes, 1),
        _ => operator(bytes),
    }
}

fn operator(bytes: &[u8]) -> Option<(Token, usize)> {
    let (sign, operator) = SPELLINGS.iter().find(|(sign, _)| bytes.starts_with(sign.as_bytes()))?;
    Some((Token::Operator(*operator), sign.len()))
}

fn variable(bytes: &[u8]) -> Option<(Token, usize)> {
    let digits = number(&bytes[1..])?;
    let variable: u16 = digits.parse().ok()?;
    (usize::from(variable) < VARIABLE_PLACES).then_some((Token::Variable(variable), 1 + digits.len()))
}

/// With so many bytes of a minus before its number; outside 32 bits there is no token.
fn constant(bytes: &[u8], minus: usize) -> Option<(Token, usize)> {
    let length = minus + number(&bytes[minus..])?.len();
    let signed = std::str::from_utf8(&bytes[..length]).expect("ASCII");
    Some((Token::Constant(signed.parse().ok()?), length))
}

/// All digits at the start of some bytes: at least one, and no leading zero.
fn number(bytes: &[u8]) -> Option<&str> {
    let length = bytes.iter().take_while(|byte| byte.is_ascii_digit()).count();
    let digits = std::str::from_utf8(&bytes[..length]).expect("digits");
    (digits == "0" || !digits.is_empty() && !digits.starts_with('0')).then_some(digits)
}
