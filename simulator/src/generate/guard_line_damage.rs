//! Damaged lines of guards: each way to leave the grammar, and changes that may or may not.

use super::guard_lines::{fitting, joined, padded, tokens, tree, Tokens};
use super::ways::{insist, ways, Way};
use crate::guards::LONGEST_LINE;
use crate::operators::Sort;
use crate::random::Random;

/// What lines are made of.
const ALPHABET: &[u8] = b"v0123456789+-*/%<=&|!?:() ";

pub const WAYS: &[Way] = ways! {
    "a leading zero" [22], |random| damaged(random, leading_zero);
    "a constant outside 32 bits" [22], |random| operand_changed(random, OUTSIDE);
    "a variable above 63" [22], |random| operand_changed(random, ABOVE_63);
    "a minus of nothing" [22], |random| operand_changed(random, &["- 3", "-v0", "-(3)", "--3", "-", "- -3", "-!3"]);
    "half a name" [22], |random| operand_changed(random, &["v", "v v0", "V0", "v-1", "x", "()"]);
    "half an operator" [22], |random| damaged(random, half_operator);
    "an operator of another language" [22], |random| damaged(random, foreign_operator);
    "a space inside" [22], |random| damaged(random, space_inside);
    "two operands side by side" [22], |random| damaged(random, side_by_side);
    "two operators side by side" [22], |random| damaged(random, operators_side_by_side);
    "a parenthesis too many" [22], |random| damaged(random, |r, tokens| inserted(r, tokens, &["(", ")"]));
    "a parenthesis lost" [22], |random| damaged(random, parenthesis_lost);
    "half a choice" [22], |random| damaged(random, |r, tokens| inserted(r, tokens, &["?", ":"]));
    "a byte of no token" [22], foreign_byte;
    "too long by spaces" [22], too_long_by_spaces;
    "too long" [22], too_long;
    "nothing but spaces" [22], nothing;
    "deep in parentheses" [0, 22], deep;
    "many negations" [0, 22, 23], negations;
    "a byte changed" [0, 22, 23], |random| bytes_changed(random, |r, line, at| line[at] = any_byte(r));
    "a byte removed" [0, 22, 23], |random| bytes_changed(random, |_, line, at| { line.remove(at); });
    "a byte inserted" [0, 22, 23], |random| bytes_changed(random, |r, line, at| line.insert(at, any_byte(r)));
    "cut" [0, 22, 23], |random| bytes_changed(random, |_, line, at| line.truncate(at));
    "tokens swapped" [0, 22, 23], |random| damaged(random, swapped);
    "tokens in any order" [0, 22, 23], soup;
    "any bytes" [0, 22, 23], any_bytes;
};

const ABOVE_63: &[&str] = &["v64", "v65", "v99", "v100", "v640", "v4294967296"];

const OUTSIDE: &[&str] = &[
    "2147483648",
    "-2147483649",
    "4294967295",
    "4294967296",
    "-4294967296",
    "9999999999",
    "-21474836480",
    "18446744073709551615",
    "18446744073709551617",
    "340282366920938463463374607431768211457",
];

/// The tokens of a line with spaces and parentheses, damaged where they can be, with at most 256 bytes.
fn damaged(random: &mut Random, damage: impl Fn(&mut Random, &mut Tokens) -> Option<()>) -> Vec<u8> {
    insist(random, |random| {
        let mut tokens = tokens(random, fitting, 1);
        damage(random, &mut tokens)?;
        let spaces = random.below(2);
        Some(joined(random, &tokens, spaces)).filter(|line| line.len() <= LONGEST_LINE)
    })
}

fn is_operand(token: &str) -> bool {
    token.ends_with(|last: char| last.is_ascii_digit())
}

fn is_operator(token: &str) -> bool {
    ["<", "<=", "==", "&&", "||", "+", "-", "*", "/", "%"].contains(&token)
}

/// The place of a token that fits.
fn place(random: &mut Random, tokens: &Tokens, fits: fn(&str) -> bool) -> Option<usize> {
    let places: Vec<usize> = (0..tokens.len()).filter(|at| fits(&tokens[*at])).collect();
    (!places.is_empty()).then(|| random.pick(&places))
}

fn operand_changed(random: &mut Random, to: &[&str]) -> Vec<u8> {
    damaged(random, |random, tokens| {
        let at = place(random, tokens, is_operand)?;
        tokens[at] = random.pick(to).to_string();
        Some(())
    })
}

fn leading_zero(random: &mut Random, tokens: &mut Tokens) -> Option<()> {
    let at = place(random, tokens, is_operand)?;
    let digits = tokens[at].find(|byte: char| byte.is_ascii_digit())?;
    tokens[at].insert_str(digits, random.pick(&["0", "0", "00"]));
    Some(())
}

/// What is left of an operator of two bytes, or its halves apart.
fn half_operator(random: &mut Random, tokens: &mut Tokens) -> Option<()> {
    let at = place(random, tokens, |token| is_operator(token) && token.len() == 2)?;
    let to: &[&str] = match &*tokens[at] {
        "<=" => &["=", "< =", "<= ="],
        "==" => &["=", "= =", "== ="],
        "&&" => &["&", "& &", "&&&"],
        _ => &["|", "| |", "|||"],
    };
    tokens[at] = random.pick(to).to_string();
    Some(())
}

fn foreign_operator(random: &mut Random, tokens: &mut Tokens) -> Option<()> {
    let at = place(random, tokens, is_operator)?;
    tokens[at] =
        random.pick(&["!=", ">", ">=", "=<", "<>", "<<", "**", "//", "^", "&|", "and", ",", "="]).to_string();
    Some(())
}

fn space_inside(random: &mut Random, tokens: &mut Tokens) -> Option<()> {
    let at = place(random, tokens, |token| token.len() > 1)?;
    let inside = 1 + random.below(tokens[at].len() - 1);
    tokens[at].insert(inside, ' ');
    Some(())
}

fn side_by_side(random: &mut Random, tokens: &mut Tokens) -> Option<()> {
    let at = place(random, tokens, |token| is_operand(token) || token == ")")?;
    tokens[at] += random.pick(&[" 1", "v3", " v3", "(2)", " (v0)", "!v1", " !1"]);
    Some(())
}

fn operators_side_by_side(random: &mut Random, tokens: &mut Tokens) -> Option<()> {
    let at = place(random, tokens, is_operator)?;
    tokens[at] += random.pick(&["+", "*", " / ", "%", " <", "<=", " ==", "&&", " || ", "?", ":", ")"]);
    Some(())
}

fn inserted(random: &mut Random, tokens: &mut Tokens, what: &[&str]) -> Option<()> {
    let at = random.below(tokens.len() + 1);
    tokens.insert(at, random.pick(what).to_string());
    Some(())
}

fn parenthesis_lost(random: &mut Random, tokens: &mut Tokens) -> Option<()> {
    let at = place(random, tokens, |token| token == "(" || token == ")")?;
    tokens.remove(at);
    Some(())
}

fn swapped(random: &mut Random, tokens: &mut Tokens) -> Option<()> {
    let (one, other) = (random.below(tokens.len()), random.below(tokens.len()));
    tokens.swap(one, other);
    Some(())
}

fn bytes_changed(random: &mut Random, change: fn(&mut Random, &mut Vec<u8>, usize)) -> Vec<u8> {
    let mut line = insist(random, |random| {
        let tokens = tokens(random, fitting, 1);
        Some(joined(random, &tokens, 1)).filter(|line| line.len() <= LONGEST_LINE)
    });
    let at = random.below(line.len());
    change(random, &mut line, at);
    line
}

/// Mostly one that lines are made of.
fn any_byte(random: &mut Random) -> u8 {
    if random.chance(1, 10) {
        random.u8()
    } else {
        random.pick(ALPHABET)
    }
}

fn foreign_byte(random: &mut Random) -> Vec<u8> {
    let byte = insist(random, |random| {
        let any = random.u8();
        let byte = random.pick(&[0, 9, 10, 13, b'V', b'>', b'^', b'_', 127, 128, 255, any]);
        (!ALPHABET.contains(&byte)).then_some(byte)
    });
    let mut line = bytes_changed(random, |_, _, _| {});
    let at = random.below(line.len() + 1);
    line.insert(at, byte);
    line.truncate(LONGEST_LINE.max(at + 1));
    line
}

fn too_long_by_spaces(random: &mut Random) -> Vec<u8> {
    let more = random.pick(&[1, 1, 2, 40]);
    padded(random, LONGEST_LINE + more)
}

fn nothing(random: &mut Random) -> Vec<u8> {
    let most = random.pick(&[1, 5, 260]);
    vec![b' '; random.below(most)]
}

fn any_bytes(random: &mut Random) -> Vec<u8> {
    let most = random.pick(&[4, 12, 300]);
    (0..random.below(most)).map(|_| any_byte(random)).collect()
}

/// Without one space.
fn too_long(random: &mut Random) -> Vec<u8> {
    insist(random, |random| {
        let size = 80 + random.below(300);
        let text = tree(random, Sort::Truth, size).text();
        (text.len() > LONGEST_LINE).then(|| text.into_bytes())
    })
}

/// As many parentheses on both sides, or one more on one of them, around a short line.
fn deep(random: &mut Random) -> Vec<u8> {
    let depth = random.pick(&[3, 50, 124, 125, 126, 127, 128]);
    let (open, close) =
        random.pick(&[(depth, depth), (depth, depth), (depth + 1, depth), (depth, depth + 1)]);
    let inner = random.pick(&["v0<0", "1==v9", "!(2<3)", ""]);
    let opening = random.pick(&["(", "(", "!("]);
    format!("{}{inner}{}", opening.repeat(open), ")".repeat(close)).into_bytes()
}

fn negations(random: &mut Random) -> Vec<u8> {
    let times = random.pick(&[2, 30, 249, 250, 251, 255, 256]);
    let operand = random.pick(&["(v0<0)", "(v0<0)", "v0", "7", ""]);
    let mut line = format!("{}{operand}", "!".repeat(times));
    line.truncate(LONGEST_LINE);
    line.into_bytes()
}

fn soup(random: &mut Random) -> Vec<u8> {
    let known =
        ["v0", "v63", "1", "-2", "(", ")", "!", "<", "<=", "==", "&&", "||", "+", "-", "*", "?", ":", " "];
    let most = random.pick(&[4, 8, 16]);
    (0..1 + random.below(most)).map(|_| random.pick(&known)).collect::<String>().into_bytes()
}
