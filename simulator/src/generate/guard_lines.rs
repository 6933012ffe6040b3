//! Lines of guards: trees spelt with spaces and parentheses that change nothing, and trees of wrong sorts.

use super::expressions::{number_size_possible, Grower, Style};
use super::ways::{insist, ways, Way};
use crate::guards::binding::{level, spelling, CHOICE_LEVEL, LOOSEST_LEVEL, NOT_LEVEL};
use crate::guards::{Tree, LONGEST_LINE};
use crate::operators::*;
use crate::random::Random;
use crate::variables::VARIABLE_PLACES;

pub type Tokens = Vec<String>;

/// Lines that are read, or refused by 23; those refused by 22 are `guard_line_damage`'s.
pub const WAYS: &[Way] = ways! {
    "as it is written" [0], |random| fitting(random).text().into_bytes();
    "spaces" [0], |random| line(random, fitting, 0, 1);
    "parentheses" [0], |random| line(random, fitting, 1, 0);
    "spaces and parentheses" [0], |random| line(random, fitting, 1, 1);
    "exactly 256 bytes" [0], |random| padded(random, LONGEST_LINE);
    "a number as the whole line" [23], |random| line(random, number, 1, 1);
    "a choice as the whole line" [23], |random| line(random, choice, 1, 1);
    "comparisons in a row" [23], |random| line(random, row, 0, 1);
    "one wrong sort" [23], |random| line(random, one_wrong_sort, 1, 1);
    "operands of any sort" [0, 23], |random| line(random, loose, 1, 1);
};

/// The tree of a sort and of exactly so many nodes.
pub fn tree(random: &mut Random, sort: Sort, size: usize) -> Tree {
    let style = Style { variables: VARIABLE_PLACES, daring: random.chance(1, 3), chain: random.chance(1, 3) };
    let mut nodes = Vec::new();
    let mut grower = Grower { random, nodes: &mut nodes, style };
    match sort {
        Sort::Truth => grower.truth(size),
        Sort::Number => grower.number(size),
    };
    Tree::of(&nodes, nodes.len() - 1)
}

fn some_size(random: &mut Random) -> usize {
    let most = random.pick(&[5, 12, 30, 80, 130]);
    3 + random.below(most)
}

/// A truth whose line has at most 256 bytes.
pub fn fitting(random: &mut Random) -> Tree {
    insist(random, |random| {
        let size = some_size(random);
        Some(tree(random, Sort::Truth, size)).filter(|tree| tree.text().len() <= LONGEST_LINE)
    })
}

fn number(random: &mut Random) -> Tree {
    let size = some_size(random);
    tree(random, Sort::Number, if number_size_possible(size) { size } else { 1 })
}

fn choice(random: &mut Random) -> Tree {
    let [first, second, third] = [Sort::Truth, Sort::Number, Sort::Number].map(|sort| {
        let size = random.pick(&[3, 5, 9]);
        tree(random, sort, size)
    });
    Tree::Operation(CHOICE, vec![first, second, third])
}

/// Comparisons that group to the left, so that a truth is compared.
fn row(random: &mut Random) -> Tree {
    let mut row = tree(random, Sort::Truth, 3);
    for _ in 0..1 + random.below(4) {
        let right = tree(random, Sort::Number, 1);
        row = Tree::Operation(random.pick(&[LESS, AT_MOST, EQUAL]), vec![row, right]);
    }
    row
}

/// An operator of two operands put in the place of one that takes or gives another sort.
fn one_wrong_sort(random: &mut Random) -> Tree {
    insist(random, |random| {
        let mut nodes = fitting(random).nodes();
        let at = random.below(nodes.len());
        nodes[at].operator = other_sort(random, nodes[at].operator)?;
        Some(Tree::of(&nodes, nodes.len() - 1))
    })
}

pub fn other_sort(random: &mut Random, operator: u8) -> Option<u8> {
    match operator {
        SUM..=REMAINDER => Some(random.pick(&[LESS, AT_MOST, EQUAL, AND, OR])),
        LESS | AT_MOST | EQUAL => Some(random.pick(&[SUM, DIFFERENCE, QUOTIENT, AND, OR])),
        AND | OR => Some(random.pick(&[SUM, PRODUCT, REMAINDER, LESS, AT_MOST, EQUAL])),
        _ => None,
    }
}

/// Any operators over any operands.
fn loose(random: &mut Random) -> Tree {
    let depth = 1 + random.below(5);
    loose_below(random, depth)
}

fn loose_below(random: &mut Random, depth: usize) -> Tree {
    if depth == 0 || random.chance(1, 6) {
        return tree(random, Sort::Number, 1);
    }
    let operator =
        random.pick(&[SUM, DIFFERENCE, PRODUCT, REMAINDER, CHOICE, EQUAL, LESS, AT_MOST, NOT, AND, OR]);
    let operands = shape(operator).expect("a known operator").operands;
    Tree::Operation(operator, operands.iter().map(|_| loose_below(random, depth - 1)).collect())
}

/// A line of at most 256 bytes of some tree; 0 extra parentheses or spaces, or some.
fn line(random: &mut Random, tree: fn(&mut Random) -> Tree, parentheses: usize, spaces: usize) -> Vec<u8> {
    insist(random, |random| {
        let tokens = tokens(random, tree, parentheses);
        Some(joined(random, &tokens, spaces)).filter(|line| line.len() <= LONGEST_LINE)
    })
}

/// Of exactly so many bytes, by spaces at the ends or between tokens.
pub fn padded(random: &mut Random, length: usize) -> Vec<u8> {
    insist(random, |random| {
        let mut tokens = tokens(random, fitting, 1);
        let missing = length.checked_sub(joined(random, &tokens, 0).len())?;
        let within = random.below(tokens.len());
        let at = random.pick(&[0, tokens.len(), within]);
        tokens.insert(at, " ".repeat(missing));
        Some(joined(random, &tokens, 0))
    })
}

pub fn joined(random: &mut Random, tokens: &[String], spaces: usize) -> Vec<u8> {
    let mut line = String::new();
    let often = 1 + random.below(6);
    for token in tokens {
        line += &gap(random, spaces, often);
        line += token;
    }
    line += &gap(random, spaces, often);
    line.into_bytes()
}

fn gap(random: &mut Random, spaces: usize, often: usize) -> String {
    " ".repeat(if random.chance(1, often) { spaces * (1 + random.below(2)) } else { 0 })
}

/// The tokens of some tree: the parentheses that it needs, and at times more.
pub fn tokens(random: &mut Random, tree: fn(&mut Random) -> Tree, parentheses: usize) -> Tokens {
    let tree = tree(random);
    let mut speller = Speller { often: 1 + random.below(12), random, parentheses, tokens: Vec::new() };
    speller.spell(&tree, CHOICE_LEVEL);
    speller.tokens
}

struct Speller<'a> {
    random: &'a mut Random,
    parentheses: usize,
    often: usize,
    tokens: Tokens,
}

impl Speller<'_> {
    fn spell(&mut self, tree: &Tree, least: usize) {
        let needed = usize::from(tree.level() < least);
        let more =
            if self.random.chance(1, self.often) { self.parentheses * (1 + self.random.below(2)) } else { 0 };
        self.times("(", needed + more);
        match tree {
            Tree::Constant(0) if self.random.chance(1, 4) => self.token("-0"),
            Tree::Constant(_) | Tree::Variable(_) => self.token(&tree.text()),
            Tree::Operation(operator, operands) => self.operation(*operator, operands),
        }
        self.times(")", needed + more);
    }

    fn operation(&mut self, operator: u8, operands: &[Tree]) {
        match operator {
            NOT => {
                self.token("!");
                self.spell(&operands[0], NOT_LEVEL);
            }
            CHOICE => {
                self.spell(&operands[0], LOOSEST_LEVEL);
                self.token("?");
                self.spell(&operands[1], CHOICE_LEVEL);
                self.token(":");
                self.spell(&operands[2], CHOICE_LEVEL);
            }
            _ => {
                self.spell(&operands[0], level(operator));
                self.token(spelling(operator));
                self.spell(&operands[1], level(operator) + 1);
            }
        }
    }

    fn token(&mut self, token: &str) {
        self.tokens.push(token.to_string());
    }

    fn times(&mut self, token: &str, times: usize) {
        (0..times).for_each(|_| self.token(token));
    }
}
