//! The grammar, by recursive descent: a choice, the five levels of operators with two operands, `!`, and what binds tightest.

use super::binding::LEVELS;
use super::tokens::Token;
use super::tree::Tree;
use crate::operators::{CHOICE, NOT};
use crate::refusals::{self, Refusal};

/// The tree of a whole line.
pub fn parse(tokens: &[Token]) -> Result<Tree, Refusal> {
    let mut parser = Parser { rest: tokens };
    let tree = parser.choice()?;
    if parser.rest.is_empty() {
        Ok(tree)
    } else {
        Err(refusals::LINE)
    }
}

struct Parser<'a> {
    rest: &'a [Token],
}

impl Parser<'_> {
    /// A disjunction, or a disjunction, `?`, a choice, `:`, a choice.
    fn choice(&mut self) -> Result<Tree, Refusal> {
        let first = self.level(&LEVELS)?;
        if !self.passed(Token::Question) {
            return Ok(first);
        }
        let second = self.choice()?;
        self.expect(Token::Colon)?;
        let third = self.choice()?;
        Ok(Tree::Operation(CHOICE, vec![first, second, third]))
    }

    /// Operands of the tighter levels with operators of the first of these levels between them, grouped to the left.
    fn level(&mut self, levels: &[&[u8]]) -> Result<Tree, Refusal> {
        let Some((operators, tighter)) = levels.split_first() else {
            return self.negation();
        };
        let mut tree = self.level(tighter)?;
        while let Some(operator) = self.passed_operator(operators) {
            let right = self.level(tighter)?;
            tree = Tree::Operation(operator, vec![tree, right]);
        }
        Ok(tree)
    }

    /// `!` may follow `!`.
    fn negation(&mut self) -> Result<Tree, Refusal> {
        if self.passed(Token::Operator(NOT)) {
            Ok(Tree::Operation(NOT, vec![self.negation()?]))
        } else {
            self.operand()
        }
    }

    fn operand(&mut self) -> Result<Tree, Refusal> {
        match self.next() {
            Some(Token::Constant(value)) => Ok(Tree::Constant(value)),
            Some(Token::Variable(number)) => Ok(Tree::Variable(number)),
            Some(Token::Open) => {
                let inner = self.choice()?;
                self.expect(Token::Close)?;
                Ok(inner)
            }
            _ => Err(refusals::LINE),
        }
    }

    fn next(&mut self) -> Option<Token> {
        let (first, rest) = self.rest.split_first()?;
        self.rest = rest;
        Some(*first)
    }

    /// Whether the next token is this one, which is then passed.
    fn passed(&mut self, token: Token) -> bool {
        let next = self.rest.first() == Some(&token);
        if next {
            self.rest = &self.rest[1..];
        }
        next
    }

    fn passed_operator(&mut self, operators: &[u8]) -> Option<u8> {
        operators.iter().copied().find(|operator| self.passed(Token::Operator(*operator)))
    }

    fn expect(&mut self, token: Token) -> Result<(), Refusal> {
        if self.passed(token) {
            Ok(())
        } else {
            Err(refusals::LINE)
        }
    }
}
