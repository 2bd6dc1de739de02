//! Expressions. `||` binds loosest, then `&&`, comparisons, `+ -`, `* /`, `!`.

use super::cursor::Cursor;
use crate::fault::{Fault, Place, Span};
use crate::model;
use crate::syntax::{Expression, Operator, Term};
use crate::text::Token;

type Parsed = Result<Expression, Fault>;

const OR: [(&str, Operator); 1] = [("||", Operator::Or)];
const AND: [(&str, Operator); 1] = [("&&", plain(model::Operator::And))];
const COMPARISONS: [(&str, Operator); 6] = [
    ("<", plain(model::Operator::Less)),
    ("=", plain(model::Operator::Equal)),
    ("<=", Operator::AtMost),
    (">", Operator::More),
    (">=", Operator::AtLeast),
    ("!=", Operator::Unequal),
];
const SUMS: [(&str, Operator); 2] = [("+", plain(model::Operator::Plus)), ("-", plain(model::Operator::Minus))];
const PRODUCTS: [(&str, Operator); 2] = [("*", plain(model::Operator::Times)), ("/", plain(model::Operator::Quotient))];

const fn plain(operator: model::Operator) -> Operator {
    Operator::Plain(operator)
}

impl Cursor {
    pub fn expression(&mut self) -> Parsed {
        self.nested(|cursor| cursor.grouped(&OR, |cursor| cursor.grouped(&AND, Cursor::comparison)))
    }

    /// An expression without comparison or `&&` outside parentheses.
    pub fn sum(&mut self) -> Parsed {
        self.grouped(&SUMS, |cursor| cursor.grouped(&PRODUCTS, Cursor::negation))
    }

    /// Operands with operators of one strength between, grouped to the left.
    fn grouped(&mut self, operators: &[(&str, Operator)], operand: impl Fn(&mut Cursor) -> Parsed) -> Parsed {
        let mut left = operand(self)?;
        loop {
            let at = self.at();
            let Some(operator) = self.operator(operators) else { return Ok(left) };
            let right = operand(self)?;
            left = self.binary(at, operator, left, right)?;
        }
    }

    fn operator(&mut self, operators: &[(&str, Operator)]) -> Option<Operator> {
        operators.iter().find(|(sign, _)| self.take(sign)).map(|(_, operator)| *operator)
    }

    /// At most one comparison: `a < b < c` says nothing of numbers.
    fn comparison(&mut self) -> Parsed {
        let left = self.sum()?;
        let at = self.at();
        let Some(operator) = self.operator(&COMPARISONS) else { return Ok(left) };
        let right = self.sum()?;
        let next = self.at();
        if self.operator(&COMPARISONS).is_some() {
            return Fault::err(next, "a second comparison: one of the two needs parentheses");
        }
        self.binary(at, operator, left, right)
    }

    fn negation(&mut self) -> Parsed {
        let sign = self.span();
        if !self.take("!") {
            return self.primary(sign);
        }
        let operand = self.nested(Cursor::negation)?;
        self.term(sign.to(operand.span), Term::Not(Box::new(operand)))
    }

    fn primary(&mut self, first: Span) -> Parsed {
        if self.take("(") {
            let inner = self.expression()?;
            self.expect(")")?;
            return Ok(Expression { span: first.to(self.last_span()), ..inner });
        }
        let term = match (self.token(), self.second()) {
            (Token::Number(number), _) => Term::Number(*number),
            (Token::Sign("-"), Token::Number(number)) => {
                let term = Term::Number(-number);
                self.skip();
                term
            }
            (Token::Sign("true"), _) => Term::Truth(true),
            (Token::Sign("false"), _) => Term::Truth(false),
            (Token::Name(name), _) => Term::Name(name.clone()),
            (Token::Date(_), _) => {
                let what = "a date stands only after `starting`; a difference needs blanks around `-`";
                return Err(Fault::new(first.at, what).of_length(first.end - first.start));
            }
            _ => return Err(self.unexpected("an expression")),
        };
        self.skip();
        self.term(first.to(self.last_span()), term)
    }

    fn term(&mut self, span: Span, term: Term) -> Parsed {
        self.record(span.at)?;
        Ok(Expression { at: span.at, span, term })
    }

    /// An operator with its two sides; it stands at its sign.
    fn binary(&mut self, at: Place, operator: Operator, left: Expression, right: Expression) -> Parsed {
        self.record(at)?;
        let span = left.span.to(right.span);
        Ok(Expression { at, span, term: Term::Binary(operator, Box::new(left), Box::new(right)) })
    }
}
