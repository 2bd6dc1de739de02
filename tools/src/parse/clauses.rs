//! Clauses. `or` binds loosest, then `and`; `then` and `else` reach as far right as they can.

use super::cursor::Cursor;
use crate::fault::{Fault, Place};
use crate::near::nearest;
use crate::syntax::{Clause, Expression, Form, Instance, Name, Wait};
use crate::text::{Token, WORDS};

impl Cursor {
    pub fn clause(&mut self) -> Result<Clause, Fault> {
        self.nested(|cursor| cursor.joined("or", Form::Or, |cursor| cursor.joined("and", Form::And, Cursor::atom)))
    }

    /// Sides joined by a word, grouped to the left.
    fn joined(
        &mut self,
        word: &str,
        form: fn(Box<Clause>, Box<Clause>) -> Form,
        side: impl Fn(&mut Cursor) -> Result<Clause, Fault>,
    ) -> Result<Clause, Fault> {
        let mut left = side(self)?;
        loop {
            let at = self.at();
            if !self.take(word) {
                return Ok(left);
            }
            let right = side(self)?;
            let from = left.from;
            left = Clause { from, ..self.made(at, form(Box::new(left), Box::new(right)))? };
        }
    }

    fn made(&mut self, at: Place, form: Form) -> Result<Clause, Fault> {
        self.record(at)?;
        Ok(Clause { at, from: at, form })
    }

    fn atom(&mut self) -> Result<Clause, Fault> {
        let at = self.at();
        match self.token() {
            Token::Sign("fulfilment") => {
                self.skip();
                self.made(at, Form::Fulfilment)
            }
            Token::Sign("<") => self.obligation(at),
            Token::Sign("if") => self.either_if(at),
            Token::Sign("(") => {
                self.skip();
                let clause = self.clause()?;
                self.expect(")")?;
                Ok(Clause { from: at, ..clause })
            }
            Token::Name(_) => self.instance(at),
            _ => Err(self.unexpected("a clause")),
        }
    }

    fn obligation(&mut self, at: Place) -> Result<Clause, Fault> {
        self.expect("<")?;
        let blame = self.name("a party's name")?;
        self.close_angle()?;
        let wait = self.wait()?;
        self.made(at, Form::Obligation(blame, Box::new(wait)))
    }

    /// A name and a parenthesis after `if` begin a reading, for no expression begins so.
    fn either_if(&mut self, at: Place) -> Result<Clause, Fault> {
        self.expect("if")?;
        if matches!((self.token(), self.second()), (Token::Name(_), Token::Sign("("))) {
            let wait = self.wait()?;
            let otherwise = self.optional("else")?;
            return self.made(at, Form::Choice(Box::new(wait), otherwise));
        }
        let condition = self.expression()?;
        self.expect("then")?;
        let then = self.clause()?;
        let otherwise = self.optional("else")?;
        self.made(at, Form::If(condition, Box::new(then), otherwise))
    }

    fn instance(&mut self, at: Place) -> Result<Clause, Fault> {
        let template = self.name("a template's name")?;
        let alone = !matches!(self.token(), Token::Sign("(") | Token::Wrong(_));
        if let (true, Some(word)) = (alone, nearest(&template.text, WORDS)) {
            let what = format!("`{}` begins no clause; did you mean `{word}`?", template.text);
            return Err(Fault::new(at, what).of_length(template.length()));
        }
        let values = self.enclosed("(", ")", Cursor::expression)?;
        let parties = self.parties()?;
        self.made(at, Form::Instance(Instance { template, values, parties }))
    }

    /// The clause after a word, if the word is there.
    fn optional(&mut self, word: &str) -> Result<Option<Box<Clause>>, Fault> {
        if !self.take(word) {
            return Ok(None);
        }
        Ok(Some(Box::new(self.clause()?)))
    }

    /// A reading, its deadline, and what follows in time.
    fn wait(&mut self) -> Result<Wait, Fault> {
        let reading = self.name("a reading's name")?;
        let bound = self.enclosed("(", ")", |cursor| cursor.name("a value's name or `_`"))?;
        let condition = match self.take("where") {
            true => Some(self.expression()?),
            false => None,
        };
        self.expect("due")?;
        let (after, within) = self.window()?;
        let remaining = self.remaining()?;
        let then = self.optional("then")?;
        Ok(Wait { reading, bound, condition, after, within, remaining, then })
    }

    /// `immediately` with or without `after`, or `after` and `within` in any order.
    fn window(&mut self) -> Result<(Option<Expression>, Option<Expression>), Fault> {
        if self.take("after") {
            let after = self.sum()?;
            self.expect("within")?;
            return Ok((Some(after), Some(self.sum()?)));
        }
        let within = if self.take("immediately") {
            None
        } else if self.take("within") {
            Some(self.sum()?)
        } else {
            return Err(self.unexpected("`immediately`, `after` or `within`"));
        };
        let after = match self.take("after") {
            true => Some(self.sum()?),
            false => None,
        };
        Ok((after, within))
    }

    fn remaining(&mut self) -> Result<Option<Name>, Fault> {
        match self.take("remaining") {
            true => self.name("a name for the remaining time").map(Some),
            false => Ok(None),
        }
    }
}
