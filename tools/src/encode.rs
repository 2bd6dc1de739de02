//! Records of an agreement. The tree keeps to the limits of the record, so that every length fits
//! in two bytes and every number in one.

use crate::limits::{byte, FIRST_PARAMETER};
use crate::model::{Agreement, Blame, Clause, Expression, Head, Instance, Late, Reading, Template, Value, Wait};

/// Writes the record, and notes in each obligation and choice the byte place where it begins.
pub(crate) fn encode(agreement: &mut Agreement) -> Vec<u8> {
    let mut writer = Writer { bytes: Vec::new() };
    writer.record(1, |writer| {
        writer.bytes.extend(agreement.start.to_le_bytes());
        let counts = [agreement.parties.len(), agreement.readings.len(), agreement.templates.len()];
        writer.bytes.extend(counts.map(byte));
        agreement.readings.iter().for_each(|reading| writer.reading(reading));
        agreement.templates.iter_mut().for_each(|template| writer.template(template));
        writer.clause(&mut agreement.main);
    });
    writer.bytes
}

struct Writer {
    bytes: Vec<u8>,
}

impl Writer {
    /// "A record is a two-byte length (of the whole record), a two-byte kind, then its body."
    fn record(&mut self, kind: u16, body: impl FnOnce(&mut Writer)) {
        let start = self.bytes.len();
        self.bytes.extend([0, 0]);
        self.bytes.extend(kind.to_le_bytes());
        body(self);
        let length = u16::try_from(self.bytes.len() - start).unwrap_or(u16::MAX);
        self.bytes[start..start + 2].copy_from_slice(&length.to_le_bytes());
    }

    fn values(&mut self, values: &[Value]) {
        self.bytes.push(byte(values.len()));
        self.bytes.extend(values.iter().map(|value| value.value_type.byte()));
    }

    fn reading(&mut self, reading: &Reading) {
        self.record(2, |writer| writer.values(&reading.values));
    }

    fn template(&mut self, template: &mut Template) {
        self.record(template.head.kind(), |writer| {
            writer.head(&template.head);
            writer.clause(&mut template.body);
        });
    }

    fn head(&mut self, head: &Head) {
        self.values(&head.values);
        self.bytes.push(byte(head.parameters.len()));
        self.bytes.extend(head.declared.to_le_bytes());
        self.bytes.extend(head.units);
    }

    fn clause(&mut self, clause: &mut Clause) {
        match clause {
            Clause::Fulfilled => self.record(16, |_| {}),
            Clause::Wait(wait) => self.wait(wait),
            Clause::If(condition, then, otherwise) => self.record(19, |writer| {
                writer.expression(condition);
                writer.clause(then);
                writer.clause(otherwise);
            }),
            Clause::And(left, right) => self.sides(20, left, right),
            Clause::Or(left, right) => self.sides(21, left, right),
            Clause::Instance(instance) => self.instance(instance),
        }
    }

    fn sides(&mut self, kind: u16, left: &mut Clause, right: &mut Clause) {
        self.record(kind, |writer| {
            writer.clause(left);
            writer.clause(right);
        });
    }

    fn wait(&mut self, wait: &mut Wait) {
        wait.place = self.bytes.len();
        self.record(wait.kind(), |writer| {
            if let Late::Breach(blame) = wait.late {
                writer.blame(blame);
            }
            writer.bytes.push(byte(wait.reading + 1));
            writer.expression(&wait.condition);
            writer.expression(&wait.after);
            writer.expression(&wait.within);
            writer.clause(&mut wait.then);
            if let Late::Else(otherwise) = &mut wait.late {
                writer.clause(otherwise);
            }
        });
    }

    fn instance(&mut self, instance: &Instance) {
        self.record(22, |writer| {
            writer.bytes.push(byte(instance.template));
            instance.values.iter().for_each(|value| writer.expression(value));
            instance.blames.iter().for_each(|blame| writer.blame(*blame));
        });
    }

    fn blame(&mut self, blame: Blame) {
        self.bytes.push(match blame {
            Blame::Party(party) => byte(party),
            Blame::Parameter(parameter) => FIRST_PARAMETER.saturating_add(byte(parameter)),
        });
    }

    fn expression(&mut self, expression: &Expression) {
        match expression {
            Expression::Number(number) => self.record(32, |writer| writer.bytes.extend(number.to_le_bytes())),
            Expression::Truth(truth) => self.record(33, |writer| writer.bytes.push(u8::from(*truth))),
            Expression::Party(party) => self.record(34, |writer| writer.bytes.push(byte(*party))),
            Expression::Value(value) => self.record(35, |writer| writer.bytes.push(byte(*value))),
            Expression::Not(operand) => self.record(36, |writer| writer.expression(operand)),
            Expression::Binary(operator, left, right) => self.record(operator.kind(), |writer| {
                writer.expression(left);
                writer.expression(right);
            }),
        }
    }
}
