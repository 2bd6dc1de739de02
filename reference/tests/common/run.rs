//! An agreement under way, for tests that follow one run.

use reference::agreement::Type;
use reference::build::{agreement, reading_type};
use reference::{reading, start, Taken, CELLS};

pub const START: u32 = 100;
/// Reading types: one with a number, one without values.
pub const LEVEL: u8 = 1;
pub const BELL: u8 = 2;

#[derive(Clone)]
pub struct Run {
    pub agreement: Vec<u8>,
    pub table: Vec<i64>,
}

impl Run {
    pub fn with(templates: &[Vec<u8>], main: &[u8]) -> Run {
        let readings = [reading_type(&[Type::Number]), reading_type(&[])];
        let agreement = agreement(START, 2, &readings, templates, main);
        // "Start ignores the table's earlier contents."
        let mut table = vec![7; CELLS];
        assert_eq!(start(&agreement, &mut table).number, 0);
        Run { agreement, table }
    }

    pub fn of(main: &[u8]) -> Run {
        Run::with(&[], main)
    }

    /// Takes any bytes as a reading.
    pub fn take(&mut self, bytes: &[u8]) -> Taken {
        reading(&self.agreement, &mut self.table, bytes)
    }
}
