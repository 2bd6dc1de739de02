//! An agreement under way.

use givuntha::{Refused, Table, Taken};

pub struct Run {
    pub agreement: Vec<u8>,
    pub table: Table,
}

impl Run {
    pub fn of(agreement: Vec<u8>) -> Run {
        let (table, _) = Table::start(&agreement).expect("a start");
        Run { agreement, table }
    }

    pub fn take(&mut self, record: &[u8]) -> Result<Taken, Refused> {
        self.table.reading(&self.agreement, record)
    }
}
