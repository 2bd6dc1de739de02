//! The calls of the program `trials`, `../crates/trials/stdin`, given to this monitor: it must write what the program
//! must, `../crates/trials/stdout`, byte for byte. How the calls are laid out stands in `../crates/trials/src/main.rt`.

use reference::{check, preview, reading, start, Forecast, Taken};
use std::fmt::Write;
use std::path::PathBuf;

/// What is left of the steps.
struct Steps<'a>(&'a [u8]);

impl<'a> Steps<'a> {
    fn take(&mut self, n: usize) -> &'a [u8] {
        let (taken, left) = self.0.split_at(n);
        self.0 = left;
        taken
    }

    fn length(&mut self) -> usize {
        usize::from(u16::from_le_bytes(self.take(2).try_into().expect("two bytes")))
    }

    fn named(&mut self) -> &'a [u8] {
        let n = self.length();
        self.take(n)
    }
}

fn start_line(agreement: &[u8], table: &mut [i64]) -> String {
    let answer = start(agreement, table);
    table_line(format!("start {} {}", answer.number, ahead(answer.forecast)), table)
}

fn reading_line(agreement: &[u8], table: &mut [i64], event: &[u8]) -> String {
    let answer = reading(agreement, table, event);
    table_line(format!("reading {}", taken(answer)), table)
}

fn preview_line(agreement: &[u8], table: &[i64], event: &[u8], second: &mut [i64]) -> String {
    let answer = preview(agreement, table, event, second);
    table_line(format!("preview {}", taken(answer)), second)
}

/// The number, the forecast, the mark and the cost.
fn taken(answer: Taken) -> String {
    let ahead = ahead(answer.forecast);
    format!("{} {ahead} {} {}", answer.number, answer.early, answer.cost)
}

/// The time of the breach ahead and its parties by bit, or zeros where there is none.
fn ahead(forecast: Forecast) -> String {
    let (time, parties) = forecast.unwrap_or((0, 0));
    format!("{time} {parties}")
}

/// What was answered, and the cells that are not zero.
fn table_line(answer: String, table: &[i64]) -> String {
    let mut line = answer;
    for (i, &z) in table.iter().enumerate().filter(|(_, &z)| z != 0) {
        match z {
            0.. => write!(line, " {i}={z}"),
            _ => write!(line, " {i}=~{}", !z),
        }
        .expect("a line");
    }
    line
}

#[test]
fn trials() {
    let folder = PathBuf::from(env!("CARGO_MANIFEST_DIR")).join("../crates/trials");
    let given = std::fs::read(folder.join("stdin")).expect("the calls");
    let expected = std::fs::read_to_string(folder.join("stdout")).expect("what must be written");
    let (mut steps, mut expected, mut calls) = (Steps(&given), expected.lines(), 0);
    let (mut agreement, mut event) = (&given[..0], &given[..0]);
    let (mut table, mut second) = (Vec::new(), Vec::new());
    while let Some(&step) = steps.0.first() {
        steps.take(1);
        let line = match step {
            1 => {
                agreement = steps.named();
                continue;
            }
            2 => {
                event = steps.named();
                continue;
            }
            3 => {
                table = vec![0i64; steps.length()];
                continue;
            }
            4 => {
                let i = steps.length();
                table[i] = i64::from_le_bytes(steps.take(8).try_into().expect("eight bytes"));
                continue;
            }
            5 => {
                let answer = check(agreement);
                format!("check {} {}", answer.number, answer.parties)
            }
            6 => start_line(agreement, &mut table),
            7 => reading_line(agreement, &mut table, event),
            8 => preview_line(agreement, &table, event, &mut second),
            9 => {
                second.clone_from(&table);
                continue;
            }
            10 => {
                event = &given[..0];
                format!("# {}", String::from_utf8_lossy(steps.named()))
            }
            other => panic!("step {other}"),
        };
        calls += usize::from(step != 10);
        assert_eq!(Some(line.as_str()), expected.next(), "call {calls}");
    }
    assert_eq!(expected.next(), None);
    println!("{calls} calls agree");
}
