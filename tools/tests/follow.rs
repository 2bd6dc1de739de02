//! `agreement run --follow`: each line is answered while the input stays open.

mod common;

use common::{command, text};
use std::io::{BufRead, BufReader, Read, Write};
use std::process::{Child, ChildStdin, ChildStdout};

struct Watch {
    child: Child,
    input: ChildStdin,
    output: BufReader<ChildStdout>,
}

impl Watch {
    fn new(arguments: &[&str]) -> Watch {
        let mut child = command(arguments).spawn().expect("the command");
        let input = child.stdin.take().expect("its input");
        let output = BufReader::new(child.stdout.take().expect("its output"));
        Watch { child, input, output }
    }

    fn write(&mut self, line: &str) {
        self.input.write_all(line.as_bytes()).and_then(|()| self.input.flush()).expect("its input");
    }

    fn line(&mut self) -> String {
        let mut line = String::new();
        self.output.read_line(&mut line).expect("a line");
        line.trim_end().to_string()
    }

    /// Closes the input; gives what is left, the complaints and the status.
    fn end(mut self) -> (String, String, Option<i32>) {
        drop(self.input);
        let mut rest = String::new();
        self.output.read_to_string(&mut rest).expect("the rest");
        let output = self.child.wait_with_output().expect("the end");
        (rest, text(&output.stderr), output.status.code())
    }
}

#[test]
fn a_line_is_answered_at_once() {
    let mut watch = Watch::new(&["run", "--json", "--follow", "tools/tests/sample.csl"]);
    assert!(watch.line().starts_with("{\"number\":0,\"line\":null,\"time\":100,\"date\":null,\"what\":\"start\""));
    watch.write("110 Salinity 240\n");
    let told = watch.line();
    assert!(told.contains("\"what\":\"Salinity 240\",\"verdict\":\"LIVE\""), "{told}");
    watch.write("-- nothing here\n\n161 mark\n");
    let told = watch.line();
    assert!(
        told.starts_with("{\"number\":2,\"line\":4,\"time\":161,") && told.contains("\"verdict\":\"BREACH\""),
        "{told}"
    );
    let (rest, complaints, status) = watch.end();
    assert!(rest.starts_with("{\"end\":\"breached\",\"shown_by\":{\"line\":4,"), "{rest}");
    assert_eq!((complaints.as_str(), status), ("", Some(1)));
}

#[test]
fn a_slip_does_not_end_the_watch() {
    let mut watch = Watch::new(&["run", "--follow", "tools/tests/sample.csl"]);
    assert_eq!(watch.line(), "100  start");
    watch.write("110 Salinty 240\n160 Salinity 250");
    let (rest, complaints, status) = watch.end();
    assert!(rest.ends_with("FULFILLED, shown by 160 Salinity 250 at -:2\n"), "{rest}");
    assert_eq!(
        (complaints.as_str(), status),
        ("-:1:5: unknown reading `Salinty`; did you mean `Salinity`?\n", Some(2))
    );
}

#[test]
fn bytes_that_are_no_text_are_told_where_they_stand() {
    let mut watch = Watch::new(&["run", "--follow", "tools/tests/sample.csl"]);
    watch.write("110 mark\n");
    watch.input.write_all(b"12\xff mark\n").expect("its input");
    let (_, complaints, status) = watch.end();
    assert_eq!((complaints.as_str(), status), ("-:2:3: bytes that are no UTF-8 text\n", Some(2)));
}
