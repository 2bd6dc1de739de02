//! What is right, to be damaged: the texts and readings of the examples, their records, and tables of their runs.

use std::path::Path;
use tools::check::check;
use tools::readings::readings;
use tools::Assembled;

pub struct Corpus {
    pub texts: Vec<Vec<u8>>,
    pub streams: Vec<Stream>,
    pub agreements: Vec<Assembled>,
    /// Each with the number of its agreement.
    pub tables: Vec<(usize, Vec<u8>)>,
}

/// Readings of an example.
pub struct Stream {
    /// The number of their agreement.
    pub agreement: usize,
    pub lines: Vec<u8>,
    /// The verdicts that must come.
    pub expected: Vec<u8>,
}

impl Corpus {
    pub fn read() -> Corpus {
        let root = Path::new(env!("CARGO_MANIFEST_DIR"));
        let mut corpus = Corpus { texts: Vec::new(), streams: Vec::new(), agreements: Vec::new(), tables: Vec::new() };
        for folder in std::fs::read_dir(root.join("../examples")).expect("the examples") {
            let folder = folder.expect("an entry").path();
            if let Ok(text) = std::fs::read(folder.join("agreement.csl")) {
                corpus.example(text, &folder);
            }
        }
        for name in ["sample.csl", "sale.csl", "watch.csl"] {
            corpus.agreement(std::fs::read(root.join("tests").join(name)).expect("a text"));
        }
        assert!(corpus.texts.len() > 5 && corpus.streams.len() > 10 && corpus.tables.len() > 50);
        corpus
    }

    fn agreement(&mut self, text: Vec<u8>) {
        let Ok(accepted) = check(&text) else { panic!("{}", String::from_utf8_lossy(&text)) };
        self.agreements.push(accepted.assembled);
        self.texts.push(text);
    }

    fn example(&mut self, text: Vec<u8>, folder: &Path) {
        self.agreement(text);
        for file in std::fs::read_dir(folder).expect("an example") {
            let file = file.expect("an entry").path();
            if file.extension().is_some_and(|extension| extension == "readings") {
                let lines = std::fs::read(&file).expect("readings");
                let expected = std::fs::read(file.with_extension("out")).expect("verdicts");
                self.run(&lines);
                self.streams.push(Stream { agreement: self.agreements.len() - 1, lines, expected });
            }
        }
    }

    /// The tables of the last agreement's run.
    fn run(&mut self, lines: &[u8]) {
        let number = self.agreements.len() - 1;
        let Assembled { agreement, bytes, .. } = &self.agreements[number];
        let Ok(stream) = readings(lines, Some(agreement)) else { return };
        let mut cells = vec![0; givuntha::CELLS];
        givuntha::start(bytes, &mut cells).expect("a started agreement");
        let mut stream = &stream[..];
        while let Some(record) = givuntha::record::next(&mut stream).expect("a record") {
            self.tables.push((number, cells.iter().flat_map(|cell| cell.to_le_bytes()).collect()));
            // A refused reading leaves the table.
            let _ = givuntha::reading(bytes, &mut cells, &record);
        }
    }
}
