//! The command `agreement sizes`: the least units that the templates of a text can declare, whatever they declare now.
//!
//! Whether the agreement is accepted with them is asked of the proved check, of the record that declares them.

use crate::check::needs::{least, main_need};
use crate::check::{check_tree, parsed, words, Refused};
use crate::fault::Fault;
use crate::files::read;
use crate::json::Json;
use crate::limits;
use crate::output;
use crate::shown::printable;
use crate::status::{exit, usage, Status};
use crate::syntax::{Agreement, Template, Units};
use std::process::ExitCode;

pub fn command(arguments: &[&str]) -> ExitCode {
    match arguments {
        ["--json", file] => exit(sizes(file, true)),
        [file] if !file.starts_with("--") => exit(sizes(file, false)),
        _ => usage("agreement sizes [--json] FILE"),
    }
}

fn sizes(file: &str, json: bool) -> Result<Status, String> {
    let found = Sizes::of(file, &read(file)?);
    let written = match (json, &found.because) {
        (true, _) => output::result(format!("{}\n", found.object()).as_bytes()),
        (false, None) => output::result(found.told().as_bytes()),
        (false, Some(_)) => Ok(()),
    };
    let wrong: Vec<String> = found.because.into_iter().chain(written.err()).collect();
    match wrong.is_empty() {
        true => Ok(Status::Well),
        false => Err(wrong.join("\n")),
    }
}

/// What was found of a text.
pub struct Sizes {
    /// Empty where no units hold what every body needs, or where they were not looked for.
    pub templates: Vec<Least>,
    /// What the main clause needs by these units.
    pub main: Option<usize>,
    /// Why the agreement cannot be sized, in words.
    pub because: Option<String>,
}

/// A template with its least units.
pub struct Least {
    pub name: String,
    pub line: usize,
    pub units: usize,
    /// What the text declares.
    pub declared: Option<i64>,
}

impl Sizes {
    pub fn of(file: &str, text: &[u8]) -> Sizes {
        let none = |because| Sizes { templates: Vec::new(), main: None, because: Some(because) };
        Sizes::looked_for(file, text).unwrap_or_else(none)
    }

    /// A text that is refused whatever it declares is told as `check` tells it.
    fn looked_for(file: &str, text: &[u8]) -> Result<Sizes, String> {
        let refused = |refused: Refused| refused.told(file, text);
        let (written, mut tree) = parsed(text).map_err(refused)?;
        let declared: Vec<_> = tree.templates.iter_mut().map(|template| template.units.take()).collect();
        check_tree(written, &tree).map_err(refused)?;
        let units = sized(&tree).map_err(|faults| words::told(file, text, &faults, "it cannot be sized"))?;
        let with_units = |((template, units), declared)| declaring(template, units, declared);
        let templates: Vec<Least> = tree.templates.iter_mut().zip(units).zip(declared).map(with_units).collect();
        let because = check_tree(written, &tree).err().map(|refused| {
            let least: Vec<_> = templates.iter().map(|least| format!("{} for `{}`", least.units, least.name)).collect();
            let least = format!("{}: the least units that do are {}", printable(file), words::listed(&least));
            format!("{}\n{least}", refused.told(file, text))
        });
        Ok(Sizes { main: main_need(&tree), templates, because })
    }

    fn told(&self) -> String {
        let lines = self.templates.iter().map(|least| {
            let other = least.declared.filter(|declared| usize::try_from(*declared) != Ok(least.units));
            let declares = other.map(|declared| format!(" (it declares {declared})")).unwrap_or_default();
            format!("{} sized {}{declares}\n", least.name, least.units)
        });
        let main = self.main.map(|need| format!("the main clause needs {need} of {} units\n", limits::UNITS));
        lines.chain(main).collect()
    }

    pub fn object(&self) -> Json {
        Json::Object(vec![
            ("fits", Json::Truth(self.because.is_none())),
            ("because", Json::optional(self.because.as_ref(), Json::text)),
            ("templates", Json::List(self.templates.iter().map(Least::object).collect())),
            ("main", Json::optional(self.main, number)),
            ("most", number(limits::UNITS)),
        ])
    }
}

impl Least {
    fn object(&self) -> Json {
        Json::Object(vec![
            ("template", Json::text(&self.name)),
            ("line", number(self.line)),
            ("units", number(self.units)),
            ("declared", Json::optional(self.declared, Json::Number)),
        ])
    }
}

fn number(number: usize) -> Json {
    Json::Number(i64::try_from(number).unwrap_or(i64::MAX))
}

/// The least units of every template, or why there are none.
fn sized(tree: &Agreement) -> Result<Vec<usize>, Vec<Fault>> {
    if tree.templates.is_empty() {
        let what =
            "without a template no agreement is sized; one that is not named would do: `none() sized 0 = fulfilment`";
        return Err(vec![Fault::new(tree.main.from, what)]);
    }
    least(tree)
}

/// Lets a template declare these units.
fn declaring(template: &mut Template, units: usize, declared: Option<Units>) -> Least {
    let name = &template.name;
    let number = i64::try_from(units).unwrap_or(i64::MAX);
    template.units = Some(Units { number, at: name.at, length: name.length() });
    Least { name: name.text.clone(), line: name.at.line, units, declared: declared.map(|units| units.number) }
}
