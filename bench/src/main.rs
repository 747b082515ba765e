//! The proved gate beside hand-written C.

mod arguments;
mod clock;
mod day;
mod days;
mod gates;
mod growth;
mod market;
mod plot;
mod programs;
mod random;
mod timing;
mod verify;

use std::process::ExitCode;
use std::{fs, io};

use arguments::{Arguments, Part};
use market::{Ids, Market};

fn main() -> ExitCode {
    let arguments = match Arguments::read() {
        Ok(arguments) => arguments,
        Err(message) => {
            eprintln!("{message}");
            return ExitCode::from(2);
        }
    };
    match bench(&arguments) {
        Ok(()) => ExitCode::SUCCESS,
        Err(error) => {
            eprintln!("{error}");
            ExitCode::FAILURE
        }
    }
}

fn bench(arguments: &Arguments) -> io::Result<()> {
    let repeats = if arguments.quick { 2 } else { 25 };
    let days = [
        (Part::Heavy, "heavy", Market::HEAVY),
        (Part::Light, "light", Market::LIGHT),
    ];
    let wanted = days.iter().filter(|(part, ..)| arguments.wants(*part));
    let mut rows = Vec::new();
    for (_, name, market) in wanted {
        for (ids, kind) in [(Ids::Random, "random"), (Ids::Ascending, "ascending")] {
            let name = format!("{name}, {kind} ids");
            rows.extend(days::measure(&name, Market { ids, ..*market }, repeats)?);
        }
    }
    if !rows.is_empty() {
        print!("\n{}\n", days::table(&rows));
    }
    if arguments.wants(Part::Growth) {
        let panels = growth::measure(repeats);
        print!("{}", growth::table(&panels));
        if let Some(path) = &arguments.svg {
            fs::write(path, plot::svg(&panels))?;
        }
    }
    Ok(())
}
