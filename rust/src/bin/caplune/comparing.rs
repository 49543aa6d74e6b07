//! The command `compare`.
use crate::arguments::Arguments;
use crate::commands::block;
use crate::failure::Failure;
use crate::files::{print, write_file, Inputs, Sheet, Stock};
use crate::Status;
use caplune::drawing::{origin, short, svg, Drawn};
use caplune::{text, Address, Comparison, Difference, Refusal, Transducer};
use std::path::Path;

/// How many parts of a design are drawn.
const MOST_PARTS: usize = 60;
/// How far from the place blocks are drawn.
const DISTANCE: usize = 3;

/// Compares two sheets, or sorts more of them into classes.
pub fn compare(arguments: &Arguments) -> Result<Status, Failure> {
    let mut inputs = Inputs::default();
    let stock = inputs.stock(&arguments.plain[0])?;
    let files = &arguments.plain[1..];
    if arguments.has("--svg") && files.len() != 2 {
        return Err(Failure::Told("--svg draws the difference of two sheets, and more are given".to_string()));
    }
    match files {
        [first, second] => {
            let [first, second] = [inputs.sheet(first, &stock)?, inputs.sheet(second, &stock)?];
            two(&stock, &first, &second, arguments)
        }
        many => classes(many.iter().map(|file| inputs.sheet(file, &stock))),
    }
}

fn two(stock: &Stock, first: &Sheet, second: &Sheet, arguments: &Arguments) -> Result<Status, Failure> {
    let comparison = first.transducer.compare(&second.transducer).map_err(|refusal| {
        // 7 is the first sheet's if that has no earliest form
        let sheet = if first.transducer.earliest_form().is_err() { first } else { second };
        Failure::refused(&sheet.name, refusal)
    })?;
    let Comparison::Differ(shown) = comparison else {
        print("alike\n")?;
        return Ok(Status::Done);
    };
    let drawn =
        Drawings::of(stock, [first, second], &shown).map_err(|refusal| Failure::refused(&first.name, refusal))?;
    let text = drawn.text(stock, [first, second], &shown);
    let picture = drawn.picture(stock, [first, second], &shown);
    match arguments.value("--svg") {
        Some(file) if file == "-" => print(&picture)?,
        Some(file) => write_file(Path::new(file), &picture).and_then(|()| print(&text))?,
        None => print(&text)?,
    }
    Ok(Status::Differing)
}

/// A difference, drawn: the design, and the two plans around the place.
struct Drawings {
    design: Drawn,
    plans: [Drawn; 2],
}

impl Drawings {
    fn of(stock: &Stock, sheets: [&Sheet; 2], shown: &Difference) -> Result<Self, Refusal> {
        let names = stock.names.outputs();
        let plan = |transducer: &Transducer| Drawn::around(transducer, &shown.tree, &shown.address, names, DISTANCE);
        // the parts at which the two blocks are laid, which are seen however far down they are
        let lays = |sheet: &Sheet| origin(&sheet.transducer, &shown.tree, &shown.address);
        let parts: Vec<Address> = sheets.into_iter().filter_map(lays).collect();
        Ok(Drawings {
            design: Drawn::input_tree(&shown.tree, stock.names.inputs(), MOST_PARTS, &parts),
            plans: [plan(&sheets[0].transducer)?, plan(&sheets[1].transducer)?],
        })
    }

    fn text(&self, stock: &Stock, sheets: [&Sheet; 2], shown: &Difference) -> String {
        let design = text::write_input_tree(&shown.tree, &stock.names);
        let held = [shown.first, shown.second].map(|symbol| block(stock, symbol));
        let mut text = format!("differ\n{design}place {}\n", shown.address);
        for (sheet, block) in sheets.iter().zip(held) {
            text += &format!("{} holds {block} there\n", sheet.name);
        }
        text += &format!("\nthe design:\n{}", self.design.to_text());
        if self.design.left_out() > 0 {
            text += &format!("({} parts are left out)\n", self.design.left_out());
        }
        for (sheet, plan) in sheets.iter().zip(&self.plans) {
            text += &format!("\nthe plan of {} around the place:\n{}", sheet.name, plan.to_text());
        }
        text
    }

    fn picture(self, stock: &Stock, sheets: [&Sheet; 2], shown: &Difference) -> String {
        let title = |sheet: &Sheet, symbol| {
            format!("plan of {}: {} at place {}", sheet.name, block(stock, symbol), short(&shown.address))
        };
        let [first, second] = self.plans;
        svg(&[
            ("design".to_string(), self.design),
            (title(sheets[0], shown.first), first),
            (title(sheets[1], shown.second), second),
        ])
    }
}

/// Prints the classes of alike sheets, a line each, in the order of their first sheets. Those that are refused are told
/// one by one.
fn classes(sheets: impl Iterator<Item = Result<Sheet, Failure>>) -> Result<Status, Failure> {
    let mut classes: Vec<(Transducer, Vec<String>)> = Vec::new();
    let mut refused = false;
    for cleaned in sheets.map(|sheet| sheet.and_then(cleaned)) {
        match cleaned {
            Ok((name, form)) => match classes.iter_mut().find(|(other, _)| *other == form) {
                Some((_, names)) => names.push(name),
                None => classes.push((form, vec![name])),
            },
            Err(failure) => {
                failure.tell();
                refused = true;
            }
        }
    }
    for (number, (_, names)) in (1..).zip(&classes) {
        print(&format!("{number}: {}\n", names.join(" ")))?;
    }
    match classes.len() {
        _ if refused => Err(Failure::ToldBefore),
        0 | 1 => Ok(Status::Done),
        _ => Ok(Status::Differing),
    }
}

/// The name of a sheet, as it stands in its class, and its clean sheet.
fn cleaned(sheet: Sheet) -> Result<(String, Transducer), Failure> {
    let form = sheet.transducer.normal_form().map_err(|refusal| Failure::refused(&sheet.name, refusal))?;
    Ok((apart(&sheet.name), form))
}

/// A name that can be told from its neighbours on a line.
fn apart(name: &str) -> String {
    match name.contains([' ', '"']) {
        true => format!("{name:?}"),
        false => name.to_string(),
    }
}
