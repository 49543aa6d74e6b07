//! The commands of a book on disk.
use crate::arguments::{digits, number, Arguments};
use crate::commands::{count, wrong};
use crate::failure::Failure;
use crate::files::{
    free_name, is_standard_output, keep_beside, names_beside, print, shown, table_names, Content, Inputs, Sheet, Stock,
    UNFINISHED,
};
use crate::Status;
use caplune::text::Names;
use caplune::{store, EarlierRegistry, NotCarried, Refusal, Registry, StoredRegistry, Transducer};
use std::ffi::{OsStr, OsString};
use std::io::{self, Write};
use std::path::Path;

/// Makes a book.
pub fn make(arguments: &Arguments) -> Result<Status, Failure> {
    let size = arguments.number("--size", Registry::LONGEST_AREA, Registry::LONGEST_AREA)?;
    let path = new_path(&arguments.plain[0], &arguments.plain[1..])?;
    let stock = Inputs::default().stock(&arguments.plain[1])?;
    let registry = Registry::new(&stock.alphabets, size).map_err(|refusal| not_begun(path, &stock, size, refusal))?;
    let named = registry.with_names(stock.names);
    write_new(path, named.ok_or_else(|| Failure::of_file(&shown(&arguments.plain[1]), NotCarried::Names))?)
}

/// The path of a book that is to be made, beside which nothing is written over that is read.
fn new_path<'a>(file: &'a OsStr, read: &[OsString]) -> Result<&'a Path, Failure> {
    let path = path_of(file)?;
    free_name(path)?;
    keep_beside(path, &[UNFINISHED], read)?;
    Ok(path)
}

/// Writes a new book.
fn write_new(path: &Path, registry: Registry) -> Result<Status, Failure> {
    store::make(path, &registry, tell_wait).map_err(|error| failed(path, error))?;
    Ok(Status::Done)
}

/// The stock has no room in a book of this size.
fn not_begun(path: &Path, stock: &Stock, size: usize, refusal: Refusal) -> Failure {
    let name = shown(path.as_os_str());
    match (refusal, stock.alphabets.as_bytes().len()) {
        (Refusal::FullRegistry, needed) => {
            let why = format!("the stock alone needs {needed} bytes, and --size gives {size}");
            let remedy = format!("give more by --size, up to {}: clean sheets need room too", Registry::LONGEST_AREA);
            Failure::refused_for(&name, refusal, &why, &remedy)
        }
        _ => Failure::refused(&name, refusal),
    }
}

/// The path of a book, which standard input cannot be.
fn path_of(file: &OsStr) -> Result<&Path, Failure> {
    match file == "-" || file.is_empty() {
        true => Err(Failure::Told("a book is a file with a name, and cannot be `-`".to_string())),
        false => Ok(Path::new(file)),
    }
}

/// Tells that another has held the lock of a book for a while.
fn tell_wait(lock: &Path) {
    // where it cannot be told, it is still waited for
    let _ = writeln!(io::stderr(), "caplune: another caplune holds {}, and this one waits", shown(lock.as_os_str()));
}

/// Why a book is not made, read or changed.
fn failed(path: &Path, error: store::Error) -> Failure {
    let is_empty = std::fs::metadata(path).is_ok_and(|found| found.len() == 0);
    match error {
        store::Error::Damaged(_) if is_empty => {
            Failure::empty(&shown(path.as_os_str()), Some(Refusal::BadRegistry), "a book")
        }
        error => Failure::of_book(&shown(path.as_os_str()), error),
    }
}

/// Enters sheets into a book.
pub fn enter(arguments: &Arguments) -> Result<Status, Failure> {
    let call = |registry: &mut Registry, sheet: &Sheet| {
        registry.enter(&sheet.transducer).map_err(|refusal| not_entered(registry, sheet, refusal))
    };
    change(&arguments.plain[0], &arguments.plain[1..], call, "enter once more")
}

/// Enters a sheet into a book if it gets the number that is given.
pub fn commit(arguments: &Arguments) -> Result<Status, Failure> {
    let given = &arguments.plain[2];
    let claim = claim(given)?;
    let call = |registry: &mut Registry, sheet: &Sheet| {
        registry.commit(&sheet.transducer, claim).map_err(|refusal| match refusal {
            Refusal::OtherNumber => other_number(sheet, given),
            refusal => not_entered(registry, sheet, refusal),
        })
    };
    change(&arguments.plain[0], &arguments.plain[1..2], call, "ask again (`caplune book question`)")
}

/// The number that a word is. One that is too large for a number of a sheet is none that a sheet gets.
fn claim(word: &OsStr) -> Result<usize, Failure> {
    match digits(word) {
        Some(_) => Ok(number(word).unwrap_or(usize::MAX)),
        None => Err(wrong(&format!("`{}` is no number", shown(word)), Some("book commit"))),
    }
}

/// A sheet would get another number than was given.
fn other_number(sheet: &Sheet, given: &OsStr) -> Failure {
    let refusal = Refusal::OtherNumber;
    let why = format!("{} was given, and nothing was entered", shown(given));
    Failure::refused_for(&sheet.name, refusal, &why, refusal.remedy())
}

/// Changes a book by a call for each sheet, which answers its number. Sheets that are refused are told one by one; the
/// numbers of the others are printed once the book is on disk. `again` is what to do where another book has taken its
/// place meanwhile.
fn change(
    file: &OsStr,
    sheets: &[OsString],
    call: impl Fn(&mut Registry, &Sheet) -> Result<usize, Failure>,
    again: &str,
) -> Result<Status, Failure> {
    let path = path_of(file)?;
    keep_beside(path, &[UNFINISHED], sheets)?;
    // no entry changes the stock of a book, so the sheets can be read before the book is kept from others
    let stock = stock_in(&read(path)?);
    let mut inputs = Inputs::default();
    let sheets: Vec<_> = sheets.iter().map(|sheet| inputs.sheet(sheet, &stock)).collect();
    let answers: Result<Vec<_>, _> = store::change(path, tell_wait, |registry| match stock_in(registry) == stock {
        true => sheets.into_iter().map(|sheet| line_of(sheet?, |sheet| call(registry, sheet))).collect(),
        false => vec![Err(Failure::of_file(&shown(file), format!("{REPLACED}; what to do: {again}")))],
    });
    tell_all(answers.map_err(|error| failed(path, error))?)
}

/// Why sheets are not entered that were read under the stock of another book.
const REPLACED: &str = "another book of another stock has taken its place meanwhile";

/// Tells the number that a sheet would get in a book, or those of several, each by itself. The book is only read.
pub fn question(arguments: &Arguments) -> Result<Status, Failure> {
    let (sheets, out, bytes) = (&arguments.plain[1..], arguments.value("-o"), arguments.has("--bytes"));
    one_output(sheets, out, bytes)?;
    let registry = read(path_of(&arguments.plain[0])?)?;
    let stock = stock_in(&registry);
    let mut inputs = Inputs::default();
    match sheets {
        [sheet] => {
            let (number, form) = ask(&registry, &inputs.sheet(sheet, &stock)?)?;
            tell_one(number, Content::numbered(&form, &stock.names), out, bytes)
        }
        many => {
            let number = |sheet: &Sheet| ask(&registry, sheet).map(|(number, _)| number);
            tell_all(many.iter().map(|sheet| line_of(inputs.sheet(sheet, &stock)?, number)))
        }
    }
}

/// The number that a sheet would get, and its clean sheet.
fn ask(registry: &Registry, sheet: &Sheet) -> Result<(usize, Transducer), Failure> {
    registry.question(&sheet.transducer).map_err(|refusal| not_entered(registry, sheet, refusal))
}

/// Writes a clean sheet, if it is to be written, and then prints its number; on standard output the sheet stands alone.
fn tell_one(number: usize, sheet: Content, out: Option<&OsStr>, bytes: bool) -> Result<Status, Failure> {
    if out.is_some() {
        sheet.write(out, bytes)?;
    }
    if !out.is_some_and(|out| is_standard_output(Path::new(out))) {
        print(&format!("{number}\n"))?;
    }
    Ok(Status::Done)
}

/// The clean sheet of one sheet goes to one file, in bytes only if it goes to any.
fn one_output(sheets: &[OsString], out: Option<&OsStr>, bytes: bool) -> Result<(), Failure> {
    let told = |why: &str| Err(Failure::Told(why.to_string()));
    match out {
        Some(_) if sheets.len() > 1 => told("-o writes the clean sheet of one sheet, and more are given"),
        None if bytes => told("--bytes is for the clean sheet that -o writes, and -o is not given"),
        _ => Ok(()),
    }
}

/// Reads a book of the make that takes entries.
fn read(path: &Path) -> Result<Registry, Failure> {
    store::read(path).map_err(|error| failed(path, error))
}

/// The line of a sheet and the number that is answered.
fn line_of(sheet: Sheet, call: impl FnOnce(&Sheet) -> Result<usize, Failure>) -> Result<String, Failure> {
    call(&sheet).map(|number| format!("{}: {number}\n", sheet.name))
}

/// Prints lines, and tells what stands in place of others.
fn tell_all(answers: impl IntoIterator<Item = Result<String, Failure>>) -> Result<Status, Failure> {
    let mut refused = false;
    for answer in answers {
        match answer {
            Ok(line) => print(&line)?,
            Err(failure) => {
                failure.tell();
                refused = true;
            }
        }
    }
    if refused {
        Err(Failure::ToldBefore)
    } else {
        Ok(Status::Done)
    }
}

/// The stock of a book, with the names of its kinds.
fn stock_in(registry: &Registry) -> Stock {
    Stock { alphabets: registry.alphabets().clone(), names: registry.names().clone() }
}

/// A sheet that is not entered, or would not be.
fn not_entered(registry: &Registry, sheet: &Sheet, refusal: Refusal) -> Failure {
    match refusal {
        Refusal::FullRegistry => no_room(registry, sheet),
        refusal => Failure::refused(&sheet.name, refusal),
    }
}

/// A clean sheet has no room in a book: which of the two limits it is over.
fn no_room(registry: &Registry, sheet: &Sheet) -> Failure {
    let refusal = Refusal::FullRegistry;
    let another = "make another book for the further sheets";
    if registry.held() == Registry::MOST_HELD {
        let why = format!("{} sheets are held, the most that a book can hold", registry.held());
        return Failure::refused_for(&sheet.name, refusal, &why, &format!("{another}: numbers given stay"));
    }
    let free = registry.area() - registry.used();
    let length = sheet.transducer.normal_form().map_or(0, |form| form.as_bytes().len());
    let missing = count(length.saturating_sub(free), "byte is", "bytes are");
    let why = format!("the clean sheet has {length} bytes, {free} are free, and {missing} missing");
    let room = format!("with more room (`caplune book make --size N`, up to {})", Registry::LONGEST_AREA);
    let remedy = format!("{another}, {room}: numbers given stay");
    Failure::refused_for(&sheet.name, refusal, &why, &remedy)
}

/// A book on disk, of any make.
fn open(file: &OsStr) -> Result<StoredRegistry, Failure> {
    let path = path_of(file)?;
    store::read_any(path).map_err(|error| failed(path, error))
}

/// The names of the kinds of a book of an earlier make: those of the table beside it, codes where there is none.
fn stock_of(earlier: &EarlierRegistry, file: &OsStr) -> Result<Stock, Failure> {
    let alphabets = earlier.alphabets().clone();
    let names = names_beside(Some(Path::new(file)), &alphabets)?;
    Ok(Stock { alphabets, names })
}

/// Lists the sheets of a book.
pub fn list(arguments: &Arguments) -> Result<Status, Failure> {
    let lines = match open(&arguments.plain[0])? {
        StoredRegistry::Current(book) => {
            let lines = (1..=book.held()).filter_map(|number| {
                let entries = count(book.count(number)?, "entry", "entries");
                Some(format!("{number}: {}, {entries}\n", size(&book.normal_form(number)?)))
            });
            summary(book.held(), book.used(), book.area(), book.answered()) + &lines.collect::<String>()
        }
        StoredRegistry::Earlier(book) => {
            let lines = (1..=book.held())
                .filter_map(|number| Some(format!("{number}: {}\n", size(&book.normal_form(number)?))));
            let make = format!("# make {}: counts by number are not kept\n", book.make());
            summary(book.held(), book.used(), book.area(), book.answered()) + &make + &lines.collect::<String>()
        }
    };
    print(&lines)?;
    Ok(Status::Done)
}

/// The line of a book as a whole.
fn summary(held: usize, used: usize, size: usize, answered: u64) -> String {
    let sheets = count(held, "sheet", "sheets");
    format!("# {sheets}, {used} of {size} bytes used, entries answered: {answered}\n")
}

/// How large a sheet is.
fn size(sheet: &Transducer) -> String {
    format!("{}, {}", count(sheet.states(), "pass", "passes"), count(sheet.marks(), "mark", "marks"))
}

/// Shows the sheet of a number, or the stock.
pub fn show(arguments: &Arguments) -> Result<Status, Failure> {
    let file = &arguments.plain[0];
    let asked = number(&arguments.plain[1]);
    let (held, form, stock) = match open(file)? {
        StoredRegistry::Current(book) => {
            (book.held(), asked.and_then(|number| book.normal_form(number)), stock_in(&book))
        }
        StoredRegistry::Earlier(book) => {
            (book.held(), asked.and_then(|number| book.normal_form(number)), stock_of(&book, file)?)
        }
    };
    match (asked, form) {
        (Some(0), _) => Content::stock(&stock).deliver(arguments)?,
        (_, Some(form)) => Content::numbered(&form, &stock.names).deliver(arguments)?,
        (_, None) => return Err(not_held(arguments, held)),
    }
    Ok(Status::Done)
}

/// A number under which the book holds nothing.
fn not_held(arguments: &Arguments, held: usize) -> Failure {
    let asked = shown(&arguments.plain[1]);
    let why = match held {
        0 => format!("there is no number {asked}: the book holds no sheet yet"),
        held => format!("there is no number {asked}: the book holds the numbers 1 to {held}, and its stock is 0"),
    };
    Failure::of_file(&shown(&arguments.plain[0]), why)
}

/// Carries a book of an earlier make over into a new file, with what its make does not keep.
pub fn carry(arguments: &Arguments) -> Result<Status, Failure> {
    let file = &arguments.plain[0];
    let stock = arguments.value("--stock").map(OsStr::to_os_string);
    let read: Vec<OsString> = [Some(file.clone()), stock.clone()].into_iter().flatten().collect();
    let path = new_path(&arguments.plain[1], &read)?;
    let earlier = match open(file)? {
        StoredRegistry::Earlier(earlier) => earlier,
        StoredRegistry::Current(_) => {
            let why = format!("it is of make {} already: there is nothing to carry over", Registry::MAKE);
            return Err(Failure::of_file(&shown(file), why));
        }
    };
    let names = match stock {
        Some(stock) => given_names(&earlier, file, &stock)?,
        None => table_names(Path::new(file), earlier.alphabets())?.ok_or_else(|| no_table(file))?,
    };
    let counts = counts(arguments, &earlier)?;
    let registry = earlier.carried(&counts, &names).map_err(|error| Failure::Told(format!("--counts: {error}")))?;
    write_new(path, registry)
}

/// The names of a stock whose kinds are the book's.
fn given_names(earlier: &EarlierRegistry, file: &OsStr, stock: &OsStr) -> Result<Names, Failure> {
    let Stock { alphabets, names } = Inputs::default().stock(stock)?;
    match alphabets == *earlier.alphabets() {
        true => Ok(names),
        false => {
            let why = format!("its kinds are not those of {}, in number and places", shown(file));
            Err(Failure::of_file(&shown(stock), why + "; what to do: give the stock that the book was made for"))
        }
    }
}

/// No table beside a book of an earlier make tells the names of its kinds.
fn no_table(file: &OsStr) -> Failure {
    let why = "no table of names stands beside it; what to do: give the stock that has the names by --stock";
    Failure::of_file(&shown(file), why)
}

/// How many entries each number was answered with: what `--counts` says, or what alone is possible.
fn counts(arguments: &Arguments, earlier: &EarlierRegistry) -> Result<Vec<u64>, Failure> {
    let (make, held, answered) = (earlier.make(), earlier.held(), earlier.answered());
    match (arguments.value("--counts"), earlier.determined_counts()) {
        (Some(given), _) => numbers(given).ok_or_else(|| {
            Failure::Told("--counts takes a number for each sheet, with commas between, as 3,1".to_string())
        }),
        (None, Some(counts)) => Ok(counts),
        (None, None) => {
            let why =
                format!("{answered} entries were answered with {held} numbers, and make {make} does not keep which");
            let remedy = format!("give the count of each number by --counts, {held} in all that sum to {answered}");
            Err(Failure::of_file(&shown(&arguments.plain[0]), format!("{why}; what to do: {remedy}")))
        }
    }
}

/// Numbers with commas between.
fn numbers(word: &OsStr) -> Option<Vec<u64>> {
    word.to_str()?.split(',').map(|word| number(OsStr::new(word))).collect()
}
