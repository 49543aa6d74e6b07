//! The files that commands read and write.
use crate::arguments::Arguments;
use crate::failure::Failure;
use caplune::text::{self, Kind, Names, StateNames};
use caplune::{store, Alphabets, InputTree, OutputTree, Refusal, Registry, Transducer};
use std::ffi::{OsStr, OsString};
use std::fs::File;
use std::io::{self, Read, Write};
use std::path::{Path, PathBuf};

/// The longest file that is read. A stock, design, plan or sheet in bytes is far shorter; this bounds texts.
const LONGEST: u64 = 16 << 20;

/// Standard input as a file.
const STANDARD_INPUT: &str = "/dev/stdin";

/// A file that was read.
pub struct Input {
    /// Its name in messages.
    pub name: String,
    path: Option<PathBuf>,
    bytes: Vec<u8>,
}

/// A stock with the names of its kinds.
#[derive(PartialEq)]
pub struct Stock {
    /// The stock.
    pub alphabets: Alphabets,
    /// The names of its kinds.
    pub names: Names,
}

/// A sheet with the names of its passes.
pub struct Sheet {
    /// Its file's name in messages.
    pub name: String,
    /// The sheet.
    pub transducer: Transducer,
    /// The names of its passes.
    pub states: StateNames,
}

/// A sheet or a design.
pub enum Either {
    /// A sheet.
    Sheet(Sheet),
    /// A design.
    Design(InputTree),
}

/// Reads the files of one command.
#[derive(Default)]
pub struct Inputs {
    standard_input: bool,
}

impl Inputs {
    /// Reads a file, or standard input for `-`, which can be read once.
    pub fn read(&mut self, file: &OsStr) -> Result<Input, Failure> {
        let (name, standard_input) = (shown(file), file == "-");
        if standard_input && std::mem::replace(&mut self.standard_input, true) {
            return Err(Failure::of_file(&name, "it can be read once, so only one file can be `-`"));
        }
        let bytes = match standard_input {
            true => whole(io::stdin().lock()),
            false => File::open(file).and_then(whole),
        };
        let bytes = bytes.map_err(|error| Failure::of_file(&name, error))?;
        // no stock, design, plan or sheet in bytes begins so
        if bytes.starts_with(&[0xff, 0xfe]) || bytes.starts_with(&[0xfe, 0xff]) {
            return Err(Failure::of_file(&name, "text in UTF-16, where UTF-8 is read: save it as that"));
        }
        Ok(Input { name, path: (!standard_input).then(|| PathBuf::from(file)), bytes })
    }

    /// Reads a stock.
    pub fn stock(&mut self, file: &OsStr) -> Result<Stock, Failure> {
        self.read(file)?.stock()
    }

    /// Reads a sheet under a stock.
    pub fn sheet(&mut self, file: &OsStr, stock: &Stock) -> Result<Sheet, Failure> {
        self.read(file)?.sheet(stock)
    }

    /// Reads a design under a stock.
    pub fn design(&mut self, file: &OsStr, stock: &Stock) -> Result<InputTree, Failure> {
        self.read(file)?.design(stock)
    }

    /// Reads a plan under a stock, from standard input where no file is given.
    pub fn plan(&mut self, file: Option<&OsString>, stock: &Stock) -> Result<OutputTree, Failure> {
        self.read_or_standard_input(file)?.plan(stock)
    }

    /// Reads the XML of a plan under a stock, from standard input where no file is given.
    pub fn xml(&mut self, file: Option<&OsString>, stock: &Stock) -> Result<OutputTree, Failure> {
        let input = self.read_or_standard_input(file)?;
        let read = OutputTree::from_xml(&stock.alphabets, &input.bytes);
        read.map_err(|refusal| input.refused(refusal, "the XML of a plan"))
    }

    fn read_or_standard_input(&mut self, file: Option<&OsString>) -> Result<Input, Failure> {
        self.read(file.map_or(OsStr::new("-"), OsString::as_os_str))
    }
}

impl Input {
    /// Whether it is text.
    pub fn is_text(&self) -> bool {
        text::is_text(&self.bytes)
    }

    /// Whether there is nothing in it, or line ends alone.
    fn is_empty(&self) -> bool {
        self.bytes.iter().all(|byte| matches!(byte, b'\n' | b'\r'))
    }

    /// The library refuses it, where this was expected.
    fn refused(&self, refusal: Refusal, expected: &str) -> Failure {
        match self.is_empty() {
            true => Failure::empty(&self.name, Some(refusal), expected),
            false => Failure::refused(&self.name, refusal),
        }
    }

    /// It is not read as a table of names.
    fn unread(&self, error: text::Error) -> Failure {
        match self.is_empty() {
            true => Failure::empty(&self.name, None, "a table of names"),
            false => Failure::of_text(&self.name, error),
        }
    }

    /// It as a stock.
    pub fn stock(&self) -> Result<Stock, Failure> {
        if self.is_text() {
            let read = text::read_alphabets(&self.bytes).map_err(|error| Failure::of_text(&self.name, error))?;
            return Ok(Stock { alphabets: read.0, names: read.1 });
        }
        let alphabets = Alphabets::read(&self.bytes).map_err(|refusal| self.refused(refusal, "a stock"))?;
        let names = names_beside(self.path.as_deref(), &alphabets)?;
        Ok(Stock { alphabets, names })
    }

    fn sheet(&self, stock: &Stock) -> Result<Sheet, Failure> {
        let (name, Stock { alphabets, names }) = (self.name.clone(), stock);
        if self.is_text() {
            let read = text::read_transducer(&self.bytes, alphabets, names);
            let (transducer, states) = read.map_err(|error| Failure::of_text(&name, error))?;
            return Ok(Sheet { name, transducer, states });
        }
        let transducer =
            Transducer::read(alphabets, &self.bytes).map_err(|refusal| self.refused(refusal, "a sheet"))?;
        let states = match table_beside(self.path.as_deref())? {
            None => StateNames::numbered(transducer.states()),
            Some(table) => {
                text::read_state_names(&table.bytes, transducer.states()).map_err(|error| table.unread(error))?
            }
        };
        Ok(Sheet { name, transducer, states })
    }

    fn design(&self, stock: &Stock) -> Result<InputTree, Failure> {
        let Stock { alphabets, names } = stock;
        if self.is_text() {
            let read = text::read_input_tree(&self.bytes, alphabets, names);
            return read.map_err(|error| Failure::of_text(&self.name, error));
        }
        InputTree::read(alphabets, &self.bytes).map_err(|refusal| self.refused(refusal, "a design"))
    }

    fn plan(&self, stock: &Stock) -> Result<OutputTree, Failure> {
        let Stock { alphabets, names } = stock;
        if text::is_output_text(&self.bytes) {
            let read = text::read_output_tree(&self.bytes, alphabets, names);
            return read.map_err(|error| Failure::of_text(&self.name, error));
        }
        OutputTree::read(alphabets, &self.bytes).map_err(|refusal| self.refused(refusal, "a plan"))
    }

    /// A sheet or a design, by the first word of a text; bytes are what they can be read as, or what `--as` says.
    pub fn either(&self, stock: &Stock, said: Option<&OsStr>) -> Result<Either, Failure> {
        match said.map(OsStr::to_str) {
            Some(Some("sheet")) => return self.sheet(stock).map(Either::Sheet),
            Some(Some("design")) => return self.design(stock).map(Either::Design),
            Some(_) => return Err(Failure::Told("--as takes `sheet` or `design`".to_string())),
            None => {}
        }
        if self.is_text() {
            return match text::kind(&self.bytes).map_err(|error| Failure::of_text(&self.name, error))? {
                Kind::Transducer => self.sheet(stock).map(Either::Sheet),
                Kind::InputTree => self.design(stock).map(Either::Design),
                Kind::Alphabets => Err(Failure::of_file(&self.name, "a stock, where a sheet or a design was expected")),
                Kind::OutputTree => Err(Failure::of_file(&self.name, "a plan, where a sheet or a design was expected")),
                _ => Err(Failure::of_file(&self.name, "a table of names, where a sheet or a design was expected")),
            };
        }
        let Stock { alphabets, .. } = stock;
        match (Transducer::read(alphabets, &self.bytes), InputTree::read(alphabets, &self.bytes)) {
            (Ok(_), Err(_)) => self.sheet(stock).map(Either::Sheet),
            (Err(_), Ok(design)) => Ok(Either::Design(design)),
            (Ok(_), Ok(_)) => Err(Failure::of_file(&self.name, "a sheet and a design at once: say which by --as")),
            _ if self.is_empty() => Err(Failure::empty(&self.name, None, "a sheet or a design")),
            (Err(sheet), Err(design)) => {
                let why = format!("no sheet ({sheet}) and no design ({design})");
                Err(Failure::of_file(&self.name, why + "; what to do: say which it is by --as, to read what is wrong"))
            }
        }
    }
}

/// All that can be read.
fn whole(from: impl Read) -> io::Result<Vec<u8>> {
    let mut bytes = Vec::new();
    from.take(LONGEST + 1).read_to_end(&mut bytes)?;
    if bytes.len() as u64 > LONGEST {
        return Err(io::Error::new(io::ErrorKind::FileTooLarge, "longer than 16 MiB, as nothing that is read is"));
    }
    Ok(bytes)
}

/// A file's name in messages, on one line.
pub fn shown(file: &OsStr) -> String {
    match file.to_str() {
        Some("-") => "standard input".to_string(),
        Some("") => "''".to_string(),
        _ => file.to_string_lossy().escape_debug().to_string().replace("\\'", "'").replace("\\\"", "\""),
    }
}

/// A path's name in messages.
fn shown_path(path: &Path) -> String {
    match path == Path::new(STANDARD_INPUT) {
        true => shown(OsStr::new("-")),
        false => shown(path.as_os_str()),
    }
}

/// The path of the table of names beside a file of bytes: beside the file itself, where links lead to it.
fn table_of(path: &Path) -> PathBuf {
    let is_link = std::fs::symlink_metadata(path).is_ok_and(|found| found.is_symlink());
    let path = if is_link { store::resolved(path) } else { path.to_path_buf() };
    store::beside(&path, NAMES)
}

/// The table of names beside a file, if there is one.
fn table_beside(path: Option<&Path>) -> Result<Option<Input>, Failure> {
    let Some(path) = path.map(table_of) else { return Ok(None) };
    match Inputs::default().read(path.as_os_str()) {
        Ok(table) => Ok(Some(table)),
        Err(_) if !path.exists() => Ok(None),
        Err(failure) => Err(failure),
    }
}

/// The names of the kinds of a stock, or of a book of make 1, from the table beside its file; codes where there is none.
pub fn names_beside(path: Option<&Path>, alphabets: &Alphabets) -> Result<Names, Failure> {
    let names = path.map_or(Ok(None), |path| table_names(path, alphabets))?;
    Ok(names.unwrap_or_else(|| Names::codes(alphabets)))
}

/// The names of kinds from the table beside a file, if there is one.
pub fn table_names(path: &Path, alphabets: &Alphabets) -> Result<Option<Names>, Failure> {
    let Some(table) = table_beside(Some(path))? else { return Ok(None) };
    text::read_names(&table.bytes, alphabets).map(Some).map_err(|error| table.unread(error))
}

/// Writes a content, as bytes or as text.
type WriteContent<'a> = dyn Fn(bool, &mut dyn Write) -> io::Result<()> + 'a;

/// What a command gives: it can be written as bytes and as text, and has a table of names that belongs beside the
/// bytes.
pub struct Content<'a> {
    write: Box<WriteContent<'a>>,
    names: Option<String>,
}

impl<'a> Content<'a> {
    /// Of these bytes and this text.
    fn of(bytes: &'a [u8], text: String, names: Option<String>) -> Self {
        let write = move |as_bytes, to: &mut dyn Write| to.write_all(if as_bytes { bytes } else { text.as_bytes() });
        Content { write: Box::new(write), names }
    }

    /// Of a stock.
    pub fn stock(stock: &'a Stock) -> Self {
        let Stock { alphabets, names } = stock;
        let text = text::write_alphabets(alphabets, names);
        Content::of(alphabets.as_bytes(), text, Some(text::write_names(names)))
    }

    /// Of a sheet.
    pub fn sheet(transducer: &'a Transducer, names: &Names, states: &StateNames) -> Self {
        let text = text::write_transducer(transducer, names, states);
        Content::of(transducer.as_bytes(), text, Some(text::write_state_names(states)))
    }

    /// Of a sheet whose passes have no names.
    pub fn numbered(transducer: &'a Transducer, names: &Names) -> Self {
        Content::sheet(transducer, names, &StateNames::numbered(transducer.states()))
    }

    /// Of a design.
    pub fn design(tree: &'a InputTree, names: &Names) -> Self {
        Content::of(tree.as_bytes(), text::write_input_tree(tree, names), None)
    }

    /// Of a plan, whose text can be long and is not kept.
    pub fn plan(tree: &'a OutputTree, names: &'a Names) -> Self {
        let write = |as_bytes, mut to: &mut dyn Write| match as_bytes {
            true => to.write_all(tree.as_bytes()),
            false => text::write_output_tree(tree, names, &mut to),
        };
        Content { write: Box::new(write), names: None }
    }

    /// Of a plan's XML, which is the same as bytes and as text.
    pub fn xml(text: &'a str) -> Self {
        Content::of(text.as_bytes(), text.to_string(), None)
    }

    /// Prints its text.
    pub fn print(&self) -> Result<(), Failure> {
        self.write(None, false)
    }

    /// Writes it where `-o` says, as text or, with `--bytes`, as bytes.
    pub fn deliver(&self, arguments: &Arguments) -> Result<(), Failure> {
        self.write(arguments.value("-o"), arguments.has("--bytes"))
    }

    /// The names that go into a table beside a file, if any do.
    fn names_for(&self, path: &Path, bytes: bool) -> Option<&str> {
        // a terminal or /dev/null has no names beside it
        self.names.as_deref().filter(|_| bytes && is_replaced(path))
    }

    /// What stands where its table of names would be written is such a table, if there is anything.
    pub fn fits(&self, file: Option<&OsStr>, bytes: bool) -> Result<(), Failure> {
        match file.map(Path::new).filter(|path| self.names_for(path, bytes).is_some()) {
            Some(path) => own_table(path),
            None => Ok(()),
        }
    }

    /// Writes it to a file, as text or as bytes with the table of names beside them; or to standard output.
    pub fn write(&self, file: Option<&OsStr>, bytes: bool) -> Result<(), Failure> {
        let Some(path) = file.map(Path::new).filter(|path| !is_standard_output(path)) else {
            return to_standard_output(|out| (self.write)(bytes, out));
        };
        self.fits(file, bytes)?;
        let names = self.names_for(path, bytes);
        // The old table goes just before the file that it belongs to, so that a stop leaves a file without one and
        // never a file with another's.
        let ready = || if names.is_some() { remove_table(path) } else { Ok(()) };
        let written = store::replace(path, |out| (self.write)(bytes, out), ready);
        written.map_err(|error| Failure::of_file(&shown_path(path), error))?;
        names.map_or(Ok(()), |names| write_table(path, names))
    }
}

/// Whether a path is that of standard output.
pub fn is_standard_output(path: &Path) -> bool {
    ["-", "/dev/stdout", "/dev/fd/1"].iter().any(|name| path == Path::new(name))
}

/// Whether a new file takes the place of what is at a path: of a file, or of nothing yet. A terminal, a pipe or
/// `/dev/null` is written to, and loses nothing.
fn is_replaced(path: &Path) -> bool {
    !is_standard_output(path) && std::fs::metadata(path).map_or(true, |found| found.is_file())
}

/// There is no file where the table of names beside a file is to stand, or it is such a table.
fn own_table(path: &Path) -> Result<(), Failure> {
    match table_beside(Some(path))? {
        Some(table) if text::kind(&table.bytes) != Ok(Kind::Names) => {
            Err(Failure::of_file(&table.name, "it would be overwritten by the names, and is no table of names"))
        }
        _ => Ok(()),
    }
}

/// Removes the table of names beside a file, if there is one.
fn remove_table(path: &Path) -> io::Result<()> {
    match std::fs::remove_file(table_of(path)) {
        Err(error) if error.kind() != io::ErrorKind::NotFound => Err(error),
        _ => Ok(()),
    }
}

/// Writes the table of names beside a file.
fn write_table(path: &Path, names: &str) -> Result<(), Failure> {
    write_file(&table_of(path), names)
}

/// Replaces a file by a text.
pub fn write_file(path: &Path, text: &str) -> Result<(), Failure> {
    let written = store::replace(path, |out| out.write_all(text.as_bytes()), || Ok(()));
    written.map_err(|error| Failure::of_file(&shown_path(path), error))
}

/// The endings of names that the program gives to files beside others, and what these are.
const KEPT_ENDINGS: [(&str, &str); 3] =
    [(NAMES, "tables of names"), (".lock", "locks of books"), (UNFINISHED, "files that are not whole yet")];
/// The ending of a table of names.
const NAMES: &str = ".names";
/// The ending of a file that is not whole yet.
pub const UNFINISHED: &str = ".new~";

/// Nothing is lost by what a command writes: no output is a file that it reads, a table of names, a lock, a book or
/// another output, and no table of names that is written beside an output is a file that it reads. This is asked of
/// every command before it begins.
pub fn keep(outputs: &[&OsStr], inputs: &[OsString]) -> Result<(), Failure> {
    let outputs: Vec<&Path> = outputs.iter().map(Path::new).filter(|path| is_replaced(path)).collect();
    for (number, output) in outputs.iter().enumerate() {
        if let Some(read) = read_files(inputs).find(|read| same(output, read)) {
            return Err(Failure::of_file(&shown_path(&read), "it would be overwritten: give another file"));
        }
        if let Some(other) = outputs[..number].iter().find(|other| same(output, other)) {
            return Err(Failure::of_file(&shown_path(other), "it would be written twice: give another file"));
        }
        free_name(output)?;
        of_no_program_file(output)?;
        keep_beside(output, &[NAMES], inputs)?;
    }
    Ok(())
}

/// What the program writes or removes beside a file, under its name and these endings, is none of the files that the
/// command reads.
pub fn keep_beside(path: &Path, endings: &[&str], inputs: &[OsString]) -> Result<(), Failure> {
    let beside =
        |read: &PathBuf| endings.iter().any(|ending| same(read, &store::beside(&store::resolved(path), ending)));
    match read_files(inputs).find(beside) {
        Some(read) => {
            let why = format!("it would be overwritten by what stands beside {}: give another file", shown_path(path));
            Err(Failure::of_file(&shown_path(&read), why))
        }
        None => Ok(()),
    }
}

/// The files that a command reads: its words that are files, the tables of names beside them, and standard input, which
/// may be a file too.
fn read_files(inputs: &[OsString]) -> impl Iterator<Item = PathBuf> + '_ {
    let named = inputs.iter().filter(|input| *input != "-").map(PathBuf::from);
    let with_tables = named.flat_map(|input| {
        let table = table_of(&input);
        [input, table]
    });
    with_tables.chain([PathBuf::from(STANDARD_INPUT)]).filter(|path| path.exists())
}

/// A name of a file that is not one of those that the program gives to files beside others.
pub fn free_name(path: &Path) -> Result<(), Failure> {
    let ends =
        |ending: &str| [path, &store::resolved(path)].iter().any(|path| path.to_string_lossy().ends_with(ending));
    match KEPT_ENDINGS.iter().find(|(ending, _)| ends(ending)) {
        Some((ending, kept)) => {
            let why = format!("names that end in `{ending}` are those of {kept}: give another file");
            Err(Failure::of_file(&shown_path(path), why))
        }
        None => Ok(()),
    }
}

/// What is at a path is no table of names and no book, whatever its name is.
fn of_no_program_file(path: &Path) -> Result<(), Failure> {
    let mut start = Vec::new();
    // what cannot be read is not known to be one
    let _ = File::open(path).and_then(|file| file.take(LONGEST).read_to_end(&mut start));
    let what = match (Registry::is_begun(&start), text::kind(&start)) {
        (true, _) => "a book",
        (false, Ok(Kind::Names)) => "a table of names",
        _ => return Ok(()),
    };
    Err(Failure::of_file(&shown_path(path), format!("it is {what}, and would be overwritten: give another file")))
}

/// Whether two paths lead to one file, over links of either kind.
fn same(one: &Path, two: &Path) -> bool {
    let number = file_number(one);
    whole_path(one) == whole_path(two) || number.is_some() && number == file_number(two)
}

/// The whole path of the file that a path leads to, even if there is none yet.
fn whole_path(path: &Path) -> PathBuf {
    let path = store::resolved(path);
    let folder = path.parent().filter(|folder| !folder.as_os_str().is_empty()).unwrap_or(Path::new("."));
    match (folder.canonicalize(), path.file_name()) {
        (Ok(folder), Some(name)) => folder.join(name),
        _ => path,
    }
}

/// The number of a file with that of its disk: a file of several names has one.
#[cfg(unix)]
fn file_number(path: &Path) -> Option<(u64, u64)> {
    use std::os::unix::fs::MetadataExt;
    std::fs::metadata(path).ok().map(|found| (found.dev(), found.ino()))
}

/// Other systems do not tell.
#[cfg(not(unix))]
fn file_number(_: &Path) -> Option<(u64, u64)> {
    None
}

/// Writes to standard output.
fn to_standard_output(write: impl FnOnce(&mut dyn Write) -> io::Result<()>) -> Result<(), Failure> {
    let mut out = io::BufWriter::new(io::stdout().lock());
    write(&mut out).and_then(|()| out.flush()).map_err(Failure::of_output)
}

/// Prints a text.
pub fn print(text: &str) -> Result<(), Failure> {
    to_standard_output(|out| out.write_all(text.as_bytes()))
}
