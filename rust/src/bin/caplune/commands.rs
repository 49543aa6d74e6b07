//! The commands: what each takes, does and says of itself.
use crate::arguments::{Arguments, Choice, FILE};
use crate::failure::Failure;
use crate::files::{keep, print, shown, Content, Either, Input, Inputs, Stock};
use crate::{book, comparing, Status};
use caplune::text::{self, Names};
use caplune::{Address, Refusal, Transducer};
use std::ffi::{OsStr, OsString};
use std::fmt::{Display, Write};

/// A command of the program.
pub struct Command {
    name: &'static str,
    takes: &'static str,
    /// How many words it takes that are no options: at least, and at most.
    words: (usize, usize),
    choices: &'static [Choice],
    does: &'static str,
    more: &'static str,
    example: &'static str,
    run: fn(&Arguments) -> Result<Status, Failure>,
}

const OUTPUT: Choice = Choice { name: "-o", takes: Some(FILE), says: "write to FILE, not to standard output" };
const BYTES: Choice =
    Choice { name: "--bytes", takes: None, says: "write bytes, and the table FILE.names beside FILE; else text" };
const PLAN: Choice = Choice { name: "--bytes", takes: None, says: "write bytes; else text" };
const AS: Choice = Choice { name: "--as", takes: Some("KIND"), says: "read bytes as `sheet` or as `design`" };
const MOST: Choice = Choice {
    name: "--most",
    takes: Some("N"),
    says: "refuse a plan of over N blocks (else 16777216; at most 1073741824)",
};
const SVG: Choice = Choice {
    name: "--svg",
    takes: Some(FILE),
    says: "draw the difference of two sheets as a picture; none if they are alike",
};
const STOCK: Choice = Choice { name: "--stock", takes: Some(FILE), says: "write the joined sheet's stock to FILE" };
const CLEAN_SHEET: Choice = Choice { name: "-o", takes: Some(FILE), says: "write the clean sheet to FILE" };
const SIZE: Choice = Choice {
    name: "--size",
    takes: Some("N"),
    says: "the book has room for N bytes, at most 655538 (else for any 32 sheets)",
};

const COUNTS: Choice =
    Choice { name: "--counts", takes: Some("N,N,..."), says: "how many entries got each number, from 1 on" };
const OLD_STOCK: Choice = Choice {
    name: "--stock",
    takes: Some("STOCK"),
    says: "take the names of the kinds from STOCK, whose kinds are the book's",
};

/// As many words as a command line can have.
const ANY: usize = usize::MAX;

const COMMANDS: &[Command] = &[
    Command {
        name: "show",
        takes: "STOCK [FILE...]",
        words: (1, ANY),
        choices: &[AS],
        does: "show a stock, or sheets and designs under it, as text",
        more: "A comment before each sheet or design says how large it is.",
        example: "caplune show stock t",
        run: show,
    },
    Command {
        name: "convert",
        takes: "STOCK [FILE]",
        words: (1, 2),
        choices: &[OUTPUT, AS],
        does: "turn a stock, or a sheet or design under it, from text into bytes, or from bytes into text",
        more: "A stock or sheet in bytes that goes to FILE gets the table FILE.names beside it, and names\n\
               are read from there again.",
        example: "caplune convert -o t stock.txt t.txt",
        run: convert,
    },
    Command {
        name: "sew",
        takes: "STOCK SHEET DESIGN",
        words: (3, 3),
        choices: &[MOST, OUTPUT, PLAN],
        does: "give the plan that a sheet gives on a design",
        more: "A plan has at most 256 levels, the top block being level 1; one of more is refused by 10.",
        example: "caplune sew stock.txt t.txt design.txt",
        run: sew,
    },
    Command {
        name: "place",
        takes: "STOCK SHEET DESIGN PLACE",
        words: (4, 4),
        choices: &[],
        does: "give the block at a place of the plan, however large and deep the plan is",
        more: "A place is written 2.1, from the top on, sub-trees counting from 1; the top itself is `-`.\n\
               Where the plan has no such place, the answer is `no such place`.",
        example: "caplune place stock.txt t.txt design.txt 2.1",
        run: place,
    },
    Command {
        name: "xml",
        takes: "STOCK [PLAN]",
        words: (1, 2),
        choices: &[OUTPUT],
        does: "write a plan as XML: an element for each block, named by its code",
        more: "The plan is bytes, or text as `caplune sew` prints it, and is read from standard input where no file\n\
               is given. It has at most 4,096 blocks, of any number of levels. Nothing stands between the elements\n\
               and no line end behind them, as `caplune plan` reads none.",
        example: "caplune xml -o plan.xml stock.txt plan.txt",
        run: xml,
    },
    Command {
        name: "plan",
        takes: "STOCK [TEXT]",
        words: (1, 2),
        choices: &[OUTPUT, PLAN],
        does: "read a plan back from its XML",
        more:
            "The text is just as `caplune xml` writes it under this stock, and is read from standard input where no\n\
               file is given. Every other text is refused by 11.",
        example: "caplune plan stock.txt plan.xml",
        run: plan,
    },
    Command {
        name: "single",
        takes: "STOCK SHEET",
        words: (2, 2),
        choices: &[],
        does: "tell whether a sheet is single, by its opening and the lines that the opening can reach",
        more: "It is if in its opening, and in each line that the opening can reach, no sub-part stands twice.\n\
               The opening reaches the lines of the passes that it names, and of those that such lines name.\n\
               The answer is `single` or `not single`.",
        example: "caplune single stock.txt t.txt",
        run: single,
    },
    Command {
        name: "clean",
        takes: "STOCK SHEET",
        words: (2, 2),
        choices: &[OUTPUT, BYTES],
        does: "give the clean sheet: the same for two sheets exactly if they sew alike",
        more: "Its passes are q0, q1 and so on, as they are first met.",
        example: "caplune clean stock.txt t.txt",
        run: clean,
    },
    Command {
        name: "compare",
        takes: "STOCK SHEET SHEET...",
        words: (3, ANY),
        choices: &[SVG],
        does: "tell whether sheets give equal plans on every design",
        more: "Of two sheets that do not, it shows a design, a place, and the plans around it. In the design\n\
               the parts at which the two blocks are laid are marked, and long chains are folded. Of more\n\
               than two it lists the classes of alike ones. The status is 0 if all are alike, and 1 if not.\n\
               Of more than two, a sheet that is refused is told, the others are compared, and the status is 2.",
        example: "caplune compare --svg difference.svg stock.txt t.txt u.txt",
        run: comparing::compare,
    },
    Command {
        name: "join",
        takes: "STOCK SHEET STOCK SHEET",
        words: (4, 4),
        choices: &[OUTPUT, BYTES, STOCK],
        does: "give one sheet for two: its plan is the second's plan for the first's plan",
        more: "Each sheet stands behind its stock. The part kinds of the second stock are the block kinds\n\
               of the first.",
        example: "caplune join layout.stock layout.sheet fabric.stock fabric.sheet",
        run: join,
    },
    Command {
        name: "card",
        takes: "[STOCK]",
        words: (0, 1),
        choices: &[],
        does: "print the card: the codes of all 64 block kinds, in their order, or those of a stock",
        more: "The card has eight codes to a line. Of a stock, each block kind stands in a line of its own: its\n\
               code, its name and its places. Codes are written where a block kind has no name.",
        example: "caplune card stock.txt",
        run: card,
    },
    Command {
        name: "book make",
        takes: "BOOK STOCK",
        words: (2, 2),
        choices: &[SIZE],
        does: "make a book for sheets under a stock",
        more: "The names of the kinds are kept in the book. A book that is there already stays.",
        example: "caplune book make book stock.txt",
        run: book::make,
    },
    Command {
        name: "book enter",
        takes: "BOOK SHEET...",
        words: (2, ANY),
        choices: &[],
        does: "enter sheets into a book: two get one number exactly if they sew alike",
        more: "The numbers are printed when the book is on disk. A sheet that is refused leaves the book as\n\
               it was, and the others are entered.",
        example: "caplune book enter book t.txt u.txt",
        run: book::enter,
    },
    Command {
        name: "book question",
        takes: "BOOK SHEET...",
        words: (2, ANY),
        choices: &[CLEAN_SHEET, BYTES],
        does: "tell the number that a sheet would get in a book, and leave the book as it is",
        more: "The number stands alone in a line. Of several sheets each is asked by itself, as the only one, and\n\
               each number stands behind its sheet. What `book enter` would refuse is refused. With -o the clean\n\
               sheet of one sheet is written; if that is to standard output, it stands there alone.",
        example: "caplune book question book t2.txt",
        run: book::question,
    },
    Command {
        name: "book commit",
        takes: "BOOK SHEET NUMBER",
        words: (3, 3),
        choices: &[],
        does: "enter a sheet into a book if it gets just this number, which `book question` told",
        more: "Where another sheet was entered meanwhile and has that number, the sheet is refused by 13, nothing is\n\
               entered, and `book question` tells its number now.",
        example: "caplune book commit book t2.txt 1",
        run: book::commit,
    },
    Command {
        name: "book list",
        takes: "BOOK",
        words: (1, 1),
        choices: &[],
        does: "list the sheets of a book by number, and how many entries got each number",
        more: "A book of make 1 does not keep how many, which is told.",
        example: "caplune book list book",
        run: book::list,
    },
    Command {
        name: "book show",
        takes: "BOOK NUMBER",
        words: (2, 2),
        choices: &[OUTPUT, BYTES],
        does: "give the clean sheet of a number, or the stock for 0",
        more: "",
        example: "caplune book show book 1",
        run: book::show,
    },
    Command {
        name: "book carry",
        takes: "OLD NEW",
        words: (2, 2),
        choices: &[COUNTS, OLD_STOCK],
        does: "carry a book of an earlier make over into a new file, of the make that takes entries",
        more: "OLD stays as it is, and NEW must not be there yet. Make 1 does not keep how many entries got each\n\
               number, so --counts is needed where that is not certain: N for number 1, then for number 2 and so\n\
               on, each at least 1, which sum to the entries answered (`caplune book list OLD`). It is certain where\n\
               no sheet is held or one, and where there were as many entries as sheets. Make 1 has the names of\n\
               the kinds in the table OLD.names.",
        example: "caplune book carry --counts 2,1 old new",
        run: book::carry,
    },
];

/// Runs the command that the words name.
pub fn run(words: &[OsString]) -> Result<Status, Failure> {
    let is = |word: &OsString, names: &[&str]| names.iter().any(|name| word == name);
    let Some(first) = words.first() else { return Err(wrong("no command is given", None)) };
    if is(first, &["help"]) && words.len() > 1 {
        return run(&[&words[1..], &["--help".into()]].concat());
    }
    if is(first, &["--help", "-h", "help"]) {
        return print(&(PURPOSE.to_string() + &overview(COMMANDS))).map(|()| Status::Done);
    }
    if is(first, &["--version", "-V"]) {
        return print(concat!("caplune ", env!("CARGO_PKG_VERSION"), "\n")).map(|()| Status::Done);
    }
    let helped = |word: &OsString| is(word, &["--help", "-h"]);
    let group: Vec<&Command> =
        COMMANDS.iter().filter(|command| command.name.split(' ').next() == first.to_str()).collect();
    if group.len() > 1 && words.get(1).is_some_and(helped) {
        return print(&(BOOK.to_string() + &overview(group))).map(|()| Status::Done);
    }
    let (command, rest) = find(words)?;
    if rest.iter().take_while(|word| *word != "--").any(helped) {
        return print(&command.help()).map(|()| Status::Done);
    }
    let arguments = Arguments::read(rest, command.choices).map_err(|why| wrong(&why, Some(command.name)))?;
    let (least, most) = command.words;
    if !(least..=most).contains(&arguments.plain.len()) {
        return Err(wrong(&format!("it takes {}", command.takes), Some(command.name)));
    }
    keep(&command.outputs(&arguments), command.files(&arguments))?;
    (command.run)(&arguments)
}

/// The command of the first one or two words, and the words behind it.
fn find(words: &[OsString]) -> Result<(&'static Command, &[OsString]), Failure> {
    for count in [1, 2] {
        let name = words.iter().take(count).map(|word| word.to_string_lossy()).collect::<Vec<_>>().join(" ");
        if let Some(command) = COMMANDS.iter().find(|command| command.name == name) {
            return Ok((command, &words[count.min(words.len())..]));
        }
    }
    let first = words.first().map(|word| shown(word)).unwrap_or_default();
    let why = match first.as_str() {
        "book" => "book is followed by make, enter, question, commit, list, show or carry".to_string(),
        _ => format!("there is no command `{first}`"),
    };
    Err(wrong(&why, None))
}

/// A command line that is wrong, of this command if it is known, and where to read how it is right.
pub fn wrong(why: &str, command: Option<&str>) -> Failure {
    Failure::Told(match command {
        Some(name) => format!("{name}: {why}; `caplune {name} --help` tells more"),
        None => format!("{why}; `caplune --help` tells more"),
    })
}

/// What the program is for, and the five words that its users use all day.
const PURPOSE: &str = "\
caplune tells whether two sheets sew alike, on every design there is, and shows
where they do not. It sews, cleans and joins sheets, and keeps a book of them.

  design       what a customer draws: a tree of parts; each kind of part has a
               fixed number of places, none to four, for smaller parts
  plan         what the machine sews: a tree of stitch blocks, built the same way
  sheet        the table that turns a design into a plan for one fabric
  pass         one way in which a sheet reads a part: a line for each kind of part,
               whose open ends say which pass goes on with which smaller part
  clean sheet  a sheet that lays every block as early as it is certain, holds no
               two passes that do the same, and numbers its passes as they are met

";

/// What a book is.
const BOOK: &str = "\
A book holds clean sheets under one stock, by number from 1 on, at most 32. Sheets
that sew alike get one number, and the book counts how often it gave each. A
number can be asked for before it is given. A book is one file, with the names of
the kinds in it; who changes it keeps others waiting by BOOK.lock. A stop at any
moment leaves the old book or the new one.

";

/// All commands, a line each.
fn overview<'a>(commands: impl IntoIterator<Item = &'a Command>) -> String {
    let mut text = "usage: caplune COMMAND ...\n\n".to_string();
    for Command { name, takes, does, .. } in commands {
        let _ = writeln!(text, "  caplune {name} {takes}\n      {does}");
    }
    text + "
A file is text or bytes, told by what is in it; `-` is standard input.
`caplune COMMAND --help` tells more of a command.
The status is 0 if it is done or the sheets are alike, 1 if they differ,
2 if something is refused or asked for wrongly.
"
}

impl Command {
    /// The files that the options name, to be written.
    fn outputs<'a>(&self, arguments: &'a Arguments) -> Vec<&'a OsStr> {
        let options = self.choices.iter().filter(|choice| choice.takes == Some(FILE));
        options.filter_map(|choice| arguments.value(choice.name)).collect()
    }

    /// The words that are files: all but a place or a number, which stands last.
    fn files<'a>(&self, arguments: &'a Arguments) -> &'a [OsString] {
        let last = ["PLACE", "NUMBER"].iter().any(|word| self.takes.ends_with(word));
        &arguments.plain[..arguments.plain.len() - usize::from(last)]
    }

    fn help(&self) -> String {
        let Command { name, takes, choices, does, more, example, .. } = self;
        let options = if choices.is_empty() { "" } else { "[OPTION...] " };
        let (first, rest) = does.split_at(1);
        let mut text = format!("usage: caplune {name} {options}{takes}\n\n{}{rest}.\n", first.to_uppercase());
        if !more.is_empty() {
            let _ = writeln!(text, "{more}");
        }
        if !choices.is_empty() {
            text.push('\n');
        }
        for Choice { name, takes, says } in *choices {
            let _ = writeln!(text, "  {:16} {says}", format!("{name} {}", takes.unwrap_or_default()));
        }
        text + &format!("\nexample: {example}\n")
    }
}

/// A number of things.
pub fn count<N: Display + PartialEq + From<u8>>(number: N, one: &str, more: &str) -> String {
    let word = if number == N::from(1) { one } else { more };
    format!("{number} {word}")
}

fn show(arguments: &Arguments) -> Result<Status, Failure> {
    let mut inputs = Inputs::default();
    let stock = inputs.stock(&arguments.plain[0])?;
    if arguments.plain.len() == 1 {
        Content::stock(&stock).print()?;
    }
    for file in &arguments.plain[1..] {
        let input = inputs.read(file)?;
        match input.either(&stock, arguments.value("--as"))? {
            Either::Sheet(sheet) => {
                let (states, marks) = (sheet.transducer.states(), sheet.transducer.marks());
                let size = format!("{}, {}", count(states, "pass", "passes"), count(marks, "mark", "marks"));
                print(&format!("# {}: {size}\n", input.name))?;
                Content::sheet(&sheet.transducer, &stock.names, &sheet.states).print()?;
            }
            Either::Design(design) => {
                let (nodes, levels) = (design.nodes(), design.levels());
                let size = format!("{}, {}", count(nodes, "part", "parts"), count(levels, "level", "levels"));
                print(&format!("# {}: {size}\n", input.name))?;
                Content::design(&design, &stock.names).print()?;
            }
        }
    }
    Ok(Status::Done)
}

fn convert(arguments: &Arguments) -> Result<Status, Failure> {
    let mut inputs = Inputs::default();
    let first = inputs.read(&arguments.plain[0])?;
    let stock = first.stock()?;
    let write = |content: Content, input: &Input| content.write(arguments.value("-o"), input.is_text());
    let Some(file) = arguments.plain.get(1) else {
        return write(Content::stock(&stock), &first).map(|()| Status::Done);
    };
    let input = inputs.read(file)?;
    match input.either(&stock, arguments.value("--as"))? {
        Either::Sheet(sheet) => write(Content::sheet(&sheet.transducer, &stock.names, &sheet.states), &input)?,
        Either::Design(design) => write(Content::design(&design, &stock.names), &input)?,
    }
    Ok(Status::Done)
}

fn sew(arguments: &Arguments) -> Result<Status, Failure> {
    let most = arguments.number("--most", 1 << 24, Transducer::MOST_OUTPUT)?;
    let mut inputs = Inputs::default();
    let stock = inputs.stock(&arguments.plain[0])?;
    let sheet = inputs.sheet(&arguments.plain[1], &stock)?;
    let design = inputs.design(&arguments.plain[2], &stock)?;
    let plan = sheet.transducer.translate(&design, most);
    let plan = plan.map_err(|refusal| no_plan(&shown(&arguments.plain[2]), refusal, most))?;
    Content::plan(&plan, &stock.names).deliver(arguments)?;
    Ok(Status::Done)
}

/// A design is not sewn: where the plan is too long, the limit that it passes, which can be raised up to the highest.
fn no_plan(design: &str, refusal: Refusal, most: usize) -> Failure {
    if refusal != Refusal::LongOutput {
        return Failure::refused(design, refusal);
    }
    let (limit, other) = match Vec::<u8>::new().try_reserve_exact(most) {
        Err(_) => ("there is memory for".to_string(), "take a smaller design".to_string()),
        Ok(()) if most < Transducer::MOST_OUTPUT => {
            (most.to_string(), format!("allow more by --most, up to {}", Transducer::MOST_OUTPUT))
        }
        Ok(()) => (most.to_string(), "take a smaller design".to_string()),
    };
    let why = format!("refused by {}: the plan has more blocks than {limit}", refusal.number());
    let remedy = format!("{other}, or ask for the block at one place (`caplune place`)");
    Failure::of_file(design, format!("{why}; what to do: {remedy}"))
}

fn place(arguments: &Arguments) -> Result<Status, Failure> {
    let mut inputs = Inputs::default();
    let stock = inputs.stock(&arguments.plain[0])?;
    let sheet = inputs.sheet(&arguments.plain[1], &stock)?;
    let design = inputs.design(&arguments.plain[2], &stock)?;
    let place = arguments.plain[3].to_string_lossy();
    let address: Address =
        place.parse().map_err(|error| Failure::of_file(&format!("`{}`", shown(&arguments.plain[3])), error))?;
    let found = sheet.transducer.symbol_at(&design, &address);
    let found = found.map_err(|refusal| Failure::refused(&shown(&arguments.plain[2]), refusal))?;
    let block = found.map_or("no such place", |symbol| block(&stock, symbol));
    print(&format!("{block}\n"))?;
    Ok(Status::Done)
}

fn xml(arguments: &Arguments) -> Result<Status, Failure> {
    let mut inputs = Inputs::default();
    let stock = inputs.stock(&arguments.plain[0])?;
    let plan = inputs.plan(arguments.plain.get(1), &stock)?;
    let text = plan.to_xml().map_err(|refusal| Failure::refused("the plan", refusal))?;
    Content::xml(&text).deliver(arguments)?;
    Ok(Status::Done)
}

fn plan(arguments: &Arguments) -> Result<Status, Failure> {
    let mut inputs = Inputs::default();
    let stock = inputs.stock(&arguments.plain[0])?;
    let plan = inputs.xml(arguments.plain.get(1), &stock)?;
    Content::plan(&plan, &stock.names).deliver(arguments)?;
    Ok(Status::Done)
}

/// The name of a block kind.
pub fn block(stock: &Stock, symbol: u8) -> &str {
    stock.names.outputs().get(usize::from(symbol)).map_or("?", String::as_str)
}

fn single(arguments: &Arguments) -> Result<Status, Failure> {
    let mut inputs = Inputs::default();
    let stock = inputs.stock(&arguments.plain[0])?;
    let sheet = inputs.sheet(&arguments.plain[1], &stock)?;
    print(if sheet.transducer.is_linear() { "single\n" } else { "not single\n" })?;
    Ok(Status::Done)
}

fn card(arguments: &Arguments) -> Result<Status, Failure> {
    let Some(file) = arguments.plain.first() else {
        return print(&text::write_card()).map(|()| Status::Done);
    };
    let Stock { alphabets, names } = Inputs::default().stock(file)?;
    let codes = Names::codes(&alphabets);
    let kinds = codes.outputs().iter().zip(names.outputs()).zip(alphabets.output_ranks());
    print(&kinds.map(|((code, name), places)| format!("{code} {name}/{places}\n")).collect::<String>())?;
    Ok(Status::Done)
}

fn clean(arguments: &Arguments) -> Result<Status, Failure> {
    let mut inputs = Inputs::default();
    let stock = inputs.stock(&arguments.plain[0])?;
    let sheet = inputs.sheet(&arguments.plain[1], &stock)?;
    let form = sheet.transducer.normal_form().map_err(|refusal| Failure::refused(&sheet.name, refusal))?;
    Content::numbered(&form, &stock.names).deliver(arguments)?;
    Ok(Status::Done)
}

fn join(arguments: &Arguments) -> Result<Status, Failure> {
    let mut inputs = Inputs::default();
    let [first_stock, second_stock] = [inputs.stock(&arguments.plain[0])?, inputs.stock(&arguments.plain[2])?];
    let both =
        |one: usize, two: usize| format!("{} and {}", shown(&arguments.plain[one]), shown(&arguments.plain[two]));
    let alphabets = first_stock.alphabets.joined(&second_stock.alphabets);
    let alphabets = alphabets.map_err(|refusal| Failure::refused(&both(0, 2), refusal))?;
    let stock = Stock { alphabets, names: first_stock.names.joined(&second_stock.names) };
    let first = inputs.sheet(&arguments.plain[1], &first_stock)?;
    let second = inputs.sheet(&arguments.plain[3], &second_stock)?;
    let joined = first.transducer.then(&second.transducer).map_err(|refusal| Failure::refused(&both(1, 3), refusal))?;
    let (file, stock_file, bytes) = (arguments.value("-o"), arguments.value("--stock"), arguments.has("--bytes"));
    let (sheet, stock) = (Content::numbered(&joined, &stock.names), Content::stock(&stock));
    // both can be written, or neither is
    sheet.fits(file, bytes)?;
    if stock_file.is_some() {
        stock.write(stock_file, bytes)?;
    }
    sheet.write(file, bytes)?;
    Ok(Status::Done)
}

/// The highest limit is not advised to be raised.
#[test]
fn highest_limit() {
    for (most, advice) in [(Transducer::MOST_OUTPUT, "take a smaller design"), (1 << 20, "allow more by --most")] {
        let Failure::Told(line) = no_plan("design", Refusal::LongOutput, most) else { panic!("it is told") };
        assert!(line.starts_with(&format!("design: refused by 6: the plan has more blocks than {most}; ")), "{line}");
        assert!(line.contains(&format!("what to do: {advice}")), "{line}");
    }
}
