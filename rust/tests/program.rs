//! Runs the program `caplune` in folders of its own, as people do: every command, what it prints and writes, how it
//! ends, and what it says of files that it cannot use.
mod folder;
mod generate;
mod makes;

use caplune::{text, Alphabets, InputTree, Refusal, Registry, Transducer};
use folder::{Ended, Folder};
use generate::alike::{chain, chain_alphabets};
use generate::samples::*;
use generate::{joins, Random};
use makes::make_1;
use std::fs;
use std::path::{Path, PathBuf};

const PROGRAM: &str = env!("CARGO_BIN_EXE_caplune");

/// A path of the repository.
fn repository(path: &str) -> PathBuf {
    Path::new(env!("CARGO_MANIFEST_DIR")).join("..").join(path)
}

/// A folder with the files of a folder of the repository.
fn copy_of(path: &str) -> Folder {
    let folder = Folder::new();
    for entry in fs::read_dir(repository(path)).expect("it is there") {
        let path = entry.unwrap().path();
        fs::copy(&path, folder.0.join(path.file_name().unwrap())).unwrap();
    }
    folder
}

/// A folder with the files of examples/first.
fn first() -> Folder {
    copy_of("examples/first")
}

impl Folder {
    fn caplune(&self, line: &str) -> Ended {
        self.caplune_with(line, b"")
    }

    fn caplune_with(&self, line: &str, input: &[u8]) -> Ended {
        self.run(Path::new(PROGRAM), &line.split_whitespace().collect::<Vec<_>>(), input)
    }

    /// What it prints where it is done.
    fn prints(&self, line: &str) -> String {
        let ended = self.caplune(line);
        assert_eq!((ended.status, &ended.err[..]), (Some(0), ""), "{line}");
        ended.text().to_string()
    }

    /// The one line that it says where it is not.
    fn says(&self, line: &str) -> String {
        told(&self.caplune(line), line)
    }
}

/// The one line of a command that ended with status 2 and printed nothing.
fn told(ended: &Ended, line: &str) -> String {
    assert_eq!((ended.status, ended.out.len()), (Some(2), 0), "{line}: {ended:?}");
    let said = ended.err.strip_prefix("caplune: ").and_then(|said| said.strip_suffix('\n'));
    let said = said.unwrap_or_else(|| panic!("{line}: {ended:?}"));
    assert!(!said.chars().any(char::is_control), "{line}: {said:?}");
    said.to_string()
}

/// Runs the first transcript behind a heading of a document, command by command, and says how many commands it has.
fn follow(document: &str, heading: &str, folder: &Folder) -> usize {
    let text = fs::read_to_string(repository(document)).unwrap();
    let section = text.split(heading).nth(1).and_then(|rest| rest.split("\n## ").next()).expect("a transcript");
    let path = format!("{}:{}", Path::new(PROGRAM).parent().unwrap().display(), std::env::var("PATH").unwrap());
    let mut commands: Vec<(&str, String)> = Vec::new();
    let begun = section.lines().skip_while(|line| !line.starts_with("    $ "));
    for line in begun.take_while(|line| line.is_empty() || line.starts_with("    ")) {
        match (line.strip_prefix("    $ "), commands.last_mut()) {
            (Some(command), _) => commands.push((command, String::new())),
            (None, Some((_, output))) => *output += &format!("{}\n", line.strip_prefix("    ").unwrap_or("")),
            (None, None) => {}
        }
    }
    let last = commands.len() - 1;
    for (number, (command, output)) in commands.iter().enumerate() {
        let script = format!("PATH='{path}'; exec 2>&1; {command}");
        let ended = folder.run(Path::new("/bin/sh"), &["-c", &script], b"");
        // behind the last one stands the empty line before the next paragraph
        let output = if number == last { format!("{}\n", output.trim_end()) } else { output.clone() };
        assert_eq!(ended.text(), output, "{command}");
    }
    commands.len()
}

/// The transcript of the README.
#[test]
fn readme() {
    let folder = first();
    assert!(follow("README.md", "## First use", &folder) > 10);
    // the picture that the README shows
    assert_eq!(folder.read("difference.svg"), fs::read(repository("docs/difference.svg")).unwrap());
}

/// The transcript of docs/FORMATS.md, of designs with blanks.
#[test]
fn blanks() {
    assert_eq!(follow("docs/FORMATS.md", "## Design with blanks", &copy_of("examples/blank")), 3);
}

/// docs/REFUSALS.md and the library's sentences are the same, row by row.
#[test]
fn remedies() {
    let document = fs::read_to_string(repository("docs/REFUSALS.md")).unwrap();
    let rows: Vec<Vec<&str>> = document
        .lines()
        .filter(|line| line.starts_with("| ") && line.as_bytes()[2].is_ascii_digit())
        .map(|line| line.trim_matches('|').split(" | ").map(str::trim).collect())
        .collect();
    assert_eq!(rows.len(), Refusal::ALL.len());
    for (row, refusal) in rows.iter().zip(Refusal::ALL.iter().copied()) {
        assert_eq!((row[0], row[1]), (&refusal.number().to_string()[..], &format!("`{refusal:?}`")[..]));
        assert_eq!(*row.last().unwrap(), refusal.remedy());
    }
    // the limits that two of them tell are those of the library
    assert!(Refusal::LongOutput.remedy().contains(&format!(" {})", Transducer::MOST_OUTPUT)));
    assert!(Refusal::FullRegistry.remedy().contains(&format!(" {})", Registry::LONGEST_AREA)));
}

/// The figures of docs/AREAS.md on the stack are those of the crate's documentation and of the C header.
#[test]
fn stack_figures() {
    let read = |path: &str| fs::read_to_string(repository(path)).unwrap();
    let (document, crate_, header) = (read("docs/AREAS.md"), read("rust/src/lib.rs"), read("include/caplune.h"));
    let table = document.split("## Stack").nth(1).expect("a table");
    let figures: Vec<&str> = table.lines().filter_map(|line| line.strip_suffix(" |")?.rsplit("| ").next()).collect();
    assert_eq!(figures.len(), 14);
    for figure in &figures[1..] {
        assert!(crate_.contains(figure) && header.contains(figure), "{figure}");
    }
}

/// Every command tells of itself, with an example that works.
#[test]
fn help() {
    let folder = first();
    let overview = folder.prints("--help");
    assert_eq!((folder.prints("help"), folder.prints("-h")), (overview.clone(), overview.clone()));
    let commands: Vec<&str> = overview.lines().filter_map(|line| line.strip_prefix("  caplune ")).collect();
    assert_eq!(commands.len(), 18);
    folder.write("old", &book_of_make_1(&[T, T, U]));
    folder.write("old.names", NAMES_OF_S);
    folder.caplune("convert -o stock stock.txt");
    folder.caplune("convert -o t stock.txt t.txt");
    folder.write("plan.txt", b"plan f(e, e)");
    folder.write("layout.stock", b"stock parts a/1 e/0 blocks f/2 e/0");
    folder.write("fabric.stock", b"stock parts f/2 e/0 blocks g/1 h/0");
    folder.write("layout.sheet", &folder.read("t.txt"));
    folder.write("fabric.sheet", b"sheet opening p(x1) p(f(x1, x2)) -> g(p(x2)) p(e) -> h");
    let mut tried = 0;
    for line in commands {
        let name =
            line.split(' ').take_while(|word| word.chars().all(char::is_lowercase)).collect::<Vec<_>>().join(" ");
        let text = folder.prints(&format!("{name} --help"));
        assert_eq!((&text, &text), (&folder.prints(&format!("{name} -h")), &folder.prints(&format!("help {name}"))));
        assert!(text.starts_with(&format!("usage: caplune {name} ")), "{text}");
        let example = text.lines().last().and_then(|line| line.strip_prefix("example: caplune ")).expect("an example");
        let ended = folder.caplune(example);
        assert!(matches!(ended.status, Some(0 | 1)) && ended.err.is_empty(), "{example}: {ended:?}");
        tried += 1;
    }
    assert_eq!(tried, 18);
    assert_eq!(folder.prints("book --help").lines().filter(|line| line.starts_with("  caplune book ")).count(), 7);
    assert!(folder.prints("book --help").starts_with("A book holds clean sheets"));
    assert_eq!((folder.prints("--version"), folder.prints("-V")), ("caplune 0.1.0\n".into(), "caplune 0.1.0\n".into()));
    // what it is for comes first, then the five words, a line or two each
    let before = overview.split("usage: ").next().unwrap();
    assert!(before.starts_with("caplune tells whether two sheets sew alike"), "{overview}");
    let words: Vec<&str> = before.lines().filter_map(|line| line.get(2..15).map(str::trim)).collect();
    assert!(words[2..].iter().filter(|word| !word.is_empty()).eq(&["design", "plan", "sheet", "pass", "clean sheet"]));
}

/// Words of the field that no message has: docs/GLOSSARY.md gives the paper's in their place. With their endings.
const NOT_SAID: [&str; 10] =
    ["area", "alphabet", "state", "call", "transducer", "symbol", "node", "rank", "address", "registr"];

/// The first word of a text that no message has.
fn not_said(text: &str) -> Option<&str> {
    let words = text.split(|character: char| !character.is_alphabetic());
    words.into_iter().find(|word| NOT_SAID.iter().any(|begun| word.to_lowercase().starts_with(begun)))
}

/// The literal strings of a source file, without its comments and without what is put in between braces.
fn literals(source: &str) -> Vec<String> {
    let (mut found, mut rest) = (Vec::new(), source);
    while let Some(at) = rest.find(['"', '\'', '/']) {
        let (begun, behind) = rest[at..].split_at(1);
        let passed = match begun {
            "\"" => {
                let end = end_of_string(behind);
                found.push(without_braces(&behind[..end]));
                end + 1
            }
            "'" => length_of_character(behind),
            _ if behind.starts_with('/') => behind.find('\n').unwrap_or(behind.len()),
            _ => 0,
        };
        rest = &behind[passed..];
    }
    found
}

/// Where the string ends whose first quote stands before this.
fn end_of_string(text: &str) -> usize {
    let escapes = |end: usize| text[..end].bytes().rev().take_while(|byte| *byte == b'\\').count();
    let mut quotes = text.match_indices('"').map(|(end, _)| end);
    quotes.find(|&end| escapes(end) % 2 == 0).expect("a string ends")
}

/// How long a character with the quote behind it is, whose first quote stands before this: 0 for a lifetime.
fn length_of_character(text: &str) -> usize {
    let escaped = usize::from(text.starts_with('\\'));
    let length = escaped + text[escaped..].chars().next().map_or(0, char::len_utf8);
    if text[length..].starts_with('\'') {
        length + 1
    } else {
        0
    }
}

fn without_braces(text: &str) -> String {
    let mut pieces = text.split('{');
    let first = pieces.next().unwrap_or("").to_string();
    pieces.fold(first, |text, piece| text + piece.split_once('}').map_or(piece, |(_, rest)| rest))
}

/// Every message is in the paper's words: the help of every command, all refusals, and every string of the sources from
/// which messages are made, errors of texts among them.
#[test]
fn words_of_messages() {
    let folder = Folder::new();
    let overview = folder.prints("--help");
    let commands = overview.lines().filter_map(|line| line.strip_prefix("  caplune "));
    let names = commands.map(|line| line.split_terminator(|c: char| c.is_uppercase() || c == '[').next().unwrap());
    let helps: Vec<String> = names.map(|name| folder.prints(&format!("{name} --help"))).collect();
    assert_eq!(helps.len(), 18);
    let refusals = Refusal::ALL.iter().map(|refusal| format!("{refusal}; {}", refusal.remedy()));
    for text in [overview.clone(), folder.prints("book --help")].into_iter().chain(helps).chain(refusals) {
        assert_eq!(not_said(&text), None, "{text}");
    }
    let mut checked = 0;
    for part in ["src", "src/registry", "src/text", "src/bin/caplune"] {
        for entry in fs::read_dir(repository("rust").join(part)).unwrap() {
            let path = entry.unwrap().path();
            if path.is_dir() || path.ends_with("src/ffi.rs") {
                continue;
            }
            for literal in literals(&fs::read_to_string(&path).unwrap()) {
                // the former name of an option is taken, and not told
                assert!(literal == "--area" || not_said(&literal).is_none(), "{}: {literal:?}", path.display());
                checked += 1;
            }
        }
    }
    assert!(checked > 300, "{checked}");
    // what is looked for is found
    let source =
        "// \"a call\"\nlet x = ['\"', '\\'', '\\\\']; f::<'a>(\"q \\\"of\\\" Nodes\", \"o{state}k\"); // \"no\"\n\"two\"";
    assert_eq!(literals(source), ["q \\\"of\\\" Nodes", "ok", "two"]);
    assert_eq!((not_said(&literals(source)[0]), not_said("basically an arena")), (Some("Nodes"), None));
}

#[test]
fn wrong_usage() {
    let folder = first();
    folder.prints("book make made stock.txt");
    folder.write("pairs.txt", b"stock parts f/2 e/0 blocks g/0");
    folder.write("p.txt", b"sheet opening g");
    let before = folder.names();
    for (line, said) in [
        ("", "no command is given; `caplune --help` tells more"),
        ("sewing", "there is no command `sewing`; `caplune --help` tells more"),
        ("book", "book is followed by make, enter, question, commit, list, show or carry; `caplune --help` tells more"),
        (
            "book makes",
            "book is followed by make, enter, question, commit, list, show or carry; `caplune --help` tells more",
        ),
        ("book question made", "book question: it takes BOOK SHEET...; `caplune book question --help` tells more"),
        ("book commit made t.txt", "book commit: it takes BOOK SHEET NUMBER; `caplune book commit --help` tells more"),
        (
            "book commit made t.txt t2.txt 1",
            "book commit: it takes BOOK SHEET NUMBER; `caplune book commit --help` tells more",
        ),
        ("book commit made t.txt two", "book commit: `two` is no number; `caplune book commit --help` tells more"),
        ("book commit made t.txt +1", "book commit: `+1` is no number; `caplune book commit --help` tells more"),
        ("book commit made t.txt 1.0", "book commit: `1.0` is no number; `caplune book commit --help` tells more"),
        ("book commit made t.txt -- -1", "book commit: `-1` is no number; `caplune book commit --help` tells more"),
        (
            "book commit missing missing \u{661}",
            "book commit: `\u{661}` is no number; `caplune book commit --help` tells more",
        ),
        (
            "book commit -o x made t.txt 1",
            "book commit: there is no option -o; `caplune book commit --help` tells more",
        ),
        ("book question -o x made t.txt t2.txt", "-o writes the clean sheet of one sheet, and more are given"),
        ("book question --bytes made t.txt", "--bytes is for the clean sheet that -o writes, and -o is not given"),
        ("book question - t.txt", "a book is a file with a name, and cannot be `-`"),
        ("book commit - t.txt 1", "a book is a file with a name, and cannot be `-`"),
        ("book question -o ./made made t.txt", "made: it would be overwritten: give another file"),
        ("book question -o t.txt made t.txt", "t.txt: it would be overwritten: give another file"),
        ("sew stock.txt t.txt", "sew: it takes STOCK SHEET DESIGN; `caplune sew --help` tells more"),
        ("sew --fast stock.txt t.txt design.txt", "sew: there is no option --fast; `caplune sew --help` tells more"),
        ("sew -o", "sew: -o takes FILE; `caplune sew --help` tells more"),
        ("sew --bytes=1 stock.txt t.txt design.txt", "sew: --bytes takes nothing; `caplune sew --help` tells more"),
        ("sew -o a -o b stock.txt t.txt design.txt", "sew: -o is given twice; `caplune sew --help` tells more"),
        ("sew --most many stock.txt t.txt design.txt", "--most takes a number, at most 1073741824"),
        ("sew --most 1073741825 stock.txt t.txt design.txt", "--most takes a number, at most 1073741824"),
        ("book make --size 655539 book stock.txt", "--size takes a number, at most 655538"),
        (
            "book make --size 1 --area 1 book stock.txt",
            "book make: --area is given twice; `caplune book make --help` tells more",
        ),
        ("sew -oa -o b stock.txt t.txt design.txt", "sew: -o is given twice; `caplune sew --help` tells more"),
        ("sew -x stock.txt t.txt design.txt", "sew: there is no option -x; `caplune sew --help` tells more"),
        ("show --as plan stock.txt t.txt", "--as takes `sheet` or `design`"),
        (
            "compare --svg x stock.txt t.txt t2.txt u.txt",
            "--svg draws the difference of two sheets, and more are given",
        ),
        ("book make - stock.txt", "a book is a file with a name, and cannot be `-`"),
        ("book enter - t.txt", "a book is a file with a name, and cannot be `-`"),
        ("book show --bytes -o ./made made 1", "made: it would be overwritten: give another file"),
        ("compare --svg t.txt stock.txt t.txt u.txt", "t.txt: it would be overwritten: give another file"),
        (
            "join --stock ./both -o both stock.txt t.txt pairs.txt p.txt",
            "both: it would be written twice: give another file",
        ),
        ("compare stock.txt t.txt", "compare: it takes STOCK SHEET SHEET...; `caplune compare --help` tells more"),
        ("card stock.txt t.txt", "card: it takes [STOCK]; `caplune card --help` tells more"),
        ("xml", "xml: it takes STOCK [PLAN]; `caplune xml --help` tells more"),
        ("xml --bytes stock.txt plan", "xml: there is no option --bytes; `caplune xml --help` tells more"),
        ("plan stock.txt plan.xml -", "plan: it takes STOCK [TEXT]; `caplune plan --help` tells more"),
        (
            "place stock.txt t.txt design.txt 1,2",
            "`1,2`: a place is `-` for the top or numbers from 0 to 255 with dots between, as in 1.2",
        ),
    ] {
        assert_eq!(folder.says(line), said, "{line}");
    }
    assert_eq!(folder.names(), before);
    assert_eq!(folder.prints("sew -- stock.txt t.txt design.txt"), "plan f(f(e, e), f(e, e))\n");
    assert_eq!(folder.prints("sew --most=7 stock.txt t.txt design.txt"), "plan f(f(e, e), f(e, e))\n");
    for (line, file) in
        [("-oplan", "plan"), ("-o=plan2", "plan2"), ("-oa=b", "a=b"), ("-o-", "-"), ("-o plan3", "plan3")]
    {
        let printed = folder.prints(&format!("sew {line} stock.txt t.txt design.txt"));
        let plan = if file == "-" { printed.into_bytes() } else { folder.read(file) };
        assert_eq!(plan, b"plan f(f(e, e), f(e, e))\n", "{line}");
    }
}

/// Each refusal that a command can meet: the file, the number and what to do.
#[test]
fn refusals() {
    let folder = first();
    let long = joins::doubling(true, 1, 6);
    for (name, bytes) in [
        ("stock", S),
        ("no_stock", &[1, 1, 1, 0]),
        ("t", T),
        ("cut", &[1, 0, 3]),
        ("no_pass", &[0, 0, 1, 1, 0]),
        ("no_design", &[0]),
        ("design", &[0, 1]),
        ("over", &ring(65)),
        ("one", &long.stocks[0]),
        ("two", &long.stocks[1]),
        ("first", &long.files[0]),
        ("second", &long.files[1]),
        ("unary", &[2, 1, 0, 2, 1, 0]),
        ("copy", &[1, 0, 1, 0, 2, 0, 1, 1, 0, 0, 0, 1, 0, 0, 1]),
        ("deepest", &[vec![0; 255], vec![1]].concat()),
        ("deeper", &[vec![0; 256], vec![1]].concat()),
        ("longer", &[vec![0; 4_096], vec![1]].concat()),
        ("no_plan", &[0, 1]),
        ("spaced.xml", b"<A1> <A2/></A1>"),
        ("ended.xml", b"<A1><A2/></A1>\n"),
    ] {
        folder.write(name, bytes);
    }
    assert_eq!(folder.prints("book make --size 26 small stock"), "");
    assert_eq!(folder.prints("book make book stock"), "");
    let before = folder.names();
    for (line, file, number) in [
        ("show no_stock", "no_stock", 2),
        ("sew stock t no_design", "no_design", 3),
        ("single stock cut", "cut", 4),
        ("clean stock no_pass", "no_pass", 5),
        ("clean stock over", "over", 7),
        ("compare stock over over", "over", 7),
        ("compare stock t over", "over", 7),
        ("book enter book over", "over", 7),
        ("book question book over", "over", 7),
        ("book question book cut", "cut", 4),
        ("book question book no_pass", "no_pass", 5),
        ("book commit book over 1", "over", 7),
        ("book commit book cut 2", "cut", 4),
        ("book commit book no_pass 0", "no_pass", 5),
        ("sew unary copy deeper", "deeper", 10),
        ("sew --most 257 -o plan unary copy deeper", "deeper", 10),
        ("sew --bytes -o plan unary copy deeper", "deeper", 10),
        ("xml no_stock no_plan", "no_stock", 2),
        ("xml stock no_plan", "no_plan", 11),
        ("xml unary longer", "longer", 11),
        ("plan no_stock ended.xml", "no_stock", 2),
        ("plan unary ended.xml", "ended.xml", 11),
        ("plan unary spaced.xml", "spaced.xml", 11),
        ("plan stock deepest", "deepest", 11),
        ("join stock t stock t", "stock and stock", 16),
        ("join one first two second", "first and second", 17),
        // in order: the stocks, 16, the first sheet, the second
        ("join stock cut no_stock cut", "no_stock", 2),
        ("join stock cut stock cut", "stock and stock", 16),
        ("join one cut two no_pass", "cut", 4),
        ("compare stock cut no_pass", "cut", 4),
        ("compare stock no_pass cut", "no_pass", 5),
        ("sew stock cut no_design", "cut", 4),
    ] {
        let refusal = Refusal::ALL.iter().copied().find(|refusal| refusal.number() == number).unwrap();
        let said = format!("{file}: refused by {number}: {}; what to do: {}", refusal.meaning(), refusal.remedy());
        assert_eq!(folder.says(line), said, "{line}");
    }
    assert_eq!(folder.names(), before);
    // what is not refused: 256 levels, and a place below them
    let deepest = folder.prints("sew --most 256 unary copy deepest");
    assert_eq!(deepest, format!("plan {}A2{}\n", "A1(".repeat(255), ")".repeat(255)));
    assert_eq!(folder.prints(&format!("place unary copy deeper 1{}", ".1".repeat(255))), "A2\n");
    let said = folder.says("sew unary copy deeper");
    assert!(said.starts_with("deeper: refused by 10: the plan has more than 256 levels; what to do: "), "{said}");
    for make in ["1", "2"] {
        folder.write("book", format!("caplune book {make}\n").as_bytes());
        let said = "book: refused by 9: the file of the book ends too early; what to do: put back a copy of it";
        assert_eq!(folder.says("book list book"), said);
    }
    let said = "t: refused by 9: not the file of a book: it does not begin with `caplune book`; \
                what to do: give the file of a book, or put back a copy of it";
    for line in ["book enter t t", "book question t t", "book commit t t 1"] {
        assert_eq!(folder.says(line), said, "{line}");
    }
    assert!(folder.says("show t").starts_with("t: refused by 2: "));
    assert!(folder.says("show missing").starts_with("missing: "));
    assert!(folder.says("sew stock . design").starts_with(".: "));
}

/// A plan that is too long: the limit that it passes, and advice that can be followed.
#[test]
fn long_plans() {
    let folder = first();
    for (name, height) in [("design", 1), ("tall", 40)] {
        folder.write(name, &[vec![0; height], vec![1]].concat());
    }
    let place = "or ask for the block at one place (`caplune place`)";
    for (line, most) in [("--most 6 stock.txt t.txt design", 6), ("stock.txt t.txt tall", 16_777_216)] {
        let said = folder.says(&format!("sew {line}"));
        let said = said.split_once(": ").unwrap().1;
        let raised = "what to do: allow more by --most, up to 1073741824";
        assert_eq!(said, format!("refused by 6: the plan has more blocks than {most}; {raised}, {place}"));
    }
    // that of the highest limit is a test of the program itself, since it takes a GiB of memory
    let smaller = format!("what to do: take a smaller design, {place}");
    let script = "ulimit -v 150000; exec \"$0\" sew --most 1073741824 stock.txt t.txt tall";
    let ended = folder.run(Path::new("/bin/sh"), &["-c", script, PROGRAM], b"");
    let limit = "there is memory for";
    assert_eq!(told(&ended, script), format!("tall: refused by 6: the plan has more blocks than {limit}; {smaller}"));
}

/// An empty file, and one of a line end, is told as that.
#[test]
fn empty_files() {
    let folder = first();
    folder.prints("convert -o stock stock.txt");
    folder.prints("convert -o t stock.txt t.txt");
    folder.write("unary", &[2, 1, 0, 2, 1, 0]);
    for (empty, bytes) in [("empty", &b""[..]), ("line", b"\n"), ("lines", b"\r\n\n")] {
        folder.write(empty, bytes);
        for (line, number, expected) in [
            ("show {}", Some(2), "a stock"),
            ("book make book {}", Some(2), "a stock"),
            ("sew stock.txt {} design.txt", Some(4), "a sheet"),
            ("compare stock.txt t.txt {}", Some(4), "a sheet"),
            ("sew stock.txt t.txt {}", Some(3), "a design"),
            ("xml -o xml stock.txt {}", Some(11), "a plan"),
            ("plan --bytes -o plan unary {}", Some(11), "the XML of a plan"),
            ("convert stock.txt {}", None, "a sheet or a design"),
            ("convert --as design stock.txt {}", Some(3), "a design"),
        ] {
            let number = number.map_or(String::new(), |number| format!("refused by {number}: "));
            let said = format!("{empty}: {number}it is empty, where {expected} was expected");
            assert_eq!(folder.says(&line.replace("{}", empty)), said, "{line}");
        }
    }
    assert_eq!(folder.says("show -"), "standard input: refused by 2: it is empty, where a stock was expected");
    assert_eq!(folder.says("book list empty"), "empty: refused by 9: it is empty, where a book was expected");
    for table in ["stock.names", "t.names"] {
        folder.write(table, b"");
        assert_eq!(folder.says("show stock t"), format!("{table}: it is empty, where a table of names was expected"));
        fs::remove_file(folder.file(table)).unwrap();
    }
    // part 10 of a wide stock is a line end, and a design
    folder.write("wide", &[&[11][..], &[0; 11], &[1, 0]].concat());
    assert_eq!(folder.prints("convert wide line"), "design b3\n");
}

/// A design of 512 levels where the system gives hardly any stack.
#[cfg(unix)]
#[test]
fn small_stacks() {
    let folder = first();
    folder.write("unary", &[2, 1, 0, 2, 1, 0]);
    folder.write("constant", &[0, 0, 1, 0, 1]);
    folder.write("deepest", &[vec![0; 511], vec![1]].concat());
    folder.prints("convert -o deepest.txt stock.txt deepest");
    folder.prints("book make book stock.txt");
    for (line, ends) in [
        ("sew unary constant deepest", "plan A2\n"),
        ("sew stock.txt constant deepest.txt", "plan e\n"),
        ("place stock.txt t.txt deepest.txt 1.2.1", "f\n"),
        ("compare stock.txt t.txt t2.txt", "alike\n"),
        ("book enter book t.txt u.txt", "u.txt: 2\n"),
        ("book question book u.txt", "2\n"),
        ("book commit book t2.txt 1", "t2.txt: 1\n"),
        ("clean stock.txt t.txt", "q0(e) -> e\n"),
    ] {
        let script = format!("ulimit -s 64; exec \"$0\" {line}");
        let ended = folder.run(Path::new("/bin/sh"), &["-c", &script, PROGRAM], b"");
        assert_eq!((ended.status, &ended.err[..]), (Some(0), ""), "{line}");
        assert!(ended.text().ends_with(ends), "{line}: {ended:?}");
    }
    folder.write("copy", &[1, 0, 1, 0, 2, 0, 1, 1, 0, 0, 0, 1, 0, 0, 1]);
    let script = "ulimit -s 64; exec \"$0\" sew unary copy deepest";
    let ended = folder.run(Path::new("/bin/sh"), &["-c", script, PROGRAM], b"");
    assert!(told(&ended, script).starts_with("deepest: refused by 10: "), "{ended:?}");
    // where there is no memory for a stack, that is told
    let script = "ulimit -v 8000; exec \"$0\" --version";
    let ended = folder.run(Path::new("/bin/sh"), &["-c", script, PROGRAM], b"");
    assert!(told(&ended, script).starts_with("no thread with a stack of 8388608 bytes can be made: "), "{ended:?}");
}

/// What is not told apart, or is something else.
#[test]
fn kinds_of_files() {
    let folder = first();
    folder.write("names", b"names parts a e blocks f e");
    assert_eq!(folder.says("show stock.txt stock.txt"), "stock.txt: a stock, where a sheet or a design was expected");
    assert_eq!(folder.says("show stock.txt names"), "names: a table of names, where a sheet or a design was expected");
    assert!(folder.says("sew stock.txt design.txt design.txt").starts_with("design.txt:1:1: expected `sheet`"));
    folder.write("plan", b"plan e");
    assert_eq!(folder.says("show stock.txt plan"), "plan: a plan, where a sheet or a design was expected");
    assert!(folder.says("xml stock.txt design.txt").starts_with("design.txt:1:1: expected `plan`, found `design`"));
    folder.write("neither", &[9]);
    let said = folder.says("show stock.txt neither");
    assert!(said.starts_with("neither: no sheet (refused by 4: ") && said.contains(") and no design (refused by 3: "));
    assert!(said.ends_with("; what to do: say which it is by --as, to read what is wrong"));
    folder.write("wide_letters", b"\xff\xfes\0t\0");
    assert_eq!(folder.says("show wide_letters"), "wide_letters: text in UTF-16, where UTF-8 is read: save it as that");
    folder.write("two", b"stock parts a/1 blocks e/0");
    let said = folder.says("show two");
    assert!(said.ends_with("what to do: name 1 to 16 part kinds, one of them with 0 places, and 1 to 64 block kinds"));
    // 0(0(1(0(2)))), and an opening of one block
    folder.write("wide", b"stock parts a/1 b/1 e/0 blocks f/0 g/0 e/0");
    folder.write("both", &[0, 0, 1, 0, 2]);
    assert_eq!(folder.says("show wide both"), "both: a sheet and a design at once: say which by --as");
    assert_eq!(folder.prints("show --as sheet wide both"), "# both: 0 passes, 1 mark\nsheet\nopening e\n");
    assert_eq!(folder.prints("show --as design wide both"), "# both: 5 parts, 5 levels\ndesign a(a(b(a(e))))\n");
    assert!(folder.says("show --as design stock.txt t.txt").starts_with("t.txt:2:1: expected `design`"));
}

/// Standard input in every place of a file.
#[test]
fn standard_input() {
    let folder = first();
    let input = |name: &str| folder.read(name);
    let plan = "plan f(f(e, e), f(e, e))\n";
    assert_eq!(folder.caplune_with("sew - t.txt design.txt", &input("stock.txt")).text(), plan);
    assert_eq!(folder.caplune_with("sew stock.txt - design.txt", &input("t.txt")).text(), plan);
    assert_eq!(folder.caplune_with("sew stock.txt t.txt -", &[0, 1]).text(), plan);
    assert_eq!(folder.caplune_with("compare stock.txt t.txt -", T_PRIME).text(), "alike\n");
    assert_eq!(folder.caplune_with("convert -o - -", S).text(), "stock\nparts  a1/1 a2/0\nblocks A1/2 A2/0\n");
    for line in ["xml stock.txt", "xml stock.txt -"] {
        for given in [&b"plan f(e, e)\n"[..], b"plan f(e, e)", &[0, 1, 1]] {
            assert_eq!(folder.caplune_with(line, given).text(), "<A1><A2/><A2/></A1>");
        }
    }
    for line in ["plan stock.txt", "plan stock.txt -"] {
        assert_eq!(folder.caplune_with(line, b"<A1><A2/><A2/></A1>").text(), "plan f(e, e)\n");
    }
    folder.write("plan.txt", b"plan e");
    assert_eq!(folder.caplune_with("xml - plan.txt", &input("stock.txt")).text(), "<A2/>");
    for line in ["sew stock.txt - -", "xml - -", "xml -", "plan -"] {
        let twice = folder.caplune_with(line, &input(if line.starts_with("sew") { "t.txt" } else { "stock.txt" }));
        assert_eq!(told(&twice, line), "standard input: it can be read once, so only one file can be `-`");
    }
    folder.prints("book make book stock.txt");
    assert_eq!(folder.caplune_with("book enter book -", T).text(), "standard input: 1\n");
    assert_eq!(folder.caplune_with("book question book -", U).text(), "2\n");
    assert_eq!(folder.caplune_with("book question book - t.txt", U).text(), "standard input: 2\nt.txt: 1\n");
    assert_eq!(folder.caplune_with("book commit book - 2", U).text(), "standard input: 2\n");
}

/// Text and bytes into each other, with names and without.
#[test]
fn converting() {
    let folder = first();
    folder.prints("convert -o stock stock.txt");
    folder.prints("convert -o t stock.txt t.txt");
    folder.prints("convert -o design stock design.txt");
    assert_eq!((&folder.read("stock")[..], &folder.read("t")[..], &folder.read("design")[..]), (S, T, &[0, 1][..]));
    let names =
        ["design", "design.txt", "stock", "stock.names", "stock.txt", "t", "t.names", "t.txt", "t2.txt", "u.txt"];
    assert_eq!(folder.names(), names);
    // the names come back, and without the tables there are codes
    assert_eq!(folder.prints("convert stock"), "stock\nparts  a/1 e/0\nblocks f/2 e/0\n");
    let sheet = "sheet\nopening f(q(x1), q(x1))\nq(a(x1)) -> f(q(x1), q(x1))\nq(e) -> e\n";
    assert_eq!(folder.prints("convert stock t"), sheet);
    fs::remove_file(folder.file("t.names")).unwrap();
    assert_eq!(folder.prints("convert stock t"), sheet.replace('q', "q0"));
    fs::remove_file(folder.file("stock.names")).unwrap();
    let coded = "sheet\nopening A1(q0(x1), q0(x1))\nq0(a1(x1)) -> A1(q0(x1), q0(x1))\nq0(a2) -> A2\n";
    assert_eq!(folder.prints("convert stock t"), coded);
    // a table that does not fit is told, by its own name
    folder.write("stock.names", b"names\nparts a e\nblocks f");
    assert!(folder.says("show stock").starts_with("stock.names:3:9: expected "), "{}", folder.says("show stock"));
    folder.write("stock.names", b"stock");
    assert!(folder.says("show stock").starts_with("stock.names:1:1: expected `names`"));
    folder.write("stock.names", b"names parts");
    // bytes that are written anew have their own table
    folder.prints("convert -o stock stock.txt");
    assert_eq!(folder.read("stock.names"), b"names\nparts a e\nblocks f e\n");
    folder.prints("clean --bytes -o t stock t2.txt");
    assert_eq!((folder.read("t"), folder.read("t.names")), (T.to_vec(), b"names\npasses q0\n".to_vec()));
    folder.prints("sew --bytes -o plan stock t design");
    assert_eq!(folder.read("plan"), [0, 0, 1, 1, 0, 1, 1]);
    assert!(!folder.file("plan.names").exists());
}

/// Generated files: what is shown is read again, and is the same file.
#[test]
fn shown_and_read() {
    let folder = Folder::new();
    for seed in 0..40 {
        let mut random = Random::new(seed + 72_000_000);
        let (alphabets, transducer) = generate::alike::any(&mut random);
        let within = |tree: &Vec<u8>| caplune::slices::read_tree(&alphabets.file(), tree).is_ok();
        let tree = std::iter::repeat_with(|| generate::input_tree(&mut random, &alphabets)).find(within).unwrap();
        let files = [("stock", alphabets.file()), ("sheet", transducer.file()), ("design", tree)];
        files.iter().for_each(|(name, bytes)| folder.write(name, bytes));
        folder.prints("convert -o stock.txt stock");
        folder.prints("convert --as sheet -o sheet.txt stock sheet");
        folder.prints("convert --as design -o design.txt stock.txt design");
        folder.prints("convert -o stock.again stock.txt");
        folder.prints("convert -o sheet.again stock sheet.txt");
        folder.prints("convert -o design.again stock design.txt");
        for (name, bytes) in files {
            assert_eq!(folder.read(&format!("{name}.again")), bytes, "{seed}");
        }
    }
}

#[test]
fn single() {
    let folder = first();
    folder.write("once", b"sheet opening q(x1) q(a(x1)) -> f(q(x1), e) q(e) -> e");
    assert_eq!(folder.prints("single stock.txt t.txt"), "not single\n");
    assert_eq!(folder.prints("single stock.txt once"), "single\n");
    // an old pass at the back that copies: not reached, though it calls itself and q; and reached
    let old = "p(a(x1)) -> f(p(x1), q(x1)) p(e) -> e";
    folder.write("old", format!("sheet opening q(x1) q(a(x1)) -> f(q(x1), e) q(e) -> e {old}").as_bytes());
    folder.write("met", format!("sheet opening q(x1) q(a(x1)) -> f(p(x1), e) q(e) -> e {old}").as_bytes());
    assert_eq!(folder.prints("single stock.txt old"), "single\n");
    assert_eq!(folder.prints("single stock.txt met"), "not single\n");
}

/// The card is that of docs/FORMATS.md, and the codes of a stock stand before its names and places.
#[test]
fn card() {
    let folder = first();
    let card = folder.prints("card");
    let formats = fs::read_to_string(repository("docs/FORMATS.md")).unwrap();
    let shown: String = card.lines().map(|line| format!("    {line}\n")).collect();
    assert!(formats.contains(&format!("\n\n{shown}\n")), "{card}");
    let words: Vec<&str> = card.split_whitespace().collect();
    assert_eq!((card.lines().count(), words.len(), words[0], words[63]), (8, 64, "A1", "H8"));
    assert_eq!(folder.prints("card stock.txt"), "A1 f/2\nA2 e/0\n");
    // without names, all 64 kinds by their codes
    folder.write("stock", &[&[1, 0, 64][..], &[0; 64]].concat());
    let codes: String = words.iter().map(|code| format!("{code} {code}/0\n")).collect();
    assert_eq!(folder.prints("card stock"), codes);
    assert_eq!(folder.says("card t.txt"), folder.says("show t.txt"));
}

/// Plans as XML and back, from text and from bytes, with names and without.
#[test]
fn plans_as_xml() {
    let folder = first();
    folder.prints("sew -o plan.txt stock.txt t.txt design.txt");
    folder.prints("sew --bytes -o plan stock.txt t.txt design.txt");
    let xml = "<A1><A1><A2/><A2/></A1><A1><A2/><A2/></A1></A1>";
    for plan in ["plan", "plan.txt"] {
        assert_eq!(folder.prints(&format!("xml stock.txt {plan}")), xml);
        assert_eq!(folder.prints(&format!("xml -o plan.xml stock.txt {plan}")), "");
        assert_eq!(folder.read("plan.xml"), xml.as_bytes());
    }
    assert_eq!(folder.prints("plan stock.txt plan.xml"), "plan f(f(e, e), f(e, e))\n");
    assert_eq!(folder.prints("plan -o again.txt stock.txt plan.xml"), "");
    assert_eq!(folder.read("again.txt"), folder.read("plan.txt"));
    assert_eq!(folder.prints("plan --bytes -o again stock.txt plan.xml"), "");
    assert_eq!(folder.read("again"), [0, 0, 1, 1, 0, 1, 1]);
    assert!(!folder.names().iter().any(|name| name.ends_with(".names")));
    // without names: codes in the text too
    folder.write("stock", S);
    assert_eq!(folder.prints("plan stock plan.xml"), "plan A1(A1(A2, A2), A1(A2, A2))\n");
    // bytes that could be taken for text: blocks 40 and 9 to 63
    folder.write("wide", &[&[1, 0, 64][..], &[0; 40], &[1], &[0; 22], &[2]].concat());
    for (bytes, xml, text) in [
        (&b"\x28\x20"[..], "<F1><E1/></F1>", "plan F1(E1)\n"),
        (&b"\x3f  "[..], "<H8><E1/><E1/></H8>", "plan H8(E1, E1)\n"),
    ] {
        folder.write("plan", bytes);
        assert_eq!(folder.prints("xml -o plan.xml wide plan"), "");
        assert_eq!(folder.read("plan.xml"), xml.as_bytes());
        assert_eq!(folder.prints("plan wide plan.xml"), text);
        folder.write("plan.txt", text.as_bytes());
        assert_eq!(folder.prints("xml wide plan.txt"), xml);
    }
    // as many levels as blocks; a text of one more is refused in the words of texts
    folder.write("unary", &[2, 1, 0, 2, 1, 0]);
    let chain = |symbols: usize| format!("plan {}A2{}\n", "A1(".repeat(symbols - 1), ")".repeat(symbols - 1));
    folder.write("plan.txt", chain(4_096).as_bytes());
    assert_eq!(folder.prints("xml -o plan.xml unary plan.txt"), "");
    assert_eq!(folder.read("plan.xml").len(), 36_860);
    assert_eq!(folder.prints("plan unary plan.xml"), chain(4_096));
    folder.write("plan.txt", chain(4_097).as_bytes());
    let said = folder.says("xml unary plan.txt");
    assert!(said.starts_with("plan.txt: refused by 11: "), "{said}");
    assert!(said.ends_with("; what to do: give a plan of at most 4,096 blocks"), "{said}");
    folder.write("plan.txt", b"plan\nA1(A3)");
    assert_eq!(folder.says("xml unary plan.txt"), "plan.txt:2:4: expected a block kind (A1, A2), found `A3`");
    // a failure leaves the file that was there
    folder.says("xml -o plan.xml unary plan.txt");
    assert_eq!(folder.read("plan.xml").len(), 36_860);
}

/// Generated plans: text, bytes and XML into each other.
#[test]
fn generated_plans_as_xml() {
    let folder = Folder::new();
    for seed in 0..25 {
        let mut random = Random::new(seed + 74_000_000);
        let alphabets = generate::alike::small_alphabets(&mut random);
        let tree = generate::tree(&mut random, &alphabets.outputs, 60, 30, generate::Growth::Even(12));
        folder.write("stock", &alphabets.file());
        folder.write("plan", &tree);
        folder.prints("xml -o plan.xml stock plan");
        folder.prints("plan -o plan.txt stock plan.xml");
        folder.prints("xml -o again.xml stock plan.txt");
        folder.prints("plan --bytes -o again stock again.xml");
        assert_eq!((folder.read("again"), folder.read("again.xml")), (tree, folder.read("plan.xml")), "{seed}");
    }
}

#[test]
fn comparing() {
    let folder = first();
    assert_eq!(folder.prints("compare stock.txt t.txt t2.txt"), "alike\n");
    assert_eq!(folder.prints("compare stock.txt t.txt t2.txt t.txt"), "1: t.txt t2.txt t.txt\n");
    let ended = folder.caplune("compare stock.txt t.txt u.txt t2.txt u.txt");
    assert_eq!((ended.status, ended.text()), (Some(1), "1: t.txt t2.txt\n2: u.txt u.txt\n"));
    // of many, every one that is refused is told, and the others are compared
    folder.write("bad", b"sheet opening g");
    folder.write("over", &ring(65));
    let ended = folder.caplune("compare stock.txt missing t.txt over u.txt bad t2.txt");
    assert_eq!((ended.status, ended.text()), (Some(2), "1: t.txt t2.txt\n2: u.txt\n"));
    let said: Vec<&str> = ended.err.lines().collect();
    let begun = ["caplune: missing: ", "caplune: over: refused by 7: ", "caplune: bad:1:15: expected "];
    assert!(said.len() == 3 && said.iter().zip(begun).all(|(line, begun)| line.starts_with(begun)), "{said:?}");
    for (line, printed) in [("t.txt bad t2.txt", "1: t.txt t2.txt\n"), ("bad missing bad", "")] {
        let ended = folder.caplune(&format!("compare stock.txt {line}"));
        assert_eq!((ended.status, ended.text()), (Some(2), printed), "{line}");
    }
    // of two, the first
    assert!(folder.says("compare stock.txt missing bad").starts_with("missing: "));
    folder.write("a b", &folder.read("u.txt"));
    let words = ["compare", "stock.txt", "t.txt", "u.txt", "a b"];
    assert_eq!(folder.run(Path::new(PROGRAM), &words, b"").text(), "1: t.txt\n2: u.txt \"a b\"\n");
    folder.prints("compare --svg alike.svg stock.txt t.txt t2.txt");
    assert!(!folder.file("alike.svg").exists());
    let ended = folder.caplune("compare --svg differ.svg stock.txt u.txt t.txt");
    assert_eq!((ended.status, &ended.err[..]), (Some(1), ""));
    assert!(ended.text().starts_with("differ\ndesign e\nplace 1\nu.txt holds f there\nt.txt holds e there\n"));
    let picture = String::from_utf8(folder.read("differ.svg")).unwrap();
    // on standard output it stands alone
    assert_eq!(folder.caplune("compare --svg - stock.txt u.txt t.txt").text(), picture);
    let ended = folder.caplune_with("compare --svg - stock.txt u.txt -", T);
    assert!(ended.status == Some(1) && ended.text().contains("plan of standard input: e at place 1"), "{ended:?}");
    assert!(picture.contains("<svg ") && picture.trim_end().ends_with("</svg>"));
    for title in ["design", "plan of u.txt: f at place 1", "plan of t.txt: e at place 1"] {
        assert!(picture.contains(title), "{title}");
    }
}

/// The largest differences are drawn in parts, and their design and place can be given to `place`.
#[test]
fn late_differences() {
    let folder = Folder::new();
    folder.write("stock", &generate::alike::chain_alphabets().file());
    for (name, last) in [("one", 1), ("two", 2)] {
        folder.write(name, &generate::alike::chain(128, 2, last).file());
    }
    let ended = folder.caplune("compare --svg difference.svg stock one two");
    assert_eq!((ended.status, &ended.err[..]), (Some(1), ""));
    let lines: Vec<&str> = ended.text().lines().collect();
    assert!(lines.len() < 40, "{}", lines.len());
    let drawn = ended.text().split("the design:\n").nth(1).and_then(|rest| rest.split("\n\n").next()).unwrap();
    assert!(drawn.contains("─ … (") && drawn.contains(" parts)\n") && drawn.ends_with("a2 <=="), "{drawn}");
    let picture = String::from_utf8(folder.read("difference.svg")).unwrap();
    assert!(picture.lines().count() < 80 && picture.contains(" parts)</text>"), "{picture}");
    folder.write("design.txt", lines[1].as_bytes());
    let place = lines[2].strip_prefix("place ").unwrap();
    for (sheet, line) in [("one", lines[3]), ("two", lines[4])] {
        let found = folder.prints(&format!("place stock {sheet} design.txt {place}"));
        assert_eq!(format!("{sheet} holds {} there", found.trim_end()), line);
    }
}

/// Two sheets that go on with the two sub-parts of the twentieth part, of which one ends 30 levels below: the chain is
/// folded twice, and the leaf at which each lays its block is seen and marked.
#[test]
fn leaves_that_decide() {
    let folder = Folder::new();
    folder.write("stock", b"stock parts a/2 e/0 c/0 blocks g/1 u/0 v/0");
    for (name, variable) in [("left", "x1"), ("right", "x2")] {
        let mut sheet = "sheet opening p1(x1)\n".to_string();
        for pass in 1..=20 {
            let next = if pass < 20 { format!("p{}(x1)", pass + 1) } else { format!("r1({variable})") };
            sheet += &format!("p{pass}(a(x1, x2)) -> g({next}) p{pass}(e) -> u p{pass}(c) -> u\n");
        }
        for pass in 1..=30 {
            let (next, last) = if pass < 30 { (format!("r{}(x1)", pass + 1), "u") } else { ("u".to_string(), "v") };
            sheet += &format!("r{pass}(a(x1, x2)) -> {next} r{pass}(e) -> u r{pass}(c) -> {last}\n");
        }
        folder.write(name, sheet.as_bytes());
    }
    let ended = folder.caplune("compare stock left right");
    assert_eq!((ended.status, &ended.err[..]), (Some(1), ""));
    let drawn = ended.text().split("the design:\n").nth(1).and_then(|rest| rest.split("\n\n").next()).unwrap();
    let labels: Vec<&str> = drawn.lines().map(|line| line.trim_start_matches([' ', '│', '├', '└', '─'])).collect();
    let (down, up) = labels.split_at(labels.iter().position(|label| label.ends_with("<==")).unwrap());
    assert_eq!(down, ["a", "a", "a", "… (28 parts)", "a", "a", "a", "a", "a", "a", "… (46 parts)", "a", "a", "a"]);
    assert_eq!(up, ["c <==", "e", "e", "e", "e", "e", "e", "e <==", "e", "e", "e", "e", "e"]);
}

/// What has no such place is told by words that are no name.
#[test]
fn places() {
    let folder = Folder::new();
    folder.write("stock", b"stock parts e/0 blocks none/0 f/1");
    folder.write("sheet", b"sheet opening f(none)");
    folder.write("design", b"design e");
    assert_eq!(folder.prints("place stock sheet design 1"), "none\n");
    for place in ["2", "0", "1.1", "255"] {
        assert_eq!(folder.prints(&format!("place stock sheet design {place}")), "no such place\n");
    }
    for place in ["+1", "1.+1", "1.", "256", ".", "x"] {
        assert!(folder
            .says(&format!("place stock sheet design {place}"))
            .starts_with(&format!("`{place}`: a place is ")));
    }
}

/// The table of names belongs to the file that a link leads to, and is not another's.
#[cfg(unix)]
#[test]
fn tables_of_names() {
    use std::os::unix::fs::symlink;
    let folder = first();
    folder.write("one", b"stock parts a/1 e/0 blocks red/0 blue/0");
    folder.write("two", b"stock parts a/1 e/0 blocks blue/0 red/0");
    fs::create_dir(folder.file("real")).unwrap();
    folder.prints("convert -o real/s one");
    symlink("real/s", folder.file("s")).unwrap();
    assert_eq!(folder.prints("show s"), "stock\nparts  a/1 e/0\nblocks red/0 blue/0\n");
    folder.prints("convert -o s two");
    assert_eq!(folder.prints("show real/s"), "stock\nparts  a/1 e/0\nblocks blue/0 red/0\n");
    assert!(!folder.file("s.names").exists());
    folder.prints("book make real/book stock.txt");
    symlink("real/book", folder.file("book")).unwrap();
    assert_eq!(folder.prints("book enter book t.txt"), "t.txt: 1\n");
    // a link to nothing yet is followed too
    symlink("real/later", folder.file("later")).unwrap();
    folder.prints("convert -o later stock.txt");
    assert_eq!(folder.prints("show real/later"), folder.prints("show stock.txt"));
    // what is no table is not overwritten, and nothing is written then
    folder.write("n.names", b"a letter");
    let said = "it would be overwritten by the names, and is no table of names";
    assert!(folder.says("convert -o n stock.txt").ends_with(said) && !folder.file("n").exists());
    assert_eq!(folder.read("n.names"), b"a letter");
    // a book has its names in it, so what stands beside it is not looked at
    folder.prints("book make n stock.txt");
    assert_eq!(folder.prints("book enter n t.txt u.txt"), "t.txt: 1\nu.txt: 2\n");
    assert_eq!(folder.prints("book show n 0"), folder.prints("show stock.txt"));
    folder.write("n.names", b"names parts a e blocks e f");
    assert_eq!(folder.prints("book enter n u.txt t.txt"), "u.txt: 2\nt.txt: 1\n");
    assert_eq!(folder.read("n.names"), b"names parts a e blocks e f");
    // a write that fails leaves the old file with its names
    folder.prints("convert -o t stock.txt t.txt");
    let script = "trap '' XFSZ; ulimit -f 0; exec \"$0\" convert -o t stock.txt u.txt";
    told(&folder.run(Path::new("/bin/sh"), &["-c", script, PROGRAM], b""), script);
    assert_eq!((folder.read("t"), folder.read("t.names")), (T.to_vec(), b"names\npasses q\n".to_vec()));
}

#[test]
fn joining() {
    let folder = Folder::new();
    folder.write("one", b"stock parts a/1 e/0 blocks f/2 e/0");
    folder.write("two", b"stock parts top/2 end/0 blocks g/1 h/0");
    folder.write("first", b"sheet opening q(x1) q(a(x1)) -> f(q(x1), q(x1)) q(e) -> e");
    folder.write("second", b"sheet opening p(x1) p(top(x1, x2)) -> g(p(x2)) p(end) -> h");
    let joined = "sheet\nopening q0(x1)\nq0(a(x1)) -> g(q0(x1))\nq0(e) -> h\n";
    assert_eq!(folder.prints("join --stock both one first two second"), joined);
    assert_eq!(folder.read("both"), b"stock\nparts  a/1 e/0\nblocks g/1 h/0\n");
    folder.prints("join --bytes --stock stock -o sheet one first two second");
    assert_eq!(folder.read("stock"), [2, 1, 0, 2, 1, 0]);
    assert_eq!(folder.prints("convert stock sheet"), joined);
    folder.write("design", b"design a(a(e))");
    let after = folder.prints("sew one first design").replace("plan", "design").replace('f', "top").replace('e', "end");
    folder.write("plan", after.replace("dendsign", "design").as_bytes());
    assert_eq!(folder.prints("sew stock sheet design"), folder.prints("sew two second plan"));
}

#[test]
fn books() {
    let folder = first();
    assert_eq!(folder.prints("book make --area 60 book stock.txt"), "");
    assert_eq!(folder.prints("book list book"), "# 0 sheets, 6 of 60 bytes used, entries answered: 0\n");
    assert_eq!(folder.says("book show book 1"), "book: there is no number 1: the book holds no sheet yet");
    assert!(folder.says("book make book stock.txt").starts_with("book: "));
    assert_eq!(folder.prints("book enter book t.txt t2.txt"), "t.txt: 1\nt2.txt: 1\n");
    // what is refused is told, and the others are entered
    folder.write("bad", b"sheet opening g");
    let ended = folder.caplune("book enter book missing u.txt bad t.txt");
    assert_eq!((ended.status, ended.text()), (Some(2), "u.txt: 2\nt.txt: 1\n"));
    let said: Vec<&str> = ended.err.lines().collect();
    assert_eq!(said.len(), 2);
    assert!(
        said[0].starts_with("caplune: missing: ") && said[1].starts_with("caplune: bad:1:15: expected "),
        "{said:?}"
    );
    let head = "# 2 sheets, 56 of 60 bytes used, entries answered: 4\n";
    let listed = "1: 1 pass, 7 marks, 3 entries\n2: 1 pass, 11 marks, 1 entry\n";
    assert_eq!(folder.prints("book list book"), format!("{head}{listed}"));
    assert_eq!(folder.names().iter().filter(|name| name.starts_with("book")).count(), 2);
    assert_eq!(folder.prints("book show book 0"), "stock\nparts  a/1 e/0\nblocks f/2 e/0\n");
    let sheet = "sheet\nopening f(q0(x1), q0(x1))\nq0(a(x1)) -> f(q0(x1), q0(x1))\nq0(e) -> e\n";
    assert_eq!(folder.prints("book show book 1"), sheet);
    folder.prints("book show --bytes -o two book 2");
    assert_eq!(folder.prints("compare stock.txt u.txt two"), "alike\n");
    for number in ["3", "33", "-1", "99999999999999999999", "two"] {
        let said = folder.caplune(&format!("book show book -- {number}"));
        let expected =
            format!("book: there is no number {number}: the book holds the numbers 1 to 2, and its stock is 0");
        assert_eq!(told(&said, number), expected);
    }
    // a full book: what it holds gets its number, what it does not is refused
    folder.write("other", b"sheet opening e");
    let ended = folder.caplune("book enter book other t.txt");
    assert_eq!((ended.status, ended.text()), (Some(2), "t.txt: 1\n"));
    assert!(ended.err.starts_with("caplune: other: refused by 8: "));
    let registry = Registry::from_bytes(&folder.read("book")).unwrap();
    assert_eq!((registry.held(), registry.answered()), (2, 5));
    assert_eq!((registry.count(1), registry.count(2)), (Some(4), Some(1)));
}

/// A question tells the number, alone, and changes nothing; several are asked each by itself. `-o` writes what `clean -o`
/// writes.
#[cfg(unix)]
#[test]
fn questions() {
    let folder = first();
    folder.prints("book make --size 60 book stock.txt");
    folder.prints("book enter book t.txt");
    fs::remove_file(folder.file("book.lock")).unwrap();
    let before = folder.state();
    for (line, printed) in [
        ("book question book t.txt", "1\n"),
        ("book question book t2.txt", "1\n"),
        ("book question book u.txt", "2\n"),
        // each is asked as if it were the only one
        ("book question book u.txt t2.txt u.txt", "u.txt: 2\nt2.txt: 1\nu.txt: 2\n"),
    ] {
        assert_eq!(folder.prints(line), printed, "{line}");
    }
    folder.write("bad", b"sheet opening g");
    folder.write("other", b"sheet opening f(e, f(e, e))");
    let ended = folder.caplune("book question book missing u.txt bad other");
    assert_eq!((ended.status, ended.text()), (Some(2), "u.txt: 2\nother: 2\n"));
    let said: Vec<&str> = ended.err.lines().collect();
    assert!(said.len() == 2 && said[0].starts_with("caplune: missing: "), "{said:?}");
    assert!(said[1].starts_with("caplune: bad:1:15: expected "), "{said:?}");
    ["bad", "other"].iter().for_each(|name| fs::remove_file(folder.file(name)).unwrap());
    assert_eq!(folder.state(), before);
    // the clean sheet, as text and as bytes with their table
    assert_eq!(folder.prints("book question -o asked.txt book u.txt"), "2\n");
    assert_eq!(String::from_utf8(folder.read("asked.txt")).unwrap(), folder.prints("clean stock.txt u.txt"));
    assert_eq!(folder.prints("book question --bytes -o asked book t2.txt"), "1\n");
    folder.prints("clean --bytes -o cleaned stock.txt t2.txt");
    for [asked, cleaned] in [["asked", "cleaned"], ["asked.names", "cleaned.names"]] {
        assert_eq!(folder.read(asked), folder.read(cleaned));
    }
    // on standard output it stands alone
    for out in ["-", "/dev/stdout"] {
        assert_eq!(
            folder.prints(&format!("book question -o {out} book u.txt")),
            folder.prints("clean stock.txt u.txt")
        );
    }
    // a file that cannot be written: no number is told
    assert_eq!(folder.says("book question -o no/such book u.txt"), "no/such: there is no folder no");
    // what is refused leaves the file
    folder.write("over", &ring(65));
    assert!(folder.says("book question -o asked.txt book over").starts_with("over: refused by 7: "));
    assert_eq!(String::from_utf8(folder.read("asked.txt")).unwrap(), folder.prints("clean stock.txt u.txt"));
    let book: Vec<_> = folder.state().into_iter().filter(|(name, ..)| name.starts_with("book")).collect();
    assert_eq!(book, before.into_iter().filter(|(name, ..)| name.starts_with("book")).collect::<Vec<_>>());
}

/// A commit enters what a question told, prints what an entry prints, and is refused by 13 with any other number.
#[cfg(unix)]
#[test]
fn commits() {
    let folder = first();
    folder.prints("book make --size 60 book stock.txt");
    let list = || folder.prints("book list book");
    assert_eq!(folder.prints("book commit book t.txt 1"), "t.txt: 1\n");
    assert_eq!(folder.prints("book commit book t2.txt 01"), "t2.txt: 1\n");
    assert_eq!(folder.prints("book question book u.txt"), "2\n");
    for number in ["0", "1", "3", "33", "18446744073709551615", "18446744073709551618", "99999999999999999999999"] {
        let said = folder.keeps(&format!("book commit book u.txt {number}"), "u.txt");
        let why = format!("{number} was given, and nothing was entered");
        let remedy = "ask again (`caplune book question`), and commit with the number that is answered now";
        let refused = "refused by 13: the sheet would get another number";
        assert_eq!(said, format!("{refused}: {why}; what to do: {remedy}"));
    }
    assert_eq!(folder.prints("book commit book u.txt 2"), "u.txt: 2\n");
    let listed = "1: 1 pass, 7 marks, 2 entries\n2: 1 pass, 11 marks, 1 entry\n";
    assert_eq!(list(), format!("# 2 sheets, 56 of 60 bytes used, entries answered: 3\n{listed}"));
    // a full book: 8 whatever the number is, and the number of what is held
    folder.write("other", b"sheet opening e");
    let full = folder.keeps("book question book other", "other");
    let why = "the clean sheet has 5 bytes, 4 are free, and 1 byte is missing";
    assert!(full.starts_with(&format!("refused by 8: the book is full: {why}; what to do: ")), "{full}");
    for number in ["3", "1", "0", "33"] {
        assert_eq!(folder.keeps(&format!("book commit book other {number}"), "other"), full);
    }
    assert!(folder.keeps("book commit book t.txt 2", "t.txt").starts_with("refused by 13: "));
    assert_eq!(folder.prints("book commit book t.txt 1"), "t.txt: 1\n");
    // what is no sheet, and what is not there
    assert!(folder.keeps("book commit book missing 1", "missing").contains("No such file"));
    assert!(folder.keeps("book commit none t.txt 1", "none").contains("No such file"));
    assert!(folder.keeps("book question none t.txt", "none").contains("No such file"));
    // a book at the last number: nothing more is told or entered
    let last = last_answer(&folder.read("book"));
    folder.write("book", &last);
    assert_eq!(folder.prints("book question book t.txt"), "1\n");
    assert_eq!(folder.prints("book commit book t.txt 1"), "t.txt: 1\n");
    let said = "book: refused by 9: the file of the book has been altered since it was written";
    for line in ["book question book t.txt", "book commit book t.txt 1", "book enter book t.txt"] {
        assert!(folder.says(line).starts_with(said), "{line}");
    }
}

/// The file of a book that holds two sheets with so many entries that one more can be counted.
fn last_answer(book: &[u8]) -> Vec<u8> {
    let mut bytes = makes::without_sum(book);
    // the entries answered, and the counts of numbers 1 and 2
    for (index, number) in [(3, u64::MAX - 1), (10, u64::MAX - 2), (13, 1)] {
        bytes[15 + 8 * index..][..8].copy_from_slice(&number.to_be_bytes());
    }
    makes::with_sum(bytes)
}

/// An entry between a question and its commit takes the number.
#[test]
fn numbers_taken() {
    let folder = first();
    folder.prints("book make book stock.txt");
    assert_eq!(folder.prints("book question book u.txt"), "1\n");
    assert_eq!(folder.prints("book enter book t.txt"), "t.txt: 1\n");
    let said = folder.says("book commit book u.txt 1");
    assert!(said.starts_with("u.txt: refused by 13: ") && said.contains("1 was given, and nothing was entered"));
    assert!(folder.prints("book list book").starts_with("# 1 sheet, "));
    assert_eq!(folder.prints("book question book u.txt"), "2\n");
    // an alike sheet leaves it
    folder.prints("book enter book t2.txt");
    assert_eq!(folder.prints("book commit book u.txt 2"), "u.txt: 2\n");
}

/// Which limit a full book is at, and what a book needs that is made too small.
#[test]
fn full_books() {
    let folder = first();
    let another = "make another book for the further sheets";
    assert_eq!(
        folder.says("book make --size 5 other stock.txt"),
        "other: refused by 8: the book is full: the stock alone needs 6 bytes, and --size gives 5; \
         what to do: give more by --size, up to 655538: clean sheets need room too"
    );
    assert!(!folder.names().iter().any(|name| name.starts_with("other")));
    folder.prints("book make --size 6 other stock.txt");
    folder.prints("book make --size 50 small stock.txt");
    let ended = folder.caplune("book enter small t.txt u.txt t2.txt");
    assert_eq!((ended.status, ended.text()), (Some(2), "t.txt: 1\nt2.txt: 1\n"));
    assert_eq!(
        ended.err,
        format!(
            "caplune: u.txt: refused by 8: the book is full: the clean sheet has 29 bytes, 23 are free, and 6 bytes are \
             missing; what to do: {another}, with more room (`caplune book make --size N`, up to 655538): numbers given stay\n"
        )
    );
    // what is not clean yet is told by the length of its clean sheet
    folder.write("long", b"sheet opening e q(a(x1)) -> f(e, e) q(e) -> e");
    assert!(folder
        .says("book enter other long")
        .contains(": the clean sheet has 5 bytes, 0 are free, and 5 bytes are missing; "));
    // 32 sheets, with room for more
    folder.write("stock", &chain_alphabets().file());
    folder.prints("book make book stock");
    let sheets: Vec<String> = (1..=33).map(|states| format!("s{states}")).collect();
    for (index, name) in sheets.iter().enumerate() {
        folder.write(name, &chain(index + 1, 2, 1).file());
    }
    let ended = folder.caplune(&format!("book enter book {}", sheets.join(" ")));
    assert_eq!((ended.status, ended.text().lines().last()), (Some(2), Some("s32: 32")));
    let most = "32 sheets are held, the most that a book can hold";
    let said = format!("refused by 8: the book is full: {most}; what to do: {another}: numbers given stay");
    assert_eq!(ended.err, format!("caplune: s33: {said}\n"));
    assert!(folder.prints("book list book").starts_with("# 32 sheets, "));
    assert_eq!(folder.prints("book enter book s7"), "s7: 7\n");
}

/// The table of names of stock S.
const NAMES_OF_S: &[u8] = b"names\nparts a e\nblocks f e\n";

/// The file of a book of make 1, with room for 100 bytes, into which these sheets under stock S were entered.
fn book_of_make_1(sheets: &[&[u8]]) -> Vec<u8> {
    let alphabets = Alphabets::read(S).unwrap();
    let mut registry = Registry::new(&alphabets, 100).unwrap();
    for sheet in sheets {
        registry.enter(&Transducer::read(&alphabets, sheet).unwrap()).unwrap();
    }
    make_1(&registry)
}

/// A book of make 1 is listed and shown, takes no entries, and is carried over with what it does not keep.
#[test]
fn earlier_makes() {
    let folder = first();
    let old = book_of_make_1(&[T, U, T]);
    folder.write("old", &old);
    folder.write("old.names", NAMES_OF_S);
    let before = folder.names();
    let head = "# 2 sheets, 56 of 100 bytes used, entries answered: 3\n";
    let listed = "# make 1: counts by number are not kept\n1: 1 pass, 7 marks\n2: 1 pass, 11 marks\n";
    assert_eq!(folder.prints("book list old"), format!("{head}{listed}"));
    assert_eq!(folder.prints("book show old 0"), "stock\nparts  a/1 e/0\nblocks f/2 e/0\n");
    assert_eq!(folder.prints("book show old 1"), folder.prints("clean stock.txt t.txt"));
    let said = "old: there is no number 3: the book holds the numbers 1 to 2, and its stock is 0";
    assert_eq!(folder.says("book show old 3"), said);
    for line in ["book enter old t.txt", "book question old t.txt", "book commit old t.txt 1"] {
        assert_eq!(
            folder.says(line),
            "old: a book of make 1, where one of make 2 is needed; what to do: carry it over into a new one by \
             `caplune book carry old NEW`, which leaves this one as it is"
        );
    }
    assert_eq!(
        folder.says("book carry old new"),
        "old: 3 entries were answered with 2 numbers, and make 1 does not keep which; \
         what to do: give the count of each number by --counts, 2 in all that sum to 3"
    );
    assert_eq!(folder.names(), before);
    assert_eq!(folder.prints("book carry old new --counts 2,1"), "");
    let listed = "1: 1 pass, 7 marks, 2 entries\n2: 1 pass, 11 marks, 1 entry\n";
    assert_eq!(folder.prints("book list new"), format!("{head}{listed}"));
    for number in ["0", "1", "2"] {
        let [old, new] = ["old", "new"].map(|book| folder.prints(&format!("book show {book} {number}")));
        assert_eq!(old, new);
    }
    assert_eq!(folder.prints("book enter new u.txt t2.txt"), "u.txt: 2\nt2.txt: 1\n");
    // the old one is as it was
    assert_eq!((folder.read("old"), folder.read("old.names")), (old, NAMES_OF_S.to_vec()));
    assert_eq!(folder.says("book carry new newer"), "new: it is of make 2 already: there is nothing to carry over");
    // a new book is made where there is none, under a name that is free
    for (line, said) in [
        ("book carry old new --counts 2,1", "new: there is such a file already"),
        ("book carry old old --counts 2,1", "old: there is such a file already"),
        ("book carry old t.txt --counts 2,1", "t.txt: there is such a file already"),
        ("book carry old - --counts 2,1", "a book is a file with a name, and cannot be `-`"),
        ("book carry - newer", "a book is a file with a name, and cannot be `-`"),
    ] {
        assert_eq!(folder.says(line), said, "{line}");
    }
    assert!(folder.says("book carry old newer.lock --counts 2,1").starts_with("newer.lock: names that end in "));
    assert!(folder.says("book carry missing newer").starts_with("missing: "));
    assert!(folder.says("book carry t.txt newer").starts_with("t.txt: refused by 9: not the file of a book"));
    assert!(!folder.names().iter().any(|name| name.starts_with("newer")));
}

/// Counts that alone are possible are not asked for, and wrong ones are told.
#[test]
fn carried_counts() {
    let folder = first();
    for (number, (sheets, counts)) in [
        (&[][..], &[][..]),
        (&[T], &[1]),
        (&[T, T_PRIME, T], &[3]),
        (&[U, T], &[1, 1]),
        (&[T, U, CONSTANT], &[1, 1, 1]),
    ]
    .into_iter()
    .enumerate()
    {
        let (old, new) = (format!("old{number}"), format!("new{number}"));
        folder.write(&old, &book_of_make_1(sheets));
        folder.prints(&format!("book carry --stock stock.txt {old} {new}"));
        let registry = Registry::from_bytes(&folder.read(&new)).unwrap();
        let kept: Vec<u64> = (1..=registry.held()).map(|number| registry.count(number).unwrap()).collect();
        assert_eq!(kept, counts, "{number}");
        assert_eq!(registry.names().outputs(), ["f", "e"]);
    }
    // they can be said all the same, and must be right
    folder.prints("book carry --stock stock.txt --counts 3 old2 said");
    assert_eq!(folder.read("said"), folder.read("new2"));
    folder.write("old", &book_of_make_1(&[T, U, T, CONSTANT, U]));
    let takes = "--counts takes a number for each sheet, with commas between, as 3,1";
    let held = |given: usize| format!("--counts: counts given: {given}, sheets held: 3; each sheet has one");
    let sum = |sum: &str| format!("--counts: the counts sum to {sum}, and the book has answered 5");
    let zero = "--counts: the count of number 2 is 0, and each number was answered at least once";
    let before = folder.names();
    for (counts, said) in [
        ("5", held(1)),
        ("3,2", held(2)),
        ("2,1,1,1", held(4)),
        ("3,0,2", zero.to_string()),
        ("2,2,2", sum("6")),
        ("1,1,1", sum("3")),
        ("9223372036854775808,9223372036854775808,5", sum("18446744073709551621")),
        ("18446744073709551615,3,3", sum("18446744073709551621")),
        ("18446744073709551616,1,1", takes.to_string()),
        ("2,,1", takes.to_string()),
        ("2,2,1,", takes.to_string()),
        (",", takes.to_string()),
        ("2;2;1", takes.to_string()),
        ("2,2,one", takes.to_string()),
        ("2,-1,4", takes.to_string()),
        ("+2,2,1", takes.to_string()),
    ] {
        assert_eq!(folder.says(&format!("book carry --stock stock.txt --counts={counts} old new")), said, "{counts}");
    }
    let said = "--counts: the counts sum to 2, and the book has answered 3";
    assert_eq!(folder.says("book carry --stock stock.txt --counts 2 old2 new"), said);
    let said = "--counts: counts given: 1, sheets held: 0; each sheet has one";
    assert_eq!(folder.says("book carry --stock stock.txt --counts 1 old0 new"), said);
    assert_eq!(folder.names(), before);
    folder.prints("book carry --stock stock.txt --counts 2,2,1 old new");
    let head = "# 3 sheets, 61 of 100 bytes used, entries answered: 5\n";
    let listed = "1: 1 pass, 7 marks, 2 entries\n2: 1 pass, 11 marks, 2 entries\n3: 0 passes, 1 mark, 1 entry\n";
    assert_eq!(folder.prints("book list new"), format!("{head}{listed}"));
}

/// The names of a book of make 1: from the table beside it, or from a stock.
#[test]
fn carried_names() {
    let folder = first();
    folder.write("old", &book_of_make_1(&[T, U]));
    // without a table it is shown by codes, and not carried over
    assert_eq!(folder.prints("book show old 0"), "stock\nparts  a1/1 a2/0\nblocks A1/2 A2/0\n");
    let said = "old: no table of names stands beside it; what to do: give the stock that has the names by --stock";
    assert_eq!(folder.says("book carry old new"), said);
    for (name, stock) in [
        ("more", "stock parts a/1 e/0 blocks f/2 e/0 g/0"),
        ("fewer", "stock parts e/0 blocks f/2 e/0"),
        ("turned", "stock parts a/1 e/0 blocks e/0 f/2"),
    ] {
        folder.write(name, stock.as_bytes());
        assert_eq!(
            folder.says(&format!("book carry --stock {name} old new")),
            format!(
                "{name}: its kinds are not those of old, in number and places; \
                 what to do: give the stock that the book was made for"
            )
        );
    }
    assert!(folder.says("book carry --stock t.txt old new").starts_with("t.txt:"));
    assert!(folder.says("book carry --stock missing old new").starts_with("missing: "));
    folder.write("old.names", b"names parts a blocks f e");
    assert!(folder.says("book carry old new").starts_with("old.names:1:"));
    assert!(folder.says("book show old 1").starts_with("old.names:1:"));
    assert!(!folder.file("new").exists());
    // a stock is taken before the table, and codes are said by a stock in bytes
    folder.prints("book carry --stock stock.txt old new");
    assert_eq!(folder.prints("book show new 0"), "stock\nparts  a/1 e/0\nblocks f/2 e/0\n");
    folder.write("stock", S);
    folder.prints("book carry --stock stock old coded");
    assert_eq!(folder.prints("book show coded 0"), "stock\nparts  a1/1 a2/0\nblocks A1/2 A2/0\n");
    // a table need not be laid out as it is written
    folder.write("old.names", b"# of S\nnames parts   hem end blocks f e");
    folder.prints("book carry old hems");
    assert_eq!(folder.prints("book show hems 0"), "stock\nparts  hem/1 end/0\nblocks f/2 e/0\n");
    assert_eq!(folder.prints("book list hems"), folder.prints("book list new"));
}

/// A make that is not known here yet.
#[test]
fn later_makes() {
    let folder = first();
    folder.prints("book make whole stock.txt");
    let whole = folder.read("whole");
    for (make, told) in [
        ("3", "make 3"),
        ("4", "make 4"),
        ("10", "make 10"),
        ("18446744073709551614", "make 18446744073709551614"),
        ("99999999999999999999999", "a later make"),
    ] {
        for rest in [&b""[..], &whole[15..]] {
            folder.write("book", &[format!("caplune book {make}\n").as_bytes(), rest].concat());
            for line in [
                "book list book",
                "book show book 0",
                "book enter book t.txt",
                "book question book t.txt",
                "book commit book t.txt 1",
                "book carry book new",
            ] {
                let said = format!("book: a book of {told}, and this caplune reads makes up to 2");
                assert_eq!(folder.says(line), said + "; what to do: use a newer caplune", "{line}");
            }
            // it is a book, so nothing is written over it
            let said = "book: it is a book, and would be overwritten: give another file";
            assert_eq!(folder.says("clean -o book stock.txt t.txt"), said);
        }
    }
}

/// Nobody is told to make a book anew: its numbers would be lost.
#[test]
fn never_anew() {
    for path in ["README.md", "docs/FORMATS.md", "docs/REFUSALS.md", "rust/src/refusal.rs", "include/caplune.h"] {
        let text = fs::read_to_string(repository(path)).unwrap();
        assert!(!text.contains("anew if") && !text.contains("the book anew"), "{path}");
    }
    let sources = fs::read_dir(repository("rust/src/bin/caplune")).unwrap();
    for path in sources.map(|entry| entry.unwrap().path()) {
        assert!(!fs::read_to_string(&path).unwrap().contains("anew"), "{}", path.display());
    }
}

/// A folder in which nothing may be written is told as that.
#[cfg(unix)]
#[test]
fn write_protected_folders() {
    use std::os::unix::fs::PermissionsExt;
    let folder = first();
    fs::copy(PROGRAM, folder.file("caplune")).unwrap();
    for path in [&folder.0, &folder.file("caplune")] {
        fs::set_permissions(path, fs::Permissions::from_mode(0o755)).unwrap();
    }
    fs::create_dir(folder.file("shut")).unwrap();
    for line in ["book make shut/book stock.txt", "book make shut/other stock.txt"] {
        folder.prints(line);
    }
    folder.write("shut/old", &book_of_make_1(&[]));
    folder.write("shut/old.names", NAMES_OF_S);
    fs::remove_file(folder.file("shut/other.lock")).unwrap();
    fs::set_permissions(folder.file("shut"), fs::Permissions::from_mode(0o555)).unwrap();
    // the permissions of others bind root too
    let other = ["--reuid=65534", "--regid=65534", "--clear-groups", "--", "./caplune"];
    let setpriv = Path::new("/usr/bin/setpriv");
    if !setpriv.exists() || folder.run(setpriv, &[&other[..], &["--version"]].concat(), b"").status != Some(0) {
        println!("skipped: nobody else can be become here");
        return;
    }
    let path = fs::canonicalize(folder.file("shut")).unwrap();
    let said = format!("the folder {} cannot be written: Permission denied (os error 13)", path.display());
    for (line, file) in [
        ("book make shut/new stock.txt", "shut/new"),
        // with a lock that can only be read, and without one
        ("book enter shut/book t.txt", "shut/book"),
        ("book enter shut/other t.txt", "shut/other"),
        ("book commit shut/book t.txt 1", "shut/book"),
        ("book commit shut/other t.txt 1", "shut/other"),
        ("book question -o shut/new shut/book t.txt", "shut/new"),
        ("book carry shut/old shut/new", "shut/new"),
        ("clean -o shut/new stock.txt t.txt", "shut/new"),
        ("convert -o shut/new stock.txt t.txt", "shut/new"),
    ] {
        let words: Vec<&str> = other.iter().copied().chain(line.split(' ')).collect();
        assert_eq!(told(&folder.run(setpriv, &words, b""), line), format!("{file}: {said}"), "{line}");
    }
    // who only looks writes nothing, and needs no lock
    for (line, printed) in [
        ("book list shut/book", "# 0 sheets, 6 of 655538 bytes used, entries answered: 0\n"),
        ("book question shut/book t.txt", "1\n"),
        ("book question shut/other t.txt", "1\n"),
    ] {
        let words: Vec<&str> = other.iter().copied().chain(line.split(' ')).collect();
        let ended = folder.run(setpriv, &words, b"");
        assert_eq!((ended.status, ended.text(), &ended.err[..]), (Some(0), printed, ""), "{line}");
    }
    assert!(!folder.file("shut/other.lock").exists());
}

/// Nothing is left of a result that cannot be written, and what was there stays.
#[test]
fn outputs_that_fail() {
    let folder = first();
    let before = folder.names();
    for line in ["clean -o no/such stock.txt t.txt", "clean --bytes -o no/such stock.txt t.txt"] {
        assert_eq!(folder.says(line), "no/such: there is no folder no");
    }
    assert_eq!(folder.says("book make no/such stock.txt"), "no/such: there is no folder no");
    assert!(folder.says("clean -o . stock.txt t.txt").starts_with(".: "));
    folder.says("clean -o u.txt stock.txt missing");
    assert_eq!(folder.read("u.txt"), fs::read(repository("examples/first/u.txt")).unwrap());
    assert_eq!(folder.names(), before);
    // the system would let it be replaced
    let mut protected = fs::metadata(folder.file("u.txt")).unwrap().permissions();
    protected.set_readonly(true);
    fs::set_permissions(folder.file("u.txt"), protected).unwrap();
    assert_eq!(folder.says("clean -o u.txt stock.txt t.txt"), "u.txt: the file is write-protected");
    // standard output by another name is not replaced
    let script = "{ echo before; \"$0\" clean -o /dev/stdout stock.txt t.txt; echo after; } > all";
    folder.run(Path::new("/bin/sh"), &["-c", script, PROGRAM], b"");
    let all = String::from_utf8(folder.read("all")).unwrap();
    assert!(all.starts_with("before\nsheet\n") && all.ends_with("-> e\nafter\n"), "{all}");
    if Path::new("/dev/full").exists() {
        assert!(folder.says("clean -o /dev/full stock.txt t.txt").starts_with("/dev/full: "));
        let ended = folder.run(Path::new("/bin/sh"), &["-c", "\"$0\" clean stock.txt t.txt > /dev/full", PROGRAM], b"");
        assert!(told(&ended, "full").starts_with("standard output: "));
    }
    // a reader that has gone ends it without a word
    let script = "{ \"$0\" sew stock.txt t.txt long; echo $? >&2; } | true";
    folder.write("long", &[vec![0; 17], vec![1]].concat());
    let ended = folder.run(Path::new("/bin/sh"), &["-c", script, PROGRAM], b"");
    assert_eq!(ended.err, "2\n");
}

impl Folder {
    /// Every file: its name, its bytes, and its number on disk, which another file has when it is replaced.
    #[cfg(unix)]
    fn state(&self) -> Vec<(String, Vec<u8>, u64)> {
        use std::os::unix::fs::MetadataExt;
        let number = |name: &String| fs::symlink_metadata(self.file(name)).unwrap().ino();
        self.names().into_iter().map(|name| (name.clone(), self.read(&name), number(&name))).collect()
    }

    /// What it says of this file where nothing at all has changed.
    #[cfg(unix)]
    fn keeps(&self, line: &str, file: &str) -> String {
        let before = self.state();
        let said = self.says(line);
        assert_eq!(self.state(), before, "{line}");
        said.strip_prefix(&format!("{file}: ")).unwrap_or_else(|| panic!("{line}: {said}")).to_string()
    }
}

/// A folder with files that must not be lost: bytes with their tables, a book with its lock, copies of both under other
/// names, and links of both kinds.
#[cfg(unix)]
fn kept() -> Folder {
    let folder = first();
    for line in ["convert -o stock stock.txt", "convert -o t stock.txt t.txt", "book make book stock.txt"] {
        folder.prints(line);
    }
    folder.prints("book enter book t.txt");
    for (name, bytes) in [
        ("copied", &folder.read("t.names")[..]),
        ("saved", &folder.read("book")),
        ("plan.txt", b"plan f(e, e)"),
        ("plan.xml", b"<A1><A2/><A2/></A1>"),
        ("pairs.txt", b"stock parts f/2 e/0 blocks g/0"),
        ("p.txt", b"sheet opening g"),
    ] {
        folder.write(name, bytes);
    }
    folder
}

/// Every command with an output: what stands before it, behind it, and the files among this that are read.
#[cfg(unix)]
const OUTPUTS: &[(&str, &str, &[&str])] = &[
    ("convert -o", "stock.txt", &["stock.txt"]),
    ("convert -o", "stock", &["stock"]),
    ("convert -o", "stock t", &["stock", "t"]),
    ("convert -o", "stock.txt design.txt", &["stock.txt", "design.txt"]),
    ("sew -o", "stock.txt t.txt design.txt", &["stock.txt", "t.txt", "design.txt"]),
    ("sew --bytes -o", "stock t design.txt", &["stock", "t", "design.txt"]),
    ("xml -o", "stock.txt plan.txt", &["stock.txt", "plan.txt"]),
    ("plan -o", "stock.txt plan.xml", &["stock.txt", "plan.xml"]),
    ("clean -o", "stock.txt t.txt", &["stock.txt", "t.txt"]),
    ("clean --bytes -o", "stock t", &["stock", "t"]),
    ("compare --svg", "stock.txt t.txt u.txt", &["stock.txt", "t.txt", "u.txt"]),
    ("compare --svg", "stock.txt t.txt t2.txt", &["stock.txt", "t.txt", "t2.txt"]),
    ("join -o", "stock.txt t.txt pairs.txt p.txt", &["stock.txt", "t.txt", "pairs.txt", "p.txt"]),
    ("join --bytes --stock", "stock.txt t.txt pairs.txt p.txt", &["stock.txt", "t.txt", "pairs.txt", "p.txt"]),
    ("join --stock new -o", "stock.txt t.txt pairs.txt p.txt", &["stock.txt", "t.txt", "pairs.txt", "p.txt"]),
    ("book show -o", "book 1", &["book"]),
    ("book show --bytes -o", "book 0", &["book"]),
    ("book question -o", "book t.txt", &["book", "t.txt"]),
    ("book question --bytes -o", "book t", &["book", "t"]),
];

/// No output of any command overwrites a file that it reads, a table of names, a lock or a book.
#[cfg(unix)]
#[test]
fn nothing_is_overwritten() {
    let folder = kept();
    for (before, behind, inputs) in OUTPUTS {
        let refused = "it would be overwritten: give another file";
        for input in *inputs {
            assert_eq!(folder.keeps(&format!("{before} {input} {behind}"), input), refused);
            assert_eq!(folder.keeps(&format!("{before} ./{input} {behind}"), input), refused);
            // over links, and under a second name
            std::os::unix::fs::symlink(input, folder.file("link")).unwrap();
            fs::hard_link(folder.file(input), folder.file("second")).unwrap();
            assert_eq!(folder.keeps(&format!("{before} link {behind}"), input), refused);
            assert_eq!(folder.keeps(&format!("{before} second {behind}"), input), refused);
            ["link", "second"].iter().for_each(|name| fs::remove_file(folder.file(name)).unwrap());
        }
        for (output, what) in [("copied", "a table of names"), ("saved", "a book")] {
            let said = folder.keeps(&format!("{before} {output} {behind}"), output);
            assert_eq!(said, format!("it is {what}, and would be overwritten: give another file"));
        }
        // those that are read, too, are told by their names
        for output in ["t.names", "stock.names", "u.txt.names", "book.lock", "later.lock", "book.new~"] {
            let said = folder.keeps(&format!("{before} {output} {behind}"), output);
            let ending = output.rsplit_once('.').unwrap().1;
            assert!(said == refused || said.starts_with(&format!("names that end in `.{ending}` are ")), "{said}");
        }
        std::os::unix::fs::symlink("t.names", folder.file("link")).unwrap();
        let said = folder.says(&format!("{before} link {behind}"));
        assert!(said.starts_with("t.names: it would be ") || said.starts_with("link: names that end in "), "{said}");
        fs::remove_file(folder.file("link")).unwrap();
        // another file is replaced, and what is no file is written to
        for output in ["new", "p2.txt", "/dev/null"] {
            let ended = folder.caplune(&format!("{} {output} {behind}", before.replace(" new", " other")));
            assert!(matches!(ended.status, Some(0 | 1)) && ended.err.is_empty(), "{before}: {ended:?}");
        }
    }
    // a number is no file
    folder.write("1", b"");
    folder.prints("book show -o 1 book 1");
}

/// Nor does what is written beside an output, or beside a book.
#[cfg(unix)]
#[test]
fn nothing_beside_is_overwritten() {
    let folder = kept();
    for (from, to) in [("stock.txt", "x.names"), ("t.txt", "y.names"), ("t.txt", "book.new~"), ("stock.txt", "z.new~")]
    {
        folder.write(to, &folder.read(from));
    }
    folder.write("old", &book_of_make_1(&[T]));
    fs::hard_link(folder.file("y.names"), folder.file("second")).unwrap();
    for (line, file, output) in [
        ("convert -o x x.names", "x.names", "x"),
        ("convert -o ./x x.names t.txt", "x.names", "./x"),
        ("convert -o y stock.txt y.names", "y.names", "y"),
        ("convert -o y stock.txt second", "second", "y"),
        ("clean --bytes -o y stock.txt y.names", "y.names", "y"),
        ("book question --bytes -o y book y.names", "y.names", "y"),
        ("join --bytes --stock x -o new x.names t.txt pairs.txt p.txt", "x.names", "x"),
        ("join --bytes --stock new -o y stock.txt y.names pairs.txt p.txt", "y.names", "y"),
        ("book make z z.new~", "z.new~", "z"),
        ("book carry old z --stock z.new~", "z.new~", "z"),
        ("book enter book t.txt book.new~", "book.new~", "book"),
        ("book commit book book.new~ 1", "book.new~", "book"),
    ] {
        let said = folder.keeps(line, file);
        assert_eq!(
            said,
            format!("it would be overwritten by what stands beside {output}: give another file"),
            "{line}"
        );
    }
    for line in ["book make t2.txt.names stock.txt", "book make n.lock stock.txt", "book make n.new~ stock.txt"] {
        let file = line.split(' ').nth(2).unwrap();
        assert!(folder.keeps(line, file).starts_with("names that end in "), "{line}");
    }
    assert!(folder.keeps("book carry old n.lock", "n.lock").starts_with("names that end in "));
    assert!(folder.keeps("book make --size 5 gone stock.txt", "gone").starts_with("refused by 8: "));
    // what stands beside a book, as a table whose file has gone, stays
    folder.prints("book make x x.names");
    assert_eq!(folder.read("x.names"), folder.read("stock.txt"));
    // the second of two outputs is refused before the first is written
    let line = "join --bytes --stock new -o n stock.txt t.txt pairs.txt p.txt";
    folder.write("n.names", b"a letter");
    assert_eq!(folder.keeps(line, "n.names"), "it would be overwritten by the names, and is no table of names");
    // standard input may be a file
    let script = "exec \"$0\" xml -o plan.txt stock.txt < plan.txt";
    let ended = folder.run(Path::new("/bin/sh"), &["-c", script, PROGRAM], b"");
    assert_eq!(told(&ended, script), "standard input: it would be overwritten: give another file");
    assert_eq!(folder.read("plan.txt"), b"plan f(e, e)");
}

/// Damaged files by seed, text and bytes, given to every command: it ends with 0, 1 or 2, says one line exactly where
/// it ends with 2 (of many that are compared, one of each that is refused), and leaves no other file behind.
#[test]
fn damaged_files() {
    let folder = first();
    let [stock, t, design] = ["stock.txt", "t.txt", "design.txt"].map(|name| folder.read(name));
    folder.prints("book make made stock.txt");
    folder.prints("book enter made t.txt u.txt");
    let (book, bytes) = (folder.read("made"), [S.to_vec(), T.to_vec(), vec![0, 1]]);
    let lines = [
        "show stock sheet design",
        "sew stock sheet design",
        "place stock sheet design 1.1",
        "single stock sheet",
        "clean stock sheet",
        "compare stock sheet t.txt",
        "compare stock sheet t.txt sheet",
        "join stock sheet stock t.txt",
        "convert stock sheet",
        "book list book",
        "book enter book sheet",
        "book question book sheet",
        "book commit book sheet 1",
        "book show book 1",
        "xml stock sheet",
        "plan stock sheet",
    ];
    let mut ends = [0; 3];
    for seed in 0..360 {
        let mut random = Random::new(seed + 73_000_000);
        let mut files = if seed % 3 == 0 { bytes.clone() } else { [stock.clone(), t.clone(), design.clone()] };
        let mut damaged_book = book.clone();
        generate::damage(&mut random, if seed % 2 == 0 { &mut files[1] } else { &mut damaged_book });
        if seed % 5 == 0 {
            let which = random.below(3);
            generate::damage(&mut random, &mut files[which]);
        }
        for (name, bytes) in ["stock", "sheet", "design"].iter().zip(&files) {
            folder.write(name, bytes);
        }
        folder.write("book", &damaged_book);
        let line = lines[seed as usize % lines.len()];
        let ended = folder.caplune(line);
        match ended.status {
            Some(2) => {
                let most = if line.starts_with("compare stock sheet t.txt sheet") { 3 } else { 1 };
                assert!((1..=most).contains(&ended.err.lines().count()), "{seed}: {ended:?}");
                assert!(ended.err.lines().all(|line| line.starts_with("caplune: ")), "{seed}: {ended:?}");
            }
            Some(0 | 1) => assert_eq!(ended.err, "", "{seed}"),
            _ => panic!("{seed}: {line}: {ended:?}"),
        }
        ends[ended.status.unwrap() as usize] += 1;
    }
    println!("{ends:?} ended with 0, 1 and 2");
    assert!(ends[0] > 30 && ends[2] > 100, "{ends:?}");
    assert!(folder.names().iter().all(|name| !name.contains('~')), "{:?}", folder.names());
}

/// What the program prints is the library's text.
#[test]
fn typed() {
    let alphabets = Alphabets::read(S).unwrap();
    let names = text::Names::codes(&alphabets);
    let transducer = Transducer::read(&alphabets, T).unwrap();
    let states = text::StateNames::numbered(1);
    let folder = Folder::with(&[("stock", S), ("t", T), ("design", &[0, 1])]);
    assert_eq!(folder.prints("convert stock"), text::write_alphabets(&alphabets, &names));
    assert_eq!(folder.prints("convert stock t"), text::write_transducer(&transducer, &names, &states));
    let tree = InputTree::read(&alphabets, &[0, 1]).unwrap();
    assert_eq!(folder.prints("convert stock design"), text::write_input_tree(&tree, &names));
}
