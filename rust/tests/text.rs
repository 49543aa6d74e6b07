//! The text form: the paper's samples, generated alphabets, trees and transducers written and read again, each error
//! with its place, damaged texts, and texts that are very long or very deep.
mod generate;

use caplune::text::{self, Error, Kind, Names, StateNames};
use caplune::{Alphabets, InputTree, OutputTree, Refusal, Transducer};
use generate::samples::*;
use generate::Random;

const STOCK: &str = "stock\nparts  a/1 e/0\nblocks f/2 e/0\n";
const SHEET: &str = "sheet\nopening f(q(x1), q(x1))\nq(a(x1)) -> f(q(x1), q(x1))\nq(e) -> e\n";

fn s() -> (Alphabets, Names) {
    text::read_alphabets(STOCK.as_bytes()).unwrap()
}

/// Alphabets read from the entries of their two lists.
fn stock(parts: &str, blocks: &str) -> (Alphabets, Names) {
    text::read_alphabets(format!("stock parts {parts} blocks {blocks}").as_bytes()).unwrap()
}

/// The text of an output tree. The room for it is bounded, so that a writer that does not stop fails and takes no
/// memory.
fn plan(tree: &OutputTree, names: &Names) -> String {
    let longest = names.outputs().iter().map(String::len).max().unwrap_or(0);
    let mut room = vec![0; 8 + (longest + 4) * tree.nodes()];
    let mut rest = &mut room[..];
    text::write_output_tree(tree, names, &mut rest).unwrap();
    let left = rest.len();
    room.truncate(room.len() - left);
    String::from_utf8(room).unwrap()
}

#[test]
fn samples() {
    let (alphabets, names) = s();
    assert_eq!(alphabets.as_bytes(), S);
    assert_eq!(text::write_alphabets(&alphabets, &names), STOCK);
    let (sheet, states) = text::read_transducer(SHEET.as_bytes(), &alphabets, &names).unwrap();
    assert_eq!((sheet.as_bytes(), states.as_slice()), (T, &["q".to_string()][..]));
    assert_eq!(text::write_transducer(&sheet, &names, &states), SHEET);
    let tree = text::read_input_tree(b"design a(a(e))\n", &alphabets, &names).unwrap();
    assert_eq!(tree.as_bytes(), [0, 0, 1]);
    assert_eq!(text::write_input_tree(&tree, &names), "design a(a(e))\n");
    let leaf = InputTree::read(&alphabets, &[1]).unwrap();
    let output = sheet.translate(&leaf, 3).unwrap();
    assert_eq!(plan(&output, &names), "plan f(e, e)\n");
    assert_eq!(text::read_output_tree(b"plan f(e, e)\n", &alphabets, &names), Ok(output));
    let table = "names\nparts a e\nblocks f e\n";
    assert_eq!(text::read_names(table.as_bytes(), &alphabets).as_ref(), Ok(&names));
    assert_eq!(text::write_names(&names), table);
    let table = "names\npasses q p\n";
    assert_eq!(text::write_state_names(&text::read_state_names(table.as_bytes(), 2).unwrap()), table);
    assert_eq!(text::write_state_names(&text::read_state_names(b"names passes", 0).unwrap()), "names\npasses\n");
}

#[test]
fn sample_of_rank_two() {
    let (alphabets, names) = stock("a/2 e/0", "d/2 e/0");
    assert_eq!(alphabets.as_bytes(), STOCK_OF_M);
    let sheet = "sheet\nopening q(x1)\nq(a(x1, x2)) -> d(q(x1), d(q(x1), e))\nq(e) -> d(d(e, e), d(e, e))\n";
    let (read, states) = text::read_transducer(sheet.as_bytes(), &alphabets, &names).unwrap();
    assert_eq!(read.as_bytes(), m());
    assert_eq!(text::write_transducer(&read, &names, &states), sheet);
    let clean = text::write_transducer(&read.normal_form().unwrap(), &names, &StateNames::numbered(3));
    let (read, _) = text::read_transducer(clean.as_bytes(), &alphabets, &names).unwrap();
    assert_eq!(read.as_bytes(), clean_m());
}

/// Blanks and comments mean nothing, brackets with nothing between may stand, rules may stand in any order.
#[test]
fn other_ways_to_write() {
    let (alphabets, names) = text::read_alphabets(b"#x\r\nstock#y\nparts\n\ta / 1 e/0 blocks f/2\r\ne/0 # z").unwrap();
    assert_eq!((alphabets.as_bytes(), &names), (S, &s().1));
    let sheet = "sheet opening f(q(x1),q\n( x1 ) )q(e())->e()q(a(x1))->f(#, \nq(x1), q(x1))";
    let (read, _) = text::read_transducer(sheet.as_bytes(), &alphabets, &names).unwrap();
    assert_eq!(read.as_bytes(), T);
    let tree = text::read_input_tree(b"design a(\n  a(e()))", &alphabets, &names).unwrap();
    assert_eq!(tree.as_bytes(), [0, 0, 1]);
    let tree = text::read_output_tree(b"# of T\nplan f\n(e() ,f(e,e)) # and no more", &alphabets, &names).unwrap();
    assert_eq!(tree.as_bytes(), [0, 1, 0, 1, 1]);
    // a comment ends with its line, whatever ends that
    assert_eq!(text::read_input_tree(b"# a\rdesign e", &alphabets, &names).unwrap().as_bytes(), [1]);
    // a byte order mark before the text is no part of it
    let error = text::read_input_tree("\u{feff}design e e".as_bytes(), &alphabets, &names).unwrap_err();
    assert_eq!(error.to_string(), "1:10: expected the end of the file, found `e`");
    // the state whose rule stands first is 0, whatever the opening calls and wherever the other rules are
    let sheet = "sheet opening q(x1) p(e) -> e q(e) -> f(e, e) q(a(x1)) -> p(x1) p(a(x1)) -> q(x1)";
    let (read, states) = text::read_transducer(sheet.as_bytes(), &alphabets, &names).unwrap();
    assert_eq!(states.as_slice(), ["p", "q"]);
    assert_eq!(read.as_bytes(), file(2, &[&[1, 1], &[1, 1], &[0, 1], &[1, 0], &[0, 0, 0, 1, 0, 1]]));
    let (read, states) = text::read_transducer(b"sheet opening e", &alphabets, &names).unwrap();
    assert_eq!((read.as_bytes(), states), (CONSTANT, StateNames::numbered(0)));
}

/// Keywords are known by their position, and a state may have the name of a symbol.
#[test]
fn names_that_are_keywords() {
    let written = "stock\nparts  blocks/1 parts/0\nblocks opening/1 stock/0 blocks/0 x/0\n";
    let (alphabets, names) = text::read_alphabets(written.as_bytes()).unwrap();
    assert_eq!(
        (alphabets.as_bytes(), text::write_alphabets(&alphabets, &names)),
        (&[2, 1, 0, 4, 1, 0, 0, 0][..], written.into())
    );
    let written = "names\nparts blocks parts\nblocks opening stock blocks x\n";
    assert_eq!(text::write_names(&text::read_names(written.as_bytes(), &alphabets).unwrap()), written);
    let sheet =
        "sheet\nopening opening(opening(x1))\nopening(blocks(x1)) -> opening(opening(x1))\nopening(parts) -> x\n";
    let (read, states) = text::read_transducer(sheet.as_bytes(), &alphabets, &names).unwrap();
    assert_eq!(read.as_bytes(), file(1, &[&[0, 0, 1, 0], &[0, 0, 1, 0], &[0, 3]]));
    assert_eq!(text::write_transducer(&read, &names, &states), sheet);
}

#[test]
fn kinds() {
    let of = |text: &str| text::kind(text.as_bytes());
    assert_eq!([of(STOCK), of(SHEET)], [Ok(Kind::Alphabets), Ok(Kind::Transducer)]);
    assert_eq!([of("\n#\ndesign("), of("names")], [Ok(Kind::InputTree), Ok(Kind::Names)]);
    assert_eq!(of("plan"), Ok(Kind::OutputTree));
    let message = of(" ").unwrap_err().to_string();
    assert_eq!(message, "1:2: expected `stock`, `sheet`, `design`, `plan` or `names`, found the end of the file");
}

#[test]
fn text_or_bytes() {
    for text in [STOCK, SHEET, " ", "\u{e9}", "\t\r\n~\u{7f}\u{1b}"] {
        assert!(text::is_text(text.as_bytes()), "{text:?}");
    }
    for bytes in [&b""[..], b"\n", b"a\0", b"a\x08", &[31, 31]] {
        assert!(!text::is_text(bytes) && !text::is_output_text(bytes), "{bytes:?}");
    }
    // bytes of a plan, which have no letter, and texts of one
    for bytes in [&b"("[..], b"?", b"()+,-./0123456789:;<=>?", &[9, 63], &[63]] {
        assert!(text::is_text(bytes) && !text::is_output_text(bytes), "{bytes:?}");
    }
    for text in ["plan e", "\n# ?\nplan\te", "@", "<A2/>", "\u{feff}plan e"] {
        assert!(text::is_output_text(text.as_bytes()), "{text:?}");
    }
}

#[test]
fn codes() {
    let alphabets = Alphabets::new(&[0; 16], &[0; 64]).unwrap();
    let names = Names::codes(&alphabets);
    assert_eq!((names.inputs()[8].as_str(), names.inputs()[15].as_str()), ("b1", "b8"));
    assert_eq!((names.outputs()[0].as_str(), names.outputs()[63].as_str()), ("A1", "H8"));
    let code = |first: u8, symbol: usize| format!("{}{}", char::from(first + symbol as u8 / 8), symbol % 8 + 1);
    assert_eq!(names.inputs(), (0..16).map(|symbol| code(b'a', symbol)).collect::<Vec<_>>());
    assert_eq!(names.outputs(), (0..64).map(|symbol| code(b'A', symbol)).collect::<Vec<_>>());
    assert_eq!(text::write_card().split_whitespace().collect::<Vec<_>>(), names.outputs());
    assert_eq!(StateNames::numbered(128).as_slice()[127], "q127");
    let joined = s().1.joined(&names);
    assert_eq!((joined.inputs(), joined.outputs()), (s().1.inputs(), names.outputs()));
}

/// With too few names all symbols have their codes, and names without a symbol are not known.
#[test]
fn names_of_other_alphabets() {
    let (three, few) = (Alphabets::new(&[2, 0, 0], &[2, 0, 0]).unwrap(), stock("z/0", "g/1").1);
    assert_eq!(text::write_alphabets(&three, &few), "stock\nparts  a1/2 a2/0 a3/0\nblocks A1/2 A2/0 A3/0\n");
    let tree = InputTree::read(&three, &[0, 1, 2]).unwrap();
    assert_eq!(text::write_input_tree(&tree, &few), "design a1(a2, a3)\n");
    assert_eq!(text::read_input_tree(b"design a1(a2, a3)", &three, &few), Ok(tree));
    let (alphabets, names) = s();
    let sheet = Transducer::read(&alphabets, T).unwrap();
    let written = text::write_transducer(&sheet, &few, &StateNames::numbered(0));
    assert_eq!(written, "sheet\nopening A1(q0(x1), q0(x1))\nq0(a1(x1)) -> A1(q0(x1), q0(x1))\nq0(a2) -> A2\n");
    assert_eq!(text::read_transducer(written.as_bytes(), &alphabets, &few).unwrap().0, sheet);
    let one = Alphabets::new(&[0], &[0]).unwrap();
    let error = text::read_input_tree(b"design e", &one, &names).unwrap_err();
    assert_eq!(error.to_string(), "1:8: expected a part kind (a), found `e`");
}

/// The message of a text that is not read, by its first word, under these alphabets.
fn message(text: &[u8], (alphabets, names): &(Alphabets, Names), states: usize) -> String {
    let error = match text::kind(text) {
        Err(error) => error,
        Ok(Kind::Alphabets) => text::read_alphabets(text).unwrap_err(),
        Ok(Kind::Transducer) => text::read_transducer(text, alphabets, names).unwrap_err(),
        Ok(Kind::InputTree) => text::read_input_tree(text, alphabets, names).unwrap_err(),
        Ok(Kind::OutputTree) => text::read_output_tree(text, alphabets, names).unwrap_err(),
        Ok(Kind::Names) if text.windows(6).any(|word| word == b"passes") => {
            text::read_state_names(text, states).unwrap_err()
        }
        Ok(_) => text::read_names(text, alphabets).unwrap_err(),
    };
    error.to_string()
}

fn all_messages(table: &[(&str, &str)]) {
    for (text, expected) in table {
        assert_eq!(message(text.as_bytes(), &s(), 2), *expected, "{text}");
    }
}

#[test]
fn errors_in_alphabets() {
    all_messages(&[
        ("stock", "1:6: expected `parts`, found the end of the file"),
        ("stock blocks", "1:7: expected `parts`, found `blocks`"),
        ("stock parts", "1:12: expected a name or `blocks`, found the end of the file"),
        ("stock\nparts a", "2:8: expected `/`, found the end of the file"),
        ("stock parts a e/0", "1:15: expected `/`, found `e`"),
        ("stock parts a/5", "1:15: expected a number of places from 0 to 4, found `5`"),
        ("stock parts a/01", "1:15: expected a number of places from 0 to 4, found `01`"),
        ("stock parts a/0 x1/0", "1:17: expected a name that is not a variable or `blocks`, found `x1`"),
        ("stock parts a/0 1/0", "1:17: expected a name or `blocks`, found `1`"),
        ("stock parts a/0\n  a/1", "2:3: expected a name that is not used yet, found `a`"),
        ("stock parts a/0 blocks b/0 'c/0", "1:28: expected a name or the end of the file, found `'c`"),
        ("stock parts a/0 blocks b/0 b/0", "1:28: expected a name that is not used yet, found `b`"),
        ("stock parts a/0 blocks b/0, c/0", "1:27: expected a name or the end of the file, found `,`"),
        ("stock parts é/0 ü/0 é/1", "1:21: expected a name that is not used yet, found `é`"),
        ("stock parts a/1 blocks b/0", "refused by 2: not a stock"),
        ("stock parts blocks", "refused by 2: not a stock"),
        ("book e", "1:1: expected `stock`, `sheet`, `design`, `plan` or `names`, found `book`"),
    ]);
    let entries = |count: usize| (0..count).map(|number| format!("n{number}/0\n")).collect::<String>();
    let many = format!("stock parts\n{}blocks e/0", entries(17));
    assert_eq!(message(many.as_bytes(), &s(), 0), "18:1: expected at most 16 parts, found `n16`");
    let many = format!("stock parts e/0 blocks\n{}", entries(65));
    assert_eq!(message(many.as_bytes(), &s(), 0), "66:1: expected at most 64 blocks, found `n64`");
    let most = format!("stock parts {} blocks {}", entries(16), entries(64));
    assert!(text::read_alphabets(most.as_bytes()).is_ok());
}

#[test]
fn errors_in_trees() {
    all_messages(&[
        ("design", "1:7: expected a part kind (a, e), found the end of the file"),
        ("design b", "1:8: expected a part kind (a, e), found `b`"),
        ("design a", "1:9: expected 1 sub-tree of `a`, as it has 1 place, found the end of the file"),
        ("design a()", "1:10: expected 1 sub-tree of `a`, as it has 1 place, found `)`"),
        ("design a(e, e)", "1:11: expected 1 sub-tree of `a`, as it has 1 place, found `,`"),
        ("design a(e e)", "1:12: expected `)`, found `e`"),
        ("design a(x1)", "1:10: expected a part kind (a, e), found `x1`"),
        ("design e(e)", "1:10: expected no sub-trees of `e`, as it has no places, found `e`"),
        ("design e)", "1:9: expected the end of the file, found `)`"),
        ("design\n# a\n\ta(a(e)", "3:8: expected `)`, found the end of the file"),
        ("design e\u{7}", "1:9: expected the end of the file, found `\\u{7}`"),
        ("design e\u{a0}", "1:9: expected the end of the file, found `\\u{a0}`"),
        ("design a -> e", "1:10: expected 1 sub-tree of `a`, as it has 1 place, found `->`"),
        ("design a - e", "1:10: expected 1 sub-tree of `a`, as it has 1 place, found `-`"),
    ]);
    let long = format!("design {}", "n".repeat(31));
    let cut = format!("1:8: expected a part kind (a, e), found `{}…`", "n".repeat(30));
    assert_eq!(message(long.as_bytes(), &s(), 0), cut);
    let exact = cut.replace('…', "");
    assert_eq!(message(&long.as_bytes()[..37], &s(), 0), exact);
    let nine = stock("a/0 b/0 c/0 d/0 e/0 f/0 g/0 h/0 i/0", "k/3");
    let list = "1:8: expected a part kind (a, b, c, d, e, f, g, h, …), found `k`";
    assert_eq!(message(b"design k", &nine, 0), list);
    let tree = format!("design {}e{}", "a(".repeat(512), ")".repeat(512));
    assert_eq!(message(tree.as_bytes(), &s(), 0), Refusal::BadTree.to_string());
    assert_eq!(message(b"design \xff", &s(), 0), "1:8: expected UTF-8, found byte 255");
    assert_eq!(
        message("design\n é\u{e9}".as_bytes().strip_suffix(b"\xa9").unwrap(), &s(), 0),
        "2:3: expected UTF-8, found byte 195"
    );
}

#[test]
fn errors_in_output_trees() {
    all_messages(&[
        ("plan", "1:5: expected a block kind (f, e), found the end of the file"),
        ("plan a", "1:6: expected a block kind (f, e), found `a`"),
        ("plan f", "1:7: expected 2 sub-trees of `f`, as it has 2 places, found the end of the file"),
        ("plan f()", "1:8: expected 2 sub-trees of `f`, as it has 2 places, found `)`"),
        ("plan f(e)", "1:9: expected 2 sub-trees of `f`, as it has 2 places, found `)`"),
        ("plan f(e, e, e)", "1:12: expected 2 sub-trees of `f`, as it has 2 places, found `,`"),
        ("plan f(e, e", "1:12: expected `)`, found the end of the file"),
        ("plan f(e e)", "1:10: expected `,`, found `e`"),
        ("plan f(q(x1), e)", "1:8: expected a block kind (f, e), found `q`"),
        ("plan e(e)", "1:8: expected no sub-trees of `e`, as it has no places, found `e`"),
        ("plan e\nplan e", "2:1: expected the end of the file, found `plan`"),
        ("plan <A2/>", "1:6: expected a block kind (f, e), found `<`"),
    ]);
    let (alphabets, names) = s();
    let read = |text: &[u8]| text::read_output_tree(text, &alphabets, &names);
    assert_eq!(read(b"<A2/>").unwrap_err().to_string(), "1:1: expected `plan`, found `<`");
    assert_eq!(read(b"design e").unwrap_err().to_string(), "1:1: expected `plan`, found `design`");
    // 4,096 symbols of any number of levels are the most
    let unary = stock("e/0", "g/1 e/0");
    let chain = |symbols: usize| format!("plan {}e{}", "g(".repeat(symbols - 1), ")".repeat(symbols - 1));
    let of = |symbols: usize| text::read_output_tree(chain(symbols).as_bytes(), &unary.0, &unary.1);
    assert_eq!(of(4_096).map(|tree| tree.nodes()), Ok(4_096));
    assert_eq!(plan(&of(4_096).unwrap(), &unary.1), chain(4_096) + "\n");
    assert_eq!(of(4_097), Err(Error::Refused(Refusal::BadOutput)));
    assert_eq!(of(1_000_000), Err(Error::Refused(Refusal::BadOutput)));
}

#[test]
fn errors_in_transducers() {
    all_messages(&[
        ("sheet", "1:6: expected `opening`, found the end of the file"),
        ("sheet q(e) -> e", "1:7: expected `opening`, found `q`"),
        ("sheet opening", "1:14: expected a block kind (f, e) or an open end as `q(x1)`, found the end of the file"),
        ("sheet opening a", "1:15: expected a block kind (f, e) or an open end as `q(x1)`, found `a`"),
        ("sheet opening x1", "1:15: expected a block kind (f, e) or an open end as `q(x1)`, found `x1`"),
        ("sheet opening f(e)", "1:18: expected 2 sub-trees of `f`, as it has 2 places, found `)`"),
        ("sheet opening f(e e)", "1:19: expected `,`, found `e`"),
        ("sheet opening f(e, e, e)", "1:21: expected 2 sub-trees of `f`, as it has 2 places, found `,`"),
        ("sheet opening f(x1, e)", "1:19: expected `)`, found `,`"),
        ("sheet opening f(q(x1), x1)", "1:24: expected a block kind (f, e) or an open end as `q(x1)`, found `x1`"),
        ("sheet opening q(x2)", "1:17: expected `x1`, found `x2`"),
        ("sheet opening q(x01)", "1:17: expected `x1`, found `x01`"),
        ("sheet opening q(x1)", "1:15: expected a pass that has lines (there is none), found `q`"),
        ("sheet opening e )", "1:17: expected a name or the end of the file, found `)`"),
        (
            "sheet opening e x1(e) -> e",
            "1:17: expected a name that is not a variable or the end of the file, found `x1`",
        ),
        ("sheet opening e q -> e", "1:19: expected `(`, found `->`"),
        ("sheet opening e q(f) -> e", "1:19: expected a part kind (a, e), found `f`"),
        ("sheet opening e q(e -> e", "1:21: expected `)`, found `->`"),
        ("sheet opening e q(e) = e", "1:22: expected `->`, found `=`"),
        ("sheet opening e q(a) -> e", "1:20: expected 1 sub-tree of `a`, as it has 1 place, found `)`"),
        ("sheet opening e q(a(x2)) -> e", "1:21: expected `x1`, found `x2`"),
        ("sheet opening e q(a(x1, x2)) -> e", "1:23: expected 1 sub-tree of `a`, as it has 1 place, found `,`"),
        ("sheet opening e q(e) -> q(x1)", "1:25: expected a block kind (f, e), found `q`"),
        ("sheet opening e q(a(x1)) -> e", "1:30: expected a line for q(e), found the end of the file"),
        ("sheet opening e q(e) -> e\n", "2:1: expected a line for q(a(x1)), found the end of the file"),
        (
            "sheet opening e q(e) -> e q(e) -> e",
            "1:29: expected a part kind for which `q` has no line yet (a), found `e`",
        ),
        ("sheet opening e q(e) -> e q(a(x1)) -> e q(e) -> e", "1:43: expected no more lines for `q`, found `e`"),
        ("sheet opening p(x1) q(e) -> e", "1:15: expected a pass that has lines (q), found `p`"),
        (
            "sheet opening e\nq(e) -> e p(e) -> e p(a(x1)) -> r(x1) q(a(x1)) -> s(x1)",
            "2:33: expected a pass that has lines (q, p), found `r`",
        ),
    ]);
    let two = stock("a/2 b/4 e/0", "d/2 e/0");
    let of = |text: &str| message(format!("sheet opening e {text}").as_bytes(), &two, 0);
    assert_eq!(of("q(a(x1, x2)) -> q(x3)"), "1:35: expected `x1` or `x2`, found `x3`");
    assert_eq!(of("q(b(x1,x2,x3,x4)) -> q(x5)"), "1:40: expected `x1`, `x2`, `x3` or `x4`, found `x5`");
    assert_eq!(of("q(a(x1)) -> e"), "1:23: expected 2 sub-trees of `a`, as it has 2 places, found `)`");
    assert_eq!(of("q(e) -> e"), "1:26: expected a line for q(a(x1, x2)), found the end of the file");
}

#[test]
fn limits_of_transducers() {
    let (alphabets, names) = s();
    let read =
        |text: &str| text::read_transducer(text.as_bytes(), &alphabets, &names).map_err(|error| error.to_string());
    // f(e, f(e, ... e)), with 65 marks
    let long = format!("{}e{}", "f(e, ".repeat(32), ")".repeat(32));
    assert_eq!(read(&format!("sheet opening {long}")).unwrap_err(), "1:175: expected at most 64 marks, found `e`");
    let rules = "q(e) -> e q(a(x1)) ->";
    let error = read(&format!("sheet opening e {rules}\n{long}")).unwrap_err();
    assert_eq!(error, "2:161: expected at most 64 marks, found `e`");
    assert!(read(&format!("sheet opening {}", &long.replacen("f(e, ", "", 1).replacen(')', "", 1))).is_ok());
    let unary = stock("e/0", "g/1 e/0");
    let side = |symbols: usize| format!("sheet opening {}e{}", "g(".repeat(symbols), ")".repeat(symbols));
    assert!(text::read_transducer(side(63).as_bytes(), &unary.0, &unary.1).is_ok());
    assert_eq!(message(side(64).as_bytes(), &unary, 0), "1:143: expected at most 64 marks, found `e`");
    let states = |count: usize| {
        let rules = (0..count).map(|state| format!("p{state}(a(x1)) -> e p{state}(e) -> e\n"));
        format!("sheet opening e\n{}", rules.collect::<String>())
    };
    assert_eq!(read(&states(128)).map(|(sheet, _)| sheet.states()), Ok(128));
    assert_eq!(read(&states(129)).unwrap_err(), "130:1: expected at most 128 passes, found `p128`");
    // with the opening and the right-hand sides at e, 127 of 63 marks are 8,129 in all, and 128 are 8,193
    let wide = &long.replacen("f(e, ", "", 1).replacen(')', "", 1);
    let marks = |count: usize| read(&states(count).replace("x1)) -> e", &format!("x1)) -> {wide}")));
    assert_eq!(marks(127).map(|(sheet, _)| sheet.marks()), Ok(8129));
    assert_eq!(marks(128).unwrap_err(), Refusal::BadContents.to_string());
}

#[test]
fn errors_in_names() {
    all_messages(&[
        ("names", "1:6: expected `parts`, found the end of the file"),
        ("names parts a", "1:14: expected the names of 2 part kinds, found the end of the file"),
        ("names parts a e f", "1:17: expected `blocks`, as there are 2 part kinds, found `f`"),
        ("names parts a a", "1:15: expected a name that is not used yet, found `a`"),
        ("names parts a, e", "1:14: expected a name, found `,`"),
        ("names parts a x3", "1:15: expected a name that is not a variable, found `x3`"),
        ("names parts a e blocks f", "1:25: expected the names of 2 block kinds, found the end of the file"),
        ("names parts a e blocks f e d", "1:28: expected the end of the file, as there are 2 block kinds, found `d`"),
        ("names passes q", "1:15: expected the names of 2 passes, found the end of the file"),
        ("names passes q q", "1:16: expected a name that is not used yet, found `q`"),
        ("names passes q p r", "1:18: expected the end of the file, as there are 2 passes, found `r`"),
    ]);
    assert_eq!(message(b"names passes", &s(), 1), "1:13: expected the names of 1 pass, found the end of the file");
    let more = message(b"names passes q p", &s(), 1);
    assert_eq!(more, "1:16: expected the end of the file, as there is 1 pass, found `p`");
    // 100 characters are a name, of however many bytes, and 101 are none
    let long = "\u{e9}".repeat(100);
    assert!(text::read_state_names(format!("names passes {long}").as_bytes(), 1).is_ok());
    let longer = message(format!("names passes {long}e").as_bytes(), &s(), 1);
    assert_eq!(longer, format!("1:14: expected a name of at most 100 characters, found `{}…`", "\u{e9}".repeat(30)));
    let error = text::read_state_names(b"names parts", 0).unwrap_err();
    assert_eq!(error.to_string(), "1:7: expected `passes`, found `parts`");
    let error = text::read_alphabets(SHEET.as_bytes()).unwrap_err();
    assert_eq!(error.to_string(), "1:1: expected `stock`, found `sheet`");
    assert_eq!(text::read_alphabets(b"stock parts blocks"), Err(Error::Refused(Refusal::BadAlphabets)));
}

/// So many different names: letters of several scripts, keywords, and names that are nearly variables.
fn random_names(random: &mut Random, count: usize) -> Vec<String> {
    const WORDS: [&str; 14] = [
        "stock", "sheet", "design", "plan", "names", "parts", "blocks", "passes", "opening", "x", "x1'", "x_1", "X1",
        "x1y",
    ];
    const FIRST: [char; 12] = ['a', 'b', 'x', 'Q', '_', 'é', 'ß', 'λ', 'Ж', '中', 'ª', '𝔸'];
    const LATER: [char; 8] = ['0', '1', '9', '\'', '_', '٣', '²', 'z'];
    let mut names: Vec<String> = Vec::new();
    while names.len() < count {
        let mut name = random.pick(&WORDS).to_string();
        if !random.once_in(8) {
            name = random.pick(&FIRST).to_string();
            (0..random.sized(0, 40)).for_each(|_| name.push(random.pick(&[&FIRST[..], &LATER].concat())));
        }
        let digits = name.strip_prefix('x').unwrap_or_default();
        let is_variable = !digits.is_empty() && digits.bytes().all(|byte| byte.is_ascii_digit());
        if !is_variable && !names.contains(&name) {
            names.push(name);
        }
    }
    names
}

/// Codes or random names, which are read from a text.
fn some_names(random: &mut Random, alphabets: &Alphabets) -> Names {
    if random.once_in(3) {
        return Names::codes(alphabets);
    }
    let [inputs, outputs] =
        [alphabets.input_ranks(), alphabets.output_ranks()].map(|ranks| random_names(random, ranks.len()));
    let table = format!("names\nparts {}\nblocks {}\n", inputs.join(" "), outputs.join(" "));
    let names = text::read_names(table.as_bytes(), alphabets).unwrap();
    assert_eq!((names.inputs(), names.outputs(), text::write_names(&names)), (&inputs[..], &outputs[..], table));
    names
}

fn some_state_names(random: &mut Random, states: usize) -> StateNames {
    if states == 0 || random.once_in(3) {
        return StateNames::numbered(states);
    }
    let names = random_names(random, states);
    let table = format!("names\npasses {}\n", names.join(" "));
    let read = text::read_state_names(table.as_bytes(), states).unwrap();
    assert_eq!((read.as_slice(), text::write_state_names(&read)), (&names[..], table));
    read
}

/// Generated alphabets, with the names of their symbols.
fn some_alphabets(random: &mut Random) -> (generate::Alphabets, Alphabets, Names) {
    let generated = match random.below(3) {
        0 => generate::alike::small_alphabets(random),
        _ => generate::Alphabets::random(random),
    };
    let alphabets = Alphabets::read(&generated.file()).unwrap();
    let names = some_names(random, &alphabets);
    (generated, alphabets, names)
}

/// A generated transducer, if it is within the limits.
fn some_transducer(random: &mut Random, generated: &generate::Alphabets, alphabets: &Alphabets) -> Option<Transducer> {
    let sheet = generate::Transducer::random(random, generated);
    Transducer::read(alphabets, &sheet.file()).ok()
}

/// Output trees by their definition, for small ones.
fn tree_text(symbols: &mut impl Iterator<Item = u8>, ranks: &[u8], names: &[String]) -> String {
    let symbol = usize::from(symbols.next().unwrap());
    let trees: Vec<String> = (0..ranks[symbol]).map(|_| tree_text(symbols, ranks, names)).collect();
    if trees.is_empty() {
        names[symbol].clone()
    } else {
        format!("{}({})", names[symbol], trees.join(", "))
    }
}

#[test]
fn written_and_read_again() {
    let random = &mut Random::new(11);
    let mut read = [0; 3];
    for _ in 0..3000 {
        let (generated, alphabets, names) = some_alphabets(random);
        assert!(!text::is_text(alphabets.as_bytes()));
        let written = text::write_alphabets(&alphabets, &names);
        assert!(text::is_text(written.as_bytes()));
        assert_eq!(text::read_alphabets(written.as_bytes()), Ok((alphabets.clone(), names.clone())), "{written}");
        let mut plans = Vec::new();
        if let Ok(tree) = InputTree::read(&alphabets, &generate::input_tree(random, &generated)) {
            assert!(!text::is_text(tree.as_bytes()));
            let written = text::write_input_tree(&tree, &names);
            assert_eq!(text::read_input_tree(written.as_bytes(), &alphabets, &names).as_ref(), Ok(&tree), "{written}");
            plans.push(tree);
            read[0] += 1;
        }
        let Some(sheet) = some_transducer(random, &generated, &alphabets) else { continue };
        assert!(!text::is_text(sheet.as_bytes()));
        let states = some_state_names(random, sheet.states());
        let written = text::write_transducer(&sheet, &names, &states);
        let again = text::read_transducer(written.as_bytes(), &alphabets, &names);
        assert_eq!(again.as_ref(), Ok(&(sheet.clone(), states)), "{written}");
        read[1] += 1;
        for output in plans.iter().filter_map(|tree| sheet.translate(tree, 400).ok()) {
            let expected = tree_text(&mut output.as_bytes().iter().copied(), alphabets.output_ranks(), names.outputs());
            let written = plan(&output, &names);
            assert_eq!(written, format!("plan {expected}\n"));
            assert!(text::is_output_text(written.as_bytes()) && !text::is_output_text(output.as_bytes()));
            assert_eq!(text::read_output_tree(written.as_bytes(), &alphabets, &names), Ok(output), "{written}");
            read[2] += 1;
        }
    }
    assert!(read[0] > 2000 && read[1] > 2000 && read[2] > 1000, "{read:?}");
}

/// An error is one line, and its place is in the text or behind its last character.
fn check_error(text: &[u8], error: &Error) {
    let message = error.to_string();
    assert!(!message.chars().any(char::is_control), "{message:?}");
    let Error::Unexpected { line, column, .. } = error else { return };
    let found = text.split(|&byte| byte == b'\n').nth(line.checked_sub(1).unwrap()).expect("a line of the text");
    let length = std::str::from_utf8(found).map_or(found.len(), |line| line.chars().count());
    assert!((1..=length + 1).contains(column), "{message} {}", String::from_utf8_lossy(text));
}

/// Reads a text as each kind; what is read is written, and then read as the same. How many readers took it.
fn read_all(text: &[u8], alphabets: &Alphabets, names: &Names, states: usize) -> usize {
    let mut taken = 0;
    let mut check = |again: Result<(), Error>| match again {
        Ok(()) => taken += 1,
        Err(error) => check_error(text, &error),
    };
    check(text::read_alphabets(text).map(|read| {
        assert_eq!(text::read_alphabets(text::write_alphabets(&read.0, &read.1).as_bytes()), Ok(read));
    }));
    check(text::read_input_tree(text, alphabets, names).map(|read| {
        let written = text::write_input_tree(&read, names);
        assert_eq!(text::read_input_tree(written.as_bytes(), alphabets, names), Ok(read));
    }));
    check(text::read_output_tree(text, alphabets, names).map(|read| {
        assert_eq!(text::read_output_tree(plan(&read, names).as_bytes(), alphabets, names), Ok(read));
    }));
    check(text::read_transducer(text, alphabets, names).map(|read| {
        let written = text::write_transducer(&read.0, names, &read.1);
        assert_eq!(text::read_transducer(written.as_bytes(), alphabets, names), Ok(read));
    }));
    check(text::read_names(text, alphabets).map(|read| {
        assert_eq!(text::read_names(text::write_names(&read).as_bytes(), alphabets), Ok(read));
    }));
    check(text::read_state_names(text, states).map(|read| {
        assert_eq!(text::read_state_names(text::write_state_names(&read).as_bytes(), states), Ok(read));
    }));
    if let Err(error) = text::kind(text) {
        check_error(text, &error);
    }
    taken
}

/// A text of each kind under the alphabets.
fn some_text(
    random: &mut Random,
    generated: &generate::Alphabets,
    alphabets: &Alphabets,
    names: &Names,
) -> (String, usize) {
    let tree = generate::tree(random, &generated.inputs, 20, 8, generate::Growth::Even(12));
    let sheet = generate::alike::small_transducer(random, generated, 3, 9);
    let sheet = Transducer::read(alphabets, &sheet.file()).ok();
    let states = sheet.as_ref().map_or(2, Transducer::states);
    let state_names = some_state_names(random, states);
    let outputs = generate::tree(random, &generated.outputs, 20, 8, generate::Growth::Even(12));
    let text = match (random.below(9), &sheet) {
        (8, _) => plan(&OutputTree::read(alphabets, &outputs).unwrap(), names),
        (0, _) => text::write_alphabets(alphabets, names),
        (1, _) => text::write_input_tree(&InputTree::read(alphabets, &tree).unwrap(), names),
        (2, _) => text::write_names(names),
        (3, _) | (_, None) => text::write_state_names(&state_names),
        (_, Some(sheet)) => text::write_transducer(sheet, names, &state_names),
    };
    (text, states)
}

/// Changes, deletes, inserts, doubles or swaps words.
fn damage_words(random: &mut Random, text: &str) -> String {
    const WORDS: [&str; 22] = [
        "(", ")", ",", "/", "->", "#", "\n", " ", "x1", "x2", "x5", "x", "q0", "a1", "A1", "0", "4", "5", "stock",
        "blocks", "e()", "\u{feff}",
    ];
    // Each blank and each bracket is a word here, so that a text is its words one after the other.
    let mut words: Vec<&str> = text.split_inclusive(|c: char| " (),/\n".contains(c)).collect();
    words = words
        .iter()
        .flat_map(|word| word.split_at_checked(word.len() - 1).map_or([*word, ""], |(a, b)| [a, b]))
        .collect();
    for _ in 0..random.pick(&[1, 1, 1, 2, 5]) {
        let (at, other) = (random.below(words.len()), random.below(words.len()));
        match random.below(6) {
            0 => words[at] = random.pick(&WORDS),
            1 => drop(words.remove(at)),
            2 => words.insert(at, random.pick(&WORDS)),
            3 => words.insert(at, words[other]),
            4 => words[at] = words[other],
            _ => words.swap(at, other),
        }
        if words.is_empty() {
            break;
        }
    }
    words.concat()
}

#[test]
fn damaged_texts() {
    let random = &mut Random::new(12);
    let (mut taken, mut cases) = (0, 0);
    for _ in 0..400 {
        let generated = generate::alike::small_alphabets(random);
        let alphabets = Alphabets::read(&generated.file()).unwrap();
        let names = some_names(random, &alphabets);
        let (text, states) = some_text(random, &generated, &alphabets, &names);
        assert!(read_all(text.as_bytes(), &alphabets, &names, states) > 0, "{text}");
        for _ in 0..50 {
            let mut damaged = text.clone().into_bytes();
            match random.once_in(2) {
                true => damaged = damage_words(random, &text).into_bytes(),
                false => generate::damage(random, &mut damaged),
            }
            taken += usize::from(read_all(&damaged, &alphabets, &names, states) > 0);
            cases += 1;
        }
    }
    assert!(taken > cases / 50 && taken < cases / 2, "{taken} of {cases}");
}

#[test]
fn long_texts() {
    const MILLION: usize = 1_000_000;
    let (alphabets, names) = s();
    let all = |text: String| read_all(text.as_bytes(), &alphabets, &names, 2);
    for start in ["stock parts a/1 e/0 blocks f", "design ", "plan ", "sheet opening ", "names parts ", "names passes "]
    {
        for piece in ["(", ")", "a(", "f(", "f(e,", "q(", "x1 ", "a/0 ", "# ", "#\n", " ", "é", "-", "->", "'", "0"] {
            assert_eq!(all(format!("{start}{}", piece.repeat(MILLION / 10))), 0, "{start}{piece}");
        }
    }
    let open = all(format!("design {}", "a(".repeat(MILLION))) + all(format!("sheet opening {}", "f(".repeat(MILLION)));
    assert_eq!(open, 0);
    let deep = format!("design {}e{}", "a(".repeat(MILLION), ")".repeat(MILLION));
    let refused = Err(Error::Refused(Refusal::BadTree));
    assert_eq!(text::read_input_tree(deep.as_bytes(), &alphabets, &names), refused);
    // the longest name: read, written, called; and one of a million letters, cut in a message
    let name = "n".repeat(100);
    let (alphabets, names) = stock(&format!("{name}/0"), &format!("{name}/0"));
    assert_eq!((names.inputs()[0].len(), text::write_names(&names).len()), (100, 221));
    let sheet = format!("sheet opening {name}(x1) {name}({name}) -> {name}");
    let (read, states) = text::read_transducer(sheet.as_bytes(), &alphabets, &names).unwrap();
    assert_eq!((read.states(), states.as_slice()[0].len()), (1, 100));
    let million = "n".repeat(MILLION);
    let error = text::read_input_tree(format!("design {million}").as_bytes(), &alphabets, &names).unwrap_err();
    let cut = "n".repeat(30);
    assert_eq!(error.to_string(), format!("1:8: expected a part kind ({cut}…), found `{cut}…`"));
    let error = text::read_alphabets(format!("stock parts {million}/0 blocks e/0").as_bytes()).unwrap_err();
    let expected = "1:13: expected a name of at most 100 characters or `blocks`";
    assert_eq!(error.to_string(), format!("{expected}, found `{cut}…`"));
}

/// A plan of 1,048,575 blocks, one of as many levels as there may be, and a writer that takes no more.
#[test]
fn large_output_trees() {
    let (alphabets, names) = s();
    let chain = |levels: usize| InputTree::read(&alphabets, &[vec![0; levels - 1], vec![1]].concat()).unwrap();
    let doubling = Transducer::read(&alphabets, T).unwrap();
    let balanced = (0..19).fold("e".to_string(), |tree, _| format!("f({tree}, {tree})"));
    let wide = doubling.translate(&chain(19), 1 << 20).unwrap();
    assert!(plan(&wide, &names) == format!("plan {balanced}\n"));
    // so many f over the call at each a: the last child is deep, or the first is
    for (before, behind) in [("f(e, ", ")"), ("f(", ", e)")] {
        for symbols in [1, 5, 17] {
            let [opened, closed] = [before, behind].map(|part| part.repeat(symbols));
            let sheet = format!("sheet opening q(x1) q(e) -> e q(a(x1)) -> {opened}q(x1){closed}");
            let (deepening, _) = text::read_transducer(sheet.as_bytes(), &alphabets, &names).unwrap();
            let deep = deepening.translate(&chain(1 + 255 / symbols), 1 << 20).unwrap();
            let [opened, closed] = [before, behind].map(|part| part.repeat(255));
            assert!(plan(&deep, &names) == format!("plan {opened}e{closed}\n"));
            for levels in [2 + 255 / symbols, 512] {
                assert_eq!(deepening.translate(&chain(levels), 1 << 20), Err(Refusal::DeepOutput));
            }
        }
    }
    let mut room = [0u8; 100_000];
    let error = text::write_output_tree(&wide, &names, &mut &mut room[..]).unwrap_err();
    assert_eq!(error.kind(), std::io::ErrorKind::WriteZero);
}
