//! The samples of document 01, by the types of this crate: prints each, and ends with an error where one is not as the
//! paper says.
//!
//! `cargo run --release --offline --example samples`
use caplune::text::{self, Names, StateNames};
use caplune::{Address, Alphabets, Comparison, InputTree, Mark, Refusal, Registry, Transducer};
use std::error::Error;

/// The stock S, with the paper's names.
const S: &str = "stock parts a/1 e/0 blocks f/2 e/0";
/// T and T' of document 000, example 1, and U, which is T with another line for e.
const T: &str = "sheet opening f(q(x1), q(x1)) q(a(x1)) -> f(q(x1), q(x1)) q(e) -> e";
const T_PRIME: &str = "sheet opening q(x1) q(a(x1)) -> f(q(x1), q(x1)) q(e) -> f(e, e)";
const U: &str = "sheet opening f(q(x1), q(x1)) q(a(x1)) -> f(q(x1), q(x1)) q(e) -> f(e, e)";
/// M of document 002, section 4, and its stock.
const M_STOCK: &str = "stock parts a/2 e/0 blocks d/2 e/0";
const M: &str = "sheet opening q(x1) q(a(x1, x2)) -> d(q(x1), d(q(x1), e)) q(e) -> d(d(e, e), d(e, e))";

fn main() -> Result<(), Box<dyn Error>> {
    let (stock, names) = text::read_alphabets(S.as_bytes())?;
    let read = |text: &str| text::read_transducer(text.as_bytes(), &stock, &names).map(|(transducer, _)| transducer);
    let (t, t_prime, u) = (read(T)?, read(T_PRIME)?, read(U)?);

    sewing(&t, &names)?;
    cleaning(&t, &t_prime, &names)?;
    comparing(&t, &t_prime, &u, &names)?;
    limits(&stock)?;
    book(&stock, [&t, &t_prime, &u])?;
    println!("T is {}single", if t.is_linear() { "" } else { "not " });
    assert!(!t.is_linear());

    let (stock, names) = text::read_alphabets(M_STOCK.as_bytes())?;
    let (m, _) = text::read_transducer(M.as_bytes(), &stock, &names)?;
    let clean = m.normal_form()?;
    println!("clean M: {} passes, {} marks", clean.states(), clean.marks());
    assert_eq!((clean.states(), clean.marks()), (3, 23));
    Ok(())
}

/// Plans of T, and one block of a plan that nobody could build.
fn sewing(t: &Transducer, names: &Names) -> Result<(), Box<dyn Error>> {
    for (design, plan) in [(&[1][..], &[0, 1, 1][..]), (&[0, 1], &[0, 0, 1, 1, 0, 1, 1])] {
        let tree = InputTree::read(t.alphabets(), design)?;
        let output = t.translate(&tree, plan.len())?;
        assert_eq!(output.as_bytes(), plan);
        assert_eq!(t.translate(&tree, plan.len() - 1), Err(Refusal::LongOutput));
        print!("T on the {}gives the ", text::write_input_tree(&tree, names).replace('\n', " "));
        text::write_output_tree(&output, names, &mut std::io::stdout())?;
    }
    let deep = InputTree::read(t.alphabets(), &[vec![0; 511], vec![1]].concat())?;
    let address = Address::from(vec![2; 512]);
    let symbol = t.symbol_at(&deep, &address)?;
    assert_eq!(symbol, Some(1));
    println!("T on 511 parts a over an e has a plan of 2^513 - 1 blocks; its last one is {}", names.outputs()[1]);
    Ok(())
}

/// T cleans to itself, T' to T from two trimmed passes, and a sheet without passes to itself.
fn cleaning(t: &Transducer, t_prime: &Transducer, names: &Names) -> Result<(), Box<dyn Error>> {
    assert_eq!(&t.normal_form()?, t);
    assert_eq!(&t_prime.normal_form()?, t);
    assert_eq!(t_prime.earliest_form()?.states(), 2);
    print!("T' cleaned is T:\n{}", text::write_transducer(t, names, &StateNames::numbered(1)));
    let constant = Transducer::read(t.alphabets(), &[0, 0, 1, 0, 1])?;
    assert_eq!(constant.normal_form()?, constant);
    Ok(())
}

/// T and T' are alike, T and U differ.
fn comparing(t: &Transducer, t_prime: &Transducer, u: &Transducer, names: &Names) -> Result<(), Box<dyn Error>> {
    assert_eq!(t.compare(t_prime)?, Comparison::Alike);
    let Comparison::Differ(shown) = t.compare(u)? else { return Err("T and U are alike".into()) };
    let design = text::write_input_tree(&shown.tree, names).replace('\n', "");
    let [first, second] = [shown.first, shown.second].map(|symbol| &names.outputs()[usize::from(symbol)]);
    println!("T and U differ: {design}, place {}: T holds {first} and U holds {second}", shown.address);
    assert_eq!(
        (shown.tree.as_bytes(), shown.address.to_string(), shown.first, shown.second),
        (&[1][..], "1".into(), 1, 0)
    );
    let clean = u.normal_form()?;
    assert_eq!((clean.states(), clean.marks()), (1, 11));
    Ok(())
}

/// The limits of trimmed sheets: open ends in an opening, and passes in a ring, all with the lines of T'.
fn limits(stock: &Alphabets) -> Result<(), Box<dyn Error>> {
    let call = |state: usize| Mark::Call { child: 1, state: state as u8 };
    let lines = |next: usize| [vec![Mark::Symbol(0), call(next), call(next)], [0, 1, 1].map(Mark::Symbol).to_vec()];
    let ends = |count: usize| {
        let mut opening = vec![Mark::Symbol(0); count - 1];
        opening.extend(vec![call(0); count]);
        Transducer::new(stock, 1, &opening, &lines(0))
    };
    assert_eq!(ends(16)?.earliest_form()?.initial_term().len(), 63);
    assert_eq!(ends(17)?.earliest_form(), Err(Refusal::OverLimits));
    let ring = |count: usize| {
        let lines: Vec<_> = (0..count).flat_map(|state| lines((state + 1) % count)).collect();
        Transducer::new(stock, count, &[call(0)], &lines)
    };
    assert_eq!((ring(64)?.earliest_form()?.states(), ring(64)?.normal_form()?.states()), (128, 1));
    assert_eq!(ring(65)?.normal_form(), Err(Refusal::OverLimits));
    println!("17 open ends and 65 passes in a ring are {}", Refusal::OverLimits);
    Ok(())
}

/// A book of area 60, and one that is too small.
fn book(stock: &Alphabets, sheets: [&Transducer; 3]) -> Result<(), Box<dyn Error>> {
    let mut book = Registry::new(stock, 60)?;
    let numbers = sheets.map(|sheet| book.enter(sheet));
    assert_eq!((numbers, book.used(), book.answered()), ([Ok(1), Ok(1), Ok(2)], 56, 3));
    println!("T, T' and U get the numbers 1, 1 and 2; {} bytes are used and {} answered", book.used(), book.answered());
    let (asked, clean) = book.question(sheets[1])?;
    assert_eq!((asked, &clean, book.answered()), (1, sheets[0], 3));
    assert_eq!((book.commit(sheets[1], 2), book.commit(sheets[1], 1)), (Err(Refusal::OtherNumber), Ok(1)));
    println!("T' would get 1 and is committed with 1; with 2 it is {}", Refusal::OtherNumber);
    let mut small = Registry::new(stock, 55)?;
    let numbers = sheets.map(|sheet| small.enter(sheet));
    assert_eq!(numbers, [Ok(1), Ok(1), Err(Refusal::FullRegistry)]);
    Ok(())
}
