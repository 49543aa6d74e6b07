//! Eight threads call the library at once, each with a stack of 512 KiB, and get what one thread got alone: the library
//! has no state of its own. Among the inputs are those that take the most stack.
mod generate;

use caplune::{drawing, slices, store, text};
use caplune::{Address, Alphabets, InputTree, OutputTree, Registry, Transducer};
use caplune::{Comparison, DamagedRegistry, Difference, Mark, NoAddress, NotCarried, Refusal};
use caplune::{EarlierRegistry, StoredRegistry};
use generate::alike::{any, chain, chain_alphabets};
use generate::joins::{self, Pair};
use generate::samples::*;
use generate::Random;
use std::sync::Barrier;
use std::thread;

const fn can_be_sent_and_shared<T: Send + Sync>() {}

/// Every public type of the crate.
const _: () = {
    can_be_sent_and_shared::<Address>();
    can_be_sent_and_shared::<Alphabets>();
    can_be_sent_and_shared::<Comparison>();
    can_be_sent_and_shared::<DamagedRegistry>();
    can_be_sent_and_shared::<Difference>();
    can_be_sent_and_shared::<EarlierRegistry>();
    can_be_sent_and_shared::<InputTree>();
    can_be_sent_and_shared::<Mark>();
    can_be_sent_and_shared::<NoAddress>();
    can_be_sent_and_shared::<NotCarried>();
    can_be_sent_and_shared::<OutputTree>();
    can_be_sent_and_shared::<Refusal>();
    can_be_sent_and_shared::<Registry>();
    can_be_sent_and_shared::<StoredRegistry>();
    can_be_sent_and_shared::<Transducer>();
    can_be_sent_and_shared::<drawing::Drawn>();
    can_be_sent_and_shared::<slices::Asked>();
    can_be_sent_and_shared::<slices::Comparison>();
    can_be_sent_and_shared::<slices::Difference>();
    can_be_sent_and_shared::<slices::Form>();
    can_be_sent_and_shared::<slices::Head>();
    can_be_sent_and_shared::<slices::Parts>();
    can_be_sent_and_shared::<slices::Record>();
    can_be_sent_and_shared::<slices::Size>();
    can_be_sent_and_shared::<slices::Symbols>();
    can_be_sent_and_shared::<store::Error>();
    can_be_sent_and_shared::<text::Error>();
    can_be_sent_and_shared::<text::Kind>();
    can_be_sent_and_shared::<text::Names>();
    can_be_sent_and_shared::<text::StateNames>();
};

const THREADS: usize = 8;
const ROUNDS: usize = 12;
const STACK: usize = 512 * 1024;
/// The most symbols of an output tree.
const OUTPUT: usize = 20_000;

/// What a call gave.
#[derive(Debug, PartialEq)]
enum Answer {
    Tree(Result<InputTree, Refusal>),
    Output(Result<OutputTree, Refusal>),
    Xml(Result<String, Refusal>),
    Symbol(Result<Option<u8>, Refusal>),
    Form(Result<Transducer, Refusal>),
    Comparison(Result<Comparison, Refusal>),
    /// The numbers of the entries, and the registry behind them.
    Entries(Vec<Result<usize, Refusal>>, Box<Registry>),
    /// What a question answered, the numbers of commits, and the registry behind them.
    Asked(Result<(usize, Transducer), Refusal>, Vec<Result<usize, Refusal>>, Box<Registry>),
}

/// A call, on inputs of its own.
type Call = Box<dyn Fn() -> Answer + Send + Sync>;

fn alphabets(stock: &[u8]) -> Alphabets {
    Alphabets::read(stock).expect("it is a stock")
}

fn transducer(stock: &[u8], file: &[u8]) -> Transducer {
    Transducer::read(&alphabets(stock), file).expect("it is a sheet")
}

/// The calls on a transducer and an input tree.
fn on_a_tree(calls: &mut Vec<Call>, stock: &[u8], file: &[u8], tree: Vec<u8>, address: Vec<u8>) {
    let (alphabets, transducer) = (alphabets(stock), transducer(stock, file));
    let input = InputTree::read(&alphabets, &tree).expect("it is a design");
    let (other, same_input) = (transducer.clone(), input.clone());
    let address = Address::from(address);
    calls.push(Box::new(move || Answer::Tree(InputTree::read(&alphabets, &tree))));
    calls.push(Box::new(move || Answer::Output(transducer.translate(&input, OUTPUT))));
    calls.push(Box::new(move || Answer::Symbol(other.symbol_at(&same_input, &address))));
}

/// The calls on two transducers over one stock.
fn on_two(calls: &mut Vec<Call>, stock: &[u8], first: &[u8], second: &[u8]) {
    let both = [first, second].map(|file| transducer(stock, file));
    let [to_compare, to_enter, to_ask] = [both.clone(), both.clone(), both.clone()];
    let registry = Registry::new(&alphabets(stock), 50_000).expect("there is room");
    let to_commit = registry.clone();
    let [one, _] = both;
    calls.push(Box::new(move || Answer::Form(one.normal_form())));
    calls.push(Box::new(move || Answer::Comparison(to_compare[0].compare(&to_compare[1]))));
    calls.push(Box::new(move || {
        let mut registry = Box::new(registry.clone());
        let numbers = [0, 1, 1, 0].map(|index| registry.enter(&to_enter[index]));
        Answer::Entries(numbers.to_vec(), registry)
    }));
    calls.push(Box::new(move || {
        let mut registry = Box::new(to_commit.clone());
        let asked = registry.question(&to_ask[0]);
        let numbers = [(0, 2), (0, 1), (1, 2), (1, 1)].map(|(index, claim)| registry.commit(&to_ask[index], claim));
        Answer::Asked(asked, numbers.to_vec(), registry)
    }));
}

/// The calls on an output tree, written as XML and read again.
fn on_xml(calls: &mut Vec<Call>, outputs: &[u8], tree: &[u8]) {
    let alphabets = Alphabets::new(&[0], outputs).expect("it is a stock");
    let tree = OutputTree::read(&alphabets, tree).expect("it is a plan");
    let text = tree.to_xml().expect("it is a plan");
    calls.push(Box::new(move || Answer::Xml(tree.to_xml())));
    calls.push(Box::new(move || Answer::Output(OutputTree::from_xml(&alphabets, text.as_bytes()))));
}

/// The call of the composition.
fn on_a_pair(calls: &mut Vec<Call>, pair: &Pair) {
    let [first, second] = [0, 1].map(|index| transducer(&pair.stocks[index], &pair.files[index]));
    calls.push(Box::new(move || Answer::Form(first.then(&second))));
}

/// Input trees of 512 levels, transducers of 128 states, terms of 64 levels, and output trees of 4,096.
fn largest() -> Vec<Call> {
    let mut calls = Vec::new();
    let chain_tree = || [vec![0; 511], vec![1]].concat();
    // T doubles, so that its output is too long; that of the identity is too deep, and has 256 levels on half the tree
    on_a_tree(&mut calls, S, T, chain_tree(), vec![2; 512]);
    let (unary, identity) = ([2, 1, 0, 2, 1, 0], joins::identity(&[1, 0]).file());
    on_a_tree(&mut calls, &unary, &identity, chain_tree(), vec![1; 511]);
    on_a_tree(&mut calls, &unary, &identity, chain_tree()[256..].to_vec(), vec![1; 255]);
    // two states that take turns, of which one writes: 512 levels give 256
    let turns = file(2, &[&[1, 1], &[0, 0, 1, 1], &[0, 1], &[1, 0], &[0, 1]]);
    on_a_tree(&mut calls, &unary, &turns, chain_tree(), vec![1; 255]);
    // 512 levels and 256, each with a leaf beside it
    let fork = |levels: usize| [[0, 1].repeat(levels - 1), vec![1]].concat();
    on_a_tree(&mut calls, joins::PAIRS, joins::MIRROR, fork(512), vec![1; 511]);
    on_a_tree(&mut calls, joins::PAIRS, joins::MIRROR, fork(256), vec![1; 255]);
    let stock = chain_alphabets().file();
    let long = |last: u8| chain(128, 61, last).file();
    on_two(&mut calls, &stock, &long(1), &long(2));
    on_two(&mut calls, &stock, &long(2), &long(2));
    let many = [&[1, 0][..], &[0, 2, 1, 0]].map(many_marks);
    on_two(&mut calls, &stock_of_many_marks(), &many[0], &many[1]);
    on_two(&mut calls, S, &ring(64), T);
    on_two(&mut calls, S, &ring(65), T);
    for pair in [joins::longest(0), joins::long(1, 63, 1), joins::full(1), joins::grid(11, 12), joins::multiplying(32)]
    {
        on_a_pair(&mut calls, &pair);
    }
    on_xml(&mut calls, &[1, 0], &[vec![0; 4_095], vec![1]].concat());
    on_xml(&mut calls, &[2, 0], &[vec![0; 2_047], vec![1; 2_048]].concat());
    calls
}

/// Generated inputs.
fn generated() -> Vec<Call> {
    let mut calls = Vec::new();
    for seed in 0..60 {
        let mut random = Random::new(seed + 40_000_000);
        let (alphabets, sheet) = any(&mut random);
        let (stock, file) = (alphabets.file(), sheet.file());
        if slices::read_transducer(&stock, &file).is_err() {
            continue;
        }
        let nodes = random.range(1, 200);
        let tree = generate::tree(&mut random, &alphabets.inputs, nodes, 40, generate::Growth::Even(12));
        on_a_tree(&mut calls, &stock, &file, tree, vec![1; random.below(6)]);
        if alphabets.outputs.contains(&0) {
            let output = generate::tree(&mut random, &alphabets.outputs, nodes, nodes, generate::Growth::Even(12));
            on_xml(&mut calls, &alphabets.outputs, &output);
        }
        let changed = sheet.with_one_mark_changed(&mut random, &alphabets).unwrap_or_else(|| sheet.clone());
        let second = if random.once_in(2) { changed } else { sheet }.alike(&mut random, &alphabets, 4);
        on_two(&mut calls, &stock, &file, &second.file());
        let two = joins::any(&mut random, 2);
        let pair = Pair::of(&two[0], &two[1]);
        if (0..2).all(|index| slices::read_transducer(&pair.stocks[index], &pair.files[index]).is_ok()) {
            on_a_pair(&mut calls, &pair);
        }
    }
    calls
}

/// Runs `work` on a thread with the short stack.
fn on_short_stack<'scope, T: Send + 'scope>(
    scope: &'scope thread::Scope<'scope, '_>,
    work: impl FnOnce() -> T + Send + 'scope,
) -> thread::ScopedJoinHandle<'scope, T> {
    thread::Builder::new().stack_size(STACK).spawn_scoped(scope, work).expect("a thread starts")
}

/// Eight threads make all calls in rounds, each from another call on, and compare what they get.
fn at_once(calls: &[Call]) {
    let alone: Vec<Answer> = thread::scope(|scope| {
        on_short_stack(scope, || calls.iter().map(|call| call()).collect()).join().expect("one thread alone")
    });
    let start = Barrier::new(THREADS);
    let all = |thread: usize| {
        start.wait();
        for round in 0..ROUNDS {
            // in this order two threads are at the same call now and then, and most often at different ones
            let first = (thread * calls.len() / THREADS + round * thread) % calls.len();
            for index in (first..calls.len()).chain(0..first) {
                assert!(calls[index]() == alone[index], "call {index} by thread {thread} in round {round}");
            }
        }
    };
    let all = &all;
    thread::scope(|scope| {
        let threads: Vec<_> = (0..THREADS).map(|thread| on_short_stack(scope, move || all(thread))).collect();
        threads.into_iter().for_each(|thread| thread.join().expect("a thread got what one thread gets alone"));
    });
}

#[test]
fn largest_inputs() {
    let calls = largest();
    // the limits are met: 512 levels, and 128 states that are told apart
    let answers: Vec<Answer> = calls.iter().map(|call| call()).collect();
    assert!(answers.iter().any(|answer| matches!(answer, Answer::Tree(Ok(tree)) if tree.levels() == 512)));
    let nodes =
        |wanted| move |answer: &Answer| matches!(answer, Answer::Output(Ok(output)) if output.nodes() == wanted);
    assert_eq!(answers.iter().filter(|answer| nodes(256)(answer)).count(), 2);
    assert_eq!(answers.iter().filter(|answer| nodes(511)(answer)).count(), 1);
    assert_eq!(answers.iter().filter(|answer| nodes(4_096)(answer)).count(), 1);
    assert!(answers.iter().any(|answer| matches!(answer, Answer::Xml(Ok(text)) if text.len() == 36_860)));
    assert!(answers.iter().any(|answer| matches!(answer, Answer::Output(Err(Refusal::DeepOutput)))));
    assert!(answers.iter().any(|answer| matches!(answer, Answer::Output(Err(Refusal::LongOutput)))));
    assert!(answers.iter().any(|answer| matches!(answer, Answer::Form(Ok(form)) if form.states() == 128)));
    assert!(answers.iter().any(|answer| matches!(answer, Answer::Comparison(Ok(Comparison::Differ(_))))));
    assert!(answers.iter().any(|answer| matches!(answer, Answer::Entries(numbers, _) if numbers[2] == Ok(2))));
    let committed = [Err(Refusal::OtherNumber), Ok(1), Ok(2), Err(Refusal::OtherNumber)];
    let asked = |answer: &Answer| match answer {
        Answer::Asked(Ok((1, form)), numbers, _) => form.states() == 128 && *numbers == committed,
        _ => false,
    };
    assert!(answers.iter().any(asked));
    at_once(&calls);
}

#[test]
fn generated_inputs() {
    at_once(&generated());
}
