//! The types of the crate: what they add to the functions over slices.
mod generate;

use caplune::text::{Names, StateNames};
use caplune::{Address, Alphabets, DamagedRegistry, InputTree, Mark, Refusal, Registry, Transducer};
use generate::samples::*;
use std::error::Error;

fn stock() -> Alphabets {
    Alphabets::read(S).unwrap()
}

#[test]
fn alphabets() {
    let alphabets = stock();
    assert_eq!((alphabets.input_ranks(), alphabets.output_ranks()), (&[1, 0][..], &[2, 0][..]));
    // more than a byte can count
    assert_eq!(Alphabets::new(&[0; 256], &[0]), Err(Refusal::BadAlphabets));
    assert_eq!(Alphabets::new(&[0], &[0; 257]), Err(Refusal::BadAlphabets));
    assert_eq!(Alphabets::new(&[0; 16], &[4; 64]).map(|longest| longest.as_bytes().len()), Ok(82));
    let second = Alphabets::new(&[2, 0], &[1, 0, 3]).unwrap();
    assert_eq!(alphabets.joined(&second).unwrap().as_bytes(), [2, 1, 0, 3, 1, 0, 3]);
    assert_eq!(second.joined(&alphabets), Err(Refusal::OtherAlphabet));
}

/// The parts of a transducer are those of its file, and make it again.
#[test]
fn parts_of_transducers() {
    for file in [T, T_PRIME, U, CONSTANT, &ring(64)] {
        let transducer = Transducer::read(&stock(), file).unwrap();
        let states = transducer.states();
        let pairs = (0..states).flat_map(|state| [(state, 0), (state, 1)]);
        let sides: Vec<_> = pairs.map(|(state, symbol)| transducer.right_hand_side(state, symbol).unwrap()).collect();
        let marks = transducer.initial_term().len() + sides.iter().map(Vec::len).sum::<usize>();
        assert_eq!(marks, transducer.marks());
        assert_eq!(Transducer::new(&stock(), states, &transducer.initial_term(), &sides).as_ref(), Ok(&transducer));
        assert_eq!(transducer.right_hand_side(states, 0), None);
        assert_eq!(transducer.right_hand_side(0, 2), None);
    }
}

/// What a file cannot hold is refused, and not taken for something else.
#[test]
fn terms_that_are_none() {
    let new = |states, initial: &[Mark], sides: &[Vec<Mark>]| Transducer::new(&stock(), states, initial, sides);
    let (symbol, call) = (Mark::Symbol(1), |child| Mark::Call { child, state: 0 });
    // in a file a child 0 would be a symbol
    assert_eq!(new(0, &[Mark::Call { child: 0, state: 1 }], &[]), Err(Refusal::BadBody));
    assert_eq!(new(1, &[call(0)], &[vec![symbol], vec![symbol]]), Err(Refusal::BadBody));
    assert!(new(1, &[call(1)], &[vec![symbol], vec![symbol]]).is_ok());
    assert_eq!(new(1, &[call(1)], &[vec![symbol]]), Err(Refusal::BadContents));
    assert_eq!(new(0, &[], &[]), Err(Refusal::BadContents));
    assert_eq!(new(0, &vec![symbol; 65_536], &[]), Err(Refusal::BadContents));
    assert_eq!(new(usize::MAX, &[symbol], &[]), Err(Refusal::BadContents));
}

/// The area of an output tree is as long as it takes.
#[test]
fn output_trees() {
    let transducer = Transducer::read(&stock(), T).unwrap();
    for levels in [1, 2, 11, 12, 13, 18] {
        let tree = InputTree::read(&stock(), &[vec![0; levels - 1], vec![1]].concat()).unwrap();
        let nodes = (2 << levels) - 1;
        assert_eq!(transducer.translate(&tree, usize::MAX).map(|output| output.nodes()), Ok(nodes));
        assert_eq!(transducer.translate(&tree, nodes).map(|output| output.nodes()), Ok(nodes));
        assert_eq!(transducer.translate(&tree, nodes - 1), Err(Refusal::LongOutput));
    }
    let deep = InputTree::read(&stock(), &[vec![0; 511], vec![1]].concat()).unwrap();
    assert_eq!(transducer.translate(&deep, 1 << 20), Err(Refusal::LongOutput));
    assert_eq!(transducer.translate(&deep, 0), Err(Refusal::LongOutput));
}

/// An output tree has at most 256 levels. One that is too long and too deep is refused by 6, also where the area was
/// made longer once or more.
#[test]
fn levels_of_output_trees() {
    let alphabets = Alphabets::new(&[1, 1, 0], &[2, 1, 0]).unwrap();
    // q(a(x1)) = f(q(x1), q(x1)), q(b(x1)) = g(q(x1)), q(e) = c
    let file = file(1, &[&[1, 0], &[0, 0, 1, 0, 1, 0], &[0, 1, 1, 0], &[0, 2]]);
    let transducer = Transducer::read(&alphabets, &file).unwrap();
    for doubled in [0, 1, 4, 5, 9] {
        for levels in [255, 256, 257, 400] {
            let rest = levels - 1 - doubled;
            let tree = [vec![0; doubled], vec![1; rest], vec![2]].concat();
            let tree = InputTree::read(&alphabets, &tree).unwrap();
            let nodes = ((rest + 2) << doubled) - 1;
            let expected = if levels <= Transducer::MOST_OUTPUT_LEVELS { Ok(nodes) } else { Err(Refusal::DeepOutput) };
            for most in [nodes, nodes + 1, usize::MAX] {
                assert_eq!(transducer.translate(&tree, most).map(|output| output.nodes()), expected);
            }
            for most in [0, 256, nodes - 1] {
                assert_eq!(transducer.translate(&tree, most.min(nodes - 1)), Err(Refusal::LongOutput));
            }
            // the last leaf, whatever the levels are
            let address = Address::from([vec![2; doubled], vec![1; rest]].concat());
            assert_eq!(transducer.symbol_at(&tree, &address), Ok(Some(2)));
        }
    }
}

/// Trees and transducers that were made under other alphabets are read again under those of the transducer.
#[test]
fn other_alphabets() {
    let wide = Alphabets::new(&[0, 2, 3], &[0, 2]).unwrap();
    let transducer = Transducer::read(&stock(), T).unwrap();
    let leaf = InputTree::read(&wide, &[0]).unwrap();
    assert_eq!(transducer.translate(&leaf, 100), Err(Refusal::BadTree));
    assert_eq!(transducer.symbol_at(&leaf, &Address::ROOT), Err(Refusal::BadTree));
    let other = Transducer::read(&wide, &[0, 0, 1, 0, 0]).unwrap();
    assert_eq!(transducer.compare(&other), Err(Refusal::BadBody));
    assert_eq!(transducer.shorter(&other), None);
    let mut registry = Registry::new(&stock(), 60).unwrap();
    assert_eq!(registry.enter(&other), Err(Refusal::BadBody));
    assert_eq!((registry.question(&other), registry.commit(&other, 1)), (Err(Refusal::BadBody), Err(Refusal::BadBody)));
}

#[test]
fn registries() {
    assert_eq!(Registry::new(&stock(), 5), Err(Refusal::FullRegistry));
    let registry = Registry::new(&stock(), usize::MAX).unwrap();
    assert_eq!((registry.area(), registry.used(), registry.held()), (Registry::LONGEST_AREA, 6, 0));
    assert_eq!((registry.normal_form(0), registry.normal_form(1), registry.alphabets()), (None, None, &stock()));
}

#[test]
fn names() {
    let strings = |names: &[&str]| names.iter().map(|name| name.to_string()).collect::<Vec<_>>();
    for good in ["a", "_", "x", "x1a", "q'", "Bl\u{fc}te", "stock", &"n".repeat(100)] {
        assert!(Names::new(strings(&[good]), strings(&[good])).is_some(), "{good}");
        assert!(StateNames::new(strings(&[good])).is_some(), "{good}");
    }
    for bad in ["", "1a", "x1", "a b", "a(", "'a", "->", "a\n", &"n".repeat(101)] {
        assert!(Names::new(strings(&[bad]), vec![]).is_none(), "{bad}");
        assert!(Names::new(vec![], strings(&[bad])).is_none(), "{bad}");
        assert!(StateNames::new(strings(&[bad])).is_none(), "{bad}");
    }
    assert!(StateNames::new(strings(&["a", "b", "a"])).is_none());
    assert_eq!(StateNames::numbered(usize::MAX).as_slice().len(), 128);
}

#[test]
fn addresses() {
    for (text, numbers) in [("-", &[][..]), ("0", &[0]), ("1.2.255", &[1, 2, 255]), ("01", &[1])] {
        assert_eq!(text.parse(), Ok(Address::from(numbers.to_vec())));
    }
    for none in ["", ".", "1.", ".1", "256", "1..2", "-1", "+1", "1.+2", "1,2", "a", " 1"] {
        assert!(none.parse::<Address>().is_err(), "{none}");
    }
    assert_eq!(AsRef::<[u8]>::as_ref(&Address::from(vec![2, 1])), [2, 1]);
}

/// Each refusal has a number of its own, a meaning and a remedy; errors tell where they come from.
#[test]
fn errors() {
    let numbers: Vec<u32> = Refusal::ALL.iter().map(|refusal| refusal.number()).collect();
    assert_eq!(numbers, [1, 2, 3, 4, 5, 6, 7, 8, 9, 10, 11, 12, 13, 16, 17]);
    for refusal in Refusal::ALL {
        assert_eq!(refusal.to_string(), format!("refused by {}: {}", refusal.number(), refusal.meaning()));
        assert!(!refusal.meaning().is_empty() && !refusal.remedy().is_empty());
    }
    let text = caplune::text::read_alphabets(b"stock parts blocks").unwrap_err();
    let store = caplune::store::Error::from(DamagedRegistry::Cut);
    assert_eq!(text.source().map(|error| error.to_string()), Some(Refusal::BadAlphabets.to_string()));
    assert_eq!(store.source().map(|error| error.to_string()), Some(DamagedRegistry::Cut.to_string()));
}
