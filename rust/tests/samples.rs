//! The paper's samples: on the independent implementation, and last on the proved library.
mod generate;

use caplune::slices;
use caplune_independent::*;
use generate::samples::file;

const S: &[u8] = &[2, 1, 0, 2, 2, 0];
const T: &[u8] = &[1, 0, 3, 0, 3, 0, 1, 0, 0, 1, 0, 1, 0, 0, 0, 1, 0, 1, 0, 0, 1];
/// a and e of ranks 1 and 0, g and c of ranks 1 and 0; and q(a(x1)) = g(q(x1)), q(e) = c.
const UNARY: &[u8] = &[2, 1, 0, 2, 1, 0];
const COPY: &[u8] = &[1, 0, 1, 0, 2, 0, 1, 1, 0, 0, 0, 1, 0, 0, 1];
const T_PRIME: &[u8] = &[1, 0, 1, 0, 3, 0, 3, 1, 0, 0, 0, 1, 0, 1, 0, 0, 0, 0, 1, 0, 1];

/// The output tree, and the same through an area of each length up to one more than is needed:
/// an area that is too short is refused by 6 and left as it was, and a longer one keeps its end.
fn gives(file: &[u8], tree: &[u8], output: &[u8]) {
    assert_eq!(translate(S, file, tree, output.len()).as_deref(), Ok(output));
    for length in 0..=output.len() + 1 {
        let mut area = vec![0xa5; length];
        let answer = translate_into(S, file, tree, &mut area);
        if length < output.len() {
            assert_eq!(answer, Err(6));
            assert_eq!(area, vec![0xa5; length]);
        } else {
            assert_eq!(answer, Ok(output.len()));
            assert_eq!(&area[..output.len()], output);
            assert!(area[output.len()..].iter().all(|&byte| byte == 0xa5));
        }
    }
}

#[test]
fn alphabets() {
    assert_eq!(read_alphabets(S), Ok(Alphabets { inputs: &[1, 0], outputs: &[2, 0] }));
    // no input symbol ends a tree
    assert_eq!(read_alphabets(&[1, 1, 1, 0]), Err(2));
    assert_eq!(read_alphabets(&[1, 0, 1, 4]), Ok(Alphabets { inputs: &[0], outputs: &[4] }));
    for bad in [&[][..], &[0], &[1], &[1, 0], &[1, 0, 0], &[1, 0, 1], &[1, 0, 1, 5], &[1, 0, 1, 0, 0], &[1, 5, 1, 0]] {
        assert_eq!(read_alphabets(bad), Err(2), "{bad:?}");
    }
    let longest: Vec<u8> = [vec![16], vec![0; 16], vec![64], vec![4; 64]].concat();
    assert_eq!(read_alphabets(&longest).map(|a| (a.inputs.len(), a.outputs.len())), Ok((16, 64)));
    assert_eq!(read_alphabets(&[vec![17], vec![0; 17], vec![1, 0]].concat()), Err(2));
    assert_eq!(read_alphabets(&[vec![1, 0], vec![65], vec![0; 65]].concat()), Err(2));
}

#[test]
fn trees() {
    // the paper's row 3
    assert_eq!(read_tree(S, &[0]), Err(3));
    for bad in [&[][..], &[1, 1], &[0, 1, 1], &[2], &[0, 2], &[0, 0]] {
        assert_eq!(read_tree(S, bad), Err(3), "{bad:?}");
    }
    let size = |tree: &[u8]| read_tree(S, tree).map(|tree| (tree.symbols.len(), tree.levels));
    assert_eq!(size(&[1]), Ok((1, 1)));
    assert_eq!(size(&[0, 1]), Ok((2, 2)));
    let chain = |levels: usize| [vec![0; levels - 1], vec![1]].concat();
    assert_eq!(size(&chain(512)), Ok((512, 512)));
    assert_eq!(size(&chain(513)), Err(3));
    // 4,096 nodes are 1,365 of rank 3 with a leaf more: the limit itself, and three nodes more
    let wide: &[u8] = &[2, 3, 0, 1, 0];
    let balanced = |forks: usize| {
        let mut tree = Vec::new();
        fn grow(tree: &mut Vec<u8>, forks: usize) {
            tree.push(u8::from(forks == 0));
            if forks > 0 {
                let rest = forks - 1;
                (0..3).for_each(|k| grow(tree, (rest + k) / 3));
            }
        }
        grow(&mut tree, forks);
        tree
    };
    assert_eq!(read_tree(wide, &balanced(1365)).map(|tree| tree.symbols.len()), Ok(4096));
    assert_eq!(balanced(1366).len(), 4099);
    assert_eq!(read_tree(wide, &balanced(1366)), Err(3));
    assert_eq!(read_tree(&[1, 1, 1, 0], &[0]), Err(2));
}

#[test]
fn transducers() {
    let read = read_transducer(S, T).unwrap();
    assert_eq!((read.states, read.counts, read.marks), (1, &T[1..7], &T[7..]));
    assert_eq!(read_transducer(S, &[0, 0, 1, 0, 1]).map(|t| t.states), Ok(0));
    // the paper's rows 4 and 5
    assert_eq!(read_transducer(S, &[1, 0, 3]), Err(4));
    assert_eq!(read_transducer(S, &[0, 0, 1, 1, 0]), Err(5));
    assert_eq!(read_transducer(S, &[]), Err(4));
    assert_eq!(read_transducer(S, &[129]), Err(4));
    assert_eq!(read_transducer(S, &T[..T.len() - 1]), Err(4));
    assert_eq!(read_transducer(S, &[T, &[0]].concat()), Err(4));
    // the initial term calls sub-tree 2; a right-hand side of a leaf calls at all; a symbol past 1
    assert_eq!(read_transducer(S, &[1, 0, 1, 0, 1, 0, 1, 2, 0, 0, 1, 0, 1]), Err(5));
    assert_eq!(read_transducer(S, &[1, 0, 1, 0, 1, 0, 1, 1, 0, 1, 0, 1, 0]), Err(5));
    assert_eq!(read_transducer(S, &[0, 0, 1, 0, 2]), Err(5));
    assert_eq!(read_transducer(S, &[0, 0, 2, 0, 1, 0, 1]), Err(5));
    assert_eq!(read_transducer(S, &[0, 0, 1, 0, 0]), Err(5));
    assert_eq!(read_transducer(&[1, 1, 1, 0], &[]), Err(2));
    // the longest file: 128 states, 16 input symbols, 8,192 marks in 2,049 terms
    let stock: Vec<u8> = [vec![16], vec![0; 16], vec![2, 0, 1]].concat();
    let mut counts = vec![4; 2047];
    counts.extend([2, 2]);
    assert_eq!(counts.iter().sum::<usize>(), MAX_MARKS);
    let file = |counts: &[usize]| {
        let mut file = vec![128];
        counts.iter().for_each(|&count| file.extend((count as u16).to_be_bytes()));
        counts.iter().for_each(|&count| file.extend([0, 1].repeat(count - 1).iter().chain(&[0, 0])));
        file
    };
    assert_eq!(file(&counts).len(), 20_483);
    assert_eq!(read_transducer(&stock, &file(&counts)).map(|t| t.states), Ok(128));
    counts[0] += 1;
    assert_eq!(read_transducer(&stock, &file(&counts)), Err(4));
}

#[test]
fn writing() {
    for file in [T, T_PRIME, &[0, 0, 1, 0, 1]] {
        let read = read_transducer(S, file).unwrap();
        let mut area = vec![0xa5; MAX_FILE + 3];
        assert_eq!(write_transducer(S, read.states, read.counts, read.marks, &mut area), Ok(file.len()));
        assert_eq!(&area[..file.len()], file);
        assert!(area[file.len()..].iter().all(|&byte| byte == 0xa5));
    }
    let (counts, marks) = T[1..].split_at(6);
    let mut area = vec![0xa5; MAX_FILE];
    assert_eq!(write_transducer(S, 1, counts, marks, &mut area[..MAX_FILE - 1]), Err(1));
    assert_eq!(write_transducer(&[], 1, counts, marks, &mut area[1..]), Err(1));
    assert_eq!(write_transducer(&[], 1, counts, marks, &mut area), Err(2));
    assert_eq!(write_transducer(S, 2, counts, marks, &mut area), Err(4));
    assert_eq!(write_transducer(S, usize::MAX, counts, marks, &mut area), Err(4));
    assert_eq!(write_transducer(S, 1 << 63, counts, marks, &mut area), Err(4));
    assert_eq!(write_transducer(S, 1, &counts[..5], marks, &mut area), Err(4));
    assert_eq!(write_transducer(S, 1, counts, &marks[1..], &mut area), Err(4));
    assert_eq!(write_transducer(S, 1, counts, &[2; 14], &mut area), Err(5));
    assert!(area.iter().all(|&byte| byte == 0xa5));
}

/// Stocks and transducers, and whether they are linear: of the states only those count that are reached.
fn near_linear() -> [(&'static [u8], Vec<u8>, bool); 8] {
    // the states are q, p and r, and each gives e at e
    let (e, q, p, r): (&[u8], &[u8], &[u8], &[u8]) = (&[0, 1], &[1, 0], &[1, 1], &[1, 2]);
    let twice = |call: &[u8]| [&[0, 0], call, call].concat();
    // a and b of rank 1, e of rank 0
    let two: &[u8] = &[3, 1, 1, 0, 2, 2, 0];
    [
        // p is not reached, and calls r twice, itself, or q, which is reached
        (S, file(3, &[q, q, e, &twice(r), e, r, e]), true),
        (S, file(2, &[q, q, e, &twice(p), e]), true),
        (S, file(2, &[q, q, e, &twice(q), e]), true),
        // the initial term calls p, that calls q, and that copies
        (S, file(2, &[p, &twice(q), e, q, e]), false),
        // p is called at b only
        (two, file(2, &[q, q, p, e, &twice(p), e, e]), false),
        (two, file(2, &[q, q, q, e, &twice(p), e, e]), true),
        // the initial term alone copies; it calls no state
        (S, file(1, &[&twice(q), e, e]), false),
        (S, file(1, &[e, &twice(q), e]), true),
    ]
}

#[test]
fn linear() {
    assert_eq!(is_linear(S, T), Ok(false));
    assert_eq!(is_linear(S, T_PRIME), Ok(false));
    assert_eq!(is_linear(S, &[0, 0, 1, 0, 1]), Ok(true));
    // q(a(x1)) = q(x1), q(e) = e
    assert_eq!(is_linear(S, &[1, 0, 1, 0, 1, 0, 1, 1, 0, 1, 0, 0, 1]), Ok(true));
    for (stock, file, expected) in near_linear() {
        assert_eq!(is_linear(stock, &file), Ok(expected), "{file:?}");
    }
    assert_eq!(is_linear(S, &[1, 0, 3]), Err(4));
    // q is not reached, and calls p, which is not there
    assert_eq!(is_linear(S, &file(1, &[&[0, 1], &[1, 1], &[0, 1]])), Err(5));
}

#[test]
fn translations() {
    gives(T, &[1], &[0, 1, 1]);
    gives(T, &[0, 1], &[0, 0, 1, 1, 0, 1, 1]);
    gives(T_PRIME, &[1], &[0, 1, 1]);
    gives(T_PRIME, &[0, 1], &[0, 0, 1, 1, 0, 1, 1]);
    gives(&[0, 0, 1, 0, 1], &[0, 0, 1], &[1]);
    // the paper's row 6
    assert_eq!(translate(S, T, &[0, 1], 6), Err(6));
    // 2^512 - 1 symbols are refused at once
    let chain = [vec![0; 511], vec![1]].concat();
    assert_eq!(translate(S, T_PRIME, &chain, 1000), Err(6));
    // the order of refusals
    assert_eq!(translate(&[], &[], &[], 0), Err(2));
    assert_eq!(translate(S, &[], &[], 0), Err(4));
    assert_eq!(translate(S, &[0, 0, 1, 1, 0], &[], 0), Err(5));
    assert_eq!(translate(S, T, &[], 0), Err(3));
    assert_eq!(translate(S, T, &[1], 0), Err(6));
    // 256 levels, and row 10: 257, behind 6
    let copy = |levels: usize, area: usize| {
        let mut area = vec![0xa5; area];
        let answer = translate_into(UNARY, COPY, &[vec![0; levels - 1], vec![1]].concat(), &mut area);
        (answer, area)
    };
    assert_eq!(copy(256, 256), (Ok(256), [vec![0; 255], vec![1]].concat()));
    assert_eq!(copy(257, 257), (Err(10), vec![0xa5; 257]));
    assert_eq!(copy(257, 256), (Err(6), vec![0xa5; 256]));
}

#[test]
fn addresses() {
    let at = |address: &[u8]| symbol_at(S, T, &[0, 1], address);
    assert_eq!(at(&[]), Ok(Some(0)));
    assert_eq!(at(&[1]), Ok(Some(0)));
    assert_eq!(at(&[2, 1]), Ok(Some(1)));
    for none in [&[0][..], &[3], &[5], &[255], &[1, 1, 1], &[2, 2, 0], &[1, 0, 1]] {
        assert_eq!(at(none), Ok(None), "{none:?}");
    }
    // the output tree of a chain of 512 levels has 2^513 - 1 symbols
    let chain = [vec![0; 511], vec![1]].concat();
    assert_eq!(symbol_at(S, T, &chain, &[2; 512]), Ok(Some(1)));
    assert_eq!(symbol_at(S, T, &chain, &[1; 511]), Ok(Some(0)));
    assert_eq!(symbol_at(S, T, &chain, &[1; 513]), Ok(None));
    assert_eq!(symbol_at(S, T, &[], &[]), Err(3));
    assert_eq!(symbol_at(S, &[], &[], &[]), Err(4));
}

#[test]
fn proved_library() {
    let number = caplune::Refusal::number;
    assert_eq!(slices::read_alphabets(S), Ok(slices::Symbols { inputs: 2, outputs: 2 }));
    assert_eq!(slices::read_alphabets(&[1, 1, 1, 0]).map_err(number), Err(2));
    assert_eq!(slices::read_tree(S, &[0, 1]), Ok(slices::Size { nodes: 2, levels: 2 }));
    assert_eq!(slices::read_tree(S, &[0]).map_err(number), Err(3));
    let parts = slices::Parts { states: 1, counts: &T[1..7], marks: &T[7..] };
    assert_eq!(slices::read_transducer(S, T), Ok(parts));
    assert_eq!(slices::read_transducer(S, &[1, 0, 3]).map_err(number), Err(4));
    assert_eq!(slices::read_transducer(S, &[0, 0, 1, 1, 0]).map_err(number), Err(5));
    assert_eq!(slices::is_linear(S, T), Ok(false));
    assert_eq!(slices::is_linear(S, &[0, 0, 1, 0, 1]), Ok(true));
    let mut area = vec![0xa5; MAX_FILE];
    let short = &mut area[..MAX_FILE - 1];
    assert_eq!(slices::write_transducer(S, 1, parts.counts, parts.marks, short).map_err(number), Err(1));
    assert!(area.iter().all(|&byte| byte == 0xa5));
    assert_eq!(slices::write_transducer(S, 1, parts.counts, parts.marks, &mut area), Ok(T.len()));
    assert_eq!(&area[..T.len()], T);
    assert!(area[T.len()..].iter().all(|&byte| byte == 0xa5));
}

#[test]
fn proved_linear() {
    for (stock, file, expected) in near_linear() {
        assert_eq!(slices::is_linear(stock, &file), Ok(expected), "{file:?}");
    }
    assert_eq!(slices::is_linear(S, &[1, 0, 3]).map_err(caplune::Refusal::number), Err(4));
    let wrong = file(1, &[&[0, 1], &[1, 1], &[0, 1]]);
    assert_eq!(slices::is_linear(S, &wrong).map_err(caplune::Refusal::number), Err(5));
}

#[test]
fn proved_translation() {
    let number = caplune::Refusal::number;
    let mut area = [0xa5; 8];
    assert_eq!(slices::translate(S, T, &[0, 1], &mut area[..6]).map_err(number), Err(6));
    assert_eq!(area, [0xa5; 8]);
    assert_eq!(slices::translate(S, T, &[0, 1], &mut area[..7]), Ok(7));
    assert_eq!(area, [0, 0, 1, 1, 0, 1, 1, 0xa5]);
    assert_eq!(slices::translate(S, T, &[1], &mut area), Ok(3));
    assert_eq!(area, [0, 1, 1, 1, 0, 1, 1, 0xa5]);
    assert_eq!(slices::symbol_at(S, T, &[1], &[1]), Ok(Some(1)));
    assert_eq!(slices::symbol_at(S, T, &[1], &[1, 1]), Ok(None));
    // an output tree of 2^513 - 1 symbols, which nobody builds
    let chain = [vec![0; 511], vec![1]].concat();
    assert_eq!(slices::symbol_at(S, T, &chain, &[2; 512]), Ok(Some(1)));
    assert_eq!(slices::translate(S, T, &chain, &mut area).map_err(number), Err(6));
}

#[test]
fn proved_levels() {
    let copy = |levels: usize, area: usize| {
        let mut area = vec![0xa5; area];
        let answer = slices::translate(UNARY, COPY, &[vec![0; levels - 1], vec![1]].concat(), &mut area);
        (answer.map_err(caplune::Refusal::number), area)
    };
    assert_eq!(copy(256, 256), (Ok(256), [vec![0; 255], vec![1]].concat()));
    assert_eq!(copy(257, 257), (Err(10), vec![0xa5; 257]));
    assert_eq!(copy(257, 256), (Err(6), vec![0xa5; 256]));
    // the place reader, comparison and cleaning know no such limit
    let chain = [vec![0; 511], vec![1]].concat();
    assert_eq!(slices::symbol_at(UNARY, COPY, &chain, &[1; 511]), Ok(Some(1)));
    let mut area = vec![0xa5; MAX_FILE];
    assert_eq!(slices::clean(UNARY, COPY, &mut area).map(|form| form.length), Ok(COPY.len()));
}
