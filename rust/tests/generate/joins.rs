//! Transducers to join: by hand, at the limits of the joined one and past them, and random ones.
use super::alike::{prefixed_transducer, small_alphabets, small_transducer};
use super::samples::*;
use super::{Alphabets, Random, Transducer};

/// Two transducers, the second of which runs on the output of the first.
#[derive(Clone, Debug)]
pub struct Pair {
    pub stocks: [Vec<u8>; 2],
    pub files: [Vec<u8>; 2],
}

impl Pair {
    pub fn new(stocks: [&[u8]; 2], files: [&[u8]; 2]) -> Self {
        Pair { stocks: stocks.map(<[u8]>::to_vec), files: files.map(<[u8]>::to_vec) }
    }

    pub fn of(first: &(Alphabets, Transducer), second: &(Alphabets, Transducer)) -> Self {
        let both = [first, second];
        Pair { stocks: both.map(|(alphabets, _)| alphabets.file()), files: both.map(|(_, sheet)| sheet.file()) }
    }
}

/// The stock of the joined transducer: the input symbols of the first and the output symbols of the second.
pub fn joined_stock(first: &[u8], second: &[u8]) -> Vec<u8> {
    [&first[..1 + usize::from(first[0])], &second[1 + usize::from(second[0])..]].concat()
}

/// The numbers of states and marks of a transducer's file under a stock.
pub fn size(stock: &[u8], file: &[u8]) -> (usize, usize) {
    let (states, inputs) = (usize::from(file[0]), usize::from(stock[0]));
    let bytes = file.len() - 1 - 2 * (1 + states * inputs);
    assert_eq!(bytes % 2, 0);
    (states, bytes / 2)
}

/// The alphabets of M over those of S: the output symbols of S, f and e, are the input symbols.
pub const PAIRS: &[u8] = STOCK_OF_M;
/// Over PAIRS, q(f(x1, x2)) = f(q(x2), q(x1)), q(e) = e.
pub const MIRROR: &[u8] = &[1, 0, 1, 0, 3, 0, 1, 1, 0, 0, 0, 2, 0, 1, 0, 0, 1];
/// T over PAIRS: the initial term f(q(x1), q(x1)), q(f(x1, x2)) = f(q(x1), q(x2)), q(e) = e.
pub const T_OF_PAIRS: &[u8] = &[1, 0, 3, 0, 3, 0, 1, 0, 0, 1, 0, 1, 0, 0, 0, 1, 0, 2, 0, 0, 1];
/// T' over PAIRS: the initial term q(x1), q(f(x1, x2)) = f(q(x1), q(x2)), q(e) = f(e, e).
pub const T_PRIME_OF_PAIRS: &[u8] = &[1, 0, 1, 0, 3, 0, 3, 1, 0, 0, 0, 1, 0, 2, 0, 0, 0, 0, 1, 0, 1];
/// Over PAIRS, two states that take turns: p(f(x1, x2)) = f(r(x1), p(x2)), p(e) = e,
/// r(f(x1, x2)) = f(p(x2), r(x1)), r(e) = f(e, e), and p is the initial one.
pub const TURNS: &[u8] =
    &[2, 0, 1, 0, 3, 0, 1, 0, 3, 0, 3, 1, 0, 0, 0, 1, 1, 2, 0, 0, 1, 0, 0, 2, 0, 1, 1, 0, 0, 0, 1, 0, 1];
/// Over PAIRS, p(f(x1, x2)) = p(x1), p(e) = e.
pub const LEFTMOST: &[u8] = &[1, 0, 1, 0, 1, 0, 1, 1, 0, 1, 0, 0, 1];
/// Over S, the initial term f(q(x1), s(x1)), q(a(x1)) = q(x1), q(e) = e, s(a(x1)) = s(x1), s(e) = f(e, e).
pub const TWO_ENDS: &[u8] = &[2, 0, 3, 0, 1, 0, 1, 0, 1, 0, 3, 0, 0, 1, 0, 1, 1, 1, 0, 0, 1, 1, 1, 0, 0, 0, 1, 0, 1];
/// Over PAIRS, p(f(x1, x2)) = f(p(x1), r(x2)), p(e) = e, r(f(x1, x2)) = f(r(x2), e), r(e) = f(e, e), and p is
/// the initial one.
pub const TWO_SIDES: &[u8] =
    &[2, 0, 1, 0, 3, 0, 1, 0, 3, 0, 3, 1, 0, 0, 0, 1, 0, 2, 1, 0, 1, 0, 0, 2, 1, 0, 1, 0, 0, 0, 1, 0, 1];

/// Pairs over S and PAIRS, and the files of the joined ones, found by hand; (q, p) is the pair of q of the first
/// and p of the second.
pub fn samples() -> Vec<(&'static str, Pair, Vec<u8>)> {
    let sample = |name, first: &[u8], second: &[u8], joined: &[u8]| {
        (name, Pair::new([S, PAIRS], [first, second]), joined.to_vec())
    };
    // d(p(x1), d(p(x1), e)), and d(d(e, e), d(e, e))
    let m_at_f = [0, 0, 1, 0, 0, 0, 1, 0, 0, 1];
    let m_at_e = [0, 0, 0, 0, 0, 1, 0, 1, 0, 0, 0, 1, 0, 1];
    vec![
        // both sub-trees of f are one call: the mirror changes nothing
        sample("the mirror after T", T, MIRROR, T),
        sample("the mirror after T'", T_PRIME, MIRROR, T_PRIME),
        // d(p(x1), d(p(x1), e)) of f(q(x1), q(x1)), in the initial term and at a
        sample("M after T", T, &m(), &[&[1, 0, 5, 0, 5, 0, 7], &m_at_f[..], &m_at_f, &m_at_e].concat()),
        // at e the first gives f(e, e): what M has at f, with what it has at e in two places
        sample(
            "M after T'",
            T_PRIME,
            &m(),
            &[&[1, 0, 1, 0, 5, 0, 17, 1, 0], &m_at_f[..], &[0, 0], &m_at_e, &[0, 0], &m_at_e, &[0, 1]].concat(),
        ),
        // f over twice the call that is the initial term of the first, and at e f(e, e) stays: U
        sample("T after T'", T_PRIME, T_OF_PAIRS, U),
        // f(q(x1), q(x1)) of the first stays, and at e e becomes f(e, e): U again
        sample("T' after T", T, T_PRIME_OF_PAIRS, U),
        // f over twice f(q(x1), q(x1))
        sample(
            "T after T",
            T,
            T_OF_PAIRS,
            &[1, 0, 7, 0, 3, 0, 1, 0, 0, 0, 0, 1, 0, 1, 0, 0, 0, 1, 0, 1, 0, 0, 0, 1, 0, 1, 0, 0, 1],
        ),
        // at e f(e, e) becomes f(f(e, e), f(e, e))
        sample(
            "T' after T'",
            T_PRIME,
            T_PRIME_OF_PAIRS,
            &[1, 0, 1, 0, 3, 0, 7, 1, 0, 0, 0, 1, 0, 1, 0, 0, 0, 0, 0, 0, 1, 0, 1, 0, 0, 0, 1, 0, 1],
        ),
        // The initial term is p of f(q(x1), q(x1)): f((q, r)(x1), (q, p)(x1)), so that (q, r) is state 0. It is
        // f((q, p)(x1), (q, r)(x1)) at a and f(e, e) at e; (q, p) is f((q, r)(x1), (q, p)(x1)) and e.
        sample(
            "turns after T",
            T,
            TURNS,
            &[
                2, 0, 3, 0, 3, 0, 3, 0, 3, 0, 1, 0, 0, 1, 0, 1, 1, 0, 0, 1, 1, 1, 0, 0, 0, 0, 1, 0, 1, 0, 0, 1, 0, 1,
                1, 0, 1,
            ],
        ),
        // The initial term is (q, p)(x1), state 0: f((q, r)(x1), (q, p)(x1)) at a, and p of f(e, e) at e, which is
        // f(f(e, e), e). Then (q, r): f((q, p)(x1), (q, r)(x1)) at a, and f(e, f(e, e)) at e.
        sample(
            "turns after T'",
            T_PRIME,
            TURNS,
            &[
                2, 0, 1, 0, 3, 0, 5, 0, 3, 0, 5, 1, 0, 0, 0, 1, 1, 1, 0, 0, 0, 0, 0, 0, 1, 0, 1, 0, 1, 0, 0, 1, 0, 1,
                1, 0, 0, 0, 1, 0, 0, 0, 1, 0, 1,
            ],
        ),
        // no state, and the initial term M of e
        sample("M after a constant", CONSTANT, &m(), &[&[0, 0, 7], &m_at_e[..]].concat()),
        // no state, and the initial term of the second
        sample("a constant after T", T, CONSTANT, CONSTANT),
        // p of f(q(x1), q(x1)) is (q, p)(x1)
        sample("the leftmost after T", T, LEFTMOST, &[1, 0, 1, 0, 1, 0, 1, 1, 0, 1, 0, 0, 1]),
        // Of the four pairs only (q, p) and (s, r) are met: the initial term is f((q, p)(x1), (s, r)(x1)), they
        // call themselves at a, and at e they are e, and r of f(e, e), which is f(f(e, e), e).
        sample(
            "two sides after two ends",
            TWO_ENDS,
            TWO_SIDES,
            &[2, 0, 3, 0, 1, 0, 1, 0, 1, 0, 5, 0, 0, 1, 0, 1, 1, 1, 0, 0, 1, 1, 1, 0, 0, 0, 0, 0, 1, 0, 1, 0, 1],
        ),
    ]
}

/// Stocks after S whose input symbols are not f and e: as many of other ranks, or of these ranks in another
/// order, and more or fewer.
pub fn other_stocks() -> [&'static [u8]; 6] {
    [
        S,
        &[2, 0, 2, 2, 2, 0],
        &[1, 0, 2, 2, 0],
        &[3, 2, 0, 0, 2, 2, 0],
        &[3, 2, 0, 2, 2, 2, 0],
        &[16, 2, 0, 0, 0, 0, 0, 0, 0, 0, 0, 0, 0, 0, 0, 0, 0, 1, 0],
    ]
}

/// u and e of ranks 1 and 0 to g, c, d of ranks 1, 0, 0, and these to themselves.
fn chains() -> [Alphabets; 2] {
    [&[1, 0][..], &[1, 0, 0]].map(|inputs| Alphabets { inputs: inputs.to_vec(), outputs: vec![1, 0, 0] })
}

/// So many g over the marks.
fn over(symbols: usize, marks: [u8; 2]) -> Vec<u8> {
    [vec![0; 2 * symbols], marks.to_vec()].concat()
}

/// A transducer of the initial term q0(x1), with the right-hand sides of each state.
fn states(states: usize, sides: impl Fn(usize) -> Vec<Vec<u8>>) -> Transducer {
    let sides = (0..states).flat_map(sides);
    Transducer { states, terms: std::iter::once(vec![1, 0]).chain(sides).collect() }
}

/// Two rows of states that go round, each by its number of states and the state that follows the last. Both
/// take a step at u, so that the pairs are met one after another: as many as there are states before both
/// rows go round, and then as many as both take to be at the same states again.
pub fn rows(first: [usize; 2], second: [usize; 2]) -> Pair {
    let next = |[count, back]: [usize; 2], state: usize| (if state + 1 < count { state + 1 } else { back }) as u8;
    let [one, two] = chains();
    Pair::of(
        &(one, states(first[0], |state| vec![over(1, [1, next(first, state)]), vec![0, 1]])),
        &(two, states(second[0], |state| vec![over(1, [1, next(second, state)]), vec![0, 1], vec![0, 2]])),
    )
}

/// Two rings of states. The first takes a step alone at u, and the second at v: all pairs are met.
pub fn grid(first: usize, second: usize) -> Pair {
    let [mut one, two] = chains();
    one.inputs.insert(0, 1);
    let next = |count: usize, state: usize| ((state + 1) % count) as u8;
    Pair::of(
        &(one, states(first, |state| vec![vec![1, next(first, state)], over(1, [1, state as u8]), vec![0, 1]])),
        &(two, states(second, |state| vec![over(1, [1, next(second, state)]), vec![0, 1], vec![0, 2]])),
    )
}

/// One state that has so many g for one, c for c, and so many g over d for d.
fn stretching(symbols: usize, over_d: usize) -> Transducer {
    states(1, |_| vec![over(symbols, [1, 0]), vec![0, 1], over(over_d, [0, 2])])
}

/// A term of the first transducer has so many g, of which each is made to so many. Term 0 is the initial term,
/// 1 and 2 are the right-hand sides of a state at u and e, and 3 and 4 those of one that is not met.
pub fn long(number: usize, symbols: usize, times: usize) -> Pair {
    let mut first = states(2, |_| vec![vec![1, 0], vec![0, 1]]);
    let end = first.terms[number].clone();
    first.terms[number] = over(symbols, [end[0], end[1]]);
    let [one, two] = chains();
    Pair::of(&(one, first), &(two, stretching(times, 0)))
}

/// 128 states that become pairs, with 63 marks at u, and at e one; but the last one has 61 marks at u, and
/// the last `ends` have two at e. With the initial term there are 8,191 and `ends` in all.
pub fn full(ends: usize) -> Pair {
    let first = states(128, |state| {
        let symbols = if state == 127 { 30 } else { 31 };
        vec![over(symbols, [1, (state + 1) as u8 % 128]), vec![0, if state + ends < 128 { 1 } else { 2 }]]
    });
    let [one, two] = chains();
    Pair::of(&(one, first), &(two, stretching(2, 1)))
}

/// 128 states that become pairs, and 16 symbols, of which 15 have rank 1: four marks in each right-hand side,
/// but three in the last, and in the initial term one and so many g more. Without these it is the longest file.
pub fn longest(initial: usize) -> Pair {
    let [mut one, two] = chains();
    one.inputs = [vec![1; 15], vec![0]].concat();
    let first = states(128, |state| {
        let mut sides = vec![over(1, [1, (state + 1) as u8 % 128]); 15];
        sides.push(if state == 127 { vec![0, 2] } else { over(1, [0, 1]) });
        sides
    });
    let mut second = stretching(3, 2);
    second.terms[0] = over(initial, [1, 0]);
    Pair::of(&(one, first), &(two, second))
}

/// A term of the first transducer with so many h and then so many g over c, of ranks 1, 1 and 0; the second
/// has k(q(x1)) for h(x1), and for c a tree of f of three levels; for g(x1) f(q(x1), q(x1)). So a term with
/// h and g is of 2^(g + 3) - 1 + h marks. The term is the initial term, or a right-hand side.
pub fn doubling(initial: bool, ones: usize, doubles: usize) -> Pair {
    let first = Alphabets { inputs: vec![0], outputs: vec![1, 1, 0] };
    let second = Alphabets { inputs: first.outputs.clone(), outputs: vec![2, 0, 1] };
    let term = [[0, 0].repeat(ones), [0, 1].repeat(doubles), vec![0, 2]].concat();
    let mut one = states(1, |_| vec![vec![0, 2]]);
    one.terms[usize::from(!initial)] = term;
    let two =
        states(1, |_| vec![vec![0, 2, 1, 0], vec![0, 0, 1, 0, 1, 0], vec![0, 0, 0, 0, 0, 1, 0, 1, 0, 0, 0, 1, 0, 1]]);
    Pair::of(&(first, one), &(second, two))
}

/// 63 symbols over the call of a state, of which each is made to so many calls, as many as a right-hand side
/// has marks for or fewer.
pub fn multiplying(calls: usize) -> Pair {
    let [one, mut two] = chains();
    two.outputs = vec![2, 0, 1];
    let first = states(1, |_| vec![over(63, [1, 0]), vec![0, 1]]);
    let second = states(1, |_| {
        let comb = [[0, 0, 1, 0].repeat(calls - 1), vec![1, 0]].concat();
        vec![comb, vec![0, 1], vec![0, 1]]
    });
    Pair::of(&(one, first), &(two, second))
}

/// The numbers of states and marks of a joined transducer, or the refusal.
type Sizes = Result<(usize, usize), u32>;

/// Pairs at the limits of the joined transducer and past them.
pub fn limits() -> Vec<(String, Pair, Sizes)> {
    let mut cases = Vec::new();
    let mut case = |name: String, pair, expected| cases.push((name, pair, expected));
    // one term of two marks and one of one for each pair, and the initial term
    for (first, second, pairs) in [
        ([1, 0], [1, 0], 1),
        ([127, 0], [1, 0], 127),
        ([128, 0], [1, 0], 128),
        ([1, 0], [128, 0], 128),
        ([128, 0], [64, 0], 128),
        ([64, 0], [128, 0], 128),
        ([128, 0], [128, 0], 128),
        ([128, 127], [128, 127], 128),
        // 5 states before and then 3 times 41
        ([8, 5], [43, 2], 128),
        ([43, 2], [8, 5], 128),
        // 6 states before
        ([9, 6], [43, 2], 129),
        ([43, 2], [9, 6], 129),
        ([3, 0], [43, 0], 129),
        ([43, 0], [3, 0], 129),
        ([11, 0], [12, 0], 132),
        ([128, 0], [127, 0], 128 * 127),
    ] {
        let expected = if pairs <= 128 { Ok((pairs, 1 + 3 * pairs)) } else { Err(17) };
        case(format!("rows {first:?} {second:?}"), rows(first, second), expected);
    }
    for [first, second] in
        [[8, 16], [16, 8], [2, 64], [1, 128], [128, 1], [1, 1], [11, 11], [3, 43], [43, 3], [11, 12], [128, 128]]
    {
        let pairs = first * second;
        let expected = if pairs <= 128 { Ok((pairs, 1 + 4 * pairs)) } else { Err(17) };
        case(format!("grid {first} {second}"), grid(first, second), expected);
    }
    for [symbols, times] in [[63, 1], [21, 3], [9, 7], [7, 9], [1, 63], [63, 0], [32, 2], [16, 4], [63, 2], [63, 63]] {
        let marks = symbols * times + 1;
        for number in 0..5 {
            let within = marks <= 64 || number > 2;
            let expected = if within { Ok((1, if number > 2 { 3 } else { 2 + marks })) } else { Err(17) };
            case(format!("{marks} marks in term {number}"), long(number, symbols, times), expected);
        }
    }
    for ends in 0..4 {
        let expected = if ends < 2 { Ok((128, 8_191 + ends)) } else { Err(17) };
        case(format!("{} marks in all", 8_191 + ends), full(ends), expected);
    }
    for initial in 0..2 {
        let expected = if initial == 0 { Ok((128, 8_192)) } else { Err(17) };
        case(format!("{} marks in 2,049 terms", 8_192 + initial), longest(initial), expected);
    }
    // 63, 64 and 65 marks
    for ones in 0..3 {
        for initial in [false, true] {
            let marks = 63 + ones;
            // the initial term calls the state, or is the long one and calls none
            let states = usize::from(!initial);
            let expected = if marks <= 64 { Ok((states, states + marks)) } else { Err(17) };
            case(format!("doubled to {marks} marks"), doubling(initial, ones, 3), expected);
        }
    }
    // one less than a power of two, that power, and one and two more: a number that is cut off at a width would
    // say that there are none or few marks
    for width in [8, 16, 31, 32, 63, 64] {
        for ones in 0..(67 - width).min(4) {
            for initial in [false, true] {
                let pair = doubling(initial, ones, width - 3);
                case(format!("doubled to 2^{width} - 1 + {ones} marks"), pair, Err(17));
            }
        }
    }
    // 2^64 - 1 marks, and 4^63 and 32^63 calls
    for calls in [2, 3, 4, 16, 32] {
        case(format!("{calls} calls, 63 times"), multiplying(calls), Err(17));
    }
    case("1 call, 63 times".to_string(), multiplying(1), Ok((1, 3)));
    cases
}

/// The alphabets of so many transducers, each over the output symbols of the one before.
pub fn fitting(random: &mut Random, count: usize) -> Vec<Alphabets> {
    let small = !random.once_in(4);
    let mut ranks = match small {
        true => vec![small_alphabets(random).inputs],
        false => vec![Alphabets::random(random).inputs],
    };
    for number in 1..=count {
        ranks.push(match number {
            _ if small => small_alphabets(random).outputs,
            number if number < count => Alphabets::random(random).inputs,
            _ => Alphabets::random(random).outputs,
        });
    }
    ranks.windows(2).map(|two| Alphabets { inputs: two[0].clone(), outputs: two[1].clone() }).collect()
}

/// The same with many input symbols, and of few states: their pairs can have as many marks as there may be.
fn crowded(random: &mut Random, count: usize) -> Vec<(Alphabets, Transducer)> {
    let mut inputs = [vec![1; random.range(9, 15)], vec![0]].concat();
    let mut sheets = Vec::new();
    for _ in 0..count {
        let outputs = random.pick(&[&[1, 0][..], &[1, 1, 0], &[2, 1, 0], &[1, 2, 0, 0]]).to_vec();
        let alphabets = Alphabets { inputs: inputs.clone(), outputs: outputs.clone() };
        let (states, most) = (random.pick(&[1, 2, 8, 9, 11, 12, 16]), random.range(2, 7));
        let sheet = walking(random, &alphabets, states, most);
        sheets.push((alphabets, sheet));
        inputs = outputs;
    }
    sheets
}

/// So many transducers, each over the output symbols of the one before: all of many states and short terms, all of
/// long terms, or each of some kind, most often small.
pub fn any(random: &mut Random, count: usize) -> Vec<(Alphabets, Transducer)> {
    let all = random.below(8);
    if all == 0 {
        return crowded(random, count);
    }
    let alphabets = fitting(random, count);
    let walking = |random: &mut Random, alphabets: &Alphabets| {
        let (states, most) = (random.pick(&[3, 8, 9, 11, 12, 16, 43, 128]), random.pick(&[1, 2, 3, 4, 6]));
        walking(random, alphabets, states, most)
    };
    let mut sheet = |alphabets: &Alphabets| match random.below(8) {
        kind if kind == 0 || !alphabets.outputs.contains(&0) => Transducer::random(random, alphabets),
        _ if all < 3 => walking(random, alphabets),
        _ if all == 3 => {
            let (states, most) = (random.range(1, 6), random.range(5, 40));
            prefixed_transducer(random, alphabets, states, most)
        }
        1 => walking(random, alphabets),
        _ => {
            let (states, most) = (random.pick(&[1, 2, 5, 12]), random.pick(&[1, 2, 3, 5, 9, 16]));
            small_transducer(random, alphabets, states, most)
        }
    };
    alphabets.into_iter().map(|alphabets| (alphabets.clone(), sheet(&alphabets))).collect()
}

/// A transducer of so many states, with terms of at most so many marks that call a state wherever they can.
fn walking(random: &mut Random, alphabets: &Alphabets, states: usize, most: usize) -> Transducer {
    let grow = random.range(2, 14);
    let mut term = |reach: u8| super::term(random, &alphabets.outputs, states, reach, most, grow, 16, false);
    let mut terms = vec![term(1)];
    for _ in 0..states {
        terms.extend(alphabets.inputs.iter().map(|&rank| term(rank)));
    }
    Transducer { states, terms }
}

/// The transducer that gives its input tree.
pub fn identity(ranks: &[u8]) -> Transducer {
    let side = |(symbol, &rank): (usize, &u8)| {
        [0, symbol as u8].into_iter().chain((1..=rank).flat_map(|child| [child, 0])).collect()
    };
    Transducer { states: 1, terms: std::iter::once(vec![1, 0]).chain(ranks.iter().enumerate().map(side)).collect() }
}
