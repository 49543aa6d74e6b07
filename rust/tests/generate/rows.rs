//! Transducers whose states stand in a row that goes round: pairs of them differ as late as can be.
use super::{Alphabets, Random, Transducer};

/// States in a row: each calls the next, and the last one the state `back`. Some are marked.
#[derive(Clone, Debug)]
pub struct Row {
    pub back: usize,
    pub marked: Vec<bool>,
}

impl Row {
    /// A row of which the last state is marked.
    pub fn last_marked(states: usize, back: usize) -> Self {
        let mut marked = vec![false; states];
        marked[states - 1] = true;
        Row { back, marked }
    }

    /// Any row of at most so many states. The marks are few, or many, or come again.
    pub fn random(random: &mut Random, most: usize) -> Self {
        let states = random.range(1, most);
        let back = random.below(states);
        let (period, of) = (random.range(1, states), random.pick(&[2, 8, 64]));
        let mut marked: Vec<bool> = (0..period).map(|_| random.once_in(of)).collect();
        (period..states).for_each(|state| marked.push(marked[state - period]));
        if random.once_in(3) {
            let state = random.below(states);
            marked[state] = !marked[state];
        }
        Row { back, marked }
    }

    /// The state that a state calls.
    fn next(&self, state: usize) -> usize {
        if state + 1 < self.marked.len() {
            state + 1
        } else {
            self.back
        }
    }

    /// How many states are met, from state 0 on in both rows, before one is marked and the other is
    /// not: fewer than both rows have states, as what follows is the same from then on.
    pub fn agree(&self, other: &Row) -> Option<usize> {
        let (mut one, mut two) = (0, 0);
        for met in 0..self.marked.len() + other.marked.len() {
            if self.marked[one] != other.marked[two] {
                return Some(met);
            }
            (one, two) = (self.next(one), other.next(two));
        }
        None
    }

    /// The transducer with the right-hand sides that `sides` gives for a state, the next one, and whether
    /// the state is marked.
    fn transducer(&self, initial: Vec<u8>, sides: impl Fn(u8, u8, bool) -> Vec<Vec<u8>>) -> Transducer {
        let mut terms = vec![initial];
        for (state, &marked) in self.marked.iter().enumerate() {
            terms.extend(sides(state as u8, self.next(state) as u8, marked));
        }
        Transducer { states: self.marked.len(), terms }
    }

    /// Over [`row_alphabets`]: at u so many g over the next state, at e c, and d where it is marked. It
    /// tells the marks of the states met, in turn: that on u(u(.. e)) is the one behind so many u.
    pub fn telling(&self, child: u8, symbols: usize) -> Transducer {
        self.transducer(vec![1, 0], |_, next, marked| {
            vec![[vec![0; 2 * symbols], vec![child, next]].concat(), vec![0, 1 + u8::from(marked)]]
        })
    }

    /// Over the same alphabets, with the longest terms: at u 63 g over the call of the next state on
    /// sub-tree 1, and where the state is marked on sub-tree 2; at e c. Over the initial call are as many g
    /// as there is room for. There can be 126 states.
    pub fn long(&self) -> Transducer {
        let over = |symbols: usize, call: [u8; 2]| [vec![0; 2 * symbols], call.to_vec()].concat();
        let room = 8192 - 65 * self.marked.len() - 1;
        self.transducer(over(room.min(63), [1, 0]), |_, next, marked| {
            vec![over(63, [1 + u8::from(marked), next]), vec![0, 1]]
        })
    }

    /// Over [`way_alphabets`]: at v the state before, at w so many g over the next state, at e c; at z the
    /// next state, and where the state is marked `at_mark`.
    pub fn with_way_back(&self, symbols: usize, at_mark: &[u8]) -> Transducer {
        self.transducer(vec![1, 0], |state, next, marked| {
            let call = if marked { at_mark.to_vec() } else { vec![1, next] };
            let over = [vec![0; 2 * symbols], vec![2, next]].concat();
            vec![vec![4, state.saturating_sub(1)], over, call, vec![0, 2]]
        })
    }
}

/// The alphabets of [`Row::telling`]: u of this rank and e of rank 0; g of rank 1, c and d of rank 0.
pub fn row_alphabets(rank: u8) -> Alphabets {
    Alphabets { inputs: vec![rank, 0], outputs: vec![1, 0, 0] }
}

/// The alphabets of [`Row::with_way_back`]: v, w and z of rank 4, e of rank 0; g and h of rank 1, c of
/// rank 0.
pub fn way_alphabets() -> Alphabets {
    Alphabets { inputs: vec![4, 4, 4, 0], outputs: vec![1, 1, 0] }
}
