//! Reads the rules of a transducer.
use super::reader::{Node, Reader};
use super::words::{list, shown, Word};
use super::writing::left_side;
use super::{Error, Symbols};
use crate::{Mark, Transducer};

/// The rule of a state and an input symbol.
struct Rule<'a> {
    state: usize,
    symbol: u8,
    right_hand_side: Vec<Node<'a>>,
}

/// The rules in the order of the text, and the states in that of their first rules.
#[derive(Default)]
pub(super) struct Rules<'a> {
    pub states: Vec<&'a str>,
    rules: Vec<Rule<'a>>,
}

impl<'a> Rules<'a> {
    fn find(&self, state: &str) -> Option<usize> {
        self.states.iter().position(|known| *known == state)
    }

    /// The number of the state whose rule begins with this word.
    fn state(&mut self, word: Word<'a>) -> Result<usize, Error> {
        if let Some(state) = self.find(word.text) {
            return Ok(state);
        }
        if self.states.len() == Transducer::MOST_STATES {
            return Err(word.error(format!("at most {} passes", Transducer::MOST_STATES)));
        }
        self.states.push(word.text);
        Ok(self.states.len() - 1)
    }

    fn has(&self, state: usize, symbol: u8) -> bool {
        self.rules.iter().any(|rule| rule.state == state && rule.symbol == symbol)
    }

    /// What is expected instead of a second rule for an input symbol.
    fn missing(&self, state: usize, inputs: &Symbols) -> String {
        let missing = (0..).zip(&inputs.names).filter(|(symbol, _)| !self.has(state, *symbol));
        let missing = list(missing.map(|(_, name)| name.as_ref()));
        let state = shown(self.states.get(state).copied().unwrap_or_default());
        match missing.as_str() {
            "" => format!("no more lines for `{state}`"),
            _ => format!("a part kind for which `{state}` has no line yet ({missing})"),
        }
    }

    /// The marks of a term, with the numbers of its states.
    pub fn marks(&self, term: &[Node]) -> Result<Vec<Mark>, Error> {
        let mark = |node: &Node| match *node {
            Node::Symbol(symbol) => Ok(Mark::Symbol(symbol)),
            Node::Call { child, state } => {
                let number = self.find(state.text).and_then(|number| u8::try_from(number).ok());
                let number = number.ok_or_else(|| state.error(self.known()))?;
                Ok(Mark::Call { child, state: number })
            }
        };
        term.iter().map(mark).collect()
    }

    fn known(&self) -> String {
        match list(self.states.iter().copied()).as_str() {
            "" => "a pass that has lines (there is none)".into(),
            states => format!("a pass that has lines ({states})"),
        }
    }

    /// The right-hand sides by state and then by input symbol. The word is the end of the text.
    pub fn right_hand_sides(&self, inputs: &Symbols, end: Word) -> Result<Vec<Vec<Mark>>, Error> {
        let mut sides = vec![None; self.states.len() * inputs.ranks.len()];
        for rule in &self.rules {
            let marks = self.marks(&rule.right_hand_side)?;
            if let Some(side) = sides.get_mut(rule.state * inputs.ranks.len() + usize::from(rule.symbol)) {
                *side = Some(marks);
            }
        }
        let pairs =
            self.states.iter().flat_map(|state| (0..).zip(inputs.ranks).map(move |(symbol, _)| (state, symbol)));
        let found = |(side, (state, symbol)): (Option<_>, (&&str, u8))| {
            let missing = || left_side(&shown(state), &shown(inputs.name(symbol)), inputs.rank(symbol));
            side.ok_or_else(|| end.error(format!("a line for {}", missing())))
        };
        sides.into_iter().zip(pairs).map(found).collect()
    }
}

impl<'a> Reader<'a> {
    /// The initial term or a right-hand side, which calls states on the first `reach` children.
    pub fn term(&mut self, outputs: &Symbols, reach: u8) -> Result<Vec<Node<'a>>, Error> {
        let mut nodes = Vec::new();
        self.tree(outputs, reach, |word, node| {
            if nodes.len() == Transducer::MOST_MARKS_OF_A_TERM {
                return Err(word.error(format!("at most {} marks", Transducer::MOST_MARKS_OF_A_TERM)));
            }
            nodes.push(node);
            Ok(())
        })?;
        Ok(nodes)
    }

    pub fn rule(&mut self, inputs: &Symbols, outputs: &Symbols, rules: &mut Rules<'a>) -> Result<(), Error> {
        if !self.word.is_name() {
            return Err(self.word.no_name(" or the end of the file"));
        }
        let state = rules.state(self.take())?;
        self.expect("(")?;
        let word = self.word;
        let symbol = self.symbol(inputs, "")?;
        if rules.has(state, symbol) {
            return Err(word.error(rules.missing(state, inputs)));
        }
        let rank = inputs.rank(symbol);
        for child in 1..=rank {
            self.expect(&format!("x{child}"))?;
            self.behind_sub_tree(inputs, symbol, rank - child)?;
        }
        self.expect(")")?;
        self.expect("->")?;
        let right_hand_side = self.term(outputs, rank)?;
        rules.rules.push(Rule { state, symbol, right_hand_side });
        Ok(())
    }
}
