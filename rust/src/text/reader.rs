//! Reads names, ranks and trees.
use super::words::{list, shown, Word, Words};
use super::{Error, Symbols};
use crate::Alphabets;
use std::collections::HashSet;

/// Reads word by word.
pub(super) struct Reader<'a> {
    /// The next word.
    pub word: Word<'a>,
    /// The words behind it.
    words: Words<'a>,
}

impl<'a> Reader<'a> {
    /// A reader behind the first word of the text, which has to be this one.
    pub fn new(text: &'a [u8], first: &str) -> Result<Self, Error> {
        let mut words = Words::new(text)?;
        let mut reader = Reader { word: words.next(), words };
        reader.expect(first)?;
        Ok(reader)
    }

    pub fn take(&mut self) -> Word<'a> {
        std::mem::replace(&mut self.word, self.words.next())
    }

    pub fn expect(&mut self, text: &str) -> Result<(), Error> {
        if self.word.text != text {
            return Err(self.word.error(format!("`{text}`")));
        }
        self.take();
        Ok(())
    }

    pub fn is_at_end(&self) -> bool {
        self.word.is_end()
    }

    /// Whether the next word is `blocks` and not the name of a symbol, behind which a slash would stand.
    pub fn is_at_blocks(&self) -> bool {
        self.word.text == "blocks" && self.words.clone().next().text != "/"
    }

    pub fn expect_end(&self, expected: &str) -> Result<(), Error> {
        if self.is_at_end() {
            Ok(())
        } else {
            Err(self.word.error(expected))
        }
    }

    /// A name that is not used yet.
    fn new_name(&mut self, used: &mut HashSet<&'a str>) -> Result<String, Error> {
        let word = self.take();
        if !used.insert(word.text) {
            return Err(word.error("a name that is not used yet"));
        }
        Ok(word.text.into())
    }

    /// The entries `name/rank` of at most so many symbols, up to what `or` says.
    pub fn entries(
        &mut self,
        most: usize,
        what: &str,
        or: &str,
        is_at_end: fn(&Self) -> bool,
    ) -> Result<(Vec<String>, Vec<u8>), Error> {
        let (mut names, mut ranks, mut used) = (Vec::new(), Vec::new(), HashSet::new());
        while !is_at_end(self) {
            if !self.word.is_name() {
                return Err(self.word.no_name(&format!(" or {or}")));
            }
            if names.len() == most {
                return Err(self.word.error(format!("at most {most} {what}")));
            }
            names.push(self.new_name(&mut used)?);
            self.expect("/")?;
            ranks.push(self.rank()?);
        }
        Ok((names, ranks))
    }

    fn rank(&mut self) -> Result<u8, Error> {
        let word = self.take();
        let rank = (0..=Alphabets::HIGHEST_RANK).find(|rank| rank.to_string() == word.text);
        rank.ok_or_else(|| word.error(format!("a number of places from 0 to {}", Alphabets::HIGHEST_RANK)))
    }

    pub fn names(&mut self, count: usize, what: &str) -> Result<Vec<String>, Error> {
        let (mut names, mut used) = (Vec::new(), HashSet::new());
        while names.len() < count {
            match self.word {
                word if word.is_end() => return Err(word.error(format!("the names of {}", counted(count, what)))),
                word if !word.is_name() => return Err(word.no_name("")),
                _ => names.push(self.new_name(&mut used)?),
            }
        }
        Ok(names)
    }

    /// One tree, node by node, over these symbols and calls on the first `reach` children. The function gets the first
    /// word of each node too.
    pub fn tree(
        &mut self,
        symbols: &Symbols,
        reach: u8,
        mut put: impl FnMut(Word<'a>, Node<'a>) -> Result<(), Error>,
    ) -> Result<(), Error> {
        // The symbols above, and how many of their sub-trees are not whole yet.
        let mut above: Vec<(u8, u8)> = Vec::new();
        loop {
            let word = self.word;
            let node = self.node(symbols, reach)?;
            let parent = match node {
                Node::Symbol(symbol) if symbols.rank(symbol) > 0 => Some((symbol, symbols.rank(symbol))),
                _ => None,
            };
            put(word, node)?;
            if parent.is_some() {
                above.extend(parent);
            } else if !self.close(symbols, &mut above)? {
                return Ok(());
            }
        }
    }

    /// Behind a sub-tree: goes on to the next one, if there is one.
    fn close(&mut self, symbols: &Symbols, above: &mut Vec<(u8, u8)>) -> Result<bool, Error> {
        while let Some((symbol, left)) = above.last_mut() {
            *left -= 1;
            self.behind_sub_tree(symbols, *symbol, *left)?;
            if *left > 0 {
                return Ok(true);
            }
            above.pop();
        }
        Ok(false)
    }

    /// The comma or bracket behind a sub-tree of a symbol, of which so many are left.
    pub fn behind_sub_tree(&mut self, symbols: &Symbols, symbol: u8, left: u8) -> Result<(), Error> {
        let (right, wrong) = if left > 0 { (",", ")") } else { (")", ",") };
        if self.word.text == wrong {
            return Err(self.word.error(sub_trees(symbols, symbol)));
        }
        self.expect(right)
    }

    /// A call, or a symbol with what stands before its first sub-tree.
    fn node(&mut self, symbols: &Symbols, reach: u8) -> Result<Node<'a>, Error> {
        if reach == 0 {
            return self.symbol(symbols, "").map(Node::Symbol);
        }
        if self.is_at_call() {
            return self.call(reach);
        }
        self.symbol(symbols, " or an open end as `q(x1)`").map(Node::Symbol)
    }

    fn is_at_call(&self) -> bool {
        let mut words = self.words.clone();
        self.word.is_name() && words.next().text == "(" && words.next().is_variable()
    }

    fn call(&mut self, reach: u8) -> Result<Node<'a>, Error> {
        let state = self.take();
        self.expect("(")?;
        let variable = self.take();
        let child = (1..=reach).find(|child| variable.text == format!("x{child}"));
        let child = child.ok_or_else(|| variable.error(variables(reach)))?;
        self.expect(")")?;
        Ok(Node::Call { child, state })
    }

    /// A symbol with the bracket before its first sub-tree. One of rank 0 may have brackets with nothing between.
    pub fn symbol(&mut self, symbols: &Symbols, or: &str) -> Result<u8, Error> {
        let names = || list(symbols.names.iter().map(AsRef::as_ref));
        let symbol = symbols.find(self.word.text);
        let symbol = symbol.ok_or_else(|| self.word.error(format!("a {} ({}){or}", symbols.kind, names())))?;
        self.take();
        let opens = self.word.text == "(";
        if opens {
            self.take();
        }
        let has_none = !opens || self.word.text == ")";
        if has_none != (symbols.rank(symbol) == 0) {
            return Err(self.word.error(sub_trees(symbols, symbol)));
        }
        if opens && has_none {
            self.take();
        }
        Ok(symbol)
    }
}

/// `1 part kind`, `2 part kinds`, `2 passes`.
fn counted(count: usize, what: &str) -> String {
    let ending = match what {
        _ if count == 1 => "",
        "pass" => "es",
        _ => "s",
    };
    format!("{count} {what}{ending}")
}

/// Why no more or no fewer names are expected.
pub(super) fn as_there_are(count: usize, what: &str) -> String {
    format!("as there {} {}", if count == 1 { "is" } else { "are" }, counted(count, what))
}

/// `x1`, or `x1` or `x2`, and so on.
fn variables(reach: u8) -> String {
    let names: Vec<String> = (1..=reach).map(|child| format!("`x{child}`")).collect();
    match names.split_last() {
        Some((last, before)) if !before.is_empty() => format!("{} or {last}", before.join(", ")),
        _ => names.concat(),
    }
}

/// How many sub-trees a symbol has.
fn sub_trees(symbols: &Symbols, symbol: u8) -> String {
    let (name, rank) = (shown(symbols.name(symbol)), symbols.rank(symbol));
    let number = if rank == 0 { "no".into() } else { rank.to_string() };
    let ending = if rank == 1 { "" } else { "s" };
    format!("{number} sub-tree{ending} of `{name}`, as it has {number} place{ending}")
}

/// A node of a term.
pub(super) enum Node<'a> {
    Symbol(u8),
    /// The state is known by its name until all rules are read.
    Call {
        child: u8,
        state: Word<'a>,
    },
}
