//! A registry of minimal earliest transducers over lent memory (the paper: the book).
use super::minimal::clean_form;
use super::{parse_transducer, read_alphabets, AREA_TOO_SHORT, BOOK_FULL, MAX_FILE, NOT_A_BOOK, OTHER_NUMBER};

/// The most transducers that a book holds.
pub const MAX_HELD: usize = 32;
/// The records of a book: one for the alphabets, one for each transducer.
pub const RECORDS: usize = 1 + MAX_HELD;

/// The counts of a book.
#[derive(Clone, Copy, Debug, Default, PartialEq, Eq)]
pub struct Head {
    /// The transducers held, 0 to 32.
    pub held: usize,
    /// The bytes of the area that are used.
    pub used: usize,
    /// The entries that were answered.
    pub answered: u64,
}

/// Where a body stands in the area, and how many entries were answered with it.
#[derive(Clone, Copy, Debug, Default, PartialEq, Eq)]
pub struct Record {
    pub start: usize,
    pub length: usize,
    pub count: u64,
}

/// A book: head, contents and bodies, all of them lent. Body 0 is the alphabets' file; the bodies
/// from 1 on are files of minimal earliest transducers, each once.
#[derive(Debug, PartialEq, Eq)]
pub struct Book<'a> {
    pub head: &'a mut Head,
    pub records: &'a mut [Record],
    pub area: &'a mut [u8],
}

impl<'a> Book<'a> {
    /// Makes a book that holds no transducer and has counted no answer, whatever stood in the memory before.
    /// Records past the 33rd, and the area behind the alphabets, are left. Refuses by 9 fewer than 33
    /// records, by 2 what is not a pair of alphabets, and by 8 an area that is shorter than their file.
    pub fn make(
        stock: &[u8],
        head: &'a mut Head,
        records: &'a mut [Record],
        area: &'a mut [u8],
    ) -> Result<Book<'a>, u32> {
        if records.len() < RECORDS {
            return Err(NOT_A_BOOK);
        }
        read_alphabets(stock)?;
        let used = stock.len();
        area.get_mut(..used).ok_or(BOOK_FULL)?.copy_from_slice(stock);
        records[..RECORDS].fill(Record::default());
        records[0].length = used;
        *head = Head { held: 0, used, answered: 0 };
        Ok(Book { head, records, area })
    }

    /// Enters the transducer `file`: answers the lowest number from 1 on whose body is the minimal
    /// earliest transducer that is equivalent to it, which is added where there is none, and counts the
    /// answer in the head and in the record of that number. Refuses by 9 what is not a book, by 4, 5 and
    /// 7 as `clean` does, and by 8 a body that is not there and for which there is no record or no room.
    pub fn enter(&mut self, file: &[u8]) -> Result<usize, u32> {
        let (number, clean) = self.would(file)?;
        self.settle(number, &clean);
        Ok(number)
    }

    /// Asks for the number that an entry of `file` would get, with the book as it is, and writes the minimal
    /// earliest transducer to the start of `out`: the number, and the length of what is written. Refuses by 1
    /// where `out` has under 20,483 bytes, and then as the entry would be.
    pub fn question(&self, file: &[u8], out: &mut [u8]) -> Result<(usize, usize), u32> {
        if out.len() < MAX_FILE {
            return Err(AREA_TOO_SHORT);
        }
        let (number, clean) = self.would(file)?;
        out[..clean.len()].copy_from_slice(&clean);
        Ok((number, clean.len()))
    }

    /// Enters the transducer `file` if its number is `claim`. Refuses as the entry would be, and last by 13
    /// where its number is another.
    pub fn commit(&mut self, file: &[u8], claim: usize) -> Result<usize, u32> {
        let (number, clean) = self.would(file)?;
        if number != claim {
            return Err(OTHER_NUMBER);
        }
        self.settle(number, &clean);
        Ok(number)
    }

    /// The number that an entry of `file` would get, and the minimal earliest transducer; or how it would be refused.
    fn would(&self, file: &[u8]) -> Result<(usize, Vec<u8>), u32> {
        self.test()?;
        let alphabets = read_alphabets(&self.area[..self.records[0].length])?;
        let clean = clean_form(alphabets, &parse_transducer(alphabets, file)?)?;
        let next = self.head.held + 1;
        let number = (1..next).find(|&number| *self.part(number) == clean[..]).unwrap_or(next);
        let has_room = next < RECORDS && clean.len() <= self.area.len() - self.head.used;
        if number < next || has_room {
            Ok((number, clean))
        } else {
            Err(BOOK_FULL)
        }
    }

    /// Answers an entry with a number that it would get: adds the transducer where the number is the next one, and
    /// counts the answer.
    fn settle(&mut self, number: usize, clean: &[u8]) {
        if number > self.head.held {
            let start = self.head.used;
            self.head.held = number;
            self.head.used = start + clean.len();
            self.records[number] = Record { start, length: clean.len(), count: 0 };
            self.area[start..self.head.used].copy_from_slice(clean);
        }
        // neither goes round: the count is at most the answers, and these are not yet the last number
        self.records[number].count += 1;
        self.head.answered += 1;
    }

    /// The body of this number, as a part of the area; empty for 0 and for a number that is not held.
    /// Refuses by 9 what is not a book.
    pub fn body(&self, number: usize) -> Result<&[u8], u32> {
        self.test()?;
        Ok(if (1..=self.head.held).contains(&number) { self.part(number) } else { &[] })
    }

    fn part(&self, number: usize) -> &[u8] {
        let Record { start, length, .. } = self.records[number];
        &self.area[start..start + length]
    }

    /// Refuses by 9 what is not a book: the bodies held follow one another from byte 0 to the bytes
    /// used, which are in the area, the other records are 0, body 0 is a pair of alphabets, with which no
    /// entry was answered, the counts sum to the entries answered, and one more answer can be counted.
    fn test(&self) -> Result<(), u32> {
        let Head { held, used, answered } = *self.head;
        let is_book = || {
            if self.records.len() < RECORDS || held > MAX_HELD || answered == u64::MAX {
                return None;
            }
            let (bodies, unused) = self.records[..RECORDS].split_at(1 + held);
            let chain = |behind: usize, body: &Record| {
                if body.start == behind {
                    behind.checked_add(body.length)
                } else {
                    None
                }
            };
            let in_order = bodies.iter().try_fold(0, chain)? == used && used <= self.area.len();
            let others = unused.iter().all(|&record| record == Record::default());
            // 33 counts of 64 bits do not go round in 128
            let sum: u128 = bodies.iter().map(|body| u128::from(body.count)).sum();
            let counted = bodies[0].count == 0 && sum == u128::from(answered);
            (in_order && others && counted && read_alphabets(self.part(0)).is_ok()).then_some(())
        };
        is_book().ok_or(NOT_A_BOOK)
    }
}
