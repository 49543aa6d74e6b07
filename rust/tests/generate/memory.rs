//! The lent memory of a registry, patterned, and its damages.
use super::Random;
use caplune::slices::{Head, Record, RECORDS};
use caplune_independent as independent;

/// What is lent, in the middle of what has to stay.
#[derive(Clone, Debug, PartialEq)]
pub struct Memory {
    pub head: Head,
    /// How many records are lent.
    pub count: usize,
    all_records: Vec<Record>,
    /// How many bytes are lent.
    pub size: usize,
    bytes: Vec<u8>,
}

/// How many records and bytes stand before and behind what is lent.
const RECORDS_AROUND: usize = 3;
const BYTES_AROUND: usize = 24;

impl Memory {
    /// With a pattern in all of it.
    pub fn new(count: usize, size: usize) -> Self {
        let record = |index: usize| Record {
            start: 1_000 + index,
            size: usize::MAX - index,
            count: (1 << 63) + 7 * index as u64,
        };
        Memory {
            head: Head { held: 77, used: 78, answered: 79 },
            count,
            all_records: (0..count + 2 * RECORDS_AROUND).map(record).collect(),
            size,
            bytes: (0..size + 2 * BYTES_AROUND).map(|index| (index * 167 + 91) as u8).collect(),
        }
    }

    pub fn lend(&mut self) -> (&mut Head, &mut [Record], &mut [u8]) {
        let records = &mut self.all_records[RECORDS_AROUND..RECORDS_AROUND + self.count];
        (&mut self.head, records, &mut self.bytes[BYTES_AROUND..BYTES_AROUND + self.size])
    }

    pub fn records(&self) -> &[Record] {
        &self.all_records[RECORDS_AROUND..RECORDS_AROUND + self.count]
    }

    pub fn area(&self) -> &[u8] {
        &self.bytes[BYTES_AROUND..BYTES_AROUND + self.size]
    }

    /// The counts of the records that are lent.
    pub fn counts(&self) -> Vec<u64> {
        self.records().iter().map(|record| record.count).collect()
    }

    /// Whether this is what an entry with this answer leaves in the head's count and those of the records: one more
    /// in the head and at the number answered, and the same elsewhere; after a refusal all of the memory is as it was.
    pub fn counted(&self, before: &Memory, answer: Result<usize, u32>) -> bool {
        let Ok(number) = answer else { return self == before };
        let mut counts = before.counts();
        let Some(count) = counts[1..RECORDS].get_mut(number.wrapping_sub(1)) else { return false };
        *count += 1;
        self.head.answered == before.head.answered + 1 && self.counts() == counts
    }

    /// What `call` answers and leaves, head and records being those of the independent implementation.
    fn independent<T>(
        &mut self,
        call: impl FnOnce(&mut independent::Head, &mut [independent::Record], &mut [u8]) -> T,
    ) -> T {
        let (head, records, area) = self.lend();
        let mut other = independent::Head { held: head.held, used: head.used, answered: head.answered };
        let record = |&Record { start, size, count }: &Record| independent::Record { start, length: size, count };
        let mut others: Vec<independent::Record> = records.iter().map(record).collect();
        let answer = call(&mut other, &mut others, area);
        *head = Head { held: other.held, used: other.used, answered: other.answered };
        for (record, other) in records.iter_mut().zip(others) {
            *record = Record { start: other.start, size: other.length, count: other.count };
        }
        answer
    }

    /// Makes a registry by the independent implementation.
    pub fn make(&mut self, stock: &[u8]) -> Result<(), u32> {
        self.independent(|head, records, area| independent::Book::make(stock, head, records, area).map(|_| ()))
    }

    /// Enters a transducer by the independent implementation: its number.
    pub fn enter(&mut self, file: &[u8]) -> Result<usize, u32> {
        self.independent(|head, records, area| independent::Book { head, records, area }.enter(file))
    }

    /// Asks for the number of a transducer by the independent implementation: the number, and its normal form.
    pub fn question(&mut self, file: &[u8], out: usize) -> Result<(usize, Vec<u8>), u32> {
        let mut out = vec![0; out];
        self.independent(|head, records, area| {
            let (number, length) = independent::Book { head, records, area }.question(file, &mut out)?;
            out.truncate(length);
            Ok((number, out))
        })
    }

    /// Commits a transducer with this claim by the independent implementation: its number.
    pub fn commit(&mut self, file: &[u8], claim: usize) -> Result<usize, u32> {
        self.independent(|head, records, area| independent::Book { head, records, area }.commit(file, claim))
    }

    /// Where the independent implementation finds the body of this number in the area: its start and its length.
    pub fn body(&mut self, number: usize) -> Result<(usize, usize), u32> {
        self.independent(|head, records, area| {
            let from = area.as_ptr() as usize;
            let book = independent::Book { head, records, area };
            // an empty body is at byte 0
            let place =
                |part: &[u8]| if part.is_empty() { (0, 0) } else { (part.as_ptr() as usize - from, part.len()) };
            book.body(number).map(place)
        })
    }

    /// Damages head, records, counts or area, and often more than once; some of it is still a registry.
    pub fn damage(&mut self, random: &mut Random) {
        loop {
            match random.below(4) {
                0 => self.damage_head(random),
                1 => self.damage_records(random),
                2 => self.damage_counts(random),
                _ => self.damage_area(random),
            }
            if random.once_in(2) {
                return;
            }
        }
    }

    fn damage_head(&mut self, random: &mut Random) {
        let Head { held, used, answered } = &mut self.head;
        match random.below(5) {
            0 => *held = near(random, *held),
            1 => *held = random.range(30, 34),
            2 => *used = near(random, *used),
            3 => *answered = random.pick(&[u64::MAX, u64::MAX - 1]),
            _ => *answered = answered.wrapping_add(random.next()),
        }
    }

    fn damage_records(&mut self, random: &mut Random) {
        let (held, count) = (self.head.held, self.count);
        if random.once_in(6) {
            self.count = random.range(0, count);
            return;
        }
        let bodies = held > 0 && held < count;
        let records = self.lend().1;
        match random.below(4) {
            // the last body is taken out, with its answers
            0 if bodies => {
                let last = std::mem::take(&mut records[held]);
                let answered = self.head.answered.wrapping_sub(last.count);
                self.head = Head { held: held - 1, used: last.start, answered };
            }
            // two bodies are made one, or the first and the stock
            1 if bodies => {
                let last = std::mem::take(&mut records[held]);
                let Record { size, count, .. } = &mut records[held - 1];
                *size = size.wrapping_add(last.size);
                *count = count.wrapping_add(last.count);
                self.head.held -= 1;
            }
            _ => {
                // those in use, or any
                let among = if random.once_in(2) { held.saturating_add(2).min(count) } else { count };
                let index = random.below(among.max(1));
                let Some(record) = records.get_mut(index) else { return };
                let number = if random.once_in(2) { &mut record.start } else { &mut record.size };
                *number = near(random, *number);
            }
        }
    }

    /// Changes counts alone, those of records or the head's. Some of it is what other entries would leave.
    fn damage_counts(&mut self, random: &mut Random) {
        let (held, lent) = (self.head.held, self.count);
        if lent == 0 {
            return;
        }
        // of those in use and the one behind them, or of any that are lent
        let among = if random.once_in(2) { held.saturating_add(2).min(lent) } else { lent };
        let (first, second) = (random.below(among), random.below(among));
        let records = self.lend().1;
        let all = records[second].count;
        let mut add = |index: usize, by: u64| records[index].count = records[index].count.wrapping_add(by);
        match random.below(6) {
            0 => records[first].count = near(random, records[first].count as usize) as u64,
            1 => add(first, random.pick(&[1, u64::MAX, 1 << 63])),
            // the sum goes round, and is right again but for that
            2 => [first, second].into_iter().for_each(|index| add(index, 1 << 63)),
            // a count is moved, to record 0 or an unused one too: all of it, or so much that one goes round
            3 => {
                let by = if random.once_in(2) { all } else { random.next() };
                add(first, by);
                add(second, by.wrapping_neg());
            }
            4 => self.move_counts(random),
            _ => self.raise_counts(random),
        }
    }

    /// The held records that are lent; none where the head holds more than a registry does.
    fn held_records(&mut self) -> &mut [Record] {
        let held = if self.head.held < RECORDS { self.head.held } else { 0 };
        let behind = (1 + held).min(self.count);
        &mut self.lend().1[1.min(behind)..behind]
    }

    /// Moves some or all of the count of a held record to another: the sum stays.
    pub fn move_counts(&mut self, random: &mut Random) {
        let records = self.held_records();
        if records.is_empty() {
            return;
        }
        let (from, to) = (random.below(records.len()), random.below(records.len()));
        let all = records[from].count;
        let by = if random.once_in(2) { all } else { random.next() % all.saturating_add(1) };
        // where the sum was right there is room for all of it
        let by = if from == to { 0 } else { by.min(u64::MAX - records[to].count) };
        records[from].count -= by;
        records[to].count += by;
    }

    /// Raises the head's count to a large one, and those of held records by as much: the sum stays right.
    pub fn raise_counts(&mut self, random: &mut Random) {
        let answered = self.head.answered;
        let most = [1 << 32, 1 << 63, u64::MAX - 3, u64::MAX - 2, u64::MAX - 1, u64::MAX];
        let raised = random.pick(&most).max(answered);
        let mut rest = raised - answered;
        let records = self.held_records();
        if records.is_empty() {
            return;
        }
        while rest > 0 {
            let by = if random.once_in(3) { rest } else { 1 + random.next() % rest };
            let count = &mut records[random.below(records.len())].count;
            // where the sum was right there is room for all of it
            *count = count.wrapping_add(by);
            rest -= by;
        }
        self.head.answered = raised;
    }

    fn damage_area(&mut self, random: &mut Random) {
        match random.below(3) {
            0 => self.size = random.range(0, self.size),
            1 => self.size = self.head.used.min(self.size),
            _ => {
                let (_, records, area) = self.lend();
                let stock = records.first().map_or(0, |record| record.size).min(area.len());
                if stock > 0 {
                    area[random.below(stock)] = random.below(6) as u8;
                }
            }
        }
    }
}

/// A number that is this one, one beside it, or far from it.
fn near(random: &mut Random, number: usize) -> usize {
    match random.below(6) {
        0 => 0,
        1 => usize::MAX,
        2 => random.below(100),
        3 => number.wrapping_add(1),
        4 => number.wrapping_sub(1),
        _ => number,
    }
}
