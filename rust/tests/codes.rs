//! The codes of the output symbols: the library, the independent version and document 01's formula.
mod lent;

use caplune::slices::{self, CODES_AREA};
use caplune_independent as independent;
use lent::{number, Lent};

/// Document 01: letter A to H for k div 8, digit k mod 8 plus 1.
fn code(symbol: u8) -> [u8; 2] {
    [b'A' + symbol / 8, b'1' + symbol % 8]
}

#[test]
fn formula() {
    let mut codes = [0; CODES_AREA];
    slices::write_codes(&mut codes).unwrap();
    let mut seen: Vec<[u8; 2]> = Vec::new();
    for symbol in 0..64 {
        let at = 2 * usize::from(symbol);
        assert_eq!(codes[at..at + 2], code(symbol), "{symbol}");
        assert!(!seen.contains(&code(symbol)));
        seen.push(code(symbol));
    }
    assert_eq!((seen[0], seen[7], seen[8], seen[63]), (*b"A1", *b"A8", *b"B1", *b"H8"));
}

/// Areas of every length around the least one: what is written, what is refused, and every byte that stays.
#[test]
fn areas() {
    let (mut written, mut refused) = (0, 0);
    for length in (0..1_024).chain([4_096, 65_535, 65_536]) {
        let [mut lent, mut other] = [Lent::new(length), Lent::new(length)];
        let answer = number(slices::write_codes(lent.area()));
        assert_eq!(answer, independent::write_codes(other.area()), "{length}");
        assert_eq!(answer, if length < 128 { Err(1) } else { Ok(()) }, "{length}");
        let codes: Vec<u8> = if answer.is_ok() { (0..64).flat_map(code).collect() } else { vec![] };
        assert!(lent.holds(&codes) && other.holds(&codes), "{length}");
        *(if answer.is_ok() { &mut written } else { &mut refused }) += 1;
    }
    assert_eq!((written, refused), (899, 128));
}
