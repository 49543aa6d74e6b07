//! The bytes of a book's file, put together here once more: its sum, and make 1, which is not written any more.

// Each test program uses some of it.
#![allow(dead_code)]

use caplune::Registry;

/// Bytes with the sum behind them that the file of a book ends with.
pub fn with_sum(mut bytes: Vec<u8>) -> Vec<u8> {
    let mut sum: u64 = 14_695_981_039_346_656_037;
    for &byte in &bytes {
        sum = (sum ^ u64::from(byte)).wrapping_mul(1_099_511_628_211);
    }
    bytes.extend(sum.to_be_bytes());
    bytes
}

/// The bytes without their sum.
pub fn without_sum(bytes: &[u8]) -> Vec<u8> {
    bytes[..bytes.len() - 8].to_vec()
}

/// The file of a registry as make 1 has it: 70 numbers and the bodies, without counts and names.
pub fn make_1(registry: &Registry) -> Vec<u8> {
    let stock = registry.alphabets().as_bytes().to_vec();
    let sheets = (1..=registry.held()).map(|number| registry.normal_form(number).unwrap().as_bytes().to_vec());
    let bodies: Vec<Vec<u8>> = std::iter::once(stock).chain(sheets).collect();
    let mut numbers = [registry.area(), registry.held(), registry.used()].map(|number| number as u64).to_vec();
    numbers.push(registry.answered());
    let mut start = 0;
    for body in &bodies {
        numbers.extend([start, body.len() as u64]);
        start += body.len() as u64;
    }
    numbers.resize(70, 0);
    let numbers: Vec<u8> = numbers.into_iter().flat_map(u64::to_be_bytes).collect();
    with_sum([b"caplune book 1\n", &numbers[..], &bodies.concat()].concat())
}
