//! The C functions of the proved library, as they stand in `libexports.a`: the one module with `unsafe` in it.
//!
//! Each function here calls the C function of its name and does nothing else. It returns 0, or the number that the
//! paper's table gives the refusal, and gives its values through its last parameters. A refusal leaves these, and every
//! area, as they were. The two that hand out a part of what is lent, [`shorter`] and [`body`], tell where it is.
//!
//! A slice passes as a pointer and a length, two parameters of their own. They are declared so, and not as `&[u8]`:
//! that type passes as one aggregate of two words, which goes on the stack whole where one register is left for it, as
//! for `marks` of [`write_transducer`], while the library expects its pointer in that register.
//!
//! # Safety
//!
//! What the C functions ask is that every pointer with a length is to so many bytes, or records for `records`,
//! initialised, none of them null even where the length is 0; that an area is lent to nobody else; and that the other
//! pointers are to one number each, or one head, distinct and outside of the areas. A shared or exclusive borrow of a
//! slice, a number or a head is all of that, so each call below is sound for every argument.
#![allow(unsafe_code)]
// they are the parameters of the C functions
#![allow(clippy::too_many_arguments)]

use crate::slices::{Head, Record};

mod c {
    use super::{Head, Record};

    extern "C" {
        pub fn caplune_read_alphabets(
            stock: *const u8,
            stock_length: usize,
            inputs: *mut usize,
            outputs: *mut usize,
        ) -> u32;
        pub fn caplune_read_tree(
            stock: *const u8,
            stock_length: usize,
            tree: *const u8,
            tree_length: usize,
            nodes: *mut usize,
            levels: *mut usize,
        ) -> u32;
        pub fn caplune_read_transducer(
            stock: *const u8,
            stock_length: usize,
            file: *const u8,
            file_length: usize,
            states: *mut usize,
            counts: *mut usize,
            marks: *mut usize,
        ) -> u32;
        pub fn caplune_write_transducer(
            stock: *const u8,
            stock_length: usize,
            states: usize,
            counts: *const u8,
            counts_length: usize,
            marks: *const u8,
            marks_length: usize,
            area: *mut u8,
            area_length: usize,
            length: *mut usize,
        ) -> u32;
        pub fn caplune_is_linear(
            stock: *const u8,
            stock_length: usize,
            file: *const u8,
            file_length: usize,
            linear: *mut usize,
        ) -> u32;
        pub fn caplune_translate(
            stock: *const u8,
            stock_length: usize,
            file: *const u8,
            file_length: usize,
            tree: *const u8,
            tree_length: usize,
            area: *mut u8,
            area_length: usize,
            length: *mut usize,
        ) -> u32;
        pub fn caplune_symbol_at(
            stock: *const u8,
            stock_length: usize,
            file: *const u8,
            file_length: usize,
            tree: *const u8,
            tree_length: usize,
            address: *const u8,
            address_length: usize,
            there: *mut usize,
            symbol: *mut usize,
        ) -> u32;
        pub fn caplune_earliest_form(
            stock: *const u8,
            stock_length: usize,
            file: *const u8,
            file_length: usize,
            area: *mut u8,
            area_length: usize,
            states: *mut usize,
            marks: *mut usize,
            length: *mut usize,
        ) -> u32;
        pub fn caplune_clean(
            stock: *const u8,
            stock_length: usize,
            file: *const u8,
            file_length: usize,
            area: *mut u8,
            area_length: usize,
            states: *mut usize,
            marks: *mut usize,
            length: *mut usize,
        ) -> u32;
        pub fn caplune_join(
            first_stock: *const u8,
            first_stock_length: usize,
            second_stock: *const u8,
            second_stock_length: usize,
            first: *const u8,
            first_length: usize,
            second: *const u8,
            second_length: usize,
            area: *mut u8,
            area_length: usize,
            states: *mut usize,
            marks: *mut usize,
            length: *mut usize,
        ) -> u32;
        pub fn caplune_compare(
            stock: *const u8,
            stock_length: usize,
            first: *const u8,
            first_length: usize,
            second: *const u8,
            second_length: usize,
            tree: *mut u8,
            tree_length: usize,
            address: *mut u8,
            address_length: usize,
            alike: *mut usize,
            nodes: *mut usize,
            numbers: *mut usize,
            left: *mut usize,
            right: *mut usize,
        ) -> u32;
        pub fn caplune_shorter(
            stock: *const u8,
            stock_length: usize,
            first: *const u8,
            first_length: usize,
            second: *const u8,
            second_length: usize,
            start: *mut usize,
            size: *mut usize,
        ) -> usize;
        pub fn caplune_make_registry(
            head: *mut Head,
            records: *mut Record,
            records_length: usize,
            area: *mut u8,
            area_length: usize,
            stock: *const u8,
            stock_length: usize,
        ) -> u32;
        pub fn caplune_enter(
            head: *mut Head,
            records: *mut Record,
            records_length: usize,
            area: *mut u8,
            area_length: usize,
            file: *const u8,
            file_length: usize,
            number: *mut usize,
        ) -> u32;
        pub fn caplune_question(
            head: *const Head,
            records: *const Record,
            records_length: usize,
            area: *const u8,
            area_length: usize,
            file: *const u8,
            file_length: usize,
            out: *mut u8,
            out_length: usize,
            number: *mut usize,
            size: *mut usize,
        ) -> u32;
        pub fn caplune_commit(
            head: *mut Head,
            records: *mut Record,
            records_length: usize,
            area: *mut u8,
            area_length: usize,
            file: *const u8,
            file_length: usize,
            claim: usize,
            number: *mut usize,
        ) -> u32;
        pub fn caplune_body(
            head: *const Head,
            records: *const Record,
            records_length: usize,
            area: *const u8,
            area_length: usize,
            number: usize,
            start: *mut usize,
        ) -> usize;
        pub fn caplune_write_codes(area: *mut u8, area_length: usize) -> u32;
        pub fn caplune_write_xml(
            stock: *const u8,
            stock_length: usize,
            tree: *const u8,
            tree_length: usize,
            text: *mut u8,
            text_length: usize,
            length: *mut usize,
        ) -> u32;
        pub fn caplune_read_xml(
            stock: *const u8,
            stock_length: usize,
            text: *const u8,
            text_length: usize,
            area: *mut u8,
            area_length: usize,
            length: *mut usize,
        ) -> u32;
    }
}

/// Reads two alphabets: the numbers of input and of output symbols. Refuses by 2.
pub fn read_alphabets(stock: &[u8], inputs: &mut usize, outputs: &mut usize) -> u32 {
    // SAFETY: the arguments are borrows, as said above.
    unsafe { c::caplune_read_alphabets(stock.as_ptr(), stock.len(), inputs, outputs) }
}

/// Reads an input tree: the numbers of its nodes and levels. Refuses by 2 and 3.
pub fn read_tree(stock: &[u8], tree: &[u8], nodes: &mut usize, levels: &mut usize) -> u32 {
    // SAFETY: the arguments are borrows, as said above.
    unsafe { c::caplune_read_tree(stock.as_ptr(), stock.len(), tree.as_ptr(), tree.len(), nodes, levels) }
}

/// Reads a transducer: the number of its states, and the lengths of its counts, which stand in
/// the file from byte 1 on, and of its marks, which stand behind them. Refuses by 2, 4 and 5.
pub fn read_transducer(stock: &[u8], file: &[u8], states: &mut usize, counts: &mut usize, marks: &mut usize) -> u32 {
    // SAFETY: the arguments are borrows, as said above.
    unsafe { c::caplune_read_transducer(stock.as_ptr(), stock.len(), file.as_ptr(), file.len(), states, counts, marks) }
}

/// Writes a transducer to the start of the area: the length of its file. Refuses by 1, 2, 4
/// and 5.
pub fn write_transducer(
    stock: &[u8],
    states: usize,
    counts: &[u8],
    marks: &[u8],
    area: &mut [u8],
    length: &mut usize,
) -> u32 {
    // SAFETY: the arguments are borrows, as said above.
    unsafe {
        c::caplune_write_transducer(
            stock.as_ptr(),
            stock.len(),
            states,
            counts.as_ptr(),
            counts.len(),
            marks.as_ptr(),
            marks.len(),
            area.as_mut_ptr(),
            area.len(),
            length,
        )
    }
}

/// Tests whether a transducer is linear, in its initial term and in the states that are reached from
/// there: 1 or 0. Refuses by 2, 4 and 5.
pub fn is_linear(stock: &[u8], file: &[u8], linear: &mut usize) -> u32 {
    // SAFETY: the arguments are borrows, as said above.
    unsafe { c::caplune_is_linear(stock.as_ptr(), stock.len(), file.as_ptr(), file.len(), linear) }
}

/// Writes the output tree to the start of the area: the number of its symbols. Refuses by 2, 4,
/// 5, 3, 6 and 10.
pub fn translate(stock: &[u8], file: &[u8], tree: &[u8], area: &mut [u8], length: &mut usize) -> u32 {
    // SAFETY: the arguments are borrows, as said above.
    unsafe {
        c::caplune_translate(
            stock.as_ptr(),
            stock.len(),
            file.as_ptr(),
            file.len(),
            tree.as_ptr(),
            tree.len(),
            area.as_mut_ptr(),
            area.len(),
            length,
        )
    }
}

/// Finds the symbol at an address of the output tree: 1 and the symbol, or 0, the symbol then
/// staying as it was. Refuses by 2, 4, 5 and 3.
pub fn symbol_at(stock: &[u8], file: &[u8], tree: &[u8], address: &[u8], there: &mut usize, symbol: &mut usize) -> u32 {
    // SAFETY: the arguments are borrows, as said above.
    unsafe {
        c::caplune_symbol_at(
            stock.as_ptr(),
            stock.len(),
            file.as_ptr(),
            file.len(),
            tree.as_ptr(),
            tree.len(),
            address.as_ptr(),
            address.len(),
            there,
            symbol,
        )
    }
}

/// Writes the earliest form to the start of the area: the numbers of its states and marks, and the
/// length of its file. Refuses by 1, 2, 4, 5 and 7.
pub fn earliest_form(
    stock: &[u8],
    file: &[u8],
    area: &mut [u8],
    states: &mut usize,
    marks: &mut usize,
    length: &mut usize,
) -> u32 {
    // SAFETY: the arguments are borrows, as said above.
    unsafe {
        c::caplune_earliest_form(
            stock.as_ptr(),
            stock.len(),
            file.as_ptr(),
            file.len(),
            area.as_mut_ptr(),
            area.len(),
            states,
            marks,
            length,
        )
    }
}

/// Writes the normal form to the start of the area: the numbers of its states and marks, and the
/// length of its file. Refuses by 1, 2, 4, 5 and 7.
pub fn clean(
    stock: &[u8],
    file: &[u8],
    area: &mut [u8],
    states: &mut usize,
    marks: &mut usize,
    length: &mut usize,
) -> u32 {
    // SAFETY: the arguments are borrows, as said above.
    unsafe {
        c::caplune_clean(
            stock.as_ptr(),
            stock.len(),
            file.as_ptr(),
            file.len(),
            area.as_mut_ptr(),
            area.len(),
            states,
            marks,
            length,
        )
    }
}

/// Writes the composition of two transducers, the second after the first, to the start of the area: the
/// numbers of its states and marks, and the length of its file. Refuses by 1, by 2 for the first stock,
/// by 2 for the second, by 16, by 4 and 5 for the first, by 4 and 5 for the second, and by 17.
pub fn join(
    first_stock: &[u8],
    second_stock: &[u8],
    first: &[u8],
    second: &[u8],
    area: &mut [u8],
    states: &mut usize,
    marks: &mut usize,
    length: &mut usize,
) -> u32 {
    // SAFETY: the arguments are borrows, as said above.
    unsafe {
        c::caplune_join(
            first_stock.as_ptr(),
            first_stock.len(),
            second_stock.as_ptr(),
            second_stock.len(),
            first.as_ptr(),
            first.len(),
            second.as_ptr(),
            second.len(),
            area.as_mut_ptr(),
            area.len(),
            states,
            marks,
            length,
        )
    }
}

/// Compares two transducers: 1 in `alike` if they are equivalent, and the other four values stay; or
/// 0, with an input tree of so many nodes at the start of the one area, an address of so many numbers
/// at the start of the other, and the symbols there of the first and the second output tree. Refuses
/// by 1, by 2, by 4 and 5 for the first, by 4 and 5 for the second, by 7 for the first, and by 7 for
/// the second.
pub fn compare(
    stock: &[u8],
    first: &[u8],
    second: &[u8],
    tree: &mut [u8],
    address: &mut [u8],
    alike: &mut usize,
    nodes: &mut usize,
    numbers: &mut usize,
    left: &mut usize,
    right: &mut usize,
) -> u32 {
    // SAFETY: the arguments are borrows, as said above.
    unsafe {
        c::caplune_compare(
            stock.as_ptr(),
            stock.len(),
            first.as_ptr(),
            first.len(),
            second.as_ptr(),
            second.len(),
            tree.as_mut_ptr(),
            tree.len(),
            address.as_mut_ptr(),
            address.len(),
            alike,
            nodes,
            numbers,
            left,
            right,
        )
    }
}

/// Finds the marks of that of two equivalent transducers which has fewer, the first on a tie. Returns
/// the file they are a part of, 1 or 2, with their start there and their size; or 0, 0 and 0 where
/// the two differ or are refused.
pub fn shorter(stock: &[u8], first: &[u8], second: &[u8], start: &mut usize, size: &mut usize) -> usize {
    // SAFETY: the arguments are borrows, as said above.
    unsafe {
        c::caplune_shorter(
            stock.as_ptr(),
            stock.len(),
            first.as_ptr(),
            first.len(),
            second.as_ptr(),
            second.len(),
            start,
            size,
        )
    }
}

/// Makes a registry of alphabets, whatever stood in the head, the records and the area before. All counts are 0 then.
/// Refuses by 9, 2 and 8.
pub fn make_registry(head: &mut Head, records: &mut [Record], area: &mut [u8], stock: &[u8]) -> u32 {
    // SAFETY: the arguments are borrows, as said above.
    unsafe {
        c::caplune_make_registry(
            head,
            records.as_mut_ptr(),
            records.len(),
            area.as_mut_ptr(),
            area.len(),
            stock.as_ptr(),
            stock.len(),
        )
    }
}

/// Enters a transducer into a registry: the number of its normal form. One more answer is counted, in the head and in
/// the record of that number. Refuses by 9, also for counts that do not fit, 4, 5, 7 and 8.
pub fn enter(head: &mut Head, records: &mut [Record], area: &mut [u8], file: &[u8], number: &mut usize) -> u32 {
    // SAFETY: the arguments are borrows, as said above.
    unsafe {
        c::caplune_enter(
            head,
            records.as_mut_ptr(),
            records.len(),
            area.as_mut_ptr(),
            area.len(),
            file.as_ptr(),
            file.len(),
            number,
        )
    }
}

/// Asks which number an entry of a transducer would get, and writes its normal form to the start of `out`: that number,
/// and the length of the normal form. The registry is only read. Refuses by 1, 9, 4, 5, 7 and 8.
pub fn question(
    head: &Head,
    records: &[Record],
    area: &[u8],
    file: &[u8],
    out: &mut [u8],
    number: &mut usize,
    size: &mut usize,
) -> u32 {
    // SAFETY: the arguments are borrows, as said above.
    unsafe {
        c::caplune_question(
            head,
            records.as_ptr(),
            records.len(),
            area.as_ptr(),
            area.len(),
            file.as_ptr(),
            file.len(),
            out.as_mut_ptr(),
            out.len(),
            number,
            size,
        )
    }
}

/// Does what [`enter`] does, if the number of the normal form is this claim. Refuses by 9, 4, 5, 7 and 8 as [`enter`]
/// does, and by 13 another claim.
pub fn commit(
    head: &mut Head,
    records: &mut [Record],
    area: &mut [u8],
    file: &[u8],
    claim: usize,
    number: &mut usize,
) -> u32 {
    // SAFETY: the arguments are borrows, as said above.
    unsafe {
        c::caplune_commit(
            head,
            records.as_mut_ptr(),
            records.len(),
            area.as_mut_ptr(),
            area.len(),
            file.as_ptr(),
            file.len(),
            claim,
            number,
        )
    }
}

/// Finds the normal form of this number. Returns its length, with its start in the area; or 0 and 0 wherever that part
/// is empty: for the number 0, for one that is not held or is held with no bytes, and where the call is refused, as an
/// entry is by 9.
pub fn body(head: &Head, records: &[Record], area: &[u8], number: usize, start: &mut usize) -> usize {
    // SAFETY: the arguments are borrows, as said above.
    unsafe { c::caplune_body(head, records.as_ptr(), records.len(), area.as_ptr(), area.len(), number, start) }
}

/// Writes the codes of all output symbols to the start of the area. Refuses by 1.
pub fn write_codes(area: &mut [u8]) -> u32 {
    // SAFETY: the argument is a borrow, as said above.
    unsafe { c::caplune_write_codes(area.as_mut_ptr(), area.len()) }
}

/// Writes an output tree as XML to the start of the text: how long that is. Refuses by 2, 11 and 12.
pub fn write_xml(stock: &[u8], tree: &[u8], text: &mut [u8], length: &mut usize) -> u32 {
    // SAFETY: the arguments are borrows, as said above.
    unsafe {
        c::caplune_write_xml(
            stock.as_ptr(),
            stock.len(),
            tree.as_ptr(),
            tree.len(),
            text.as_mut_ptr(),
            text.len(),
            length,
        )
    }
}

/// Reads the XML of an output tree, which it writes to the start of the area: the number of its
/// symbols. Refuses by 2, 11 and 12.
pub fn read_xml(stock: &[u8], text: &[u8], area: &mut [u8], length: &mut usize) -> u32 {
    // SAFETY: the arguments are borrows, as said above.
    unsafe {
        c::caplune_read_xml(
            stock.as_ptr(),
            stock.len(),
            text.as_ptr(),
            text.len(),
            area.as_mut_ptr(),
            area.len(),
            length,
        )
    }
}
