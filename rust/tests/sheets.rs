//! Runs the program `sheets` in folders of its own, and compares what it prints with document 01's text, made here from
//! what the library answers. It covers what no contract says: which file is read into which place, and how far.
mod folder;
mod generate;

use caplune::slices::{self, Comparison, Difference, ADDRESS_AREA, TREE_AREA};
use folder::Folder;
use generate::alike::{any, chain, chain_alphabets, small_alphabets, small_transducer};
use generate::rows::{row_alphabets, Row};
use generate::samples::*;
use generate::Random;
use std::fs;
use std::path::Path;

/// A folder with these three files.
fn folder(stock: &[u8], first: &[u8], second: &[u8]) -> Folder {
    Folder::with(&[("stock", stock), ("first", first), ("second", second)])
}

/// What the program prints in this folder. It ends well whatever it finds, and says nothing else.
fn run(folder: &Folder) -> String {
    let program = Path::new(env!("CARGO_MANIFEST_DIR")).join("../target/bin/sheets");
    assert!(program.is_file(), "target/bin/sheets is missing: `tools/build sheets` proves and builds it");
    let ended = folder.run(&program.canonicalize().expect("a path"), &[] as &[&str], b"");
    assert_eq!((ended.status, &ended.err[..]), (Some(0), ""));
    ended.text().to_string()
}

fn printed(stock: &[u8], first: &[u8], second: &[u8]) -> String {
    run(&folder(stock, first, second))
}

fn numbers(bytes: &[u8], between: &str) -> String {
    bytes.iter().map(u8::to_string).collect::<Vec<_>>().join(between)
}

/// Eight blocks to a letter.
fn block(symbol: u8) -> String {
    format!("{}{}", char::from(b'A' + symbol / 8), 1 + symbol % 8)
}

/// The text of the paper, from what the library answers.
fn text(stock: &[u8], first: &[u8], second: &[u8]) -> String {
    let (mut tree, mut address) = ([0; TREE_AREA], [0; ADDRESS_AREA]);
    let verdict = match slices::compare(stock, first, second, &mut tree, &mut address) {
        Err(refusal) => return format!("refused {}\n", refusal.number()),
        Ok(Comparison::Alike) => "alike".to_string(),
        Ok(Comparison::Differ(Difference { tree, address, first, second })) => {
            let place = if address.is_empty() { "-".to_string() } else { numbers(address, ".") };
            format!("differ {} at {place} {} {}", numbers(tree, ","), block(first), block(second))
        }
    };
    let [one, two] = [first, second].map(|file| {
        let form = slices::clean(stock, file, &mut [0; 20_483]).expect("the comparison took it");
        format!("{} {}", form.states, form.marks)
    });
    format!("first {one}\nsecond {two}\n{verdict}\n")
}

const ALIKE: &str = "first 1 7\nsecond 1 7\nalike\n";

#[test]
fn samples() {
    assert_eq!(printed(S, T, T_PRIME), ALIKE);
    assert_eq!(printed(S, T_PRIME, T), ALIKE);
    assert_eq!(printed(S, T, U), "first 1 7\nsecond 1 11\ndiffer 1 at 1 A2 A1\n");
    assert_eq!(printed(S, U, T), "first 1 11\nsecond 1 7\ndiffer 1 at 1 A1 A2\n");
    assert_eq!(printed(S, CONSTANT, T), "first 0 1\nsecond 1 7\ndiffer 1 at - A2 A1\n");
    assert_eq!(printed(&[1, 1, 1, 0], T, T), "refused 2\n");
    assert_eq!(printed(S, &[1, 0, 3], &[0, 0, 1, 1, 0]), "refused 4\n");
    assert_eq!(printed(S, &[0, 0, 1, 1, 0], &[1, 0, 3]), "refused 5\n");
    assert_eq!(printed(S, &ring(65), T), "refused 7\n");
}

/// A file that is missing counts as empty.
#[test]
fn missing_files() {
    for (names, expected) in [
        (&["stock"][..], "refused 2\n"),
        (&["first"], "refused 4\n"),
        (&["second"], "refused 4\n"),
        (&["first", "second"], "refused 4\n"),
        (&["stock", "first", "second"], "refused 2\n"),
    ] {
        let folder = folder(S, T, T_PRIME);
        names.iter().for_each(|name| fs::remove_file(folder.file(name)).expect("it was there"));
        assert_eq!(run(&folder), expected, "{names:?}");
    }
}

/// So does a folder, which cannot be read.
#[test]
fn folders_for_files() {
    for (name, expected) in [("stock", "refused 2\n"), ("first", "refused 4\n"), ("second", "refused 4\n")] {
        let folder = folder(S, T, T_PRIME);
        fs::remove_file(folder.file(name)).expect("it was there");
        fs::create_dir(folder.file(name)).expect("a new folder");
        assert_eq!(run(&folder), expected, "{name}");
    }
}

/// So does a file that this user may not read; root may.
#[cfg(unix)]
#[test]
fn unreadable_files() {
    use std::os::unix::fs::PermissionsExt;
    for (name, refused) in [("stock", "refused 2\n"), ("first", "refused 4\n"), ("second", "refused 4\n")] {
        let folder = folder(S, T, T_PRIME);
        fs::set_permissions(folder.file(name), fs::Permissions::from_mode(0o0)).expect("it is ours");
        let readable = fs::read(folder.file(name)).is_ok();
        assert_eq!(run(&folder), if readable { ALIKE } else { refused }, "{name}");
    }
}

/// A file may come in pieces, as through a pipe: it is read to its end, and not as far as the first read gets.
#[cfg(unix)]
#[test]
fn files_in_pieces() {
    use std::io::Write;
    use std::process::Command;
    use std::{thread, time::Duration};
    for name in ["stock", "first", "second"] {
        let folder = folder(S, T, U);
        let (whole, bytes, path) = (run(&folder), folder.read(name), folder.file(name));
        assert_eq!(whole, "first 1 7\nsecond 1 11\ndiffer 1 at 1 A2 A1\n");
        fs::remove_file(&path).expect("it was there");
        assert!(Command::new("mkfifo").arg(&path).status().expect("mkfifo starts").success());
        let writer = thread::spawn(move || {
            // waits until the program opens it
            let mut pipe = fs::OpenOptions::new().write(true).open(path).expect("a pipe");
            let (start, rest) = bytes.split_at(bytes.len() / 2);
            pipe.write_all(start).expect("the program reads");
            thread::sleep(Duration::from_millis(50));
            // a program that has stopped reading has closed it
            let _ = pipe.write_all(rest);
        });
        assert_eq!(run(&folder), whole, "{name}");
        writer.join().expect("all is written");
    }
}

/// 16 part kinds and 64 block kinds, the most there are: 82 bytes. All part kinds and the last two block
/// kinds have no places.
fn longest_stock() -> Vec<u8> {
    [vec![16], vec![0; 16], vec![64], vec![1; 62], vec![0, 0]].concat()
}

#[test]
fn lengths_of_stocks() {
    let (stock, one, two) = (longest_stock(), [0, 0, 1, 0, 62], [0, 0, 1, 0, 63]);
    assert_eq!(stock.len(), 82);
    assert_eq!(printed(&stock, &one, &one), "first 0 1\nsecond 0 1\nalike\n");
    let differ = printed(&stock, &one, &two);
    assert!(differ.ends_with(" at - H7 H8\n"), "{differ}");
    assert_eq!(differ, text(&stock, &one, &two));
    for more in [1, 2, 100_000] {
        assert_eq!(printed(&[&stock[..], &vec![0; more]].concat(), &one, &one), "refused 2\n");
        assert_eq!(printed(&[S, &vec![0; more]].concat(), T, T), "refused 2\n");
    }
}

/// Every code, as the first block's and as the second's.
#[test]
fn codes() {
    let stock = [&[1, 0, 64][..], &[0; 64]].concat();
    for symbol in 0..64 {
        let next = (symbol + 1) % 64;
        let [first, second] = [symbol, next].map(|symbol| [0, 0, 1, 0, symbol]);
        let expected = format!("first 0 1\nsecond 0 1\ndiffer 0 at - {} {}\n", block(symbol), block(next));
        assert_eq!(printed(&stock, &first, &second), expected);
    }
}

/// 128 passes, all lines and all marks that there may be: 20,483 bytes.
#[test]
fn lengths_of_sheets() {
    let (stock, line) = (longest_stock(), [[0, 0].repeat(3), vec![0, 63]].concat());
    let mut terms = vec![&line[..]; 2_047];
    terms.extend([&line[4..], &line[4..]]);
    let (longest, short) = (file(128, &terms), [0, 0, 1, 0, 62]);
    assert_eq!(longest.len(), 20_483);
    let differ = printed(&stock, &longest, &short);
    assert!(differ.starts_with("first 0 4\nsecond 0 1\ndiffer "), "{differ}");
    assert_eq!(differ, text(&stock, &longest, &short));
    assert_eq!(printed(&stock, &short, &longest), text(&stock, &short, &longest));
    assert_eq!(printed(&stock, &longest, &longest), "first 0 4\nsecond 0 4\nalike\n");
    for more in [1, 2, 100_000] {
        let longer = [&longest[..], &vec![0; more]].concat();
        assert_eq!(printed(&stock, &longer, &longest), "refused 4\n");
        assert_eq!(printed(&stock, &longest, &longer), "refused 4\n");
    }
}

/// What stands behind a sheet is no part of it, and is not passed over.
#[test]
fn bytes_behind() {
    for more in [1, 2, 100_000] {
        let longer = [T, &vec![0; more]].concat();
        assert_eq!(printed(S, &longer, T), "refused 4\n");
        assert_eq!(printed(S, T, &longer), "refused 4\n");
        assert_eq!(printed(S, &longer, &[0, 0, 1, 1, 0]), "refused 4\n");
    }
}

/// The text is the library's verdict, both ways round.
fn compared(stock: &[u8], first: &[u8], second: &[u8]) -> String {
    for (first, second) in [(second, first), (first, second)] {
        assert_eq!(printed(stock, first, second), text(stock, first, second), "{stock:?} {first:?} {second:?}");
    }
    text(stock, first, second)
}

#[test]
fn generated_pairs() {
    let (mut alike, mut differ, mut refused) = (0, 0, 0);
    for seed in 0..160 {
        let mut random = Random::new(seed + 25_000_000);
        let (alphabets, one) = if seed % 2 == 0 {
            any(&mut random)
        } else {
            let alphabets = small_alphabets(&mut random);
            let one = small_transducer(&mut random, &alphabets, 5, 7);
            (alphabets, one)
        };
        let two = match seed % 8 {
            0 | 1 => one.alike(&mut random, &alphabets, 6),
            3 => small_transducer(&mut random, &alphabets, 5, 7),
            _ => one.with_one_mark_changed(&mut random, &alphabets).unwrap_or_else(|| one.clone()),
        };
        let mut second = two.file();
        if seed % 20 == 18 {
            generate::damage(&mut random, &mut second);
        }
        let verdict = compared(&alphabets.file(), &one.file(), &second);
        alike += usize::from(verdict.ends_with("alike\n"));
        differ += usize::from(verdict.contains("differ "));
        refused += usize::from(verdict.starts_with("refused "));
    }
    println!("{alike} alike, {differ} differ, {refused} refused");
    assert_eq!(alike + differ + refused, 160);
    assert!(alike > 24 && differ > 36 && refused > 5);
}

/// The largest designs and places that the comparison shows.
#[test]
fn late_differences() {
    for states in [1, 2, 64, 128] {
        compared(&chain_alphabets().file(), &chain(states, 2, 1).file(), &chain(states, 2, 2).file());
    }
    for states in [2, 40, 126] {
        let rows = [Row::last_marked(states, 1), Row::last_marked(states, 0)];
        let [one, two] = rows.each_ref().map(|row| row.telling(3, 1).file());
        compared(&row_alphabets(4).file(), &one, &two);
        let [one, two] = rows.each_ref().map(|row| row.long().file());
        compared(&row_alphabets(4).file(), &one, &two);
    }
}
