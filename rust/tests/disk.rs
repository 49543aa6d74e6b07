//! A registry on disk (the paper: a book): damaged files, writers at once, and writers that are stopped while they
//! write.
mod folder;
mod generate;
mod makes;

use caplune::text::{self, Names};
use caplune::{store, Alphabets, DamagedRegistry, NotCarried, Refusal, Registry, StoredRegistry, Transducer};
use folder::Folder;
use generate::alike::{chain, chain_alphabets};
use generate::samples::*;
use generate::Random;
use makes::{make_1, with_sum, without_sum};
use std::fs;
use std::io::{BufRead, BufReader};
use std::path::Path;
use std::process::{Child, Command, Stdio};
use std::sync::mpsc;
use std::time::{Duration, Instant};

const PROGRAM: &str = env!("CARGO_BIN_EXE_caplune");

/// These names of two kinds of parts and two of blocks.
fn names(words: [&str; 4]) -> Names {
    let [a, b, c, d] = words.map(String::from);
    Names::new(vec![a, b], vec![c, d]).unwrap()
}

fn sample() -> Registry {
    let alphabets = Alphabets::read(S).unwrap();
    let registry = Registry::new(&alphabets, 100).unwrap();
    let mut registry = registry.with_names(names(["hem", "end", "f", "e"])).unwrap();
    for file in [T, T_PRIME, U, CONSTANT] {
        registry.enter(&Transducer::read(&alphabets, file).unwrap()).unwrap();
    }
    registry
}

/// No lock is waited for.
fn not_waited(lock: &Path) {
    panic!("{} is waited for", lock.display());
}

/// Where the numbers of a file end: behind the first line and 104 numbers.
const BODIES: usize = 15 + 8 * 104;

#[test]
fn bytes_of_a_registry() {
    let registry = sample();
    let bytes = registry.to_bytes();
    let table = b"names\nparts hem end\nblocks f e\n";
    // the first line, 104 numbers, the used bytes of the area, the names, and the sum
    assert_eq!(bytes.len(), BODIES + registry.used() + table.len() + 8);
    assert_eq!(&bytes[..15], b"caplune book 2\n");
    let numbers = [100, 3, 6 + 21 + 29 + 5, 4, 31, 0, 6, 0, 6, 21, 2, 27, 29, 1, 56, 5, 1, 0, 0, 0];
    for (index, number) in numbers.into_iter().enumerate() {
        assert_eq!(bytes[15 + 8 * index..][..8], u64::to_be_bytes(number), "{index}");
    }
    assert!(bytes[15 + 8 * numbers.len()..BODIES].iter().all(|&byte| byte == 0));
    assert_eq!(&bytes[BODIES..][..27], [S, T].concat());
    assert_eq!(&bytes[BODIES + 61..][..31], table);
    assert_eq!(with_sum(without_sum(&bytes)), bytes);
    assert_eq!(Registry::from_bytes(&bytes), Ok(registry.clone()));
    assert_eq!(StoredRegistry::from_bytes(&bytes), Ok(StoredRegistry::Current(registry)));
}

/// The entries answered with each number, and the names.
#[test]
fn counts_and_names() {
    let mut registry = sample();
    let counts = |registry: &Registry| (0..5).map(|number| registry.count(number)).collect::<Vec<_>>();
    assert_eq!(counts(&registry), [None, Some(2), Some(1), Some(1), None]);
    assert_eq!((registry.count(33), registry.count(usize::MAX)), (None, None));
    registry.enter(&Transducer::read(registry.alphabets(), U).unwrap()).unwrap();
    assert_eq!(counts(&registry), [None, Some(2), Some(2), Some(1), None]);
    // a refused entry is not counted
    let over = Transducer::read(registry.alphabets(), &ring(65)).unwrap();
    assert_eq!(registry.enter(&over), Err(Refusal::OverLimits));
    assert_eq!(counts(&registry), [None, Some(2), Some(2), Some(1), None]);
    assert_eq!(registry.names(), &names(["hem", "end", "f", "e"]));
    let codes = Registry::new(registry.alphabets(), 60).unwrap();
    assert_eq!(codes.names(), &Names::codes(registry.alphabets()));
    let strings = |names: &[&str]| names.iter().map(|name| name.to_string()).collect::<Vec<_>>();
    for (inputs, outputs) in [(&["a"][..], &["f", "e"][..]), (&["a", "e"], &["f", "e", "g"]), (&[], &[])] {
        let names = Names::new(strings(inputs), strings(outputs)).unwrap();
        assert!(registry.clone().with_names(names).is_none());
    }
}

/// No file of which a byte was altered is read, in any of its bits, nor one that is cut or has more behind it.
#[test]
fn altered_bytes() {
    for bytes in [sample().to_bytes(), make_1(&sample())] {
        for index in 0..bytes.len() {
            for change in 1..=255 {
                let mut altered = bytes.clone();
                altered[index] ^= change;
                assert!(StoredRegistry::from_bytes(&altered).is_err(), "{index} {change}");
            }
            assert!(StoredRegistry::from_bytes(&bytes[..index]).is_err(), "{index}");
        }
        let last = bytes.len() - 1;
        assert_eq!(StoredRegistry::from_bytes(&bytes[..last]), Err(DamagedRegistry::Cut));
        assert_eq!(StoredRegistry::from_bytes(&[&bytes[..], &[0]].concat()), Err(DamagedRegistry::Altered));
        assert_eq!(StoredRegistry::from_bytes(&[&bytes[..], &bytes[..]].concat()), Err(DamagedRegistry::Altered));
    }
    for (begun, error) in [
        (&b""[..], DamagedRegistry::NotARegistry),
        (b"caplune book", DamagedRegistry::NotARegistry),
        (b"caplune book ", DamagedRegistry::Cut),
        (b"caplune book 2", DamagedRegistry::Cut),
        (b"caplune book 2\n", DamagedRegistry::Cut),
        (b"caplune book 1\n", DamagedRegistry::Cut),
        (b"caplune book 0\n", DamagedRegistry::Altered),
        (b"caplune book 02\n", DamagedRegistry::Altered),
        (b"caplune book 2\r\n", DamagedRegistry::Altered),
        (b"caplune book -1\n", DamagedRegistry::Altered),
        (b"caplune book \n", DamagedRegistry::Altered),
        (b"caplune book 3\n", DamagedRegistry::LaterMake(3)),
        (b"caplune book 10\nmore", DamagedRegistry::LaterMake(10)),
        (b"caplune book 99999999999999999999\n", DamagedRegistry::LaterMake(u64::MAX)),
    ] {
        assert_eq!(StoredRegistry::from_bytes(begun), Err(error), "{}", String::from_utf8_lossy(begun));
        assert_eq!(Registry::from_bytes(begun), Err(error));
    }
    assert_eq!(Registry::from_bytes(&make_1(&sample())), Err(DamagedRegistry::EarlierMake(1)));
    // the other make's first line before whole files
    for (bytes, line) in [(sample().to_bytes(), b"caplune book 1\n"), (make_1(&sample()), b"caplune book 2\n")] {
        let other = with_sum([&line[..], &without_sum(&bytes)[15..]].concat());
        assert!(StoredRegistry::from_bytes(&other).is_err());
    }
}

/// The file of the sample with other numbers, and the right sum.
fn with_numbers(changes: &[(usize, u64)]) -> Result<Registry, DamagedRegistry> {
    let mut altered = without_sum(&sample().to_bytes());
    for (index, number) in changes {
        altered[15 + 8 * index..][..8].copy_from_slice(&number.to_be_bytes());
    }
    Registry::from_bytes(&with_sum(altered))
}

/// Files that were altered and given the right sum are read only if they are those of a registry.
#[test]
fn altered_numbers() {
    let with = |index: usize, number: u64| with_numbers(&[(index, number)]);
    // the length of the area: at least the used bytes, at most what 32 sheets need
    assert_eq!(with(0, 61).map(|registry| registry.area()), Ok(61));
    assert_eq!(with(0, 60), Err(DamagedRegistry::Altered));
    assert_eq!(with(0, 655_538).map(|registry| registry.area()), Ok(655_538));
    for area in [655_539, u64::MAX] {
        assert_eq!(with(0, area), Err(DamagedRegistry::Altered));
    }
    // sheets held, bytes used, entries answered, the length of the names, the first record
    for (index, numbers) in [
        (1, &[0, 2, 4, 33, u64::MAX][..]),
        (2, &[60, 62, u64::MAX]),
        (3, &[0, 3, 5, u64::MAX]),
        (4, &[0, 30, 32, u64::MAX]),
        (5, &[1]),
    ] {
        numbers.iter().for_each(|&number| assert!(with(index, number).is_err(), "{index} {number}"));
    }
    // a byte of the bodies as one of the names, and the other way; lengths that sum to more than there are numbers
    let most = u64::MAX;
    for changes in
        [[(2, 60), (4, 32)], [(2, 62), (4, 30)], [(2, 0), (4, 92)], [(2, most), (4, 93)], [(2, 93), (4, most)]]
    {
        assert!(with_numbers(&changes).is_err(), "{changes:?}");
    }
    let bytes = sample().to_bytes();
    // a body that is not clean: T' in place of T, of the same length
    let mut altered = without_sum(&bytes);
    altered[BODIES + 6..][..21].copy_from_slice(T_PRIME);
    assert_eq!(Registry::from_bytes(&with_sum(altered)), Err(DamagedRegistry::Altered));
    // one sheet twice
    let mut registry = Registry::new(&Alphabets::read(S).unwrap(), 100).unwrap();
    registry.enter(&Transducer::read(&Alphabets::read(S).unwrap(), CONSTANT).unwrap()).unwrap();
    let mut twice = without_sum(&registry.to_bytes());
    twice.splice(BODIES + 11..BODIES + 11, CONSTANT.iter().copied());
    for (index, number) in [(1, 2), (2, 16), (3, 2), (11, 11), (12, 5), (13, 1)] {
        twice[15 + 8 * index..][..8].copy_from_slice(&u64::to_be_bytes(number));
    }
    assert_eq!(Registry::from_bytes(&with_sum(twice)), Err(DamagedRegistry::Altered));
}

/// The counts of a file, altered and given the right sum: one for each number that is held, at least 1, no other, and
/// they sum to the entries answered.
#[test]
fn altered_counts() {
    // the count of a record
    let of = |record: usize| 5 + 3 * record + 2;
    let counts = |counts: &[u64]| {
        let changes: Vec<_> = counts.iter().enumerate().map(|(record, &count)| (of(record), count)).collect();
        with_numbers(&changes).map(|registry| (1..=3).map(|number| registry.count(number).unwrap()).collect::<Vec<_>>())
    };
    assert_eq!(counts(&[0, 2, 1, 1, 0]), Ok(vec![2, 1, 1]));
    // another book, which has answered as much
    assert_eq!(counts(&[0, 1, 2, 1, 0]), Ok(vec![1, 2, 1]));
    let half = 1 << 63;
    for wrong in [
        // another sum
        [0, 3, 1, 1, 0],
        [0, 1, 1, 1, 0],
        // a number that was never answered, though the sum is right
        [0, 3, 0, 1, 0],
        [0, 0, 3, 1, 0],
        [0, 2, 2, 0, 0],
        // record 0 and an unused record, though the sum is right
        [1, 1, 1, 1, 0],
        [0, 1, 1, 1, 1],
        // right only if sums begin again at 0
        [0, half, half, 4, 0],
        [0, half + 1, half + 2, 1, 0],
        [0, u64::MAX, 2, 3, 0],
    ] {
        assert_eq!(counts(&wrong), Err(DamagedRegistry::Altered), "{wrong:?}");
    }
    assert!(with_numbers(&[(of(32), 1), (of(1), 1)]).is_err());
    // the most entries that a book can have answered
    let most = u64::MAX - 1;
    assert_eq!(with_numbers(&[(3, most), (of(1), most - 2)]).map(|registry| registry.answered()), Ok(most));
    assert!(with_numbers(&[(3, u64::MAX), (of(1), u64::MAX - 2)]).is_err());
}

/// The names of a file, altered: only a table just as it is written, for just these kinds, is read, under the right sum.
#[test]
fn altered_names() {
    let bytes = sample().to_bytes();
    let with = |table: &str| {
        let mut altered = bytes[..BODIES + 61].to_vec();
        altered[15 + 8 * 4..][..8].copy_from_slice(&(table.len() as u64).to_be_bytes());
        altered.extend(table.as_bytes());
        Registry::from_bytes(&with_sum(altered))
    };
    assert_eq!(with("names\nparts hem end\nblocks f e\n"), Ok(sample()));
    // two kinds of one rank swapped under the right sum are another book, and under the old one none
    let swapped = with("names\nparts end hem\nblocks f e\n").unwrap();
    assert_eq!(swapped.names(), &names(["end", "hem", "f", "e"]));
    assert_ne!(swapped, sample());
    let mut old = without_sum(&swapped.to_bytes());
    old.extend(&bytes[bytes.len() - 8..]);
    assert_eq!(Registry::from_bytes(&old), Err(DamagedRegistry::Altered));
    let longest = "n".repeat(100);
    assert!(with(&format!("names\nparts {longest} end\nblocks f e\n")).is_ok());
    for wrong in [
        "",
        "names\nparts hem\nblocks f e\n",
        "names\nparts hem end seam\nblocks f e\n",
        "names\nparts hem end\nblocks f e g\n",
        "names\nparts hem end\nblocks f\n",
        "names\nparts hem hem\nblocks f e\n",
        "names\nparts hem x1\nblocks f e\n",
        "names\nparts hem end\nblocks f e",
        "names\nparts hem end\nblocks f e\n\n",
        "names\nparts  hem end\nblocks f e\n",
        "names parts hem end blocks f e",
        "\u{feff}names\nparts hem end\nblocks f e\n",
        "names\nparts hem end # a comment\nblocks f e\n",
        "names\r\nparts hem end\r\nblocks f e\r\n",
        "names\npasses q p\n",
        "stock\nparts  hem/1 end/0\nblocks f/2 e/0\n",
        &format!("names\nparts {longest}n end\nblocks f e\n"),
    ] {
        assert_eq!(with(wrong), Err(DamagedRegistry::Altered), "{wrong:?}");
    }
}

/// Damage by seed, with the right sum and without: what is read is a registry whose file is what was read.
#[test]
fn damaged_by_seed() {
    let files = [sample().to_bytes(), make_1(&sample())];
    let mut read = [0, 0];
    for seed in 0..20_000 {
        let mut random = Random::new(seed + 70_000_000);
        let mut damaged = without_sum(&files[random.below(2)]);
        for _ in 0..random.below(3) {
            generate::damage(&mut random, &mut damaged);
        }
        if seed % 4 > 0 {
            damaged = with_sum(damaged);
        }
        match StoredRegistry::from_bytes(&damaged) {
            Ok(StoredRegistry::Current(registry)) => {
                assert_eq!(registry.to_bytes(), damaged, "{seed}");
                (1..=registry.held()).for_each(|number| assert!(registry.normal_form(number).is_some(), "{seed}"));
                read[0] += 1;
            }
            Ok(StoredRegistry::Earlier(earlier)) => {
                // all that the file does not keep
                let mut counts = vec![1; earlier.held()];
                if let Some(first) = counts.first_mut() {
                    *first += earlier.answered() - earlier.held() as u64;
                }
                let carried = earlier.carried(&counts, &Names::codes(earlier.alphabets())).unwrap();
                assert_eq!(make_1(&carried), damaged, "{seed}");
                assert_eq!(Registry::from_bytes(&carried.to_bytes()), Ok(carried), "{seed}");
                read[1] += 1;
            }
            Err(_) => {}
        }
    }
    println!("{read:?} of 20000 are read");
    assert!(read.iter().all(|&read| read > 500 && read < 5_000), "{read:?}");
}

/// A registry of make 1: what it shows, and what it becomes with counts and names.
#[test]
fn earlier_makes() {
    let sheets = [T, U, CONSTANT];
    let alphabets = Alphabets::read(S).unwrap();
    let earlier = |entries: &[usize]| {
        let mut registry = Registry::new(&alphabets, 100).unwrap();
        for &entry in entries {
            registry.enter(&Transducer::read(&alphabets, sheets[entry]).unwrap()).unwrap();
        }
        match StoredRegistry::from_bytes(&make_1(&registry)) {
            Ok(StoredRegistry::Earlier(earlier)) => (earlier, registry),
            other => panic!("{other:?}"),
        }
    };
    for (entries, determined) in [
        (&[][..], Some(&[][..])),
        (&[0], Some(&[1])),
        (&[0, 0, 0], Some(&[3])),
        (&[0, 1], Some(&[1, 1])),
        (&[2, 0, 1], Some(&[1, 1, 1])),
        (&[0, 1, 1], None),
        (&[0, 0, 1, 2], None),
    ] {
        let (earlier, registry) = earlier(entries);
        assert_eq!(earlier.determined_counts().as_deref(), determined, "{entries:?}");
        assert_eq!((earlier.make(), earlier.alphabets()), (1, &alphabets));
        let numbers = (earlier.held(), earlier.used(), earlier.area(), earlier.answered());
        assert_eq!(numbers, (registry.held(), registry.used(), registry.area(), registry.answered()));
        (0..4).for_each(|number| assert_eq!(earlier.normal_form(number), registry.normal_form(number)));
        // with the counts that it had, it is the same book
        let counts: Vec<u64> = (1..=registry.held()).map(|number| registry.count(number).unwrap()).collect();
        assert_eq!(earlier.carried(&counts, registry.names()), Ok(registry));
    }
    let (earlier, registry) = earlier(&[0, 0, 1, 2]);
    let named = names(["hem", "end", "f", "e"]);
    let half = 1 << 63;
    for (counts, wrong) in [
        (&[2, 1][..], NotCarried::Counts { given: 2, held: 3 }),
        (&[1, 1, 1, 1], NotCarried::Counts { given: 4, held: 3 }),
        (&[], NotCarried::Counts { given: 0, held: 3 }),
        (&[3, 0, 1], NotCarried::Zero { number: 2 }),
        (&[1, 1, 1], NotCarried::Sum { sum: 3, answered: 4 }),
        (&[2, 2, 2], NotCarried::Sum { sum: 6, answered: 4 }),
        (&[half, half, 4], NotCarried::Sum { sum: (1 << 64) + 4, answered: 4 }),
    ] {
        assert_eq!(earlier.carried(counts, &named), Err(wrong), "{counts:?}");
    }
    let one = Names::new(vec!["a".into()], vec!["f".into(), "e".into()]).unwrap();
    assert_eq!(earlier.carried(&[2, 1, 1], &one), Err(NotCarried::Names));
    let carried = earlier.carried(&[1, 2, 1], &named).unwrap();
    assert_eq!((carried.count(2), carried.names()), (Some(2), &named));
    assert_eq!(Registry::from_bytes(&carried.to_bytes()), Ok(carried));
    // numbers that no book of make 1 has had, with the right sum: less answered than held, answers without a sheet
    let bytes = without_sum(&make_1(&registry));
    let with = |index: usize, number: u64| {
        let mut altered = bytes.clone();
        altered[15 + 8 * index..][..8].copy_from_slice(&number.to_be_bytes());
        StoredRegistry::from_bytes(&with_sum(altered))
    };
    for (index, numbers) in
        [(0, &[60, 655_539][..]), (1, &[2, 4, 33, u64::MAX]), (2, &[60, 62]), (3, &[0, 2, u64::MAX]), (4, &[1])]
    {
        numbers.iter().for_each(|&number| assert!(with(index, number).is_err(), "{index} {number}"));
    }
    assert!(matches!(with(3, 3), Ok(StoredRegistry::Earlier(_))));
    let mut empty = without_sum(&make_1(&Registry::new(&alphabets, 60).unwrap()));
    empty[15 + 8 * 3..][..8].copy_from_slice(&1_u64.to_be_bytes());
    assert_eq!(StoredRegistry::from_bytes(&with_sum(empty)), Err(DamagedRegistry::Altered));
}

#[test]
fn files_around() {
    let folder = Folder::new();
    let (path, alphabets) = (folder.file("book"), Alphabets::read(S).unwrap());
    let registry = Registry::new(&alphabets, 60).unwrap();
    let registry = registry.with_names(names(["hem", "end", "f", "e"])).unwrap();
    assert!(matches!(store::read(&path), Err(store::Error::System(_))));
    store::make(&path, &registry, not_waited).unwrap();
    assert_eq!(folder.names(), ["book", "book.lock"]);
    assert_eq!(store::read(&path).unwrap(), registry);
    assert_eq!(store::read_any(&path).unwrap(), StoredRegistry::Current(registry.clone()));
    // what is there is not made again, a registry or not
    assert!(matches!(store::make(&path, &sample(), not_waited), Err(store::Error::System(_))));
    assert_eq!(store::read(&path).unwrap(), registry);
    folder.write("other", b"a letter");
    assert!(matches!(store::make(&folder.file("other"), &registry, not_waited), Err(store::Error::System(_))));
    assert_eq!(folder.read("other"), b"a letter");
    assert_eq!(folder.names(), ["book", "book.lock", "other"]);
    assert!(matches!(
        store::change(&folder.file("other"), not_waited, |_| ()),
        Err(store::Error::Damaged(DamagedRegistry::NotARegistry))
    ));
    // a refused entry leaves the file as it was, which is not even written
    let before = file_number(&path);
    let over = Transducer::read(&alphabets, &ring(65)).unwrap();
    assert_eq!(store::change(&path, not_waited, |registry| registry.enter(&over)).unwrap(), Err(Refusal::OverLimits));
    let other = Transducer::read(&alphabets, CONSTANT).unwrap();
    let committed = store::change(&path, not_waited, |registry| registry.commit(&other, 2));
    assert_eq!(committed.unwrap(), Err(Refusal::OtherNumber));
    assert_eq!(file_number(&path), before);
    let sheet = Transducer::read(&alphabets, T).unwrap();
    store::change(&path, not_waited, |registry| registry.enter(&sheet)).unwrap().unwrap();
    assert_ne!(file_number(&path), before);
    // where there is no registry nothing is left behind
    for none in [folder.file("none"), folder.0.clone()] {
        assert!(store::change(&none, not_waited, |_| ()).is_err());
    }
    assert_eq!(folder.names(), ["book", "book.lock", "other", "other.lock"]);
    // one of an earlier make is read and stays as it is
    folder.write("earlier", &make_1(&sample()));
    assert!(matches!(store::read_any(&folder.file("earlier")), Ok(StoredRegistry::Earlier(_))));
    let changed = store::change(&folder.file("earlier"), not_waited, |_| ());
    assert!(matches!(changed, Err(store::Error::Damaged(DamagedRegistry::EarlierMake(1)))));
    assert_eq!(folder.read("earlier"), make_1(&sample()));
}

/// The number of a file, which another file has when it is replaced.
#[cfg(unix)]
fn file_number(path: &Path) -> u64 {
    std::os::unix::fs::MetadataExt::ino(&fs::metadata(path).unwrap())
}

/// A file that is far too long is not read to its end: there is not so much memory.
#[cfg(unix)]
#[test]
fn long_files() {
    let folder = Folder::new();
    folder.write("long", &sample().to_bytes());
    fs::File::options().write(true).open(folder.file("long")).unwrap().set_len(1 << 30).unwrap();
    let script = "ulimit -v 500000; exec \"$0\" book list long";
    let ended = folder.run(Path::new("/bin/sh"), &["-c", script, PROGRAM], b"");
    assert_eq!(ended.status, Some(2), "{ended:?}");
    assert!(ended.err.starts_with("caplune: long: refused by 9: "), "{ended:?}");
}

/// A link stays one, and permissions stay.
#[cfg(unix)]
#[test]
fn links_and_permissions() {
    use std::os::unix::fs::{symlink, PermissionsExt};
    let (folder, alphabets) = (Folder::new(), Alphabets::read(S).unwrap());
    let (book, link) = (folder.file("book"), folder.file("link"));
    store::make(&book, &Registry::new(&alphabets, 60).unwrap(), not_waited).unwrap();
    fs::set_permissions(&book, fs::Permissions::from_mode(0o640)).unwrap();
    symlink("book", &link).unwrap();
    let sheet = Transducer::read(&alphabets, T).unwrap();
    assert_eq!(store::change(&link, not_waited, |registry| registry.enter(&sheet)).unwrap(), Ok(1));
    assert!(fs::symlink_metadata(&link).unwrap().is_symlink());
    assert_eq!(fs::metadata(&book).unwrap().permissions().mode() & 0o777, 0o640);
    assert_eq!(store::read(&book).unwrap().held(), 1);
    assert_eq!(folder.names(), ["book", "book.lock", "link"]);
    // what is no file is written to, and stays what it is
    store::replace(Path::new("/dev/null"), |out| out.write_all(b"nothing"), || Ok(())).unwrap();
    assert!(!fs::metadata("/dev/null").unwrap().is_file());
    store::replace(&link, |out| out.write_all(b"text"), || Ok(())).unwrap();
    assert_eq!((folder.read("book"), fs::symlink_metadata(&link).unwrap().is_symlink()), (b"text".to_vec(), true));
}

/// Threads that replace one file at once: it is one of the new ones, whole, at every moment.
#[test]
fn replaced_at_once() {
    let folder = Folder::with(&[("file", &[0; 30_000])]);
    let path = folder.file("file");
    std::thread::scope(|scope| {
        for letter in 1..=4 {
            let path = &path;
            scope.spawn(move || {
                for _ in 0..40 {
                    store::replace(path, |out| out.write_all(&[letter; 30_000]), || Ok(())).unwrap();
                    let read = fs::read(path).unwrap();
                    assert!(read.len() == 30_000 && read.iter().all(|byte| *byte == read[0]));
                }
            });
        }
    });
    // what fails, in writing or when all is written, leaves the old file and nothing beside it
    let before = folder.read("file");
    let fails = || Err(std::io::Error::other("no more"));
    assert!(store::replace(&path, |_| fails(), || Ok(())).is_err());
    assert!(store::replace(&path, |out| out.write_all(b"new"), fails).is_err());
    assert_eq!((folder.read("file"), folder.names()), (before, vec!["file".to_string()]));
}

/// A folder with a book of the chains of 1 to `sheets` states, each in a file of its own.
fn chains(sheets: usize) -> (Folder, Vec<Transducer>) {
    let folder = Folder::new();
    let alphabets = Alphabets::read(&chain_alphabets().file()).unwrap();
    let read = |states: usize| Transducer::read(&alphabets, &chain(states, 2, 1).file()).unwrap();
    let sheets: Vec<_> = (1..=sheets).map(|number| read(60 - number)).collect();
    for (number, sheet) in sheets.iter().enumerate() {
        folder.write(&format!("{number}"), sheet.as_bytes());
    }
    let registry = Registry::new(&alphabets, Registry::LONGEST_AREA).unwrap();
    store::make(&folder.file("book"), &registry, not_waited).unwrap();
    (folder, sheets)
}

/// A command of the program, begun in a folder.
fn begin(folder: &Folder, line: &str) -> Child {
    let mut command = Command::new(PROGRAM);
    command.args(line.split(' ')).current_dir(&folder.0);
    command.stdin(Stdio::null()).stdout(Stdio::piped()).stderr(Stdio::piped()).spawn().expect("the program starts")
}

fn enter(folder: &Folder, sheet: usize) -> Child {
    begin(folder, &format!("book enter book {sheet}"))
}

/// Many writers at once: each entry is answered, counted and kept.
#[test]
fn writers_at_once() {
    let (folder, _) = chains(4);
    let writers: Vec<_> = (0..40).map(|number| (number % 4, enter(&folder, number % 4))).collect();
    let mut numbers = [None; 4];
    for (sheet, writer) in writers {
        let ended = writer.wait_with_output().unwrap();
        let text = String::from_utf8(ended.stdout).unwrap();
        let number: usize = text.trim().strip_prefix(&format!("{sheet}: ")).unwrap().parse().unwrap();
        assert_eq!(*numbers[sheet].get_or_insert(number), number);
    }
    let book = store::read(&folder.file("book")).unwrap();
    assert_eq!((book.held(), book.answered()), (4, 40));
    (1..=4).for_each(|number| assert_eq!(book.count(number), Some(10)));
    numbers.sort();
    assert_eq!(numbers, [Some(1), Some(2), Some(3), Some(4)]);
}

/// Many commits at once of four new sheets, all with the number 1: those of the first sheet that comes are accepted, the
/// others are refused by 13, and questions meanwhile find a whole book.
#[test]
fn commits_at_once() {
    let (folder, _) = chains(4);
    let committers: Vec<_> =
        (0..40).map(|number| (number % 4, begin(&folder, &format!("book commit book {} 1", number % 4)))).collect();
    let asking: Vec<_> = (0..8).map(|number| begin(&folder, &format!("book question book {}", number % 4))).collect();
    for asked in asking {
        let ended = asked.wait_with_output().unwrap();
        assert!(ended.stdout == b"1\n" || ended.stdout == b"2\n", "{ended:?}");
    }
    let (mut accepted, mut refused) = (Vec::new(), 0);
    for (sheet, committer) in committers {
        let ended = committer.wait_with_output().unwrap();
        match ended.status.code() {
            Some(0) => {
                assert_eq!(String::from_utf8(ended.stdout).unwrap(), format!("{sheet}: 1\n"));
                accepted.push(sheet);
            }
            _ => {
                let begun = format!("caplune: {sheet}: refused by 13: ");
                assert!(ended.stdout.is_empty() && ended.stderr.starts_with(begun.as_bytes()), "{ended:?}");
                refused += 1;
            }
        }
    }
    accepted.dedup();
    assert_eq!((accepted.len(), refused), (1, 30));
    let book = store::read(&folder.file("book")).unwrap();
    assert_eq!((book.held(), book.answered(), book.count(1)), (1, 10, Some(10)));
}

/// 270 writers are stopped in the middle of a write by the system, each at some byte of the new file that is not
/// written any more, and 135 by a signal, at any moment; every second one commits the number that a question told, and
/// the others enter. Each time the book is the old one or, after a signal, the new one, to the byte, and the next writer
/// goes on.
#[cfg(unix)]
#[test]
fn stopped_writers() {
    let (folder, sheets) = chains(30);
    let path = folder.file("book");
    let mut book = store::read(&path).unwrap();
    let mut random = Random::new(71_000_000);
    let (mut cut, mut old, mut new, mut left) = (0, 0, 0, 0);
    let mut counts = vec![0; sheets.len() + 1];
    let mut longest = Duration::from_millis(2);
    for stop in 0..405 {
        let sheet = stop % sheets.len();
        let mut entered = book.clone();
        let number = entered.enter(&sheets[sheet]).unwrap();
        // 3 and 2 have no common factor, so both ways to stop meet both commands
        let line = match stop % 2 {
            0 => format!("book enter book {sheet}"),
            _ => format!("book commit book {sheet} {number}"),
        };
        if stop % 3 > 0 {
            // the shell's limit counts 512 bytes; the new file is longer
            let blocks = random.below(entered.to_bytes().len().div_ceil(512));
            let script = format!("ulimit -c 0; ulimit -f {blocks}; exec \"$0\" {line}");
            let ended = folder.run(Path::new("/bin/sh"), &["-c", &script, PROGRAM], b"");
            assert!(ended.out.is_empty(), "{ended:?}");
            match ended.status {
                None => assert!(folder.read("book.new~").len() < entered.to_bytes().len()),
                // who started this test ignores the signal, and so do all that it starts
                status => assert_eq!((status, folder.file("book.new~").exists()), (Some(2), false)),
            }
            cut += 1;
        } else {
            let mut writer = begin(&folder, &line);
            std::thread::sleep(Duration::from_micros(random.below(longest.as_micros() as usize) as u64));
            writer.kill().unwrap();
            writer.wait().unwrap();
        }
        left += usize::from(folder.file("book.new~").exists());
        let bytes = folder.read("book");
        assert!(bytes == book.to_bytes() || bytes == entered.to_bytes() && stop % 3 == 0, "stop {stop}");
        if bytes == entered.to_bytes() {
            (new, book) = (new + 1, entered);
            counts[sheet + 1] += 1;
        } else {
            old += 1;
        }
        // the next writer is not stopped
        let begun = Instant::now();
        let ended = begin(&folder, &line).wait_with_output().unwrap();
        longest = begun.elapsed();
        assert_eq!(book.commit(&sheets[sheet], number), Ok(number));
        assert_eq!((number, String::from_utf8(ended.stdout).unwrap()), (sheet + 1, format!("{sheet}: {number}\n")));
        assert_eq!(folder.read("book"), book.to_bytes());
        counts[number] += 1;
    }
    println!("{cut} cut, {left} with an unfinished file, {old} left the old book, {new} the new");
    assert!(cut == 270 && old >= 270);
    let read = store::read(&path).unwrap();
    assert_eq!(read, book);
    (1..=sheets.len()).for_each(|number| assert_eq!(read.count(number), Some(counts[number]), "{number}"));
}

/// A stock of the most kinds with the longest names, as text, and the book that is made for it.
fn longest_stock() -> (String, Registry) {
    // letters of four bytes each
    let letter = |symbol: usize| char::from_u32(0x10400 + symbol as u32).unwrap();
    let name = |symbol: usize| format!("{}{}", letter(symbol), "\u{10400}".repeat(99));
    let kinds = |count: usize| (0..count).map(|symbol| format!(" {}/0", name(symbol))).collect::<String>();
    let text = format!("stock parts{} blocks{}", kinds(16), kinds(64));
    let (alphabets, names) = text::read_alphabets(text.as_bytes()).unwrap();
    let registry = Registry::new(&alphabets, Registry::LONGEST_AREA).unwrap();
    (text, registry.with_names(names).unwrap())
}

/// 270 makers of a book are stopped in the middle of the write by the system, and 135 by a signal, at any moment. Each
/// time there is no book or the whole book with its names, and the next one makes it, or says that there is one.
#[cfg(unix)]
#[test]
fn stopped_makers() {
    let (stock, registry) = longest_stock();
    let whole = registry.to_bytes();
    let folder = Folder::with(&[("stock", stock.as_bytes())]);
    let make = ["book", "make", "book", "stock"];
    let mut random = Random::new(72_000_000);
    let (mut none, mut made, mut left) = (0, 0, 0);
    let mut longest = Duration::from_millis(2);
    for stop in 0..405 {
        if stop % 3 > 0 {
            // the shell's limit counts 512 bytes; the new file is longer
            let blocks = random.below(whole.len().div_ceil(512));
            let script = format!("ulimit -c 0; ulimit -f {blocks}; exec \"$0\" book make book stock");
            let ended = folder.run(Path::new("/bin/sh"), &["-c", &script, PROGRAM], b"");
            assert!(ended.status != Some(0) && !folder.file("book").exists(), "{ended:?}");
        } else {
            let mut maker = Command::new(PROGRAM).args(make).current_dir(&folder.0).spawn().unwrap();
            std::thread::sleep(Duration::from_micros(random.below(longest.as_micros() as usize) as u64));
            maker.kill().unwrap();
            maker.wait().unwrap();
        }
        left += usize::from(folder.file("book.new~").exists());
        let is_made = folder.file("book").exists();
        if is_made {
            assert!(folder.read("book") == whole, "stop {stop}");
            made += 1;
        } else {
            none += 1;
        }
        // the next maker is not stopped
        let begun = Instant::now();
        let ended = folder.run(Path::new(PROGRAM), &make, b"");
        match is_made {
            true => assert_eq!(ended.err, "caplune: book: there is such a file already\n"),
            false => {
                assert_eq!((ended.status, &ended.err[..]), (Some(0), ""));
                longest = begun.elapsed();
            }
        }
        assert!(folder.read("book") == whole, "stop {stop}");
        fs::remove_file(folder.file("book")).unwrap();
    }
    println!("{none} left no book, {made} the whole book, {left} an unfinished file");
    assert!(none >= 270 && none + made == 405);
    assert!(folder.names().iter().all(|name| ["book.lock", "book.new~", "stock"].contains(&&name[..])));
}

/// The longest file of a book is read, and is not longer than what is read at most.
#[test]
fn longest_names() {
    let (_, registry) = longest_stock();
    let folder = Folder::new();
    let table = text::write_names(registry.names());
    // three words and three line ends, and 80 names of 100 characters of four bytes, each behind a space
    assert_eq!(table.len(), 19 + 80 * (1 + 4 * 100));
    store::make(&folder.file("book"), &registry, not_waited).unwrap();
    assert_eq!(store::read(&folder.file("book")).unwrap(), registry);
}

/// What happens at all has happened by then.
const SOON: Duration = Duration::from_secs(10);

/// The lines that a program tells on standard error, as they come.
fn lines_of(program: &mut Child) -> mpsc::Receiver<String> {
    let (errors, (tell, told)) = (program.stderr.take().unwrap(), mpsc::channel());
    std::thread::spawn(move || BufReader::new(errors).lines().try_for_each(|line| tell.send(line.unwrap())));
    told
}

/// A lock that another holds is nothing to a question, which is answered meanwhile.
#[test]
fn questions_need_no_lock() {
    let (folder, sheets) = chains(2);
    let before = (folder.read("book"), folder.names());
    let _lock = held(&folder);
    let mut question = begin(&folder, "book question book 0 1");
    let begun = Instant::now();
    while question.try_wait().unwrap().is_none() {
        // so that nobody waits for ever
        if begun.elapsed() > SOON {
            question.kill().unwrap();
        }
        std::thread::sleep(Duration::from_millis(5));
    }
    let ended = question.wait_with_output().unwrap();
    assert_eq!((&ended.stdout[..], &ended.stderr[..]), (&b"0: 1\n1: 1\n"[..], &b""[..]));
    assert_eq!(store::read(&folder.file("book")).unwrap().question(&sheets[1]).map(|(number, _)| number), Ok(1));
    assert_eq!((folder.read("book"), folder.names()), before);
}

/// A lock that another holds: for less than a second nothing is told, then one line, and the entry is made when it is
/// free; and so is a commit, of which another entry may have taken the number by then.
#[cfg(unix)]
#[test]
fn held_locks() {
    waited_for("book enter book 0", "0: 1\n");
    waited_for("book commit book 0 1", "0: 1\n");
    told_by_the_library();
    let (folder, sheets) = chains(2);
    let lock = held(&folder);
    let mut committer = begin(&folder, "book commit book 0 1");
    let errors = lines_of(&mut committer);
    let waits = errors.recv_timeout(SOON);
    let mut other = store::read(&folder.file("book")).unwrap();
    other.enter(&sheets[1]).unwrap();
    fs::write(folder.file("book"), other.to_bytes()).unwrap();
    lock.unlock().unwrap();
    assert!(waits.is_ok());
    let said = errors.recv_timeout(SOON).unwrap();
    assert!(said.starts_with("caplune: 0: refused by 13: ") && said.contains("1 was given"), "{said}");
    assert_eq!(committer.wait_with_output().unwrap().status.code(), Some(2));
    assert_eq!(store::read(&folder.file("book")).unwrap(), other);
}

/// The lock of a book, held.
fn held(folder: &Folder) -> fs::File {
    let lock = fs::File::options().write(true).open(folder.file("book.lock")).unwrap();
    lock.lock().unwrap();
    lock
}

/// A command that waits for a lock and then prints this.
#[cfg(unix)]
fn waited_for(line: &str, printed: &str) {
    let (folder, _) = chains(2);
    let lock = held(&folder);
    let mut writer = begin(&folder, line);
    let begun = Instant::now();
    let errors = lines_of(&mut writer);
    let told = errors.recv_timeout(SOON);
    let waited = begun.elapsed();
    // so that nobody waits for ever
    if told.is_err() {
        writer.kill().unwrap();
    }
    let expected = fs::canonicalize(folder.file("book.lock")).unwrap();
    let said = format!("caplune: another caplune holds {}, and this one waits", expected.display());
    assert_eq!(told, Ok(said));
    assert!(waited > Duration::from_millis(900) && waited < Duration::from_secs(5), "{waited:?}");
    // it still waits
    std::thread::sleep(Duration::from_millis(100));
    assert!(writer.try_wait().unwrap().is_none());
    lock.unlock().unwrap();
    assert_eq!(writer.wait_with_output().unwrap().stdout, printed.as_bytes());
    assert!(errors.recv_timeout(SOON).is_err());
}

/// A short wait is not told, and of a long one the library calls back with the path.
#[cfg(unix)]
fn told_by_the_library() {
    let (folder, sheets) = chains(2);
    let expected = fs::canonicalize(folder.file("book.lock")).unwrap();
    for is_long in [false, true] {
        let lock = held(&folder);
        let (path, (tell, told)) = (folder.file("book"), mpsc::channel());
        std::thread::scope(|scope| {
            let change = scope.spawn(|| {
                store::change(&path, |lock| tell.send(lock.to_path_buf()).unwrap(), |book| book.enter(&sheets[1]))
            });
            let while_held = if is_long { SOON } else { Duration::from_millis(100) };
            assert_eq!(told.recv_timeout(while_held).ok(), is_long.then_some(expected.clone()));
            lock.unlock().unwrap();
            assert_eq!(change.join().unwrap().unwrap(), Ok(1));
        });
        assert!(told.try_recv().is_err());
    }
}

/// A system that refuses to write more: the writer says so, leaves the book as it was and nothing beside it.
#[cfg(unix)]
#[test]
fn no_room() {
    let (folder, _) = chains(2);
    let before = folder.read("book");
    for line in ["book enter book 1", "book commit book 1 1"] {
        let script = format!("trap '' XFSZ; ulimit -f 0; exec \"$0\" {line}");
        let ended = folder.run(Path::new("/bin/sh"), &["-c", &script, PROGRAM], b"");
        assert_eq!((ended.status, &ended.out[..]), (Some(2), &[][..]));
        assert!(ended.err.starts_with("caplune: book: ") && ended.err.lines().count() == 1, "{}", ended.err);
        assert_eq!(folder.read("book"), before);
        assert_eq!(folder.names(), ["0", "1", "book", "book.lock"]);
    }
}

/// A book that is replaced while an entry or a commit waits for its lock: the sheet was read under other names, and is
/// not entered.
#[cfg(unix)]
#[test]
fn replaced_while_waiting() {
    replaced_under("book enter book sheet", "enter once more");
    replaced_under("book commit book sheet 1", "ask again (`caplune book question`)");
}

/// What a command says and leaves whose book is replaced while it waits.
#[cfg(unix)]
fn replaced_under(line: &str, again: &str) {
    let alphabets = Alphabets::read(&[2, 0, 0, 2, 0, 0]).unwrap();
    let book = Registry::new(&alphabets, 60).unwrap();
    let book = |words: [&str; 4]| book.clone().with_names(names(words)).unwrap();
    let folder = Folder::with(&[("sheet", b"sheet opening red")]);
    let path = folder.file("book");
    store::make(&path, &book(["a", "e", "red", "blue"]), not_waited).unwrap();
    let lock = held(&folder);
    let mut writer = begin(&folder, line);
    let errors = lines_of(&mut writer);
    // it waits now
    let waits = errors.recv_timeout(SOON);
    let other = book(["a", "e", "blue", "red"]);
    fs::write(&path, other.to_bytes()).unwrap();
    lock.unlock().unwrap();
    assert!(waits.is_ok());
    let said = "another book of another stock has taken its place meanwhile";
    assert_eq!(errors.recv_timeout(SOON), Ok(format!("caplune: book: {said}; what to do: {again}")));
    let ended = writer.wait_with_output().unwrap();
    assert_eq!((ended.status.code(), ended.stdout), (Some(2), vec![]));
    assert_eq!(store::read(&path).unwrap(), other);
}
