//! The list file read into entries and written from them: `entries_read` and `entries_write` beside `star_list.rs` of the
//! second program. The bridge lends all entries and rooms between guards, and every entry and byte is compared.
#![cfg(exported = "entries")]

use bridge::beside::{read_list, write_list};
use bridge::chance::Chance;
use bridge::compare::{compare_lent, print};
use bridge::entries::{any_entries, bytes_of_entries, entries, entries_of, entry};
use bridge::face::{READ_LIST, WRITE_LIST};
use bridge::files::{
    accepted_file, accepted_star, count, damage, file, file_of, lengths, other_bytes, refused_stars, star,
    truncations,
};
use bridge::function::Call;
use second::star_list::{file_length, Entry, FOUR_NOUGHTS, HEAD, MOST_ENTRIES};

const RANDOM: usize = 10_000;

/// The file, and so many entries to read it into, with anything in them.
fn reading(chance: &mut Chance, read: Vec<u8>, room: usize) -> Call<0> {
    Call { given: [], read, room: bytes_of_entries(&any_entries(chance, room)) }
}

/// The entries, and a room of so many bytes to write them to, with anything in it.
fn writing(chance: &mut Chance, entries: &[Entry], room: usize) -> Call<0> {
    let room = (0..room).map(|_| chance.any() as u8).collect();
    Call { given: [], read: bytes_of_entries(entries), room }
}

/// One less, as many, one more.
fn about(number: usize) -> impl Iterator<Item = usize> {
    number.saturating_sub(1)..=number + 1
}

#[test]
fn files_of_every_count_read() {
    let mut chance = Chance::new("files_of_every_count_read");
    let mut calls = Vec::new();
    for count in 0..=MOST_ENTRIES as i64 + 1 {
        let whole = accepted_file(&mut chance, count);
        for read in lengths(&whole) {
            let rooms = about(count as usize).chain([0, MOST_ENTRIES, MOST_ENTRIES + 1, MOST_ENTRIES + 6]);
            calls.extend(rooms.map(|room| reading(&mut chance, read.clone(), room)));
        }
    }
    compare_lent(
        &READ_LIST,
        "0 to 65 records, one byte less and more, rooms about the count",
        calls,
        read_list,
    );
}

#[test]
fn damaged_files_read() {
    let mut chance = Chance::new("damaged_files_read");
    let three = accepted_file(&mut chance, 3);
    let most = accepted_file(&mut chance, MOST_ENTRIES as i64);
    let cut: Vec<_> = truncations(&three)
        .chain(truncations(&most))
        .map(|read| reading(&mut chance, read, MOST_ENTRIES + 1))
        .collect();
    compare_lent(&READ_LIST, "every truncation of 3 and of 64 records", cut, read_list);

    for room in about(3) {
        let changed = other_bytes(&three).map(|read| reading(&mut chance, read, room));
        compare_lent(&READ_LIST, &format!("every other byte, a room of {room}"), changed, read_list);
    }

    let random = (0..RANDOM).map(|_| {
        let count = count(&mut chance);
        let mut read = file(&mut chance, count);
        if chance.once_in(2) {
            damage(&mut chance, &mut read);
        }
        let room = (count + chance.within(-1, 2)).max(0);
        reading(&mut chance, read, room as usize)
    });
    let random: Vec<_> = random.collect();
    compare_lent(&READ_LIST, "random", random, read_list);
}

/// "A file is checked 9, 10, 5, then 11": every choice of these four faults.
#[test]
fn files_checked_in_order() {
    let mut chance = Chance::new("files_checked_in_order");
    let (mut calls, mut refusals) = (Vec::new(), Vec::new());
    for choice in 0..1 << 4 {
        let [mark, length, refused_star, room] = [0, 1, 2, 3].map(|fault| choice >> fault & 1 == 1);
        let mut stars: Vec<_> = (0..3).map(|_| accepted_star(&mut chance)).collect();
        if refused_star {
            stars[1] = refused_stars()[0];
        }
        let mut read = file_of(&stars);
        if mark {
            read[0] = b's';
        }
        if length {
            read.push(0);
        }
        calls.push(reading(&mut chance, read, if room { 2 } else { 3 }));
        let faults = [(mark, 9), (length, 10), (refused_star, 5), (room, 11), (true, 0)];
        refusals.extend(faults.iter().find(|(fault, _)| *fault).map(|(_, number)| *number));
    }
    let answers = READ_LIST.answers(&mut calls.clone());
    assert_eq!(answers.iter().map(|[refused, _]| *refused).collect::<Vec<i64>>(), refusals);
    compare_lent(&READ_LIST, "every choice of the faults 9, 10, 5, 11", calls, read_list);
}

#[test]
fn lists_of_every_count_written() {
    let mut chance = Chance::new("lists_of_every_count_written");
    let mut calls = Vec::new();
    for count in 0..=66 {
        let entries = entries(&mut chance, count);
        let rooms = about(file_length(count)).chain([0, HEAD - 1, HEAD, 2_000]);
        calls.extend(rooms.map(|room| writing(&mut chance, &entries, room)));
    }
    compare_lent(&WRITE_LIST, "0 to 66 entries, rooms about the file's length", calls, write_list);
}

/// One star that is refused, of each kind and at each place of a list, in rooms that are enough and too small.
#[test]
fn refused_stars_written() {
    let mut chance = Chance::new("refused_stars_written");
    let mut calls = Vec::new();
    for count in [1, 3, MOST_ENTRIES, MOST_ENTRIES + 1] {
        for at in 0..count {
            for refused in refused_stars() {
                let mut entries = entries(&mut chance, count);
                entries[at] = entry(&mut chance, refused);
                let length = file_length(count);
                calls.extend([length - 1, length].map(|room| writing(&mut chance, &entries, room)));
            }
        }
    }
    compare_lent(&WRITE_LIST, "one star refused, of each kind at each place", calls, write_list);

    let random = (0..RANDOM).map(|_| {
        let count = count(&mut chance);
        let entries: Vec<_> = (0..count)
            .map(|_| {
                let star = star(&mut chance, 200);
                entry(&mut chance, star)
            })
            .collect();
        let length = file_length(entries.len()) as i64 + chance.within(-2, 30);
        writing(&mut chance, &entries, length.max(0) as usize)
    });
    let random: Vec<_> = random.collect();
    compare_lent(&WRITE_LIST, "random", random, write_list);
}

/// Document 01: "Read and written back, it is byte-equal", here by the module alone; and written and read back, the stars
/// are the same, with mark 0 and four noughts.
#[test]
fn there_and_back() {
    let mut chance = Chance::new("there_and_back");
    for count in 0..=MOST_ENTRIES {
        let file = accepted_file(&mut chance, count as i64);
        let mut read = [reading(&mut chance, file.clone(), count)];
        assert_eq!(READ_LIST.answers(&mut read), [[0, count as i64]]);
        let mut written = [Call { given: [], read: read[0].room.clone(), room: vec![0; file.len()] }];
        assert_eq!(WRITE_LIST.answers(&mut written), [[0, file.len() as i64]]);
        assert_eq!(written[0].room, file);

        let given = entries(&mut chance, count);
        let mut written = [writing(&mut chance, &given, file_length(count))];
        assert_eq!(WRITE_LIST.answers(&mut written), [[0, file_length(count) as i64]]);
        let mut read = [reading(&mut chance, written[0].room.clone(), count)];
        assert_eq!(READ_LIST.answers(&mut read), [[0, count as i64]]);
        let fresh = |given: &Entry| Entry { star: given.star, mark: 0, angles: FOUR_NOUGHTS };
        assert_eq!(entries_of(&read[0].room), given.iter().map(fresh).collect::<Vec<_>>());
    }
    print("files there and back: 65, lists there and back: 65");
}
