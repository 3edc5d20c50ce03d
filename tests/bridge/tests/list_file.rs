//! The list file counted, read star by star and written: `list_file` beside `star_list.rs` of the second program.
#![cfg(exported = "list_file")]

use bridge::beside::{list_count, list_star, list_write};
use bridge::chance::Chance;
use bridge::compare::compare_lent;
use bridge::face::{LIST_COUNT, LIST_STAR, LIST_WRITE};
use bridge::files::{
    accepted_file, accepted_star, bytes_of, count, damage, file, lengths, other_bytes, refused_stars, star,
    truncations,
};
use bridge::function::Call;
use second::star_list::{file_length, HEAD, MOST_ENTRIES};

const RANDOM: usize = 20_000;

#[test]
fn files_counted() {
    let mut chance = Chance::new("files_counted");
    let good = (0..RANDOM).map(|_| {
        let count = count(&mut chance);
        Call { given: [], read: file(&mut chance, count), room: Vec::new() }
    });
    compare_lent(&LIST_COUNT, "whole files", good, list_count);

    let mut chance = Chance::new("files_counted, damaged");
    let damaged = (0..RANDOM).map(|_| {
        let count = count(&mut chance);
        let mut read = file(&mut chance, count);
        damage(&mut chance, &mut read);
        Call { given: [], read, room: Vec::new() }
    });
    compare_lent(&LIST_COUNT, "damaged files", damaged, list_count);
}

#[test]
fn stars_read() {
    // every star of some files, and what is past the last
    let mut chance = Chance::new("stars_read");
    let every = (0..RANDOM / 60).flat_map(|_| {
        let count = count(&mut chance);
        let read = file(&mut chance, count);
        (0..count + 2).map(move |index| Call { given: [index], read: read.clone(), room: Vec::new() })
    });
    compare_lent(&LIST_STAR, "every star", every, list_star);

    let mut chance = Chance::new("stars_read, damaged");
    let damaged = (0..RANDOM).map(|_| {
        let count = count(&mut chance);
        let mut read = file(&mut chance, count);
        damage(&mut chance, &mut read);
        Call { given: [chance.within(0, count)], read, room: Vec::new() }
    });
    compare_lent(&LIST_STAR, "damaged files", damaged, list_star);
}

#[test]
fn files_written() {
    let mut chance = Chance::new("files_written");
    let calls = (0..RANDOM).map(|_| {
        let count = count(&mut chance);
        let mut numbers: Vec<i64> = (0..count).flat_map(|_| star(&mut chance, 200)).collect();
        if chance.once_in(10) {
            numbers.truncate(numbers.len().saturating_sub(chance.within(1, 3) as usize));
        }
        let length = file_length(numbers.len() / 4) as i64 + chance.within(-2, 30);
        let room = (0..chance.one_of(&[0, length, length, length])).map(|_| chance.any() as u8).collect();
        Call { given: [], read: bytes_of(&numbers), room }
    });
    compare_lent(&LIST_WRITE, "random", calls, list_write);
}

/// Files of 0 to 65 records, whole and one byte shorter and longer; each star and what is past the last.
#[test]
fn files_of_every_count() {
    let mut chance = Chance::new("files_of_every_count");
    let files: Vec<_> =
        (0..=MOST_ENTRIES as i64 + 1).flat_map(|count| lengths(&accepted_file(&mut chance, count))).collect();
    let what = "0 to 65 records, one byte less and more";
    compare_lent(&LIST_COUNT, what, files.iter().cloned().map(of_file), list_count);
    let stars = files.iter().flat_map(|file| (0..=66).map(|index| of_star(file.clone(), index)));
    compare_lent(&LIST_STAR, what, stars, list_star);
}

/// Every truncation of 3 and of 64 records, and every other byte at every place of 3.
#[test]
fn every_damage() {
    let mut chance = Chance::new("every_damage");
    let (three, most) = (accepted_file(&mut chance, 3), accepted_file(&mut chance, MOST_ENTRIES as i64));
    let cut: Vec<_> = truncations(&three).chain(truncations(&most)).collect();
    let changed: Vec<_> = other_bytes(&three).collect();
    for (what, files) in [("every truncation of 3 and of 64 records", cut), ("every other byte", changed)] {
        compare_lent(&LIST_COUNT, what, files.iter().cloned().map(of_file), list_count);
        let stars = files.iter().flat_map(|file| (0..=3).map(|index| of_star(file.clone(), index)));
        compare_lent(&LIST_STAR, what, stars, list_star);
    }
}

/// Lists of 0 to 66 stars, with a number less and more, in rooms about the file's length; and one star that is refused, of
/// each kind and at each place.
#[test]
fn lists_of_every_count() {
    let mut chance = Chance::new("lists_of_every_count");
    let mut lists: Vec<Vec<i64>> = Vec::new();
    for count in 0..=66 {
        let numbers: Vec<i64> = (0..=count).flat_map(|_| accepted_star(&mut chance)).collect();
        let all: usize = 4 * count;
        lists.extend((all.saturating_sub(1)..=all + 1).map(|length| numbers[..length].to_vec()));
    }
    let calls: Vec<_> = lists.iter().flat_map(|numbers| in_rooms(&mut chance, numbers)).collect();
    compare_lent(
        &LIST_WRITE,
        "0 to 66 stars, a number less and more, rooms about the length",
        calls,
        list_write,
    );

    let mut lists: Vec<Vec<i64>> = Vec::new();
    for count in [1, 3, MOST_ENTRIES, MOST_ENTRIES + 1] {
        for at in 0..count {
            for refused in refused_stars() {
                let mut stars: Vec<_> = (0..count).map(|_| accepted_star(&mut chance)).collect();
                stars[at] = refused;
                lists.push(stars.concat());
            }
        }
    }
    let calls: Vec<_> = lists.iter().flat_map(|numbers| in_rooms(&mut chance, numbers)).collect();
    compare_lent(&LIST_WRITE, "one star refused, of each kind at each place", calls, list_write);
}

fn of_file(read: Vec<u8>) -> Call<0> {
    Call { given: [], read, room: Vec::new() }
}

fn of_star(read: Vec<u8>, index: i64) -> Call<1> {
    Call { given: [index], read, room: Vec::new() }
}

/// The numbers with rooms one byte too small, just enough and one byte too large for their whole stars, and with none.
fn in_rooms(chance: &mut Chance, numbers: &[i64]) -> Vec<Call<0>> {
    let length = file_length(numbers.len() / 4);
    let rooms = [0, HEAD - 1, length - 1, length, length + 1];
    let call = |room| {
        let room = (0..room).map(|_| chance.any() as u8).collect();
        Call { given: [], read: bytes_of(numbers), room }
    };
    rooms.into_iter().map(call).collect()
}

/// Document 01: "Read and written back, it is byte-equal", here by the module alone.
#[test]
fn read_and_written_back() {
    let mut chance = Chance::new("read_and_written_back");
    for _ in 0..200 {
        let count = chance.within(0, MOST_ENTRIES as i64);
        let read = file(&mut chance, count);
        let mut stars: Vec<_> =
            (0..count).map(|index| Call { given: [index], read: read.clone(), room: Vec::new() }).collect();
        let answers = LIST_STAR.answers(&mut stars);
        if answers.iter().any(|[refused, ..]| *refused != 0) {
            continue;
        }
        let numbers = answers.iter().flat_map(|[_, ra, declination, motions]| {
            [*ra, *declination, i64::from(*motions as i32), *motions >> 32]
        });
        let numbers: Vec<i64> = numbers.collect();
        let mut written = [Call { given: [], read: bytes_of(&numbers), room: vec![0; read.len()] }];
        assert_eq!(LIST_WRITE.answers(&mut written), [[0, read.len() as i64]]);
        assert_eq!(written[0].room, read);
    }
}
