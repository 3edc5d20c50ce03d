//! The night list, worked where it stands: `night_list` beside `star_list.rs`. The bridge lends the entries between
//! guards, and every entry is compared.
#![cfg(exported = "night_list")]

use bridge::beside::night_list;
use bridge::chance::Chance;
use bridge::compare::compare_lent;
use bridge::entries::{bytes_of_entries, entries, entries_of, entry};
use bridge::face::NIGHT_LIST;
use bridge::files::{count, refused_stars, star};
use bridge::function::Call;
use bridge::ranges::RANGES;
use bridge::samples::{AT_POLE, NEITHER, SAMPLES, ZENITH};
use second::star_list::{Angles, Entry, MOST_ENTRIES};
use second::units::{Whole, QUARTER};

const RANDOM: usize = 2_000;

/// A moment and a site that are accepted: no month is shorter than 28 days.
fn given(chance: &mut Chance) -> [i64; 10] {
    let mut given = std::array::from_fn(|part| {
        let (low, high) = RANGES[part];
        chance.within(low, high)
    });
    given[2] = given[2].min(28);
    given
}

fn list(given: [i64; 10], entries: &[Entry]) -> Call<10> {
    Call { given, read: Vec::new(), room: bytes_of_entries(entries) }
}

#[test]
fn lists_of_every_count() {
    let mut chance = Chance::new("lists_of_every_count");
    let lists = (0..=66).flat_map(|count| {
        let list = |_| list(given(&mut chance), &entries(&mut chance, count));
        (0..4).map(list).collect::<Vec<_>>()
    });
    compare_lent(&NIGHT_LIST, "0 to 66 entries", lists, night_list);
}

/// docs/RULES.md, "Cases": 65 entries refused 11; and 64 are not.
#[test]
fn at_most_64_entries() {
    let mut chance = Chance::new("at_most_64_entries");
    let given = given(&mut chance);
    let mut lists = [MOST_ENTRIES, MOST_ENTRIES + 1].map(|count| list(given, &entries(&mut chance, count)));
    let before = lists[1].clone();
    assert_eq!(NIGHT_LIST.answers(&mut lists), [[0, MOST_ENTRIES as i64], [11, 0]]);
    assert_eq!(lists[1], before);
}

/// One star that is refused: each kind at each place of a short and of the longest list, and each place of every list.
#[test]
fn one_star_refused() {
    let mut chance = Chance::new("one_star_refused");
    let kinds = refused_stars();
    let mut with = |count: usize, at: usize, kind: usize| {
        let mut entries = entries(&mut chance, count);
        entries[at] = entry(&mut chance, kinds[kind]);
        list(given(&mut chance), &entries)
    };
    let mut lists = Vec::new();
    for count in [3, MOST_ENTRIES] {
        for at in 0..count {
            lists.extend((0..kinds.len()).map(|kind| with(count, at, kind)));
        }
    }
    compare_lent(&NIGHT_LIST, "each kind of refused star at each place of 3 and of 64", lists, night_list);

    let mut lists = Vec::new();
    for count in 1..=MOST_ENTRIES + 1 {
        lists.extend((0..count).map(|at| with(count, at, (count + at) % kinds.len())));
    }
    compare_lent(&NIGHT_LIST, "a refused star at each place of 1 to 65", lists, night_list);
}

/// Every choice of refused stars among five; and all of the longest list.
#[test]
fn several_stars_refused() {
    let mut chance = Chance::new("several_stars_refused");
    let kinds = refused_stars();
    let choices = (0..1u64 << 5).map(|choice| (5, choice)).chain([(MOST_ENTRIES, u64::MAX)]);
    let lists = choices.map(|(count, choice)| {
        let mut entries = entries(&mut chance, count);
        for at in (0..count).filter(|at| choice >> at & 1 == 1) {
            entries[at] = entry(&mut chance, kinds[at % kinds.len()]);
        }
        list(given(&mut chance), &entries)
    });
    compare_lent(&NIGHT_LIST, "every choice of refused stars among 5, and all of 64", lists, night_list);
}

/// The entries of a list that was worked, and what was answered.
fn worked(given: [i64; 10], entries: &[Entry]) -> (Vec<Entry>, [i64; 2]) {
    let mut lists = [list(given, entries)];
    let answers = NIGHT_LIST.answers(&mut lists);
    (entries_of(&lists[0].room), answers[0])
}

/// Document 02: "mark 1, with nought in the angle that has none; such an entry still counts as filled".
#[test]
fn one_star_lacking_an_angle() {
    let mut chance = Chance::new("one_star_lacking_an_angle");
    for sample in SAMPLES {
        let (entries, answer) = worked(sample.night(), &[entry(&mut chance, sample.star())]);
        assert_eq!((entries[0].mark, answer), (1, [0, 1]), "{sample:?}");
        let Angles { right_ascension, declination, azimuth, altitude } = entries[0].angles;
        let [has_ra, has_azimuth] = sample.has;
        for (has, angle, height) in [(has_ra, right_ascension, declination), (has_azimuth, azimuth, altitude)]
        {
            assert_eq!(has == 0, height.abs() == QUARTER, "{sample:?}");
            assert!(has == 1 || angle == 0, "{sample:?}");
        }
    }
    let lists = SAMPLES.map(|sample| list(sample.night(), &[entry(&mut chance, sample.star())]));
    compare_lent(&NIGHT_LIST, "one star lacking an angle", lists, night_list);

    let lists = SAMPLES.iter().flat_map(|sample| {
        let band: Vec<Entry> = sample.band().map(|star| entry(&mut chance, star.star())).collect();
        band.chunks(MOST_ENTRIES).map(|entries| list(sample.night(), entries)).collect::<Vec<_>>()
    });
    let lists: Vec<_> = lists.collect();
    compare_lent(&NIGHT_LIST, "stars about the axes", lists, night_list);
}

/// Marks 0, 1 and 5 in one list, and the count of those that are filled.
#[test]
fn every_mark() {
    let mut chance = Chance::new("every_mark");
    let ordinary = [0; 4];
    let stars = [ordinary, ZENITH.star(), refused_stars()[0], AT_POLE.star(), ZENITH.star(), ordinary];
    let given = stars.map(|star| entry(&mut chance, star));
    // the star at the pole of date is there for every latitude
    let (entries, answer) = worked(ZENITH.night(), &given);
    let marks = |entries: &[Entry]| entries.iter().map(|entry| entry.mark).collect::<Vec<Whole>>();
    assert_eq!((marks(&entries), answer), (vec![0, 1, 5, 1, 1, 0], [0, 5]));
    let (entries, answer) = worked(NEITHER.night(), &given);
    assert_eq!((marks(&entries), answer), (vec![0, 0, 5, 1, 0, 0], [0, 5]));

    // every choice of an ordinary star, the two that lack one angle each, and a refused one, in a list of five
    let kinds = [ordinary, ZENITH.star(), AT_POLE.star(), refused_stars()[0]];
    let lists = (0..1 << 10).map(|choice: usize| {
        let entries: Vec<Entry> =
            (0..5).map(|at| entry(&mut chance, kinds[choice >> (2 * at) & 3])).collect();
        list(ZENITH.night(), &entries)
    });
    let lists: Vec<_> = lists.collect();
    compare_lent(&NIGHT_LIST, "every choice of marks 0, 1 and 5 among 5", lists, night_list);

    // none but stars of one kind, in the longest list
    let lists = kinds.map(|star| {
        let entries: Vec<Entry> = (0..MOST_ENTRIES).map(|_| entry(&mut chance, star)).collect();
        list(ZENITH.night(), &entries)
    });
    compare_lent(&NIGHT_LIST, "64 of each mark", lists, night_list);
}

/// "A night list is checked 1 to 4, 6, 11": every choice of these six faults, so every two of them; a star that is refused
/// among the entries changes none of it.
#[test]
fn checked_in_order() {
    /// A part of the call with its fault, and its number; the last is of the entries.
    const FAULTS: [(usize, i64, i64); 5] =
        [(0, 2100, 1), (1, 13, 2), (3, 24, 3), (7, 901, 4), (8, QUARTER as i64 + 1, 6)];
    let mut chance = Chance::new("checked_in_order");
    let (mut lists, mut refusals) = (Vec::new(), Vec::new());
    for choice in 0..1 << 6 {
        let fault = |number: usize| choice >> number & 1 == 1;
        let faults = FAULTS.iter().enumerate().filter(|(number, _)| fault(*number));
        let mut given = given(&mut chance);
        let mut refused = if fault(5) { 11 } else { 0 };
        for (_, (part, value, number)) in faults.rev() {
            given[*part] = *value;
            refused = *number;
        }
        for star_refused in [false, true] {
            let mut entries = entries(&mut chance, if fault(5) { MOST_ENTRIES + 1 } else { 2 });
            if star_refused {
                entries[1] = entry(&mut chance, refused_stars()[0]);
            }
            lists.push(list(given, &entries));
            refusals.push(refused);
        }
    }
    let answers = NIGHT_LIST.answers(&mut lists.clone());
    assert_eq!(answers.iter().map(|[refused, _]| *refused).collect::<Vec<_>>(), refusals);
    compare_lent(&NIGHT_LIST, "every choice of the faults 1 to 4, 6, 11", lists, night_list);
}

/// One past each end of each part of the moment and the site, alone.
#[test]
fn one_past_each_end() {
    let mut chance = Chance::new("one_past_each_end");
    let ends = RANGES[..10].iter().enumerate();
    let ends = ends.flat_map(|(part, (low, high))| [low - 1, *low, *high, high + 1].map(|end| (part, end)));
    let lists = ends.map(|(part, end)| {
        let mut given = given(&mut chance);
        given[part] = end;
        list(given, &entries(&mut chance, 2))
    });
    compare_lent(&NIGHT_LIST, "one past each end", lists, night_list);
}

#[test]
fn random_lists() {
    let mut chance = Chance::new("random_lists");
    let lists = (0..RANDOM).map(|_| {
        let count = count(&mut chance);
        let entries: Vec<_> = (0..count)
            .map(|_| {
                let star = star(&mut chance, 4);
                entry(&mut chance, star)
            })
            .collect();
        let mut given = given(&mut chance);
        if chance.once_in(10) {
            let part = chance.within(0, 9) as usize;
            given[part] = if part < 8 { i64::from(chance.any() as i32) } else { chance.any() };
        }
        list(given, &entries)
    });
    compare_lent(&NIGHT_LIST, "random", lists, night_list);
}
