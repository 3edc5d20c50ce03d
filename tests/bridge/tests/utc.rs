//! The UTC date and time of a TT instant beside `utc.rs`, and back to TT by both programs.
#![cfg(all(exported = "dates", exported = "utc"))]

use bridge::beside;
use bridge::chance::{around, Chance};
use bridge::clocks::{moment_of, utc_of, FIRST, LAST};
use bridge::compare::{compare, print};
use bridge::face::{INSTANTS, UTC};
use bridge::function::Call;
use second::dates::{self, dates, day_of, steps, Date, Tt};
use second::utc::Utc;

const RANDOM: usize = 1_000_000;
const RANDOM_MIDNIGHTS: usize = 200_000;
const RANDOM_TIMES: usize = 200_000;
const RANDOM_NUMBERS: usize = 200_000;

/// So many instants are taken there and back at once.
const AT_ONCE: usize = 4096;

/// ms of a day, and of what is tried before a second 60 and after it.
const DAY: i64 = 86_400_000;
const BESIDE: i64 = 1500;

fn compare_utc(what: &str, instants: impl IntoIterator<Item = i64>) {
    compare(&UTC, what, instants.into_iter().map(|tt| [tt]), beside::utc);
}

/// The module's UTC of each TT.
fn utcs_of(instants: &[i64]) -> Vec<Result<Utc, i64>> {
    let mut calls: Vec<Call<1>> = instants.iter().map(|tt| Call::from([*tt])).collect();
    UTC.answers(&mut calls).into_iter().map(utc_of).collect()
}

/// The module's TT of each UTC, with one UT1−UTC or another: it has no part in TT.
fn tts_of(utcs: &[Utc]) -> Vec<i64> {
    let differences = [0, 900, -900, 1, -1].into_iter().cycle();
    let moments =
        utcs.iter().zip(differences).map(|(utc, difference)| Call::from(moment_of(*utc, difference)));
    let answers = INSTANTS.answers(&mut moments.collect::<Vec<_>>());
    let tt = |(utc, [refused, _, tt]): (&Utc, [i64; 3])| {
        assert_eq!(refused, 0, "{utc:?}");
        tt
    };
    utcs.iter().zip(answers).map(tt).collect()
}

/// The second program's.
fn second_tt(utc: Utc) -> i64 {
    let (_, _, Tt(tt)) = dates::instants(utc.with(0)).unwrap_or_else(|refusal| panic!("{utc:?}: {refusal}"));
    tt.try_into().expect("an instant of 64 bits")
}

/// Clocks never fold: of each two that follow one another in the list, the later UTC has the larger TT.
fn assert_unfolded(instants: &[i64], utcs: &[Utc]) {
    for (tt, utc) in instants.windows(2).zip(utcs.windows(2)) {
        assert_eq!(utc[0].cmp(&utc[1]), tt[0].cmp(&tt[1]), "TT {tt:?} {utc:?}");
    }
}

/// Compares the UTC of instants of the stretch; each has in both programs the TT that it came from.
fn there_and_back(what: &str, instants: &[i64]) -> Vec<Utc> {
    compare_utc(what, instants.iter().copied());
    let mut utcs = Vec::with_capacity(instants.len());
    for part in instants.chunks(AT_ONCE) {
        let answered = utcs_of(part).into_iter().zip(part);
        let there: Vec<Utc> =
            answered.map(|(utc, tt)| utc.unwrap_or_else(|refusal| panic!("{tt}: {refusal}"))).collect();
        let back = tts_of(&there);
        for ((tt, utc), back) in part.iter().zip(&there).zip(back) {
            assert_eq!(
                (back, second_tt(*utc)),
                (*tt, *tt),
                "{utc:?}: TT by the module, by the second program"
            );
        }
        utcs.extend(there);
    }
    assert_unfolded(instants, &utcs);
    print(&format!("taken to UTC and back, {what}: {}", utcs.len()));
    utcs
}

/// The other way about: the module's TT of each has this UTC.
fn back_and_there(what: &str, utcs: &[Utc]) -> Vec<i64> {
    let mut instants = Vec::with_capacity(utcs.len());
    for part in utcs.chunks(AT_ONCE) {
        let back = tts_of(part);
        for (utc, there) in part.iter().zip(utcs_of(&back)) {
            assert_eq!(there, Ok(*utc));
        }
        instants.extend(back);
    }
    assert_unfolded(&instants, utcs);
    print(&format!("taken to TT and back, {what}: {}", instants.len()));
    instants
}

fn midnight(date: Date) -> Utc {
    Utc { date, hour: 0, minute: 0, second: 0, ms: 0 }
}

/// 23:59 of a date, at a second.
fn last_minute(date: Date, second: i64, ms: i64) -> Utc {
    Utc { date, hour: 23, minute: 59, second: second.into(), ms: ms.into() }
}

/// The last ms of a day: before a step it is that of second 60.
fn last_ms(date: Date) -> Utc {
    let next = day_of(date).expect("a date of the span") + 1;
    let is_before_step = steps().any(|step| day_of(step) == Ok(next));
    last_minute(date, if is_before_step { 60 } else { 59 }, 999)
}

/// Every ms of second 60, and as many as are tried before and after.
#[test]
fn both_sides_of_every_step() {
    let mut steps: Vec<Date> = steps().collect();
    steps.sort();
    assert_eq!(steps.len(), 27);
    let about = |tt: i64| tt - 1000 - BESIDE..tt + BESIDE;
    let instants: Vec<i64> = steps.iter().flat_map(|step| about(second_tt(midnight(*step)))).collect();
    let utcs = there_and_back("both sides of every step", &instants);

    let width = (BESIDE + 1000 + BESIDE) as usize;
    for (step, utcs) in steps.into_iter().zip(utcs.chunks(width)) {
        let number = day_of(step).expect("a step is in the span");
        let before = dates::date_of(number - 1).expect("a step has a day before");
        for (utc, past) in utcs.iter().zip(-BESIDE..) {
            let expected = match past {
                ..-1000 => last_minute(before, 58, past + 2000),
                -1000..0 => last_minute(before, 59, past + 1000),
                0..1000 => last_minute(before, 60, past),
                1000..2000 => Utc { ms: (past - 1000).into(), ..midnight(step) },
                _ => Utc { second: 1, ms: (past - 2000).into(), ..midnight(step) },
            };
            assert_eq!(*utc, expected);
        }
    }
}

/// The first and the last ms of every day, as the calendar has them.
#[test]
fn every_day() {
    let utcs: Vec<Utc> = dates().flat_map(|date| [midnight(date), last_ms(date)]).collect();
    assert_eq!(utcs.len(), 2 * 46_752);
    let instants = back_and_there("first and last ms of every day", &utcs);
    assert_eq!(there_and_back("first and last ms of every day", &instants), utcs);
    // no ms lies between two days
    for days in instants[1..].chunks_exact(2) {
        assert_eq!(days[0] + 1, days[1]);
    }
    assert_eq!((instants.first(), instants.last()), (Some(&FIRST), Some(&LAST)));
}

/// The first and the last ms of every second of a day that has a second 60, and of the day after.
#[test]
fn every_second_of_two_days() {
    for step in [Date { year: 1972, month: 7, day: 1 }, Date { year: 2017, month: 1, day: 1 }] {
        let tt = second_tt(midnight(step));
        let seconds = (tt - DAY - 1000..tt + DAY).step_by(1000);
        let instants: Vec<i64> = seconds.flat_map(|first| [first, first + 999]).collect();
        there_and_back("every second of two days", &instants);
    }
}

#[test]
fn random_instants() {
    let mut chance = Chance::new("random_instants");
    let mut instants: Vec<i64> = (0..RANDOM).map(|_| chance.within(FIRST, LAST)).collect();
    instants.sort_unstable();
    there_and_back("random, of the stretch", &instants);

    // a second or two from midnight, where TAI-UTC may step
    let mut chance = Chance::new("random_instants, midnights");
    let midnights: Vec<i64> = dates().map(|date| second_tt(midnight(date))).collect();
    let about = |chance: &mut Chance| chance.one_of(&midnights) + chance.within(-2500, 1500);
    let instants = std::iter::repeat_with(|| about(&mut chance)).filter(|tt| (FIRST..=LAST).contains(tt));
    let mut instants: Vec<i64> = instants.take(RANDOM_MIDNIGHTS).collect();
    instants.sort_unstable();
    there_and_back("random, about midnight", &instants);
}

/// Times that the calendar and the clock allow, whatever their TT; every tenth in a second 60.
#[test]
fn random_times() {
    let days: Vec<Date> = dates().collect();
    let long_days: Vec<Date> = dates().filter(|date| last_ms(*date).second == 60).collect();
    let mut chance = Chance::new("random_times");
    let mut utcs: Vec<Utc> = (0..RANDOM_TIMES)
        .map(|_| {
            let ms = chance.within(0, 999);
            if chance.once_in(10) {
                return last_minute(chance.one_of(&long_days), 60, ms);
            }
            let date = chance.one_of(&days);
            let [hour, minute, second] = [23, 59, 59].map(|most| chance.within(0, most).into());
            Utc { date, hour, minute, second, ms: ms.into() }
        })
        .collect();
    utcs.sort();
    back_and_there("random", &utcs);
}

/// Both ends are answered, and what lies outside is refused 20 with noughts, however far.
#[test]
fn refused_exactly_outside_the_stretch() {
    let [before, first, last, after] = [FIRST - 1, FIRST, LAST, LAST + 1].map(|tt| {
        let answers = UTC.answers(&mut [Call::from([tt])]);
        answers[0]
    });
    assert_eq!((before, after), ([20, 0, 0, 0, 0], [20, 0, 0, 0, 0]));
    let date = |year, month, day| Date { year, month, day };
    assert_eq!(utc_of(first), Ok(midnight(date(1972, 1, 1))));
    assert_eq!(utc_of(last), Ok(last_minute(date(2099, 12, 31), 59, 999)));

    let ends = around(&[FIRST, LAST], 2 * BESIDE);
    for (tt, utc) in ends.iter().zip(utcs_of(&ends)) {
        let is_inside = (FIRST..=LAST).contains(tt);
        assert_eq!(utc.err(), (!is_inside).then_some(20), "{tt}");
    }
    compare_utc("ends of the stretch", ends);
    // days and years before and after, which a year of two digits or a day of 32 bits would bring back
    let days = (1..=200_000).flat_map(|day| [FIRST - day * DAY, FIRST - day * DAY - 1, LAST + day * DAY]);
    compare_utc("days outside the stretch", days);
}

#[test]
fn numbers_of_any_size() {
    let powers = (0..63).flat_map(|bits| [1 << bits, -1 << bits]);
    let numbers: Vec<i64> = powers.chain([i64::MIN, 0, i64::MAX]).collect();
    let extremes = around(&numbers, 3);
    for number in [i64::MIN, i64::MIN + 1, -1, 0, 1, i64::MAX - 1, i64::MAX] {
        assert!(extremes.contains(&number));
    }
    compare_utc("powers of two and ends", extremes);

    // what 32 bits, or a sum that wraps, would bring into the stretch
    let wrapped = [FIRST, -1, 0, 1, LAST].map(|tt| (32..64).map(move |bits| tt.wrapping_add(1 << bits)));
    compare_utc("instants with a bit changed", wrapped.into_iter().flatten());

    let mut chance = Chance::new("numbers_of_any_size");
    let random = (0..RANDOM_NUMBERS).map(|_| chance.of_any_size(i64::MIN, i64::MAX));
    compare_utc("random, of any size", random);
    let mut chance = Chance::new("numbers_of_any_size, any");
    compare_utc("random, any", (0..RANDOM_NUMBERS).map(|_| chance.any()));
}
