//! The comparison of an exported function with the second program, bit for bit.

use std::io::Write;

use crate::chance::seed;
use crate::entries::entries_of;
use crate::function::{Call, Function, Room};

/// So many calls go to the module at once.
const BATCH: usize = 4096;

/// Compares the function over calls with numbers alone: `compare_lent` tells the rest.
pub fn compare<const GIVEN: usize, const ANSWERED: usize>(
    function: &Function<GIVEN, ANSWERED>,
    what: &str,
    calls: impl IntoIterator<Item = [i64; GIVEN]>,
    second: impl Fn([i64; GIVEN]) -> [i64; ANSWERED],
) {
    let calls = calls.into_iter().map(Call::from);
    compare_lent(function, what, calls, |call| second(call.given));
}

/// The same where an answer is told from another only as far as `told` tells them apart.
pub fn compare_told<const GIVEN: usize, const ANSWERED: usize>(
    function: &Function<GIVEN, ANSWERED>,
    what: &str,
    calls: impl IntoIterator<Item = [i64; GIVEN]>,
    told: impl Fn([i64; ANSWERED]) -> [i64; ANSWERED],
    second: impl Fn([i64; GIVEN]) -> [i64; ANSWERED],
) {
    let calls = calls.into_iter().map(Call::from);
    compare_all(function, what, calls, told, |call| second(call.given));
}

/// Compares the function's answer, and the room that it was lent, with the second program's over all the calls, and prints
/// how many there were. A mismatch ends the test with both answers.
pub fn compare_lent<const GIVEN: usize, const ANSWERED: usize>(
    function: &Function<GIVEN, ANSWERED>,
    what: &str,
    calls: impl IntoIterator<Item = Call<GIVEN>>,
    second: impl Fn(&mut Call<GIVEN>) -> [i64; ANSWERED],
) {
    compare_all(function, what, calls, |answer| answer, second);
}

fn compare_all<const GIVEN: usize, const ANSWERED: usize>(
    function: &Function<GIVEN, ANSWERED>,
    what: &str,
    calls: impl IntoIterator<Item = Call<GIVEN>>,
    told: impl Fn([i64; ANSWERED]) -> [i64; ANSWERED],
    second: impl Fn(&mut Call<GIVEN>) -> [i64; ANSWERED],
) {
    let (mut compared, mut answered) = (0, 0);
    let mut calls = calls.into_iter();
    loop {
        let given: Vec<Call<GIVEN>> = calls.by_ref().take(BATCH).collect();
        if given.is_empty() {
            break;
        }
        let mut ours = given.clone();
        let answers = function.answers(&mut ours);
        assert_eq!(answers.len(), given.len());
        for ((given, ours), answer) in given.into_iter().zip(ours).zip(answers) {
            let mut theirs = given.clone();
            let expected = second(&mut theirs);
            if (told(answer), &ours.room, &ours.read) != (told(expected), &theirs.room, &theirs.read) {
                panic!(
                    "{} differs, seed {}\n  given   {}\n  module  {}\n  second  {}",
                    function.name,
                    seed(),
                    described(&function.given, &given.given, Room::Bytes, &given.read),
                    described(&function.answered, &answer, function.room, &ours.room),
                    described(&function.answered, &expected, function.room, &theirs.room),
                );
            }
            compared += 1;
            answered += u64::from(is_answer(function, answer));
        }
    }
    assert!(compared > 0, "{}, {what}: nothing to compare", function.name);
    print(&format!("compared {}, {what}: {compared}, answered {answered}", function.name));
}

/// Prints a line past the test harness, which keeps back what a passing test prints.
pub fn print(line: &str) {
    writeln!(std::io::stdout(), "{line}").expect("standard output");
}

/// The words of an answer that may be refused: nought and the numbers, or the number of the refusal and noughts.
pub fn words<const ANSWERED: usize>(answer: Result<Vec<i128>, i64>) -> [i64; ANSWERED] {
    let mut words = [0; ANSWERED];
    match answer {
        Err(refusal) => words[0] = refusal,
        Ok(numbers) => {
            assert_eq!(numbers.len(), ANSWERED - 1, "one word for each number");
            for (word, number) in words[1..].iter_mut().zip(numbers) {
                *word = i64::try_from(number).expect("an answer of 64 bits");
            }
        }
    }
    words
}

/// The function did not refuse.
fn is_answer<const GIVEN: usize, const ANSWERED: usize>(
    function: &Function<GIVEN, ANSWERED>,
    answer: [i64; ANSWERED],
) -> bool {
    match function.answered[0] {
        "met" => answer[0] == 1,
        "refused" => answer[0] == 0,
        _ => true,
    }
}

/// Words by name, and bytes as text or as entries.
fn described(names: &[&str], words: &[i64], room: Room, bytes: &[u8]) -> String {
    let named = |(name, word): (&&str, &i64)| format!("{name} {word}");
    let mut parts: Vec<String> = names.iter().zip(words).map(named).collect();
    match room {
        _ if bytes.is_empty() => {}
        Room::Bytes => parts.push(format!("bytes \"{}\"", bytes.escape_ascii())),
        Room::Entries => parts.extend(entries_of(bytes).iter().map(|entry| format!("\n    {entry:?}"))),
    }
    parts.join("  ")
}
