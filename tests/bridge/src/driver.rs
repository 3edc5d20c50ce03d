//! The way through `tests/c/driver.c`: a batch of calls goes out over a pipe, then all its answers come back.
//!
//! All is 64-bit little-endian words. A batch is the function's name in 64 bytes, then the number of calls, of words given,
//! of words answered, and of bytes that follow. A call is its words, the length of the bytes to read and of the room, and
//! those two, each filled up to whole words. An answer is its words and the room.

use std::env;
use std::io::{Read, Write};
use std::path::PathBuf;
use std::process::{Child, Command, Stdio};
use std::sync::{Mutex, PoisonError};

use crate::function::Call;

const NAME_BYTES: usize = 64;

/// The driver has room for so many bytes of a batch, and of its answers.
const MOST_BYTES: usize = 1 << 21;

/// One driver for all tests of a run.
static DRIVER: Mutex<Option<Child>> = Mutex::new(None);

/// The answers to any number of calls, in as many batches as the driver's room for one asks.
pub fn answers<const GIVEN: usize, const ANSWERED: usize>(
    name: &str,
    calls: &mut [Call<GIVEN>],
) -> Vec<[i64; ANSWERED]> {
    let bytes = |call: &Call<GIVEN>| {
        let words = GIVEN + 2 + ANSWERED;
        words * 8 + whole_words(call.read.len()) + whole_words(call.room.len())
    };
    let at_once = MOST_BYTES / calls.iter().map(bytes).max().unwrap_or(1);
    let batches = calls.chunks_mut(at_once.max(1));
    batches.flat_map(|batch| batch_answers(name, batch)).collect()
}

fn batch_answers<const GIVEN: usize, const ANSWERED: usize>(
    name: &str,
    calls: &mut [Call<GIVEN>],
) -> Vec<[i64; ANSWERED]> {
    let body = body_of(calls);
    let mut request = name.as_bytes().to_vec();
    assert!(request.len() < NAME_BYTES, "{name} is too long a name");
    request.resize(NAME_BYTES, 0);
    for number in [calls.len(), GIVEN, ANSWERED, body.len()] {
        push_word(&mut request, number as i64);
    }
    request.extend(body);

    let room_bytes: usize = calls.iter().map(|call| whole_words(call.room.len())).sum();
    let mut reply = vec![0; calls.len() * ANSWERED * 8 + room_bytes];
    exchange(&request, &mut reply);
    answers_of(&reply, calls)
}

/// Sends the request whole, then takes the reply whole. It ends with the tests: its input is then at its end.
fn exchange(request: &[u8], reply: &mut [u8]) {
    // a test that failed holding the lock has said so: the others go on
    let mut guard = DRIVER.lock().unwrap_or_else(PoisonError::into_inner);
    let driver = guard.get_or_insert_with(start);
    let requests = driver.stdin.as_mut().expect("its input is a pipe");
    let answers = driver.stdout.as_mut().expect("its output is a pipe");
    requests.write_all(request).expect("the driver takes calls");
    answers.read_exact(reply).expect("the driver answers");
}

fn start() -> Child {
    let bridge = env::var_os("CARGO_MANIFEST_DIR").expect("cargo runs the tests");
    let tests = PathBuf::from(bridge).join("..");
    let program = tests.join("../target/c/driver");
    assert!(program.exists(), "{} is not built: .ci/run builds it", program.display());
    Command::new(tests.join("host.sh"))
        .arg("run")
        .arg(program)
        .stdin(Stdio::piped())
        .stdout(Stdio::piped())
        .spawn()
        .expect("tests/host.sh runs the driver")
}

fn body_of<const GIVEN: usize>(calls: &[Call<GIVEN>]) -> Vec<u8> {
    let mut body = Vec::new();
    for call in calls {
        for word in call.given {
            push_word(&mut body, word);
        }
        push_word(&mut body, call.read.len() as i64);
        push_word(&mut body, call.room.len() as i64);
        for bytes in [&call.read, &call.room] {
            body.extend(bytes);
            body.resize(whole_words(body.len()), 0);
        }
    }
    body
}

fn answers_of<const GIVEN: usize, const ANSWERED: usize>(
    mut reply: &[u8],
    calls: &mut [Call<GIVEN>],
) -> Vec<[i64; ANSWERED]> {
    let mut answers = Vec::with_capacity(calls.len());
    for call in calls {
        answers.push([(); ANSWERED].map(|()| take_word(&mut reply)));
        let (room, rest) = reply.split_at(whole_words(call.room.len()));
        let length = call.room.len();
        call.room.copy_from_slice(&room[..length]);
        reply = rest;
    }
    answers
}

/// A number of bytes filled up to whole words.
fn whole_words(bytes: usize) -> usize {
    bytes.next_multiple_of(8)
}

fn push_word(bytes: &mut Vec<u8>, word: i64) {
    bytes.extend(word.to_le_bytes());
}

fn take_word(bytes: &mut &[u8]) -> i64 {
    let (word, rest) = bytes.split_first_chunk().expect("a word of the reply");
    *bytes = rest;
    i64::from_le_bytes(*word)
}
