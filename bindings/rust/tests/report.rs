//! The report against the plain rewrite on random jobs, against the stored examples, and in rooms that are too short.
mod common;

use common::books::any_job;
use common::edge_jobs::edge_job;
use common::plain_job;
use common::random::Random;
use jelmorand::Refusal;

const JOBS: usize = 20_000;

#[test]
fn reports_agree_with_the_rewrite() {
    let mut random = Random::fresh("report");
    let mut verdicts = [0; 3];
    let mut refused = [0; 19];
    for count in 0..JOBS {
        let job = if random.one_in(5) { edge_job(&mut random) } else { any_job(&mut random) };
        let text = jelmorand::report(&job);
        assert_eq!(text, plain_job::report(&job), "job {count}: {job:?}");
        for (which, word) in ["verdict below\n", "verdict close\n", "verdict above\n"].iter().enumerate() {
            verdicts[which] += usize::from(text.contains(word));
        }
        if let Some(number) = text.strip_prefix("refused ") {
            refused[number.trim_end().parse::<usize>().expect("a number")] += 1;
        }
    }
    println!("report: {JOBS} jobs, below, close, above {verdicts:?}, refusals by number {:?}", &refused[1..]);
    assert!(verdicts.iter().chain(&refused[1..]).all(|n| *n > 0), "some answer never came up");
}

/// A room of exactly the text's length takes it; what is behind the text, and a room that is too short, stay as they were.
#[test]
fn room_is_respected() {
    let mut random = Random::fresh("room");
    for count in 0..JOBS / 10 {
        let job = any_job(&mut random);
        let text = plain_job::report(&job).into_bytes();
        let room = random.within(text.len() as u64 / 2, 2 * text.len() as u64) as usize;
        for room in [room, text.len(), text.len() - 1, 0] {
            let before: Vec<u8> = (0..room).map(|_| random.next() as u8).collect();
            let mut list = before.clone();
            let length = jelmorand::report_into(&job, &mut list);
            if room < text.len() {
                assert_eq!((length, list), (Err(Refusal::BufferTooShort), before), "job {count} in {room}: {job:?}");
            } else {
                let expected = [&text[..], &before[text.len()..]].concat();
                assert_eq!((length, list), (Ok(text.len()), expected), "job {count} in {room}: {job:?}");
            }
        }
    }
}

#[test]
fn stored_examples_are_reported() {
    for name in ["radon", "thoron", "actinon"] {
        let path = format!("{}/../../examples/{name}", env!("CARGO_MANIFEST_DIR"));
        let job = std::fs::read(path.clone() + ".job").expect("the example's job");
        let stored = std::fs::read_to_string(path + ".out").expect("the example's report");
        assert_eq!(jelmorand::report(&job), stored, "{name}");
    }
}
