//! Document 02, (i), "Others on the line", on the model.

use model::encode::encode;
use model::generate::others::is_shared;
use model::others::{compare_all, difference, Compared};
use model::script::{read_entry, Call, Entry, Session};

/// The model's answers to a script.
fn answers<'a>(script: impl IntoIterator<Item = &'a [u8]>) -> Vec<Vec<u8>> {
    let mut session = Session::default();
    script.into_iter().filter_map(|line| session.answer(line)).map(String::into_bytes).collect()
}

/// The calls of the lists of the hand-written script, each list from its `open`.
fn written_lists() -> Vec<Vec<Call>> {
    let (_, text) = model::vectors::with_answers().into_iter().find(|(name, _)| *name == "others").unwrap();
    let mut lists: Vec<Vec<Call>> = Vec::new();
    for line in encode(&text).unwrap().lines() {
        if let Entry::Call(call) = read_entry(line.as_bytes()) {
            if matches!(call, Call::Open { .. }) {
                lists.push(Vec::new());
            }
            lists.last_mut().unwrap().push(call);
        }
    }
    lists
}

/// What two lists share of their calls: what is asked, and whether the output is too short.
fn shared(list: &[Call], dispatcher: u64) -> Vec<Call> {
    let mut shared: Vec<Call> = list.iter().filter(|call| is_shared(call, dispatcher)).cloned().collect();
    for lent in shared.iter_mut().filter_map(Call::lent_mut) {
        *lent = u64::from(*lent >= 65_536);
    }
    shared
}

#[test]
fn the_written_lists_have_one_dispatcher_and_its_lines_are_equal() {
    let lists = written_lists();
    assert_eq!(lists.len(), 2);
    assert_eq!(shared(&lists[0], 2), shared(&lists[1], 2));
    assert!(lists[0].len() < lists[1].len());
    let given: Vec<Vec<Vec<u8>>> = lists
        .iter()
        .map(|list| {
            let lines: Vec<String> = list.iter().map(Call::text).collect();
            answers(lines.iter().map(String::as_bytes))
        })
        .collect();
    let mut compared = Compared::default();
    assert_eq!(difference(2, &given[0], &given[1], &mut compared), None);
    assert_eq!(compared.of_sensors, 18);
    assert_eq!(compared.of_others, 3 + 7);
}

#[test]
fn lists_that_differ_in_the_others_give_the_dispatcher_the_same_lines() {
    let compared = compare_all(0..60, 200, |scripts| {
        Ok(scripts.iter().flat_map(|script| answers(script.iter().map(Vec::as_slice))).collect())
    });
    let compared = compared.unwrap().unwrap();
    assert_eq!(compared.pairs, 120);
    assert!(compared.other_calls > 5_000 && compared.of_sensors > 2_000 && compared.of_others > 500);
}
