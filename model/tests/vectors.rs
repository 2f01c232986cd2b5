//! The scripts with the answers that the papers give: after a call `;= NUMBER`
//! and `;> CLIENT LINE` give what it must be answered.

use model::encode::encode;
use model::script::Session;

/// An answer in the form of the expectations: the number, then each delivery.
fn shown(answer: &str) -> Vec<String> {
    let Some((number, output)) = answer.split_once(' ') else {
        return vec![format!("= {answer}")];
    };
    let bytes = model::script::bytes(output.as_bytes()).unwrap();
    let (mut lines, mut rest) = (vec![format!("= {number}")], &bytes[..]);
    while !rest.is_empty() {
        let length = usize::from(rest[1]) << 8 | usize::from(rest[2]);
        let line = std::str::from_utf8(&rest[3..3 + length]).unwrap();
        lines.push(format!("> {} {}", rest[0], line.strip_suffix('\n').unwrap()));
        rest = &rest[3 + length..];
    }
    lines
}

/// Checks a script; gives how many calls had an expectation.
fn check(name: &str, text: &str) -> usize {
    let script = encode(text).unwrap_or_else(|error| panic!("{name}: {error}"));
    let mut session = Session::default();
    let (mut last, mut lines, mut checked) = (Vec::new(), script.lines().peekable(), 0);
    while let Some(line) = lines.next() {
        if let Some(answer) = session.answer(line.as_bytes()) {
            last = shown(&answer);
        }
        if line.starts_with(";= ") {
            let mut expected = vec![line[1..].to_string()];
            while lines.peek().is_some_and(|next| next.starts_with(";> ")) {
                expected.push(lines.next().unwrap()[1..].to_string());
            }
            assert_eq!(last, expected, "{name}");
            checked += 1;
        }
    }
    checked
}

#[test]
fn answered_as_the_papers_say() {
    for (name, text) in model::vectors::with_answers() {
        assert!(check(name, &text) > 5, "{name}");
    }
}
