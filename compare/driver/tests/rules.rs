//! Cases that the driver composes itself, where no trace of the Rust alone can help.

use driver::{program::trace_of, session::Mode};

/// The answers to a script, the make's own left out.
fn answers(script: &str) -> Vec<String> {
    let (trace, failure) = trace_of(script, Mode::Rules);
    assert!(failure.is_none(), "{failure:?}");
    let answers = trace.lines().filter_map(|line| line.strip_prefix("= "));
    answers.skip(1).map(String::from).collect()
}

fn last_answer(script: &str) -> String {
    answers(script).pop().expect("an answer")
}

/// Two keys; the first goes out to station 1 under id 5.
const ONE_OUT: &str = "\
make timeout=100 delay=10 link=lane:0 source=list:
reconcile 0 1,2
want 0 1:0 100
want 0 1:1 100
setid 5
fetch 0
";

#[test]
fn an_id_still_out_is_passed_over() {
    assert_eq!(
        last_answer(&format!("{ONE_OUT}setid 5\nfetch 0\n")),
        "sent 1:1 6 1"
    );
}

#[test]
fn a_refused_send_takes_an_id_and_the_next_passes_over() {
    // Station 1 is drawn first and refuses id 4; for station 2, id 5 is still out.
    let script = format!("{ONE_OUT}lane 1 closed\nsetid 4\nfetch 0\n");
    assert_eq!(last_answer(&script), "sent 1:1 6 2");
}

#[test]
fn ids_are_passed_over_also_where_nothing_is_sent() {
    let script = format!("{ONE_OUT}lane 1 closed\nlane 2 closed\nsetid 4\nfetch 0\n");
    let (trace, _) = trace_of(&script, Mode::Rules);
    let last = trace.lines().rfind(|line| line.starts_with("draws"));
    assert!(
        last.is_some_and(|line| line.ends_with("next_id=7")),
        "{last:?}"
    );
}

#[test]
fn ids_wrap() {
    let script = format!("{ONE_OUT}setid 18446744073709551615\nfetch 0\n");
    assert_eq!(last_answer(&script), "sent 1:1 18446744073709551615 1");
    let (trace, _) = trace_of(&script, Mode::Rules);
    assert!(trace.contains("next_id=0\n"));
}

#[test]
fn slip_numbers_start_again_and_pass_over_those_outstanding() {
    let script = "\
make timeout=100 delay=10 link=lane:0 source=list: rows=4,4,4,4,4,2
reconcile 0 1
want 0 1:0 100
want 0 1:1 100
fetch 0
fetch 0
response 1 0 1 7 1
response 1 1 1 7 1
verdict 2 0 unresolved
fetch 12
response 13 2 1 7 1
verdict 14 1 complete
want 14 1:1 100
fetch 14
response 15 3 1 7 1
";
    let slips: Vec<String> = answers(script)
        .into_iter()
        .filter(|answer| answer.starts_with("slip"))
        .collect();
    assert_eq!(slips, ["slip 0", "slip 1", "slip 0", "slip 1"]);
}

#[test]
fn ten_goes_before_nine() {
    let script = "\
make timeout=100 delay=10 link=lane:0 source=list: rows=1,1,1,1,1,1
add_targets 0 1:0 1,2
";
    assert_eq!(last_answer(script), "refused 10");
}

#[test]
fn a_verdict_on_a_canceled_delivery_leaves_the_same_key_alone() {
    let script = "\
make timeout=100 delay=10 link=lane:0 source=list:
reconcile 0 1
want 0 1:0 100
fetch 0
response 1 0 1 7 1
retain 1 gone=100
want 1 1:0 101
fetch 1
response 2 1 1 7 1
verdict 3 0 ignored
ask place 1:0
verdict 4 1 invalid
";
    let answers = answers(script);
    assert_eq!(answers[answers.len() - 2], "judged slip=1");
    assert_eq!(answers[answers.len() - 1], "judged slip=- block=1");
}
