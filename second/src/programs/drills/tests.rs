//! Tests of the drills, line by line.

use super::print;
use crate::programs::bench::examples;

/// Asserts the answers to paragraphs of lines, each line with its answer; an empty answer stands for none.
fn assert_answers(cases: &[(&str, &str)]) {
    let input: String = cases.iter().map(|(line, _)| format!("{line}\n")).collect();
    let printed = print(input.as_bytes());
    let answers = cases.iter().filter(|(_, answer)| !answer.is_empty());
    let mut lines = printed.lines();
    for (line, answer) in answers {
        assert_eq!(lines.next(), Some(*answer), "{line}");
    }
    assert_eq!(lines.next(), None);
}

/// The examples of the page.
const EXAMPLES: &str = "\
change 5 3=5 0 2=9 all                 count 5, set, told none entry 0, refused 2 digit 0 element, 1 held 3=5
dense 0205 0 1 2                       count 2 entry 2 entry 5 entry 0
answer d:0205 030104 -                 refused 1 length 0 element sheet
lookup 310a                            refused 1/
open 030104030104                      opened
request 2 3 0                          refused 1 length 0 element queries 9 9 9 and
request 1 3 3                          taken queries 3 1 4 and 4 1 3
counters                               taken 1 read 0 unread 0 left 3 waiting for 1
fits                                   out of turn
ask d:0205 c:2:0=2,1=5                 entry 5
counters                               taken 1 read 1 unread 0 left 3
check 1 3 3 24 24 d:0205 c:3           refused 3 size 3 host";

#[test]
fn of_the_page() {
    let examples = examples(EXAMPLES);
    assert_eq!(examples.len(), 12);
    let family = ("words 1 2", "count 2 dimension 3");
    assert_answers(&[&[family], &examples[..]].concat());
}

#[test]
fn families() {
    assert_answers(&[
        ("", ""),
        ("unit 3", "count 3 dimension 3"),
        ("", ""),
        ("", ""),
        ("unit 0", "refused 3 size 0 family"),
        ("counters", ""),
        ("", ""),
        ("unit", "no such family"),
        ("counters", ""),
        ("", ""),
        ("first 2 unit 3", "count 2 dimension 3"),
        ("", ""),
        ("first 2 first 4 words 2 3", "count 2 dimension 16"),
        ("", ""),
        ("first 5 first 4 words 2 3", "refused 3 size 5 family"),
        ("", ""),
        ("first 1 first 1 unit 3", "no such family"),
        ("", ""),
        (
            "first 1 book 00030000000201010001000100000002010500010005",
            "count 1 dimension 3",
        ),
        ("", ""),
        ("words 1 2 3", "no such family"),
    ]);
}

#[test]
fn hosts() {
    assert_answers(&[
        ("words 1 2", "count 2 dimension 3"),
        ("host d:0205", "count 2"),
        ("host d:0206", "refused 2 digit 1 element"),
        ("host d:-", "refused 3 size 0 host"),
        ("host r:1048576:0102", "count 1048576"),
        ("host r:1048577:0102", "refused 3 size 1048577 host"),
        ("host r:1048577:06", "refused 3 size 1048577 host"),
        ("host r:x:0102", "refused 3 size 18446744073709551615 host"),
        ("host r:x:-", "refused 3 size 18446744073709551615 host"),
        ("host r:0:06", "refused 3 size 0 host"),
        ("host r:2:000106", "count 2"),
        ("host r:5:-", "refused 3 size 0 host"),
        ("host r:5", "no such host"),
        ("host c:5", "count 5"),
        ("host c:5:1=2,4=5", "count 5"),
        ("host c:5:1=2,5=5", "refused 6 position 5 host"),
        ("host c:5:1=2,4", "refused 2 digit 0 element"),
        ("host c:5:1=2,5", "refused 6 position 5 host"),
        ("host c:5:1=256", "refused 2 digit 0 element"),
        ("host c:5:1=", "refused 2 digit 0 element"),
        ("host c:5:", "refused 6 position 18446744073709551615 host"),
        ("host c:", "refused 3 size 18446744073709551615 host"),
        ("host d:", "refused 3 size 0 host"),
        ("host d:02:05", "no such host"),
        ("host e:2", "no such host"),
        ("host", "no such drill"),
    ]);
}

#[test]
fn sums() {
    assert_answers(&[
        ("words 1 2", "count 2 dimension 3"),
        ("host c:2+d:0101+r:2:05", "count 2"),
        ("host c:2+d:0101+r:2:05+c:2:1=1", "count 2"),
        ("host c:2+d:0101+r:2:05+c:2+c:2", "no such host"),
        ("host c:2+c:3+c:2", "refused 3 size 3 host"),
        ("host c:2+c:2+c:3", "refused 3 size 3 host"),
        ("host c:2+c:3+c:2+c:4", "refused 3 size 3 host"),
        ("host c:2+c:2+c:2+c:4", "refused 3 size 4 host"),
        ("host d:06+x", "refused 2 digit 0 element"),
        ("host x+d:06", "no such host"),
        ("host d:00+d:0000+d:-", "refused 3 size 0 host"),
        ("host c:2+c:3+c:4+c:5+c:0", "refused 3 size 0 host"),
        (
            "host c:2+c:2+c:2+c:2+c:2+c:2:2=6",
            "refused 6 position 2 host",
        ),
        ("host c:+2", "refused 3 size 18446744073709551615 host"),
        ("host c:2+", "no such host"),
        ("host +c:0", "no such host"),
    ]);
}

#[test]
fn tables() {
    assert_answers(&[
        ("unit 9", "count 9 dimension 9"),
        (
            "dense 0205 0 1 2 x",
            "count 2 entry 2 entry 5 entry 0 entry 0",
        ),
        ("dense 0205 +1  1", "count 2 entry 5 entry 0 entry 5"),
        ("dense -", "refused 3 size 0 host"),
        ("change 0 1=2", "refused 3 size 0 host"),
        (
            "change 5 4=0 3=5 4 2 all 9=1 1=6 all",
            "count 5, set, set, told 0 entry 0, told none entry 0, 2 held 3=5 4=0, \
             refused 6 position 9 host, refused 2 digit 0 element, 2 held 3=5 4=0",
        ),
        ("change 5 all", "count 5, 0 held"),
        ("change 5", "count 5"),
        (
            "change 5 +1=+5  1",
            "count 5, set, told none entry 0, told 5 entry 5",
        ),
        (
            "lookup 3120320a310a3220350a3320312034",
            "position 1/first 3 1 4/second 4 1 3/carried 54/entry 5/",
        ),
        ("lookup -", "refused 1/"),
    ]);
}

#[test]
fn answers() {
    assert_answers(&[
        ("unit 1", "count 1 dimension 1"),
        (
            "answer d:02 03 000000000000000000000000",
            "sheet 0 0 0 2 0 0 0 0 0 2 0 0",
        ),
        (
            "answer d:02+c:1:0=5 03 010101010101010101010101",
            "sheet 1 1 1 2 1 1 1 1 1 2 1 1",
        ),
        (
            "answer d:02 03 0900",
            "refused 1 length 2 element sheet 9 0",
        ),
        ("answer d:0202 03 0900", "refused 3 size 1 host sheet 9 0"),
        ("answer d:- 03 0900", "refused 3 size 0 host"),
        ("answer x 03 0900", "no such host"),
    ]);
}

#[test]
fn the_worked_session() {
    assert_answers(&[
        ("words 1 2", "count 2 dimension 3"),
        ("counters", "taken 0 read 0 unread 0 left 0"),
        ("fits", "refused 3 size 2 session"),
        ("open 0301040200050106", "refused 2 digit 7 element"),
        ("open 030104020005010405", "opened"),
        ("fits", "fits"),
        ("check 1 3 3", "would be taken"),
        ("request 1 3 3", "taken queries 3 1 4 and 4 1 3"),
        ("counters", "taken 1 read 0 unread 0 left 6 waiting for 1"),
        ("fits", "out of turn"),
        ("request 1 3 3", "out of turn"),
        ("ask d:020504 d:0205", "refused 3 size 2 host"),
        ("ask d:02+x d:0205", "no such host"),
        ("ask d:0205 c:2:0=2,1=5", "entry 5"),
        ("request 0 3 3", "taken queries 2 0 5 and 3 5 5"),
        ("abandon", "abandoned"),
        ("request 1 3 3", "taken queries 1 4 5 and 2 4 4"),
        (
            "recover 010000000000000000000000000000000000000000000000 \
             000000000000000000000000000000000000000000000000",
            "refused 8 at odds 1 session",
        ),
        (
            "request 2 3 3",
            "refused 6 position 2 session queries 9 9 9 and 9 9 9",
        ),
        (
            "request 1 3 3",
            "refused 7 spent 0 session queries 9 9 9 and 9 9 9",
        ),
        (
            "request 1 2 0",
            "refused 1 length 2 element queries 9 9 and",
        ),
        ("counters", "taken 3 read 1 unread 2 left 0"),
    ]);
}

#[test]
fn odd_lines() {
    assert_answers(&[
        ("unit 1", "count 1 dimension 1"),
        ("open - -", "no such drill"),
        ("check 1 2 3 4", "no such drill"),
        ("counters 1", "no such drill"),
        ("recover - -", "out of turn"),
        ("ask x y", "out of turn"),
        ("abandon", "out of turn"),
        ("open 00", "opened"),
        ("request 0 1 1", "taken queries 0 and 0"),
        ("round 0 1 1 12 12 x y", "out of turn"),
        ("round 0 1 1 12 12 x", "no such drill"),
        (" counters", "no such drill"),
        ("counters ", "no such drill"),
        ("check 0 1 1", "out of turn"),
        ("recover - -", "refused 1 length 0 element"),
        ("counters", "taken 1 read 0 unread 1 left 0"),
        ("request 0 0 1", "refused 1 length 0 element queries and 9"),
    ]);
}

#[test]
fn rounds() {
    assert_answers(&[
        ("unit 1", "count 1 dimension 1"),
        ("open 0302", "opened"),
        ("check 0 1 1 12 12 d:02 d:02", "would be taken"),
        ("check 0 1 1 12 11 d:02 d:02", "refused 1 length 11 element"),
        ("check 0 1 1 12 12 d:02 d:0202", "refused 3 size 2 host"),
        (
            "check 1 1 1 12 12 d:02 d:02",
            "refused 6 position 1 session",
        ),
        (
            "round 0 1 1 12 12 d:02 d:02",
            "entry 2 carried 26 queries 3 and 3 sheets 0 0 0 2 0 0 0 0 0 2 0 0 and \
             0 0 0 2 0 0 0 0 0 2 0 0 taken 1 read 1 unread 0",
        ),
        (
            "round 0 1 1 2 12 d:02 d:02",
            "refused 1 length 2 element queries 9 and 9 sheets 9 9 and \
             9 9 9 9 9 9 9 9 9 9 9 9 taken 1 read 1 unread 0",
        ),
        (
            "round 0 1 1 12 12 d:01 c:1",
            "refused 8 at odds 0 session queries 2 and 2 sheets 0 0 1 0 0 0 0 0 1 0 0 0 and \
             0 0 0 0 0 0 0 0 0 0 0 0 taken 2 read 1 unread 1",
        ),
        (
            "request 0 61 1",
            "refused 1 length 61 element queries 61 bytes 2034626121 and 9",
        ),
        (
            "request 0 1 18446744073709551615",
            "refused 1 length 18446744073709551615 element queries 9 and \
             18446744073709551615 bytes 1385473321",
        ),
        ("round 0 1 1 12 12 d:02 d:06", "refused 2 digit 0 element"),
    ]);
}
