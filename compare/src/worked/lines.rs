//! Worked cases and near errors that a program prints, with what it has to print.

use super::Printed;

/// Of `trials`: which case, its line, and the answer.
const TRIALS: &[(&str, &str, &str)] = &[
    ("h = 1, q = 2: the sizes", "words 1 2", "count 2 dimension 3"),
    ("h = 1, q = 2: u(0) and v(0), and a 0 past the end", "words 1 2 0", "u 1 1 0 0 v 1 5 0 0"),
    ("h = 1, q = 2: u(1) and v(1), and a 0 past the end", "words 1 2 1", "u 1 0 1 0 v 1 0 5 0"),
    ("h = 1, q = 2: u(1) times v(1)", "vectors 010001 010005", "product 0"),
    ("h = 1, q = 2: u(1) times v(1), as the family tells it", "words 1 2 1 0 0 010005", "product 0 spread 1 0 5"),
    ("h = 1, q = 2: u(0) times v(1)", "words 1 2 0 0 0 010005", "product 1 spread 1 0 5"),
    ("3g^2 times 2g^4 is 0", "elements 000003000000 000000000200", "sum 0 0 3 0 2 0 product 0 0 0 0 0 0 same false"),
    ("the weights come to D for l = 0", "weighed 010000000000 000000000000 010000000000 000000000000", "weighed 0 2 0 3 4 3"),
    ("the weights come to 0 for l = 1", "weighed 010000000000 010000000000 000100000000 000100000000", "weighed 0 0 0 0 0 0"),
    ("the weights for l = 2", "weighed 010000000000 020000000000 000001000000 000002000000", "weighed 4 5 0 5 4 0"),
    ("the weights come to 0 for l = 3", "weighed 010000000000 030000000000 000000010000 000000030000", "weighed 0 0 0 0 0 0"),
    ("the weights come to 0 for l = 4", "weighed 010000000000 040000000000 000000000100 000000000400", "weighed 0 0 0 0 0 0"),
    (
        "the lookup: every step of its recovery",
        "recover 1 2 1 1 000500000200000500000200000000000200000500000000 000500000002000500000002000000000002000500000000",
        "y 0 5 0 0 2 0 y 0 0 0 0 2 0 y 0 5 0 0 0 2 y 0 0 0 0 0 2 w 3 0 4 0 3 2 x 0 4 0 3 2 3 entry 5",
    ),
    ("W = (0, 1, 0, 0, 2, 3) is at odds where s = 0", "entry 000100000203", "at odds"),
    ("no entry", "entry 000000000000", "entry 0"),
    ("near error, every nonzero W as 1: D", "entry 000200030403", "entry 1"),
    ("near error, every nonzero W as 1: 2 D", "entry 000400000200", "entry 2"),
    ("near error, every nonzero W as 1: 3 D", "entry 000000030003", "entry 3"),
    ("near error, every nonzero W as 1: 4 D", "entry 000200000400", "entry 4"),
    ("near error, every nonzero W as 1: 5 D", "entry 000400030203", "entry 5"),
    ("near error, six letters: five are taken", "words 5 2", "count 32 dimension 51"),
    ("near error, six letters: six are refused", "words 6 2", "refused 3 size 6 family"),
    (
        "near error, i < j alone",
        "examine 000200000002010000010000000200020100",
        "dimension 2 positions 2 pairs 3 refused 5 unmatched 1 0 family",
    ),
    ("near error, u(t) for v(t): its W", "weighed 000500000200 000400000200 000500000002 000400000002", "weighed 3 0 2 0 3 4"),
    (
        "near error, u(t) for v(t): its X, which is W divided by g",
        "element 030002000304 1 1",
        "read 3 0 2 0 3 4 turned 0 2 0 3 4 3 scaled 3 0 2 0 3 4 digit 0",
    ),
];

/// Of `drills`: which case, and its lines with their answers. (Position 2 and position 1 are refused last of all.)
const DRILLS: &[(&str, &[(&str, &str)])] = &[
    (
        "a session on the tape 3 1 4 2 0 5 1 4 5",
        &[
            ("words 1 2", "count 2 dimension 3"),
            ("open 030104020005010405", "opened"),
            ("request 1 3 3", "taken queries 3 1 4 and 4 1 3"),
            ("ask d:0205 d:0205", "entry 5"),
            ("request 0 3 3", "taken queries 2 0 5 and 3 5 5"),
            ("abandon", "abandoned"),
            ("request 1 3 3", "taken queries 1 4 5 and 2 4 4"),
            (
                "recover 010000000000000000000000000000000000000000000000 000000000000000000000000000000000000000000000000",
                "refused 8 at odds 1 session",
            ),
            ("request 2 3 3", "refused 6 position 2 session queries 9 9 9 and 9 9 9"),
            ("request 1 3 3", "refused 7 spent 0 session queries 9 9 9 and 9 9 9"),
            ("counters", "taken 3 read 1 unread 2 left 0"),
        ],
    ),
    (
        "to the second host the lookup looks as one of position 0 does with the tape 3 2 3",
        &[
            ("words 1 2", "count 2 dimension 3"),
            ("open 030104030203", "opened"),
            ("request 1 3 3", "taken queries 3 1 4 and 4 1 3"),
            ("abandon", "abandoned"),
            ("request 0 3 3", "taken queries 3 2 3 and 4 1 3"),
        ],
    ),
    (
        "what opening and a request refuse, in order",
        &[
            ("words 1 2", "count 2 dimension 3"),
            ("open 000006", "refused 2 digit 2 element"),
            ("open -", "opened"),
            ("", ""),
            ("unit 4", "count 4 dimension 4"),
            ("request 9 2 2", "refused 3 size 4 session queries 9 9 and 9 9"),
            ("", ""),
            ("first 2 unit 5", "count 2 dimension 5"),
            ("request 9 2 2", "refused 3 size 5 session queries 9 9 and 9 9"),
            ("", ""),
            ("words 1 2", "count 2 dimension 3"),
            ("request 9 2 2", "refused 1 length 2 element queries 9 9 and 9 9"),
            ("request 9 3 2", "refused 1 length 2 element queries 9 9 9 and 9 9"),
            ("request 9 3 3", "refused 6 position 9 session queries 9 9 9 and 9 9 9"),
            ("request 1 3 3", "refused 7 spent 0 session queries 9 9 9 and 9 9 9"),
            ("open 0000", "opened"),
            ("request 1 3 3", "refused 7 spent 2 session queries 9 9 9 and 9 9 9"),
            ("open 000000", "opened"),
            ("request 1 3 3", "taken queries 0 0 0 and 1 0 5"),
        ],
    ),
    (
        "what a recovery refuses, in order",
        &[
            ("words 1 2", "count 2 dimension 3"),
            ("open 030104030104030104030104030104030104", "opened"),
            ("request 1 3 3", "taken queries 3 1 4 and 4 1 3"),
            ("", ""),
            ("unit 4", "count 4 dimension 4"),
            ("recover 06 07", "refused 3 size 4 session"),
            ("", ""),
            ("words 1 2", "count 2 dimension 3"),
            ("request 1 3 3", "taken queries 3 1 4 and 4 1 3"),
            ("", ""),
            ("first 2 unit 5", "count 2 dimension 5"),
            ("recover 06 07", "refused 3 size 5 session"),
            ("", ""),
            ("words 1 2", "count 2 dimension 3"),
            ("request 1 3 3", "taken queries 3 1 4 and 4 1 3"),
            ("recover 06 0707", "refused 1 length 1 element"),
            ("request 1 3 3", "taken queries 3 1 4 and 4 1 3"),
            ("recover 010000000000000000000000000000000000000000000006 0707", "refused 1 length 2 element"),
            ("request 1 3 3", "taken queries 3 1 4 and 4 1 3"),
            (
                "recover 010000000000000000000000000000000000000000000006 000000000000000000000700000000000000000000000000",
                "refused 2 digit 23 element",
            ),
            ("request 1 3 3", "taken queries 3 1 4 and 4 1 3"),
            (
                "recover 010000000000000000000000000000000000000000000000 000000000000000000000700000000000000000000000000",
                "refused 2 digit 10 element",
            ),
            ("counters", "taken 6 read 0 unread 6 left 0"),
        ],
    ),
];

/// The key to the lookup of the worked cases, as the page has it: the gate holds the program to the same text.
const KEY: &str = include_str!("../../../crates/key/stdout");

/// Of the other programs: which case, the program, its input and what it prints.
const PROGRAMS: &[(&str, &str, &str, &str)] = &[
    ("the lookup", "lookup", "1 2\n1\n2 5\n3 1 4\n", "position 1\nfirst 3 1 4\nsecond 4 1 3\ncarried 54\nentry 5\n"),
    ("the lookup's working", "key", "1 2\n1\n2 5\n3 1 4\n", KEY),
    ("near error, one too far: position n", "lookup", "1 2\n2\n2 5\n3 1 4\n", "refused 6\n"),
    ("near error, one too far: k - 1 tape digits", "lookup", "1 2\n1\n2 5\n3 1\n", "refused 7\n"),
    ("near error, six letters", "lookup", "6 2\n1\n2 5\n3 1 4\n", "refused 3\n"),
    (
        "the smallest book of words",
        "checkbook",
        "\0\x03\0\0\0\x02\x01\x01\0\x01\0\x01\0\0\0\x02\x01\x05\0\x01\0\x05",
        "dimension 3\npositions 2\npairs 4\naccepted\n",
    ),
    (
        "the book that breaks the rule at 0 and 1",
        "checkbook",
        "\0\x03\0\0\0\x02\x01\x01\0\x01\0\x01\0\0\0\x02\x01\x05\0\x02\0\x05",
        "dimension 3\npositions 2\npairs 2\nrefused 5 unmatched 0 1\n",
    ),
    (
        "near error, i < j alone",
        "checkbook",
        "\0\x02\0\0\0\x02\x01\0\0\x01\0\0\0\x02\0\x02\x01\0",
        "dimension 2\npositions 2\npairs 3\nrefused 5 unmatched 1 0\n",
    ),
];

pub fn all() -> Vec<Printed> {
    let trials = TRIALS.iter().map(|(name, line, answer)| Printed {
        name,
        program: "trials",
        input: format!("{line}\n"),
        wanted: format!("{answer}\n"),
    });
    let drills = DRILLS.iter().map(|(name, lines)| Printed {
        name,
        program: "drills",
        input: lines.iter().map(|(line, _)| format!("{line}\n")).collect(),
        wanted: lines.iter().filter(|(line, _)| !line.is_empty()).map(|(_, answer)| format!("{answer}\n")).collect(),
    });
    let programs = PROGRAMS.iter().map(|(name, program, input, wanted)| Printed {
        name,
        program,
        input: input.to_string(),
        wanted: wanted.to_string(),
    });
    trials.chain(drills).chain(programs).collect()
}
