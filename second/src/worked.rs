//! The worked cases and near errors of the documentation, through the calls and the programs.

use crate::calls;
use crate::programs;

/// What a program prints, as text.
fn text(program: fn(&[u8]) -> Vec<u8>, input: &[u8]) -> String {
    String::from_utf8(program(input)).unwrap()
}

/// The lookup of the worked cases, with another tape or position.
fn request(position: u32, tape: &[u8]) -> Result<([u8; 3], [u8; 3], u8), u32> {
    let (mut first, mut second, mut shift) = ([9; 3], [9; 3], [9]);
    match calls::request(1, 2, position, tape, &mut first, &mut second, &mut shift) {
        0 => Ok((first, second, shift[0])),
        number => {
            assert_eq!((first, second, shift), ([9; 3], [9; 3], [9]));
            Err(number)
        }
    }
}

/// The sheet of a table of words h = 1, q = 2.
fn sheet(table: [u8; 2], query: [u8; 3]) -> [u8; 24] {
    let mut sheet = [0; 24];
    assert_eq!(calls::answer(1, 2, &table, &query, &mut sheet), 0);
    sheet
}

#[test]
fn the_worked_lookup() {
    let (first, second, shift) = request(1, &[3, 1, 4]).unwrap();
    assert_eq!((first, second, shift), ([3, 1, 4], [4, 1, 3], 1));
    let one = sheet([2, 5], first);
    let two = sheet([2, 5], second);
    let elements = [
        [0, 5, 0, 0, 2, 0],
        [0, 5, 0, 0, 2, 0],
        [0, 0, 0, 0, 2, 0],
        [0, 5, 0, 0, 0, 0],
    ];
    assert_eq!(one.to_vec(), elements.concat());
    let mut entry = [9];
    assert_eq!(calls::recover(1, 2, 1, &[shift], &one, &two, &mut entry), 0);
    assert_eq!(entry, [5]);
}

#[test]
fn every_entry_is_read() {
    for table in (0..36).map(|t| [t / 6, t % 6]) {
        for tape in (0..216).map(|z| [z / 36, z / 6 % 6, z % 6]) {
            for position in 0..2 {
                let (first, second, shift) = request(position, &tape).unwrap();
                let (one, two) = (sheet(table, first), sheet(table, second));
                let mut entry = [9];
                let number = calls::recover(1, 2, position, &[shift], &one, &two, &mut entry);
                assert_eq!((number, entry[0]), (0, table[position as usize]));
            }
        }
    }
}

#[test]
fn another_position_looks_the_same() {
    let (_, second, _) = request(1, &[3, 1, 4]).unwrap();
    assert_eq!(request(0, &[3, 2, 3]).unwrap().1, second);
}

#[test]
fn one_too_far() {
    assert_eq!(request(2, &[0; 3]), Err(6));
    assert_eq!(request(u32::MAX, &[0; 3]), Err(6));
    assert_eq!(request(2, &[9; 2]), Err(6));
    assert_eq!(request(1, &[9; 2]), Err(7));
    assert_eq!(request(1, &[0, 0, 0, 6]), Err(2));
}

#[test]
fn a_request_refuses_in_order() {
    let try_out = |h, q, rows: [usize; 3]| {
        let [mut a, mut b, mut c] = rows.map(|len| vec![9; len]);
        calls::request(h, q, 9, &[9], &mut a, &mut b, &mut c)
    };
    assert_eq!(try_out(0, 0, [0, 0, 0]), 3);
    assert_eq!(try_out(6, 2, [0, 0, 0]), 3);
    assert_eq!(try_out(u32::MAX, u32::MAX, [0, 0, 0]), 3);
    assert_eq!(try_out(1, 17, [0, 0, 0]), 3);
    assert_eq!(try_out(1, 2, [4, 3, 1]), 1);
    assert_eq!(try_out(1, 2, [3, 2, 1]), 1);
    assert_eq!(try_out(1, 2, [3, 3, 2]), 1);
    assert_eq!(try_out(1, 2, [3, 3, 1]), 6);
}

#[test]
fn an_answer_refuses_in_order() {
    let try_out = |h, table: &[u8], query: &[u8], sheet: &[u8]| {
        let mut after = sheet.to_vec();
        let number = calls::answer(h, 2, table, query, &mut after);
        assert_eq!(after, sheet);
        number
    };
    assert_eq!(try_out(6, &[9], &[9], &[9]), 3);
    assert_eq!(try_out(1, &[], &[9], &[9]), 3);
    assert_eq!(try_out(1, &[0; 1_048_577], &[9], &[9]), 3);
    assert_eq!(try_out(1, &[9; 3], &[9], &[9]), 2);
    assert_eq!(try_out(1, &[1; 3], &[9], &[9]), 3);
    assert_eq!(try_out(1, &[1; 2], &[9], &[9; 24]), 1);
    assert_eq!(try_out(1, &[1; 2], &[9; 3], &[9]), 1);
    assert_eq!(try_out(1, &[1; 2], &[9; 3], &[0; 24]), 2);
    assert_eq!(try_out(1, &[1; 2], &[5; 3], &[9; 24]), 2);
}

#[test]
fn a_recovery_refuses_in_order() {
    let try_out = |h, position, rows: [&[u8]; 3], room: usize| {
        let mut entry = vec![9; room];
        let [shift, one, two] = rows;
        let number = calls::recover(h, 2, position, shift, one, two, &mut entry);
        assert_eq!(entry, vec![9; room]);
        number
    };
    let (good, bad): (&[u8], &[u8]) = (&[0; 24], &[6; 24]);
    assert_eq!(try_out(0, 2, [&[], &[], &[]], 0), 3);
    assert_eq!(try_out(1, 2, [&[], bad, bad], 1), 1);
    assert_eq!(try_out(1, 2, [&[6], &[], bad], 1), 1);
    assert_eq!(try_out(1, 2, [&[6], bad, &[]], 1), 1);
    assert_eq!(try_out(1, 2, [&[6], bad, bad], 2), 1);
    assert_eq!(try_out(1, 2, [&[6], bad, bad], 1), 6);
    assert_eq!(try_out(1, 1, [&[6], good, good], 1), 2);
    assert_eq!(try_out(1, 1, [&[5], bad, good], 1), 2);
    assert_eq!(try_out(1, 1, [&[5], good, bad], 1), 2);
    let mut odd = [0; 24];
    odd[0] = 1;
    assert_eq!(try_out(1, 1, [&[0], &odd, good], 1), 8);
}

#[test]
fn sheets_that_come_to_c1_are_at_odds() {
    // The value 1 alone gives W = C1.
    let (mut one, two, mut entry) = ([0; 24], [0; 24], [9]);
    one[0] = 1;
    assert_eq!(calls::recover(1, 2, 0, &[0], &one, &two, &mut entry), 8);
}

/// Reads the entries at some positions of a table of words, each with a lookup from end to end.
fn look_up(h: u32, q: u32, positions: &[u32]) {
    let k = (1 + h * q + h * (h - 1) / 2 * q * q) as usize;
    let table: Vec<u8> = (0..q.pow(h))
        .map(|i| (i % 997 * (i % 31) % 6) as u8)
        .collect();
    let tape: Vec<u8> = (0..k).map(|c| (c * c % 37 % 6) as u8).collect();
    for &position in positions {
        let (mut first, mut second, mut shift) = (vec![9; k], vec![9; k], [9]);
        let number = calls::request(h, q, position, &tape, &mut first, &mut second, &mut shift);
        assert_eq!(number, 0);
        let mut sheets = [vec![0; 6 * (1 + k)], vec![0; 6 * (1 + k)]];
        for (sheet, query) in sheets.iter_mut().zip([&first, &second]) {
            assert_eq!(calls::answer(h, q, &table, query, sheet), 0);
        }
        let [one, two] = &sheets;
        let mut entry = [9];
        let number = calls::recover(h, q, position, &shift, one, two, &mut entry);
        assert_eq!((number, entry[0]), (0, table[position as usize]));
    }
}

#[test]
fn larger_lookups() {
    look_up(4, 5, &[0, 1, 77, 312, 624]);
    look_up(5, 3, &[0, 1, 77, 242]);
    look_up(2, 16, &[0, 17, 255]);
}

#[test]
#[ignore = "goes through a million positions with 2,641 coordinates, twice"]
fn the_largest_lookup() {
    look_up(5, 16, &[1_048_573]);
}

/// The lines of the examples.
const EXAMPLE: &[u8] = b"1 2\n1\n2 5\n3 1 4\n";

#[test]
fn lookup_as_documented() {
    let printed = "position 1\nfirst 3 1 4\nsecond 4 1 3\ncarried 54\nentry 5\n";
    assert_eq!(text(programs::lookup, EXAMPLE), printed);
    assert_eq!(text(programs::lookup, &EXAMPLE[..15]), printed);
    assert_eq!(text(programs::key, b"1 2\n"), "refused 1\n");
}

#[test]
fn lookup_refuses_in_order() {
    let refused = |input: &[u8], number: u32| {
        for program in [programs::lookup, programs::key] {
            assert_eq!(text(program, input), format!("refused {number}\n"));
        }
    };
    refused(b"1 2\n1\n2 5\n", 7);
    refused(b"6 2\n1\n\n9", 3);
    refused(b"1 2\n1\n\n9", 3);
    refused(b"1 2\n1\n6\n9", 2);
    refused(b"1 2\n2\n1 1 1\n9", 2);
    refused(b"1 2\n2\n1 1 1\n256", 2);
    refused(b"1 2\n2\n1 1 1\n5", 3);
    refused(b"1 2\n2\n1 1\n5", 6);
    refused(b"1 2\n1\n1 1\n5 5", 7);
    refused(b"1 2\n1\n1 1\n5 5 5 5 6", 2);
}

#[test]
fn key_as_documented() {
    let printed = "\
position        1
tape digits     3 1 4
shift           1
first query     3 1 4
second query    4 1 3
first sheet
  value         0 5 0 0 2 0
  element 0     0 5 0 0 2 0
  element 1     0 0 0 0 2 0
  element 2     0 5 0 0 0 0
second sheet
  value         0 5 0 0 0 2
  element 0     0 5 0 0 0 2
  element 1     0 0 0 0 0 2
  element 2     0 5 0 0 0 0
Y1              0 5 0 0 2 0
Y2              0 0 0 0 2 0
Y3              0 5 0 0 0 2
Y4              0 0 0 0 0 2
W               3 0 4 0 3 2
X               0 4 0 3 2 3
entry           5
carried         54
";
    assert_eq!(text(programs::key, EXAMPLE), printed);
}

#[test]
fn key_goes_on_in_further_lines() {
    let input = format!(
        "3 3\n26\n{}\n{}\n",
        ["5"; 27].join(" "),
        ["1"; 37].join(" ")
    );
    let printed = text(programs::key, input.as_bytes());
    let lines: Vec<&str> = printed.lines().collect();
    assert_eq!(lines[1], format!("tape digits    {}", " 1".repeat(30)));
    assert_eq!(lines[2], format!("               {}", " 1".repeat(7)));
    assert_eq!(lines[3], "shift           1");
    assert!(printed.ends_with("entry           5\ncarried         530\n"));
}

/// The smallest book of words.
const SMALLEST: [u8; 22] = [
    0, 3, 0, 0, 0, 2, 1, 1, 0, 1, 0, 1, 0, 0, 0, 2, 1, 5, 0, 1, 0, 5,
];

#[test]
fn checkbook_as_documented() {
    let printed = text(programs::checkbook, &SMALLEST);
    assert_eq!(printed, "dimension 3\npositions 2\npairs 4\naccepted\n");
    let wrong = [0, 2, 0, 0, 0, 2, 1, 0, 0, 1, 0, 0, 0, 2, 0, 2, 1, 0];
    let printed = text(programs::checkbook, &wrong);
    assert_eq!(
        printed,
        "dimension 2\npositions 2\npairs 3\nrefused 5 unmatched 1 0\n"
    );
    let wrong = [0, 2, 0, 0, 0, 2, 1, 0, 0, 1, 0, 0, 0, 2, 0, 1, 0, 0];
    let printed = text(programs::checkbook, &wrong);
    assert_eq!(
        printed,
        "dimension 2\npositions 2\npairs 2\nrefused 5 unmatched 0 1\n"
    );
    assert_eq!(text(programs::checkbook, &[]), "refused 1 length 0\n");
    let printed = text(programs::checkbook, &SMALLEST[..7]);
    assert_eq!(printed, "dimension 3\npositions 2\nrefused 1 length 7\n");
}
