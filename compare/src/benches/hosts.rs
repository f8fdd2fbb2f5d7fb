//! Hosts as the lines of `drills` name them.

use super::rows::row;
use crate::random::Random;

/// A host of a table: dense, of changes, or the sum of up to four.
pub fn of_table(random: &mut Random, table: &[u8]) -> String {
    let parts = random.between(1, 4);
    let mut rest = table.to_vec();
    let mut texts = Vec::new();
    for _ in 1..parts {
        let part = random.digits(table.len());
        rest.iter_mut().zip(&part).for_each(|(left, digit)| *left = (*left + 6 - digit) % 6);
        texts.push(single(random, &part));
    }
    texts.push(single(random, &rest));
    texts.join("+")
}

fn single(random: &mut Random, table: &[u8]) -> String {
    let n = table.len();
    let held: Vec<(usize, u8)> = table.iter().copied().enumerate().filter(|(_, digit)| *digit != 0).collect();
    let all_alike = table.iter().all(|digit| *digit == table[0]);
    match random.below(3) {
        0 if all_alike => format!("r:{n}:{}", row(&table[..1])),
        1 if held.len() <= 60 => changes(random, n, held),
        2 => format!("r:{n}:{}", row(table)),
        _ => format!("d:{}", row(table)),
    }
}

/// A change host; some changes are first set to another digit, and some of digit 0 are held.
fn changes(random: &mut Random, n: usize, held: Vec<(usize, u8)>) -> String {
    let mut settings: Vec<String> = Vec::new();
    for (position, digit) in &held {
        if random.once_in(4) {
            settings.push(format!("{position}={}", random.digit()));
        }
        if random.once_in(6) {
            settings.insert(0, format!("{position}={}", random.digit()));
        }
        settings.push(format!("{position}={digit}"));
    }
    match settings.is_empty() {
        true => format!("c:{n}"),
        false => format!("c:{n}:{}", settings.join(",")),
    }
}

/// A host that is refused, or is none, or has another count.
pub fn flawed(random: &mut Random, n: usize) -> String {
    let table = random.digits(n);
    match random.below(11) {
        0 => {
            let other = random.digits(n + 1);
            of_table(random, &other)
        }
        1 => format!("d:{}", row(&random.digits(n + 2))),
        2 => bad_digit(random, table),
        3 => format!("c:{n}:{n}={}", random.digit()),
        4 => format!("c:{n}:0{}", random.pick(&["=6", "=255", "=x", "=", ""])),
        5 => format!("c:{n}:0=1,0=2,{n}=6"),
        6 => format!("{}+d:{}", of_one(&table), row(&random.digits(n + 1))),
        7 => many_changes(random),
        8 => random.pick(&["r:0:00", "r:1048577:00", "r:7:00000000000006", "c:0", "c:1048577", "c:18446744073709551615", "d:"]).to_string(),
        9 => random.pick(&["c:1048576", "r:1048576:05", "c:1048576:1048575=5,0=1", "c:x"]).to_string(),
        _ => random.pick(&["d", "c", "x:00", "d:00:00", "r:2", "c:1:0=0:0=0", "c:1+c:1+c:1+c:1+c:1", "e:1", "D:00"]).to_string(),
    }
}

fn of_one(table: &[u8]) -> String {
    format!("d:{}", row(table))
}

fn bad_digit(random: &mut Random, mut table: Vec<u8>) -> String {
    let place = random.below(table.len());
    table[place] = *random.pick(&[6, 255]);
    of_one(&table)
}

/// As many changes as are held, or one more.
fn many_changes(random: &mut Random) -> String {
    let many = random.between(63, 66);
    let settings: Vec<String> = (0..many).map(|i| format!("{}={}", i * 3, random.digit())).collect();
    format!("c:500:{}", settings.join(","))
}

/// A line that gives a change host tasks, one after the other.
pub fn change_line(random: &mut Random) -> String {
    let n = *random.pick(&[1, 2, 5, 8, 70, 1000, 1_048_576]);
    let many = *random.pick(&[3, 8, 20, 150]);
    let mut line = format!("change {}", random.pick(&[n, n, n, n, n, n, n, 0, 1_048_577]));
    for _ in 0..many {
        let position = match random.below(12) {
            0 => n,
            1 => n - 1,
            _ => random.below(n.min(90)),
        };
        line += &match random.below(10) {
            0 => " all".to_string(),
            1 | 2 => format!(" {position}"),
            3 => format!(" {position}={}", random.pick(&["6", "0", "255", "x"])),
            _ => format!(" {position}={}", random.digit()),
        };
    }
    line + " all"
}

/// A line that asks a dense host for entries.
pub fn dense_line(random: &mut Random) -> String {
    let n = random.below(12);
    let mut table = random.digits(n);
    if n > 0 && random.once_in(6) {
        table[random.below(n)] = *random.pick(&[6, 255]);
    }
    let positions: Vec<String> = (0..random.below(6)).map(|_| random.below(n + 2).to_string()).collect();
    let end = random.pick(&["", "", " 18446744073709551615", " x"]).to_string();
    let positions = positions.iter().map(|position| format!(" {position}")).collect::<String>();
    format!("dense {}{positions}{end}", row(&table))
}
