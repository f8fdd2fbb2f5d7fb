//! The program `checkbook`: a line for each thing found in a book.

use crate::family::examine;

/// What it prints for a book's bytes.
pub fn print(input: &[u8]) -> String {
    let found = examine(input);
    let fields = [
        ("dimension", found.dimension),
        ("positions", found.positions),
        ("pairs", found.pairs),
    ];
    let mut lines = String::new();
    for (name, number) in fields {
        if let Some(number) = number {
            lines += &format!("{name} {number}\n");
        }
    }
    lines
        + &match found.outcome {
            Ok(_) => "accepted\n".to_string(),
            Err(fault) => format!("refused {}\n", fault.cause),
        }
}
