//! The near errors that are wrong ways to reckon: each way, on the page's own numbers, gives what the page says, which is not right.

/// Which way, and whether it comes to what the page says of it.
pub fn all() -> Vec<(&'static str, Result<(), String>)> {
    vec![
        ("six letters", six_letters()),
        ("every nonzero W as 1", nonzero_as_one()),
        ("i < j alone", later_partners_alone()),
        ("u(t) for v(t)", u_for_v()),
    ]
}

fn is(what: &str, found: bool) -> Result<(), String> {
    if found {
        Ok(())
    } else {
        Err(format!("it is not so that {what}"))
    }
}

/// Of six letters that all differ the product would be that of equal words.
fn six_letters() -> Result<(), String> {
    let products: Vec<u32> = (0..=6).map(|apart| apart * apart % 6).collect();
    is("six letters apart give 0, and fewer do not", products == [0, 1, 4, 3, 4, 1, 0])
}

type Six = [u32; 6];

const D: Six = [0, 2, 0, 3, 4, 3];

fn nonzero_as_one() -> Result<(), String> {
    let read = |x: Six| u32::from(x != [0; 6]);
    let lost: Vec<u32> = (0..6).filter(|entry| read(D.map(|d| entry * d % 6)) != *entry).collect();
    is("the entries 2 to 5 are lost", lost == [2, 3, 4, 5])
}

/// The book that keeps the rule for every i <= j and breaks it at 1 and 0.
fn later_partners_alone() -> Result<(), String> {
    let (u, v) = ([[1, 0], [0, 1]], [[0, 2], [1, 0]]);
    let fits = |i: usize, j: usize| {
        let product = (u[i][0] * v[j][0] + u[i][1] * v[j][1]) % 6;
        if i == j {
            product == 0
        } else {
            [1, 3, 4].contains(&product)
        }
    };
    is("it would be accepted", fits(0, 0) && fits(1, 1) && fits(0, 1))?;
    is("1 and 0 break the rule", !fits(1, 0))
}

/// The elements of the two sheets of the lookup with table 2 5, position 1 and tape 3 1 4, and their values.
const ELEMENTS: [[Six; 3]; 2] =
    [[[0, 5, 0, 0, 2, 0], [0, 0, 0, 0, 2, 0], [0, 5, 0, 0, 0, 0]], [[0, 5, 0, 0, 0, 2], [0, 0, 0, 0, 0, 2], [0, 5, 0, 0, 0, 0]]];
const VALUES: [Six; 2] = [[0, 5, 0, 0, 2, 0], [0, 5, 0, 0, 0, 2]];
const WEIGHTS: [Six; 4] = [[0, 1, 0, 0, 2, 3], [0, 5, 0, 0, 4, 3], [0, 1, 0, 3, 2, 0], [0, 5, 0, 3, 4, 0]];

fn u_for_v() -> Result<(), String> {
    let by = |vector: [u32; 3]| {
        let [y2, y4] = ELEMENTS.map(|sheet| slope(vector, sheet));
        (y2, y4, turned(weighed([VALUES[0], y2, VALUES[1], y4])))
    };
    let (right, wrong) = (by([1, 0, 5]), by([1, 0, 1]));
    is("v(1) gives 5 D", right.2 == D.map(|d| 5 * d % 6))?;
    is("u(1) gives the page's Y2 and Y4", (wrong.0, wrong.1) == ([0, 4, 0, 0, 2, 0], [0, 4, 0, 0, 0, 2]))?;
    is("u(1) gives D, which is read as 1", wrong.2 == D)
}

fn slope(vector: [u32; 3], sheet: [Six; 3]) -> Six {
    std::array::from_fn(|r| (0..3).map(|c| vector[c] * sheet[c][r]).sum::<u32>() % 6)
}

fn weighed(four: [Six; 4]) -> Six {
    let mut w = [0; 6];
    for (weight, y) in WEIGHTS.iter().zip(four) {
        for i in 0..6 {
            for j in 0..6 {
                w[(i + j) % 6] += weight[i] * y[j];
            }
        }
    }
    w.map(|digit| digit % 6)
}

/// Divided by g to the power of the shift, which is 1.
fn turned(w: Six) -> Six {
    std::array::from_fn(|r| w[(r + 1) % 6])
}
