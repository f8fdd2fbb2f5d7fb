//! Books: of words and of small random families, as they should be or damaged.

use crate::random::Random;
use crate::sizes::Sizes;

/// Vectors u and v of each position, before they are written as a book.
pub struct Vectors {
    pub u: Vec<Vec<u8>>,
    pub v: Vec<Vec<u8>>,
}

/// What a book says of itself.
pub struct Said {
    pub dimension: u16,
    pub count: u32,
    pub again: u32,
}

/// The input of a case. First comes a sound book of the most positions; then every third is sound, every
/// third has wrong vectors or fields, and every third has damaged bytes.
pub fn input(random: &mut Random, number: u64) -> Vec<u8> {
    if number == 0 {
        let most = words(Sizes { h: 5, q: 4 });
        return most.written(&most.said());
    }
    let mut vectors = some(random);
    let mut said = vectors.said();
    if number % 3 == 1 {
        match random.below(2) {
            0 => change_digit(random, &mut vectors),
            _ => wrong_field(random, &mut said),
        }
    }
    let mut bytes = vectors.written(&said);
    if number % 3 == 2 {
        for _ in 0..random.between(1, 2) {
            damage(random, &mut bytes);
        }
    }
    match random.below(100) {
        0 => large(random),
        _ => bytes,
    }
}

impl Vectors {
    pub fn said(&self) -> Said {
        let count = self.u.len() as u32;
        Said { dimension: self.u.first().map_or(1, Vec::len) as u16, count, again: count }
    }

    pub fn written(&self, said: &Said) -> Vec<u8> {
        [
            said.dimension.to_be_bytes().to_vec(),
            said.count.to_be_bytes().to_vec(),
            self.u.concat(),
            said.again.to_be_bytes().to_vec(),
            self.v.concat(),
        ]
        .concat()
    }
}

/// A sound book, or a small one of random digits, which mostly breaks the rule.
pub fn some(random: &mut Random) -> Vectors {
    match random.below(8) {
        0 => random_vectors(random),
        1 | 2 => found(random),
        3 => unit(random.between(1, 24)),
        _ => words(Sizes::some(random, 3000)),
    }
}

/// A book of words.
fn words(sizes: Sizes) -> Vectors {
    let word = |t: usize| -> Vec<usize> {
        let digits = |place: u32| t / (sizes.q as usize).pow(sizes.h - 1 - place) % sizes.q as usize;
        (0..sizes.h).map(digits).collect()
    };
    let weights = [[1, 5, 0], [4, 3, 2], [3, 1, 2], [4, 5, 2], [1, 3, 2]][sizes.h as usize - 1];
    let all: Vec<(Vec<u8>, Vec<u8>)> = (0..sizes.positions()).map(|t| word_vectors(&word(t), sizes.q as usize, weights)).collect();
    let (u, v) = all.into_iter().unzip();
    Vectors { u, v }
}

/// Coordinates for no place, one place and two places, with a weight for each.
fn word_vectors(word: &[usize], q: usize, weights: [u8; 3]) -> (Vec<u8>, Vec<u8>) {
    let mut v = vec![weights[0]];
    for letter in word {
        v.extend((0..q).map(|c| if c == *letter { weights[1] } else { 0 }));
    }
    for i in 0..word.len() {
        for j in i + 1..word.len() {
            v.extend((0..q * q).map(|c| if c == word[i] * q + word[j] { weights[2] } else { 0 }));
        }
    }
    let u = v.iter().map(|weight| u8::from(*weight != 0)).collect();
    (u, v)
}

fn unit(n: usize) -> Vectors {
    let vector = |i: usize, at: u8, elsewhere: u8| (0..n).map(|c| if c == i { at } else { elsewhere }).collect::<Vec<u8>>();
    Vectors { u: (0..n).map(|i| vector(i, 1, 0)).collect(), v: (0..n).map(|i| vector(i, 0, 1)).collect() }
}

fn random_vectors(random: &mut Random) -> Vectors {
    let (n, k) = (random.between(1, 4), random.between(1, 5));
    let mut rows = || (0..n).map(|_| random.digits(k)).collect();
    Vectors { u: rows(), v: rows() }
}

fn product(u: &[u8], v: &[u8]) -> u32 {
    u.iter().zip(v).map(|(a, b)| u32::from(*a) * u32::from(*b)).sum::<u32>() % 6
}

/// Vectors found by trying, that keep the rule and are of no other kind.
fn found(random: &mut Random) -> Vectors {
    let (n, k) = (random.between(1, 5), random.between(2, 6));
    let mut vectors = Vectors { u: Vec::new(), v: Vec::new() };
    for _ in 0..4000 {
        if vectors.u.len() == n {
            break;
        }
        let (u, v) = (random.digits(k), random.digits(k));
        let fits = |i: usize| [product(&vectors.u[i], &v), product(&u, &vectors.v[i])].iter().all(|p| [1, 3, 4].contains(p));
        if product(&u, &v) == 0 && (0..vectors.u.len()).all(fits) {
            vectors.u.push(u);
            vectors.v.push(v);
        }
    }
    if vectors.u.is_empty() {
        return unit(n);
    }
    vectors
}

/// Another digit in one vector, so that most often some pair breaks the rule.
fn change_digit(random: &mut Random, vectors: &mut Vectors) {
    let rows = if random.once_in(2) { &mut vectors.u } else { &mut vectors.v };
    let row = random.below(rows.len());
    let place = random.below(rows[row].len());
    rows[row][place] = (rows[row][place] + random.between(1, 5) as u8) % 6;
}

fn wrong_field(random: &mut Random, said: &mut Said) {
    let counts = [0, 1, said.count.wrapping_sub(1), said.count + 1, 256, 1023, 1024, 1025, 65_536, 1 << 24, u32::MAX];
    match random.below(3) {
        0 => said.dimension = *random.pick(&[0, 1, said.dimension - 1, said.dimension + 1, 255, 256, 4095, 4096, 4097, 65_535]),
        1 => said.count = *random.pick(&counts),
        _ => said.again = *random.pick(&counts),
    }
}

fn damage(random: &mut Random, bytes: &mut Vec<u8>) {
    if bytes.is_empty() {
        return;
    }
    let place = random.below(bytes.len());
    match random.below(8) {
        0 => bytes.truncate(place),
        1 => bytes.truncate(bytes.len() - 1),
        2 => drop(bytes.remove(place)),
        3 => bytes.insert(place, *random.pick(&[0, 1, 5, 6, 255])),
        4 => bytes.extend(*random.pick(&[&[0][..], &[1, 2, 3], &[6], &[255, 255]])),
        5 => bytes[place] = *random.pick(&[6, 7, 255]),
        6 => bytes[place] = random.digit(),
        _ => bytes[place] = random.next() as u8,
    }
}

/// A book at the limits of the counts or of the dimension.
fn large(random: &mut Random) -> Vec<u8> {
    let (n, k) = *random.pick(&[(1024, 1), (1025, 1), (1023, 2), (1, 4096), (1, 4097), (2, 4096), (3, 4095), (1024, 12)]);
    let mut rows = vec![vec![0; k]; n];
    let row = random.below(n);
    let place = random.below(k);
    rows[row][place] = *random.pick(&[0, 1, 5, 6]);
    let vectors = Vectors { u: rows.clone(), v: rows };
    vectors.written(&Said { dimension: k as u16, count: n as u32, again: n as u32 })
}
