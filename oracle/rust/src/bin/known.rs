//! K1 to K10 of document 01, by the published linearizer and, with feature `unit`, by ours: prints each listing and
//! stops at one that is not as said.
use oracle::{listing, published};

const K1: [u64; 54] = [
    54, 1, 0, 1, 2, 1, 4, 1, 5, 2, 1, 1, 1, 2, 1, 3, 0, 0, 0, 0, 2, 1, 2, 0, 0, 1, 3, 4, 0, 3, 0, 0, 0, 1, 0, 2, 0, 0,
    2, 0, 0, 0, 2, 2, 0, 7, 0, 1, 3, 0, 0, 2, 0, 0,
];

/// One U on a qubit; the last of the expressions is its first angle, the first its others.
fn u(expressions: &[[u64; 3]]) -> Vec<u64> {
    let last = expressions.len() as u64 - 1;
    let mut words = vec![0, 1, 0, 0, 1, 0, 1, 0, expressions.len() as u64, 1, 1, last, 0, 0, 0, 0, 0];
    words.extend(expressions.iter().flatten());
    words[0] = words.len() as u64;
    words
}

/// CX q[1],q with q of size 3.
const K3: [u64; 19] = [19, 1, 0, 0, 1, 0, 2, 0, 0, 3, 2, 0, 1, 0, 0, 0, 2, 0, 0];
const K10: [u64; 9] = [9, 0, 0, 0, 0, 0, 0, 0, 0];

const ZERO: [u64; 3] = [2, 0, 0];
const PI: [u64; 3] = [0, 0, 0];

fn integer(number: u64) -> [u64; 3] {
    [2, number, 0]
}

fn real(value: f32) -> [u64; 3] {
    [1, value.to_bits() as u64, 0]
}

fn main() {
    let angle = |n: u64, d: u64| format!("0 1 0 0 0\n1 {n} {d} 0 1 0 1 0 1 0 1 0 1 0\ndone 2\n");
    // The place of the n-th expression.
    let refused = |number: u64, n: u64, bits: u64| format!("0 1 0 0 0\nrefused {number} {} {bits}\n", 17 + 3 * n);
    let two_to = |exponent: i32| 2f32.powi(exponent);
    let table = [
        (
            "K1",
            8,
            K1.to_vec(),
            "0 2 0 0 0 0 1\n1 0 1 1 2 0 1 0 1 0 1 1 1 0\n1 0 1 1 2 0 1 0 1 0 1 1 1 1\n2 0 1\ndone 4\n".into(),
        ),
        ("K2", 1, K1.to_vec(), "0 2 0 0 0 0 1\n3 0 0 1 0\n3 0 0 1 1\n2 0 1\ndone 4\n".into()),
        ("K3", 8, K3.to_vec(), "0 3 0 0 0 0 1 0 2\n2 1 0\nrefused 12 15 17\n".into()),
        ("K4", 8, u(&[ZERO, integer(8), integer(2), integer(3), [7, 2, 3], [8, 1, 4]]), angle(4, 1)),
        ("K5", 8, u(&[ZERO, integer(1), integer(2), [7, 1, 2], [9, 3, 0], [8, 0, 4]]), refused(9, 5, 0)),
        ("K6", 8, u(&[ZERO, PI, integer(3), [7, 1, 2], [11, 3, 0]]), angle(1, 2)),
        ("K7", 8, u(&[ZERO, PI, integer(2), [7, 1, 2], [12, 3, 0]]), refused(13, 4, 0)),
        ("K7", 8, u(&[ZERO, PI, integer(2), [7, 1, 2], [9, 3, 0], [12, 4, 0]]), refused(9, 5, 0)),
        ("K8", 8, u(&[ZERO, real(two_to(62))]), angle(1 << 62, 1)),
        ("K8", 8, u(&[ZERO, real(two_to(63))]), refused(10, 1, two_to(63).to_bits() as u64)),
        ("K9", 8, u(&[ZERO, real(two_to(-62))]), angle(1, 1 << 62)),
        ("K9", 8, u(&[ZERO, real(two_to(-63))]), refused(10, 1, two_to(-63).to_bits() as u64)),
        ("K10", 8, K10.to_vec(), "done 0\n".into()),
    ];
    for (name, depth, words, said) in table {
        let found = listing(&published::run(&words, depth, 8192, 1000).unwrap().outcome);
        #[cfg(feature = "unit")]
        let found = {
            let ours = oracle::unit::run(&mut oracle::random::Random::new(1, 1), &words, depth, 8192, 256).unwrap();
            if listing(&ours) == found {
                found
            } else {
                format!("{found}but ours is\n{}", listing(&ours))
            }
        };
        print!("{name}\n{found}");
        if found != said {
            println!("but document 01 says\n{said}");
            std::process::exit(1);
        }
    }
}
