//! damaged SEED COUNT: prints the unit's check of damaged images, number and place and the image a line, for
//! oracle.tests.damaged_images.
use oracle::{generate, unit};

fn main() {
    let mut numbers = std::env::args().skip(1).map(|word| word.parse::<u64>().expect("a number"));
    let (Some(seed), Some(count)) = (numbers.next(), numbers.next()) else {
        eprintln!("damaged SEED COUNT");
        std::process::exit(2)
    };
    for item in 0..count {
        let image = generate::damaged(seed, item);
        let line = unit::check(&image).into_iter().chain(image).map(|word| word.to_string());
        println!("{}", line.collect::<Vec<_>>().join(" "));
    }
}
