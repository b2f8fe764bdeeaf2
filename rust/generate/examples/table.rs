//! Runs cases on the reference and prints how often each answer of each call is met: `table [cases [seed]]`.

use generate::counts::Counts;
use generate::Generator;

fn main() {
    let mut arguments = std::env::args().skip(1).map(|argument| argument.parse::<u64>().expect("a number"));
    let cases = arguments.next().unwrap_or(200_000);
    let mut generator = Generator::new(arguments.next().unwrap_or(1));
    let mut counts = Counts::default();
    for _ in 0..cases {
        let case = generator.case();
        counts.add(&case, &case.run());
    }
    print!("{}", counts.table());
}
