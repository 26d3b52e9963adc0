//! Runs the library on two orders of random lists. README.md says what is compared.
fn main() {
    use harness::orders::{layout_holds, one};
    use harness::random::Rng;
    let word = |name: &str, other: u64| {
        let all: Vec<String> = std::env::args().collect();
        let at = all.iter().position(|w| w == name);
        at.map_or(other, |at| all.get(at + 1).and_then(|w| w.parse().ok()).expect("a number"))
    };
    let clock = std::time::SystemTime::now().duration_since(std::time::UNIX_EPOCH).expect("a clock").as_nanos() as u64;
    let (seed, lists) = (word("--seed", clock % 1_000_000_007), word("--lists", 20_000));
    println!("seed {seed}");
    assert!(layout_holds(), "the ledger's block has another layout");
    let mut rng = Rng::new(seed);
    let (mut attempts, mut accepted) = (0, 0);
    for k in 0..lists {
        match one(&mut rng, false) {
            Ok((n, m)) => {
                attempts += n;
                accepted += m;
            }
            Err(found) => {
                println!("list {k}: {}", found.text);
                std::process::exit(1);
            }
        }
    }
    println!("{lists} lists of {attempts} attempts in all, {accepted} of them accepted: no difference between two orders");
    let differ = (0..lists.max(200)).filter(|_| one(&mut rng, true).is_err()).count();
    println!("with evidence 2 allowed: a difference in {differ} lists of {}", lists.max(200));
    assert!(differ > 0, "evidence 2 must make a difference");
}
