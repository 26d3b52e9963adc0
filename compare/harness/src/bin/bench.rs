//! Measures the library beside the given Rust. README.md says what each column is.
fn main() {
    use harness::random::Rng;
    let word = |name: &str| std::env::args().skip_while(|w| w != name).nth(1);
    let rounds = word("--rounds").map_or(1001, |w| w.parse().expect("a number"));
    let rng = &mut Rng::new(1);
    if let Some(row) = word("--profile") {
        let known = harness::bench_folds::profile(rng, &row, 5);
        let known = known || harness::bench_ledger::profile(rng, &row, 5);
        assert!(known, "no such row");
        return;
    }
    harness::bench_folds::folds(rng, rounds);
    harness::bench_folds::decoding(rng, rounds);
    harness::bench_ledger::apply(rng, rounds);
    harness::bench_ledger::images(rng, rounds);
    harness::bench_folds::growth(rng, rounds);
    harness::bench_ledger::growth(rng, rounds);
}
