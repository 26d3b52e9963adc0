//! Compares Jamfell's library with the given Rust on generated calls. README.md says how to run it and what it prints.
fn main() {
    compare::main();
}

mod compare {
    use cesr::crypto::{KNOWN, VERIFIED};
    use harness::check::{Checker, Tally};
    use harness::fault::faults;
    use harness::random::Rng;
    use harness::run::{BATCH, Pairs, batch};
    use std::process::exit;
    use std::sync::atomic::{AtomicU64, Ordering::Relaxed};
    use std::time::{Instant, SystemTime};

    struct Options {
        seed: u64,
        cases: u64,
        threads: usize,
        seconds: u64,
        self_test: bool,
    }

    fn options() -> Options {
        let clock = SystemTime::now().duration_since(SystemTime::UNIX_EPOCH).expect("a clock").as_nanos() as u64;
        let threads = std::thread::available_parallelism().map_or(1, usize::from);
        let mut o = Options { seed: clock % 1_000_000_007, cases: 1_000_000, threads, seconds: u64::MAX, self_test: false };
        let mut words = std::env::args().skip(1);
        while let Some(word) = words.next() {
            let mut number = || words.next().and_then(|w| w.parse().ok()).unwrap_or_else(|| usage());
            match word.as_str() {
                "--seed" => o.seed = number(),
                "--cases" => o.cases = number(),
                "--threads" => o.threads = number() as usize,
                "--seconds" => o.seconds = number(),
                "--self-test" => o.self_test = true,
                _ => usage(),
            }
        }
        o
    }

    fn usage() -> ! {
        eprintln!("compare [--seed N] [--cases N] [--seconds N] [--threads N] [--self-test]");
        exit(2);
    }

    fn work(o: &Options, next: &AtomicU64, started: Instant) -> (Tally, Pairs) {
        let batches = o.cases.div_ceil(BATCH as u64);
        let mut checker = Checker::new(o.self_test.then(|| Rng::new(o.seed)));
        let mut pairs = Pairs::new();
        loop {
            let number = next.fetch_add(1, Relaxed);
            if number >= batches || started.elapsed().as_secs() >= o.seconds {
                return (checker.into_tally(), pairs);
            }
            batch(o.seed, number, &mut checker, &mut pairs);
        }
    }

    pub fn main() {
        cesr::sodium::init();
        let o = options();
        println!("seed {}", o.seed);
        let (next, started) = (AtomicU64::new(0), Instant::now());
        let results: Vec<(Tally, Pairs)> = std::thread::scope(|scope| {
            let threads: Vec<_> = (0..o.threads.max(1)).map(|_| scope.spawn(|| work(&o, &next, started))).collect();
            threads.into_iter().map(|t| t.join().expect("no panic")).collect()
        });
        let mut all = Tally::default();
        let mut pairs = Pairs::new();
        for (tally, more) in results {
            all.join(tally);
            for (pair, n) in more {
                *pairs.entry(pair).or_default() += n;
            }
        }
        tell(&all, &pairs, started);
        judge(&o, &all);
    }

    fn tell(all: &Tally, pairs: &Pairs, started: Instant) {
        let mut call = "";
        for ((name, number, rule), n) in &all.seen {
            if *name != call {
                print!("{}{name}:", if call.is_empty() { "" } else { "\n" });
                call = name;
            }
            match rule {
                0 => print!(" {number}×{n}"),
                _ => print!(" {number}.{rule}×{n}"),
            }
        }
        println!();
        for kind in 1..=6 {
            let whole = faults(kind).len().pow(2);
            let met = pairs.keys().filter(|p| p.0 == kind).count();
            println!("pairs of faults, kind {kind}: {met} of {whole}");
        }
        let (signed, verified, known) = (all.signed, VERIFIED.load(Relaxed), KNOWN.load(Relaxed));
        println!("signatures: {signed} made, {verified} verified, {known} times the answer was at hand");
        println!("{} cases in {} s", all.cases, started.elapsed().as_secs());
    }

    fn judge(o: &Options, all: &Tally) {
        if o.self_test {
            println!("self-test: {} of {} answers changed in one bit were found", all.found, all.cases);
            exit(i32::from(all.found != all.cases || all.cases == 0));
        }
        for difference in &all.differences {
            print!("{}", difference.text());
        }
        // A short run need not meet every answer.
        let unmet = if all.cases < 500_000 { vec![] } else { all.unmet() };
        if !unmet.is_empty() {
            println!("answers that no case had: {}", unmet.join(", "));
        }
        println!("{} differences", all.found);
        exit(i32::from(all.found != 0 || all.cases == 0 || !unmet.is_empty()));
    }
}
