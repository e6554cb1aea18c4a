//! Random logs and logs written as text.

use second::coverage::Coverage;
use second::log::answer;
use second::make::log;
use second::recordings::kept;
use second::register::default_taps;
use second::rng::Rng;
use second::text::log_from_text;

#[test]
fn the_same_seed_makes_the_same_logs() {
    for number in 0..20 {
        assert_eq!(log(5, number), log(5, number));
    }
    assert!((0..20).any(|number| log(5, number) != log(6, number)));
}

#[test]
fn a_thousand_logs_meet_everything() {
    for seed in 1..=3 {
        let mut coverage = Coverage::default();
        for number in 0..1000 {
            coverage.add(answer(&log(seed, number)).met);
        }
        let missed = coverage.lines().pop().unwrap();
        assert_eq!(missed, "not met: none", "seed {seed}");
    }
}

#[test]
fn recordings_to_be_kept_are_between_the_rails_and_8_apart() {
    let rng = &mut Rng::for_log(1, 0);
    for order in [2, 3, 5] {
        let taps = default_taps(order).unwrap();
        for _ in 0..1000 {
            let mut samples = kept(rng, order, taps);
            samples.sort_unstable();
            let (smallest, largest) = (samples[0], samples[samples.len() - 1]);
            assert!(smallest >= -8_388_607 && largest <= 8_388_606);
            assert!(largest - smallest >= 8, "{samples:?}");
        }
    }
}

const EXAMPLE: &str = "# 01's example with the samples of request 2 of 02
start 3 3 2
day 1
samples -4 -12 -4 12   # in two parts
samples 12 -12 4
enter

day 2
samples 5 5 5 5 5 5 5
enter
ask
withdraw 1
ask
";

#[test]
fn text_becomes_a_log() {
    let log = log_from_text(EXAMPLE).unwrap();
    assert_eq!(log.len(), 74);
    assert!(answer(&log)
        .text
        .ends_with("withdraw 1 0\nresponse 14 0 0 1 1\n"));
}

#[test]
fn a_bad_line_is_named_by_its_number() {
    let fault = |line: &str| log_from_text(&format!("start 3 3 2\n{line}\n")).unwrap_err();
    for line in [
        "start 3 3",
        "start 256 3 1",
        "start 3 65536 1",
        "day",
        "day 1 2 3",
        "day 65536",
        "day -1",
        "samples",
        "samples 8388608",
        "samples 1 x",
        "enter 1",
        "ask 2",
        "withdraw",
        "stop",
    ] {
        assert!(fault(line).starts_with("line 2: "), "{line}");
    }
}
