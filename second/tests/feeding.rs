//! Logs handed to another program in pieces.

use second::feeding::{pieces, Other};
use second::make::log;

#[test]
fn pieces_are_the_log_cut_into_one_to_seven_bytes() {
    let log = vec![3; 2000];
    let pieces = pieces(&log);
    assert_eq!(pieces.concat(), log);
    let mut lengths: Vec<usize> = pieces.iter().map(|piece| piece.len()).collect();
    lengths.sort_unstable();
    lengths.dedup();
    assert_eq!(lengths, [1, 2, 3, 4, 5, 6, 7]);
}

/// What a shell command prints that is fed a log in pieces.
fn printed(command: &str, log: &[u8]) -> String {
    let wrapper = ["sh", "-c"].map(str::to_string);
    let other = Other {
        program: command,
        wrapper: &wrapper,
    };
    String::from_utf8(other.in_pieces(log).unwrap().stdout).unwrap()
}

#[test]
fn each_read_gets_one_piece() {
    for number in 0..20 {
        let log = log(1, number);
        // dd tells how many of its reads filled a block and, after the +, how many did not.
        let reads = printed("dd ibs=64 2>&1 >/dev/null", &log);
        let counted = format!("0+{} records in\n", pieces(&log).len());
        assert!(reads.starts_with(&counted), "{reads}");
    }
}

#[test]
fn a_program_may_stop_early_and_may_read_on_past_the_end() {
    let log = vec![3; 2000];
    assert_eq!(printed("echo done", &log), "done\n");
    let twice = "dd ibs=64 status=none | wc -c; dd ibs=64 status=none | wc -c";
    assert_eq!(printed(twice, &log), "2000\n0\n");
}
