//! Log kind 8 of request 9 of 02: directly after an accepted kind 1 and nowhere else, and what it answers.

use second::coverage::Coverage;
use second::log::answer;
use second::record::{decode, encode, Record};
use second::text::log_from_text;

fn lines(input: &[u8]) -> String {
    answer(input).text
}

/// Order 3, taps 3, 2 slots: five bytes, and P is 7.
const START: [u8; 5] = [1, 3, 3, 0, 2];
const EDITION_2: [u8; 2] = [8, 2];
const ASK: [u8; 1] = [6];
const HALVES: &str = "day 1\nsamples -6 9 0 5 -1 -1 -8\nenter\n";

/// The lines after the start's.
fn after_start(parts: &[&[u8]]) -> String {
    let said = lines(&[&START[..], &parts.concat()].concat());
    said.strip_prefix("start 0\n").unwrap().to_string()
}

fn lines_of_text(text: &str) -> String {
    lines(&log_from_text(text).unwrap())
}

#[test]
fn the_body_is_the_edition() {
    for edition in [0, 1, 2, 3, 255] {
        let record = Record::Edition(edition);
        assert_eq!(encode(record), [8, edition]);
        assert_eq!(decode(8, &[edition]), record);
        let text = format!("edition {edition}");
        assert_eq!(log_from_text(&text).unwrap(), [8, edition]);
    }
}

#[test]
fn a_bad_edition_of_the_text_is_named() {
    let write = "line 1: write `edition N`";
    let fits = "is not a whole number from 0 to 255";
    for (line, said) in [
        ("edition", write.to_string()),
        ("edition 1 2", write.to_string()),
        ("edition 256", format!("line 1: edition `256` {fits}")),
        ("edition -1", format!("line 1: edition `-1` {fits}")),
        ("edition two", format!("line 1: edition `two` {fits}")),
    ] {
        assert_eq!(log_from_text(line).unwrap_err(), said);
    }
}

const ROWS_1: &str =
    "response 0 1 0 0 0\n0 -4 -1\n1 -12 -2\n2 4 1\n3 -24 -3\n4 20 3\n5 20 3\n6 12 2\n";
const ROWS_2: &str =
    "response 0 1 0 0 0\n0 -4 0\n1 -12 -2\n2 4 0\n3 -24 -3\n4 20 2\n5 20 2\n6 12 2\n";

#[test]
fn the_example_by_hand() {
    let asked = |edition: &str| lines_of_text(&format!("start 3 3 2\n{edition}\n{HALVES}ask"));
    assert_eq!(asked(""), format!("start 0\nenter 1 0 kept\n{ROWS_1}"));
    let named = "start 0\nedition 0\nenter 1 0 kept\n";
    assert_eq!(asked("edition 1"), format!("{named}{ROWS_1}"));
    assert_eq!(asked("edition 2"), format!("{named}{ROWS_2}"));
}

#[test]
fn the_input_may_end_after_an_edition() {
    assert_eq!(after_start(&[&[8, 1]]), "edition 0\n");
    assert_eq!(after_start(&[&EDITION_2]), "edition 0\n");
}

#[test]
fn an_edition_that_is_none_is_24_and_nothing_behind_it_is_looked_at() {
    for none in (0..=255).filter(|edition| ![1, 2].contains(edition)) {
        for rest in [&[][..], &ASK, &[8, 2], &[8], &[0], &[4], &[2, 1], &START] {
            assert_eq!(after_start(&[&[8, none], rest]), "edition 24\n", "{none}");
        }
    }
}

#[test]
fn a_cut_body_is_bad_at_its_kind() {
    assert_eq!(after_start(&[&[8]]), "bad 5\n");
}

#[test]
fn it_is_bad_as_the_first_record() {
    for input in [&[8][..], &[8, 2], &[8, 2, 1, 3, 3, 0, 2], &[8, 0]] {
        assert_eq!(lines(input), "bad 0\n");
    }
}

#[test]
fn it_is_not_looked_at_after_a_refused_start() {
    for edition in [0, 2] {
        assert_eq!(lines(&[1, 1, 3, 0, 2, 8, edition]), "start 1\n");
        assert_eq!(lines(&[1, 4, 15, 0, 2, 8, edition]), "start 4 5\n");
        assert_eq!(lines(&[1, 3, 3, 0, 0, 8, edition]), "start 9\n");
        assert_eq!(lines(&[1, 10, 9, 0, 2, 8, edition]), "start 17\n");
    }
}

#[test]
fn it_may_stand_once() {
    for second in [&[8, 1][..], &[8, 2], &[8, 3], &[8]] {
        let said = after_start(&[&EDITION_2, second]);
        assert_eq!(said, "edition 0\nbad 7\n", "{second:?}");
    }
}

/// Each with the lines and the bytes that come before it, after the start and again after a start with an edition.
#[test]
fn it_is_bad_behind_every_other_record() {
    let night: Vec<u8> = log_from_text(HALVES).unwrap();
    let sample = [3, 1, 0, 0];
    let not_kept = [2, 9, 0, 4];
    let places: [(&str, &[&[u8]], &str); 9] = [
        ("ask", &[&ASK], "response 14 0 0 0 0\n"),
        ("withdraw", &[&[5, 1, 0]], "withdraw 1 13\n"),
        ("refused entry", &[&not_kept], "enter 9 5 -\n"),
        ("entry", &[&night], "enter 1 0 kept\n"),
        ("open day", &[&[2, 1, 0]], ""),
        ("open capture", &[&[7, 1, 0, 1]], ""),
        ("sample of a day", &[&[2, 1, 0], &sample], ""),
        ("sample of a capture", &[&[7, 1, 0, 1], &sample], ""),
        ("sample only counted", &[&[7, 1, 0, 0], &sample], ""),
    ];
    for (name, before, said) in places {
        let before = before.concat();
        for edition in [&[8, 1][..], &EDITION_2, &[8, 0], &[8]] {
            let bad = 5 + before.len();
            let expected = format!("{said}bad {bad}\n");
            assert_eq!(after_start(&[&before, edition]), expected, "{name}");
            let bad = bad + EDITION_2.len();
            let expected = format!("edition 0\n{said}bad {bad}\n");
            let input: [&[u8]; 3] = [&EDITION_2, &before, edition];
            assert_eq!(after_start(&input), expected, "{name}");
        }
    }
}

/// Every other kind may stand behind it where it may behind a start, and no start may.
#[test]
fn the_others_stand_behind_it_as_behind_a_start() {
    let overload = "day 1\nsamples 8388607 0 0 0 0 0 0\nenter";
    let night = log_from_text(overload).unwrap();
    let starts: [(&str, &[u8]); 2] = [("", &[]), ("edition 0\n", &EDITION_2)];
    for (said, edition) in starts {
        let bad = 5 + edition.len();
        for misplaced in [&START[..], &[3, 1, 0, 0], &[4], &[0], &[9], &[255]] {
            let expected = format!("{said}bad {bad}\n");
            assert_eq!(after_start(&[edition, misplaced]), expected);
        }
        for opened in [&[2, 1, 0][..], &[7, 1, 0, 1]] {
            let expected = format!("{said}bad {}\n", bad + opened.len());
            assert_eq!(after_start(&[edition, opened]), expected);
        }
        for (record, line) in [
            (&[5, 1, 0][..], "withdraw 1 13\n"),
            (&ASK, "response 14 0 0 0 0\n"),
            (&night, "enter 1 0 overload\n"),
            (&[7, 1, 0, 17, 4], "enter 1 18 -\n"),
        ] {
            assert_eq!(after_start(&[edition, record]), format!("{said}{line}"));
        }
    }
}

/// Order 4 has another P, taps 9 another sequence than the order's own, and the third night finds both slots used.
#[test]
fn order_taps_and_slots_are_those_of_the_start() {
    let night =
        |day: usize| format!("day {day}\nsamples 9 1 -3 4 0 7 -8 2 2 5 -6 1 0 3 {day}\nenter\n");
    let nights: String = (1..=3).map(night).collect();
    let asked = |edition: &str| lines_of_text(&format!("start 4 9 2\n{edition}\n{nights}ask"));
    let unnamed = asked("");
    let kept = "enter 1 0 kept\nenter 2 0 kept\nenter 3 12 -\nresponse 0 2 0 0 0\n";
    assert!(unnamed.starts_with(&format!("start 0\n{kept}")));
    let named = unnamed.replacen("start 0\n", "start 0\nedition 0\n", 1);
    assert_eq!(asked("edition 1"), named);
    let without_means = |said: &str| -> Vec<String> {
        let is_row = |line: &&str| line.as_bytes()[0].is_ascii_digit();
        let r = |line: &str| line.rsplit_once(' ').unwrap().0.to_string();
        said.lines().filter(is_row).map(r).collect()
    };
    assert_eq!(without_means(&named).len(), 15);
    assert_eq!(without_means(&asked("edition 2")), without_means(&named));
}

#[test]
fn the_edition_is_kept_to_the_logs_end() {
    let text = format!(
        "start 3 3 2\nedition 2\nask\n{HALVES}ask\nask\nday 2\nsamples 5 5 5 5 5 5 5\nenter\nwithdraw 1\nask\n{HALVES}ask"
    );
    let rows = |standing: &str| ROWS_2.replace("response 0 1 0 0 0", standing);
    let expected = [
        "start 0\nedition 0\nresponse 14 0 0 0 0\nenter 1 0 kept\n",
        ROWS_2,
        ROWS_2,
        "enter 2 0 dead\nwithdraw 1 0\nresponse 14 0 0 1 1\nenter 1 0 kept\n",
        &rows("response 0 1 0 1 0"),
    ];
    assert_eq!(lines_of_text(&text), expected.concat());
}

// ---- the names

fn met(parts: &[&[u8]]) -> Vec<String> {
    answer(&[&START[..], &parts.concat()].concat()).met
}

#[test]
fn each_place_of_an_edition_is_counted_by_itself() {
    let ways: [(&[u8], &str); 9] = [
        (&[8], "bad: cut kind 8"),
        (&[8, 2, 8, 2], "bad: kind 8 after 8"),
        (&[6, 8, 2], "bad: kind 8 after 6"),
        (&[5, 1, 0, 8, 2], "bad: kind 8 after 5"),
        (&[2, 1, 0, 4, 8, 2], "bad: kind 8 after 4"),
        (&[2, 1, 0, 8, 2], "bad: kind 8 after 2"),
        (&[7, 1, 0, 1, 8, 2], "bad: kind 8 after 7"),
        (&[7, 1, 0, 1, 3, 0, 0, 0, 8, 2], "bad: kind 8 after 3"),
        (&[8, 2], "behind: the end after an accepted edition"),
    ];
    for (rest, name) in ways {
        assert_eq!(met(&[rest]).last().unwrap(), name);
    }
    assert_eq!(answer(&[8, 2]).met, ["bad: kind 8 first"]);
    for (edition, name) in [
        (0, "edition: 24 of 0"),
        (1, "edition: 0 of 1"),
        (2, "edition: 0 of 2"),
        (3, "edition: 24 of 3"),
        (4, "edition: 24 of 4 to 254"),
        (254, "edition: 24 of 4 to 254"),
        (255, "edition: 24 of 255"),
    ] {
        assert!(met(&[&[8, edition]]).contains(&name.to_string()), "{name}");
    }
    let unread = met(&[&[8, 0, 8, 2]]);
    assert_eq!(
        unread.last().unwrap(),
        "behind: kind 8 after a refused edition"
    );
    let unread = answer(&[1, 1, 3, 0, 2, 8, 2]).met;
    assert_eq!(
        unread,
        ["start: 1 below", "behind: kind 8 after a refused start"]
    );
}

/// Over 8 the r of the example are halves but for -24, and 4, -4 and 20 are where the editions part.
#[test]
fn halves_are_counted_by_their_side_and_by_whether_the_editions_part() {
    let halves = |edition: &str, nights: &str| -> Vec<String> {
        let log = log_from_text(&format!("start 3 3 2\n{edition}\n{nights}ask")).unwrap();
        let met = answer(&log).met.into_iter();
        met.filter_map(|name| Some(name.strip_prefix("halves: ")?.to_string()))
            .collect()
    };
    for (edition, word) in [("", "1"), ("edition 1", "1 named"), ("edition 2", "2")] {
        let all = [
            "above 0 apart",
            "above 0 alike",
            "below 0 apart",
            "below 0 alike",
        ];
        let all = all.map(|name| format!("{name} in {word}"));
        assert_eq!(halves(edition, HALVES), all);
        let withdrawn = format!("{HALVES}withdraw 1\n{HALVES}");
        assert_eq!(halves(edition, &withdrawn), all, "it is standing again");
        let other = format!("{HALVES}{}withdraw 2\n", HALVES.replace("day 1", "day 2"));
        let found = halves(edition, &other);
        assert_eq!(
            found.last().unwrap(),
            &format!("after a withdrawal apart in {word}")
        );
        let whole = "day 1\nsamples -4 -12 -4 12 12 -12 4\nenter\n";
        assert_eq!(halves(edition, whole), [format!("none in {word}")]);
    }
}

#[test]
fn every_answer_to_an_edition_has_its_count() {
    let mut coverage = Coverage::default();
    for edition in 0..=255 {
        coverage.add(met(&[&[8, edition]]));
    }
    let lines = coverage.lines();
    let line = lines.iter().find(|line| line.starts_with("edition: "));
    let expected =
        "edition: 0 of 1=1, 0 of 2=1, 24 of 0=1, 24 of 3=1, 24 of 4 to 254=251, 24 of 255=1";
    assert_eq!(line.unwrap(), expected);
}
