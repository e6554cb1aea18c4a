//! Log kind 7 of request 1 of 02: where it may stand, how many samples it takes, and what kind 4 answers.

use second::log::answer;
use second::open_day::{OpenDay, Opened};
use second::record::{decode, encode, Record};
use second::text::log_from_text;

fn lines(input: &[u8]) -> String {
    answer(input).text
}

/// Order 2, taps 3, 1 slot: five bytes, and P is 3.
const START: [u8; 5] = [1, 2, 3, 0, 1];
const ASK: [u8; 1] = [6];
const ENTER: [u8; 1] = [4];

fn samples(values: &[i32]) -> Vec<u8> {
    values
        .iter()
        .flat_map(|v| [3, *v as u8, (*v >> 8) as u8, (*v >> 16) as u8])
        .collect()
}

fn opened(day: u16, m: u8) -> [u8; 4] {
    [7, day as u8, (day >> 8) as u8, m]
}

fn capture(day: u16, m: u8, values: &[i32]) -> Vec<u8> {
    [&opened(day, m)[..], &samples(values), &ENTER].concat()
}

fn one_period(day: u8, values: &[i32]) -> Vec<u8> {
    [&[2, day, 0][..], &samples(values), &ENTER].concat()
}

/// The lines after the start's.
fn after_start(parts: &[&[u8]]) -> String {
    let said = lines(&[&START[..], &parts.concat()].concat());
    said.strip_prefix("start 0\n").unwrap().to_string()
}

const RAIL: i32 = 8_388_607;
const KEPT: [i32; 6] = [RAIL, -8_388_608, RAIL, 1, 2, 13];

#[test]
fn the_body_is_the_day_and_the_periods() {
    let record = Record::Capture { day: 258, m: 4 };
    assert_eq!(encode(record), [7, 2, 1, 4]);
    assert_eq!(decode(7, &[2, 1, 4]), record);
    let largest = Record::Capture {
        day: 65_535,
        m: 255,
    };
    assert_eq!(decode(7, &[255, 255, 255]), largest);
    assert_eq!(log_from_text("capture 258 4").unwrap(), [7, 2, 1, 4]);
    assert_eq!(
        log_from_text("capture 65535 255").unwrap(),
        [7, 255, 255, 255]
    );
}

/// -7, -25, -6, 24, 22, -23, 7 over 8 times 2, as request 1 sums it.
#[test]
fn two_periods_by_hand() {
    let input = log_from_text(
        "start 3 3 2
         capture 1 2
         samples 8388607 8388607 8388607 8388607 8388607 8388607 8388607
         samples -4 -12 -4 12 12 -12 4 -3 -13 -2 12 10 -11 3
         enter
         ask
         withdraw 1
         ask",
    );
    let expected = "start 0
enter 1 0 kept
response 0 1 0 0 0
0 122 8
1 0 0
2 -66 -4
3 4 0
4 0 0
5 -2 0
6 6 0
withdraw 1 0
response 14 0 0 0 1
";
    assert_eq!(lines(&input.unwrap()), expected);
}

#[test]
fn it_stands_where_kind_2_may() {
    assert_eq!(lines(&opened(1, 1)), "bad 0\n");
    assert_eq!(after_start(&[&opened(1, 1), &opened(2, 1)]), "bad 9\n");
    assert_eq!(after_start(&[&[2, 1, 0], &opened(2, 1)]), "bad 8\n");
    assert_eq!(after_start(&[&opened(1, 1), &[2, 1, 0]]), "bad 9\n");
    for inside in [&[5, 1, 0][..], &ASK, &[1, 2, 3, 0, 1], &[8]] {
        let input = [&opened(1, 1)[..], &samples(&[1, 2]), inside].concat();
        assert_eq!(after_start(&[&input]), "bad 17\n", "{inside:?}");
    }
    let two = [capture(1, 1, &KEPT), capture(2, 0, &[])].concat();
    assert_eq!(after_start(&[&two]), "enter 1 0 kept\nenter 2 18 -\n");
}

#[test]
fn a_cut_body_is_bad() {
    for length in 1..4 {
        let cut = &opened(1, 1)[..length];
        assert_eq!(after_start(&[cut]), "bad 5\n");
    }
    assert_eq!(after_start(&[&opened(1, 1)]), "bad 9\n");
    assert_eq!(after_start(&[&opened(1, 0), &samples(&[5])]), "bad 13\n");
}

/// What kind 4 answers for a whole capture of zeros on day 1.
fn answer_of_zeros(m: u8) -> &'static str {
    match m {
        0 | 17..=255 => "enter 1 18 -\n",
        1..=4 => "enter 1 0 dead\n",
        5..=16 => "enter 1 17 -\n",
    }
}

#[test]
fn the_limit_is_the_run_in_and_m_periods_for_every_m() {
    for m in 0..=255 {
        let limit = (usize::from(m) + 1) * 3;
        let whole = [&opened(1, m)[..], &samples(&vec![0; limit])].concat();
        let expected = answer_of_zeros(m);
        assert_eq!(after_start(&[&whole, &ENTER]), expected, "{m}");
        let beyond = format!("bad {}\n", 9 + 4 * limit);
        assert_eq!(
            after_start(&[&whole, &samples(&[0]), &ENTER]),
            beyond,
            "{m}"
        );
        assert_eq!(after_start(&[&whole, &[3]]), beyond, "{m}");
        assert_eq!(after_start(&[&whole]), beyond, "{m}");
    }
}

#[test]
fn the_limit_of_kind_2_is_still_p() {
    let whole = [&[2, 1, 0][..], &samples(&[1, 2, 13])].concat();
    assert_eq!(after_start(&[&whole, &ENTER]), "enter 1 0 kept\n");
    assert_eq!(after_start(&[&whole, &samples(&[0])]), "bad 20\n");
    let again = [capture(1, 4, &[]), whole.clone(), samples(&[0])].concat();
    assert_eq!(after_start(&[&again]), "enter 1 5 -\nbad 25\n");
}

#[test]
fn what_is_only_counted_is_not_kept() {
    for m in 0..=255 {
        let mut open = OpenDay::new(1, Opened::Capture { m });
        for value in [7, -7] {
            open.sample(value);
        }
        assert_eq!(open.count, 2);
        let kept: &[i32] = if (1..=4).contains(&m) { &[7, -7] } else { &[] };
        assert_eq!(open.samples, kept, "{m}");
    }
}

#[test]
fn what_is_only_counted_is_refused_with_10_18_or_17() {
    let answers = [
        (0, 18),
        (5, 17),
        (6, 17),
        (15, 17),
        (16, 17),
        (17, 18),
        (18, 18),
        (128, 18),
        (255, 18),
    ];
    for (m, number) in answers {
        for values in [&[][..], &[1], &[RAIL; 3]] {
            for day in [1, 366] {
                let said = format!("enter {day} {number} -\n");
                assert_eq!(after_start(&[&capture(day, m, values)]), said);
            }
            for day in [0, 367, 65_535] {
                let said = format!("enter {day} 10 -\n");
                assert_eq!(after_start(&[&capture(day, m, values)]), said);
            }
        }
    }
}

#[test]
fn what_is_only_counted_leaves_every_day_as_it_was() {
    let nights = [
        one_period(1, &[1, 2, 13]),
        one_period(2, &[RAIL; 3]),
        one_period(3, &[0; 3]),
    ];
    let counted: Vec<u8> = [0, 5, 16, 17, 255]
        .iter()
        .flat_map(|&m| (1..=4).flat_map(move |day| capture(day, m, &[RAIL, 1, 2])))
        .collect();
    let said = after_start(&[&nights.concat(), &counted, &ASK, &[5, 1, 0], &[5, 4, 0]]);
    let refused: Vec<&str> = said.lines().filter(|line| line.ends_with('-')).collect();
    assert_eq!(refused.len(), 20);
    assert_eq!(
        refused[..5],
        [
            "enter 1 18 -",
            "enter 2 18 -",
            "enter 3 18 -",
            "enter 4 18 -",
            "enter 1 17 -"
        ]
    );
    // r of 1, 2, 13 is -6, -30, -28, over 4.
    let rest = "response 0 1 1 1 0\n0 -6 -2\n1 -30 -8\n2 -28 -7\nwithdraw 1 0\nwithdraw 4 13\n";
    assert!(said.ends_with(rest), "{said}");
}

#[test]
fn so_many_as_the_program_takes_are_entered_with_what_came() {
    for m in 1..=4 {
        let whole = [vec![RAIL; 3], [1, 2, 13].repeat(m)].concat();
        let m = m as u8;
        assert_eq!(after_start(&[&capture(1, m, &whole)]), "enter 1 0 kept\n");
        for short in [0, 1, 3, whole.len() - 3, whole.len() - 1] {
            let said = after_start(&[&capture(1, m, &whole[..short])]);
            assert_eq!(said, "enter 1 5 -\n", "{short} of {m}");
        }
        for day in [0, 367] {
            let said = format!("enter {day} 10 -\n");
            assert_eq!(after_start(&[&capture(day, m, &whole)]), said);
            assert_eq!(after_start(&[&capture(day, m, &[])]), said);
        }
        let twice = [capture(1, m, &whole), capture(1, m, &whole)].concat();
        assert_eq!(after_start(&[&twice]), "enter 1 0 kept\nenter 1 11 -\n");
        let full = [capture(1, m, &whole), capture(2, m, &whole)].concat();
        assert_eq!(after_start(&[&full]), "enter 1 0 kept\nenter 2 12 -\n");
    }
}

#[test]
fn verdicts_leave_the_run_in_out() {
    let mut night = vec![RAIL, -8_388_608, RAIL, 1, 2, 13, 1, 2, 13];
    assert_eq!(after_start(&[&capture(1, 2, &night)]), "enter 1 0 kept\n");
    night[8] = -8_388_608;
    assert_eq!(
        after_start(&[&capture(1, 2, &night)]),
        "enter 1 0 overload\n"
    );
    let still = [RAIL, -8_388_608, RAIL, 1, 2, 3, 4, 5, 8];
    assert_eq!(after_start(&[&capture(1, 2, &still)]), "enter 1 0 dead\n");
}

#[test]
fn a_mean_is_over_the_periods_and_the_counts_are_of_days() {
    let nights = [
        capture(1, 3, &[0, 0, 0, 1, 2, 13, 4, 5, -6, 7, 8, 9]),
        one_period(2, &[7, -8, 9]),
    ];
    let start = [1, 2, 3, 0, 2];
    let said = lines(&[&start[..], &nights.concat(), &ASK].concat());
    let expected = "start 0\nenter 1 0 kept\nenter 2 0 kept\nresponse 0 2 0 0 0\n0 -52 -3\n1 -64 -4\n2 -88 -6\n";
    assert_eq!(said, expected);
}

#[test]
fn the_largest_capture_of_the_program_is_accepted() {
    let night: Vec<i32> = (0..5 * 511).map(|j| j % 100).collect();
    let input = [&[1, 9, 17, 0, 8][..], &capture(366, 4, &night)].concat();
    assert_eq!(lines(&input), "start 0\nenter 366 0 kept\n");
}

#[test]
fn a_bad_capture_of_the_text_is_named() {
    let write = "line 1: write `capture DAY M`, and the samples on lines of their own";
    for (line, said) in [
        (
            "capture 1 256",
            "line 1: m `256` is not a whole number from 0 to 255",
        ),
        (
            "capture 1 -1",
            "line 1: m `-1` is not a whole number from 0 to 255",
        ),
        (
            "capture 65536 1",
            "line 1: day `65536` is not a whole number from 0 to 65535",
        ),
        ("capture", write),
        ("capture 1", write),
        ("capture 1 2 3", write),
    ] {
        assert_eq!(log_from_text(line).unwrap_err(), said);
    }
}
