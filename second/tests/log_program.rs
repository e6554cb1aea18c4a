//! The log program: 01's example with the samples of request 2 of 02 byte for byte, and each bad case with its offset.

use second::log::answer;

fn lines(input: &[u8]) -> String {
    answer(input).text
}

/// Order 3, taps 3, 2 slots: five bytes.
const START: [u8; 5] = [1, 3, 3, 0, 2];

fn log(parts: &[&[u8]]) -> Vec<u8> {
    parts.concat()
}

fn samples(values: &[i32]) -> Vec<u8> {
    values
        .iter()
        .flat_map(|v| [3, *v as u8, (*v >> 8) as u8, (*v >> 16) as u8])
        .collect()
}

const EXAMPLE: &str = "start 0
enter 1 0 kept
enter 2 0 dead
response 0 1 0 1 0
0 64 8
1 0 0
2 -32 -4
3 0 0
4 0 0
5 0 0
6 0 0
withdraw 1 0
response 14 0 0 1 1
";

#[test]
fn the_example_byte_for_byte() {
    let input = [
        1, 3, 3, 0, 2, 2, 1, 0, 3, 252, 255, 255, 3, 244, 255, 255, 3, 252, 255, 255, 3, 12, 0, 0,
        3, 12, 0, 0, 3, 244, 255, 255, 3, 4, 0, 0, 4, 2, 2, 0, 3, 5, 0, 0, 3, 5, 0, 0, 3, 5, 0, 0,
        3, 5, 0, 0, 3, 5, 0, 0, 3, 5, 0, 0, 3, 5, 0, 0, 4, 6, 5, 1, 0, 6,
    ];
    assert_eq!(lines(&input), EXAMPLE);
}

#[test]
fn a_start_alone_is_a_whole_log() {
    assert_eq!(lines(&START), "start 0\n");
}

#[test]
fn no_input() {
    assert_eq!(lines(&[]), "bad 0\n");
}

#[test]
fn the_first_record_is_a_start() {
    for kind in [0, 2, 3, 4, 5, 6, 7, 8, 255] {
        assert_eq!(lines(&[kind, 1, 0, 0, 0]), "bad 0\n", "kind {kind}");
    }
    for length in 1..5 {
        assert_eq!(lines(&START[..length]), "bad 0\n", "cut to {length}");
    }
}

#[test]
fn no_other_record_is_a_start() {
    assert_eq!(lines(&log(&[&START, &START])), "start 0\nbad 5\n");
    assert_eq!(
        lines(&log(&[&START, &[2, 1, 0], &START])),
        "start 0\nbad 8\n"
    );
}

#[test]
fn unknown_kinds() {
    for kind in [0, 9, 255] {
        assert_eq!(lines(&log(&[&START, &[kind]])), "start 0\nbad 5\n");
        assert_eq!(
            lines(&log(&[&START, &[2, 1, 0], &[kind]])),
            "start 0\nbad 8\n"
        );
    }
}

#[test]
fn cut_bodies() {
    for cut in [&[2][..], &[2, 1], &[5], &[5, 1]] {
        assert_eq!(lines(&log(&[&START, cut])), "start 0\nbad 5\n");
    }
    for cut in [&[3][..], &[3, 1], &[3, 1, 0]] {
        assert_eq!(lines(&log(&[&START, &[2, 1, 0], cut])), "start 0\nbad 8\n");
    }
}

#[test]
fn misplaced_kinds() {
    assert_eq!(lines(&log(&[&START, &[3, 1, 0, 0]])), "start 0\nbad 5\n");
    assert_eq!(lines(&log(&[&START, &[4]])), "start 0\nbad 5\n");
    for inside in [&[2, 2, 0][..], &[5, 1, 0], &[6]] {
        let input = log(&[&START, &[2, 1, 0], &samples(&[1, 2]), inside]);
        assert_eq!(lines(&input), "start 0\nbad 16\n");
    }
    let closed = log(&[&START, &[2, 1, 0], &[4], &[4]]);
    assert_eq!(lines(&closed), "start 0\nenter 1 5 -\nbad 9\n");
}

#[test]
fn a_sample_beyond_p() {
    let full = log(&[&START, &[2, 1, 0], &samples(&[1, 2, 3, 4, 5, 6, 9])]);
    assert_eq!(full.len(), 36);
    assert_eq!(
        lines(&log(&[&full, &[3, 8, 0, 0], &[4]])),
        "start 0\nbad 36\n"
    );
    assert_eq!(lines(&log(&[&full, &[3]])), "start 0\nbad 36\n");
    assert_eq!(lines(&log(&[&full, &[4]])), "start 0\nenter 1 0 kept\n");
}

#[test]
fn the_end_inside_an_open_day() {
    let open = log(&[&START, &[2, 1, 0]]);
    assert_eq!(lines(&open), "start 0\nbad 8\n");
    assert_eq!(lines(&log(&[&open, &samples(&[1])])), "start 0\nbad 12\n");
    assert_eq!(
        lines(&log(&[&open, &samples(&[1; 7])])),
        "start 0\nbad 36\n"
    );
}

#[test]
fn a_refused_start_stops() {
    let refused = |order, low, high, slots| lines(&[1, order, low, high, slots, 6, 0, 255]);
    assert_eq!(refused(1, 3, 0, 0), "start 1\n");
    assert_eq!(refused(17, 3, 0, 1), "start 1\n");
    assert_eq!(refused(255, 0, 0, 1), "start 1\n");
    assert_eq!(refused(2, 4, 0, 0), "start 2\n");
    assert_eq!(refused(8, 29, 1, 0), "start 2\n");
    assert_eq!(refused(10, 2, 0, 0), "start 3\n");
    assert_eq!(refused(10, 1, 0, 0), "start 4 1\n");
    assert_eq!(refused(4, 15, 0, 1), "start 4 5\n");
    assert_eq!(refused(4, 5, 0, 0), "start 4 6\n");
    assert_eq!(refused(16, 255, 255, 65), "start 4 17\n");
    assert_eq!(refused(16, 45, 0, 0), "start 9\n");
    assert_eq!(refused(16, 45, 0, 65), "start 9\n");
    assert_eq!(refused(10, 9, 0, 1), "start 17\n");
    assert_eq!(refused(9, 17, 0, 9), "start 17\n");
    assert_eq!(refused(9, 17, 0, 64), "start 17\n");
}

#[test]
fn the_largest_log_is_accepted() {
    assert_eq!(lines(&[1, 9, 17, 0, 8]), "start 0\n");
}

#[test]
fn days_are_judged_when_entered() {
    let entry = |low, high| {
        log(&[
            &START,
            &[2, low, high],
            &samples(&[1, 2, 3, 4, 5, 6, 9]),
            &[4, 5, low, high],
        ])
    };
    assert_eq!(
        lines(&entry(0, 0)),
        "start 0\nenter 0 10 -\nwithdraw 0 10\n"
    );
    assert_eq!(
        lines(&entry(110, 1)),
        "start 0\nenter 366 0 kept\nwithdraw 366 0\n"
    );
    assert_eq!(
        lines(&entry(111, 1)),
        "start 0\nenter 367 10 -\nwithdraw 367 10\n"
    );
    assert_eq!(
        lines(&entry(255, 255)),
        "start 0\nenter 65535 10 -\nwithdraw 65535 10\n"
    );
}

#[test]
fn samples_are_signed_little_endian() {
    let near_rails = [8_388_606, -8_388_607, 0, 0, 0, 0, 0];
    let at_rail = [0, 0, 0, 0, 0, 0, -8_388_608];
    let input = log(&[
        &START,
        &[2, 1, 0],
        &samples(&near_rails),
        &[4, 2, 2, 0],
        &samples(&at_rail),
        &[4],
    ]);
    assert_eq!(
        lines(&input),
        "start 0\nenter 1 0 kept\nenter 2 0 overload\n"
    );
}

#[test]
fn a_dead_input_is_at_most_7_apart_and_at_a_rail_it_is_overloaded() {
    let nights = [
        [-1, -3, -1, 3, 3, -3, 1],
        [-1, -3, -1, 3, 4, -3, 1],
        [-1, -3, -1, 3, 5, -3, 1],
        [
            8_388_607, 8_388_600, 8_388_602, 8_388_601, 8_388_606, 8_388_605, 8_388_604,
        ],
        [
            -8_388_601, -8_388_602, -8_388_603, -8_388_604, -8_388_605, -8_388_606, -8_388_608,
        ],
    ];
    let mut input = START.to_vec();
    for (night, day) in nights.iter().zip(1..) {
        input.extend(log(&[&[2, day, 0], &samples(night), &[4]]));
    }
    assert_eq!(
        lines(&input),
        "start 0\nenter 1 0 dead\nenter 2 0 dead\nenter 3 0 kept\nenter 4 0 overload\nenter 5 0 overload\n"
    );
}
