//! The player.

use second::player::Player;
use second::refusal::number;
use second::register::signal;

#[test]
fn it_plays_the_signal_over_and_over() {
    let mut player = Player::new(4, 3).unwrap();
    assert_eq!((player.window, player.count), (15, 0));
    for place in 0..32 {
        assert_eq!(player.step(), Ok(signal(4, 3)[place % 15] as i32));
    }
    assert_eq!(player.count, 32);
}

#[test]
fn it_need_not_be_maximal() {
    let mut player = Player::new(4, 15).unwrap();
    let signs: Vec<i32> = (0..10).map(|_| player.step().unwrap()).collect();
    assert_eq!(signs, [-1, -1, -1, -1, 1, -1, -1, -1, -1, 1]);
}

#[test]
fn its_count_returns_to_zero() {
    let mut player = Player {
        order: 3,
        taps: 3,
        window: 7,
        count: u32::MAX,
    };
    player.step().unwrap();
    assert_eq!(player.count, 0);
}

#[test]
fn making_one_refuses_1_2_3() {
    let made = |order, taps| number(&Player::new(order, taps));
    assert_eq!([made(1, 3), made(3, 8), made(3, 2)], [1, 2, 3]);
}

#[test]
fn a_refused_step_leaves_it_as_it_was() {
    for (order, taps, window, refusal) in [
        (17, 0, 0, 1),
        (3, 8, 0, 2),
        (3, 2, 0, 3),
        (3, 3, 0, 16),
        (3, 3, 8, 16),
    ] {
        let mut player = Player {
            order,
            taps,
            window,
            count: 5,
        };
        let before = player.clone();
        assert_eq!(number(&player.step()), refusal);
        assert_eq!(player, before);
    }
}
