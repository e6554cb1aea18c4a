// Calls every function of the C door from Rust on document 01's numbers and on document 001's short sequence: the declarations, a safe function over each,
// and what it must answer, the period included and in both editions of the report rules.
use std::process::ExitCode;

mod declared {
    #[rustfmt::skip]
    extern "C" {
        pub fn meter_taps(order: u32, taps: u32, period: &mut u32) -> u32;
        pub fn meter_default_taps(order: u32, taps: &mut u32) -> u32;
        pub fn meter_sequence(order: u32, taps: u32, out: *mut u8, out_len: usize, period: &mut u32) -> u32;
        pub fn meter_player_new(order: u32, taps: u32, o: &mut u32, t: &mut u32, window: &mut u32, count: &mut u32) -> u32;
        pub fn meter_player_step(order: &mut u32, taps: &mut u32, window: &mut u32, count: &mut u32, sign: &mut i32) -> u32;
        pub fn meter_player_play(order: &mut u32, taps: &mut u32, window: &mut u32, count: &mut u32, signs: *mut i8, signs_len: usize) -> u32;
        pub fn meter_recording(order: u32, taps: u32, y: *const i32, y_len: usize, out: *mut i64, out_len: usize,
            room: *mut i64, room_len: usize, tags: *mut u16, tags_len: usize, period: &mut u32) -> u32;
        pub fn meter_predict(order: u32, taps: u32, h: *const i32, h_len: usize, out: *mut i32, out_len: usize, period: &mut u32) -> u32;
        pub fn meter_predict_in_room(order: u32, taps: u32, h: *const i32, h_len: usize, out: *mut i32, out_len: usize,
            room: *mut i64, room_len: usize, period: &mut u32) -> u32;
        pub fn meter_legendre_sequence(p: u32, out: *mut u8, out_len: usize) -> u32;
        pub fn meter_legendre_recording(p: u32, y: *const i32, y_len: usize, out: *mut i64, out_len: usize) -> u32;
        pub fn meter_legendre_predict(p: u32, h: *const i32, h_len: usize, out: *mut i32, out_len: usize) -> u32;
        pub fn meter_judge(order: u32, taps: u32, y: *const i32, y_len: usize, state: &mut u32, value: &mut usize, period: &mut u32) -> u32;
        pub fn meter_judge_capture(order: u32, taps: u32, m: u32, y: *const i32, y_len: usize,
            state: &mut u32, value: &mut usize, period: &mut u32) -> u32;
        pub fn meter_start(order: u32, taps: u32, capacity: u32, edition: u32, days: *mut u8, days_len: usize, slots: *mut u16, slots_len: usize,
            periods: *mut u8, periods_len: usize, store: *mut i32, store_len: usize, sums: *mut i64, sums_len: usize, period: &mut u32) -> u32;
        pub fn meter_enter(order: u32, taps: u32, capacity: u32, edition: u32, days: *mut u8, days_len: usize, slots: *mut u16, slots_len: usize,
            periods: *mut u8, periods_len: usize, store: *mut i32, store_len: usize, sums: *mut i64, sums_len: usize,
            day: u32, y: *const i32, y_len: usize, state: &mut u32, value: &mut usize) -> u32;
        pub fn meter_capture(order: u32, taps: u32, capacity: u32, edition: u32, days: *mut u8, days_len: usize, slots: *mut u16, slots_len: usize,
            periods: *mut u8, periods_len: usize, store: *mut i32, store_len: usize, sums: *mut i64, sums_len: usize,
            day: u32, m: u32, y: *const i32, y_len: usize, state: &mut u32, value: &mut usize) -> u32;
        pub fn meter_file(order: u32, taps: u32, capacity: u32, edition: u32, days: *mut u8, days_len: usize, slots: *mut u16, slots_len: usize,
            periods: *mut u8, periods_len: usize, store: *mut i32, store_len: usize, sums: *mut i64, sums_len: usize,
            day: u32, y: *const i32, y_len: usize, shown: u32, place: usize, state: &mut u32, value: &mut usize) -> u32;
        pub fn meter_file_capture(order: u32, taps: u32, capacity: u32, edition: u32, days: *mut u8, days_len: usize, slots: *mut u16, slots_len: usize,
            periods: *mut u8, periods_len: usize, store: *mut i32, store_len: usize, sums: *mut i64, sums_len: usize,
            day: u32, m: u32, y: *const i32, y_len: usize, shown: u32, place: usize, state: &mut u32, value: &mut usize) -> u32;
        pub fn meter_withdraw(order: u32, taps: u32, capacity: u32, edition: u32, days: *mut u8, days_len: usize, slots: *mut u16, slots_len: usize,
            periods: *mut u8, periods_len: usize, store: *mut i32, store_len: usize, sums: *mut i64, sums_len: usize, day: u32) -> u32;
        pub fn meter_counts(order: u32, taps: u32, capacity: u32, edition: u32, days: *const u8, days_len: usize, slots: *const u16, slots_len: usize,
            periods: *const u8, periods_len: usize, store: *const i32, store_len: usize, sums: *const i64, sums_len: usize,
            unseen: &mut u32, standing: &mut u32, overloaded: &mut u32, dead: &mut u32, withdrawn: &mut u32) -> u32;
        pub fn meter_response(order: u32, taps: u32, capacity: u32, edition: u32, days: *const u8, days_len: usize, slots: *const u16, slots_len: usize,
            periods: *const u8, periods_len: usize, store: *const i32, store_len: usize, sums: *const i64, sums_len: usize,
            r: *mut i64, r_len: usize, mean: *mut i32, mean_len: usize, room: *mut i64, room_len: usize, tags: *mut u16, tags_len: usize) -> u32;
        pub fn meter_summary(order: u32, taps: u32, capacity: u32, edition: u32, days: *const u8, days_len: usize, slots: *const u16, slots_len: usize,
            periods: *const u8, periods_len: usize, store: *const i32, store_len: usize, sums: *const i64, sums_len: usize,
            room: *mut i64, room_len: usize, tags: *mut u16, tags_len: usize, stands: &mut u32, highest: &mut f64, lowest: &mut f64, peak: &mut f64) -> u32;
    }
}

// A Rust slice has what the door asks: it is not null, aligned, and no two `&mut` overlap.
struct Player {
    order: u32,
    taps: u32,
    window: u32,
    count: u32,
}

// What a place for the period holds before a call.
const UNTOLD: u32 = 77;

// The answer of a call that tells a period, and what the period's place holds after it.
type Told = (u32, u32);

fn told(call: impl FnOnce(&mut u32) -> u32) -> Told {
    let mut period = UNTOLD;
    (call(&mut period), period)
}

fn taps(order: u32, taps: u32) -> Told {
    told(|period| unsafe { declared::meter_taps(order, taps, period) })
}

fn default_taps(order: u32) -> Result<u32, u32> {
    let mut taps = 0;
    match unsafe { declared::meter_default_taps(order, &mut taps) } {
        0 => Ok(taps),
        n => Err(n),
    }
}

fn sequence(order: u32, taps: u32, out: &mut [u8]) -> Told {
    told(|period| unsafe { declared::meter_sequence(order, taps, out.as_mut_ptr(), out.len(), period) })
}

impl Player {
    fn new(order: u32, taps: u32) -> Result<Player, u32> {
        let mut p = Player { order: 0, taps: 0, window: 0, count: 0 };
        let answer = unsafe {
            declared::meter_player_new(order, taps, &mut p.order, &mut p.taps, &mut p.window, &mut p.count)
        };
        if answer == 0 { Ok(p) } else { Err(answer) }
    }

    fn step(&mut self) -> Result<i32, u32> {
        let mut sign = 0;
        let answer = unsafe {
            declared::meter_player_step(&mut self.order, &mut self.taps, &mut self.window, &mut self.count, &mut sign)
        };
        if answer == 0 { Ok(sign) } else { Err(answer) }
    }

    fn play(&mut self, signs: &mut [i8]) -> u32 {
        let (at, n) = (signs.as_mut_ptr(), signs.len());
        unsafe {
            declared::meter_player_play(&mut self.order, &mut self.taps, &mut self.window, &mut self.count, at, n)
        }
    }
}

struct Room {
    wide: Vec<i64>,
    tags: Vec<u16>,
}

impl Room {
    fn new(p: usize) -> Room {
        Room { wide: vec![5; p + 1], tags: vec![5; p] }
    }

    fn is_clear(&self) -> bool {
        self.wide.iter().all(|&v| v == 0) && self.tags.iter().all(|&v| v == 0)
    }
}

fn recording(order: u32, taps: u32, y: &[i32], out: &mut [i64], room: &mut Room) -> Told {
    told(|period| unsafe {
        declared::meter_recording(
            order, taps, y.as_ptr(), y.len(), out.as_mut_ptr(), out.len(),
            room.wide.as_mut_ptr(), room.wide.len(), room.tags.as_mut_ptr(), room.tags.len(), period,
        )
    })
}

fn predict(order: u32, taps: u32, h: &[i32], out: &mut [i32]) -> Told {
    told(|period| unsafe { declared::meter_predict(order, taps, h.as_ptr(), h.len(), out.as_mut_ptr(), out.len(), period) })
}

fn predict_in_room(order: u32, taps: u32, h: &[i32], out: &mut [i32], room: &mut [i64]) -> Told {
    let (rp, rn) = (room.as_mut_ptr(), room.len());
    told(|period| unsafe { declared::meter_predict_in_room(order, taps, h.as_ptr(), h.len(), out.as_mut_ptr(), out.len(), rp, rn, period) })
}

fn legendre_sequence(p: u32, out: &mut [u8]) -> u32 {
    unsafe { declared::meter_legendre_sequence(p, out.as_mut_ptr(), out.len()) }
}

fn legendre_recording(p: u32, y: &[i32], out: &mut [i64]) -> u32 {
    unsafe { declared::meter_legendre_recording(p, y.as_ptr(), y.len(), out.as_mut_ptr(), out.len()) }
}

fn legendre_predict(p: u32, h: &[i32], out: &mut [i32]) -> u32 {
    unsafe { declared::meter_legendre_predict(p, h.as_ptr(), h.len(), out.as_mut_ptr(), out.len()) }
}

// A verdict's state and value: what judging and an entry write, and what is handed to a filing.
type Pair = (u32, usize);

// What the places for a verdict hold before a call.
const UNSAID: Pair = (77, 77);

// The answer of a call that writes a verdict, and what the verdict's places hold after it.
type Said = (u32, Pair);

fn said(call: impl FnOnce(&mut u32, &mut usize) -> u32) -> Said {
    let (mut state, mut value) = UNSAID;
    let answer = call(&mut state, &mut value);
    (answer, (state, value))
}

fn judge(order: u32, taps: u32, y: &[i32]) -> (Said, u32) {
    let mut period = UNTOLD;
    let found = said(|state, value| unsafe { declared::meter_judge(order, taps, y.as_ptr(), y.len(), state, value, &mut period) });
    (found, period)
}

fn judge_capture(order: u32, taps: u32, m: u32, y: &[i32]) -> (Said, u32) {
    let mut period = UNTOLD;
    let found = said(|state, value| unsafe { declared::meter_judge_capture(order, taps, m, y.as_ptr(), y.len(), state, value, &mut period) });
    (found, period)
}

// The editions of the report rules, as meter.h numbers them.
const HALVES_AWAY: u32 = 1;
const HALVES_TO_EVEN: u32 = 2;

#[derive(Clone, PartialEq)]
struct Campaign {
    order: u32,
    taps: u32,
    capacity: u32,
    edition: u32,
    days: Vec<u8>,
    slots: Vec<u16>,
    periods: Vec<u8>,
    store: Vec<i32>,
    sums: Vec<i64>,
}

macro_rules! lent {
    ($call:ident, $c:expr, $ptr:ident $(, $more:expr)*) => {
        unsafe {
            declared::$call(
                $c.order, $c.taps, $c.capacity, $c.edition, $c.days.$ptr(), $c.days.len(), $c.slots.$ptr(), $c.slots.len(),
                $c.periods.$ptr(), $c.periods.len(), $c.store.$ptr(), $c.store.len(), $c.sums.$ptr(), $c.sums.len() $(, $more)*
            )
        }
    };
}

impl Campaign {
    // Memory as it is before a start, in edition 1.
    fn lent(order: u32, taps: u32, capacity: u32, days: usize, periods: usize) -> Campaign {
        let p = length(order);
        Campaign {
            order,
            taps,
            capacity,
            edition: HALVES_AWAY,
            days: vec![9; days],
            slots: vec![9; 64],
            periods: vec![9; periods],
            store: vec![9; capacity as usize * p],
            sums: vec![9; p],
        }
    }

    fn begin(&mut self) -> Told {
        told(|period| lent!(meter_start, self, as_mut_ptr, period))
    }

    fn start(order: u32, taps: u32, capacity: u32, days: usize, periods: usize) -> (Told, Campaign) {
        let mut c = Campaign::lent(order, taps, capacity, days, periods);
        (c.begin(), c)
    }

    fn enter(&mut self, day: u32, y: &[i32]) -> Result<(u32, usize), u32> {
        let (mut state, mut value) = (0, 0);
        match lent!(meter_enter, self, as_mut_ptr, day, y.as_ptr(), y.len(), &mut state, &mut value) {
            0 => Ok((state, value)),
            n => Err(n),
        }
    }

    fn capture(&mut self, day: u32, m: u32, y: &[i32]) -> Result<(u32, usize), u32> {
        let (mut state, mut value) = (0, 0);
        match lent!(meter_capture, self, as_mut_ptr, day, m, y.as_ptr(), y.len(), &mut state, &mut value) {
            0 => Ok((state, value)),
            n => Err(n),
        }
    }

    fn file(&mut self, day: u32, y: &[i32], (shown, place): Pair) -> Said {
        said(|state, value| lent!(meter_file, self, as_mut_ptr, day, y.as_ptr(), y.len(), shown, place, state, value))
    }

    fn file_capture(&mut self, day: u32, m: u32, y: &[i32], (shown, place): Pair) -> Said {
        said(|state, value| lent!(meter_file_capture, self, as_mut_ptr, day, m, y.as_ptr(), y.len(), shown, place, state, value))
    }

    fn withdraw(&mut self, day: u32) -> u32 {
        lent!(meter_withdraw, self, as_mut_ptr, day)
    }

    fn counts(&self) -> Result<[u32; 5], u32> {
        let [mut u, mut s, mut o, mut d, mut w] = [0; 5];
        match lent!(meter_counts, self, as_ptr, &mut u, &mut s, &mut o, &mut d, &mut w) {
            0 => Ok([u, s, o, d, w]),
            n => Err(n),
        }
    }

    fn response(&self, r: &mut [i64], mean: &mut [i32], room: &mut Room) -> u32 {
        let (rp, rn, mp, mn) = (r.as_mut_ptr(), r.len(), mean.as_mut_ptr(), mean.len());
        let (wp, wn, tp, tn) = (room.wide.as_mut_ptr(), room.wide.len(), room.tags.as_mut_ptr(), room.tags.len());
        lent!(meter_response, self, as_ptr, rp, rn, mp, mn, wp, wn, tp, tn)
    }

    // The three levels, or none where nothing stands.
    fn summary(&self, room: &mut Room) -> Result<Option<[f64; 3]>, u32> {
        let (mut stands, [mut high, mut low, mut peak]) = (9, [0.0; 3]);
        let (wp, wn, tp, tn) = (room.wide.as_mut_ptr(), room.wide.len(), room.tags.as_mut_ptr(), room.tags.len());
        match lent!(meter_summary, self, as_ptr, wp, wn, tp, tn, &mut stands, &mut high, &mut low, &mut peak) {
            0 => Ok((stands == 1).then_some([high, low, peak])),
            n => Err(n),
        }
    }
}

const Y: [i32; 7] = [-1, -3, -1, 3, 3, -3, 1];
const R: [i64; 7] = [16, 0, -8, 0, 0, 0, 0];
const H: [i32; 7] = [2, 0, -1, 0, 0, 0, 0];
// Y times 4, so that it is kept.
const NIGHT: [i32; 7] = [-4, -12, -4, 12, 12, -12, 4];

// P, or room for the largest order where the order is above it.
fn length(order: u32) -> usize {
    (1 << order.min(16)) - 1
}

// What was expected, and whether it held.
type Facts = Vec<(String, bool)>;

macro_rules! expect {
    ($facts:expr, $fact:expr) => {
        $facts.push((stringify!($fact).to_string(), $fact))
    };
}

fn registers(facts: &mut Facts) {
    expect!(facts, [taps(2, 3), taps(2, 1), taps(2, 2), taps(2, 4), taps(17, 3)] == [(0, 3), (4, 1), (3, UNTOLD), (2, UNTOLD), (1, UNTOLD)]);
    expect!(facts, [default_taps(16), default_taps(1)] == [Ok(45), Err(1)]);
    let mut bits = [9u8; 8];
    expect!(facts, sequence(3, 5, &mut bits[..6]) == (6, UNTOLD));
    expect!(facts, sequence(3, 5, &mut bits) == (0, 7));
    expect!(facts, bits == [1, 1, 1, 0, 1, 0, 0, 9]);
    let mut player = Player::new(3, 3).expect("taps 3 have tap 0");
    expect!(facts, player.step() == Ok(-1));
    let mut signs = [0i8; 6];
    expect!(facts, player.play(&mut signs) == 0);
    expect!(facts, signs == [-1, -1, 1, 1, -1, 1]);
    player.window = 0;
    expect!(facts, player.step() == Err(16));
}

fn recordings(facts: &mut Facts) {
    let (mut room, mut r, mut y) = (Room::new(7), [0i64; 7], [0i32; 7]);
    let (beyond, loud) = ([8388608, 0, 0, 0, 0, 0, 0], [8388607, 8388607, 0, 0, 0, 0, 0]);
    expect!(facts, predict(3, 3, &H, &mut y) == (0, 7));
    expect!(facts, y == Y);
    expect!(facts, predict(3, 3, &H[..6], &mut y) == (5, UNTOLD));
    expect!(facts, predict(3, 3, &H, &mut y[..6]) == (6, UNTOLD));
    expect!(facts, predict(3, 3, &beyond, &mut y) == (7, UNTOLD));
    expect!(facts, predict(3, 3, &loud, &mut y) == (8, UNTOLD));
    let (mut lent, mut again) = ([9i64; 9], [0i32; 7]);
    expect!(facts, predict_in_room(3, 3, &H[..6], &mut again, &mut lent) == (5, UNTOLD));
    expect!(facts, predict_in_room(3, 3, &H, &mut again, &mut lent[..7]) == (6, UNTOLD));
    expect!(facts, predict_in_room(3, 3, &beyond, &mut again, &mut lent) == (7, UNTOLD));
    expect!(facts, predict_in_room(3, 3, &loud, &mut again, &mut lent) == (8, UNTOLD));
    expect!(facts, again == [0; 7] && lent == [9; 9]);
    expect!(facts, predict_in_room(3, 3, &H, &mut again, &mut lent) == (0, 7));
    expect!(facts, again == Y && lent == [0, 0, 0, 0, 0, 0, 0, 0, 9]);
    expect!(facts, recording(3, 3, &Y, &mut r, &mut room) == (0, 7));
    expect!(facts, r == R && room.is_clear());
    expect!(facts, recording(3, 3, &Y[..6], &mut r, &mut room) == (5, UNTOLD));
    expect!(facts, recording(3, 3, &Y, &mut r[..6], &mut room) == (6, UNTOLD));
    expect!(facts, recording(3, 3, &beyond, &mut r, &mut room) == (7, UNTOLD));
}

// The three calls on a short room, each output 9s before: their answers, and whether each has written exactly where it was accepted.
fn short_room(p: u32, given: &[i32], out: usize) -> ([u32; 3], bool) {
    let (mut bits, mut r, mut y) = (vec![9; out], vec![9; out], vec![9; out]);
    let answers = [legendre_sequence(p, &mut bits), legendre_recording(p, given, &mut r), legendre_predict(p, given, &mut y)];
    let left = [bits == vec![9; out], r == vec![9; out], y == vec![9; out]];
    (answers, answers.map(|n| n != 0) == left)
}

// By hand: x is -1, 1, 1, -1, 1, -1, -1, y(j) is 2 x(j) - x(j-2), and r is 8 times the response.
fn short_rooms(facts: &mut Facts) {
    let (mut bits, mut y, mut r) = ([9u8; 8], [9i32; 8], [9i64; 8]);
    expect!(facts, legendre_sequence(7, &mut bits) == 0 && bits == [1, 0, 0, 1, 0, 1, 1, 9]);
    expect!(facts, legendre_predict(7, &H, &mut y) == 0 && y == [-1, 3, 3, -3, 1, -1, -3, 9]);
    expect!(facts, legendre_recording(7, &y[..7], &mut r) == 0 && r[..7] == R && r[7] == 9);
    let (beyond, below, loud) = ([8388608, 8388607, 0, 0, 0, 0, 0], [0, 0, 0, 0, 0, 0, -8388609], [8388607, 8388607, 0, 0, 0, 0, 0]);
    expect!(facts, short_room(7, &H, 7) == ([0, 0, 0], true));
    // Predicted, the first is out of range at place 0 already, the second only at place 1.
    expect!(facts, short_room(7, &loud, 8) == ([0, 0, 8], true) && short_room(7, &[8388607, -8388607, 0, 0, 0, 0, 0], 7) == ([0, 0, 8], true));
    expect!(facts, short_room(7, &beyond, 7) == ([0, 7, 7], true) && short_room(7, &below, 7) == ([0, 7, 7], true));
    expect!(facts, short_room(7, &beyond, 6) == ([6, 6, 6], true) && short_room(7, &H, 0) == ([6, 6, 6], true));
    expect!(facts, short_room(7, &beyond[..6], 6) == ([6, 5, 5], true) && short_room(7, &[8388608; 8], 7) == ([0, 5, 5], true));
    for p in [0, 1, 3, 5, 6, 8, 13, 15, 63, 126, 128, 131, 255, 263, 65543, 2147483655, 4294967295] {
        expect!(facts, short_room(p, &H, 7) == ([25, 25, 25], true) && short_room(p, &beyond[..6], 0) == ([25, 25, 25], true));
    }
}

fn campaigns(facts: &mut Facts) {
    let (mut room, mut r, mut mean) = (Room::new(7), [0i64; 7], [0i32; 7]);
    expect!(facts, Campaign::start(3, 3, 65, 366, 63).0 == (9, UNTOLD));
    expect!(facts, Campaign::start(3, 3, 2, 365, 64).0 == (6, UNTOLD));
    expect!(facts, Campaign::start(3, 3, 2, 366, 63).0 == (6, UNTOLD));
    expect!(facts, Campaign::start(4, 15, 2, 365, 63).0 == (4, 5));
    let (answer, mut c) = Campaign::start(3, 3, 2, 366, 64);
    expect!(facts, answer == (0, 7));
    expect!(facts, c.summary(&mut room) == Ok(None));
    expect!(facts, c.enter(1, &NIGHT) == Ok((1, 0)));
    expect!(facts, c.enter(2, &[5, 4, 9, 5, 6, 11, 5]) == Ok((3, 0)));
    expect!(facts, c.enter(3, &[0, 0, 0, 8388607, 0, 0, 0]) == Ok((2, 3)));
    expect!(facts, c.enter(1, &NIGHT) == Err(11));
    expect!(facts, c.counts() == Ok([363, 1, 1, 1, 0]));
    expect!(facts, c.response(&mut r, &mut mean, &mut room) == 0);
    expect!(facts, r == R.map(|z| 4 * z) && mean == H.map(|z| 4 * z));
    expect!(facts, c.summary(&mut room) == Ok(Some([8.0, -4.0, 8.0])));
    expect!(facts, c.withdraw(1) == 0 && c.withdraw(1) == 13);
    expect!(facts, c.response(&mut r, &mut mean, &mut room) == 14);
}

// A capture of m periods behind this run-in, each NIGHT.
fn nights(run_in: i32, m: usize) -> Vec<i32> {
    [vec![run_in; 7], NIGHT.repeat(m)].concat()
}

fn captures(facts: &mut Facts) {
    let (mut room, mut r, mut mean) = (Room::new(7), [0i64; 7], [0i32; 7]);
    let (_, mut c) = Campaign::start(3, 3, 2, 366, 65);
    let begun = c.clone();
    for m in [0, 17, 255, 4294967295] {
        expect!(facts, c.capture(1, m, &nights(0, 1)) == Err(18) && c.capture(367, m, &NIGHT) == Err(10) && c == begun);
    }
    for m in [1, 2, 4, 5, 16] {
        let y = nights(8388607, m as usize);
        expect!(facts, c.capture(1, m, &y[1..]) == Err(5) && c.capture(1, m, &y[7..]) == Err(5) && c.enter(1, &y) == Err(5));
        expect!(facts, c.capture(1, m, &nights(8388608, m as usize)) == Err(7));
        expect!(facts, c.capture(1, m, &y) == Ok((1, 0)));
        expect!(facts, c.periods[..2] == [m as u8, 0] && c.periods[64] == 9 && c.store[..7] == NIGHT.map(|z| z * m as i32));
        expect!(facts, c.capture(1, m, &y) == Err(11));
        expect!(facts, c.response(&mut r, &mut mean, &mut room) == 0 && r == R.map(|z| 4 * z * i64::from(m)) && mean == H.map(|z| 4 * z));
        expect!(facts, c.summary(&mut room) == Ok(Some([8.0, -4.0, 8.0])));
        for broken in [0, 17] {
            c.periods[0] = broken;
            expect!(facts, c.counts() == Err(15) && c.withdraw(1) == 15 && c.capture(2, m, &y) == Err(15));
            c.periods[0] = m as u8;
        }
        c.periods[2] = 1;
        expect!(facts, c.summary(&mut room) == Err(15));
        c.periods[2] = 0;
        expect!(facts, c.withdraw(1) == 0 && c.periods == begun.periods && c.store == begun.store && c.sums == begun.sums);
        for (place, rail) in [(0, -8388608), (7 * m as usize - 1, 8388607)] {
            let mut hit = y.clone();
            hit[7 + place] = rail;
            expect!(facts, c.capture(1, m, &hit) == Ok((2, place)));
        }
        expect!(facts, c.capture(1, m, &[vec![8388607; 7], [5, 4, 9, 5, 6, 11, 5].repeat(m as usize)].concat()) == Ok((3, 0)));
    }
}

// The states that a verdict gives a day, as meter.h numbers them.
const STANDING: u32 = 1;
const OVERLOADED: u32 = 2;
const DEAD: u32 = 3;

// A night of one period that is kept, one that is dead and one at a rail, each with what judging says of it.
const JUDGED: [([i32; 7], Pair); 3] =
    [(NIGHT, (STANDING, 0)), ([5, 4, 9, 5, 6, 11, 5], (DEAD, 0)), ([0, 0, 0, 8388607, 0, 0, -8388608], (OVERLOADED, 3))];

fn judgements(facts: &mut Facts) {
    for (y, pair) in JUDGED {
        expect!(facts, judge(3, 3, &y) == ((0, pair), 7));
        for m in [1, 2, 16] {
            let captured = [vec![-8388608; 7], y.repeat(m as usize)].concat();
            expect!(facts, judge_capture(3, 3, m, &captured) == ((0, pair), 7));
            expect!(facts, judge_capture(3, 3, m, &captured[1..]) == ((5, UNSAID), UNTOLD));
        }
        expect!(facts, judge(3, 3, &y[1..]) == ((5, UNSAID), UNTOLD) && judge(4, 15, &y) == ((4, UNSAID), 5));
        for m in [0, 17, 4294967295] {
            expect!(facts, judge_capture(3, 3, m, &y) == ((18, UNSAID), UNTOLD) && judge_capture(4, 15, m, &y) == ((4, UNSAID), 5));
        }
    }
    for beyond in [8388608, -8388609] {
        let captured = nights(beyond, 1);
        expect!(facts, judge(3, 3, &captured[6..13]) == ((7, UNSAID), UNTOLD) && judge_capture(3, 3, 1, &captured) == ((7, UNSAID), UNTOLD));
    }
}

// The night filed with what judging says leaves what the night entered leaves; with any other pair nothing changes.
fn filed_as_entered(facts: &mut Facts, begun: &Campaign, day: u32, y: &[i32], right: Pair) {
    let captured = [vec![8388607; 7], y.to_vec()].concat();
    let mut entered = begun.clone();
    let found = entered.enter(day, y).expect("a night that is accepted");
    let (mut one, mut other) = (begun.clone(), begun.clone());
    for pair in [(STANDING, 0), (STANDING, 3), (OVERLOADED, 0), (OVERLOADED, 3), (OVERLOADED, 10), (DEAD, 0), (DEAD, 3), (0, 0), (4, 0), (9, 9)] {
        if pair != right {
            expect!(facts, one.file(day, y, pair) == (23, UNSAID) && other.file_capture(day, 1, &captured, pair) == (23, UNSAID));
            expect!(facts, one == *begun && other == *begun);
        }
    }
    expect!(facts, one.file(day, y, judge(3, 3, y).0.1) == (0, found) && one == entered);
    expect!(facts, other.file_capture(day, 1, &captured, judge_capture(3, 3, 1, &captured).0.1) == (0, found) && other == entered);
}

fn filings(facts: &mut Facts) {
    let (_, mut c) = Campaign::start(3, 3, 2, 366, 64);
    for day in 1..=2 {
        for (y, pair) in JUDGED {
            filed_as_entered(facts, &c, day + 10, &y, pair);
        }
        expect!(facts, c.file_capture(day, 2, &nights(8388607, 2), (STANDING, 0)) == (0, (STANDING, day as usize - 1)));
    }
    let full = c.clone();
    let (kept, dead) = ((STANDING, 0), (DEAD, 0));
    expect!(facts, c.file(0, &NIGHT, kept) == (10, UNSAID) && c.file_capture(367, 17, &NIGHT, kept) == (10, UNSAID));
    expect!(facts, c.file_capture(9, 17, &NIGHT, kept) == (18, UNSAID) && c.file_capture(9, 0, &NIGHT, kept) == (18, UNSAID));
    expect!(facts, c.file(9, &NIGHT[1..], kept) == (5, UNSAID) && c.file_capture(9, 1, &NIGHT, kept) == (5, UNSAID));
    expect!(facts, c.file(1, &[8388608; 7], kept) == (7, UNSAID) && c.file_capture(1, 1, &nights(8388608, 1), kept) == (7, UNSAID));
    expect!(facts, c.file(1, &NIGHT, dead) == (11, UNSAID) && c.file_capture(1, 1, &nights(0, 1), dead) == (11, UNSAID));
    expect!(facts, c.file(9, &NIGHT, dead) == (23, UNSAID) && c.file_capture(9, 1, &nights(0, 1), dead) == (23, UNSAID));
    expect!(facts, c.file(9, &NIGHT, kept) == (12, UNSAID) && c.file_capture(9, 1, &nights(0, 1), kept) == (12, UNSAID));
    expect!(facts, c == full);
    c.sums[0] += 1;
    expect!(facts, c.file(0, &NIGHT, dead) == (15, UNSAID) && c.file_capture(0, 17, &NIGHT, dead) == (15, UNSAID));
}

// A night whose r, over 8, is at an exact half at every place but one; r, and the mean in each edition.
const AT_HALVES: [i32; 7] = [-6, 9, 0, 5, -1, -1, -8];
const R_AT_HALVES: [i64; 7] = [-4, -12, 4, -24, 20, 20, 12];
const AWAY: [i32; 7] = [-1, -2, 1, -3, 3, 3, 2];
const TO_EVEN: [i32; 7] = [0, -2, 0, -3, 2, 2, 2];
const NO_EDITIONS: [u32; 7] = [0, 3, 257, 258, 65537, 2147483650, 4294967295];

// What a campaign tells when it is asked, and the room that it worked in.
#[derive(PartialEq)]
struct Report {
    answer: u32,
    r: [i64; 7],
    mean: [i32; 7],
    room: (Vec<i64>, Vec<u16>),
    counts: Result<[u32; 5], u32>,
    levels: Result<Option<[f64; 3]>, u32>,
}

fn report(c: &Campaign, edition: u32) -> Report {
    let asked = Campaign { edition, ..c.clone() };
    let (mut r, mut mean, mut room) = ([9; 7], [9; 7], Room::new(7));
    let answer = asked.response(&mut r, &mut mean, &mut room);
    Report { answer, r, mean, room: (room.wide, room.tags), counts: asked.counts(), levels: asked.summary(&mut Room::new(7)) }
}

// Whether the campaign tells this r with these means, and in all else the same in both editions.
fn told_in_both(c: &Campaign, r: [i64; 7], away: [i32; 7], to_even: [i32; 7]) -> bool {
    let (one, two) = (report(c, HALVES_AWAY), report(c, HALVES_TO_EVEN));
    one.answer == 0 && one.r == r && one.mean == away && two.mean == to_even && Report { mean: to_even, ..one } == two
}

// The same days entered, withdrawn and entered again.
fn run_in(facts: &mut Facts, edition: u32) -> Campaign {
    let captured = [vec![8388607; 7], AT_HALVES.to_vec()].concat();
    let mut c = Campaign { edition, ..Campaign::lent(3, 3, 2, 366, 64) };
    expect!(facts, c.begin() == (0, 7));
    expect!(facts, c.enter(1, &AT_HALVES) == Ok((STANDING, 0)) && told_in_both(&c, R_AT_HALVES, AWAY, TO_EVEN));
    expect!(facts, c.capture(2, 1, &captured) == Ok((STANDING, 1)) && c.withdraw(1) == 0 && told_in_both(&c, R_AT_HALVES, AWAY, TO_EVEN));
    expect!(facts, c.withdraw(2) == 0 && c.file(3, &AT_HALVES, (STANDING, 0)) == (0, (STANDING, 0)));
    expect!(facts, c.withdraw(3) == 0 && c.file_capture(4, 1, &captured, (STANDING, 0)) == (0, (STANDING, 0)));
    expect!(facts, told_in_both(&c, R_AT_HALVES, AWAY, TO_EVEN));
    expect!(facts, c.enter(1, &AT_HALVES) == Ok((STANDING, 1)));
    c
}

// An edition that is none: 15 of every call but a start, which refuses it between 9 and 6.
fn no_edition(facts: &mut Facts, c: &Campaign, edition: u32) {
    let (captured, kept) = (nights(0, 1), (STANDING, 0));
    let refused = Report { answer: 15, r: [9; 7], mean: [9; 7], room: (vec![5; 8], vec![5; 7]), counts: Err(15), levels: Err(15) };
    expect!(facts, report(c, edition) == refused);
    let begun = Campaign { edition, ..c.clone() };
    let mut c = begun.clone();
    expect!(facts, c.enter(9, &NIGHT) == Err(15) && c.capture(9, 1, &captured) == Err(15) && c.withdraw(1) == 15);
    expect!(facts, c.file(9, &NIGHT, kept) == (15, UNSAID) && c.file_capture(9, 1, &captured, kept) == (15, UNSAID));
    expect!(facts, c.begin() == (24, UNTOLD) && c == begun);
    for capacity in [0, 65] {
        expect!(facts, Campaign { edition, capacity, ..begun.clone() }.begin() == (9, UNTOLD));
    }
    for (days, periods) in [(365, 64), (366, 63)] {
        expect!(facts, Campaign { edition, ..Campaign::lent(3, 3, 2, days, periods) }.begin() == (24, UNTOLD));
    }
    c.sums.pop();
    expect!(facts, c.begin() == (24, UNTOLD));
    c.store.pop();
    expect!(facts, c.begin() == (24, UNTOLD));
}

fn editions(facts: &mut Facts) {
    let (away, to_even) = (run_in(facts, HALVES_AWAY), run_in(facts, HALVES_TO_EVEN));
    expect!(facts, away == Campaign { edition: HALVES_AWAY, ..to_even });
    for edition in NO_EDITIONS {
        no_edition(facts, &away, edition);
    }
}

// What the eight calls that tell a period answer to a register, all else being as they want it.
fn each_call(order: u32, t: u32) -> [Told; 8] {
    let p = length(order);
    let (heard, mut bits, mut wide, mut y) = (vec![0; 2 * p], vec![0; p], vec![0; p], vec![0; p]);
    let mut room = Room::new(p);
    let ((one, _), one_told) = judge(order, t, &heard[p..]);
    let ((several, _), several_told) = judge_capture(order, t, 1, &heard);
    [
        taps(order, t),
        sequence(order, t, &mut bits),
        recording(order, t, &heard[p..], &mut wide, &mut room),
        predict(order, t, &heard[p..], &mut y),
        predict_in_room(order, t, &heard[p..], &mut y, &mut room.wide),
        Campaign::start(order, t, 1, 366, 64).0,
        (one, one_told),
        (several, several_told),
    ]
}

fn periods(facts: &mut Facts) {
    let refused = [(1, 3, (1, UNTOLD)), (17, 3, (1, UNTOLD)), (4, 16, (2, UNTOLD)), (4, 14, (3, UNTOLD))];
    let short = [(4, 15, (4, 5)), (4, 5, (4, 6)), (3, 7, (4, 1)), (5, 3, (4, 21)), (16, 65535, (4, 17)), (16, 99, (4, 64897))];
    let accepted = [(2, 3, (0, 3)), (4, 9, (0, 15)), (16, 45, (0, 65535))];
    for (order, taps, answer) in refused.into_iter().chain(short).chain(accepted) {
        let found = each_call(order, taps);
        facts.push((format!("order {order}, taps {taps}: {answer:?}, not {found:?}"), found == [answer; 8]));
    }
}

fn main() -> ExitCode {
    let mut facts = Facts::new();
    registers(&mut facts);
    recordings(&mut facts);
    short_rooms(&mut facts);
    campaigns(&mut facts);
    captures(&mut facts);
    judgements(&mut facts);
    filings(&mut facts);
    editions(&mut facts);
    periods(&mut facts);
    let wrong: Vec<_> = facts.iter().filter(|(_, held)| !held).collect();
    for (fact, _) in &wrong {
        println!("wrong: {fact}");
    }
    println!("calls from Rust: {} expected, {} wrong", facts.len(), wrong.len());
    ExitCode::from(u8::from(!wrong.is_empty()))
}
