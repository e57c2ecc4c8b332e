//! Traces of the cases of "Reckoned by hand", and of one of two half-shafts. The
//! texts were written from the rule book, not taken from the program.

use crate::support::*;
use reference::lookup::loss;
use reference::trace::{entry, point, NoTrace};

/// The lines of this name, without it.
fn steps(text: &str, name: &str) -> Vec<String> {
    let label = format!("{name:<18}");
    let found = text.lines().filter_map(|line| line.strip_prefix(&label));
    found.map(str::to_string).collect()
}

const FIRST_CASE: &str = "\
data              104 bytes, kind 2, measured
ratio             3.000, at byte 11: 0B B8
speed             100 rpm, number 0 of 2 counted from 0, at byte 16: 00 64
torque            3,000 Nm, number 0 of 2 counted from 0, at byte 23: 0B B8
row               0 = 0 × 2 + 0 counted from 0, at byte 72 + 8 × 0 = 72: 00 01 AD B0 00 04 93 E0
input torque      110,000 hundredths = 1,100.00 Nm, at byte 72: 00 01 AD B0
output torque     300,000 hundredths = 3,000.00 Nm, at byte 76: 00 04 93 E0
input sensor      body at byte 30: N 10,000, w 0, z 0, c 100, k 1,000, s 0, p 0, d 0, R 10
C                 110,000 hundredths, the input torque
a                 0 × 0 × 110,000 / (100,000 × 10) = 0 / 1,000,000, rounded up 0 grains
b                 0 × 0 × 10,000 / (1,000 × 10) = 0 / 10,000, rounded up 0 grains
g                 100 × 10,000 × 10 / 1,000 = 10,000,000 / 1,000, rounded up 10,000 grains
h                 0 × 0 × 10,000 / 100,000 = 0 / 100,000, rounded up 0 grains
sum of squares    4 × (0×0 + 0×0 + 3×10,000×10,000 + 0×0) = 1,200,000,000
U                 20,000 grains: 3 × 20,000 × 20,000 = 1,200,000,000, at least 1,200,000,000
one less          3 × 19,999 × 19,999 = 1,199,880,003, below 1,200,000,000
output sensor     body at byte 51: N 40,000, w 0, z 0, c 100, k 1,000, s 0, p 0, d 0, R 10
C                 300,000 hundredths, the output torque
a                 0 × 0 × 300,000 / (100,000 × 10) = 0 / 1,000,000, rounded up 0 grains
b                 0 × 0 × 40,000 / (1,000 × 10) = 0 / 10,000, rounded up 0 grains
g                 100 × 40,000 × 10 / 1,000 = 40,000,000 / 1,000, rounded up 40,000 grains
h                 0 × 0 × 40,000 / 100,000 = 0 / 100,000, rounded up 0 grains
sum of squares    4 × (0×0 + 0×0 + 3×40,000×40,000 + 0×0) = 19,200,000,000
U                 80,000 grains: 3 × 80,000 × 80,000 = 19,200,000,000, at least 19,200,000,000
one less          3 × 79,999 × 79,999 = 19,199,520,003, below 19,200,000,000
V                 20,000 × 3.000 = 60,000,000 / 1,000, rounded up 60,000 grains
W                 80,000 grains, U of the output sensor
sum of squares    60,000×60,000 + 80,000×80,000 = 10,000,000,000
loss uncertainty  100,000 grains: 100,000 × 100,000 = 10,000,000,000, at least 10,000,000,000
one less          99,999 × 99,999 = 9,999,800,001, below 10,000,000,000
measured loss     110,000 × 3.000 - 300,000 = 30,000.000 hundredths
5 % of it         1,500.00000 hundredths
1 Nm × ratio      100 × 3.000 = 300.00000 hundredths
allowance         1,500.00000 hundredths, the larger of the two
above allowance   1,000.00000 (100,000 grains) is not above 1,500.00000: 0.00000 hundredths
unrounded entry   30,000.000 + 0.00000 = 30,000.00000 hundredths
entry             30,000 hundredths, rounded up once, = 300.00 Nm
listing           line 2: 100,3000,300.00
";

#[test]
fn the_whole_trace_of_the_first_case() {
    let text = entry(&calibrated(110_000).bytes(), 100, 3_000).unwrap();
    assert_eq!(text, FIRST_CASE);
}

const HALF_SHAFTS: &str = "\
data              141 bytes, kind 3, measured, left and right
ratio             3.000, at byte 11: 0B B8
speed             100 rpm, number 0 of 2 counted from 0, at byte 16: 00 64
torque            3,000 Nm, number 0 of 2 counted from 0, at byte 23: 0B B8
row               0 = 0 × 2 + 0 counted from 0, at byte 93 + 12 × 0 = 93: 00 01 8E 70 00 03 0D 40 00 01 86 A0
input torque      102,000 hundredths = 1,020.00 Nm, at byte 93: 00 01 8E 70
left torque       200,000 hundredths = 2,000.00 Nm, at byte 97: 00 03 0D 40
right torque      100,000 hundredths = 1,000.00 Nm, at byte 101: 00 01 86 A0
output torque     200,000 + 100,000 = 300,000 hundredths = 3,000.00 Nm
input sensor      body at byte 30: N 10,000, w 0, z 0, c 100, k 1,000, s 0, p 0, d 0, R 10
C                 102,000 hundredths, the input torque
a                 0 × 0 × 102,000 / (100,000 × 10) = 0 / 1,000,000, rounded up 0 grains
b                 0 × 0 × 10,000 / (1,000 × 10) = 0 / 10,000, rounded up 0 grains
g                 100 × 10,000 × 10 / 1,000 = 10,000,000 / 1,000, rounded up 10,000 grains
h                 0 × 0 × 10,000 / 100,000 = 0 / 100,000, rounded up 0 grains
sum of squares    4 × (0×0 + 0×0 + 3×10,000×10,000 + 0×0) = 1,200,000,000
U                 20,000 grains: 3 × 20,000 × 20,000 = 1,200,000,000, at least 1,200,000,000
one less          3 × 19,999 × 19,999 = 1,199,880,003, below 1,200,000,000
left sensor       body at byte 51: N 30,000, w 0, z 0, c 100, k 1,000, s 0, p 0, d 0, R 10
C                 200,000 hundredths, the left output torque
a                 0 × 0 × 200,000 / (100,000 × 10) = 0 / 1,000,000, rounded up 0 grains
b                 0 × 0 × 30,000 / (1,000 × 10) = 0 / 10,000, rounded up 0 grains
g                 100 × 30,000 × 10 / 1,000 = 30,000,000 / 1,000, rounded up 30,000 grains
h                 0 × 0 × 30,000 / 100,000 = 0 / 100,000, rounded up 0 grains
sum of squares    4 × (0×0 + 0×0 + 3×30,000×30,000 + 0×0) = 10,800,000,000
U                 60,000 grains: 3 × 60,000 × 60,000 = 10,800,000,000, at least 10,800,000,000
one less          3 × 59,999 × 59,999 = 10,799,640,003, below 10,800,000,000
right sensor      body at byte 72: N 15,000, w 0, z 0, c 100, k 1,000, s 0, p 0, d 0, R 10
C                 100,000 hundredths, the right output torque
a                 0 × 0 × 100,000 / (100,000 × 10) = 0 / 1,000,000, rounded up 0 grains
b                 0 × 0 × 15,000 / (1,000 × 10) = 0 / 10,000, rounded up 0 grains
g                 100 × 15,000 × 10 / 1,000 = 15,000,000 / 1,000, rounded up 15,000 grains
h                 0 × 0 × 15,000 / 100,000 = 0 / 100,000, rounded up 0 grains
sum of squares    4 × (0×0 + 0×0 + 3×15,000×15,000 + 0×0) = 2,700,000,000
U                 30,000 grains: 3 × 30,000 × 30,000 = 2,700,000,000, at least 2,700,000,000
one less          3 × 29,999 × 29,999 = 2,699,820,003, below 2,700,000,000
V                 20,000 × 3.000 = 60,000,000 / 1,000, rounded up 60,000 grains
W                 60,000 grains, U of the left output sensor
W'                30,000 grains, U of the right output sensor
sum of squares    60,000×60,000 + 60,000×60,000 + 30,000×30,000 = 8,100,000,000
loss uncertainty  90,000 grains: 90,000 × 90,000 = 8,100,000,000, at least 8,100,000,000
one less          89,999 × 89,999 = 8,099,820,001, below 8,100,000,000
measured loss     102,000 × 3.000 - 300,000 = 6,000.000 hundredths
5 % of it         300.00000 hundredths
1 Nm × ratio      100 × 3.000 = 300.00000 hundredths
allowance         300.00000 hundredths, the larger of the two
above allowance   900.00000 (90,000 grains) - 300.00000 = 600.00000 hundredths
unrounded entry   6,000.000 + 600.00000 = 6,600.00000 hundredths
entry             6,600 hundredths, rounded up once, = 66.00 Nm
listing           line 2: 100,3000,66.00
";

#[test]
fn the_whole_trace_of_two_half_shafts() {
    let data = half_shafts([102_000, 200_000, 100_000]).bytes();
    assert_eq!(entry(&data, 100, 3_000).unwrap(), HALF_SHAFTS);
}

#[test]
fn each_side_with_its_own_numbers() {
    // The last row, of the second speed, at 93 + 36.
    let mut numbers = half_shafts([102_000, 200_000, 100_000]);
    numbers.sensors[1][1] = 7;
    numbers.sensors[2][1] = 11;
    numbers.sensors[1][7] = 20;
    numbers.sensors[2][7] = 20;
    let text = entry(&numbers.bytes(), 200, 6_000).unwrap();
    let place = "129: 00 03 5B 60 00 05 57 30 00 03 D0 90";
    assert_eq!(
        steps(&text, "row"),
        [format!(
            "3 = 1 × 2 + 1 counted from 0, at byte 93 + 12 × 3 = {place}"
        )]
    );
    let right = "250,000 hundredths = 2,500.00 Nm, at byte 137: 00 03 D0 90";
    assert_eq!(steps(&text, "right torque"), [right]);
    let torques = [
        "220,000 hundredths, the input torque",
        "350,000 hundredths, the left output torque",
        "250,000 hundredths, the right output torque",
    ];
    assert_eq!(steps(&text, "C"), torques);
    let a = steps(&text, "a");
    let left = "7 × 20 × 350,000 / (100,000 × 10) = 49,000,000 / 1,000,000, rounded up 49 grains";
    let right = "11 × 20 × 250,000 / (100,000 × 10) = 55,000,000 / 1,000,000, rounded up 55 grains";
    assert_eq!(a[1..], [left, right]);
    let sum = "350,000 + 250,000 = 600,000 hundredths = 6,000.00 Nm";
    assert_eq!(steps(&text, "output torque"), [sum]);
}

/// The last steps of a case, from the measured loss on.
fn last_steps(input: u32) -> String {
    let text = entry(&calibrated(input).bytes(), 100, 3_000).unwrap();
    let start = text.find("measured loss").unwrap();
    text[start..].to_string()
}

#[test]
fn the_uncertainty_above_both_alike() {
    assert_eq!(
        last_steps(102_000),
        "\
measured loss     102,000 × 3.000 - 300,000 = 6,000.000 hundredths
5 % of it         300.00000 hundredths
1 Nm × ratio      100 × 3.000 = 300.00000 hundredths
allowance         300.00000 hundredths, the larger of the two
above allowance   1,000.00000 (100,000 grains) - 300.00000 = 700.00000 hundredths
unrounded entry   6,000.000 + 700.00000 = 6,700.00000 hundredths
entry             6,700 hundredths, rounded up once, = 67.00 Nm
listing           line 2: 100,3000,67.00
"
    );
}

#[test]
fn the_uncertainty_above_five_percent() {
    assert_eq!(
        last_steps(102_001),
        "\
measured loss     102,001 × 3.000 - 300,000 = 6,003.000 hundredths
5 % of it         300.15000 hundredths
1 Nm × ratio      100 × 3.000 = 300.00000 hundredths
allowance         300.15000 hundredths, the larger of the two
above allowance   1,000.00000 (100,000 grains) - 300.15000 = 699.85000 hundredths
unrounded entry   6,003.000 + 699.85000 = 6,702.85000 hundredths
entry             6,703 hundredths, rounded up once, = 67.03 Nm
listing           line 2: 100,3000,67.03
"
    );
}

#[test]
fn the_uncertainty_above_the_newton_metre_at_the_wheel() {
    assert_eq!(
        last_steps(100_000),
        "\
measured loss     100,000 × 3.000 - 300,000 = 0.000 hundredths
5 % of it         0.00000 hundredths
1 Nm × ratio      100 × 3.000 = 300.00000 hundredths
allowance         300.00000 hundredths, the larger of the two
above allowance   1,000.00000 (100,000 grains) - 300.00000 = 700.00000 hundredths
unrounded entry   0.000 + 700.00000 = 700.00000 hundredths
entry             700 hundredths, rounded up once, = 7.00 Nm
listing           line 2: 100,3000,7.00
"
    );
}

#[test]
fn refused_data_has_no_trace() {
    let numbers = calibrated(99_999);
    let place = numbers.rows_start();
    let refusal = numbers.build().unwrap_err();
    assert_eq!((refusal.number, refusal.place), (9, place));
    let data = numbers.bytes();
    assert_eq!(entry(&data, 1, 1), Err(NoTrace::Refused(refusal)));
    assert_eq!(point(&data, 1_000, 0), Err(refusal));
}

#[test]
fn what_is_not_on_the_grid() {
    let data = calibrated(110_000).bytes();
    let message = |speed, torque| match entry(&data, speed, torque) {
        Err(NoTrace::NotOnGrid(message)) => message,
        other => panic!("{other:?}"),
    };
    let speeds = "150 rpm is no speed of the map, which has 100 200";
    assert_eq!(message(150, 3_000), speeds);
    let torques = "65536 Nm is no torque of the map, which has 3000 6000";
    assert_eq!(message(200, 65_536), torques);
}

/// The sensor's numbers differ from each other, and no part is whole.
fn influenced() -> String {
    let sensor = [3_001, 7, 11, 13, 1_001, 17, 19, 23, 29];
    let rows = [[2_000, 1_500], [200_000, 200_000]];
    let sensors = [sensor, quiet_sensor(3_000)];
    let numbers = Numbers::measured(1_001, &[15, 2_000], sensors, &rows);
    entry(&numbers.bytes(), 200, 2_000).unwrap()
}

#[test]
fn each_part_with_its_numbers() {
    let text = influenced();
    let expect = |name, step: &str| assert_eq!(steps(&text, name)[0], step);
    expect(
        "input sensor",
        "body at byte 30: N 3,001, w 7, z 11, c 13, k 1,001, s 17, p 19, d 23, R 29",
    );
    expect(
        "a",
        "7 × 23 × 200,000 / (100,000 × 29) = 32,200,000 / 2,900,000, rounded up 12 grains",
    );
    expect(
        "b",
        "11 × 23 × 3,001 / (1,000 × 29) = 759,253 / 29,000, rounded up 27 grains",
    );
    expect(
        "g",
        "13 × 3,001 × 10 / 1,001 = 390,130 / 1,001, rounded up 390 grains",
    );
    expect(
        "h",
        "17 × 19 × 3,001 / 100,000 = 969,323 / 100,000, rounded up 10 grains",
    );
}

#[test]
fn the_parts_together() {
    let text = influenced();
    let expect = |name, step: &str| assert_eq!(steps(&text, name)[0], step);
    // 4 x (144 + 729 + 456,300 + 100).
    expect(
        "sum of squares",
        "4 × (12×12 + 27×27 + 3×390×390 + 10×10) = 1,829,092",
    );
    expect(
        "U",
        "781 grains: 3 × 781 × 781 = 1,829,883, at least 1,829,092",
    );
    expect("one less", "3 × 780 × 780 = 1,825,200, below 1,829,092");
    expect("V", "781 × 1.001 = 781,781 / 1,000, rounded up 782 grains");
}

#[test]
fn thousandths_of_a_hundredth() {
    // 2,001 x 1.001 - 1,500 = 503.001; a twentieth of it is 25.15005, and 100 x
    // 1.001 is 100.1.
    let rows = [[2_001, 1_500], [200_000, 200_000]];
    let sensors = [quiet_sensor(3_000); 2];
    let numbers = Numbers::measured(1_001, &[15, 2_000], sensors, &rows);
    let text = entry(&numbers.bytes(), 100, 15).unwrap();
    let loss = "2,001 × 1.001 - 1,500 = 503.001 hundredths";
    assert_eq!(steps(&text, "measured loss"), [loss]);
    assert_eq!(steps(&text, "5 % of it"), ["25.15005 hundredths"]);
    let at_wheel = "100 × 1.001 = 100.10000 hundredths";
    assert_eq!(steps(&text, "1 Nm × ratio"), [at_wheel]);
    let unrounded = "503.001 + 0.00000 = 503.00100 hundredths";
    assert_eq!(steps(&text, "unrounded entry"), [unrounded]);
    let rounded = "504 hundredths, rounded up once, = 5.04 Nm";
    assert_eq!(steps(&text, "entry"), [rounded]);
}

#[test]
fn the_least_of_all_numbers() {
    let rows = [[0, 0], [200_000, 200_000]];
    let sensors = [quiet_sensor(3_000); 2];
    let numbers = Numbers::measured(1_001, &[0, 2_000], sensors, &rows);
    let text = entry(&numbers.bytes(), 100, 0).unwrap();
    assert_eq!(
        steps(&text, "U"),
        ["0 grains: 3 × 0 × 0 = 0, at least 0"; 2]
    );
    assert_eq!(steps(&text, "one less"), ["there is none"; 3]);
    assert_eq!(
        steps(&text, "loss uncertainty"),
        ["0 grains: 0 × 0 = 0, at least 0"]
    );
}

#[test]
fn a_standard_loss() {
    let numbers = Numbers::standard(1, 3_000, &[100, 200], &[0, 9_800]);
    assert_eq!(
        entry(&numbers.bytes(), 200, 9_800).unwrap(),
        "\
data              27 bytes, kind 1, standard
ratio             3.000, at byte 11: 0B B8
speed             200 rpm, number 1 of 2 counted from 0, at byte 18: 00 C8
torque            9,800 Nm, number 1 of 2 counted from 0, at byte 25: 26 48
line              1, SR, at byte 7: 01
e                 98 %
T0                70 Nm
T1                20 Nm
exact loss        70 + 20 × 3.000 + 9,800 × (100 - 98) / 98 Nm = 32,340,000 / 980 hundredths
entry             33,000 hundredths, rounded up once, = 330.00 Nm
listing           line 5: 200,9800,330.00
"
    );
    let numbers = Numbers::standard(5, 7_000, &[100, 200], &[0, 950]);
    let text = entry(&numbers.bytes(), 100, 950).unwrap();
    assert_eq!(steps(&text, "line"), ["5, HRT, at byte 7: 05"]);
    let exact = "90 + 20 × 7.000 + 950 × (100 - 95) / 95 Nm = 26,600,000 / 950 hundredths";
    assert_eq!(steps(&text, "exact loss"), [exact]);
    let rounded = "28,000 hundredths, rounded up once, = 280.00 Nm";
    assert_eq!(steps(&text, "entry"), [rounded]);
}

#[test]
fn a_point_in_a_cell() {
    // The listing's map: (13,000 + 15,041) / 2 = 14,020.5.
    assert_eq!(
        point(&example().bytes(), 1_000, 50_000).unwrap(),
        "\
point             100.0 rpm, 500.00 Nm
speeds            100 rpm and 200 rpm, numbers 0 and 1 of 2 counted from 0
torques           0 Nm and 1,000 Nm, numbers 0 and 1 of 2 counted from 0
entry             100 rpm, 0 Nm: 13,000 hundredths, line 2 of the listing: 100,0,130.00
entry             100 rpm, 1,000 Nm: 15,041 hundredths, line 3 of the listing: 100,1000,150.41
entry             200 rpm, 0 Nm: 13,000 hundredths, line 4 of the listing: 200,0,130.00
entry             200 rpm, 1,000 Nm: 15,041 hundredths, line 5 of the listing: 200,1000,150.41
share             100 rpm: (200.0 - 100.0) / (200.0 - 100.0) = 1,000 / 1,000
share             200 rpm: (100.0 - 100.0) / (200.0 - 100.0) = 0 / 1,000
share             0 Nm: (1,000.00 - 500.00) / (1,000.00 - 0.00) = 50,000 / 100,000
share             1,000 Nm: (500.00 - 0.00) / (1,000.00 - 0.00) = 50,000 / 100,000
weight            100 rpm, 0 Nm: 1,000 / 1,000 × 50,000 / 100,000 = 50,000,000 / 100,000,000
weight            100 rpm, 1,000 Nm: 1,000 / 1,000 × 50,000 / 100,000 = 50,000,000 / 100,000,000
weight            200 rpm, 0 Nm: 0 / 1,000 × 50,000 / 100,000 = 0 / 100,000,000
weight            200 rpm, 1,000 Nm: 0 / 1,000 × 50,000 / 100,000 = 0 / 100,000,000
weight × entry    100 rpm, 0 Nm: 50,000,000 × 13,000 = 650,000,000,000
weight × entry    100 rpm, 1,000 Nm: 50,000,000 × 15,041 = 752,050,000,000
weight × entry    200 rpm, 0 Nm: 0 × 13,000 = 0
weight × entry    200 rpm, 1,000 Nm: 0 × 15,041 = 0
weighted sum      1,402,050,000,000 / 100,000,000, the four together
answer            14,021 hundredths, rounded up once, = 140.21 Nm
"
    );
}

#[test]
fn a_point_below_the_first_torque() {
    // Entries 700 at 3,000 Nm and 60,000 at 6,000 Nm; at 0 Nm twice the one less the other.
    let numbers = calibrated(100_000);
    let text = point(&numbers.bytes(), 2_000, 0).unwrap();
    let continued = "0.00 Nm is below the first torque: the line from 6,000 Nm to 3,000 Nm goes on";
    assert_eq!(steps(&text, "continued"), [continued]);
    let negative = "the share of 6,000 Nm is under zero, its weights are under zero, or 0";
    assert_eq!(steps(&text, "negative"), [negative]);
    let share = "6,000 Nm: (0.00 - 3,000.00) / (6,000.00 - 3,000.00) = -300,000 / 300,000";
    assert_eq!(steps(&text, "share")[3], share);
    let weight =
        "200 rpm, 6,000 Nm: 1,000 / 1,000 × -300,000 / 300,000 = -300,000,000 / 300,000,000";
    assert_eq!(steps(&text, "weight")[3], weight);
    let sum = "-17,580,000,000,000 / 300,000,000, the four together";
    assert_eq!(steps(&text, "weighted sum"), [sum]);
    let answer = "-58,600 hundredths, rounded up once, = -586.00 Nm";
    assert_eq!(steps(&text, "answer"), [answer]);
    assert_eq!(
        loss(&lent(&numbers.build().unwrap()), 2_000, 0),
        Ok(-58_600)
    );
    // From the first torque on, nothing is continued.
    let text = point(&numbers.bytes(), 2_000, 300_000).unwrap();
    assert_eq!(steps(&text, "continued"), Vec::<String>::new());
}

#[test]
fn points_outside_the_map() {
    let data = example().bytes();
    assert_eq!(point(&data, 999, 0), refused(20, 0));
    assert_eq!(point(&data, 2_001, u32::MAX), refused(20, 0));
    assert_eq!(point(&data, 2_000, 100_001), refused(21, 0));
    assert!(point(&data, 2_000, 100_000).is_ok());
}
