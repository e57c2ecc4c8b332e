//! The files of the folder `examples`: component data, beside each what the map program must write for it, and beside data that is accepted the text of its numbers.

use crate::bench_run;
use crate::data::{Data, Field};
use crate::listing::{report, MOST_ENTRIES};
use crate::map;
use crate::numbers_text;
use crate::numerals::bare_decimal;
use crate::stored_files::MadeFile;

/// How much of the bench run had arrived when its transfer stopped: 111 rows and a half.
const ARRIVED: usize = 1_024;

/// Component data under its name.
struct Example {
    name: &'static str,
    data: Vec<u8>,
    /// The text of its numbers, beside data that is accepted.
    numbers: Option<String>,
}

/// All files, in their order.
pub fn files() -> Vec<MadeFile> {
    examples().iter().flat_map(Example::files).collect()
}

fn examples() -> Vec<Example> {
    let bench_run = bench_run::data();
    let cut_short = bench_run.bytes()[..ARRIVED].to_vec();
    let half_shafts_remark = "Measured data with a sensor on each half-shaft";
    vec![
        Example::with_numbers("standard", "Standard data", &standard()),
        Example::with_numbers("measured", "Measured data", &measured(110_000)),
        Example::with_numbers("half-shafts", half_shafts_remark, &half_shafts()),
        Example::of("refused", measured(99_999).bytes()),
        Example::with_numbers("bench-run", "A bench run", &bench_run),
        Example::of("cut-short", cut_short),
    ]
}

impl Example {
    fn of(name: &'static str, data: Vec<u8>) -> Example {
        Example {
            name,
            data,
            numbers: None,
        }
    }

    /// Data of a single reduction with the text of its numbers, which begins by saying what the data is.
    fn with_numbers(name: &'static str, what: &str, data: &Data) -> Example {
        let ratio = bare_decimal(data.numbers(3)[0], 3);
        let remark = format!("{what}: single reduction, ratio {ratio}.");
        Example {
            numbers: Some(numbers_text::text(&remark, data)),
            ..Example::of(name, data.bytes())
        }
    }

    /// The data, its listing or its refusal, and the text of its numbers.
    fn files(&self) -> Vec<MadeFile> {
        let accepted = map::build(&self.data, MOST_ENTRIES).is_ok();
        let ending = if accepted { "csv" } else { "refusal" };
        let file = |ending, content| MadeFile::new(&format!("{}.{ending}", self.name), content);
        let mut files = vec![
            file("axle", self.data.clone()),
            file(ending, report(&self.data)),
        ];
        let numbers = self.numbers.as_ref();
        files.extend(numbers.map(|text| file("numbers", text.clone().into_bytes())));
        files
    }
}

/// The fields that every kind has, at 100 rpm and 200 rpm.
fn common_fields(kind: u8, torques: &[u16]) -> Vec<Field> {
    Field::of_every_kind(kind, 1, 3_000, &[100, 200], torques)
}

/// The data of "The map program".
fn standard() -> Data {
    Data::of(common_fields(1, &[0, 1_000]))
}

/// A sensor of this nominal torque that is uncertain by its calibration alone, as in "Reckoned by hand".
fn calibrated(nominal: u16) -> [u16; 9] {
    [nominal, 0, 0, 100, 1_000, 0, 0, 0, 10]
}

/// Two torques with the sensors of "Reckoned by hand", and this input torque at the second, in hundredths of Nm.
fn measured(input: u32) -> Data {
    let sensors = [10_000, 40_000].map(calibrated);
    let rows = [[34_000, 100_000], [input, 300_000]].repeat(2);
    let mut fields = common_fields(2, &[1_000, 3_000]);
    fields.extend(Field::of_measurement(2, &sensors, &rows));
    Data::of(fields)
}

/// The output measured at two half-shafts, which share it differently in each row. The loss uncertainty is 9.00 Nm.
fn half_shafts() -> Data {
    let sensors = [10_000, 30_000, 15_000].map(calibrated);
    let rows = [
        [34_000, 60_000, 40_000],
        [102_000, 200_000, 100_000],
        [34_500, 35_000, 65_200],
        [110_000, 120_000, 180_000],
    ];
    let mut fields = common_fields(3, &[1_000, 3_000]);
    fields.extend(Field::of_measurement(3, &sensors, &rows));
    Data::of(fields)
}
