//! Fixed cases of document 01, "Accuracy over whole numbers", with the allowance of document 02, C-13: single entries, and two fractions around the exact value of each.

use crate::component;
use crate::data::{Data, Field};
use crate::exact::{Bounds, ExactMap};

/// One measured row, with all that its entry depends on. Its kind is 2 for two sensors, 3 for three.
#[derive(Clone, PartialEq, Eq, Debug)]
pub struct MeasuredCase<const SENSORS: usize> {
    /// Thousandths.
    pub ratio: u16,
    /// N, w, z, c, k, s, p, d and R of the input sensor, then of each output sensor.
    pub sensors: [[u16; 9]; SENSORS],
    /// The torque of each sensor, hundredths of Nm.
    pub torques: [u32; SENSORS],
}

/// One entry of the standard rule.
#[derive(Clone, PartialEq, Eq, Debug)]
pub struct StandardCase {
    pub line: u8,
    /// Thousandths.
    pub ratio: u16,
    /// Nm.
    pub torque: u16,
}

/// Every influence of all sensors is at work, and no part is a whole number of grains.
/// The root is above an allowance of 1 Nm times the ratio in the first three, above 5 % of the loss in the next two, and below it in the last.
pub const MEASURED: [MeasuredCase<2>; 6] = [
    MeasuredCase {
        ratio: 1_637,
        sensors: [
            [2_909, 603, 328, 2_331, 6_236, 704, 596, 286, 84],
            [3_201, 512, 415, 1_658, 4_441, 2_609, 264, 368, 47],
        ],
        torques: [174_285, 284_363],
    },
    MeasuredCase {
        ratio: 3_083,
        sensors: [
            [1_984, 688, 176, 2_529, 7_026, 2_126, 87, 259, 58],
            [8_124, 971, 811, 198, 1_899, 418, 376, 221, 73],
        ],
        torques: [177_826, 546_965],
    },
    MeasuredCase {
        ratio: 7_219,
        sensors: [
            [4_568, 443, 82, 278, 6_139, 276, 238, 211, 35],
            [22_156, 617, 137, 283, 3_819, 611, 315, 366, 89],
        ],
        torques: [269_803, 1_946_113],
    },
    MeasuredCase {
        ratio: 2_731,
        sensors: [
            [3_085, 139, 598, 2_367, 6_579, 1_309, 419, 397, 15],
            [9_639, 936, 366, 427, 1_066, 1_506, 436, 166, 38],
        ],
        torques: [273_252, 731_985],
    },
    MeasuredCase {
        ratio: 4_571,
        sensors: [
            [3_497, 283, 904, 2_306, 6_204, 1_474, 404, 244, 27],
            [21_179, 426, 497, 1_298, 4_769, 1_821, 488, 327, 45],
        ],
        torques: [263_742, 1_182_409],
    },
    MeasuredCase {
        ratio: 13_367,
        sensors: [
            [2_666, 958, 737, 638, 6_056, 205, 365, 157, 51],
            [35_147, 264, 358, 444, 6_799, 412, 615, 85, 44],
        ],
        torques: [237_724, 3_125_992],
    },
];

/// The same with the output measured at two half-shafts: input, left and right sensor.
/// The root is above an allowance of 1 Nm times the ratio in the first two, above 5 % of the loss in the next two, and below it in the last.
pub const HALF_SHAFTS: [MeasuredCase<3>; 5] = [
    MeasuredCase {
        ratio: 1_483,
        sensors: [
            [3_076, 335, 83, 2_007, 5_284, 2_417, 171, 404, 25],
            [1_808, 6_994, 7_484, 2_563, 5_072, 1_774, 457, 71, 54],
            [2_639, 812, 1_628, 979, 1_345, 1_353, 307, 364, 92],
        ],
        torques: [184_198, 119_694, 152_171],
    },
    MeasuredCase {
        ratio: 5_279,
        sensors: [
            [3_226, 282, 126, 1_016, 5_315, 468, 293, 149, 13],
            [6_296, 6_234, 2_029, 359, 2_034, 452, 493, 106, 76],
            [9_682, 633, 299, 819, 5_365, 661, 305, 228, 68],
        ],
        torques: [173_273, 390_851, 522_156],
    },
    MeasuredCase {
        ratio: 3_275,
        sensors: [
            [3_554, 256, 161, 834, 4_008, 119, 712, 441, 33],
            [6_806, 884, 918, 2_221, 5_421, 411, 712, 107, 36],
            [5_855, 892, 471, 2_057, 4_449, 1_653, 343, 298, 54],
        ],
        torques: [244_606, 478_624, 311_825],
    },
    MeasuredCase {
        ratio: 9_767,
        sensors: [
            [2_292, 687, 424, 1_631, 5_223, 342, 513, 356, 75],
            [14_762, 345, 167, 3_825, 7_996, 714, 423, 368, 28],
            [10_084, 435, 1_125, 705, 1_998, 1_686, 276, 163, 43],
        ],
        torques: [177_412, 759_273, 949_174],
    },
    MeasuredCase {
        ratio: 14_629,
        sensors: [
            [3_129, 175, 257, 246, 3_611, 156, 688, 205, 57],
            [19_126, 2_768, 1_245, 2_071, 6_922, 427, 397, 186, 97],
            [26_945, 533, 302, 1_575, 7_281, 678, 218, 271, 52],
        ],
        torques: [234_605, 1_235_207, 2_141_826],
    },
];

const fn standard(line: u8, ratio: u16, torque: u16) -> StandardCase {
    StandardCase {
        line,
        ratio,
        torque,
    }
}

/// Two for each line; no exact loss is a whole number of hundredths.
pub const STANDARD: [StandardCase; 10] = [
    standard(1, 2_641, 613),
    standard(1, 13_859, 41_387),
    standard(2, 1_379, 2_749),
    standard(2, 5_739, 19_211),
    standard(3, 3_087, 7_351),
    standard(3, 9_463, 33_497),
    standard(4, 4_113, 953),
    standard(4, 17_923, 26_731),
    standard(5, 6_281, 4_787),
    standard(5, 7_517, 48_731),
];

impl<const SENSORS: usize> MeasuredCase<SENSORS> {
    /// The sum of what the output sensors have.
    pub fn output(&self) -> u32 {
        self.torques[1..].iter().sum()
    }

    /// Component data with this row at the second torque of both speeds, where the axis has the nearest whole Nm.
    /// At the first torque, 0, all torques of the row are 0.
    pub fn data(&self) -> Vec<u8> {
        let axis_torque = (self.output() + 50) / 100;
        let axis_torque = u16::try_from(axis_torque).expect("an axis torque is at most 50,000 Nm");
        let kind = SENSORS as u8;
        let mut fields = common_fields(kind, 1, self.ratio, axis_torque);
        let rows = [[0; SENSORS], self.torques].repeat(SPEEDS.len());
        fields.extend(Field::of_measurement(kind, &self.sensors, &rows));
        Data::of(fields).bytes()
    }

    pub fn bounds(&self) -> Bounds {
        second_torque_bounds(&self.data())
    }

    /// `measured`, the ratio, each sensor, the torques, and the bounds.
    pub fn printed(&self) -> String {
        let mut text = format!("measured {}", self.ratio);
        for numbers in &self.sensors {
            text += &format!("; {}", separated(numbers));
        }
        let torques = separated(&self.torques);
        let bounds = printed_bounds(&self.bounds());
        format!("{text}; {torques}; {bounds}")
    }
}

impl StandardCase {
    /// Component data with this torque as the second of two, the first being 0.
    pub fn data(&self) -> Vec<u8> {
        Data::of(common_fields(1, self.line, self.ratio, self.torque)).bytes()
    }

    pub fn bounds(&self) -> Bounds {
        second_torque_bounds(&self.data())
    }

    /// `standard`, the line, the ratio, the torque, and the bounds.
    pub fn printed(&self) -> String {
        let bounds = printed_bounds(&self.bounds());
        format!(
            "standard {} {} {}; {bounds}",
            self.line, self.ratio, self.torque
        )
    }
}

const SPEEDS: [u16; 2] = [100, 200];

/// The fields that every kind has, with the torques 0 and this one.
fn common_fields(kind: u8, line: u8, ratio: u16, torque: u16) -> Vec<Field> {
    Field::of_every_kind(kind, line, ratio, &SPEEDS, &[0, torque])
}

/// The bounds of the entry at the second torque; the build must accept the data.
fn second_torque_bounds(data: &[u8]) -> Bounds {
    let component = component::read(data).expect("the build accepts the data");
    ExactMap::new(&component).entry_bounds(0, 1)
}

fn separated<T: ToString>(numbers: &[T]) -> String {
    let numbers: Vec<String> = numbers.iter().map(T::to_string).collect();
    numbers.join(" ")
}

fn printed_bounds(bounds: &Bounds) -> String {
    separated(&[bounds.low, bounds.high])
}
