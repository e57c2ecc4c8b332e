//! The calls of libaxle.a, as `include/axle.h` declares them.

use crate::Point;

/// The answer of a build.
#[repr(C)]
pub struct Built {
    pub refusal: u32,
    pub has_index: u32,
    pub place: usize,
    pub index: usize,
    pub speeds: [u16; 32],
    pub speed_count: usize,
    pub torques: [u16; 64],
    pub torque_count: usize,
}

/// The answer of a load.
#[repr(C)]
pub struct Axes {
    pub refusal: u32,
    pub place: usize,
    pub speeds: [u16; 32],
    pub speed_count: usize,
    pub torques: [u16; 64],
    pub torque_count: usize,
}

#[repr(C)]
pub struct Loss {
    pub refusal: u32,
    pub place: usize,
    pub loss: i64,
}

/// The answer of the losses at many points, which stand in what was lent.
#[repr(C)]
pub struct Losses {
    pub refusal: u32,
    pub has_point: u32,
    pub place: usize,
    pub point: usize,
}

#[repr(C)]
pub struct Nearest {
    pub refusal: u32,
    pub place: usize,
    pub speed: u16,
    pub torque: u16,
}

/// The answer of a listing.
#[repr(C)]
pub struct Length {
    pub refusal: u32,
    pub place: usize,
    pub length: usize,
}

#[repr(C)]
pub struct Written {
    pub refusal: u32,
    pub has_index: u32,
    pub place: usize,
    pub index: usize,
    pub length: usize,
}

#[repr(C)]
pub struct Steps {
    pub refusal: u32,
    pub has_index: u32,
    pub place: usize,
    pub index: usize,
    pub temperature_on_sensitivity: u64,
    pub temperature_on_zero: u64,
    pub calibration: u64,
    pub parasitic_loads: u64,
    pub uncertainty: u64,
}

#[repr(C)]
pub struct Drag {
    pub refusal: u32,
    pub place: usize,
    pub drag: u32,
}

#[repr(C)]
pub struct Numbers {
    pub kind: u16,
    pub line: u16,
    pub ratio: u16,
    pub speeds: [u16; 32],
    pub speed_count: usize,
    pub torques: [u16; 64],
    pub torque_count: usize,
    pub input: [u16; 9],
    pub output: [u16; 9],
    pub right: [u16; 9],
}

extern "C" {
    pub fn axle_build(
        data: *const u8,
        data_length: usize,
        entries: *mut u32,
        entry_count: usize,
    ) -> Built;
    pub fn axle_load(
        text: *const u8,
        text_length: usize,
        entries: *mut u32,
        entry_count: usize,
    ) -> Axes;
    pub fn axle_loss(
        speeds: *const u16,
        speed_count: usize,
        torques: *const u16,
        torque_count: usize,
        entries: *const u32,
        entry_count: usize,
        speed: u32,
        torque: u32,
    ) -> Loss;
    pub fn axle_losses(
        speeds: *const u16,
        speed_count: usize,
        torques: *const u16,
        torque_count: usize,
        entries: *const u32,
        entry_count: usize,
        points: *const Point,
        point_count: usize,
        losses: *mut i64,
        loss_count: usize,
    ) -> Losses;
    pub fn axle_nearest(
        speeds: *const u16,
        speed_count: usize,
        torques: *const u16,
        torque_count: usize,
        speed: u32,
        torque: u32,
    ) -> Nearest;
    pub fn axle_listing(
        speeds: *const u16,
        speed_count: usize,
        torques: *const u16,
        torque_count: usize,
        entries: *const u32,
        entry_count: usize,
        text: *mut u8,
        text_length: usize,
    ) -> Length;
    pub fn axle_write(
        numbers: Numbers,
        rows: *const u32,
        row_torque_count: usize,
        file: *mut u8,
        file_length: usize,
    ) -> Written;
    pub fn axle_steps(sensor: *const u16, torque: u32) -> Steps;
    pub fn axle_retarder_drag(
        readings: *const u32,
        reading_count: usize,
        bearing_losses: *const u32,
        bearing_loss_count: usize,
        ratio: u32,
        speed: u32,
    ) -> Drag;
}
