//! The archive's functions, declared as include/grain.h declares them, each behind a function that lends slices. This is the only file with `unsafe` in it: each call is
//! sound because a slice is a pointer that is not null with a length of numbers behind it, because a `&mut` overlaps nothing, and because the archive asks for nothing more.
use crate::{LIST_LENGTH, TEXT_LENGTH};

/// The verdict of a grain that lacks a point.
pub const NO: u32 = 0;

#[repr(C)]
pub struct Ordered {
    pub number: u32,
    pub place: usize,
    pub points: usize,
}

#[repr(C)]
pub struct Ends {
    pub begin: usize,
    pub end: usize,
}

#[repr(C)]
pub struct Hulled {
    pub number: u32,
    pub place: usize,
    pub points: usize,
    pub corners: usize,
}

#[repr(C)]
pub struct Judged {
    pub number: u32,
    pub place: usize,
    pub points: usize,
    pub corners: usize,
    pub verdict: u32,
    pub x: i32,
    pub y: i32,
}

#[repr(C)]
pub struct Reported {
    pub number: u32,
    pub place: usize,
    pub points: usize,
    pub corners: usize,
    pub missing: usize,
    pub verdict: u32,
    pub x: i32,
    pub y: i32,
}

#[repr(C)]
pub struct Figured {
    pub number: u32,
    pub given: u32,
    pub place: usize,
    pub x: f64,
    pub y: f64,
    pub solidity: f64,
}

#[repr(C)]
pub struct Picture {
    pub number: u32,
    pub place: usize,
    pub points: usize,
    pub width: usize,
    pub height: usize,
}

mod c {
    use super::*;

    extern "C" {
        pub fn grain_order(
            list: *const i32,
            list_length: usize,
            room: *mut i32,
            room_length: usize,
        ) -> Ordered;
        pub fn grain_row_ends(list: *const i32, list_length: usize, y: i32) -> Ends;
        pub fn grain_hull(
            list: *const i32,
            list_length: usize,
            ordered: *mut i32,
            ordered_length: usize,
            corners: *mut i32,
            corners_length: usize,
        ) -> Hulled;
        pub fn grain_verdict(
            list: *const i32,
            list_length: usize,
            ordered: *mut i32,
            ordered_length: usize,
            corners: *mut i32,
            corners_length: usize,
        ) -> Judged;
        pub fn grain_report(
            list: *const i32,
            list_length: usize,
            ordered: *mut i32,
            ordered_length: usize,
            corners: *mut i32,
            corners_length: usize,
            missing: *mut i32,
            missing_length: usize,
        ) -> Reported;
        pub fn grain_rebuild(
            corners: *const i32,
            corners_length: usize,
            missing: *const i32,
            missing_length: usize,
            points: *mut i32,
            points_length: usize,
        ) -> Ordered;
        pub fn grain_figures(
            list: *const i32,
            list_length: usize,
            ordered: *mut i32,
            ordered_length: usize,
            corners: *mut i32,
            corners_length: usize,
        ) -> Figured;
        pub fn grain_read_picture(bytes: *const u8, length: usize, list: *mut i32) -> Picture;
        pub fn grain_write_report(
            corners: *const i32,
            corners_length: usize,
            missing: *const i32,
            missing_length: usize,
            points: usize,
            text: *mut u8,
            text_length: usize,
        ) -> usize;
        pub fn grain_write_refused(
            number: u32,
            place: usize,
            text: *mut u8,
            text_length: usize,
        ) -> usize;
        pub fn grain_respond(bytes: *const u8, length: usize, text: *mut u8) -> usize;
    }
}

pub fn order(list: &[i32], room: &mut [i32]) -> Ordered {
    unsafe { c::grain_order(list.as_ptr(), list.len(), room.as_mut_ptr(), room.len()) }
}

pub fn row_ends(list: &[i32], y: i32) -> Ends {
    unsafe { c::grain_row_ends(list.as_ptr(), list.len(), y) }
}

pub fn hull(list: &[i32], ordered: &mut [i32], corners: &mut [i32]) -> Hulled {
    unsafe {
        c::grain_hull(
            list.as_ptr(),
            list.len(),
            ordered.as_mut_ptr(),
            ordered.len(),
            corners.as_mut_ptr(),
            corners.len(),
        )
    }
}

pub fn verdict(list: &[i32], ordered: &mut [i32], corners: &mut [i32]) -> Judged {
    unsafe {
        c::grain_verdict(
            list.as_ptr(),
            list.len(),
            ordered.as_mut_ptr(),
            ordered.len(),
            corners.as_mut_ptr(),
            corners.len(),
        )
    }
}

pub fn report(
    list: &[i32],
    ordered: &mut [i32],
    corners: &mut [i32],
    missing: &mut [i32],
) -> Reported {
    unsafe {
        c::grain_report(
            list.as_ptr(),
            list.len(),
            ordered.as_mut_ptr(),
            ordered.len(),
            corners.as_mut_ptr(),
            corners.len(),
            missing.as_mut_ptr(),
            missing.len(),
        )
    }
}

/// Rebuild's answer is laid out as Order's.
pub fn rebuild(corners: &[i32], missing: &[i32], points: &mut [i32]) -> Ordered {
    unsafe {
        c::grain_rebuild(
            corners.as_ptr(),
            corners.len(),
            missing.as_ptr(),
            missing.len(),
            points.as_mut_ptr(),
            points.len(),
        )
    }
}

pub fn figures(list: &[i32], ordered: &mut [i32], corners: &mut [i32]) -> Figured {
    unsafe {
        c::grain_figures(
            list.as_ptr(),
            list.len(),
            ordered.as_mut_ptr(),
            ordered.len(),
            corners.as_mut_ptr(),
            corners.len(),
        )
    }
}

pub fn read_picture(bytes: &[u8], list: &mut [i32; LIST_LENGTH]) -> Picture {
    unsafe { c::grain_read_picture(bytes.as_ptr(), bytes.len(), list.as_mut_ptr()) }
}

pub fn write_report(corners: &[i32], missing: &[i32], points: usize, text: &mut [u8]) -> usize {
    unsafe {
        c::grain_write_report(
            corners.as_ptr(),
            corners.len(),
            missing.as_ptr(),
            missing.len(),
            points,
            text.as_mut_ptr(),
            text.len(),
        )
    }
}

pub fn write_refused(number: u32, place: usize, text: &mut [u8]) -> usize {
    unsafe { c::grain_write_refused(number, place, text.as_mut_ptr(), text.len()) }
}

pub fn respond(bytes: &[u8], text: &mut [u8; TEXT_LENGTH]) -> usize {
    unsafe { c::grain_respond(bytes.as_ptr(), bytes.len(), text.as_mut_ptr()) }
}
