// calls.rs: the libraries' C functions on a plan's file, declared, and safe ways to call them.
use super::plain::{Format, Plan, Tower};

extern "C" {
    fn latch_write_plan(
        plan: *const u16, plan_len: usize, out: *mut u8, out_len: usize, length: *mut usize, length_len: usize,
    ) -> u32;

    fn latch_read_plan(
        bytes: *const u8, bytes_len: usize, plan: *mut u16, plan_len: usize, rows: *mut usize, rows_len: usize,
    ) -> u32;

    fn tower_write_plan(
        plan: *const u16, plan_len: usize, out: *mut u8, out_len: usize, length: *mut usize, length_len: usize,
    ) -> u32;

    fn tower_read_plan(
        bytes: *const u8, bytes_len: usize, plan: *mut u16, plan_len: usize, rows: *mut usize, rows_len: usize,
    ) -> u32;
}

/// A format with the two calls that write and read it, and their names.
pub trait Calls: Format {
    const WRITE: &'static str;
    const READ: &'static str;
    fn write_plan(plan: &[u16], out: &mut [u8], length: &mut [usize]) -> u32;
    fn read_plan(bytes: &[u8], plan: &mut [u16], rows: &mut [usize]) -> u32;
}

// The slices are live and do not overlap: those that are written are borrowed alone.
impl Calls for Plan {
    const WRITE: &'static str = "latch_write_plan";
    const READ: &'static str = "latch_read_plan";

    #[inline]
    fn write_plan(plan: &[u16], out: &mut [u8], length: &mut [usize]) -> u32 {
        unsafe {
            latch_write_plan(plan.as_ptr(), plan.len(), out.as_mut_ptr(), out.len(), length.as_mut_ptr(), length.len())
        }
    }

    #[inline]
    fn read_plan(bytes: &[u8], plan: &mut [u16], rows: &mut [usize]) -> u32 {
        unsafe {
            latch_read_plan(bytes.as_ptr(), bytes.len(), plan.as_mut_ptr(), plan.len(), rows.as_mut_ptr(), rows.len())
        }
    }
}

impl Calls for Tower {
    const WRITE: &'static str = "tower_write_plan";
    const READ: &'static str = "tower_read_plan";

    #[inline]
    fn write_plan(plan: &[u16], out: &mut [u8], length: &mut [usize]) -> u32 {
        unsafe {
            tower_write_plan(plan.as_ptr(), plan.len(), out.as_mut_ptr(), out.len(), length.as_mut_ptr(), length.len())
        }
    }

    #[inline]
    fn read_plan(bytes: &[u8], plan: &mut [u16], rows: &mut [usize]) -> u32 {
        unsafe {
            tower_read_plan(bytes.as_ptr(), bytes.len(), plan.as_mut_ptr(), plan.len(), rows.as_mut_ptr(), rows.len())
        }
    }
}
