// calls.rs: the second library's C functions that run plans, declared, and safe ways to call them.
extern "C" {
    fn tower_run_job(
        plane0: *mut f32, plane0_len: usize, plane1: *mut f32, plane1_len: usize, plane2: *mut f32, plane2_len: usize,
        width: usize, height: usize, row: *const u16, row_len: usize, differences: *const i16, differences_len: usize,
    ) -> u32;

    fn tower_run(
        plane0: *mut f32, plane0_len: usize, plane1: *mut f32, plane1_len: usize, plane2: *mut f32, plane2_len: usize,
        width: usize, height: usize, plan: *const u16, plan_len: usize, order: *const u16, order_len: usize,
        differences: *const i16, differences_len: usize, answers: *mut u16, answers_len: usize,
    ) -> u32;
}

/// Calls `tower_run_job`.
#[inline]
pub fn run_job(planes: [&mut [f32]; 3], width: usize, height: usize, row: &[u16], differences: &[i16]) -> u32 {
    let [p, q, r] = planes;
    // The slices are live and do not overlap: each plane is borrowed alone.
    unsafe {
        tower_run_job(
            p.as_mut_ptr(), p.len(), q.as_mut_ptr(), q.len(), r.as_mut_ptr(), r.len(), width, height,
            row.as_ptr(), row.len(), differences.as_ptr(), differences.len(),
        )
    }
}

/// Calls `tower_run`.
#[inline]
pub fn run(
    planes: [&mut [f32]; 3], width: usize, height: usize, plan: &[u16], order: &[u16], differences: &[i16], answers: &mut [u16],
) -> u32 {
    let [p, q, r] = planes;
    // The slices are live and do not overlap: each plane and `answers` are borrowed alone.
    unsafe {
        tower_run(
            p.as_mut_ptr(), p.len(), q.as_mut_ptr(), q.len(), r.as_mut_ptr(), r.len(), width, height,
            plan.as_ptr(), plan.len(), order.as_ptr(), order.len(), differences.as_ptr(), differences.len(),
            answers.as_mut_ptr(), answers.len(),
        )
    }
}
