// paper.rs: document 01's case of a run: "job order written backwards on two touching blocks, the right one reading the left: 23".
use crate::plan::hold::Comparison;
use crate::plan::row::{BASE, FLAGS, WORDS};
use crate::plan::{draw, job, Plan};
use crate::spec::{DEPTHS, LEFT, SIZES};

const NAME: &str = "job order written backwards on two touching blocks, the right one reading the left: 23";

fn expect(comparison: &mut Comparison, plan: &Plan, order: [u16; 2], number: u32) {
    let due = comparison.due(plan);
    let got = comparison.run(plan, &due, &order, 2);
    if got != number {
        comparison.fail("the plain runner", plan, &order, format!("{got}, document 01 has {number}"));
    }
}

/// At every size and depth; in the plan's own order, and backwards where the right block does not read the left, the run is done.
pub fn backwards_on_touching_blocks(comparison: &mut Comparison) {
    comparison.about = NAME;
    for (b, d) in SIZES.into_iter().flat_map(|b| DEPTHS.map(|d| (b, d))) {
        let mut random = comparison.random();
        let (width, height) = (2 * usize::from(b), usize::from(b));
        let rows = [0, 1].map(|column| job::in_raster(&mut random, width, height, b, d, (column, 0)));
        let mut plan = draw::plan(&mut random, width, height, d, rows.to_vec(), 0);
        plan.differences = vec![1; 2 * width * height];
        expect(comparison, &plan, [0, 1], 0);
        expect(comparison, &plan, [1, 0], 23);
        plan.rows[WORDS + FLAGS] &= !LEFT;
        plan.rows[WORDS + BASE] = 1 << (d - 1);
        expect(comparison, &plan, [1, 0], 0);
    }
    println!("{:<19} {NAME}", "paper, not numbered");
}
