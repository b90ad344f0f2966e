//! The C example's calls, made from Rust, give the C example's stored results.

#[allow(dead_code)] // its main
#[path = "../examples/planner.rs"]
mod planner;

#[test]
fn prints_what_the_c_example_prints() {
    assert_eq!(planner::plan().unwrap(), include_str!("../../../examples/c/planner.stdout"));
}
