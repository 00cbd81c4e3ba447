//! The generated cases reach every edge.

use cases::{compare_all, Plan, Reading};

#[test]
fn every_edge_is_reached() {
    let report = compare_all(&Reading, &Plan::of_each_kind(8, 4000));
    for (edge, cases) in report.reached() {
        println!("{cases}: {edge}");
        assert!(cases > 0, "{edge}");
    }
    assert_eq!(report.total().differences, 0);
}
