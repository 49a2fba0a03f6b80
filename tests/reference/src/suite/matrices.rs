//! Ways between must loops by matrices of costs, and the least cost of a tree of each.

use crate::instances::{matrix, nested_circles, of_matrix};
use crate::plan::Plan;

/// A plan whose parts are its vertices, and A(0).
pub fn matrices() -> Vec<(Plan, i64)> {
    // Costs below 5 between one to eight vertices, and below 100 between eight.
    let least = [0, 4, 5, 6, 3, 3, 2, 1, 0, 4, 2, 3];
    let least_of_eight = [70, 101, 63, 83, 67, 57, 65, 111, 71, 127, 36, 76];
    let mut all = vec![(of_matrix(&nested_circles(), 4), 12)];
    all.extend(least.iter().enumerate().map(|(seed, &least)| (of_matrix(&matrix(seed, 5), seed % 8 + 1), least)));
    all.extend(least_of_eight.iter().enumerate().map(|(seed, &least)| (of_matrix(&matrix(seed, 100), 8), least)));
    all
}
