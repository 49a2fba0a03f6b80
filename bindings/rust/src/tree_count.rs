//! The number of trees.

use crate::{raw, Refusal};

/// The number of trees of a plan that is not refused.
///
/// ```
/// use postman::{tree_count, TreeCount};
///
/// match tree_count(&[0x10, 0x40, 0x20, 0x01, 0x40, 0x01, 0x41, 0x00, 0x00, 0x03]) {
///     Ok(TreeCount::Known(count)) => assert_eq!(count, 1),
///     Ok(TreeCount::Above) => panic!("too many to be told"),
///     Err(refusal) => panic!("{refusal}"),
/// }
/// ```
#[derive(Clone, Copy, PartialEq, Eq, Debug)]
pub enum TreeCount {
    /// The exact number.
    Known(u32),
    /// More than 4,294,967,295.
    Above,
}

/// The number of trees of a plan file, in well under a millisecond, however many there are. [`plan_call`](crate::plan_call) answers whole exactly when it is
/// known and no larger than the budget. Refuses with 1 to 7 and 10 to 13.
///
/// ```
/// use postman::{plan_call, tree_count, Arc, Edition, Plan, Refusal, Standing, TreeCount};
///
/// // Three loops that must be driven, and four streets between them.
/// let must = |v| Arc::new(v, v, Standing::Required, 1);
/// let may = |tail, head, cost| Arc::new(tail, head, Standing::Optional, cost);
/// let arcs = vec![must(0), must(1), must(2), may(0, 1, 2), may(1, 2, 2), may(2, 0, 2), may(0, 2, 3)];
/// let file = Plan { edition: Edition::First, vertices: 3, arcs }.write()?;
///
/// assert_eq!(tree_count(&file), Ok(TreeCount::Known(2)));
/// assert!(!plan_call(&file, 1)?.whole && plan_call(&file, 2)?.whole);
/// # Ok::<(), Refusal>(())
/// ```
pub fn tree_count(file: &[u8]) -> Result<TreeCount, Refusal> {
    let count = raw::tree_count(file)?;
    Ok(u32::try_from(count).map_or(TreeCount::Above, TreeCount::Known))
}
