//! What an ask does.

use crate::change::Change;
use crate::record::Record;
use crate::reply::Reply;

/// The task's record after it, the answer, and the change of its runqueue's sums where there is
/// one.
pub struct Outcome {
    pub record: Record,
    pub reply: Reply,
    pub change: Option<Change>,
}
