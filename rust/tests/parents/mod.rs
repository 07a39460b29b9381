//! Parents, found a second time: by walking back over the depths.

use std::iter::successors;

use tandrekily::{Avp, Record, Records};

/// The last of the earlier records that is one less deep. None has depth 0.
fn walked_back(earlier: &[Record], depth: u8) -> Option<u32> {
    let last = earlier.iter().rposition(|row| row.depth + 1 == depth)?;
    Some(last as u32)
}

/// Asserts that each record has that parent, that the row of this index is its group, and that a walk up ends at the top level.
pub fn check_parents(records: Records) {
    let rows: Vec<Record> = records.clone().map(|avp| avp.record).collect();
    for (index, avp) in records.enumerate() {
        let parent = walked_back(&rows[..index], avp.record.depth);
        assert_eq!(avp.record.parent, parent, "record {index} of {rows:?}");
        let group = avp.parent().map(|group| group.record);
        assert_eq!(group, parent.map(|index| rows[index as usize]));
        let path = successors(Some(avp), Avp::parent);
        assert_eq!(path.count(), usize::from(avp.record.depth));
    }
}
