//! Opens a node that counts, keeps it, and opens it again from what was kept.

use sblog::{Limits, Node, NodeError};

const COUNTER: &[u8] = include_bytes!("counter.sbi");

fn main() -> Result<(), NodeError> {
    let kept = Node::open(COUNTER, 1, 1, Limits::default())?.checkpoint()?;
    let node = Node::revive(COUNTER, &kept, 2, Limits::default())?;
    println!("{} bytes kept, then {:?} in incarnation {}", kept.len(), node.standing()?.stage, node.standing()?.incarnation);
    Ok(())
}
