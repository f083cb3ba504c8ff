//! Cluster epochs (01, "Cluster epochs"): the two epochs, and members and their flags as sets of nodes.

use crate::refuse_if;
use std::collections::BTreeSet;
use std::fmt;

const NODES: u32 = 32;

const NOENT: u32 = 2;
const EXIST: u32 = 17;
const INVAL: u32 = 22;
const NOSPC: u32 = 28;
const GRACE: u32 = 10_013;
const NO_GRACE: u32 = 10_033;

pub struct Epochs {
    pub current: u64,
    pub recovery: u64,
    members: BTreeSet<u32>,
    need: BTreeSet<u32>,
    enforcing: BTreeSet<u32>,
}

impl Epochs {
    pub fn fresh() -> Epochs {
        Epochs { current: 1, recovery: 0, members: BTreeSet::new(), need: BTreeSet::new(), enforcing: BTreeSet::new() }
    }

    /// What refuses every call but join and may reclaim.
    fn member(&self, node: u32) -> Result<(), u32> {
        in_range(node)?;
        refuse_if(!self.members.contains(&node), NOENT)
    }

    pub fn join(&mut self, node: u32) -> Result<(), u32> {
        in_range(node)?;
        refuse_if(self.members.contains(&node), EXIST)?;
        self.members.insert(node);
        Ok(())
    }

    pub fn leave(&mut self, node: u32) -> Result<(), u32> {
        self.member(node)?;
        refuse_if(self.need.contains(&node), GRACE)?;
        self.members.remove(&node);
        self.enforcing.remove(&node);
        Ok(())
    }

    pub fn start(&mut self, node: u32) -> Result<(), u32> {
        self.member(node)?;
        if self.recovery == 0 {
            let next = self.current.checked_add(1).ok_or(NOSPC)?;
            self.recovery = self.current;
            self.current = next;
        }
        self.need.insert(node);
        self.enforcing.insert(node);
        Ok(())
    }

    pub fn enforce(&mut self, node: u32) -> Result<(), u32> {
        self.member(node)?;
        refuse_if(self.recovery == 0, NO_GRACE)?;
        self.enforcing.insert(node);
        Ok(())
    }

    pub fn finish(&mut self, node: u32) -> Result<(), u32> {
        self.member(node)?;
        refuse_if(!self.need.contains(&node), INVAL)?;
        self.need.remove(&node);
        if self.need.is_empty() {
            self.recovery = 0;
        }
        Ok(())
    }

    pub fn stop_enforcing(&mut self, node: u32) -> Result<(), u32> {
        self.member(node)?;
        refuse_if(self.recovery != 0, GRACE)?;
        self.enforcing.remove(&node);
        Ok(())
    }

    pub fn may_reclaim(&self, node: u32) -> Result<bool, u32> {
        in_range(node)?;
        Ok(self.recovery != 0 && self.need.contains(&node) && self.members.is_subset(&self.enforcing))
    }
}

fn in_range(node: u32) -> Result<(), u32> {
    refuse_if(node >= NODES, INVAL)
}

/// A set of nodes as the mask that has a 1 for each.
fn mask(nodes: &BTreeSet<u32>) -> u32 {
    nodes.iter().map(|node| 2u32.pow(*node)).sum()
}

impl fmt::Display for Epochs {
    fn fmt(&self, f: &mut fmt::Formatter) -> fmt::Result {
        let (members, need, enforcing) = (mask(&self.members), mask(&self.need), mask(&self.enforcing));
        write!(f, "{} {} {members:08x} {need:08x} {enforcing:08x}", self.current, self.recovery)
    }
}

#[cfg(test)]
mod tests {
    use super::*;

    /// No list of calls that a test can run gets here, so the epoch is set.
    #[test]
    fn a_full_epoch_refuses_the_first_start_only() {
        let mut e = Epochs::fresh();
        assert_eq!((e.join(0), e.join(31)), (Ok(()), Ok(())));
        e.current = u64::MAX;
        assert_eq!((e.start(0), e.to_string()), (Err(28), format!("{} 0 80000001 00000000 00000000", u64::MAX)));
        e.recovery = u64::MAX - 1;
        e.need.insert(31);
        assert_eq!((e.start(0), e.to_string()), (Ok(()), format!("{} {} 80000001 80000001 00000001", u64::MAX, u64::MAX - 1)));
    }
}
