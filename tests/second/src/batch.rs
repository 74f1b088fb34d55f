//! The batch (02 A2): framed messages, delivered in turn by one call.

use crate::framing;
use crate::replica::{Answer, Replica};

/// How many messages were delivered, and whether a tail behind them was not.
#[derive(Clone, Copy, Debug, PartialEq, Eq)]
pub struct Batch {
    pub count: usize,
    pub cut: bool,
}

impl Replica {
    /// 28, then 29; else each message's answer goes into its own record, and the
    /// records beyond stay. A refused batch touches no record, nor the replica.
    pub fn batch(&mut self, input: &[u8], records: &mut [Answer]) -> Result<Batch, u32> {
        if !self.is_valid() {
            return Err(28);
        }
        let (messages, cut) = framing::messages(input);
        if messages.len() > records.len() {
            return Err(29);
        }
        // Once for all: a delivery keeps a valid replica valid.
        for (record, m) in records.iter_mut().zip(&messages) {
            *record = self.deliver_to_valid(m);
        }
        let count = messages.len();
        Ok(Batch { count, cut })
    }
}
