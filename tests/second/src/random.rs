//! Repeatable random inputs for test programs: messages, replicas, snapshots,
//! framed inputs and batches, from well-formed to damaged to plain noise.

mod batches;
mod damage;
mod damaged_replicas;
mod inputs;
mod messages;
mod names;
mod progress;
mod replicas;
mod twins;

pub use batches::{batch_input, record_count, steps};
pub use damage::{damage, noise, typed_noise};
pub use damaged_replicas::{any_replica, damaged_replica};
pub use inputs::{
    any_snapshot, append_frame, cut_tail, fill_to_limit, framed, framed_input, message_list,
    snapshot,
};
pub use messages::{
    add_player, add_player_to_group, broad_message, byte_text, connect_info, create_group,
    delete_player_from_group, destroy_group, destroy_player, free_bytes, id, message, operation,
    operation_of, regular_message, request_add_player_to_group, version_near,
};
pub use names::{change_unit, name, units, wide_text, wrong_name};
pub use progress::{calls, mixed, operations_up_to, until_read, well_formed_operation};
pub use replicas::{full_replica, name_table_bytes, nameless_bytes, replica};
pub use twins::make_twin;

/// SplitMix64: the same seed gives the same run.
#[derive(Clone, Debug)]
pub struct Rng {
    state: u64,
}

impl Rng {
    pub fn new(seed: u64) -> Rng {
        Rng { state: seed }
    }

    pub fn draw(&mut self) -> u64 {
        self.state = self.state.wrapping_add(0x9E37_79B9_7F4A_7C15);
        let mut z = self.state;
        z = (z ^ (z >> 30)).wrapping_mul(0xBF58_476D_1CE4_E5B9);
        z = (z ^ (z >> 27)).wrapping_mul(0x94D0_49BB_1331_11EB);
        z ^ (z >> 31)
    }

    pub fn word(&mut self) -> u32 {
        (self.draw() >> 32) as u32
    }

    pub fn byte(&mut self) -> u8 {
        (self.draw() >> 56) as u8
    }

    /// From 0 to `bound` - 1; `bound` is not 0.
    pub fn below(&mut self, bound: usize) -> usize {
        (self.draw() % bound as u64) as usize
    }

    /// From `low` to `high`, both included.
    pub fn between(&mut self, low: usize, high: usize) -> usize {
        low + self.below(high - low + 1)
    }

    /// True once in `n` on average.
    pub fn one_in(&mut self, n: usize) -> bool {
        self.below(n) == 0
    }

    /// One of a list that is not empty.
    pub fn pick<T: Copy>(&mut self, from: &[T]) -> T {
        from[self.below(from.len())]
    }

    pub fn shuffle<T>(&mut self, list: &mut [T]) {
        for last in (1..list.len()).rev() {
            list.swap(last, self.below(last + 1));
        }
    }
}
