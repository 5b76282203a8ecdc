//! Where things stand in the bytes of a sheet, so that they can be damaged.

use crate::random::Random;
use crate::sheet::Machine;
use crate::write::write;

pub struct Layout {
    pub bytes: Vec<u8>,
    /// What the bytes said when they were whole.
    pub machines: Vec<Machine>,
}

impl Layout {
    pub fn new(machines: Vec<Machine>) -> Self {
        Layout {
            bytes: write(&machines),
            machines,
        }
    }

    /// The place so many bytes before the end.
    pub fn before_end(&self, bytes: usize) -> usize {
        self.bytes.len() - bytes
    }

    pub fn entry(&self, machine: usize) -> usize {
        self.before_end(12) - 8 * (self.machines.len() - machine)
    }

    /// The offset that the machine's entry ought to have.
    pub fn offset(&self, machine: usize) -> usize {
        let earlier = &self.machines[..machine];
        8 * earlier.iter().map(|each| each.actions.len()).sum::<usize>()
    }

    pub fn action(&self, machine: usize, action: usize) -> usize {
        self.offset(machine) + 8 * action
    }

    pub fn any_machine(&self, random: &mut Random) -> usize {
        random.place(self.machines.len())
    }

    pub fn any_action(&self, random: &mut Random) -> (usize, usize) {
        let machine = self.any_machine(random);
        (machine, random.place(self.machines[machine].actions.len()))
    }

    pub fn put_half(&mut self, place: usize, number: u16) {
        self.bytes[place..place + 2].copy_from_slice(&number.to_le_bytes());
    }

    pub fn put_word(&mut self, place: usize, number: u32) {
        self.bytes[place..place + 4].copy_from_slice(&number.to_le_bytes());
    }
}
