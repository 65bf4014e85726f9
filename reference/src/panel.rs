// The front panel: a record of a length and sixteen registers, lent to each access on a byte bus.

use crate::machine::{step, weigh};
use crate::refusal::PAST_THE_END;

/// How many registers there are.
pub const REGISTERS: usize = 16;

/// The registers by their addresses; of a pair that of the most significant byte, which comes first.
pub const COMMAND: u8 = 0;
pub const FLAGS: u8 = 1;
pub const ENABLE: u8 = 2;
pub const REFUSAL: u8 = 3;
pub const PLACE: u8 = 4;
pub const PARTNER: u8 = 6;
pub const RULE: u8 = 8;
pub const WEIGHT: u8 = 9;

/// What is written to the command register; every other value does nothing.
pub const STEP: u8 = 1;
pub const ACKNOWLEDGE: u8 = 2;

/// The bits of the flags.
pub const ALL_BLOCKED: u8 = 1;
pub const STEP_DONE: u8 = 2;
pub const REFUSED: u8 = 4;

/// The record, laid out as in C so that the proved library can be lent it.
#[repr(C)]
#[derive(Clone, Copy, Debug, Default, PartialEq, Eq)]
pub struct Panel {
    /// The length of the state in the buffer that is lent with it.
    pub length: u32,
    pub registers: [u8; REGISTERS],
}

impl Panel {
    /// The panel after a start.
    pub fn started(length: u32) -> Panel {
        let mut panel = Panel::default();
        panel.start(length);
        panel
    }

    /// Sets the length, and every register to 0.
    pub fn start(&mut self, length: u32) {
        self.length = length;
        self.registers = [0; REGISTERS];
    }

    /// What the register reads as.
    pub fn read(&self, address: u8) -> u8 {
        match address {
            1..=10 => self.register(address),
            _ => 0,
        }
    }

    /// 1 while a flag and its enable bit are both set, else 0.
    pub fn line(&self) -> u8 {
        u8::from(self.register(FLAGS) & self.register(ENABLE) != 0)
    }

    /// Writes to a register, with the state's buffer and a second one lent.
    pub fn write(&mut self, address: u8, value: u8, state: &mut [u8], spare: &mut [u8]) {
        match (address, value) {
            (COMMAND, STEP) => self.take_step(state, spare),
            (COMMAND, ACKNOWLEDGE) => *self.flags() &= !(STEP_DONE | REFUSED),
            (ENABLE | 4..=7, _) => self.registers[usize::from(address)] = value,
            _ => {}
        }
    }

    fn register(&self, address: u8) -> u8 {
        self.registers[usize::from(address)]
    }

    fn flags(&mut self) -> &mut u8 {
        &mut self.registers[usize::from(FLAGS)]
    }

    /// The number in a pair of registers.
    pub fn pair(&self, address: u8) -> u16 {
        u16::from_be_bytes([self.register(address), self.register(address + 1)])
    }

    /// Takes the step that the registers ask for, and tells of it in the registers.
    fn take_step(&mut self, state: &mut [u8], spare: &mut [u8]) {
        match self.stepped(state, spare) {
            Ok((rule, length)) => {
                let result = &spare[..length];
                state[..length].copy_from_slice(result);
                let weight = weigh(result).expect("a result is a good state");
                let weight = u16::try_from(weight).expect("a weight is less than the length");
                self.length = length as u32;
                self.registers[usize::from(RULE)] = rule;
                let pair = usize::from(WEIGHT)..usize::from(WEIGHT) + 2;
                self.registers[pair].copy_from_slice(&weight.to_be_bytes());
                let flags = self.flags();
                *flags &= !(ALL_BLOCKED | REFUSED);
                *flags |= STEP_DONE;
                if weight == 0 {
                    *flags |= ALL_BLOCKED;
                }
            }
            Err(number) => {
                self.registers[usize::from(REFUSAL)] = number;
                let flags = self.flags();
                *flags &= !STEP_DONE;
                *flags |= REFUSED;
            }
        }
    }

    /// The step of the front of the state's buffer into the front of the second one; gives the rule and the
    /// length of the result, or the refusal.
    fn stepped(&self, state: &[u8], spare: &mut [u8]) -> Result<(u8, usize), u8> {
        let front = usize::try_from(self.length).ok();
        let front = front.and_then(|length| state.get(..length));
        let room = state.len().min(spare.len());
        let (place, partner) = (self.pair(PLACE), self.pair(PARTNER));
        step(
            front.ok_or(PAST_THE_END)?,
            place,
            partner,
            &mut spare[..room],
        )
    }
}
