// The front panel: its registers, its line, its flags, and what a step leaves in the record and in both
// buffers. All of it is shown of the second implementation, and of the proved library where that is linked.

use reference::accesses::{proved, second, told, Access, Side, PRINTED};
use reference::cases::loaded;
use reference::counts::{bytes, two_counts};
use reference::machine::{acting_places, partner_places, step, weigh, Choice, NO_PARTNER};
use reference::panel::*;
use reference::shapes::{ambient, blocked, inside, meeting_state, printed_job, printed_pair, root};
use reference::shapes::{small_growing, state_at_name, timed_choices, timed_states, unblocked};
use reference::spelling::{Spelled, LONGEST};
use reference::tree::{Element, Kind, Process, Reference, State};

/// The sides that can be called here.
fn sides() -> Vec<Side> {
    if cfg!(proved) {
        vec![second, proved]
    } else {
        vec![second]
    }
}

/// A panel of one side, with the state's buffer and a second one.
struct Bus {
    side: Side,
    panel: Panel,
    state: Vec<u8>,
    spare: Vec<u8>,
}

impl Bus {
    /// The record, the state's buffer, and a second one of so many bytes, all of them 5A.
    fn new(side: Side, panel: Panel, state: &[u8], room: usize) -> Bus {
        Bus {
            side,
            panel,
            state: state.to_vec(),
            spare: vec![0x5A; room],
        }
    }

    /// After a start with the length of the state, which fills its buffer with so many bytes A5 behind it.
    fn started(side: Side, state: &State, behind: usize, room: usize) -> Bus {
        let mut bytes = state.encode();
        let length = bytes.len() as u32;
        bytes.resize(bytes.len() + behind, 0xA5);
        let mut bus = Bus::new(side, panel_of(0xFF), &bytes, room);
        bus.make(Access::Start(length));
        bus
    }

    fn make(&mut self, access: Access) -> u8 {
        (self.side)(access, &mut self.panel, &mut self.state, &mut self.spare)
    }

    fn read(&mut self, address: u8) -> u8 {
        self.make(Access::Read(address))
    }

    fn write(&mut self, address: u8, value: u8) {
        let room = self.spare.len();
        assert_eq!(self.make(Access::Write(address, value, room)), 0);
    }

    fn press(&mut self, (place, partner): Choice) {
        let bytes = [place.to_be_bytes(), partner.to_be_bytes()].concat();
        for (address, value) in (4..).zip(bytes) {
            self.write(address, value);
        }
    }

    /// Asks for a step; gives the rule or the refusal, by the flags.
    fn step(&mut self, choice: Choice) -> Result<u8, u8> {
        self.press(choice);
        self.write(0, 1);
        match self.read(1) & 6 {
            2 => Ok(self.read(8)),
            4 => Err(self.read(3)),
            flags => panic!("the flags are {flags}"),
        }
    }

    /// Asks for a step that is to be refused; all but the flags and the last refusal has to stay.
    fn refused(&mut self, choice: Choice) -> u8 {
        self.press(choice);
        let (mut due, state, spare) = (self.panel, self.state.clone(), self.spare.clone());
        let number = self.step(choice).expect_err("the step is to be refused");
        due.registers[1] = due.registers[1] & !2 | 4;
        due.registers[3] = number;
        assert_eq!(self.panel, due);
        assert!(self.state == state && self.spare == spare);
        number
    }

    fn acknowledge(&mut self) {
        self.write(0, 2);
    }

    fn weight(&mut self) -> u16 {
        u16::from_be_bytes([self.read(9), self.read(10)])
    }
}

/// A record in which every byte is this one.
fn panel_of(byte: u8) -> Panel {
    Panel {
        length: u32::from_be_bytes([byte; 4]),
        registers: [byte; REGISTERS],
    }
}

/// A record with another byte in each register.
fn numbered() -> Panel {
    Panel {
        length: 0x0102_0304,
        registers: std::array::from_fn(|index| 0xF0 + index as u8),
    }
}

fn nulls(count: usize) -> State {
    root(0, vec![Element::Process(Process::Null); count])
}

#[test]
fn the_record_is_laid_out_as_in_c() {
    assert_eq!(size_of::<Panel>(), 20);
    assert_eq!(align_of::<Panel>(), 4);
    assert_eq!(std::mem::offset_of!(Panel, length), 0);
    assert_eq!(std::mem::offset_of!(Panel, registers), 4);
}

#[test]
fn a_start_sets_the_length_and_clears_every_register() {
    for side in sides() {
        for before in [panel_of(0xFF), panel_of(0), numbered()] {
            for length in [0, 1, 13, 32_768, 32_769, 65_536, u32::MAX] {
                let mut bus = Bus::new(side, before, &[7; 20], 20);
                bus.make(Access::Start(length));
                let registers = [0; 16];
                assert_eq!(bus.panel, Panel { length, registers });
                assert_eq!((bus.state, bus.spare), (vec![7; 20], vec![0x5A; 20]));
            }
        }
    }
}

#[test]
fn registers_1_to_10_read_as_they_stand_and_all_others_as_0() {
    for side in sides() {
        for panel in [numbered(), panel_of(0xFF), panel_of(1)] {
            let mut bus = Bus::new(side, panel, &[], 0);
            for address in 0..=255 {
                let due = match address {
                    1..=10 => panel.registers[usize::from(address)],
                    _ => 0,
                };
                assert_eq!(bus.read(address), due, "{address}");
                assert_eq!(bus.panel, panel);
            }
        }
    }
}

#[test]
fn the_line_is_high_while_a_flag_and_its_enable_bit_are_set() {
    for side in sides() {
        for flags in 0..=255 {
            for enable in 0..=255 {
                let mut panel = numbered();
                panel.registers[1] = flags;
                panel.registers[2] = enable;
                let mut bus = Bus::new(side, panel, &[], 0);
                let is_high = (0..8).any(|bit| flags >> bit & 1 == 1 && enable >> bit & 1 == 1);
                assert_eq!(bus.make(Access::Line), u8::from(is_high));
                assert_eq!(bus.panel, panel);
            }
        }
    }
}

#[test]
fn only_0_2_and_4_to_7_take_writes() {
    let state = loaded(printed_job()).encode();
    for side in sides() {
        for panel in [
            Panel::started(state.len() as u32),
            numbered(),
            panel_of(0xFF),
        ] {
            for address in 0..=255 {
                for value in 0..=255 {
                    if (address, value) == (0, 1) {
                        continue;
                    }
                    let mut bus = Bus::new(side, panel, &state, 60);
                    bus.write(address, value);
                    let mut due = panel;
                    match address {
                        0 if value == 2 => due.registers[1] &= 0b1111_1001,
                        2 | 4 | 5 | 6 | 7 => due.registers[usize::from(address)] = value,
                        _ => {}
                    }
                    assert_eq!(bus.panel, due, "{address} {value}");
                    assert_eq!((&bus.state, &bus.spare), (&state, &vec![0x5A; 60]));
                }
            }
        }
    }
}

#[test]
fn only_a_1_to_the_command_is_a_step() {
    for side in sides() {
        for address in 0..=255 {
            for value in 0..=255 {
                let mut bus = Bus::started(side, &loaded(printed_job()), 10, 60);
                bus.press((1, NO_PARTNER));
                bus.write(address, value);
                let stepped = bus.read(8) == 32 && bus.read(1) == 2;
                assert_eq!(stepped, (address, value) == (0, 1), "{address} {value}");
                assert_eq!(bus.read(0), 0);
                assert_eq!(bus.panel.registers[0], 0);
            }
        }
    }
}

#[test]
fn the_printed_session_is_played() {
    let rules = [32, 34, 43, 29, 34, 40, 31, 31, 29, 29, 29];
    let weights = [7, 6, 5, 4, 3, 5, 4, 3, 2, 1, 0];
    for side in sides() {
        let first = loaded(printed_job()).encode();
        let mut bus = Bus::started(side, &loaded(printed_job()), 60, 100);
        bus.write(2, 6);
        let mut present = first.clone();
        let mut buffer = bus.state.clone();
        let mut spare = bus.spare.clone();
        for (turn, (place, partner)) in PRINTED.into_iter().enumerate() {
            assert_eq!((bus.read(1) & 6, bus.make(Access::Line)), (0, 0));
            assert_eq!(bus.step((place, partner)), Ok(rules[turn]));
            // The result stands at the front of both, and all behind it is as it was.
            let mut out = [0; 100];
            let (_, length) = step(&present, place, partner, &mut out).unwrap();
            present = out[..length].to_vec();
            for bytes in [&mut buffer, &mut spare] {
                bytes[..length].copy_from_slice(&present);
            }
            assert_eq!(bus.panel.length as usize, length);
            assert!(bus.state == buffer && bus.spare == spare);
            assert_eq!(bus.weight(), weights[turn]);
            let all_blocked = u8::from(turn == 10);
            assert_eq!(bus.read(1), 2 | all_blocked);
            assert_eq!((bus.make(Access::Line), bus.read(3)), (1, 0));
            bus.acknowledge();
            assert_eq!(bus.read(1), all_blocked);
        }
        // Bit 0 tells of the last accepted result, also after a refusal.
        assert_eq!(bus.refused((0, NO_PARTNER)), 8);
        assert_eq!(bus.read(1), 5);
        bus.make(Access::Start(bus.panel.length));
        assert_eq!(bus.panel, Panel::started(present.len() as u32));
    }
}

#[test]
fn the_flags_go_through_steps_refusals_and_acknowledges() {
    for side in sides() {
        // Bits 3 to 7 stand in no panel that was started; whoever sets them keeps them.
        for high in [0, 0b1010_1000, 0b1111_1000] {
            for low in 0..8 {
                let bus = || {
                    let mut bus = Bus::started(side, &loaded(printed_job()), 60, 100);
                    bus.panel.registers[1] = high | low;
                    bus.panel.registers[3] = 77;
                    bus
                };
                let mut accepted = bus();
                assert_eq!(accepted.step((1, NO_PARTNER)), Ok(32));
                // It weighs 7.
                assert_eq!(accepted.read(1), high | 2);
                assert_eq!(accepted.read(3), 77);
                accepted.acknowledge();
                assert_eq!((accepted.read(1), accepted.read(3)), (high, 77));

                let mut refused = bus();
                let registers = refused.panel.registers;
                assert_eq!(refused.refused((9, NO_PARTNER)), 8);
                assert_eq!(refused.read(1), high | low & 1 | 4);
                assert_eq!(refused.panel.registers[8..], registers[8..]);
                refused.acknowledge();
                assert_eq!(refused.read(1), high | low & 1);
                assert_eq!(refused.read(3), 8);
                assert_eq!(refused.step((1, NO_PARTNER)), Ok(32));
                assert_eq!(refused.read(3), 8);
            }
        }
        // All is blocked after it, whatever the bit was.
        for low in 0..8 {
            let mut bus = Bus::started(side, &nulls(1), 0, 20);
            bus.panel.registers[1] = low;
            assert_eq!(bus.step((0, NO_PARTNER)), Ok(31));
            assert_eq!((bus.read(1), bus.weight()), (3, 0));
        }
    }
}

#[test]
fn bit_0_goes_by_both_bytes_of_the_weight() {
    for side in sides() {
        for count in [1, 2, 256, 257, 258, 513] {
            let mut bus = Bus::started(side, &nulls(count), 0, LONGEST);
            assert_eq!(bus.step((0, NO_PARTNER)), Ok(31));
            assert_eq!(usize::from(bus.weight()), count - 1);
            assert_eq!(bus.read(1) & 1, u8::from(count == 1));
        }
    }
}

#[test]
fn pairs_have_their_most_significant_byte_first() {
    for side in sides() {
        // An empty ambient stands at the place 258; nulls stand at all others.
        let mut state = nulls(600);
        state.next = 1;
        state.elements[0x0102] = ambient(0, vec![]);
        let mut bus = Bus::started(side, &state, 0, LONGEST);
        assert_eq!(bus.step((0x0102, NO_PARTNER)), Ok(29));
        assert_eq!((bus.read(9), bus.read(10)), (0x02, 0x57));
        let mut bus = Bus::started(side, &state, 0, LONGEST);
        assert_eq!(bus.step((0x0201, NO_PARTNER)), Ok(31));
        // The mover at the front meets a host at 0x01xx.
        let mut state = root(3, vec![ambient(0, vec![unblocked(Kind::Enter, &[1, 2])])]);
        state.elements.extend(vec![ambient(2, vec![]); 300]);
        state
            .elements
            .push(ambient(1, vec![blocked(Kind::Accept, &[2])]));
        let partners = partner_places(&state, 1);
        assert_eq!(partners, [303]);
        for (partner, due) in [(303u16, Ok(39)), (303u16.swap_bytes(), Err(9))] {
            let mut bus = Bus::started(side, &state, 40, LONGEST);
            assert_eq!(bus.step((1, partner)), due);
        }
    }
}

#[test]
fn after_a_start_the_partner_is_0() {
    for side in sides() {
        // Place 1 can act, but 0 is no partner of it.
        let mut bus = Bus::started(side, &loaded(printed_job()), 20, 60);
        bus.write(5, 1);
        bus.write(0, 1);
        assert_eq!(told(&bus.panel), Err(9));
        // Where the blocked partner stands at 0 it is the one that is named.
        let receiver = blocked(Kind::InternalInput, &[1]);
        let sender = unblocked(Kind::ParentOutput, &[1, 0]);
        let state = root(2, vec![receiver, ambient(0, vec![sender])]);
        assert_eq!(partner_places(&state, 2), [0]);
        let mut bus = Bus::started(side, &state, 20, 80);
        bus.write(5, 2);
        bus.write(0, 1);
        assert_eq!(told(&bus.panel), Ok(37));
        // And 65,535 is none.
        let mut bus = Bus::started(side, &state, 20, 80);
        assert_eq!(bus.refused((2, NO_PARTNER)), 10);
        assert_eq!(bus.refused((2, 65_534)), 9);
    }
}

#[test]
fn the_shorter_buffer_decides_13() {
    // A step makes the first longer and the second shorter.
    for (state, choice, difference) in [
        (small_growing(), (0, NO_PARTNER), 14),
        (nulls(3), (1, NO_PARTNER), -6),
    ] {
        let bytes = state.encode();
        let mut out = [0; 300];
        let (rule, result) = step(&bytes, choice.0, choice.1, &mut out).unwrap();
        assert_eq!(result as isize - bytes.len() as isize, difference);
        for side in sides() {
            for buffer in bytes.len()..bytes.len() + 30 {
                for room in (0..bytes.len() + 30).chain([LONGEST, 70_000]) {
                    let mut bus = Bus::started(side, &state, buffer - bytes.len(), room);
                    let before = bus.state.clone();
                    if buffer.min(room) < result {
                        assert_eq!(bus.refused(choice), 13, "{buffer} {room}");
                        continue;
                    }
                    assert_eq!(bus.step(choice), Ok(rule), "{buffer} {room}");
                    assert_eq!(bus.state[..result], out[..result]);
                    assert_eq!(bus.state[result..], before[result..]);
                    assert_eq!(bus.spare[..result], out[..result]);
                    assert!(bus.spare[result..].iter().all(|byte| *byte == 0x5A));
                }
            }
        }
    }
}

#[test]
fn a_length_past_the_end_of_the_buffer_is_2() {
    let bytes = loaded(printed_job()).encode();
    for side in sides() {
        let short: &[u8] = &[];
        let long = [&bytes[..], &[0; 40_000]].concat();
        for buffer in [short, &bytes, &bytes[..20], &long] {
            let length = buffer.len() as u32;
            for past in [length + 1, length + 2, 65_536 + length, 1 << 31]
                .into_iter()
                .chain([(1 << 24) + length, u32::MAX - 1, u32::MAX])
            {
                let mut bus = Bus::new(side, Panel::started(past), buffer, 100);
                for choice in [(0, NO_PARTNER), (0, 0), (9, 9)] {
                    assert_eq!(bus.refused(choice), 2);
                    assert_eq!(bus.panel.length, past);
                }
            }
        }
        // Also one that is longer than a state may be.
        for past in [32_768, 32_769, 100_000] {
            let mut bus = Bus::new(side, Panel::started(past), &bytes, LONGEST);
            assert_eq!(bus.refused((0, NO_PARTNER)), 2);
        }
        // The length of the buffer is within it.
        let mut bus = Bus::new(side, Panel::started(bytes.len() as u32), &bytes, 60);
        assert_eq!(bus.step((1, NO_PARTNER)), Ok(32));
        let mut bus = Bus::new(side, Panel::started(0), &[], 0);
        assert_eq!(bus.refused((0, NO_PARTNER)), 2);
    }
}

#[test]
fn a_length_within_the_buffer_may_be_too_long_for_a_state() {
    let state = meeting_state(LONGEST);
    let choice = timed_choices(&state)[0];
    for side in sides() {
        for buffer in [32_769, 40_000, 70_000] {
            for length in [32_769, buffer] {
                let mut bus = Bus::started(side, &state, buffer - LONGEST, LONGEST);
                bus.make(Access::Start(length as u32));
                assert_eq!(bus.refused(choice), 1);
            }
        }
        let mut bus = Bus::started(side, &state, 0, LONGEST);
        assert_eq!(bus.step(choice), Ok(39));
        let result = bus.state[..bus.panel.length as usize].to_vec();
        assert_eq!(weigh(&result), Ok(u32::from(bus.weight())));
        let mut bus = Bus::started(side, &state, 10_000, 70_000);
        assert_eq!(bus.step(choice), Ok(39));
        assert_eq!(bus.state[..result.len()], result);
    }
}

#[test]
fn only_the_front_of_the_buffer_is_the_state() {
    let bytes = loaded(printed_job()).encode();
    for side in sides() {
        for (length, due) in [(0, 2), (12, 2), (bytes.len() - 1, 2), (bytes.len() + 1, 4)] {
            let mut bus = Bus::started(side, &loaded(printed_job()), 9, 60);
            bus.make(Access::Start(length as u32));
            assert_eq!(bus.refused((0, NO_PARTNER)), due);
        }
    }
}

#[test]
fn every_number_comes_to_the_last_refusal() {
    let encoded = |state: State| state.encode();
    let nested = inside(8, vec![]);
    let deeper = vec![ambient(0, nested.clone())];
    let process = Process::Ambient(Reference::Name(0), Box::new(Process::Null));
    let too_deep = inside(8, vec![Element::Process(process)]);
    let pair = two_counts(Kind::SiblingOutput, 2, 2, false);
    let place = acting_places(&pair)[0];
    let wide = timed_states(LONGEST, 1).swap_remove(0).1;
    let none = (0, NO_PARTNER);
    let cases: [(Vec<u8>, Choice, u8); 14] = [
        (vec![0x11; 32_769], none, 1),
        (vec![], none, 2),
        (vec![0x12, 0, 0], none, 3),
        ([encoded(nulls(1)), vec![0]].concat(), none, 4),
        (encoded(root(1, deeper)), none, 5),
        (encoded(root(0, vec![ambient(0, vec![])])), none, 6),
        (encoded(printed_pair(false)), none, 7),
        (encoded(nulls(1)), (1, NO_PARTNER), 8),
        (encoded(nulls(1)), (0, 0), 9),
        (encoded(pair), (place, NO_PARTNER), 10),
        (encoded(state_at_name(4_096)), none, 11),
        (encoded(root(1, too_deep)), (8, NO_PARTNER), 12),
        (encoded(wide), none, 13),
        (
            bytes("11 0010 0002 0002 43 0009 3A 0003 0001 01 200000"),
            none,
            14,
        ),
    ];
    for side in sides() {
        for (state, choice, due) in &cases {
            let length = state.len() as u32;
            let room = if *due == 13 { 100 } else { LONGEST };
            let mut bus = Bus::new(side, Panel::started(length), state, room);
            assert_eq!(bus.refused(*choice), *due);
            assert_eq!(bus.read(3), *due);
        }
    }
}
