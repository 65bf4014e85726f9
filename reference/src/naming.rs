// How the free names of a job are written: a name that is an ambient's is no channel.

use crate::machine::CABINET;
use crate::spelling::MOST_FREE;
use crate::tree::{Action, Job, Process, Reference};

/// For each free name whether it is written as the name of an ambient or the target of an action, and whether as the
/// channel of an action. What is sent is left out, and so are variables.
pub struct Naming {
    pub boxes: Vec<bool>,
    pub channels: Vec<bool>,
}

impl Naming {
    /// The name 0, the cabinet's, is an ambient's in every job.
    pub fn of(job: &Job) -> Naming {
        let none = || vec![false; usize::from(MOST_FREE)];
        let mut naming = Naming {
            boxes: none(),
            channels: none(),
        };
        mark(&mut naming.boxes, Reference::Name(CABINET));
        naming.add_process(&job.process);
        naming
    }

    /// Whether some name is both.
    pub fn is_mixed_up(&self) -> bool {
        let mut both = self.boxes.iter().zip(&self.channels);
        both.any(|(is_box, is_channel)| *is_box && *is_channel)
    }

    fn add_process(&mut self, process: &Process) {
        match process {
            Process::Null => {}
            Process::Parallel(left, right) => {
                self.add_process(left);
                self.add_process(right);
            }
            Process::Restriction(part) => self.add_process(part),
            Process::Ambient(name, part) => {
                mark(&mut self.boxes, *name);
                self.add_process(part);
            }
            Process::Action(action, part) | Process::Replication(action, part) => {
                self.add_action(action);
                self.add_process(part);
            }
        }
    }

    fn add_action(&mut self, action: &Action) {
        if let Some(target) = action.target {
            mark(&mut self.boxes, target);
        }
        mark(&mut self.channels, action.channel);
    }
}

/// A variable is no free name.
fn mark(names: &mut [bool], reference: Reference) {
    if let Reference::Name(name) = reference {
        names[usize::from(name)] = true;
    }
}
