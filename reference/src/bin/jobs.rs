// Writes the example jobs of the program to the folder named, one file for each. The name 0 is that of the cabinet that
// a job is loaded in.
//
// Usage: jobs FOLDER

use reference::cabinets::lent_deck;
use reference::shapes::{parallel, printed_job, restriction};
use reference::spelling::{Spelled, NESTING};
use reference::throwaways::announced_reels;
use reference::tree::{Action, Job, Kind, Process, Reference};
use std::path::Path;
use std::process::exit;

fn action(kind: Kind, names: &[u16], after: Process) -> Process {
    Process::Action(Action::named(kind, names), Box::new(after))
}

fn replication(kind: Kind, names: &[u16], after: Process) -> Process {
    Process::Replication(Action::named(kind, names), Box::new(after))
}

fn ambient(name: u16, inside: Process) -> Process {
    Process::Ambient(Reference::Name(name), Box::new(inside))
}

fn name(name: u16) -> Reference {
    Reference::Name(name)
}

/// An action with references that hands over or takes so many names, if any.
fn then(kind: Kind, count: u8, references: &[Reference], after: Process) -> Process {
    let action = Action::of_references(kind, count, references);
    Process::Action(action, Box::new(after))
}

/// Deck 1 hands the name of case 4 to reel 2 on channel 3, and the reel enters what it was handed.
fn reel() -> Job {
    let handed = Reference::Variable(0);
    let entering = then(Kind::Enter, 0, &[handed, name(3)], Process::Null);
    let deck = ambient(1, action(Kind::SiblingOutput, &[2, 3, 4], Process::Null));
    let reel = ambient(2, action(Kind::ExternalInput, &[3], entering));
    let case = ambient(4, action(Kind::Accept, &[3], Process::Null));
    Job {
        free: 5,
        process: parallel(reel, parallel(deck, case)),
    }
}

/// Reel 1 makes a return channel and hands deck 2 its number, which is its name, and that channel, both at once on
/// channel 3. The deck answers the number on the channel with the name of case 4, and the reel enters the case: the
/// client and the server of the source's section 2, with an answer where that has a service.
fn numbered_reel() -> Job {
    let (number, deck, asking, case) = (name(1), name(2), name(3), name(4));
    let channel = Reference::Variable(0);
    let request = then(
        Kind::SiblingOutput,
        2,
        &[deck, asking, number, channel],
        Process::Null,
    );
    let entering = then(
        Kind::Enter,
        0,
        &[Reference::Variable(0), asking],
        Process::Null,
    );
    let waiting = then(Kind::ExternalInput, 1, &[channel], entering);
    // Of the two that the deck takes the number is the outer variable, the channel the inner one.
    let taken = [Reference::Variable(1), Reference::Variable(0)];
    let answer = then(
        Kind::SiblingOutput,
        1,
        &[taken[0], taken[1], case],
        Process::Null,
    );
    let listen = Action::counted(Kind::ExternalInput, 2, &[3]);
    let reel = ambient(1, restriction(parallel(request, waiting)));
    let deck = ambient(2, Process::Replication(listen, Box::new(answer)));
    let case = ambient(4, action(Kind::Accept, &[3], Process::Null));
    Job {
        free: 5,
        process: parallel(reel, parallel(deck, case)),
    }
}

/// The cabinet with decks 1 to 4: each deck has its own channel, 5 to 8, and lets an adapter 9 in from beside it. An
/// adapter enters its deck and leaves it again.
fn cabinet() -> Job {
    let visit = |deck: u16| {
        let channel = deck + 4;
        let leave = action(Kind::Leave, &[channel], Process::Null);
        let adapter = ambient(9, action(Kind::Enter, &[deck, channel], leave));
        let release = action(Kind::Release, &[channel], Process::Null);
        let host = ambient(deck, action(Kind::Accept, &[channel], release));
        parallel(adapter, host)
    };
    Job {
        free: 10,
        process: parallel(parallel(visit(1), visit(2)), parallel(visit(3), visit(4))),
    }
}

/// Adapters 1, 2 and 3 wait to enter deck 4 on channel 5, and the deck accepts three times, one after another.
fn waiting_adapters() -> Job {
    let adapter = |name| ambient(name, action(Kind::Enter, &[4, 5], Process::Null));
    let accept = |after, _| action(Kind::Accept, &[5], after);
    let deck = ambient(4, (0..3).fold(Process::Null, accept));
    Job {
        free: 6,
        process: parallel(adapter(1), parallel(adapter(2), parallel(adapter(3), deck))),
    }
}

/// Ambient 1 tells the cabinet the name 3 on channel 2 for ever, and the cabinet listens for ever.
fn endless() -> Job {
    let sender = ambient(1, replication(Kind::ParentOutput, &[2, 3], Process::Null));
    let listener = replication(Kind::InternalInput, &[2], Process::Null);
    Job {
        free: 4,
        process: parallel(sender, listener),
    }
}

/// Ambient in ambient, with the cabinet around them one more than may nest.
fn nested() -> Job {
    Job {
        free: 2,
        process: (0..NESTING).fold(Process::Null, |inside, _| ambient(1, inside)),
    }
}

/// Adapter 4 enters deck 1 on channel 3, and reel 2 sends its name to the deck on the name 1, which is the deck's and no
/// channel. The job is refused with 15.
fn deck_as_channel() -> Job {
    let adapter = ambient(4, action(Kind::Enter, &[1, 3], Process::Null));
    let deck = ambient(1, action(Kind::Accept, &[3], Process::Null));
    let reel = ambient(2, action(Kind::SiblingOutput, &[1, 1, 2], Process::Null));
    Job {
        free: 5,
        process: parallel(adapter, parallel(deck, reel)),
    }
}

fn main() {
    let Some(folder) = std::env::args().nth(1) else {
        println!("usage: jobs FOLDER");
        exit(2);
    };
    let jobs = [
        ("adapter-and-deck", printed_job()),
        ("reel", reel()),
        ("numbered-reel", numbered_reel()),
        ("cabinet", cabinet()),
        ("lent-deck", lent_deck()),
        ("waiting-adapters", waiting_adapters()),
        ("throwaways", announced_reels()),
        ("endless", endless()),
        ("nested", nested()),
        ("deck-as-channel", deck_as_channel()),
    ];
    for (name, job) in jobs {
        let path = Path::new(&folder).join(name);
        if let Err(error) = std::fs::write(&path, job.encode()) {
            println!("{}: {error}", path.display());
            exit(1);
        }
    }
}
