//! A simulator that has a log of its own and checks it with the library, as `examples/embed.c` does:
//! both print the same.

use kelzoud::{
    apply, write_listing, Addr, Answer, Cap, Event, Kind, Name, Right, Span, States, Tally,
    Written, MAX_LISTING,
};

const ROWS: usize = 16;
const REGISTERS: usize = 4;

/// What an instruction does with the pointers in its registers.
#[derive(Clone, Copy)]
enum Operation {
    Allocate {
        to: usize,
    },
    Borrow {
        to: usize,
        from: usize,
        right: Right,
    },
    Load {
        from: usize,
    },
    Store {
        from: usize,
    },
    Release {
        from: usize,
    },
}

use Operation::{Allocate, Borrow, Load, Release, Store};
use Right::{ReadOnly, ReadWrite};

/// One entry of the log: the instruction's place, what it does, and on which addresses.
type Entry = (u32, Operation, u32, u32);

/// Two exclusive borrows of one object, then a shared one, each used after another took its right.
const ENTRIES: [Entry; 13] = [
    (0x100, Allocate { to: 0 }, 4096, 64),
    (
        0x104,
        Borrow {
            to: 1,
            from: 0,
            right: ReadWrite,
        },
        4096,
        16,
    ),
    (
        0x108,
        Borrow {
            to: 2,
            from: 0,
            right: ReadWrite,
        },
        4112,
        16,
    ),
    (0x10c, Store { from: 1 }, 4096, 8),
    (0x110, Store { from: 2 }, 4112, 8),
    (0x114, Store { from: 0 }, 4096, 8),
    (0x118, Load { from: 1 }, 4096, 8),
    (
        0x11c,
        Borrow {
            to: 3,
            from: 2,
            right: ReadOnly,
        },
        4112,
        4,
    ),
    (0x120, Load { from: 0 }, 4112, 1),
    (0x124, Store { from: 2 }, 4112, 8),
    (0x128, Load { from: 3 }, 4114, 4),
    (0x12c, Release { from: 0 }, 0, 0),
    (0x130, Load { from: 3 }, 4112, 1),
];

struct Simulator {
    table: [Cap; ROWS],
    written: Written,
    states: Box<States>,
    tally: Tally,
    /// The name of the capability in each register.
    names: [Name; REGISTERS],
}

impl Simulator {
    fn new() -> Simulator {
        Simulator {
            table: [Cap::EMPTY; ROWS],
            written: Written::NONE,
            states: Box::new(States::NOTHING),
            tally: Tally::default(),
            names: [Name(0); REGISTERS],
        }
    }

    fn event(&self, operation: Operation, span: Span) -> Event {
        let name = |register: usize| self.names[register];
        match operation {
            Allocate { .. } => Event::Create {
                written: None,
                span,
                right: ReadWrite,
                fresh: false,
                holders: None,
            },
            Borrow { from, right, .. } => Event::Borrow {
                written: None,
                parent: name(from),
                span,
                right,
                kind: Kind::Reference,
                holders: None,
            },
            Load { from } => Event::Read {
                name: name(from),
                span,
            },
            Store { from } => Event::Write {
                name: name(from),
                span,
            },
            Release { from } => Event::Drop { name: name(from) },
        }
    }

    fn take(&mut self, (pc, operation, start, length): Entry) {
        let start = Addr(start);
        let event = self.event(operation, Span { start, length });
        let Simulator {
            table,
            written,
            states,
            tally,
            ..
        } = self;
        let answer = apply(table, written, states, tally, event);
        match (answer, operation) {
            (Answer::Allowed(Some(made)), Allocate { to } | Borrow { to, .. }) => {
                self.names[to] = made;
            }
            (Answer::Allowed(_), _) => {}
            (Answer::Refused(refusal), _) => {
                println!("{pc:#x}: capability {}: {refusal}", user(event).0);
            }
        }
    }

    fn print_summary(&self) {
        let Tally {
            issued,
            creates,
            borrows,
            reads,
            writes,
            drops,
            refused,
        } = self.tally;
        println!(
            "{creates} creates, {borrows} borrows, {reads} reads, {writes} writes, \
             {drops} drops, {refused} refused"
        );
        let mut listing = [0; MAX_LISTING];
        let length = write_listing(&self.table, issued, &mut listing).expect("the table is ours");
        print!("{}", String::from_utf8_lossy(&listing[..length]));
    }
}

/// The capability that an event goes through.
fn user(event: Event) -> Name {
    match event {
        Event::Create { .. } | Event::Mark { .. } | Event::Back { .. } => Name(0),
        Event::Borrow { parent: name, .. }
        | Event::Read { name, .. }
        | Event::Write { name, .. }
        | Event::Drop { name } => name,
    }
}

fn main() {
    let mut simulator = Simulator::new();
    for entry in ENTRIES {
        if matches!(entry.1, Release { .. }) {
            simulator.print_summary();
        }
        simulator.take(entry);
    }
    simulator.print_summary();
}
