//! What a book answers.

use crate::server::Server;
use crate::text::Text;

#[derive(Clone, Copy)]
pub enum Reply {
    Joined(Server),
    Woken(Server),
    Waiting {
        ticket: u32,
        zero_lag: u32,
    },
    Asleep,
    Left(u32),
    Retired,
    Ended,
    Charged {
        charge: u64,
        refills: u32,
        server: Server,
    },
    Gone,
    NotOn,
    AlreadyOn(u32),
    Elsewhere(u32),
    AlreadyContending,
    NotContending,
    StillContending,
    StillActive,
    Worn,
    Stale,
    Early(u32),
    Full,
    DeadlineOverflow,
    Busy,
    Lost,
}

impl Reply {
    /// Its words and numbers, to the end of its line.
    pub fn write(self, text: &mut Text) {
        text.word(self.word());
        match self {
            Reply::Joined(server) | Reply::Woken(server) => text.server(server),
            Reply::Waiting { ticket, zero_lag } => {
                text.number(ticket.into());
                text.pair(b" z=", zero_lag);
            }
            Reply::Charged {
                charge,
                refills,
                server,
            } => {
                text.number(charge);
                text.pair(b" k=", refills);
                text.word(b" ");
                text.server(server);
            }
            Reply::Left(on) | Reply::AlreadyOn(on) | Reply::Elsewhere(on) => text.number(on.into()),
            Reply::Early(zero_lag) => text.number(zero_lag.into()),
            _ => {}
        }
        text.end_line();
    }

    /// All that stands before the numbers.
    fn word(self) -> &'static [u8] {
        match self {
            Reply::Joined(_) => b"joined ",
            Reply::Woken(_) => b"woken ",
            Reply::Waiting { .. } => b"waiting ticket=",
            Reply::Asleep => b"asleep",
            Reply::Left(_) => b"left ",
            Reply::Retired => b"retired",
            Reply::Ended => b"ended",
            Reply::Charged { .. } => b"charged dq=",
            Reply::Gone => b"gone",
            Reply::NotOn => b"not-on",
            Reply::AlreadyOn(_) => b"already-on ",
            Reply::Elsewhere(_) => b"elsewhere ",
            Reply::AlreadyContending => b"already-contending",
            Reply::NotContending => b"not-contending",
            Reply::StillContending => b"still-contending",
            Reply::StillActive => b"still-active",
            Reply::Worn => b"worn",
            Reply::Stale => b"stale",
            Reply::Early(_) => b"early z=",
            Reply::Full => b"full",
            Reply::DeadlineOverflow => b"deadline-overflow",
            Reply::Busy => b"busy",
            Reply::Lost => b"lost",
        }
    }
}
