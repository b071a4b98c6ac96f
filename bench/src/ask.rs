//! What a book is asked of a task.

use crate::place::Place;
use crate::record::Record;
use crate::reply::Reply;
use crate::reservation::Reservation;
use crate::state::State;

/// How often a task may wait for its 0-lag time.
const COUNT_MAX: u32 = 16777215;

#[derive(Clone, Copy)]
pub enum Ask {
    Join { runqueue: u32, moment: u32 },
    Wake { runqueue: u32, moment: u32 },
    Block { runqueue: u32, moment: u32 },
    Charge { runqueue: u32, length: u32 },
    Leave,
    Timer { ticket: u32, moment: u32 },
    Exit,
}

impl Ask {
    /// The refusal that a task's place and count decide.
    pub fn refusal(self, place: Place, count: u32) -> Option<Reply> {
        match self {
            Ask::Timer { ticket, .. } => match place {
                Place::On(_, State::NonContending) if ticket == count => None,
                _ => Some(Reply::Stale),
            },
            _ => match place {
                Place::Gone => Some(Reply::Gone),
                Place::Away => self.refusal_away(),
                Place::On(on, state) => self.refusal_on(on, state, count),
            },
        }
    }

    fn refusal_away(self) -> Option<Reply> {
        match self {
            Ask::Join { .. } | Ask::Exit => None,
            _ => Some(Reply::NotOn),
        }
    }

    fn refusal_on(self, on: u32, state: State, count: u32) -> Option<Reply> {
        let is_contending = state == State::Contending;
        match self {
            Ask::Join { .. } => Some(Reply::AlreadyOn(on)),
            Ask::Wake { runqueue, .. }
            | Ask::Block { runqueue, .. }
            | Ask::Charge { runqueue, .. }
                if runqueue != on =>
            {
                Some(Reply::Elsewhere(on))
            }
            Ask::Wake { .. } => is_contending.then_some(Reply::AlreadyContending),
            Ask::Block { .. } | Ask::Charge { .. } if !is_contending => Some(Reply::NotContending),
            Ask::Block { .. } => (count == COUNT_MAX).then_some(Reply::Worn),
            Ask::Leave => is_contending.then_some(Reply::StillContending),
            Ask::Exit => (state != State::Inactive).then_some(Reply::StillActive),
            Ask::Charge { .. } | Ask::Timer { .. } => None,
        }
    }

    /// The runqueue whose sums it reads or changes.
    pub fn runqueue(self, place: Place) -> Option<u32> {
        match self {
            Ask::Join { runqueue, .. }
            | Ask::Wake { runqueue, .. }
            | Ask::Block { runqueue, .. }
            | Ask::Charge { runqueue, .. } => Some(runqueue),
            Ask::Leave | Ask::Timer { .. } | Ask::Exit => match place {
                Place::On(on, _) => Some(on),
                Place::Away | Place::Gone => None,
            },
        }
    }

    /// Whether it changes the runqueue's sums, where nothing refuses it.
    pub fn changes_sums(self, record: Record, task: Reservation) -> bool {
        match self {
            Ask::Join { .. } | Ask::Leave | Ask::Timer { .. } => true,
            Ask::Wake { .. } | Ask::Exit => matches!(record.place, Place::On(_, State::Inactive)),
            Ask::Block { moment, .. } => task.zero_lag(record.server) <= moment.into(),
            Ask::Charge { .. } => false,
        }
    }
}
