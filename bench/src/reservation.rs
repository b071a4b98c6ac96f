//! What a task reserves.

use crate::server::Server;

/// A runtime in each period, and the bandwidth that these are.
#[derive(Clone, Copy)]
pub struct Reservation {
    pub runtime: u32,
    pub period: u32,
    pub bandwidth: u32,
}

impl Reservation {
    pub fn new(runtime: u32, period: u32) -> Reservation {
        let bandwidth = ((u64::from(runtime) << 20) / u64::from(period)) as u32;
        Reservation {
            runtime,
            period,
            bandwidth,
        }
    }

    /// The server of a task that wakes: a new one, where the old one would take more than the
    /// bandwidth.
    pub fn woken(self, server: Server, moment: u32) -> Server {
        let left = i64::from(server.deadline) - i64::from(moment);
        if i64::from(server.budget) * i64::from(self.period) > left * i64::from(self.runtime) {
            Server {
                budget: self.runtime,
                deadline: moment + self.period,
            }
        } else {
            server
        }
    }

    /// The moment from which a blocked task's bandwidth is free.
    pub fn zero_lag(self, server: Server) -> i64 {
        let ahead = i64::from(server.budget) * i64::from(self.period) / i64::from(self.runtime);
        i64::from(server.deadline) - ahead
    }

    /// How often the budget is refilled, and the server after that; nothing where the deadline has
    /// no number.
    pub fn depleted(self, server: Server, charge: u64) -> Option<(u32, Server)> {
        let (budget, runtime) = (u64::from(server.budget), u64::from(self.runtime));
        if charge < budget {
            let budget = server.budget - charge as u32;
            return Some((0, Server { budget, ..server }));
        }
        let refills = (charge - budget) / runtime + 1;
        let deadline = u64::from(server.deadline) + refills * u64::from(self.period);
        let server = Server {
            budget: (budget + refills * runtime - charge) as u32,
            deadline: u32::try_from(deadline).ok()?,
        };
        Some((refills as u32, server))
    }
}
