//! What the generator knows of the history that it writes, so that it writes no refusal, and what it likes in it.

use super::*;
use crate::chance::Chance;
use std::collections::VecDeque;

/// What a history is mostly about.
#[derive(Clone, Copy, Default, PartialEq)]
pub enum Kind {
    #[default]
    Mixed,
    /// Rounds, single and multi, on a connection that is seldom lost.
    Polling,
    /// The same with Slow profiles alone and few who wait, so that the fast list is mostly empty: for the amended Rust.
    Slow,
    /// Every PID waits in turn and messages are hardly taken, so that the control line fills.
    Crowd,
}

impl Kind {
    pub fn polls(self) -> bool {
        matches!(self, Kind::Polling | Kind::Slow)
    }

    pub fn weight(self, c: &mut Chance, call: &str, weight: u64) -> u64 {
        match (self, call) {
            (Kind::Mixed, "connect" | "next" | "result") => weight * c.pick(&[1, 1, 2, 4]),
            (Kind::Mixed, _) => weight * c.pick(&[0, 1, 1, 2, 2, 4, 8]),
            (Kind::Polling | Kind::Slow, "connect" | "take" | "begin" | "next" | "result") => 10 * weight,
            (Kind::Slow, "ask" | "waiting" | "consumed") => 1,
            (Kind::Polling | Kind::Slow, _) => weight,
            (Kind::Crowd, "waiting") => 1000,
            (Kind::Crowd, "settings") => 0,
            (Kind::Crowd, _) => 1,
        }
    }

    pub fn pids(self, c: &mut Chance) -> Vec<Pid> {
        match c.pick(&[1, 2, 3, 5, 8, 20, 256]) {
            256 => (0..=255).collect(),
            // Neighbours that stand in J1979's table, so that their lengths are known.
            count if self.polls() => (0..count as Pid).map(|n| n + 3).collect(),
            count => (0..count).map(|_| some_pid(c)).collect(),
        }
    }
}

/// The calls that may find a limit met.
#[derive(Clone, Copy, PartialEq)]
pub enum Meets {
    Manager,
    Next,
    Reconnect,
    Collect,
    Nothing,
}

impl Meets {
    pub fn of(call: &str) -> Self {
        match call {
            "next" => Meets::Next,
            "reconnect" => Meets::Reconnect,
            "collect" => Meets::Collect,
            "ask" | "giveup" | "settings" | "take" | "connect" | "begin" | "result" => Meets::Nothing,
            _ => Meets::Manager,
        }
    }
}

/// What the generator knows and likes in one history.
#[derive(Default)]
pub struct History {
    pub kind: Kind,
    pub weights: Vec<u64>,
    /// The PIDs that it speaks of.
    pub pids: Vec<Pid>,
    /// The largest usual step of time.
    pub step: u64,
    pub time: u64,
    /// The interval, the promotion threshold, the demotion limit and the removal limit.
    pub limits: [u64; 4],
    /// Times at which a limit will be met, and by which calls.
    pub targets: VecDeque<(Meets, u64)>,
    pub last_maintenance: u64,
    pub clients: Vec<u32>,
    pub next_client: u32,
    /// Who waits, and for which PID.
    pub waits: Vec<(u32, Pid)>,
    pub round: bool,
    /// The query whose result is due.
    pub due: Vec<String>,
    /// The last replies and their values, so that thresholds are met.
    pub replies: VecDeque<String>,
    pub values: VecDeque<u64>,
    /// What the host passes on next.
    pub follow: VecDeque<String>,
}

impl History {
    /// Notes the times at which limits that count from this call will be met, and by which calls.
    pub fn aim(&mut self, call: &str, said: &str) {
        let [interval, promote, demote, remove] = self.limits;
        let after: &[(Meets, u64)] = match (call, said) {
            ("reconnect", "yes") => &[(Meets::Reconnect, 1000)],
            ("start" | "result" | "next", _) => &[(Meets::Next, interval)],
            ("waiting", _) => &[(Meets::Manager, demote), (Meets::Manager, remove)],
            ("consumed" | "profiles", _) => &[(Meets::Manager, remove)],
            ("ask", "waiting") => &[(Meets::Collect, promote)],
            _ => &[],
        };
        for &(meets, limit) in after.iter().filter(|&&(_, limit)| limit > 0 && limit < 100_000) {
            keep(&mut self.targets, (meets, self.time + limit));
        }
        if self.last_maintenance == self.time {
            keep(&mut self.targets, (Meets::Manager, self.time + 2000));
        }
    }

    pub fn learn_of_clients(&mut self, words: &[&str], said: &[&str]) {
        let client = words.get(2).map_or(0, |client| client.parse().expect("a client"));
        match (words[0], said[0]) {
            ("register", _) => {
                self.clients.push(said[1].parse().expect("a client"));
                self.next_client += 1;
            }
            ("ask", "waiting") => {
                self.waits.push((client, pid_of(said[1])));
                self.follow.push_back(format!("waiting {}", said[1]));
            }
            ("ask", "reading") => self.follow.push_back(format!("consumed {} -", said[1])),
            ("ask", _) => {}
            (ended, _) => {
                let at = self.waits.iter().position(|&(c, _)| c == client);
                let waited = at.map(|at| self.waits.swap_remove(at));
                match (ended, waited) {
                    ("collect", _) => self.follow.push_back(format!("consumed {} {}", said[1], said[4])),
                    // Who gave up asks once more: a fresh reply must still be there.
                    ("giveup", Some((_, pid))) => {
                        self.follow.push_back(format!("ask {client} '01{pid:02X} 64"))
                    }
                    _ => self.clients.retain(|&c| c != client),
                }
            }
        }
    }

    pub fn learn_of_rounds(&mut self, words: &[&str], said: &[&str]) {
        match (words[0], said[0]) {
            ("begin", _) => self.round = true,
            ("next", "end") => self.round = false,
            ("next", _) => self.due = said[1].split(',').map(String::from).collect(),
            _ => {
                let pids = std::mem::take(&mut self.due);
                if words[2] == "0" {
                    self.follow.push_back(format!("response {}", pids.join(" ")));
                }
            }
        }
    }
}

/// The last dozen.
pub fn keep<T>(list: &mut VecDeque<T>, value: T) {
    list.push_back(value);
    if list.len() > 12 {
        list.pop_front();
    }
}

/// Any PID, the well-known ones and the ranges' more often.
pub fn some_pid(c: &mut Chance) -> Pid {
    let any = c.byte();
    c.pick(&[0x0C, 0x0C, 0x0D, 0x05, 0x00, 0xE0, 0xFF, any, any, any])
}

pub fn pid_of(digits: &str) -> Pid {
    Pid::from_str_radix(digits, 16).expect("a PID")
}
