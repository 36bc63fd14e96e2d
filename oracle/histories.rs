//! Writes histories without a refusal, from a seed. The generator runs the oracle along and looks at its
//! answers, so it knows which round is open, which result is due, who waits, and what a round would begin with.

use super::*;
use crate::chance::Chance;
use crate::driver::Oracle;
use crate::history::{keep, pid_of, some_pid, History, Kind, Meets};
use std::io::Write;

const LAST_TIME: u64 = 16_777_215_999;
const CONTROL_PLACES: usize = 1024;
const LONGEST_WAIT: u64 = 60_000;
const LONGEST_REPLY: u64 = 64;

// ---- The box

/// The calls that a history is made of, with their usual weights.
const CALLS: [(&str, u64); 17] = [
    ("register", 4),
    ("leave", 2),
    ("ask", 12),
    ("collect", 16),
    ("giveup", 3),
    ("response", 8),
    ("profiles", 2),
    ("waiting", 4),
    ("consumed", 4),
    ("tick", 4),
    ("settings", 1),
    ("take", 10),
    ("connect", 6),
    ("reconnect", 2),
    ("begin", 6),
    ("next", 12),
    ("result", 12),
];

pub fn write_box(seed: &str, calls: &str) {
    let (seed, calls): (u64, u64) = (seed.parse().expect("SEED"), calls.parse().expect("CALLS"));
    let mut generator = Generator {
        chance: Chance(seed),
        out: std::io::BufWriter::new(std::io::stdout().lock()),
        oracle: Oracle::new(),
        written: 0,
        history: History::default(),
    };
    while generator.written < calls {
        generator.history();
    }
}

struct Generator<'a> {
    chance: Chance,
    out: std::io::BufWriter<std::io::StdoutLock<'a>>,
    oracle: Oracle,
    written: u64,
    history: History,
}

impl Generator<'_> {
    fn history(&mut self) {
        let c = &mut self.chance;
        let (length, kind) = match c.below(100) {
            0..=59 => (1 + c.below(40), Kind::Mixed),
            60..=84 => (40 + c.below(300), Kind::Mixed),
            85..=90 if cfg!(amended) => (40 + c.below(300), Kind::Slow),
            85..=96 => (40 + c.below(300), Kind::Polling),
            97 => (1000 + c.below(3000), Kind::Mixed),
            98 => (1000 + c.below(3000), Kind::Polling),
            _ => (1000 + c.below(1000), Kind::Crowd),
        };
        self.history = History {
            kind,
            weights: CALLS.iter().map(|&(call, weight)| kind.weight(c, call, weight)).collect(),
            pids: kind.pids(c),
            step: c.pick(&[1, 2, 10, 40, 200, 1000, 3000]),
            time: if c.one_in(20) {
                c.pick(&[LAST_TIME - 10_000, LAST_TIME])
            } else {
                c.pick(&[0, 0, 1, 1_000_000, 4_294_967_296])
            },
            next_client: 1,
            ..History::default()
        };
        let (time, settings, profiles) = (self.history.time, self.settings(), self.profiles());
        self.history.last_maintenance = time;
        self.call(format!("start {time} {settings}{profiles}"));
        for _ in 0..length {
            let line = self.passed_on().unwrap_or_else(|| self.any_call());
            self.call(line);
        }
    }

    /// Writes a call, learns from its answer, and has the lists shown after it.
    fn call(&mut self, line: String) {
        let answer = self.oracle.answer(line.as_bytes());
        let answer = answer.unwrap_or_else(|| panic!("the generator wrote {line}"));
        writeln!(self.out, "{line}").expect("standard output can be written");
        self.written += 1;
        self.learn(&line, &answer);
        writeln!(self.out, "show").expect("standard output can be written");
    }

    fn learn(&mut self, line: &str, answer: &str) {
        let words: Vec<&str> = line.split(' ').collect();
        let said: Vec<&str> = answer.split(' ').collect();
        let h = &mut self.history;
        h.time = words[1].parse().expect("a time");
        if said.contains(&"report") {
            h.last_maintenance = h.time;
        }
        h.aim(words[0], said[0]);
        match words[0] {
            "register" | "leave" | "ask" | "collect" | "giveup" => h.learn_of_clients(&words, &said),
            "begin" | "next" | "result" => h.learn_of_rounds(&words, &said),
            "response" => {
                for (_, value) in said.iter().filter_map(|word| word.split_once('=')) {
                    keep(&mut h.values, value.trim_end_matches('!').parse().expect("a value"));
                }
            }
            _ => {}
        }
    }

    /// What the desk named or the dongle replied, passed on by the host; now and then it isn't.
    fn passed_on(&mut self) -> Option<String> {
        let line = self.history.follow.pop_front()?;
        let words: Vec<&str> = line.split(' ').collect();
        let time = self.time(words[0]);
        if self.chance.one_in(5) || !self.room(time, 1) {
            return None;
        }
        match words[..] {
            ["response", ..] => {
                let mut pids: Vec<Pid> = words[1..].iter().map(|w| pid_of(w)).collect();
                pids.sort_unstable();
                let replies: String = pids.iter().map(|&pid| self.reply(pid)).collect();
                Some(format!("response {time}{replies}"))
            }
            ["consumed", _, wait] if wait.parse().is_ok_and(|w: u64| w > LONGEST_WAIT) => None,
            ["ask", client, ..] if !self.may_wait(client.parse().expect("a client")) => None,
            _ => Some(format!("{} {time} {}", words[0], words[1..].join(" "))),
        }
    }

    /// A call that won't be refused.
    fn any_call(&mut self) -> String {
        for _ in 0..100 {
            let all: u64 = self.history.weights.iter().sum();
            let mut at = self.chance.below(all.max(1));
            let mut call = "settings";
            for (&(name, _), &weight) in CALLS.iter().zip(&self.history.weights) {
                if at < weight {
                    call = name;
                    break;
                }
                at -= weight;
            }
            if let Some(line) = self.this_call(call) {
                return line;
            }
        }
        let time = self.time("settings");
        format!("settings {time} {}", self.settings())
    }

    /// A line of this call, none where it could be refused.
    fn this_call(&mut self, call: &str) -> Option<String> {
        let time = self.time(call);
        let free = !self.history.round;
        let rest = match call {
            "register" if self.history.clients.len() < 8 && self.room(time, 0) => String::new(),
            "leave" if self.room(time, 0) => format!(" {}", self.leaver()),
            "ask" => self.ask()?,
            "collect" => self.collect()?,
            "giveup" if !self.history.waits.is_empty() => {
                format!(" {}", self.chance.pick(&self.history.waits).0)
            }
            "response" if self.room(time, 0) => self.response(),
            "profiles" if self.room(time, 16) => self.profiles(),
            "waiting" if self.room(time, 1) => format!(" {:02X}", self.pid()),
            "consumed" if self.room(time, 1) => format!(" {:02X} {}", self.pid(), self.wait()),
            "tick" if self.room(time, 0) => String::new(),
            "settings" => format!(" {}", self.settings()),
            "take" if free && self.seldom(self.oracle.control_messages() == 0) => String::new(),
            "begin" if free && self.may_begin() => String::new(),
            "reconnect" if free && self.seldom(self.oracle.connected()) => String::new(),
            "connect" if free && self.seldom(self.oracle.connected()) => self.connect(),
            "next" if !free && self.history.due.is_empty() => String::new(),
            "result" if !self.history.due.is_empty() => self.result(),
            _ => return None,
        };
        Some(format!("{call} {time}{rest}"))
    }

    /// Always, but seldom where the call would say little.
    fn seldom(&mut self, little: bool) -> bool {
        !little || self.chance.one_in(6)
    }

    /// Whether the round that would begin can be compared. One of document 02's A2 (connected, single, Ratio mode, the fast list
    /// empty) can't: the Rust asks a slow PID in it only at its ratio. The amended Rust has A2's rule.
    fn may_begin(&mut self) -> bool {
        cfg!(amended) || !self.oracle.begins_only_slow()
    }

    /// Whether the client is there and doesn't wait already.
    fn may_wait(&self, client: u32) -> bool {
        self.history.clients.contains(&client) && !self.oracle.waits(client)
    }

    /// Whether the control line has room: for an event's messages, and for one of each PID if maintenance is
    /// due. A PID that profiles raise or bring is pinned, so maintenance has no second message for it.
    fn room(&self, time: u64, event: usize) -> bool {
        let due = time - self.history.last_maintenance >= 2000;
        let messages = if due { 256 + event.min(1) } else { event };
        self.oracle.control_messages() + messages <= CONTROL_PLACES
    }

    /// The time of this call: mostly a small step or none, often one at which a limit is met, or one beside it.
    fn time(&mut self, call: &str) -> u64 {
        let (h, c) = (&self.history, &mut self.chance);
        if h.kind == Kind::Crowd && !c.one_in(300) {
            return h.time;
        }
        let met = |&&(meets, time): &&(Meets, u64)| meets == Meets::of(call) && time > h.time;
        let targets: Vec<u64> = h.targets.iter().filter(met).map(|&(_, time)| time).collect();
        let step = if h.kind.polls() { 20 } else { h.step };
        let time = match c.below(10) {
            0..=4 => h.time + c.below(step),
            5..=6 if !targets.is_empty() => c.pick(&targets) + c.below(3) - 1,
            7 if c.one_in(20) => h.time + c.pick(&[10_000, 100_000, 1_000_000_000]),
            _ => h.time,
        };
        time.clamp(h.time, LAST_TIME)
    }

    fn pid(&mut self) -> Pid {
        if self.history.kind == Kind::Crowd {
            return self.written as Pid;
        }
        if self.chance.one_in(30) {
            return some_pid(&mut self.chance);
        }
        self.chance.pick(&self.history.pids)
    }

    fn wait(&mut self) -> String {
        let c = &mut self.chance;
        let promote = self.history.limits[1].saturating_add(c.below(3)).saturating_sub(1);
        match c.below(4) {
            0 => "-".into(),
            1 => c.pick(&[0, 1, 39, 40, 41, 59_999, 60_000]).to_string(),
            _ => promote.min(LONGEST_WAIT).to_string(),
        }
    }

    fn leaver(&mut self) -> u32 {
        let h = &self.history;
        let unknown = [0, h.next_client, h.next_client + 1, u32::MAX];
        if h.clients.is_empty() || self.chance.one_in(5) {
            self.chance.pick(&unknown)
        } else {
            self.chance.pick(&h.clients)
        }
    }

    fn settings(&mut self) -> String {
        if self.history.kind == Kind::Crowd {
            return "0,450,6,40,0,100000,0,6".into();
        }
        let (c, polling) = (&mut self.chance, self.history.kind.polls());
        let interval = c.pick(&[0, 1, 40, 450, 450, 1000, 5000, u64::MAX]);
        let ratio = c.pick(&[0, 1, 1, 2, 3, 6, u32::MAX]);
        let promote = c.pick(&[0, 1, 40, 40, 100, 60_000, u64::MAX]);
        let demote = c.pick(&[0, 1, 500, 2000, 2000, 10_000, u64::MAX]);
        let remove = c.pick(&[0, 1, 1000, 4000, 4000, 20_000, u64::MAX]);
        let max_pids = c.pick(&[0, 1, 2, 3, 4, 5, 6, 7, 8, 255]);
        self.history.limits = [interval, promote, demote, remove];
        let (mode, multi) = (c.below(2), if polling { c.below(4).min(1) } else { c.below(2) });
        format!("{mode},{interval},{ratio},{promote},{demote},{remove},{multi},{max_pids}")
    }

    fn profiles(&mut self) -> String {
        let many = if self.history.kind.polls() { 16 } else { 1 };
        let count = self.chance.pick(&[0, 1, 2, 3, 5, 16, many, many]);
        let mut normal = false;
        let mut text = String::new();
        for _ in 0..count {
            let kind = if normal { 1 + self.chance.below(2) } else { self.chance.below(3) };
            normal |= kind == 0;
            let (pid, threshold) = (self.pid(), self.threshold());
            let priority = if self.history.kind == Kind::Slow { 1 } else { self.chance.below(2) };
            let enabled = self.chance.below(3).min(1);
            text += &format!(" {kind},{pid:02X},{priority},{threshold},{enabled}");
        }
        text
    }

    /// None, a round number, or near a value that came.
    fn threshold(&mut self) -> String {
        let (values, c) = (&self.history.values, &mut self.chance);
        match c.below(4) {
            0 => "-".into(),
            1 => c.pick(&[0, 1, 255, 256, 6904, 65_535, u32::MAX]).to_string(),
            _ if values.is_empty() => c.below(2000).to_string(),
            _ => {
                let value = values[c.below(values.len() as u64) as usize] + c.below(3);
                value.saturating_sub(1).min(u64::from(u32::MAX)).to_string()
            }
        }
    }

    fn ask(&mut self) -> Option<String> {
        if self.history.clients.is_empty() {
            return None;
        }
        let client = self.chance.pick(&self.history.clients);
        let command = self.command();
        let cached = self.oracle.asks_cache(&command);
        if cached && !self.may_wait(client) {
            return None;
        }
        // A cached reading is as long as the fresh reply; one that waits takes no room yet.
        let pid = wire_command_to_pid(command.as_bytes()).filter(|_| cached);
        let need = pid.map_or(64, |pid| self.oracle.fresh(client, pid).unwrap_or(0));
        let area = self.area(need);
        let bytes = command.as_bytes();
        let plain = bytes.iter().all(|&b| b != b' ' && b != b'\n');
        let text = if plain && !self.chance.one_in(8) {
            format!("'{command}")
        } else {
            format!("x{}", bytes.iter().map(|b| format!("{b:02X}")).collect::<String>())
        };
        Some(format!(" {client} {text} {area}"))
    }

    fn area(&mut self, need: usize) -> usize {
        self.chance.pick(&[need, need, need + 1, 64, 4096]).max(need)
    }

    /// A command of any class: a PID, a range, or none. The signs and characters that document 01 doesn't
    /// compare stay out of the first four bytes.
    fn command(&mut self) -> String {
        let pid = self.pid();
        let c = &mut self.chance;
        let hex = if c.one_in(3) { format!("01{pid:02x}") } else { format!("01{pid:02X}") };
        let range = format!("01{:02X}", 0x20 * c.below(8));
        let range = if c.one_in(3) { range.to_lowercase() } else { range };
        let tail = c.pick(&["", "1", "0D", "0D0c", "0D0C1", "zz", " ", "+", "é", "\0\0", "\r"]);
        match c.below(12) {
            0..=5 => hex,
            6 | 7 => hex + tail,
            8 => range,
            9 => range + tail,
            10 => {
                let none = ["", "0", "01", "010", "ATZ", "ATE0", "at01", "020C", "0902", "1234"];
                let more = ["01G0", "010g", "O10C", " 010C", "01 0C", "é0C1", "01é", "010é", "01€", "zzzzz"];
                c.pick(&[none, more].concat()).into()
            }
            _ => {
                let length = c.below(12);
                let ascii = (0..length).map(|_| char::from(c.pick(b"0000111122CcDdAaFf/:@G`g 9\0\x7f")));
                ascii.collect()
            }
        }
    }

    fn collect(&mut self) -> Option<String> {
        let fresh = |&(c, pid): &(u32, Pid)| self.oracle.fresh(c, pid).map(|need| (c, need));
        let ready: Vec<(u32, usize)> = self.history.waits.iter().filter_map(fresh).collect();
        if ready.is_empty() {
            return None;
        }
        let (client, need) = self.chance.pick(&ready);
        Some(format!(" {client} {}", self.area(need)))
    }

    fn response(&mut self) -> String {
        let count = self.chance.pick(&[0, 1, 1, 1, 2, 3, 6]);
        let mut pids: Vec<Pid> = (0..count).map(|_| self.pid()).collect();
        // Those who wait are served more often than others.
        if count > 0 && !self.history.waits.is_empty() {
            pids[0] = self.chance.pick(&self.history.waits).1;
        }
        pids.sort_unstable();
        pids.dedup();
        pids.iter().map(|&pid| self.reply(pid)).collect()
    }

    fn reply(&mut self, pid: Pid) -> String {
        let known = self.history.replies.iter().find(|r| pid_of(&r[1..3]) == pid).cloned();
        if let Some(reply) = known.filter(|_| self.chance.one_in(3)) {
            return reply;
        }
        // The Rust reads on behind the data length (document 02, A1): the first line has no surplus bytes.
        let first =
            MODE01_PID_DATA_LENGTHS[usize::from(pid)].map_or(LONGEST_REPLY, |data| u64::from(data) + 2);
        let lines = self.lines(&format!("41{pid:02X}"), first);
        let reply = match lines {
            None => format!(" {pid:02X}"),
            Some(lines) => format!(" {pid:02X}:{lines}"),
        };
        keep(&mut self.history.replies, reply.clone());
        reply
    }

    /// None for no lines, else up to 8 of them with up to 64 bytes, the first of at most `first` and often a proper one.
    fn lines(&mut self, proper: &str, first: u64) -> Option<String> {
        let c = &mut self.chance;
        let count = c.pick(&[0, 1, 1, 1, 1, 2, 3, 8]);
        let mut left = LONGEST_REPLY;
        let mut lines = Vec::new();
        for n in 0..count {
            let mut line = String::new();
            let mut room = if n == 0 { first } else { left };
            if n == 0 && !c.one_in(4) {
                line += proper;
                left -= 2;
                room -= 2;
            }
            let longest = c.pick(&[1, 3, 5, 7, 65]);
            let length = c.below(longest).min(room);
            let length = if c.one_in(20) { room } else { length };
            line += &c.hex(length);
            left -= length;
            lines.push(line);
        }
        (count > 0).then(|| lines.join(","))
    }

    fn connect(&mut self) -> String {
        if self.chance.one_in(4) {
            return " 0".into();
        }
        let ranges: Vec<String> = (0..8).map(|n| self.range(n)).collect();
        let c = &mut self.chance;
        let known = match c.below(4) {
            0 => c.hex(32),
            1 => c.pick(&["F", "0"]).repeat(64),
            _ => "*".into(),
        };
        format!(" 1 {known} {} {}", c.pick(&[0, 0, 1, 1, 1, 2]), ranges.join(" "))
    }

    fn range(&mut self, n: u8) -> String {
        if self.chance.one_in(3) {
            return "-".into();
        }
        let lines = self.lines(&format!("41{:02X}", 0x20 * n), LONGEST_REPLY);
        lines.map_or(".".into(), |lines| format!(":{lines}"))
    }

    fn result(&mut self) -> String {
        let often = if self.history.kind.polls() { 40 } else { 8 };
        let kind = if self.chance.one_in(often) { 2 } else { self.chance.pick(&[0, 0, 0, 1]) };
        let state = if self.chance.one_in(often) { 2 } else { self.chance.pick(&[0, 1, 1]) };
        let mut text = format!(" {kind} {state}");
        for _ in 0..self.history.due.len() {
            let ecu = self.chance.pick(&["-", "1", "1", "1", "1", "1", "1", "2", "3", "255"]);
            text += &format!(" {ecu},{}", u8::from(!self.chance.one_in(often / 2)));
        }
        text
    }
}

// ---- The recorder

pub fn write_recorder(seed: &str, calls: &str) {
    let mut c = Chance(seed.parse().expect("SEED"));
    let calls: u64 = calls.parse().expect("CALLS");
    let mut out = std::io::BufWriter::new(std::io::stdout().lock());
    let mut buffer = 0;
    for _ in 0..calls {
        let line = match c.below(20) {
            0 => {
                buffer = c.pick(&[0, 6, 7, 8, 16, 40, 100, 300, 1000, 70_000, 262_142]) + c.below(3);
                format!("buffer {buffer}")
            }
            1 => "dump".into(),
            _ => record(&mut c, buffer),
        };
        writeln!(out, "{line}").expect("standard output can be written");
    }
}

/// A record, now and then as long as the buffer has room for or as long as one may be.
fn record(c: &mut Chance, buffer: u64) -> String {
    let wrapped = c.below(4) * (1 << 32) + c.below(3);
    let ms = c.pick(&[0, 1, 4_294_967_295, 4_294_967_297, wrapped, u64::MAX]);
    let small = c.below(30);
    let fitting = buffer.saturating_sub(7).min(1000);
    let length =
        if c.one_in(400) { 65_535 - c.below(2) } else { c.pick(&[0, 2, small, small, small, fitting]) };
    let data = if length == 0 { "-".into() } else { c.hex(length) };
    format!("record {ms} {} {data}", c.below(4))
}
