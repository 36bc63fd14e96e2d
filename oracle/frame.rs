//! What stands in for the parts that the Rust leans on and that aren't here: collections, clock, channels, the
//! client's command, the firmware's shared state. replacements.txt says why none of it changes anything.

use super::*;
use std::cell::{Cell, RefCell};
use std::collections::{BTreeMap, HashSet, VecDeque};

// ---- Collections

/// In rising order, as document 01 has it.
pub type HashMap<K, V> = BTreeMap<K, V>;
pub type SmallVec<T, const N: usize> = Vec<T>;

/// indexmap's set, as far as the poller uses it: a removal moves the last entry into the hole.
pub struct IndexSet<T>(Vec<T>);

impl<T: PartialEq> IndexSet<T> {
    pub fn new() -> Self {
        Self(Vec::new())
    }

    pub fn insert(&mut self, value: T) -> bool {
        let new = !self.0.contains(&value);
        if new {
            self.0.push(value);
        }
        new
    }

    pub fn swap_remove(&mut self, value: &T) -> bool {
        let at = self.0.iter().position(|v| v == value);
        at.map(|i| self.0.swap_remove(i)).is_some()
    }

    pub fn get_index(&self, index: usize) -> Option<&T> {
        self.0.get(index)
    }

    pub fn len(&self) -> usize {
        self.0.len()
    }

    pub fn is_empty(&self) -> bool {
        self.0.is_empty()
    }

    pub fn iter(&self) -> std::slice::Iter<'_, T> {
        self.0.iter()
    }
}

// ---- Clock: the time of the call that runs, in milliseconds

thread_local! {
    static NOW: Cell<u64> = const { Cell::new(0) };
}

pub fn now() -> u64 {
    NOW.get()
}

pub fn set_now(ms: u64) {
    NOW.set(ms);
}

#[derive(Clone, Copy)]
pub struct Instant(u64);

impl Instant {
    pub fn now() -> Self {
        Self(now())
    }

    pub fn elapsed(&self) -> Duration {
        Duration::from_millis(now() - self.0)
    }
}

// ---- Channels: queues that the driver empties

pub struct Sender<T>(RefCell<VecDeque<T>>);

impl<T> Default for Sender<T> {
    fn default() -> Self {
        Self(RefCell::default())
    }
}

impl<T> Sender<T> {
    pub fn send(&self, message: T) -> Result<()> {
        self.0.borrow_mut().push_back(message);
        Ok(())
    }

    pub fn pop(&self) -> Option<T> {
        self.0.borrow_mut().pop_front()
    }

    pub fn len(&self) -> usize {
        self.0.borrow().len()
    }

    /// A text for each message.
    pub fn texts(&self, text: impl Fn(&T) -> String) -> Vec<String> {
        self.0.borrow().iter().map(text).collect()
    }
}

// ---- A client's command

pub struct ObdCommand<'a> {
    pub command: &'a str,
}

impl ObdCommand<'_> {
    pub fn command(&self) -> &str {
        self.command
    }

    pub fn reply(self, lines: &[ReplyLine]) -> Result<()> {
        answer(format!("range {}", texts::reply(lines)));
        Ok(())
    }

    pub fn reject(self, word: &str) -> Result<()> {
        answer(match word {
            "UNABLE TO CONNECT" => "unable".into(),
            "NO DATA" => "nodata".into(),
            "?" => "unknown".into(),
            _ => format!("rejected {word}"),
        });
        Ok(())
    }
}

// ---- Types of files that aren't among the sources, or of which a part is needed

pub type Result<T, E = ()> = std::result::Result<T, E>;

#[derive(Debug, Clone)]
pub struct ReplyLine {
    pub ecu: Option<u16>,
    pub data: Vec<u8>,
}

pub type Lines = Vec<ReplyLine>;

#[derive(Debug, Clone, Copy, PartialEq, Eq)]
pub enum PidPriority {
    Fast,
    Slow,
}

#[derive(Debug, Clone, Copy, PartialEq, Eq)]
pub enum ProfileType {
    Normal,
    Overlay,
    Triggered,
}

#[derive(Debug, Clone)]
pub struct LedRule;

#[derive(Default)]
pub struct Config {
    pub obd2: Obd2Config,
    pub obd2_timeout_ms: u64,
    pub profiles: Vec<LedProfile>,
    pub active_profile: usize,
}

/// The part of main.rs's State that the cut functions use, and the report.
#[derive(Default)]
pub struct State {
    pub config: Mutex<Config>,
    pub led_tx: Sender<LedTaskMessage>,
    pub dongle_control_tx: Sender<DongleMessage>,
    pub cache_manager_tx: Sender<CacheManagerMessage>,
    pub shared_rpm: Mutex<Option<u32>>,
    pub pid_log: Mutex<HashSet<String>>,
    pub dongle_tcp_state: AtomicDongleTcpState,
    pub status_led_tx: StatusLeds,
    pub dongle_tcp_info: Mutex<Option<(SocketAddr, SocketAddr)>>,
    pub polling_metrics: PollingMetrics,
    pub supported_pids: Mutex<SupportedPidsCache>,
    pub capture_buffer: Mutex<Vec<u8>>,
    pub triggered_enabled: Mutex<Vec<bool>>,
    pub report: Cell<Option<Report>>,
}

/// The maintenance report, which the Rust logs.
pub struct Report {
    pub hits: u32,
    pub misses: u32,
    pub waited: Duration,
    pub hit_rate: f32,
    /// The command of a PID (`010C`) and its rate.
    pub rates: Vec<(String, f32)>,
}

pub struct Obd2Proxy;

/// The lights: nobody looks at them here.
#[derive(Default)]
pub struct StatusLeds;

pub enum StatusLedMessage {
    DongleState(DongleTcpState),
    DongleActivity,
    ClientActivity,
}

impl StatusLeds {
    pub fn send(&self, _message: StatusLedMessage) -> Result<()> {
        Ok(())
    }
}

#[derive(Default)]
pub struct AtomicDongleTcpState(Cell<DongleTcpState>);

impl AtomicDongleTcpState {
    pub fn store(&self, state: DongleTcpState, _order: Ordering) {
        self.0.set(state);
    }
}

pub struct WatchdogHandle;

impl WatchdogHandle {
    pub fn register(_name: &'static std::ffi::CStr) -> Self {
        Self
    }

    pub fn feed(&self) {}
}
