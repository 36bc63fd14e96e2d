//! The box's calls: each line goes to the task of the Rust that it is for, and is answered with what the Rust did.
//! Refusals aren't looked for.

use super::*;
use crate::words::Words;
use std::collections::BTreeMap;
use std::marker::PhantomData;
use std::net::{IpAddr, Ipv4Addr};
use std::sync::mpsc::RecvTimeoutError;

const NO_ADDRESS: SocketAddr = SocketAddr::new(IpAddr::V4(Ipv4Addr::UNSPECIFIED), 0);

/// dongle_task's own variables, and its pieces in the order in which the calls come.
async fn dongle_calls(state: Arc<State>) {
    let mut connection: Option<DongleSession> = None;
    let mut last_connect_attempt: Option<Instant> = None;
    let mut polling = PollingState::default();
    loop {
        match hand_over().await {
            Word::Show => answer(texts::lists(&polling)),
            Word::Take => match state.dongle_control_tx.pop() {
                None => answer("none".into()),
                Some(message) => {
                    answer(texts::taken(&message));
                    take_control(&mut polling, message);
                }
            },
            Word::Reconnect => {
                let due = connection.is_none() && reconnect_is_due(&mut last_connect_attempt);
                answer(if due { "yes" } else { "no" }.into());
            }
            Word::Connect(_) if connection.is_some() => answer("already".into()),
            Word::Connect(attempt) => {
                let attempt = attempt.map(|mut dongle| {
                    query_supported_pids(&mut dongle, &state, &WatchdogHandle);
                    (dongle, NO_ADDRESS, NO_ADDRESS)
                });
                finish_reconnect(&mut connection, attempt, &state);
                answer(if connection.is_some() { "connected" } else { "failed" }.into());
            }
            Word::OnlySlow => {
                let only = begins_only_slow(connection.as_ref(), &polling, &state);
                answer(if only { "yes" } else { "no" }.into());
            }
            Word::Begin => {
                answer("ok".into());
                let requests = polling.poll_pids(&mut connection, &state).await;
                turn(&polling).await;
                answer_next(format!("end {requests}"));
            }
            _ => {}
        }
    }
}

/// Whether a round begun now is one of document 02's A2: connected, single, in Ratio mode, the fast list empty.
fn begins_only_slow(connection: Option<&DongleSession>, polling: &PollingState, state: &State) -> bool {
    let Some(dongle) = connection else { return false };
    let obd2 = &state.config.lock().unwrap().obd2;
    let single = !obd2.use_multi_pid || dongle.server_state().multi_pid() == FeatureSupport::No;
    single && obd2.slow_poll_mode == SlowPollMode::Ratio && polling.fast_pids.is_empty()
}

/// A client's cache, and its ask while it waits.
struct Client {
    cache: Arc<Mutex<ClientCache>>,
    waiting: Option<Task<Result<()>>>,
}

pub struct Oracle {
    state: Arc<State>,
    manager: Task<()>,
    dongle: Task<()>,
    clients: BTreeMap<ClientId, Client>,
}

impl Oracle {
    /// Before the first start: the box started at 0 with defaults and no profiles.
    pub fn new() -> Self {
        Self::start(Obd2Config::default(), Vec::new())
    }

    fn start(obd2: Obd2Config, profiles: Vec<(LedProfile, bool)>) -> Self {
        let state = Arc::new(State::default());
        state.config.lock().unwrap().obd2 = obd2;
        set_profiles(&state, profiles);
        let (for_manager, for_dongle) = (state.clone(), state.clone());
        let mut oracle = Self {
            state,
            manager: Box::pin(async move { cache_manager_task(&for_manager, &Receiver(PhantomData)).await }),
            dongle: Box::pin(dongle_calls(for_dongle)),
            clients: BTreeMap::new(),
        };
        run(&mut oracle.manager, None);
        run(&mut oracle.dongle, None);
        oracle
    }

    /// The answer to a line, none to one that can't be taken.
    pub fn answer(&mut self, line: &[u8]) -> Option<String> {
        let before = now();
        take_answer();
        let answer = Words::new(line).and_then(|words| self.call(words));
        if answer.is_none() {
            set_now(before);
        }
        answer
    }

    fn call(&mut self, mut words: Words) -> Option<String> {
        let word = words.next()?;
        if word == b"show" {
            return words.end().and_then(|()| self.show());
        }
        set_now(words.number()?);
        match word {
            b"start" => {
                *self = Self::start(words.settings()?, words.profiles()?);
                Some("started".into())
            }
            b"settings" => {
                let obd2 = words.settings()?;
                words.end()?;
                self.state.config.lock().unwrap().obd2 = obd2;
                Some("ok".into())
            }
            b"ask" | b"collect" | b"giveup" => self.desk_call(word, words),
            b"take" | b"connect" | b"reconnect" | b"begin" | b"next" | b"result" => {
                self.poller_call(word, words)
            }
            _ => self.manager_call(word, words),
        }
    }

    // ---- Manager

    fn manager_call(&mut self, word: &[u8], mut words: Words) -> Option<String> {
        let message = match word {
            b"register" => return words.end().and_then(|()| self.register()),
            b"tick" => return words.end().map(|()| self.manage("ok", Err(RecvTimeoutError::Timeout))),
            b"response" => return words.replies().and_then(|replies| self.response(replies)),
            b"leave" => {
                let client = words.number()?;
                words.end()?;
                self.clients.remove(&client);
                CacheManagerMessage::UnregisterClient(client)
            }
            b"profiles" => {
                set_profiles(&self.state, words.profiles()?);
                CacheManagerMessage::ProfilePidsChanged
            }
            b"waiting" => {
                let pid = words.pid()?;
                words.end()?;
                CacheManagerMessage::Waiting(pid)
            }
            b"consumed" => CacheManagerMessage::Consumed { pid: words.pid()?, wait_duration: words.wait()? },
            _ => return None,
        };
        Some(self.manage("ok", Ok(message)))
    }

    /// One event of the manager; its answer has the report behind it where maintenance ran.
    fn manage(&mut self, ok: &str, event: Result<CacheManagerMessage, RecvTimeoutError>) -> String {
        run(&mut self.manager, Some(Word::Manage(event)));
        self.state.report.take().map_or(ok.into(), |report| ok.to_string() + &texts::report(report))
    }

    fn register(&mut self) -> Option<String> {
        let (reply_tx, reply_rx) = oneshot::channel();
        let report = self.manage("", Ok(CacheManagerMessage::RegisterClient(reply_tx)));
        let (id, cache) = reply_rx.take()?;
        self.clients.insert(id, Client { cache, waiting: None });
        Some(format!("client {id}{report}"))
    }

    fn response(&mut self, responses: HashMap<Pid, Lines>) -> Option<String> {
        let report = self.manage("", Ok(CacheManagerMessage::DongleResponse { responses }));
        let mut text = String::from("ok");
        while let Some(message) = self.state.led_tx.pop() {
            match message {
                LedTaskMessage::PidValue { pid, value } => text += &format!(" {pid:02X}={value}"),
                // The notice, which the Rust sends to its manager as well: the host's to pass on.
                LedTaskMessage::ConfigChanged => {
                    text += "!";
                    self.state.cache_manager_tx.pop();
                }
                LedTaskMessage::Brightness(_) => return None,
            }
        }
        Some(text + &report)
    }

    // ---- Desk

    fn desk_call(&mut self, word: &[u8], mut words: Words) -> Option<String> {
        let client = words.number()?;
        match word {
            b"ask" => {
                let command = words.command()?;
                words.area().and_then(|()| self.ask(client, command))
            }
            b"collect" => words.area().and_then(|()| self.end_wait(client, Word::Collect)),
            _ => words.end().and_then(|()| self.end_wait(client, Word::GiveUp)),
        }
    }

    fn ask(&mut self, id: ClientId, command: String) -> Option<String> {
        if self.waits(id) && self.asks_cache(&command) {
            return None;
        }
        let client = self.clients.get_mut(&id)?;
        let (state, cache) = (self.state.clone(), client.cache.clone());
        let mut task: Task<Result<()>> = Box::pin(async move {
            let obd = ObdCommand { command: &command };
            Obd2Proxy::answer_obd(obd, &state, &cache).await
        });
        if !run(&mut task, None) {
            client.waiting = Some(task);
        }
        self.named()
    }

    fn end_wait(&mut self, id: ClientId, word: Word) -> Option<String> {
        let client = self.clients.get_mut(&id)?;
        if !run(client.waiting.as_mut()?, Some(word)) {
            return None;
        }
        client.waiting = None;
        self.named()
    }

    /// What the desk answered, with the message that it names.
    fn named(&self) -> Option<String> {
        match self.state.cache_manager_tx.pop() {
            None => take_answer(),
            Some(CacheManagerMessage::Waiting(pid)) => Some(format!("waiting {pid:02X}")),
            Some(CacheManagerMessage::Consumed { pid, wait_duration }) => {
                let wait = wait_duration.map_or(String::new(), |wait| format!(" {}", wait.as_millis()));
                let said = take_answer()?;
                Some(format!("reading {pid:02X} {}{wait}", said.strip_prefix("range ")?))
            }
            Some(_) => None,
        }
    }

    // ---- Poller, and the lists

    fn poller_call(&mut self, word: &[u8], mut words: Words) -> Option<String> {
        let word = match word {
            b"connect" => Word::Connect(words.attempt()?),
            b"result" => Word::Outcome(words.outcome()?),
            b"take" => Word::Take,
            b"reconnect" => Word::Reconnect,
            b"begin" => Word::Begin,
            _ => Word::Next,
        };
        words.end()?;
        run(&mut self.dongle, Some(word));
        // A result sends its reply to the manager; here the host does, by a response.
        self.state.cache_manager_tx.pop();
        take_answer()
    }

    fn show(&mut self) -> Option<String> {
        run(&mut self.dongle, Some(Word::Show));
        let lists = take_answer()?;
        run(&mut self.manager, Some(Word::Show));
        let table = take_answer()?;
        let line = texts::control_line(&self.state.dongle_control_tx);
        let revs = self.state.shared_rpm.lock().unwrap().map_or("-".into(), |revs| revs.to_string());
        Some(format!("show {} {lists} {table} {line} {revs}", now()))
    }

    // ---- What the generator of histories looks up, so that it writes no refusal and no round of document 02's A2

    pub fn connected(&self) -> bool {
        self.state.supported_pids.lock().unwrap().ready
    }

    /// With no round open.
    pub fn begins_only_slow(&mut self) -> bool {
        run(&mut self.dongle, Some(Word::OnlySlow));
        take_answer().as_deref() == Some("yes")
    }

    pub fn control_messages(&self) -> usize {
        self.state.dongle_control_tx.len()
    }

    pub fn waits(&self, id: ClientId) -> bool {
        self.clients.get(&id).is_some_and(|client| client.waiting.is_some())
    }

    /// Whether an ask goes to the cache; one by a client that waits would be refused.
    pub fn asks_cache(&self, command: &str) -> bool {
        let command = strip_response_count(command.as_bytes());
        self.connected() && supported_pids_index(command).is_none() && wire_command_to_pid(command).is_some()
    }

    /// The length of a client's fresh reply.
    pub fn fresh(&self, id: ClientId, pid: Pid) -> Option<usize> {
        match self.clients[&id].cache.lock().unwrap().entries.get(&pid) {
            Some(CacheEntry::Fresh(lines)) => Some(lines.iter().map(|line| line.data.len()).sum()),
            _ => None,
        }
    }
}

/// Puts a list of profiles where the firmware keeps it. Without an active normal one the index is past the end.
fn set_profiles(state: &State, profiles: Vec<(LedProfile, bool)>) {
    let mut config = state.config.lock().unwrap();
    let (profiles, enabled): (Vec<_>, Vec<_>) = profiles.into_iter().unzip();
    let normal = |p: &LedProfile| p.profile_type == ProfileType::Normal;
    config.active_profile = profiles.iter().position(normal).unwrap_or(profiles.len());
    config.profiles = profiles;
    *state.triggered_enabled.lock().unwrap() = enabled;
}
