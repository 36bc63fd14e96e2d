//! Where the Rust blocks its thread it hands over to the driver here, and goes on at the next line that is for it.
//! The compiler makes the blocking functions resumable: they are `async`, and wait at the same places as before.

use super::*;
use std::cell::{Cell, RefCell};
use std::future::{poll_fn, Future};
use std::pin::Pin;
use std::rc::Rc;
use std::sync::mpsc::RecvTimeoutError;
use std::task::{Context, Poll, Waker};

/// What a line of the history brings to the task that it is for.
pub enum Word {
    Show,
    Manage(Result<CacheManagerMessage, RecvTimeoutError>),
    Collect,
    GiveUp,
    Take,
    Reconnect,
    Connect(Option<DongleSession>),
    OnlySlow,
    Begin,
    Next,
    Outcome(Outcome),
}

/// A `result` line. `learnt` has each PID's ECU count and whether its length is known.
pub struct Outcome {
    pub result: std::io::Result<HashMap<Pid, Lines>>,
    pub multi_pid: FeatureSupport,
    pub learnt: Vec<(Option<u8>, bool)>,
}

thread_local! {
    static WORD: RefCell<Option<Word>> = const { RefCell::new(None) };
    static ANSWER: RefCell<Option<String>> = const { RefCell::new(None) };
    /// Whether a `next` has come that no query or end has answered yet.
    static NEXT_DUE: Cell<bool> = const { Cell::new(false) };
}

pub type Task<T> = Pin<Box<dyn Future<Output = T>>>;

/// Gives a task a word and runs it until it hands over or ends; whether it ended.
pub fn run<T>(task: &mut Task<T>, word: Option<Word>) -> bool {
    WORD.replace(word);
    let polled = task.as_mut().poll(&mut Context::from_waker(Waker::noop()));
    WORD.take();
    polled.is_ready()
}

/// Back to the driver, until it has a word for this task. A word that the task can't use goes unanswered.
pub fn hand_over() -> impl Future<Output = Word> {
    poll_fn(|_| WORD.take().map_or(Poll::Pending, Poll::Ready))
}

pub fn answer(text: String) {
    ANSWER.replace(Some(text));
}

pub fn take_answer() -> Option<String> {
    ANSWER.take()
}

// ---- The manager waits for its next message

pub struct Receiver<T>(pub std::marker::PhantomData<T>);

impl Receiver<CacheManagerMessage> {
    pub async fn recv_timeout(
        &self,
        pid_info: &HashMap<Pid, PidInfo>,
    ) -> Result<CacheManagerMessage, RecvTimeoutError> {
        loop {
            match hand_over().await {
                Word::Manage(event) => return event,
                Word::Show => answer(texts::table(pid_info)),
                _ => {}
            }
        }
    }
}

// ---- A client waits for its reply

pub mod oneshot {
    use super::*;

    pub struct Sender<T>(Rc<Cell<Option<T>>>);
    pub struct Receiver<T>(Rc<Cell<Option<T>>>);

    pub fn channel<T>() -> (Sender<T>, Receiver<T>) {
        let value = Rc::new(Cell::new(None));
        (Sender(value.clone()), Receiver(value))
    }

    impl<T> Sender<T> {
        pub fn send(self, value: T) -> Result<()> {
            self.0.set(Some(value));
            Ok(())
        }
    }

    impl<T> Receiver<T> {
        pub fn take(&self) -> Option<T> {
            self.0.take()
        }

        /// A collect finds what was sent; a give up is the timeout, also where something was sent too late.
        pub async fn recv_timeout(&self, _timeout: Duration) -> Result<T> {
            loop {
                match hand_over().await {
                    Word::Collect => {
                        if let Some(value) = self.take() {
                            return Ok(value);
                        }
                    }
                    Word::GiveUp => return Err(()),
                    _ => {}
                }
            }
        }
    }
}

// ---- The poller waits for `next` and for `result`

/// Goes on once a `next` is due.
pub async fn turn(polling: &PollingState) {
    while !NEXT_DUE.get() {
        match hand_over().await {
            Word::Next => NEXT_DUE.set(true),
            Word::Show => answer(texts::lists(polling)),
            _ => {}
        }
    }
}

/// Answers the `next` that is due.
pub fn answer_next(text: String) {
    NEXT_DUE.set(false);
    answer(text);
}

/// The scripted dongle session: each query goes to the driver, and the `result` line is what comes of it.
pub struct DongleSession {
    pub server: ServerState,
    /// The range replies of the connect line.
    pub ranges: [Option<Lines>; 8],
}

impl DongleSession {
    pub fn server_state(&self) -> &ServerState {
        &self.server
    }

    /// An absent range reply is a query that failed; one without lines, an answer without a mode 01 line.
    pub fn query_range(&mut self, pid: Pid) -> std::io::Result<HashMap<Pid, Lines>> {
        match self.ranges[usize::from(pid / 0x20)].take() {
            None => Err(std::io::ErrorKind::TimedOut.into()),
            Some(lines) if lines.is_empty() => Ok(HashMap::new()),
            Some(lines) => Ok(HashMap::from([(pid, lines)])),
        }
    }

    pub async fn query_pid(
        &mut self,
        pid: Pid,
        ecu_count: Option<u8>,
        polling: &PollingState,
    ) -> std::io::Result<HashMap<Pid, Lines>> {
        self.query_pids(&[pid], ecu_count, polling).await
    }

    pub async fn query_pids(
        &mut self,
        pids: &[Pid],
        ecu_count: Option<u8>,
        polling: &PollingState,
    ) -> std::io::Result<HashMap<Pid, Lines>> {
        turn(polling).await;
        answer_next(texts::query(pids, ecu_count));
        loop {
            match hand_over().await {
                Word::Outcome(outcome) if outcome.learnt.len() == pids.len() => {
                    self.learn(pids, outcome.multi_pid, outcome.learnt);
                    answer("ok".into());
                    return outcome.result;
                }
                Word::Show => answer(texts::lists(polling)),
                _ => {}
            }
        }
    }

    /// The session knows of these PIDs what the line says, no more and no less.
    fn learn(&mut self, pids: &[Pid], multi_pid: FeatureSupport, learnt: Vec<(Option<u8>, bool)>) {
        self.server.multi_pid = multi_pid;
        for (&pid, (ecu_count, known)) in pids.iter().zip(learnt) {
            self.server.ecu_counts.remove(&pid);
            self.server.ecu_counts.extend(ecu_count.map(|count| (pid, count)));
            self.server.pid_lengths[usize::from(pid)] = known.then_some(0);
        }
    }
}
