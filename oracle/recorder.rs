//! The recorder's calls: record_event over a capture buffer. The header isn't answered, since the Rust writes it
//! with the crate deku, which isn't at hand.

use super::*;
use crate::words::Words;

pub struct Recorder {
    state: State,
    buffer_size: u32,
}

impl Recorder {
    pub fn new(buffer_size: u32) -> Self {
        Self { state: State::default(), buffer_size }
    }

    /// The answer to a line, none to one that can't be taken.
    pub fn answer(&mut self, line: &[u8]) -> Option<String> {
        let mut words = Words::new(line)?;
        match words.next()? {
            b"buffer" => {
                *self = Self::new(words.number()?);
                Some("ok".into())
            }
            b"record" => self.record(words),
            b"dump" => Some(texts::hex(&self.state.capture_buffer.lock().unwrap())),
            _ => None,
        }
    }

    fn record(&mut self, mut words: Words) -> Option<String> {
        let elapsed = Duration::from_millis(words.number()?);
        let record_type = match words.number::<u8>()? {
            0 => RecordType::ClientToDongle,
            1 => RecordType::DongleToClient,
            2 => RecordType::Connect,
            3 => RecordType::Disconnect,
            _ => return None,
        };
        let data = words.bytes()?;
        let fill = || self.state.capture_buffer.lock().unwrap().len();
        let before = fill();
        record_event(&self.state, elapsed, record_type, &data, self.buffer_size);
        let done = if fill() > before { "written" } else { "overflow" };
        let records = self.state.polling_metrics.records_captured.load(Ordering::Relaxed);
        Some(format!("{done} {} {records}", fill()))
    }
}
