//! Answers as history-format.md writes them.

use super::*;

/// Parted by commas, `-` for nothing.
fn joined(parts: &[String]) -> String {
    if parts.is_empty() {
        "-".into()
    } else {
        parts.join(",")
    }
}

fn pids<'a>(pids: impl IntoIterator<Item = &'a Pid>) -> String {
    joined(&pids.into_iter().map(|pid| format!("{pid:02X}")).collect::<Vec<_>>())
}

/// Upper-case hex pairs, `-` for no bytes.
pub fn hex(bytes: &[u8]) -> String {
    let digit = |d: u8| char::from(b"0123456789ABCDEF"[usize::from(d)]);
    if bytes.is_empty() {
        "-".into()
    } else {
        bytes.iter().flat_map(|b| [digit(b >> 4), digit(b & 15)]).collect()
    }
}

/// A reply: its lines' lengths, and the lines joined.
pub fn reply(lines: &[ReplyLine]) -> String {
    let lengths: Vec<String> = lines.iter().map(|line| line.data.len().to_string()).collect();
    let bytes: Vec<u8> = lines.iter().flat_map(|line| line.data.iter().copied()).collect();
    format!("{} {}", joined(&lengths), hex(&bytes))
}

pub fn query(asked: &[Pid], ecu_count: Option<u8>) -> String {
    let count = ecu_count.map_or("-".into(), |count| count.to_string());
    format!("query {} {count}", pids(asked))
}

/// The poller's indexes and lists.
pub fn lists(polling: &PollingState) -> String {
    let (fast, slow) = (pids(polling.fast_pids.iter()), pids(polling.slow_pids.iter()));
    format!("{} {fast} {} {slow}", polling.fast_index, polling.slow_index)
}

/// The manager's PIDs.
pub fn table(pid_info: &HashMap<Pid, PidInfo>) -> String {
    let entry = |(pid, info): (&Pid, &PidInfo)| {
        let pinned = if info.pinned { "+" } else { "" };
        format!("{pid:02X}{}{pinned}", speed(info.priority))
    };
    joined(&pid_info.iter().map(entry).collect::<Vec<_>>())
}

/// The control messages that wait.
pub fn control_line(line: &Sender<DongleMessage>) -> String {
    joined(&line.texts(|message| match *message {
        DongleMessage::SetPidPriority(pid, priority) => format!("{pid:02X}{}", speed(priority)),
        DongleMessage::RemovePid(pid) => format!("{pid:02X}x"),
    }))
}

fn speed(priority: PidPriority) -> char {
    match priority {
        PidPriority::Fast => 'f',
        PidPriority::Slow => 's',
    }
}

/// The control message that a take gives.
pub fn taken(message: &DongleMessage) -> String {
    match *message {
        DongleMessage::SetPidPriority(pid, PidPriority::Fast) => format!("set {pid:02X} 0"),
        DongleMessage::SetPidPriority(pid, PidPriority::Slow) => format!("set {pid:02X} 1"),
        DongleMessage::RemovePid(pid) => format!("remove {pid:02X}"),
    }
}

pub fn report(report: Report) -> String {
    let Report { hits, misses, waited, hit_rate, rates } = report;
    let waited = waited.as_millis();
    let mut text = format!(" report {hits} {misses} {waited} {:08X}", hit_rate.to_bits());
    for (command, rate) in rates {
        text += &format!(" {},{:08X}", &command[2..], rate.to_bits());
    }
    text
}
