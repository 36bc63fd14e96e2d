//! Lines as history-format.md has them, taken apart. None stands for a line that doesn't follow it.

use super::*;

const LONGEST_LINE: usize = 262_144;

/// The words of a line, parted by one space, and how many of them were taken.
pub struct Words<'a>(Vec<&'a [u8]>, usize);

impl<'a> Words<'a> {
    pub fn new(line: &'a [u8]) -> Option<Self> {
        let words = line.split(|&b| b == b' ').collect();
        (line.len() <= LONGEST_LINE).then_some(Self(words, 0))
    }

    pub fn next(&mut self) -> Option<&'a [u8]> {
        self.1 += 1;
        self.0.get(self.1 - 1).copied()
    }

    fn rest(&mut self) -> Vec<&'a [u8]> {
        self.0.split_off(self.1)
    }

    pub fn end(&mut self) -> Option<()> {
        self.rest().is_empty().then_some(())
    }

    pub fn number<N: TryFrom<u64>>(&mut self) -> Option<N> {
        self.next().and_then(number)
    }

    pub fn pid(&mut self) -> Option<Pid> {
        self.next().and_then(pid)
    }

    /// WAIT, the last word.
    pub fn wait(&mut self) -> Option<Option<Duration>> {
        let wait = optional(self.next()?)?;
        self.end().map(|()| wait.map(Duration::from_millis))
    }

    /// AREA, the last word. The Rust has no need of it.
    pub fn area(&mut self) -> Option<()> {
        let area: u64 = self.number()?;
        self.end().filter(|()| area <= 4096)
    }

    /// COMMAND; the Rust takes text alone.
    pub fn command(&mut self) -> Option<String> {
        let (form, text) = self.next()?.split_first()?;
        let bytes = match form {
            b'\'' => text.to_vec(),
            b'x' => unhex(text)?,
            _ => return None,
        };
        String::from_utf8(bytes).ok()
    }

    pub fn bytes(&mut self) -> Option<Vec<u8>> {
        self.next().map(|word| if word == b"-" { b"" } else { word }).and_then(unhex)
    }

    pub fn settings(&mut self) -> Option<Obd2Config> {
        let [mode, interval, ratio, promote, demote, remove, multi, max_pids] = fields(self.next()?)?;
        Some(Obd2Config {
            slow_poll_mode: choice(mode, [SlowPollMode::Interval, SlowPollMode::Ratio])?,
            slow_poll_interval_ms: number(interval)?,
            slow_poll_ratio: number(ratio)?,
            promotion_wait_threshold_ms: number(promote)?,
            fast_demotion_ms: number(demote)?,
            pid_inactive_removal_ms: number(remove)?,
            use_multi_pid: choice(multi, [false, true])?,
            max_pids_per_query: number(max_pids)?,
            ..Obd2Config::default()
        })
    }

    /// Profiles up to the end, each with whether it is enabled.
    pub fn profiles(&mut self) -> Option<Vec<(LedProfile, bool)>> {
        self.rest().into_iter().map(profile).collect()
    }

    pub fn replies(&mut self) -> Option<HashMap<Pid, Lines>> {
        let reply = |word: &[u8]| match word.get(2) {
            None => Some((pid(word)?, Lines::new())),
            Some(b':') => Some((pid(&word[..2])?, lines(&word[3..])?)),
            Some(_) => None,
        };
        self.rest().into_iter().map(reply).collect()
    }

    /// A connect line's attempt: none where it failed, else the session that it brings.
    pub fn attempt(&mut self) -> Option<Option<DongleSession>> {
        if !choice(self.next()?, [false, true])? {
            return self.end().map(|()| None);
        }
        let pid_lengths = known(self.next()?)?;
        let server = ServerState {
            framing: false,
            repeat: FeatureSupport::No,
            multi_pid: feature(self.next()?)?,
            ecu_counts: HashMap::new(),
            pid_lengths,
        };
        let ranges: Option<Vec<_>> = self.rest().into_iter().map(range).collect();
        Some(Some(DongleSession { server, ranges: ranges?.try_into().ok()? }))
    }

    pub fn outcome(&mut self) -> Option<Outcome> {
        let lost = std::io::ErrorKind::UnexpectedEof;
        let kind = choice(self.next()?, [None, Some(std::io::ErrorKind::TimedOut), Some(lost)])?;
        let result = kind.map_or(Ok(HashMap::new()), |kind| Err(kind.into()));
        let multi_pid = feature(self.next()?)?;
        let learnt: Option<Vec<_>> = self.rest().into_iter().map(learnt).collect();
        Some(Outcome { result, multi_pid, learnt: learnt? })
    }
}

fn fields<const N: usize>(word: &[u8]) -> Option<[&[u8]; N]> {
    word.split(|&b| b == b',').collect::<Vec<_>>().try_into().ok()
}

fn unhex(digits: &[u8]) -> Option<Vec<u8>> {
    let value = |&d: &u8| char::from(d).to_digit(16).and_then(|v| u8::try_from(v).ok());
    digits.chunks(2).map(|pair| Some(value(&pair[0])? << 4 | value(pair.get(1)?)?)).collect()
}

fn number<N: TryFrom<u64>>(digits: &[u8]) -> Option<N> {
    let value: u64 = std::str::from_utf8(digits).ok()?.parse().ok()?;
    value.try_into().ok().filter(|_| digits[0] != b'+')
}

fn optional<N: TryFrom<u64>>(word: &[u8]) -> Option<Option<N>> {
    if word == b"-" {
        Some(None)
    } else {
        number(word).map(Some)
    }
}

/// The one of the choices that the number names.
fn choice<T: Copy, const N: usize>(digits: &[u8], choices: [T; N]) -> Option<T> {
    choices.get(number::<usize>(digits)?).copied()
}

fn pid(digits: &[u8]) -> Option<Pid> {
    unhex(digits).filter(|bytes| bytes.len() == 1).map(|bytes| bytes[0])
}

fn feature(word: &[u8]) -> Option<FeatureSupport> {
    choice(word, [FeatureSupport::Unknown, FeatureSupport::Yes, FeatureSupport::No])
}

/// KNOWN. How long a known PID's data is never matters to the poller.
fn known(word: &[u8]) -> Option<PidDataLengths> {
    if word == b"*" {
        return Some(MODE01_PID_DATA_LENGTHS);
    }
    let bits = unhex(word).filter(|bytes| bytes.len() == 32)?;
    Some(std::array::from_fn(|pid| (bits[pid / 8] >> (pid % 8) & 1 == 1).then_some(0)))
}

/// `LINE,LINE..`
fn lines(text: &[u8]) -> Option<Lines> {
    let line = |data: &[u8]| Some(ReplyLine { ecu: None, data: unhex(data)? });
    text.split(|&b| b == b',').map(line).collect()
}

fn range(word: &[u8]) -> Option<Option<Lines>> {
    match word {
        b"-" => Some(None),
        b"." => Some(Some(Lines::new())),
        _ => lines(word.strip_prefix(b":")?).map(Some),
    }
}

fn profile(word: &[u8]) -> Option<(LedProfile, bool)> {
    let [kind, pid_digits, priority, threshold, enabled] = fields(word)?;
    let profile = LedProfile {
        name: String::new(),
        rules: Vec::new(),
        preview_value: 0,
        pid: pid(pid_digits)?,
        pid_priority: choice(priority, [PidPriority::Fast, PidPriority::Slow])?,
        profile_type: choice(kind, [ProfileType::Normal, ProfileType::Overlay, ProfileType::Triggered])?,
        button_pin: 0,
        auto_disable_above: optional(threshold)?,
    };
    Some((profile, choice(enabled, [false, true])?))
}

fn learnt(word: &[u8]) -> Option<(Option<u8>, bool)> {
    let [ecu, length] = fields(word)?;
    let ecu = optional(ecu)?;
    (ecu != Some(0)).then_some((ecu, choice(length, [false, true])?))
}
