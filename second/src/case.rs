//! A case to compare: a program, its arguments, and what it is given in one or more sessions
//! on the same journal, which may be cut or changed between them.

use crate::lines;

#[derive(Clone, Copy, PartialEq, Eq, Debug)]
pub enum Program {
    Keeper,
    Tablet,
    Rehearse,
}

impl Program {
    pub const ALL: [Program; 3] = [Program::Keeper, Program::Tablet, Program::Rehearse];

    pub fn name(self) -> &'static str {
        match self {
            Program::Keeper => "keeper",
            Program::Tablet => "tablet",
            Program::Rehearse => "rehearse",
        }
    }

    pub fn from_name(name: &str) -> Option<Program> {
        Program::ALL.into_iter().find(|program| program.name() == name)
    }

    pub fn has_journal(self) -> bool {
        self != Program::Rehearse
    }
}

/// What is done to the journal before a session. Places are counted from its end, so that they
/// still mean something when lines are left out of the session before.
#[derive(Clone, PartialEq, Eq, Debug)]
pub enum Damage {
    /// The last bytes are cut off.
    Cut(usize),
    /// The byte that has so many behind it is changed.
    Change { from_end: usize, byte: u8 },
    Append(Vec<u8>),
}

impl Damage {
    pub fn apply(&self, journal: &mut Vec<u8>) {
        match self {
            Damage::Cut(bytes) => journal.truncate(journal.len().saturating_sub(*bytes)),
            Damage::Change { from_end, byte } => {
                if let Some(place) = journal.len().checked_sub(1 + from_end) {
                    journal[place] = *byte;
                }
            }
            Damage::Append(bytes) => journal.extend_from_slice(bytes),
        }
    }
}

#[derive(Clone, PartialEq, Eq, Debug, Default)]
pub struct Session {
    pub damage: Vec<Damage>,
    /// No file grows beyond so many times 1,024 bytes, as on a disk that is full.
    pub limit: Option<u64>,
    /// Lines with their newlines; the last may have none.
    pub lines: Vec<Vec<u8>>,
}

#[derive(Clone, PartialEq, Eq, Debug)]
pub struct Case {
    pub program: Program,
    /// All but the journal's path.
    pub arguments: Vec<String>,
    pub sessions: Vec<Session>,
}

impl Case {
    /// The text that `read` reads again.
    pub fn text(&self) -> String {
        let mut text = format!("run {} {}\n", self.program.name(), self.arguments.join(" "));
        for (number, session) in self.sessions.iter().enumerate() {
            if number > 0 {
                text.push_str("again\n");
            }
            for damage in &session.damage {
                match damage {
                    Damage::Cut(bytes) => text.push_str(&format!("cut {bytes}\n")),
                    Damage::Change { from_end, byte } => text.push_str(&format!("change {from_end} {byte:02x}\n")),
                    Damage::Append(bytes) => text.push_str(&format!("append {}\n", hex(bytes))),
                }
            }
            if let Some(limit) = session.limit {
                text.push_str(&format!("limit {limit}\n"));
            }
            for line in &session.lines {
                match line.strip_suffix(b"\n") {
                    Some(line) => text.push_str(&format!("<{}\n", escape(line))),
                    None => text.push_str(&format!("<!{}\n", escape(line))),
                }
            }
        }
        text
    }

    /// Reads the text of a case; lines that begin with `#` are remarks.
    pub fn read(text: &str) -> Option<Case> {
        let mut lines = text.lines().filter(|line| !line.starts_with('#') && !line.is_empty());
        let mut words = lines.next()?.strip_prefix("run ")?.split(' ');
        let program = Program::from_name(words.next()?)?;
        let arguments = words.map(str::to_owned).collect();
        let mut sessions = vec![Session::default()];
        for line in lines {
            let session = sessions.last_mut()?;
            if let Some(line) = line.strip_prefix("<!") {
                session.lines.push(unescape(line)?);
            } else if let Some(line) = line.strip_prefix('<') {
                session.lines.push([&unescape(line)?[..], b"\n"].concat());
            } else if line == "again" {
                sessions.push(Session::default());
            } else if let Some(limit) = line.strip_prefix("limit ") {
                session.limit = Some(limit.parse().ok()?);
            } else {
                session.damage.push(read_damage(line)?);
            }
        }
        Some(Case { program, arguments, sessions })
    }

    pub fn line_count(&self) -> usize {
        self.sessions.iter().map(|session| session.lines.len()).sum()
    }
}

fn read_damage(line: &str) -> Option<Damage> {
    let words: Vec<&str> = line.split(' ').collect();
    match words[..] {
        ["cut", bytes] => Some(Damage::Cut(bytes.parse().ok()?)),
        ["change", from_end, byte] => {
            Some(Damage::Change { from_end: from_end.parse().ok()?, byte: u8::from_str_radix(byte, 16).ok()? })
        }
        ["append", bytes] => {
            let mut out = Vec::new();
            lines::hex_decode(bytes.as_bytes(), &mut out).then_some(Damage::Append(out))
        }
        _ => None,
    }
}

pub fn hex(bytes: &[u8]) -> String {
    let mut out = Vec::new();
    lines::push_hex(&mut out, bytes);
    String::from_utf8(out).expect("digits")
}

/// A line as text on one line: what is not plain is written as `\xNN`. A line that begins with
/// `!` would read as one without a newline, so that is written so too.
fn escape(line: &[u8]) -> String {
    let plain = |place: usize, byte: u8| (b' '..=b'~').contains(&byte) && byte != b'\\' && !(place == 0 && byte == b'!');
    let escaped = line.iter().enumerate().map(|(place, &byte)| match plain(place, byte) {
        true => char::from(byte).to_string(),
        false => format!("\\x{byte:02x}"),
    });
    escaped.collect()
}

fn unescape(line: &str) -> Option<Vec<u8>> {
    let mut pieces = line.split("\\x");
    let mut out = pieces.next()?.as_bytes().to_vec();
    for piece in pieces {
        out.push(u8::from_str_radix(piece.get(..2)?, 16).ok()?);
        out.extend_from_slice(&piece.as_bytes()[2..]);
    }
    Some(out)
}

/// Leaves items out as long as what is left is still `wanted`: halves first, then ever smaller
/// pieces, down to single items.
pub fn shrink<T: Clone>(items: &[T], mut wanted: impl FnMut(&[T]) -> bool) -> Vec<T> {
    let mut left = items.to_vec();
    let mut piece = left.len().div_ceil(2).max(1);
    loop {
        let mut start = 0;
        let mut any = false;
        while start < left.len() {
            let end = (start + piece).min(left.len());
            let without = [&left[..start], &left[end..]].concat();
            if wanted(&without) {
                left = without;
                any = true;
            } else {
                start = end;
            }
        }
        if piece == 1 && !any {
            return left;
        }
        piece = if piece == 1 { 1 } else { piece / 2 };
    }
}

#[cfg(test)]
mod tests {
    use super::*;

    #[test]
    fn a_case_as_text_and_back() {
        let lines = vec![b"5 \xff\\x\n".to_vec(), b"!\n".to_vec(), b"\n".to_vec(), b"7".to_vec()];
        let damage = vec![Damage::Cut(3), Damage::Change { from_end: 2, byte: 9 }, Damage::Append(vec![1, 2])];
        let first = Session { damage: vec![], limit: None, lines };
        let sessions = vec![first, Session { damage, limit: Some(2), lines: vec![] }];
        let case = Case { program: Program::Tablet, arguments: vec!["0".into(), "5".into()], sessions };
        assert_eq!(Case::read(&case.text()), Some(case));
    }

    #[test]
    fn shrinking_leaves_what_is_needed() {
        let items: Vec<u32> = (0..100).collect();
        let left = shrink(&items, |items| items.contains(&17) && items.contains(&80));
        assert_eq!(left, [17, 80]);
        assert_eq!(shrink(&items, |_| true), []);
    }
}
