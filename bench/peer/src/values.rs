//! Values of what has its shape, and what is written.
use std::io::{self, Write};

pub type Result<T> = std::result::Result<T, Refusal>;

#[derive(Clone, Copy)]
pub enum Refusal {
    BadLine,
    BadRequest,
    BadWho,
    BadMask,
    BadFlags,
    ListFull,
}

impl Refusal {
    pub fn write(self, writer: &mut impl Write) -> io::Result<()> {
        let text: &[u8] = match self {
            Refusal::BadLine => b"{\"name\":\"BadLine\",\"refused\":2}\n",
            Refusal::BadRequest => b"{\"name\":\"BadRequest\",\"refused\":3}\n",
            Refusal::BadWho => b"{\"name\":\"BadWho\",\"refused\":4}\n",
            Refusal::BadMask => b"{\"name\":\"BadMask\",\"refused\":5}\n",
            Refusal::BadFlags => b"{\"name\":\"BadFlags\",\"refused\":6}\n",
            Refusal::ListFull => b"{\"name\":\"ListFull\",\"refused\":7}\n",
        };
        writer.write_all(text)
    }
}

pub enum Verdict {
    Granted,
    DeniedBy(usize),
    DeniedAtEnd,
}

impl Verdict {
    pub fn write(self, writer: &mut impl Write) -> io::Result<()> {
        match self {
            Verdict::Granted => writer.write_all(b"{\"answer\":\"granted\"}\n"),
            Verdict::DeniedBy(index) => writeln!(writer, "{{\"answer\":\"denied\",\"at\":{index}}}"),
            Verdict::DeniedAtEnd => writer.write_all(b"{\"answer\":\"denied\",\"at\":\"end\"}\n"),
        }
    }
}

#[derive(Clone, Copy)]
pub enum Sort {
    Allow,
    Deny,
    /// `audit` and `alarm` decide nothing.
    Note,
}

impl Sort {
    pub fn of(word: &str) -> Option<Sort> {
        match word {
            "allow" => Some(Sort::Allow),
            "deny" => Some(Sort::Deny),
            "audit" | "alarm" => Some(Sort::Note),
            _ => None,
        }
    }
}

pub const INHERITANCE: u32 = 15;
pub const INHERIT_ONLY: u32 = 8;
const TO_CHILDREN: u32 = 3;
const IDENTIFIER_GROUP: u32 = 64;
const FLAGS: u64 = 0x7F;
const MASKS: u64 = 0x1F_01FF;

pub fn mask(bits: u64) -> Result<u32> {
    if bits == 0 || bits & !MASKS != 0 {
        return Err(Refusal::BadMask);
    }
    Ok(bits as u32)
}

pub fn flags(bits: u64) -> Result<u32> {
    if bits & !FLAGS != 0 {
        return Err(Refusal::BadFlags);
    }
    Ok(bits as u32)
}

/// Whether something inherits the entry, if it is only inherited.
pub fn is_of_use(flags: u32) -> bool {
    flags & INHERIT_ONLY == 0 || flags & TO_CHILDREN != 0
}

#[derive(Clone, Copy)]
pub enum Who<'a> {
    User(&'a str),
    Group(u64),
    Owner,
    OwnerGroup,
    Everyone,
    Anonymous,
    Authenticated,
}

impl<'a> Who<'a> {
    pub fn of(text: &'a str, flags: u32) -> Result<Who<'a>> {
        match text {
            "OWNER@" => Ok(Who::Owner),
            "GROUP@" => Ok(Who::OwnerGroup),
            "EVERYONE@" => Ok(Who::Everyone),
            "ANONYMOUS@" => Ok(Who::Anonymous),
            "AUTHENTICATED@" => Ok(Who::Authenticated),
            _ if flags & IDENTIFIER_GROUP != 0 => Ok(Who::Group(group(text).ok_or(Refusal::BadWho)?)),
            _ => Ok(Who::User(user(text)?)),
        }
    }
}

#[derive(Clone, Copy)]
pub enum Member<'a> {
    User(&'a str),
    Group(u64),
}

impl<'a> Member<'a> {
    pub fn of(text: &'a str) -> Result<Member<'a>> {
        match text.strip_suffix("@users") {
            Some(name) => Ok(Member::User(named(name)?)),
            None => Ok(Member::Group(group(text).ok_or(Refusal::BadWho)?)),
        }
    }
}

/// The name of the user whose text it is.
pub fn user(text: &str) -> Result<&str> {
    named(text.strip_suffix("@users").ok_or(Refusal::BadWho)?)
}

/// Which bytes a name may have.
const IN_NAMES: [bool; 256] = {
    let mut table = [false; 256];
    let mut byte = 0;
    while byte < 256 {
        table[byte] = matches!(byte as u8, b'a'..=b'z' | b'0'..=b'9' | b'.' | b'-' | b'_');
        byte += 1;
    }
    table
};

fn named(name: &str) -> Result<&str> {
    let is_name = (1..=64).contains(&name.len()) && name.bytes().all(|byte| IN_NAMES[byte as usize]);
    if is_name { Ok(name) } else { Err(Refusal::BadWho) }
}

fn group(text: &str) -> Option<u64> {
    let number = text.strip_suffix("@groups")?;
    match number.as_bytes() {
        [b'+', ..] => None,
        [b'0', _, ..] => None,
        _ => number.parse().ok(),
    }
}
