//! The verdict on a line, in the order in which its fields are refused.
use crate::lines::{tree, Entry, Group, Line};
use crate::values::{flags, is_of_use, mask, user, Member, Refusal, Result, Sort, Verdict, Who};
use crate::values::{INHERITANCE, INHERIT_ONLY};

const MAX_ENTRIES: usize = 128;
const MAX_MEMBERS: usize = 128;

/// Room that is kept from line to line.
#[derive(Default)]
pub struct Found {
    /// The numbers of the line's groups, sorted.
    numbers: Vec<u64>,
    /// Which of these are among `groups`.
    seen: Vec<bool>,
    /// A group that is a member, and the group that it is in; sorted once they are all there.
    outer: Vec<(u64, u64)>,
    /// The groups that who asks is in, in the order in which they were found.
    groups: Vec<u64>,
}

pub fn judged(line: &[u8], found: &mut Found) -> Result<Verdict> {
    // Tested once, and not for each text: the lines are ASCII, so this takes a word at a time.
    let line = std::str::from_utf8(line).map_err(|_| Refusal::BadLine)?;
    if let Some(line) = Line::plain(line) {
        return verdict(&line, found);
    }
    let tree = tree(line)?;
    verdict(&Line::of(&tree)?, found)
}

fn verdict(line: &Line, found: &mut Found) -> Result<Verdict> {
    let is_folder = match line.kind {
        "picture" | "group" => false,
        "album" => true,
        _ => return Err(Refusal::BadRequest),
    };
    let is_two = match line.policy {
        1 => false,
        2 => true,
        _ => return Err(Refusal::BadRequest),
    };
    if !line.entries.iter().all(|entry| Sort::of(entry.0).is_some()) || !are_distinct(&line.groups, found) {
        return Err(Refusal::BadRequest);
    }
    test_entries(&line.entries, is_folder)?;
    // The who and the owner are refused after the groups, and the groups are gone through with the who: so it is
    // looked at first, and refused later.
    let who = principal(line.who);
    note_groups(&line.groups, who.unwrap_or(None), found)?;
    let owner = user(line.owner)?;
    let who = who?;
    let asked = mask(line.mask)?;
    find_outer(found);
    let given = if is_two && who == Some(owner) { 0x6_0000 } else { 0 };
    Ok(evaluate(line, who, owner, &found.groups, asked & !given))
}

/// The user who asks, or nobody named.
fn principal(text: &str) -> Result<Option<&str>> {
    if text == "ANONYMOUS@" {
        return Ok(None);
    }
    user(text).map(Some)
}

fn are_distinct(groups: &[Group], found: &mut Found) -> bool {
    found.numbers.clear();
    found.numbers.extend(groups.iter().map(|group| group.0));
    found.numbers.sort_unstable();
    found.numbers.windows(2).all(|pair| pair[0] != pair[1])
}

fn test_entries(entries: &[Entry], is_folder: bool) -> Result<()> {
    if entries.len() > MAX_ENTRIES {
        return Err(Refusal::ListFull);
    }
    let (mut are_of_use, mut are_inherited) = (true, false);
    for Entry(_, who, bits, flag_bits) in entries {
        mask(*bits)?;
        let flags = flags(*flag_bits)?;
        Who::of(who, flags)?;
        are_of_use &= is_of_use(flags);
        are_inherited |= flags & INHERITANCE != 0;
    }
    if !are_of_use || (are_inherited && !is_folder) {
        return Err(Refusal::BadFlags);
    }
    Ok(())
}

/// Tests each member, and notes the groups that list the user, and those that list a group.
fn note_groups(groups: &[Group], who: Option<&str>, found: &mut Found) -> Result<()> {
    found.groups.clear();
    found.outer.clear();
    for Group(number, members) in groups {
        if members.len() > MAX_MEMBERS {
            return Err(Refusal::ListFull);
        }
        let mut is_in = false;
        for member in members {
            match Member::of(member)? {
                Member::User(name) => is_in |= who == Some(name),
                Member::Group(inner) => found.outer.push((inner, *number)),
            }
        }
        if is_in {
            found.groups.push(*number);
        }
    }
    Ok(())
}

/// Adds the groups of the groups that were found, each once.
fn find_outer(found: &mut Found) {
    if found.groups.is_empty() || found.outer.is_empty() {
        return;
    }
    let Found { numbers, seen, outer, groups } = found;
    outer.sort_unstable();
    seen.clear();
    seen.resize(numbers.len(), false);
    for number in groups.iter() {
        see(numbers, seen, *number);
    }
    let mut at = 0;
    while at < groups.len() {
        let inner = groups[at];
        at += 1;
        let first = outer.partition_point(|edge| edge.0 < inner);
        for (_, number) in outer[first..].iter().take_while(|edge| edge.0 == inner) {
            if see(numbers, seen, *number) {
                groups.push(*number);
            }
        }
    }
}

/// Whether the group of this number is seen for the first time.
fn see(numbers: &[u64], seen: &mut [bool], number: u64) -> bool {
    match numbers.binary_search(&number) {
        Ok(at) => !std::mem::replace(&mut seen[at], true),
        Err(_) => false,
    }
}

/// What the entries say of the bits that are left: each was tested before.
fn evaluate(line: &Line, who: Option<&str>, owner: &str, groups: &[u64], mut left: u32) -> Verdict {
    let is_owner = who == Some(owner);
    for (index, Entry(sort, text, bits, flag_bits)) in line.entries.iter().enumerate() {
        if left == 0 {
            return Verdict::Granted;
        }
        let flags = *flag_bits as u32;
        if flags & INHERIT_ONLY != 0 {
            continue;
        }
        let is_for = match Who::of(text, flags) {
            Ok(Who::User(name)) => who == Some(name),
            Ok(Who::Group(number)) => groups.contains(&number),
            Ok(Who::Owner) => is_owner,
            Ok(Who::OwnerGroup) => groups.contains(&line.group),
            Ok(Who::Everyone) => true,
            Ok(Who::Anonymous) => who.is_none(),
            Ok(Who::Authenticated) => who.is_some(),
            Err(_) => false,
        };
        if !is_for {
            continue;
        }
        match Sort::of(sort) {
            Some(Sort::Allow) => left &= !(*bits as u32),
            Some(Sort::Deny) if *bits as u32 & left != 0 => return Verdict::DeniedBy(index),
            _ => {}
        }
    }
    if left == 0 {
        Verdict::Granted
    } else {
        Verdict::DeniedAtEnd
    }
}
