//! A judge line as serde's derive reads it: the shape of each field, and nothing more.
use crate::values::{Refusal, Result};
use serde::Deserialize;
use serde_json::Value;

#[derive(Deserialize)]
#[serde(deny_unknown_fields)]
pub struct Line<'a> {
    #[serde(borrow)]
    pub entries: Vec<Entry<'a>>,
    #[serde(default = "picture")]
    pub kind: &'a str,
    pub group: u64,
    #[serde(borrow, default)]
    pub groups: Vec<Group<'a>>,
    pub owner: &'a str,
    pub who: &'a str,
    pub mask: u64,
    #[serde(default = "policy_one")]
    pub policy: u64,
}

/// `[type, who, mask, flags]`
#[derive(Deserialize)]
pub struct Entry<'a>(pub &'a str, pub &'a str, pub u64, pub u64);

/// `[number, members]`
#[derive(Deserialize)]
pub struct Group<'a>(pub u64, #[serde(borrow)] pub Vec<&'a str>);

fn picture() -> &'static str {
    "picture"
}

fn policy_one() -> u64 {
    1
}

/// What a line is that isn't of the plain shape.
pub fn tree(line: &str) -> Result<Value> {
    serde_json::from_str(line).map_err(|_| Refusal::BadLine)
}

impl<'a> Line<'a> {
    /// A line of the plain shape: an object whose keys differ, and whose texts can be borrowed.
    pub fn plain(line: &'a str) -> Option<Line<'a>> {
        // (the derive would take the fields as an array too)
        if !line.trim_start().starts_with('{') {
            return None;
        }
        serde_json::from_str(line).ok()
    }

    /// The line that the tree is.
    pub fn of(tree: &'a Value) -> Result<Line<'a>> {
        if !tree.is_object() {
            return Err(Refusal::BadRequest);
        }
        Line::deserialize(tree).map_err(|_| Refusal::BadRequest)
    }
}
