//! The listing: the counts, then every entry in tree order; and the tree as text, a line a path.

use crate::calendar;
use crate::content::{lines, visit};
use crate::page::Format;
use crate::tree::Checked;
use crate::{sha256, Refusal};

/// Most bytes the listing program reads.
pub const PROGRAM_LIMIT: usize = 59_136;

/// The minutes that a listing takes: from 1,260 behind Japan to 300 ahead.
pub const MOST_BEHIND: i32 = -1260;
pub const MOST_AHEAD: i32 = 300;

/// The listing of an image of any allowed size, its times shifted by so many minutes, or the refusal's one line.
pub fn list(format: Format, image: &[u8], minutes: i32) -> String {
    if !(MOST_BEHIND..=MOST_AHEAD).contains(&minutes) {
        return format!("{}\n", Refusal::number(17));
    }
    let checked = match Checked::of(format, image) {
        Ok(checked) => checked,
        Err(refusal) => return format!("{refusal}\n"),
    };
    let mut text = checked.counts().to_string();
    visit(&checked.root, b"/", &mut |path, node| {
        if path != b"/" {
            let kind = if node.inside.is_some() { 'd' } else { 'f' };
            let path = std::str::from_utf8(path).expect("names are ASCII");
            let time = calendar::text(&node.entry.modified, minutes.into());
            text += &format!("{kind} {} {path} {time}\n", node.entry.length);
        }
    });
    text
}

/// What the listing program prints for its standard input, a raw image: times are Japan's.
pub fn program(input: &[u8]) -> String {
    if input.len() > PROGRAM_LIMIT {
        return "refused 1\n".to_string();
    }
    list(Format::Raw, input, 0)
}

/// One line a path: kind, mode, attribute, times, length, first cluster, path, sum of a file's bytes.
pub fn tree_text(format: Format, image: &[u8]) -> Result<String, Refusal> {
    let hex = |bytes: &[u8]| bytes.iter().map(|byte| format!("{byte:02x}")).collect::<String>();
    let mut text = String::new();
    for line in lines(format, image)? {
        let entry = &line.entry;
        let kind = if line.item.is_directory { 'd' } else { 'f' };
        let path = String::from_utf8_lossy(&line.path);
        text += &format!(
            "{kind} {:08x} {:08x} {} {} {} {} {path}",
            entry.mode,
            entry.attribute,
            hex(&entry.created),
            hex(&entry.modified),
            entry.length,
            entry.first_cluster
        );
        if !line.item.is_directory {
            text += " ";
            text += &line.item.bytes().map_or("unreadable".to_string(), |bytes| sha256::hex(&bytes));
        }
        text += "\n";
    }
    Ok(text)
}
