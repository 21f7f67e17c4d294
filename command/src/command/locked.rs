//! Which entries are locked, for a change that is refused because of it.

use ps2card::Card;

/// Says on which entries the lock is: that at the path of the change, where it is there, and that of the directory
/// directly around it.
pub fn hint(card: &Card, path: &[u8]) -> String {
    let is_locked = |path: &&[u8]| card.find(path).is_ok_and(|entry| entry.is_locked());
    let locked = [path, around(path)].into_iter().filter(is_locked).map(|path| path.escape_ascii().to_string());
    match &locked.collect::<Vec<String>>()[..] {
        [] => String::new(),
        [one] => format!("; the lock is on {one}"),
        both => format!("; the locks are on {}", both.join(" and ")),
    }
}

/// The directory directly around what stands at a path.
fn around(path: &[u8]) -> &[u8] {
    match path.iter().rposition(|&byte| byte == b'/') {
        None | Some(0) => b"/",
        Some(end) => &path[..end],
    }
}
