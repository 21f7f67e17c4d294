//! What use leaves on a raw card: flips, junk and damage.

use std::collections::{HashMap, HashSet};

use super::scribble;
use crate::content::{Piece, Tree};
use crate::page::Format;
use crate::rng::Rng;

/// Junk spare bytes and mendable flips anywhere in a raw image; ruin where the check doesn't look. Answers how many
/// flips each page got that isn't ruined, one at most in a chunk.
pub(super) fn wear(
    rng: &mut Rng,
    image: &mut [u8],
    needed: &HashSet<usize>,
    files: &[(usize, Vec<u8>, usize)],
    tree: &mut Tree,
) -> HashMap<usize, usize> {
    let format = Format::Raw;
    let worn = rng.below(8);
    let (mut ruined, mut flips) = (HashSet::new(), HashMap::new());
    for page in 0..image.len() / format.page_bytes() {
        let chunk = rng.below(4);
        if !needed.contains(&page) && rng.chance(worn, 60) {
            scribble::ruin(format, image, page, chunk, rng);
            ruined.insert(page);
        }
        for other in (0..4).filter(|&other| other != chunk || !ruined.contains(&page)) {
            if rng.chance(worn, 30) {
                scribble::mendable(format, image, page, other, rng);
                *flips.entry(page).or_default() += 1;
            }
        }
        if rng.chance(3, 4) {
            scribble::junk_spare(image, page, rng);
        }
    }
    for (page, path, index) in files.iter().filter(|(page, ..)| ruined.contains(page)) {
        let pieces = &mut tree.get_mut(path).expect("a file drawn").pieces;
        if let Some(piece) = pieces.get_mut(*index) {
            let bytes = match piece {
                Piece::Bytes(bytes) => bytes.len(),
                Piece::Unreadable { .. } => unreachable!("page {page} is visited once"),
            };
            *piece = Piece::Unreadable { bytes };
        }
    }
    flips.retain(|page, _| !ruined.contains(page));
    flips
}
