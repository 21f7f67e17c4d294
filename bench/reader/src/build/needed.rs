//! Which pages of an accepted card a call needs, from the lengths and chains of its tree.

use crate::content::visit;
use crate::lookup::{locate, names};
use crate::page::{self, word, Format, DATA};
use crate::tree::{Checked, Node};

/// Where the superblock names the indirect cluster.
const INDIRECT: usize = 0x50;

/// The pages that the check needs, each once: page 0, both pages of the indirect cluster and of every table cluster, and
/// the slots of each directory below its length, dots and dead ones too.
pub fn by_check(format: Format, image: &[u8]) -> Vec<usize> {
    let checked = Checked::of(format, image).expect("an accepted card");
    let superblock = page::read(format, image, 0).expect("an accepted card");
    let indirect = word(&superblock, INDIRECT) as usize;
    let names = [&[indirect], &checked.card.table_clusters[..]].concat();
    let mut pages = vec![0];
    pages.extend(names.iter().flat_map(|cluster| [2 * cluster, 2 * cluster + 1]));
    pages.extend(entries(&checked));
    pages
}

/// The pages of all entries of all directories, in tree order.
pub fn entries(checked: &Checked) -> Vec<usize> {
    let mut pages = Vec::new();
    visit(&checked.root, b"/", &mut |_, node| {
        if node.inside.is_some() {
            pages.extend((0..node.entry.length as usize).map(|slot| checked.card.slot_page(&node.chain, slot)));
        }
    });
    pages
}

/// The data pages that a read of a file needs besides: those with a byte to copy into a buffer of this size. At the
/// file's end and for an empty buffer there are none.
pub fn by_read(format: Format, image: &[u8], path: &[u8], offset: usize, size: usize) -> Vec<usize> {
    let checked = Checked::of(format, image).expect("an accepted card");
    let names = names(path).expect("a path");
    let file: &Node = locate(&checked.root, &names).expect("a file's path");
    let length = file.entry.length as usize;
    let end = length.min(offset.saturating_add(size));
    let has_byte = |index: &usize| offset.max(DATA * index) < end.min(DATA * (index + 1));
    let indices = (0..length.div_ceil(DATA)).filter(has_byte);
    indices.map(|index| checked.card.slot_page(&file.chain, index)).collect()
}
