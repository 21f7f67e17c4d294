//! How many chunks are mended in what a call or a command needs, by the codes alone; and the line that tells it.

use reader::content::visit;
use reader::page::{self, word, DATA};
use reader::tree::{Checked, Node};
use reader::Format::{Plain, Raw};
use reader::{ecc, Format};

/// The bits of a chunk's code that count.
const COUNTED: [u8; 3] = [0x77, 0x7F, 0x7F];

/// Of a page: its chunks whose code does not match, where all of them are readable.
fn in_page(format: Format, image: &[u8], page: usize) -> usize {
    if format == Plain || page::read(format, image, page).is_none() {
        return 0;
    }
    let (data, spare) = image[Raw.place(page)].split_at(DATA);
    let is_wrong = |(chunk, stored): &(&[u8], &[u8])| {
        let code = ecc::code_of(chunk);
        (0..3).any(|byte| (code[byte] ^ stored[byte]) & COUNTED[byte] != 0)
    };
    data.chunks(ecc::CHUNK).zip(spare.chunks(3)).filter(is_wrong).count()
}

/// What every call on an accepted card needs: page 0, the indirect cluster, the table and every entry.
pub fn in_check(format: Format, image: &[u8]) -> usize {
    let checked = Checked::of(format, image).expect("an accepted card");
    let superblock = page::read(format, image, 0).expect("an accepted card");
    let clusters = [&[word(&superblock, 0x50) as usize], &checked.card.table_clusters[..]].concat();
    let mut pages = vec![0];
    pages.extend(clusters.into_iter().flat_map(|cluster| [2 * cluster, 2 * cluster + 1]));
    visit(&checked.root, b"/", &mut |_, node| {
        if node.inside.is_some() {
            pages.extend((0..node.entry.length as usize).map(|slot| checked.card.slot_page(&node.chain, slot)));
        }
    });
    pages.into_iter().map(|page| in_page(format, image, page)).sum()
}

/// The files that are chosen by their paths: their readable pages from an offset on, as far as so many bytes go.
fn in_some(format: Format, image: &[u8], offset: usize, most: usize, chosen: impl Fn(&[u8]) -> bool) -> usize {
    let checked = Checked::of(format, image).expect("an accepted card");
    let mut count = 0;
    visit(&checked.root, b"/", &mut |path: &[u8], node: &Node| {
        let end = offset.saturating_add(most).min(node.entry.length as usize);
        if node.inside.is_none() && chosen(path) && offset < end {
            let pages = (offset / DATA..end.div_ceil(DATA)).map(|index| checked.card.slot_page(&node.chain, index));
            count += pages.map(|page| in_page(format, image, page)).sum::<usize>();
        }
    });
    count
}

/// The pages of a file that a read copies from.
pub fn in_read(format: Format, image: &[u8], path: &[u8], offset: usize, most: usize) -> usize {
    in_some(format, image, offset, most, |other| other == path)
}

/// Every file, or those that are chosen, whole.
pub fn in_files(format: Format, image: &[u8], chosen: impl Fn(&[u8]) -> bool) -> usize {
    in_some(format, image, 0, usize::MAX, chosen)
}

/// What a command says of an image on standard error.
pub fn line(image: &str, chunks: usize) -> String {
    let words = match chunks {
        0 => return String::new(),
        1 => "1 chunk of 128 bytes had one wrong bit and was mended as it was read".to_string(),
        _ => format!("{chunks} chunks of 128 bytes had one wrong bit each and were mended as they were read"),
    };
    format!("ps2card: {image}: {words}; the image is unchanged\n")
}
