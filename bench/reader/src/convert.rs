//! Conversion into the other format. Lengths are judged and nothing else: any pages will do.

use crate::card::{clusters_of, needed};
use crate::page::{self, Data, Format};
use crate::Refusal;

/// Writes a raw image's pages, as read, without their spare bytes; 2 is the lowest unreadable page of all.
pub fn to_plain(image: &[u8], output: &mut [u8]) -> Result<(), Refusal> {
    convert(Format::Raw, image, output)
}

/// Writes a plain image's pages with fresh codes; spare bytes 12 to 15 are zero.
pub fn to_raw(image: &[u8], output: &mut [u8]) -> Result<(), Refusal> {
    convert(Format::Plain, image, output)
}

/// 1 is judged on the image, 23 on the output; every page is read before the first is written.
fn convert(from: Format, image: &[u8], output: &mut [u8]) -> Result<(), Refusal> {
    let to = from.other();
    let clusters = clusters_of(from, image.len()).ok_or(Refusal::number(1))?;
    if output.len() != clusters * to.cluster_bytes() {
        return Err(Refusal::number(23));
    }
    let pages: Vec<Data> = (0..2 * clusters).map(|page| needed(from, image, page)).collect::<Result<_, _>>()?;
    output.fill(0);
    pages.iter().enumerate().for_each(|(page, data)| page::write(to, output, page, data));
    Ok(())
}
