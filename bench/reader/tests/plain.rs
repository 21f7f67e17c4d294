//! Plain cards: they answer as their raw twins, whose codes all match, and the format is never guessed.

use reader::build::random::random;
use reader::build::requests::{random_change, random_path};
use reader::build::scribble::junk_spare;
use reader::build::{bench, Assembly, Layout};
use reader::ecc::{judge, Verdict};
use reader::page::DATA;
use reader::rng::Rng;
use reader::{check, find, list, read, step, to_raw, tree, Format, Refusal};

/// The raw image with the same data and good codes; what reading ignores is junk.
fn twin(plain: &[u8], rng: &mut Rng) -> Vec<u8> {
    let pages = plain.len() / Format::Plain.page_bytes();
    let mut raw = vec![0; pages * Format::Raw.page_bytes()];
    to_raw(plain, &mut raw).unwrap();
    (0..pages).for_each(|page| junk_spare(&mut raw, page, rng));
    raw
}

/// The same data, and every chunk of the raw image good.
fn are_twins(raw: &[u8], plain: &[u8]) -> bool {
    let pages = raw.chunks(Format::Raw.page_bytes()).zip(plain.chunks(DATA));
    pages.into_iter().all(|(raw, data)| {
        let (stored, spare) = raw.split_at(DATA);
        let mut chunks = stored.chunks(128).zip(spare.chunks(3));
        stored == data && chunks.all(|(chunk, code)| judge(chunk, [code[0], code[1], code[2]]) == Verdict::Good)
    })
}

#[test]
fn twins_answer_alike() {
    let (mut accepted, mut refused) = (0, 0);
    for seed in 0..150 {
        let mut rng = Rng::new(seed + 4_000_000);
        let mut plain = random(Format::Plain, seed).image;
        let mut raw = twin(&plain, &mut rng);
        for step_number in 0..if plain.len() < 400_000 { 20 } else { 4 } {
            let what = format!("seed {seed}, step {step_number}");
            assert_eq!(check(Format::Raw, &raw), check(Format::Plain, &plain), "{what}");
            assert!(list(Format::Raw, &raw, -540) == list(Format::Plain, &plain, -540), "{what}");
            let items = tree(Format::Plain, &plain).unwrap();
            assert!(tree(Format::Raw, &raw).unwrap() == items, "{what}");
            let (path, slot, offset) = (random_path(&mut rng, &items, false), rng.below(9), rng.below(3000));
            assert_eq!(find(Format::Raw, &raw, &path), find(Format::Plain, &plain, &path), "{what}");
            assert_eq!(step(Format::Raw, &raw, &path, slot), step(Format::Plain, &plain, &path, slot), "{what}");
            let mut buffers = [[7; 1500]; 2];
            let reads = [(Format::Raw, &raw), (Format::Plain, &plain)].into_iter().zip(&mut buffers);
            let reads: Vec<_> = reads.map(|((format, image), out)| read(format, image, &path, offset, out)).collect();
            assert_eq!((reads[0], buffers[0]), (reads[1], buffers[1]), "{what}");

            let change = random_change(&mut rng, &items);
            let answer = change.apply(Format::Plain, &mut plain);
            assert_eq!(change.apply(Format::Raw, &mut raw), answer, "{what}, {change:?}");
            assert!(are_twins(&raw, &plain), "{what}, {change:?}");
            *(if answer.is_ok() { &mut accepted } else { &mut refused }) += 1;
        }
    }
    assert!(accepted > 1000 && refused > 200, "{accepted} {refused}");
}

/// 270,336 bytes are 256 raw clusters and 264 plain ones: the format that is said decides.
#[test]
fn a_length_of_both_formats() {
    let layout = |clusters: usize| Layout { clusters, ..Layout::bench() };
    let raw = Assembly::with_root(Format::Raw, layout(256)).finish();
    let plain = Assembly::with_root(Format::Plain, layout(264)).finish();
    assert_eq!(raw.len(), plain.len());
    assert_eq!(check(Format::Raw, &raw).map(|counts| counts.clusters), Ok(256));
    assert_eq!(check(Format::Plain, &plain).map(|counts| counts.clusters), Ok(264));
    // Page 0 reads alike in both, apart from its code; N is then the wrong one.
    assert_eq!(check(Format::Plain, &raw), Err(Refusal::number(4)));
    assert_eq!(check(Format::Raw, &plain), Err(Refusal::unreadable(0)));
}

/// Everywhere else the other format's length is refused.
#[test]
fn the_other_format() {
    for format in Format::BOTH {
        let image = bench(format.other());
        assert_eq!(check(format, &image), Err(Refusal::number(1)));
        assert_eq!(list(format, &image, 0), "refused 1\n");
    }
}
