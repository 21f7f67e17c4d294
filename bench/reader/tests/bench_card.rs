//! The bench card's figures in document 01, "Numbers to meet", in both formats.

use reader::build::{bench, usual_time};
use reader::{check, create, delete, list, make_dir, program, read, Counts, Format, Refusal};

fn number<T: std::fmt::Debug>(answer: Result<T, Refusal>) -> u8 {
    answer.unwrap_err().number
}

fn free(format: Format, image: &[u8]) -> usize {
    check(format, image).unwrap().free
}

#[test]
fn fresh_counts() {
    for format in Format::BOTH {
        let fresh = Counts { clusters: 56, free: 29, reached: 1, orphaned: 0, held: 0, mended: 0 };
        assert_eq!(check(format, &bench(format)), Ok(fresh));
        assert_eq!(bench(format)[0xD0..0x150], [0xFF; 0x80]);
    }
    assert_eq!((bench(Format::Raw).len(), bench(Format::Plain).len()), (59_136, 57_344));
}

#[test]
fn the_greatest_file() {
    let time = usual_time();
    let fits = vec![0xAB; 28_672];
    let too_long = vec![0xAB; 28_673];
    for format in Format::BOTH {
        let mut image = bench(format);
        assert_eq!(number(create(format, &mut image, b"/A", &time, &too_long)), 12);
        assert_eq!(image, bench(format));
        assert_eq!(create(format, &mut image, b"/A", &time, &fits), Ok(()));
        assert_eq!(free(format, &image), 0);
        assert_eq!(delete(format, &mut image, b"/A"), Ok(()));
        // Now the root has a dead slot: no growth, and one cluster more than before stays taken.
        assert_eq!(free(format, &image), 28);
        assert_eq!(number(create(format, &mut image, b"/A", &time, &too_long)), 12);
        assert_eq!(create(format, &mut image, b"/A", &time, &fits), Ok(()));
    }
}

#[test]
fn order_of_removal_and_creation() {
    let time = usual_time();
    for format in Format::BOTH {
        let mut start = bench(format);
        create(format, &mut start, b"/A", &time, b"").unwrap();
        create(format, &mut start, b"/C", &time, b"").unwrap();
        let mut one = start.clone();
        delete(format, &mut one, b"/A").unwrap();
        create(format, &mut one, b"/B", &time, b"").unwrap();
        let mut other = start;
        create(format, &mut other, b"/B", &time, b"").unwrap();
        delete(format, &mut other, b"/A").unwrap();
        assert_eq!((free(format, &one), free(format, &other)), (28, 27));
        assert_eq!(reader::tree(format, &one), reader::tree(format, &other));
    }
}

/// The four-name case of document 01, moved to eight names by request 7 of document 02.
#[test]
fn eight_names() {
    let time = usual_time();
    let path = b"/a/b/c/d/e/f/g/h";
    for format in Format::BOTH {
        let mut image = bench(format);
        for names in 1..=7 {
            make_dir(format, &mut image, &path[..2 * names], &time).unwrap();
        }
        assert_eq!(number(make_dir(format, &mut image, path, &time)), 8);
        assert_eq!(create(format, &mut image, path, &time, b"deep"), Ok(()));
        let mut buffer = [0; 8];
        assert_eq!(read(format, &image, path, 0, &mut buffer), Ok(4));
        assert_eq!(&buffer, b"deep\0\0\0\0");
    }
}

#[test]
fn offset_at_the_end() {
    for format in Format::BOTH {
        let mut image = bench(format);
        create(format, &mut image, b"/A", &usual_time(), &[7; 1500]).unwrap();
        let mut buffer = [9; 4];
        assert_eq!(read(format, &image, b"/A", 1500, &mut buffer), Ok(0));
        assert_eq!(number(read(format, &image, b"/A", 1501, &mut buffer)), 15);
        assert_eq!(buffer, [9; 4]);
        assert_eq!(read(format, &image, b"/A", 1498, &mut buffer), Ok(2));
        assert_eq!(buffer, [7, 7, 9, 9]);
    }
}

/// The program knows raw images alone.
#[test]
fn the_whole_listing() {
    let time = usual_time();
    let expected = "card 56\nfree 24\nreached 6\norphaned 0\nheld 0\nmended 0\n\
                    d 3 /SAVE 2000-02-29 12:34:56\nf 1500 /SAVE/A 2000-02-29 12:34:56\n";
    for (format, printed) in [(Format::Raw, expected), (Format::Plain, "refused 1\n")] {
        let mut image = bench(format);
        make_dir(format, &mut image, b"/SAVE", &time).unwrap();
        create(format, &mut image, b"/SAVE/A", &time, &[1; 1500]).unwrap();
        assert_eq!(list(format, &image, 0), expected);
        assert_eq!(program(&image), printed);
    }
}

#[test]
fn the_program_refuses() {
    let format = Format::Raw;
    let mut longer = bench(format);
    longer.push(0);
    assert_eq!(program(&longer), "refused 1\n");
    assert_eq!(program(&reader::build::standard(format)), "refused 1\n");
    let standard = "card 8192\nfree 7999\nreached 1\norphaned 0\nheld 135\nmended 0\n";
    assert_eq!(list(format, &reader::build::standard(format), 0), standard);
    let mut image = bench(format);
    reader::build::scribble::break_page(format, &mut image, 17);
    assert_eq!(program(&image), "refused 2 17\n");
    reader::build::scribble::break_page(format, &mut image, 0);
    assert_eq!(program(&image), "refused 2 0\n");
    assert_eq!(program(b""), "refused 1\n");
}
