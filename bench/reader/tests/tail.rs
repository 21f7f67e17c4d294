//! The reserved tail of document 02's request 3 in both formats: cards are filled right up to it.

mod common;

use common::{room, TWELVE};
use reader::build::{standard, usual_time, Assembly, Layout};
use reader::tree::Checked;
use reader::{create, delete, Format};

/// The longest file takes every cluster below the limit but the root's two, and none from it up.
#[test]
fn longest_file() {
    for (layout, most, held) in [
        (Layout::standard(), 7998, 135),
        (Layout::standard().ending(8001), 7998, 1),
        (Layout::standard().ending(8000), 7998, 0),
        (Layout::standard().ending(7999), 7997, 0),
        (Layout::widest(8184), 8132, 0),
        (Layout::fresh(8200), 8141, 0),
    ] {
        for format in Format::BOTH {
            let mut image = Assembly::with_root(format, layout.clone()).finish();
            assert_eq!(create(format, &mut image, b"/A", &usual_time(), &vec![1; 1024 * most + 1]), TWELVE);
            assert_eq!(create(format, &mut image, b"/A", &usual_time(), &vec![1; 1024 * most]), Ok(()));
            assert_eq!(room(format, &image), (0, held));
            let chain = Checked::of(format, &image).unwrap().root.inside.unwrap().children[0].chain.clone();
            assert_eq!(chain, (2..2 + most).collect::<Vec<usize>>());
            assert_eq!(delete(format, &mut image, b"/A"), Ok(()));
            assert_eq!(room(format, &image), (most, held));
        }
    }
}

/// One file after the other until 12; all deleted again, what was held back stays so.
#[test]
fn filled_and_emptied() {
    for format in Format::BOTH {
        let mut image = standard(format);
        let data = vec![5; 1_000_000];
        let mut files = 0;
        while create(format, &mut image, format!("/{files}").as_bytes(), &usual_time(), &data).is_ok() {
            files += 1;
        }
        // Eight files of 977 clusters and the root of ten slots.
        assert_eq!((files, room(format, &image)), (8, (8000 - 8 * 977 - 5, 135)));
        (0..8).for_each(|file| delete(format, &mut image, format!("/{file}").as_bytes()).unwrap());
        assert_eq!(room(format, &image), (7995, 135));
    }
}
