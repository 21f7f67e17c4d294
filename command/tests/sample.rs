//! The sample card of the repository, as a newcomer sees it.

mod common;

use common::Folder;
use reader::build::samples;
use reader::Format::Raw;

#[test]
fn listed_for_people() {
    let folder = Folder::new();
    let card = concat!(env!("CARGO_MANIFEST_DIR"), "/../samples/bench.ps2");
    let all = "\
dir   3 entries  BESLES-00001GARDEN
dir   2 entries  BESLES-00002RALLY
dir   2 entries  SAVE
";
    assert_eq!(folder.run(&["ls", card]).text(), all);
    let garden = "\
file   964 bytes  2003-07-19 22:48:31  icon.sys
file  2900 bytes  2003-07-19 22:48:31  garden.ico
file  4096 bytes  2003-07-19 22:48:31  GARDEN
";
    assert_eq!(folder.run(&["ls", "-l", card, "/BESLES-00001GARDEN"]).text(), garden);
    assert_eq!(folder.run(&["read", card, "/SAVE/note.txt"]).text(), "One save of 2000, one of 2001, one of 2003.\n");
    assert_eq!(folder.run(&["list", card]).text(), reader::list(Raw, &samples::shop(), 0));
}
