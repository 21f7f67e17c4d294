//! The header: a C program over it beside the same calls through the wrapper.

#[path = "c/mod.rs"]
mod c;
mod common;

use common::{in_wrapper, Folder};
use ps2card::{Card, Counts, Entry, Format, Kind, Mended, Refusal, Stamp};
use reader::build::{self, scribble, Assembly, Layout};

/// What stands in an output before a call of the C program.
const UNTOUCHED: usize = 77;

/// The number and page that a call tells.
fn told<T>(answer: &Result<T, Refusal>) -> String {
    let refusal = answer.as_ref().err();
    let page = refusal.and_then(|refusal| refusal.page()).unwrap_or(UNTOUCHED);
    format!("{} {page}", refusal.map_or(0, |refusal| refusal.number()))
}

fn hex(bytes: &[u8]) -> String {
    bytes.iter().map(|byte| format!("{byte:02x}")).collect()
}

/// The fields as the C program prints them; where there are none, what its outputs held before.
fn fields(entry: Option<&Entry>) -> String {
    let byte = UNTOUCHED as u8;
    let word = u32::from_le_bytes([byte; 4]);
    let nothing = Entry {
        mode: u16::from_le_bytes([byte; 2]),
        length: word,
        created: Stamp([byte; 8]),
        first: word,
        dir_entry: word,
        modified: Stamp([byte; 8]),
        attribute: word,
        name_field: [byte; 32],
    };
    let entry = entry.unwrap_or(&nothing);
    let bytes = [&entry.created.0[..], &entry.modified.0, &entry.name_field].concat();
    let Entry { mode, length, first, dir_entry, attribute, .. } = entry;
    format!(" {mode:x} {length} {first} {dir_entry} {attribute} {}\n", hex(&bytes))
}

/// The calls of header.c, in its order, through the wrapper.
struct Script {
    card: Card,
    text: String,
}

impl Script {
    fn say(&mut self, line: String) {
        self.text += &line;
    }

    fn check(&mut self) {
        let answer = self.card.check();
        self.counted(&answer);
    }

    /// The check of the image without its last byte, which is refused.
    fn check_cut(&mut self) {
        let image = self.card.image();
        let answer = Card::new(self.card.format(), &image[..image.len() - 1]).check();
        self.counted(&answer);
    }

    fn counted(&mut self, answer: &Result<Counts, Refusal>) {
        let counted = |c: Counts| [c.clusters as usize, c.free, c.reached, c.orphaned, c.held, c.mended];
        let counts = answer.map_or([UNTOUCHED; 6], counted);
        self.say(format!("check {} {}\n", told(answer), counts.map(|count| count.to_string()).join(" ")));
    }

    fn find(&mut self, path: &str) {
        let answer = self.card.find_mended(path.as_bytes());
        // The bytes of no entry: no directory's bit among them, none to write, and no zero in the name.
        let (mended, bits, length, entry) = match &answer {
            Ok(Mended { answer, chunks }) => {
                let bits = [answer.kind() == Kind::Directory, answer.is_locked()];
                (*chunks, bits, answer.name().len(), Some(answer))
            }
            Err(_) => (UNTOUCHED, [false, true], 32, None),
        };
        let [directory, locked] = bits.map(i32::from);
        self.say(format!("find {} {mended} {directory} {locked} {length}{}", told(&answer), fields(entry)));
    }

    fn step(&mut self, path: &str, slot: u32) {
        let answer = self.card.step_mended(path.as_bytes(), slot);
        let (mended, found, at, entry) = match &answer {
            Ok(Mended { answer: Some((at, entry)), chunks }) => (*chunks, 1, *at as usize, Some(entry)),
            Ok(Mended { answer: None, chunks }) => (*chunks, 0, UNTOUCHED, None),
            Err(_) => (UNTOUCHED, UNTOUCHED, UNTOUCHED, None),
        };
        self.say(format!("step {} {mended} {found} {at}{}", told(&answer), fields(entry)));
    }

    fn read(&mut self, path: &str, offset: usize) {
        let mut out = [UNTOUCHED as u8; 16];
        let answer = self.card.read_mended(path.as_bytes(), offset, &mut out);
        let (mended, count) = answer.map_or((UNTOUCHED, UNTOUCHED), |read| (read.chunks, read.answer));
        self.say(format!("read {} {mended} {count} {}\n", told(&answer), hex(&out)));
    }

    /// The listing of the first bytes of the image, or the refusal as its text has it.
    fn list(&mut self, length: usize, minutes: i32) {
        let listed = Card::new(self.card.format(), &self.card.image()[..length]).list_at(minutes);
        let text = match listed {
            Ok(text) => String::from_utf8(text).expect("text"),
            Err(refusal) => format!("refused {}\n", refusal.number()),
        };
        self.say(format!("list {}\n{text}", text.len()));
    }

    fn lists(&mut self) {
        let length = self.card.image().len();
        [0, -1260, 300, -1261].into_iter().for_each(|minutes| self.list(length, minutes));
        [0, 301].into_iter().for_each(|minutes| self.list(length - 1, minutes));
    }

    fn change(&mut self, name: &str, edit: impl FnOnce(&mut Card) -> Result<(), Refusal>) {
        let answer = edit(&mut self.card);
        self.say(format!("{name} {}\n", told(&answer)));
    }

    /// The first bytes of the image in the other format, into so many bytes.
    fn convert(&mut self, length: usize, out_length: usize) {
        let format = self.card.format();
        let mut out = vec![UNTOUCHED as u8; out_length];
        let answer = Card::new(format, &self.card.image()[..length]).convert_into(format.other(), &mut out);
        let touched = out.iter().any(|&byte| byte != UNTOUCHED as u8);
        self.say(format!("convert {} {}\n", told(&answer), i32::from(touched)));
    }

    fn damage(&mut self) {
        let format = self.card.format();
        let mut image = self.card.image().to_vec();
        image[7 * format.page_bytes()] ^= 3;
        self.card = Card::new(format, image);
    }

    fn conversions(&mut self) {
        let (length, needed) = (self.card.image().len(), self.card.length_in(self.card.format().other()));
        self.convert(0, 0);
        self.convert(length - 1, needed);
        self.convert(length, needed - 1);
        self.convert(length, needed + 1);
        self.convert(length, 0);
        self.damage();
        self.convert(length, needed - 1);
        self.convert(length, needed);
        self.damage();
        self.convert(length, needed);
    }

    fn run(&mut self) {
        let time = Stamp(build::usual_time());
        let no_time = Stamp([1, 0, 0, 0, 0, 0, 0, 0]);
        self.check();
        self.check_cut();
        self.change("make_dir", |card| card.make_dir(b"/D", &time));
        self.change("make_dir", |card| card.make_dir(b"/D", &time));
        self.change("make_dir", |card| card.make_dir(b"/E", &no_time));
        self.change("create", |card| card.create(b"/D/F", &time, b"some bytes of a save"));
        self.change("create", |card| card.create(b"/D/G", &time, b""));
        self.change("create", |card| card.create(b"/none/F", &time, b""));
        self.find("/");
        self.find("/D/F");
        self.find("/D/H");
        self.step("/D", 0);
        self.step("/D", 3);
        self.step("/D", 4);
        self.step("/D/F", 0);
        self.read("/D/F", 5);
        self.read("/D/F", 20);
        self.read("/D/F", 21);
        self.lists();
        self.change("replace", |card| card.replace(b"/D/F", &time, b"other bytes"));
        self.change("replace", |card| card.replace(b"/D", &time, b""));
        self.change("delete", |card| card.delete(b"/D/G"));
        self.change("delete", |card| card.delete(b"/D"));
        self.change("remove_dir", |card| card.remove_dir(b"/D"));
        self.change("make_dir", |card| card.make_dir(b"/E", &time));
        self.change("remove_dir", |card| card.remove_dir(b"/E"));
        self.check();
        self.list(self.card.image().len(), 0);
        self.conversions();
    }
}

/// C through the header and Rust through the wrapper tell the same and leave the same image, in both formats, on a small
/// card, on one that lists a bad block, on one with a reserved tail and on one with wrong bits, and however C is
/// compiled.
#[test]
fn c_program() {
    for way in c::WAYS {
        let folder = Folder::new();
        let program = c::compiled(&folder, c::test("header"), way);
        for format in reader::Format::BOTH {
            let mut worn = Assembly::with_root(format, Layout::bench());
            worn.superblock[0x14C..0x150].copy_from_slice(&2_u32.to_le_bytes());
            // One in a page that the changes leave, two in pages of the root that they write.
            let mut flipped = build::bench(format);
            let flips = if format == reader::Format::Raw { &[(0, 3, 5), (20, 0, 1030), (21, 2, 700)][..] } else { &[] };
            flips.iter().for_each(|&(page, chunk, bit)| scribble::flip(format, &mut flipped, page, chunk, bit));
            let cards = [
                (build::bench(format), "56 29 1 0 0 0".to_string()),
                (worn.finish(), "56 21 1 0 8 0".to_string()),
                (build::standard(format), "8192 7999 1 0 135 0".to_string()),
                (flipped, format!("56 29 1 0 0 {}", flips.len())),
            ];
            for (image, counts) in cards {
                let text = same(&folder, &program, format, &image);
                let checks = format!("check 0 77 {counts}\ncheck 1 77 77 77 77 77 77 77\n");
                assert!(text.starts_with(&checks), "{way:?} {format:?}: {text}");
            }
        }
    }
}

/// What both tell of a card.
fn same(folder: &Folder, program: &c::Program, format: reader::Format, image: &[u8]) -> String {
    let mut script = Script { card: Card::new(in_wrapper(format), image.to_vec()), text: String::new() };
    script.run();
    let Script { card, text } = script;
    let (other, option) = match card.format() {
        Format::Raw => (card.to_plain(), None),
        Format::Plain => (card.to_raw(), Some("--plain")),
    };
    folder.write("card", image);
    let words: Vec<&str> = option.into_iter().chain(["card", "changed", "converted"]).collect();
    assert_eq!(program.run(folder, &words).text(), text);
    assert!(folder.read("changed") == card.image() && folder.read("changed") != image);
    assert!(folder.read("converted") == other.expect("it is readable").image());
    assert!(text.contains("\nlist 11\nrefused 17\nlist 10\nrefused 1\nlist 11\nrefused 17\n"), "{text}");
    for time in ["2000-02-29 12:34:56", "2000-02-28 15:34:56", "2000-02-29 17:34:56"] {
        assert!(text.contains(&format!("\nf 20 /D/F {time}\n")), "{text}");
    }
    let listed = ["list", "refused", "card", "free", "reached", "orphaned", "held", "mended", "d", "f"];
    let calls = text.lines().filter(|line| !listed.contains(&word(line, 0)));
    let numbers: Vec<u32> = calls.map(|line| word(line, 1).parse().expect("a number")).collect();
    for number in [0, 1, 9, 10, 11, 13, 14, 15, 23] {
        assert!(numbers.contains(&number), "{number}: {text}");
    }
    assert_eq!(numbers.contains(&2), format == reader::Format::Raw, "{text}");
    assert_eq!(text.contains("\nconvert 2 7 0\n"), format == reader::Format::Raw, "{text}");
    text
}

fn word(line: &str, place: usize) -> &str {
    line.split(' ').nth(place).expect("a word")
}
