//! A card on each side through the five changes; after every change answers and whole images are compared.

use compare::listing;
use reader::build::usual_time;
use reader::tree::Checked;
use reader::{Change, Counts, Format};

use super::changes::{same_image, Changes};

/// The library's image and the reader's.
pub struct Both {
    pub ours: Vec<u8>,
    readers: Vec<u8>,
    pub changes: Changes,
    /// What a message says of the card.
    pub about: String,
}

impl Both {
    pub fn new(format: Format, image: Vec<u8>) -> Both {
        Both { readers: image.clone(), ours: image, changes: Changes::new(format), about: String::new() }
    }

    pub fn format(&self) -> Format {
        self.changes.format
    }

    /// Lets wear or damage work on both images alike.
    pub fn alter(&mut self, change: impl FnOnce(&mut [u8])) {
        change(&mut self.ours);
        self.readers.copy_from_slice(&self.ours);
    }

    /// The number of the refusal, 0 for acceptance.
    pub fn apply(&mut self, change: &Change) -> u8 {
        let about = || self.about.clone();
        let answer = self.changes.apply_to_each(&mut self.ours, &mut self.readers, change, about);
        let after = || format!("{}, after {}", self.about, change.path().escape_ascii());
        same_image(self.changes.format, &self.ours, &self.readers, after);
        answer.map_or_else(|refusal| refusal.number, |()| 0)
    }

    pub fn create(&mut self, path: &str, data: &[u8]) -> u8 {
        self.apply(&Change::Create { path: path.into(), time: usual_time(), data: data.to_vec() })
    }

    pub fn replace(&mut self, path: &str, data: &[u8]) -> u8 {
        self.apply(&Change::Replace { path: path.into(), time: usual_time(), data: data.to_vec() })
    }

    pub fn make_dir(&mut self, path: &str) -> u8 {
        self.apply(&Change::MakeDir { path: path.into(), time: usual_time() })
    }

    pub fn delete(&mut self, path: &str) -> u8 {
        self.apply(&Change::Delete { path: path.into() })
    }

    pub fn remove_dir(&mut self, path: &str) -> u8 {
        self.apply(&Change::RemoveDir { path: path.into() })
    }

    pub fn counts(&self) -> Counts {
        super::same(self.format(), &self.ours, &self.about).expect("changes leave a sound card")
    }

    /// The chain of an entry of the root by the reader.
    pub fn chain(&self, name: &[u8]) -> Vec<usize> {
        let root = Checked::of(self.format(), &self.ours).expect("a sound card").root;
        root.inside.expect("the root").child(name).expect("it is there").chain.clone()
    }

    pub fn listed(&self) -> String {
        let text = listing::whole(self.format(), &self.ours);
        assert!(text == reader::list(self.format(), &self.ours, 0), "the listings differ");
        text
    }
}

/// Bytes that differ from page to page.
pub fn bytes(count: usize) -> Vec<u8> {
    (0..count).map(|at| (at / 512 + at) as u8).collect()
}
