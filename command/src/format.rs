//! The two formats of an image, and the sizes that a card has in them.

use std::fmt;

use ps2card_sys as calls;

/// Clusters of the standard card of 8 MB, the only size with a reserved tail.
pub const STANDARD_CLUSTERS: usize = 8_192;

/// Clusters of the largest card, of 64 MiB.
pub const MOST_CLUSTERS: usize = 65_536;

/// Bytes of the largest card in either format: the raw one.
pub const MOST_BYTES: usize = Format::Raw.most_bytes();

/// Whether a card may have so many clusters.
pub const fn allowed_clusters(clusters: usize) -> bool {
    clusters.is_multiple_of(8) && 32 <= clusters && clusters <= MOST_CLUSTERS
}

/// How an image holds its pages.
///
/// Whoever has the image says it; no call guesses it. Calls answer alike in both formats, and refuse alike, but that a
/// plain image has no unreadable page.
///
/// ```
/// use ps2card::Format;
///
/// assert_eq!((Format::Raw.cluster_bytes(), Format::Plain.cluster_bytes()), (1_056, 1_024));
/// // The length alone does not tell: this one has 256 clusters, or 264 without spare bytes.
/// assert!(Format::Raw.is_length(270_336) && Format::Plain.is_length(270_336));
/// ```
#[derive(Clone, Copy, Debug, Default, PartialEq, Eq, Hash)]
pub enum Format {
    /// Pages of 528 bytes: 512 of data, and 16 spare bytes with the codes that find and correct wrong bits.
    #[default]
    Raw,
    /// Pages of 512 bytes, the data alone, as emulators keep them.
    Plain,
}

impl Format {
    /// Both formats.
    pub const ALL: [Format; 2] = [Format::Raw, Format::Plain];

    /// Bytes of a page.
    pub const fn page_bytes(self) -> usize {
        match self {
            Format::Raw => 528,
            Format::Plain => 512,
        }
    }

    /// Bytes of a cluster, which is two pages.
    pub const fn cluster_bytes(self) -> usize {
        2 * self.page_bytes()
    }

    /// Bytes of the largest card.
    pub const fn most_bytes(self) -> usize {
        MOST_CLUSTERS * self.cluster_bytes()
    }

    /// Whether an image of so many bytes has the length of a card.
    pub const fn is_length(self, bytes: usize) -> bool {
        bytes.is_multiple_of(self.cluster_bytes()) && allowed_clusters(bytes / self.cluster_bytes())
    }

    /// The other one.
    pub const fn other(self) -> Format {
        match self {
            Format::Raw => Format::Plain,
            Format::Plain => Format::Raw,
        }
    }

    /// Its number for the library.
    pub(crate) const fn number(self) -> u32 {
        match self {
            Format::Raw => calls::RAW,
            Format::Plain => calls::PLAIN,
        }
    }
}

impl fmt::Display for Format {
    /// `raw` or `plain`.
    fn fmt(&self, out: &mut fmt::Formatter<'_>) -> fmt::Result {
        out.write_str(match self {
            Format::Raw => "raw",
            Format::Plain => "plain",
        })
    }
}
