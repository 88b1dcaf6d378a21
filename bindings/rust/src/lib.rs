//! QR labels drawn and read by Gatemurmur, a library in which every function is proved to meet its contract.
//!
//! The names are those of the crate qrcodegen 1.8.0, and so are the labels: a program that is written for it compiles
//! against this crate unchanged, within the scope. Left out are Kanji, `QrSegment::new`, `QrSegment::data` and
//! `BitBuffer`. Added are [`read`], the `try_` forms that answer a [`Refusal`], and [`raw`], the functions as they are.
//!
//! To have a program see this crate as `qrcodegen`, name it so where it is used:
//!
//! ```toml
//! [dependencies]
//! qrcodegen = { package = "gatemurmur", path = "bindings/rust" }
//! ```
//!
//! or, with plain rustc, from the repository's root:
//!
//! ```sh
//! rustc -O --edition 2021 --crate-type rlib --crate-name gatemurmur -o target/libgatemurmur.rlib bindings/rust/src/lib.rs \
//!     -L native=target/staticlib -l static=gatemurmur
//! rustc -O --edition 2021 -o target/program program.rs --extern qrcodegen=target/libgatemurmur.rlib
//! ```
//!
//! # Examples
//!
//! Simple operation, and the label read back:
//!
//! ```
//! use gatemurmur::{read, QrCode, QrCodeEcc, QrSegmentMode};
//!
//! let qr = QrCode::encode_text("CLICK 12 DB", QrCodeEcc::Medium).unwrap();
//! assert_eq!(qr.version().value(), 1);
//! assert_eq!(qr.size(), 21);
//! assert!(qr.get_module(0, 0)); // a finder's corner is dark
//! assert!(!qr.get_module(-1, 0)); // outside is light
//!
//! let label = read(qr.modules(), 21).unwrap();
//! assert_eq!(label.text, b"CLICK 12 DB");
//! assert_eq!(label.segments[0].mode(), QrSegmentMode::Alphanumeric);
//! assert_eq!(label.mask, qr.mask());
//! ```
//!
//! Manual operation:
//!
//! ```
//! use gatemurmur::{Mask, QrCode, QrCodeEcc, QrSegment, Version};
//!
//! let text: &str = "3141592653589793238462643383";
//! let segs = QrSegment::make_segments(text);
//! let qr = QrCode::encode_segments_advanced(&segs, QrCodeEcc::High,
//!     Version::new(5), Version::new(5), Some(Mask::new(2)), false).unwrap();
//! assert_eq!(qr.size(), 37);
//! assert_eq!(qr.mask(), Mask::new(2));
//! ```
//!
//! What does not fit is refused, by number and with its details:
//!
//! ```
//! use gatemurmur::{QrCode, QrCodeEcc, Version};
//!
//! let one = Version::MIN;
//! let refusal = QrCode::try_encode_binary(&[0; 18], QrCodeEcc::Low, one, one, None, false).err().unwrap();
//! assert_eq!((refusal.number, refusal.details), (7, [156, 152]));
//! println!("{}", refusal); // refusal 7: no version in the range fits: 156 bits are needed, the last version holds 152
//! ```

use std::convert::TryFrom;

pub mod raw;

use raw::Record;

/*---- QrCode functionality ----*/

/// A QR Code symbol: an immutable square grid of dark and light cells.
#[derive(Clone, PartialEq, Eq)]
pub struct QrCode {
    version: Version,
    size: i32,
    errorcorrectionlevel: QrCodeEcc,
    mask: Mask,
    // One byte a module, 0 light and 1 dark, row by row.
    modules: Vec<u8>,
}

impl QrCode {
    /*---- Static factory functions (high level) ----*/

    /// Returns a QR Code representing the given Unicode text string at the given error correction level.
    ///
    /// The smallest possible version is chosen; the level of the result may be higher than `ecl`, if that does not take
    /// a higher version. Returns `Err` if the data is too long to fit in any version at the given level.
    pub fn encode_text(text: &str, ecl: QrCodeEcc) -> Result<Self, DataTooLong> {
        too_long(QrCode::try_encode_text(text.as_bytes(), ecl, Version::MIN, Version::MAX, None, true))
    }

    /// Returns a QR Code representing the given binary data, always as one segment in byte mode.
    pub fn encode_binary(data: &[u8], ecl: QrCodeEcc) -> Result<Self, DataTooLong> {
        too_long(QrCode::try_encode_binary(data, ecl, Version::MIN, Version::MAX, None, true))
    }

    /*---- Static factory functions (mid level) ----*/

    /// Returns a QR Code representing the given segments at the given error correction level.
    ///
    /// Panics if there are more than 2,048 segments.
    pub fn encode_segments(segs: &[QrSegment], ecl: QrCodeEcc) -> Result<Self, DataTooLong> {
        QrCode::encode_segments_advanced(segs, ecl, Version::MIN, Version::MAX, None, true)
    }

    /// Returns a QR Code representing the given segments with the given encoding parameters.
    ///
    /// The smallest possible version within the given range is chosen. If `boostecl`, the level of the result may be
    /// higher than `ecl`, if that does not take a higher version. The mask is the one given, or `None` to choose the
    /// lowest of least penalty.
    ///
    /// Panics if `minversion` is above `maxversion` or there are more than 2,048 segments.
    pub fn encode_segments_advanced(
        segs: &[QrSegment],
        ecl: QrCodeEcc,
        minversion: Version,
        maxversion: Version,
        mask: Option<Mask>,
        boostecl: bool,
    ) -> Result<Self, DataTooLong> {
        too_long(QrCode::try_encode_segments(segs, ecl, minversion, maxversion, mask, boostecl))
    }

    /*---- Constructor (low level) ----*/

    /// Creates a new QR Code with the given version number, error correction level, data codeword bytes and mask.
    ///
    /// Panics if the version and level do not have as many data codewords.
    pub fn encode_codewords(ver: Version, ecl: QrCodeEcc, datacodewords: &[u8], msk: Option<Mask>) -> Self {
        QrCode::try_encode_codewords(ver, ecl, datacodewords, msk).unwrap_or_else(|e| panic!("{}", e))
    }

    /*---- The same, with every refusal as an answer ----*/

    /// The text entry with all parameters; any bytes are accepted.
    pub fn try_encode_text(
        text: &[u8],
        ecl: QrCodeEcc,
        minversion: Version,
        maxversion: Version,
        mask: Option<Mask>,
        boostecl: bool,
    ) -> Result<Self, Refusal> {
        drawn(maxversion, |grid, scratch| {
            raw::encode_text(text, ecl.ordinal(), minversion.0, maxversion.0, number(mask), boostecl, grid, scratch)
        })
    }

    /// The byte entry with all parameters.
    pub fn try_encode_binary(
        data: &[u8],
        ecl: QrCodeEcc,
        minversion: Version,
        maxversion: Version,
        mask: Option<Mask>,
        boostecl: bool,
    ) -> Result<Self, Refusal> {
        drawn(maxversion, |grid, scratch| {
            raw::encode_binary(data, ecl.ordinal(), minversion.0, maxversion.0, number(mask), boostecl, grid, scratch)
        })
    }

    /// The entry of segment lists.
    pub fn try_encode_segments(
        segs: &[QrSegment],
        ecl: QrCodeEcc,
        minversion: Version,
        maxversion: Version,
        mask: Option<Mask>,
        boostecl: bool,
    ) -> Result<Self, Refusal> {
        let (text, records) = joined(segs);
        drawn(maxversion, |grid, scratch| {
            raw::encode_segments(
                &text,
                &records,
                ecl.ordinal(),
                minversion.0,
                maxversion.0,
                number(mask),
                boostecl,
                grid,
                scratch,
            )
        })
    }

    /// The entry of data codewords.
    pub fn try_encode_codewords(
        ver: Version,
        ecl: QrCodeEcc,
        datacodewords: &[u8],
        msk: Option<Mask>,
    ) -> Result<Self, Refusal> {
        drawn(ver, |grid, scratch| {
            raw::encode_codewords(ver.0, ecl.ordinal(), datacodewords, number(msk), grid, scratch)
        })
    }

    /*---- Public methods ----*/

    /// Returns this QR Code's version, in the range [1, 40].
    pub fn version(&self) -> Version {
        self.version
    }

    /// Returns this QR Code's size, in the range [21, 177].
    pub fn size(&self) -> i32 {
        self.size
    }

    /// Returns this QR Code's error correction level.
    pub fn error_correction_level(&self) -> QrCodeEcc {
        self.errorcorrectionlevel
    }

    /// Returns this QR Code's mask, in the range [0, 7].
    pub fn mask(&self) -> Mask {
        self.mask
    }

    /// Returns the color of the module (pixel) at the given coordinates, which is `false` for light or `true` for dark.
    ///
    /// The top left corner has the coordinates (x=0, y=0). Out of bounds is light.
    pub fn get_module(&self, x: i32, y: i32) -> bool {
        raw::get_module(&self.modules, self.size as usize, x, y)
    }

    /// Returns the modules, one byte each, 0 light and 1 dark, row by row.
    pub fn modules(&self) -> &[u8] {
        &self.modules
    }
}

// Lends buffers that do for a version and for each below it, and makes a QrCode of the answer.
fn drawn(maxversion: Version, draw: impl FnOnce(&mut [u8], &mut [u8]) -> raw::Answer) -> Result<QrCode, Refusal> {
    let mut modules = vec![0; area(maxversion)];
    let mut scratch = vec![0; raw::SCRATCH];
    let answer = draw(&mut modules, &mut scratch);
    if answer.number != 0 {
        return Err(Refusal { number: answer.number, details: [answer.first, answer.second] });
    }
    let version = Version(answer.version);
    modules.truncate(area(version));
    Ok(QrCode {
        version,
        size: side(version) as i32,
        errorcorrectionlevel: QrCodeEcc::at(answer.level),
        mask: Mask(answer.mask),
        modules,
    })
}

fn side(version: Version) -> usize {
    usize::from(version.0) * 4 + 17
}

fn area(version: Version) -> usize {
    side(version) * side(version)
}

// The mask's number; 8 asks for the automatic choice.
fn number(mask: Option<Mask>) -> u8 {
    mask.map_or(raw::MASK_AUTO, Mask::value)
}

// Refusals 6 and 7 are the original's error; the original panics, or does not stop, where another is given.
fn too_long(result: Result<QrCode, Refusal>) -> Result<QrCode, DataTooLong> {
    result.map_err(|e| match e.number {
        6 => DataTooLong::SegmentTooLong,
        7 => DataTooLong::DataOverCapacity(e.details[0] as usize, e.details[1] as usize),
        _ => panic!("{}", e),
    })
}

/*---- The strict reader ----*/

/// What a grid shows.
#[derive(Clone, PartialEq, Eq, Debug)]
pub struct Label {
    pub version: Version,
    pub error_correction_level: QrCodeEcc,
    pub mask: Mask,
    /// The characters of all segments, joined.
    pub text: Vec<u8>,
    pub segments: Vec<QrSegment>,
}

/// Reads the label that a grid of the given size shows: one byte a module, 0 light and 1 dark, row by row.
///
/// A grid is accepted exactly if an encoding call draws it. Refused by 11 to 14.
pub fn read(grid: &[u8], size: usize) -> Result<Label, Refusal> {
    let mut text = vec![0; raw::TEXT];
    let mut records = vec![Record::default(); raw::RECORDS];
    let mut scratch = vec![0; raw::SCRATCH];
    let reading = raw::read(grid, size, &mut text, &mut records, &mut scratch);
    if reading.number != 0 {
        return Err(Refusal { number: reading.number, details: [reading.first, reading.second] });
    }
    text.truncate(reading.text as usize);
    records.truncate(reading.records as usize);
    Ok(Label {
        version: Version(reading.version),
        error_correction_level: QrCodeEcc::at(reading.level),
        mask: Mask(reading.mask),
        segments: records.iter().map(|r| QrSegment::of(r, &text)).collect(),
        text,
    })
}

/// Why there is no label: the refusal's number and its details (0 where it has none), `docs/SPECIFICATION.md`, section 4.1.
#[derive(Clone, Copy, PartialEq, Eq, Debug)]
pub struct Refusal {
    pub number: u32,
    pub details: [u64; 2],
}

impl std::error::Error for Refusal {}

impl std::fmt::Display for Refusal {
    fn fmt(&self, f: &mut std::fmt::Formatter) -> std::fmt::Result {
        let [a, b] = self.details;
        write!(f, "refusal {}: ", self.number)?;
        match self.number {
            1 => write!(f, "level {} is above 3", a),
            2 => write!(f, "versions {} to {} are no range within 1 to 40", a, b),
            3 => write!(f, "mask {} is above 8", a),
            4 => write!(f, "{} records are more than 2048", a),
            5 => write!(f, "record {} is ill-made", a),
            6 => write!(f, "no version in the range fits: a segment is too long for its count field"),
            7 => write!(f, "no version in the range fits: {} bits are needed, the last version holds {}", a, b),
            8 => write!(f, "the grid is shorter than {} bytes", a),
            9 => write!(f, "the scratch is shorter than {} bytes", a),
            10 => write!(f, "the version and level have {} data codewords", a),
            11 => write!(f, "{} is the size of no version", a),
            12 => write!(f, "the grid has not {} bytes", a),
            13 => write!(f, "the byte at place {} is above 1", a),
            14 => write!(f, "no label has this grid"),
            15 => write!(f, "the text buffer is shorter than {} bytes", a),
            16 => write!(f, "the record buffer holds fewer than {} records", a),
            _ => write!(f, "details {} and {}", a, b),
        }
    }
}

/*---- QrCodeEcc functionality ----*/

/// The error correction level in a QR Code symbol.
#[derive(Clone, Copy, PartialEq, Eq, PartialOrd, Ord, Debug)]
pub enum QrCodeEcc {
    /// The QR Code can tolerate about  7% erroneous codewords.
    Low,
    /// The QR Code can tolerate about 15% erroneous codewords.
    Medium,
    /// The QR Code can tolerate about 25% erroneous codewords.
    Quartile,
    /// The QR Code can tolerate about 30% erroneous codewords.
    High,
}

impl QrCodeEcc {
    // Returns an unsigned 2-bit integer (in the range 0 to 3).
    fn ordinal(self) -> u8 {
        self as u8
    }

    // The level of an answer's number, which is in the range 0 to 3.
    fn at(ordinal: u8) -> Self {
        [QrCodeEcc::Low, QrCodeEcc::Medium, QrCodeEcc::Quartile, QrCodeEcc::High][usize::from(ordinal)]
    }
}

/*---- QrSegment functionality ----*/

/// A segment of character/binary/control data in a QR Code symbol.
#[derive(Clone, PartialEq, Eq, Debug)]
pub struct QrSegment {
    mode: QrSegmentMode,
    // The characters; none in ECI mode.
    text: Vec<u8>,
    // The ECI number; 0 in the other modes.
    assign: u32,
}

impl QrSegment {
    /*---- Static factory functions (mid level) ----*/

    /// Returns a segment representing the given binary data encoded in byte mode.
    pub fn make_bytes(data: &[u8]) -> Self {
        QrSegment { mode: QrSegmentMode::Byte, text: data.to_vec(), assign: 0 }
    }

    /// Returns a segment representing the given string of decimal digits encoded in numeric mode.
    ///
    /// Panics if the string contains non-digit characters.
    pub fn make_numeric(text: &str) -> Self {
        assert!(QrSegment::is_numeric(text), "String contains non-numeric characters");
        QrSegment { mode: QrSegmentMode::Numeric, text: text.as_bytes().to_vec(), assign: 0 }
    }

    /// Returns a segment representing the given text string encoded in alphanumeric mode.
    ///
    /// Panics if the string contains non-encodable characters.
    pub fn make_alphanumeric(text: &str) -> Self {
        assert!(QrSegment::is_alphanumeric(text), "String contains unencodable characters in alphanumeric mode");
        QrSegment { mode: QrSegmentMode::Alphanumeric, text: text.as_bytes().to_vec(), assign: 0 }
    }

    /// Returns a list of zero or more segments to represent the given Unicode text string.
    pub fn make_segments(text: &str) -> Vec<Self> {
        if text.is_empty() {
            vec![]
        } else if QrSegment::is_numeric(text) {
            vec![QrSegment::make_numeric(text)]
        } else if QrSegment::is_alphanumeric(text) {
            vec![QrSegment::make_alphanumeric(text)]
        } else {
            vec![QrSegment::make_bytes(text.as_bytes())]
        }
    }

    /// Returns a segment representing an Extended Channel Interpretation (ECI) designator.
    ///
    /// Panics if the number is 1,000,000 or above.
    pub fn make_eci(assignval: u32) -> Self {
        assert!(assignval < 1_000_000, "ECI assignment value out of range");
        QrSegment { mode: QrSegmentMode::Eci, text: vec![], assign: assignval }
    }

    /*---- Instance field getters ----*/

    /// Returns the mode indicator of this segment.
    pub fn mode(&self) -> QrSegmentMode {
        self.mode
    }

    /// Returns the character count field of this segment.
    pub fn num_chars(&self) -> usize {
        self.text.len()
    }

    /// Returns the characters of this segment; none in ECI mode.
    pub fn chars(&self) -> &[u8] {
        &self.text
    }

    /// Returns the ECI number of this segment, in ECI mode.
    pub fn eci(&self) -> Option<u32> {
        (self.mode == QrSegmentMode::Eci).then_some(self.assign)
    }

    /*---- Other static functions ----*/

    /// Tests whether the given string can be encoded as a segment in numeric mode.
    pub fn is_numeric(text: &str) -> bool {
        text.bytes().all(|b| b.is_ascii_digit())
    }

    /// Tests whether the given string can be encoded as a segment in alphanumeric mode.
    pub fn is_alphanumeric(text: &str) -> bool {
        text.bytes().all(|b| ALPHANUMERIC_CHARSET.contains(&b))
    }

    // The segment that a record over a text stands for.
    fn of(record: &Record, text: &[u8]) -> Self {
        let modes = [QrSegmentMode::Numeric, QrSegmentMode::Alphanumeric, QrSegmentMode::Byte, QrSegmentMode::Eci];
        QrSegment {
            mode: modes[record.kind as usize],
            text: text[record.start as usize..][..record.length as usize].to_vec(),
            assign: record.assign as u32,
        }
    }
}

// The characters of all segments, and the records over them.
fn joined(segs: &[QrSegment]) -> (Vec<u8>, Vec<Record>) {
    let mut text = Vec::new();
    let records = segs
        .iter()
        .map(|seg| {
            let start = if seg.mode == QrSegmentMode::Eci { 0 } else { text.len() as u64 };
            text.extend_from_slice(&seg.text);
            Record { kind: seg.mode as u64, start, length: seg.text.len() as u64, assign: u64::from(seg.assign) }
        })
        .collect();
    (text, records)
}

// The set of all legal characters in alphanumeric mode.
static ALPHANUMERIC_CHARSET: &[u8] = b"0123456789ABCDEFGHIJKLMNOPQRSTUVWXYZ $%*+-./:";

/// Describes how a segment's data bits are interpreted.
#[derive(Clone, Copy, PartialEq, Eq, Debug)]
pub enum QrSegmentMode {
    Numeric,
    Alphanumeric,
    Byte,
    Eci,
}

/*---- Miscellaneous values ----*/

/// The error type when the supplied data does not fit any QR Code version.
#[derive(Debug, Clone)]
pub enum DataTooLong {
    SegmentTooLong,
    DataOverCapacity(usize, usize),
}

impl std::error::Error for DataTooLong {}

impl std::fmt::Display for DataTooLong {
    fn fmt(&self, f: &mut std::fmt::Formatter) -> std::fmt::Result {
        match *self {
            Self::SegmentTooLong => write!(f, "Segment too long"),
            Self::DataOverCapacity(datalen, maxcapacity) => {
                write!(f, "Data length = {} bits, Max capacity = {} bits", datalen, maxcapacity)
            }
        }
    }
}

/// A number between 1 and 40 (inclusive).
#[derive(Copy, Clone, PartialEq, Eq, PartialOrd, Ord, Debug)]
pub struct Version(u8);

impl Version {
    /// The minimum version number supported in the QR Code Model 2 standard.
    pub const MIN: Version = Version(1);

    /// The maximum version number supported in the QR Code Model 2 standard.
    pub const MAX: Version = Version(40);

    /// Creates a version object from the given number.
    ///
    /// Panics if the number is outside the range [1, 40]; `Version::try_from` answers instead.
    pub fn new(ver: u8) -> Self {
        Version::try_from(ver).expect("Version number out of range")
    }

    /// Returns the value, which is in the range [1, 40].
    pub fn value(self) -> u8 {
        self.0
    }
}

impl TryFrom<u8> for Version {
    type Error = Refusal;

    fn try_from(ver: u8) -> Result<Self, Refusal> {
        if (Version::MIN.0..=Version::MAX.0).contains(&ver) {
            Ok(Version(ver))
        } else {
            Err(Refusal { number: 2, details: [u64::from(ver); 2] })
        }
    }
}

/// A number between 0 and 7 (inclusive).
#[derive(Copy, Clone, PartialEq, Eq, PartialOrd, Ord, Debug)]
pub struct Mask(u8);

impl Mask {
    /// Creates a mask object from the given number.
    ///
    /// Panics if the number is outside the range [0, 7].
    pub fn new(mask: u8) -> Self {
        assert!(mask <= 7, "Mask value out of range");
        Self(mask)
    }

    /// Returns the value, which is in the range [0, 7].
    pub fn value(self) -> u8 {
        self.0
    }
}
