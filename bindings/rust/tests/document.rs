//! Document 01's examples through the crate, and what only the crate adds.
use gatemurmur::{raw, read, DataTooLong, Mask, QrCode, QrCodeEcc, QrSegment, QrSegmentMode, Refusal, Version};

fn range(first: u8, last: u8) -> (Version, Version) {
    (Version::new(first), Version::new(last))
}

fn details(segs: &[QrSegment], first: u8, last: u8) -> (usize, usize) {
    let (first, last) = range(first, last);
    match QrCode::encode_segments_advanced(segs, QrCodeEcc::Low, first, last, None, false) {
        Err(DataTooLong::DataOverCapacity(bits, capacity)) => (bits, capacity),
        Err(DataTooLong::SegmentTooLong) => (0, 0),
        Ok(qr) => (usize::from(qr.version().value()), usize::MAX),
    }
}

#[test]
fn boundaries() {
    assert_eq!(details(&QrSegment::make_segments(&"7".repeat(41)), 1, 1), (1, usize::MAX));
    assert_eq!(details(&QrSegment::make_segments(&"7".repeat(42)), 1, 1), (154, 152));
    assert_eq!(details(&[QrSegment::make_bytes(&[0; 18])], 1, 1), (156, 152));
    assert_eq!(details(&[QrSegment::make_bytes(&[0; 255])], 1, 9), (2052, 1856));
    assert_eq!(details(&[QrSegment::make_bytes(&[0; 256])], 1, 9), (0, 0));
    assert_eq!(details(&[QrSegment::make_bytes(&[0; 256])], 1, 40), (10, usize::MAX));
    assert_eq!(details(&[QrSegment::make_bytes(&[0; 2954])], 1, 40), (23652, 23648));
    let empty = vec![QrSegment::make_bytes(&[]); 154];
    assert_eq!(details(&empty, 1, 40), (9, usize::MAX));
    assert_eq!(details(&empty, 10, 10), (3080, 2192));
}

#[test]
fn published_example() {
    let data = [0x10, 0x20, 0x0C, 0x56, 0x61, 0x80, 0xEC, 0x11, 0xEC, 0x11, 0xEC, 0x11, 0xEC, 0x11, 0xEC, 0x11];
    let words = QrCode::encode_codewords(Version::new(1), QrCodeEcc::Medium, &data, Some(Mask::new(2)));
    let (first, last) = range(1, 1);
    let segs = QrSegment::make_segments("01234567");
    let text = QrCode::encode_segments_advanced(&segs, QrCodeEcc::Medium, first, last, Some(Mask::new(2)), false);
    assert!(text.ok() == Some(words));
}

#[test]
fn read_back() {
    let segs = [
        QrSegment::make_eci(26),
        QrSegment::make_alphanumeric("AC-42"),
        QrSegment::make_numeric(""),
        QrSegment::make_bytes(b"dB"),
    ];
    let qr = QrCode::encode_segments(&segs, QrCodeEcc::Quartile).unwrap();
    let label = read(qr.modules(), qr.size() as usize).unwrap();
    assert_eq!(label.segments, segs);
    assert_eq!(label.text, b"AC-42dB");
    assert_eq!(label.segments[0].eci(), Some(26));
    assert_eq!(label.segments[1].mode(), QrSegmentMode::Alphanumeric);
    let mut grid = qr.modules().to_vec();
    grid[200] ^= 1;
    assert_eq!(read(&grid, qr.size() as usize), Err(Refusal { number: 14, details: [0, 0] }));
    grid[7] = 2;
    assert_eq!(read(&grid, qr.size() as usize), Err(Refusal { number: 13, details: [7, 0] }));
    assert_eq!(read(&grid, 22), Err(Refusal { number: 11, details: [22, 0] }));
}

#[test]
fn refusals() {
    let (four, five) = range(4, 5);
    let refused = QrCode::try_encode_text(b"LP", QrCodeEcc::Low, five, four, None, true).err().unwrap();
    assert_eq!((refused.number, refused.details), (2, [5, 4]));
    let refused = QrCode::try_encode_codewords(four, QrCodeEcc::Low, &[0; 18], None).err().unwrap();
    assert_eq!(refused.to_string(), "refusal 10: the version and level have 80 data codewords");
    let many = vec![QrSegment::make_bytes(&[]); 2049];
    let refused = QrCode::try_encode_segments(&many, QrCodeEcc::Low, four, five, None, true).err().unwrap();
    assert_eq!((refused.number, refused.details), (4, [2049, 0]));
    let (mut grid, mut scratch) = (vec![9; 440], vec![9; raw::SCRATCH]);
    let answer = raw::encode_text(b"LP", 0, 1, 1, 8, false, &mut grid, &mut scratch);
    assert_eq!((answer.number, answer.first), (8, 441));
    assert!(grid.iter().chain(&scratch).all(|&b| b == 9));
    assert_eq!(Version::try_from(41).err().unwrap().number, 2);
}
