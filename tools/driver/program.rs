//! A program for qrcodegen 1.8.0, which names nothing of the port: it is compiled against the original and against the Rust
//! crate of the port, and must print the same. It uses every call that is in scope, much as the original's own demo does.
extern crate qrcodegen;
use qrcodegen::DataTooLong;
use qrcodegen::Mask;
use qrcodegen::QrCode;
use qrcodegen::QrCodeEcc;
use qrcodegen::QrSegment;
use qrcodegen::QrSegmentMode;
use qrcodegen::Version;

fn main() {
    do_basic_demo();
    do_variety_demo();
    do_segment_demo();
    do_mask_demo();
    do_refused_demo();
}

fn do_basic_demo() {
    let text: &'static str = "Hello, world!";
    let errcorlvl: QrCodeEcc = QrCodeEcc::Low;
    let qr: QrCode = QrCode::encode_text(text, errcorlvl).unwrap();
    print_qr(&qr);
}

fn do_variety_demo() {
    print_qr(&QrCode::encode_text("314159265358979323846264338327950288419716939937510", QrCodeEcc::Medium).unwrap());
    print_qr(&QrCode::encode_text("DOLLAR-AMOUNT:$39.87 PERCENTAGE:100.00% OPERATIONS:+-*/", QrCodeEcc::High).unwrap());
    print_qr(&QrCode::encode_text("こんにちwa、世界！ αβγδ", QrCodeEcc::Quartile).unwrap());
    print_qr(&QrCode::encode_text("", QrCodeEcc::Low).unwrap());
    print_qr(&QrCode::encode_binary(&[0, 255, 128, 7], QrCodeEcc::Low).unwrap());
}

fn do_segment_demo() {
    let silver0 = "THE SQUARE ROOT OF 2 IS 1.";
    let silver1 = "41421356237309504880168872420969807856967187537694807317667973799";
    let segs = vec![QrSegment::make_alphanumeric(silver0), QrSegment::make_numeric(silver1)];
    print_qr(&QrCode::encode_segments(&segs, QrCodeEcc::Low).unwrap());

    let mut segs: Vec<QrSegment> = [5u32, 300, 70_000].iter().map(|&n| QrSegment::make_eci(n)).collect();
    segs.extend(QrSegment::make_segments("Golden ratio φ = 1."));
    segs.push(QrSegment::make_bytes(b"click"));
    for seg in &segs {
        let mode: QrSegmentMode = seg.mode();
        println!("{:?} {}", mode, seg.num_chars());
    }
    assert!(segs[0] == segs[0].clone() && segs[0] != segs[1]);
    print_qr(&QrCode::encode_segments(&segs, QrCodeEcc::Medium).unwrap());
    println!("{} {}", QrSegment::is_numeric("0123"), QrSegment::is_numeric("0x"));
    println!("{} {}", QrSegment::is_alphanumeric("AC-42"), QrSegment::is_alphanumeric("ac"));
}

fn do_mask_demo() {
    let segs = QrSegment::make_segments("https://www.nayuki.io/");
    for mask in 0u8 .. 8 {
        let qr = QrCode::encode_segments_advanced(&segs, QrCodeEcc::High, Version::MIN, Version::MAX, Some(Mask::new(mask)), true).unwrap();
        assert_eq!(qr.mask(), Mask::new(mask));
        print_qr(&qr);
    }
    let qr = QrCode::encode_segments_advanced(&segs, QrCodeEcc::Low, Version::new(7), Version::new(9), None, false).unwrap();
    assert!(qr.version() > Version::new(6) && qr.error_correction_level() < QrCodeEcc::Medium);
    assert!(qr.clone() == qr);
    print_qr(&qr);
    print_qr(&QrCode::encode_codewords(Version::new(1), QrCodeEcc::High, &[64, 0, 1, 2, 3, 4, 5, 6, 7], None));
}

fn do_refused_demo() {
    let results: Vec<Result<QrCode,DataTooLong>> = vec![
        QrCode::encode_binary(&[7; 2954], QrCodeEcc::Low),
        QrCode::encode_segments_advanced(&[QrSegment::make_bytes(&[7; 256])], QrCodeEcc::Low, Version::new(1), Version::new(9), None, true),
    ];
    for result in results {
        match result {
            Ok(qr) => print_qr(&qr),
            Err(DataTooLong::SegmentTooLong) => println!("segment too long"),
            Err(DataTooLong::DataOverCapacity(datalen, maxcapacity)) => println!("{} of {}", datalen, maxcapacity),
        }
    }
    let error: Box<dyn std::error::Error> = Box::new(QrCode::encode_text(&"A".repeat(5000), QrCodeEcc::High).err().unwrap());
    println!("{}", error);
}

// Prints the given QrCode object to the console.
fn print_qr(qr: &QrCode) {
    println!("{} {:?} {}", qr.version().value(), qr.error_correction_level(), qr.mask().value());
    let border: i32 = 4;
    for y in -border .. qr.size() + border {
        for x in -border .. qr.size() + border {
            let c: char = if qr.get_module(x, y) { '█' } else { ' ' };
            print!("{0}{0}", c);
        }
        println!();
    }
    println!();
}
