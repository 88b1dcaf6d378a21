// Makes crates/replay_segments/stdin: payloads, total bits and data codewords as the original source makes them.
// Private functions are reached by compiling this file behind the original's own text, in the same module.
// Run at the repository's root, QRCODEGEN being the path of the original's lib.rs:
//   cat "${QRCODEGEN:-../shared/docs/src/src/lib.rs}" tools/vectors/segments.rs | rustc -O --edition 2021 -A warnings -o target/segments_vectors -
//   target/segments_vectors > crates/replay_segments/stdin
// A case is a line of 24 bytes, a letter, a digit and three numbers of six digits, and what follows it:
//   P kind, assign, length of the text, count of bits: the text on a line, then the payload's bits as 0 and 1 on a line.
//   L level, version, length of the text, count of records: the text on a line, then
//     R kind, start, length, assign for each record, then
//     E 1, total bits, count of data codewords that follow, 0; or E 0 where a length does not fit its field, then
//     the data codewords in hexadecimal digits on a line; an empty line where the records do not fit,
//     or where the codewords are many: above version 10 they stand at level 3 only.
// Data codewords are drawn by encode_codewords into the modules that encode_segments_advanced draws of the segments.


struct Random(u64);

impl Random {
	fn next(&mut self, n: u64) -> u64 {
		self.0 = (self.0 * 1103515245 + 12345) % 2147483648;
		self.0 / 65536 % n
	}

	fn text(&mut self, kind: usize, n: usize) -> String {
		let alphabet: Vec<char> = ALPHANUMERIC_CHARSET.chars().collect();
		(0 .. n).map(|_| match kind {
			0 => alphabet[self.next(10) as usize],
			1 => alphabet[self.next(45) as usize],
			_ => char::from(33 + self.next(94) as u8),
		}).collect()
	}
}

fn segment(kind: usize, text: &str, assign: u32) -> QrSegment {
	match kind {
		0 => QrSegment::make_numeric(text),
		1 => QrSegment::make_alphanumeric(text),
		2 => QrSegment::make_bytes(text.as_bytes()),
		_ => QrSegment::make_eci(assign),
	}
}

fn payload(kind: usize, text: &str, assign: u32) {
	let seg = segment(kind, text, assign);
	println!("P{} {:06} {:06} {:06}", kind, assign, text.len(), seg.data().len());
	println!("{}", text);
	println!("{}", seg.data().iter().map(|&b| if b { '1' } else { '0' }).collect::<String>());
}

// The second part of encode_segments_advanced up to its call of encode_codewords.
fn words(segs: &[QrSegment], version: Version, ecl: QrCodeEcc) -> Vec<u8> {
	let capacity = QrCode::get_num_data_codewords(version, ecl) * 8;
	let mut bb = BitBuffer(Vec::new());
	for seg in segs {
		bb.append_bits(seg.mode.mode_bits(), 4);
		bb.append_bits(seg.numchars as u32, seg.mode.num_char_count_bits(version));
		bb.0.extend_from_slice(&seg.data);
	}
	bb.append_bits(0, std::cmp::min(4, capacity - bb.0.len()) as u8);
	bb.append_bits(0, (bb.0.len().wrapping_neg() & 7) as u8);
	for &pad in [0xEC, 0x11].iter().cycle() {
		if bb.0.len() >= capacity {
			break;
		}
		bb.append_bits(pad, 8);
	}
	let mut result = vec![0u8; bb.0.len() / 8];
	for (i, &bit) in bb.0.iter().enumerate() {
		result[i >> 3] |= u8::from(bit) << (7 - (i & 7));
	}
	result
}

fn same(a: &QrCode, b: &QrCode) -> bool {
	(0 .. a.size()).all(|y| (0 .. a.size()).all(|x| a.get_module(x, y) == b.get_module(x, y)))
}

fn list(version: u8, level: usize, parts: &[(usize, String, u32)]) {
	let ecl = [QrCodeEcc::Low, QrCodeEcc::Medium, QrCodeEcc::Quartile, QrCodeEcc::High][level];
	let v = Version::new(version);
	let text: String = parts.iter().map(|p| p.1.as_str()).collect();
	let segs: Vec<QrSegment> = parts.iter().map(|p| segment(p.0, &p.1, p.2)).collect();
	println!("L{} {:06} {:06} {:06}", level, version, text.len(), parts.len());
	println!("{}", text);
	let mut start = 0;
	for (kind, chars, assign) in parts {
		println!("R{} {:06} {:06} {:06}", kind, if *kind == 3 { 0 } else { start }, chars.len(), assign);
		start += chars.len();
	}
	let total = QrSegment::get_total_bits(&segs, v);
	let n = QrCode::get_num_data_codewords(v, ecl);
	match total {
		None => println!("E0 {:06} {:06} {:06}\n", 0, 0, 0),
		Some(t) if t > n * 8 => println!("E1 {:06} {:06} {:06}\n", t, 0, 0),
		Some(t) => {
			let data = words(&segs, v, ecl);
			let mask = Mask::new(0);
			let whole = QrCode::encode_segments_advanced(&segs, ecl, v, v, Some(mask), false).ok().unwrap();
			assert!(same(&whole, &QrCode::encode_codewords(v, ecl, &data, Some(mask))));
			let shown = if version <= 10 || level == 3 { &data[..] } else { &[] };
			println!("E1 {:06} {:06} {:06}", t, shown.len(), 0);
			println!("{}", shown.iter().map(|b| format!("{:02x}", b)).collect::<String>());
		}
	}
}

fn main() {
	let mut r = Random(1);
	for kind in 0 .. 3 {
		for n in (0 ..= 40).chain([99, 100, 101, 300]) {
			let text = r.text(kind, n);
			payload(kind, &text, 0);
		}
	}
	payload(0, "01234567", 0);
	payload(1, "AC-42", 0);
	payload(1, ALPHANUMERIC_CHARSET, 0);
	for assign in [0, 1, 26, 127, 128, 129, 1000, 16383, 16384, 16385, 99999, 999998, 999999] {
		payload(3, "", assign);
	}
	for version in [1, 9, 10, 26, 27, 40] {
		for level in 0 .. 4 {
			list(version, level, &[]);
			list(version, level, &[(2, String::new(), 0)]);
			list(version, level, &[(0, "01234567".to_string(), 0)]);
			list(version, level, &[(3, String::new(), 26), (1, "AC-42".to_string(), 0), (2, "ab".to_string(), 0)]);
		}
		for n in [1, 3, 9] {
			let parts: Vec<(usize, String, u32)> = (0 .. n).map(|_| {
				let kind = r.next(4) as usize;
				let len = if kind == 3 { 0 } else { r.next(40) as usize };
				(kind, r.text(kind, len), if kind == 3 { [5, 200, 20000][r.next(3) as usize] } else { 0 })
			}).collect();
			list(version, 1, &parts);
		}
		for kind in 0 .. 3 {
			for n in [41, 42, 255, 256, 511, 512, 1023, 1024] {
				let text = r.text(kind, n);
				list(version, 0, &[(kind, text, 0)]);
			}
		}
	}
	list(1, 1, &[(0, "01234567".to_string(), 0)]);
	list(1, 0, &[(2, "a".repeat(17), 0)]);
	list(1, 0, &[(2, "a".repeat(18), 0)]);
}
