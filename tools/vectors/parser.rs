// Makes crates/replay_parser/stdin: data codewords as the original source makes them, and what a strict parser has to say of them, one case a line.
// Its data codewords are local to encode_segments_advanced; `words` below makes them by the same lines, and a case is only taken
// where encode_codewords draws of them the very modules that encode_segments_advanced draws of the segments.
// Run at the repository's root, QRCODEGEN being the path of the original's lib.rs:
//   cat "${QRCODEGEN:-../shared/docs/src/src/lib.rs}" tools/vectors/parser.rs | rustc -O --edition 2021 -A warnings -o target/parser -
//   target/parser > crates/replay_parser/stdin
// A line: four hexadecimal digits, the number of bytes that follow, and those bytes, two digits each:
//   version (1 byte), number of data codewords (2), number of records (2), number of characters (2), the data codewords,
//   the records (kind 1 byte, start 2, length 2, assign 3), the characters.
//   Where the codewords are to be refused, the number of records is FFFF, the number of characters is the bit at which the
//   first faulty field begins, and neither records nor characters follow.

struct Record {
	kind: u8,
	start: usize,
	length: usize,
	assign: u32,
}

struct List {
	records: Vec<Record>,
	text: Vec<u8>,
	segs: Vec<QrSegment>,
}

impl List {
	fn new() -> Self {
		List { records: Vec::new(), text: Vec::new(), segs: Vec::new() }
	}

	fn chars(mut self, kind: u8, chars: &[u8]) -> Self {
		let text = || std::str::from_utf8(chars).unwrap();
		self.segs.push(match kind {
			0 => QrSegment::make_numeric(text()),
			1 => QrSegment::make_alphanumeric(text()),
			_ => QrSegment::make_bytes(chars),
		});
		self.records.push(Record { kind: kind, start: self.text.len(), length: chars.len(), assign: 0 });
		self.text.extend_from_slice(chars);
		self
	}

	fn eci(mut self, assign: u32) -> Self {
		self.segs.push(QrSegment::make_eci(assign));
		self.records.push(Record { kind: 3, start: 0, length: 0, assign: assign });
		self
	}
}

fn level(l: usize) -> QrCodeEcc {
	[QrCodeEcc::Low, QrCodeEcc::Medium, QrCodeEcc::Quartile, QrCodeEcc::High][l]
}

// The data codewords of segments that fit.
fn words(segs: &[QrSegment], version: Version, ecl: QrCodeEcc) -> Vec<u8> {
	let mut bb = BitBuffer(Vec::new());
	for seg in segs {
		bb.append_bits(seg.mode.mode_bits(), 4);
		bb.append_bits(u32::try_from(seg.numchars).unwrap(), seg.mode.num_char_count_bits(version));
		bb.0.extend_from_slice(&seg.data);
	}
	let capacity = QrCode::get_num_data_codewords(version, ecl) * 8;
	let zeros = std::cmp::min(4, capacity - bb.0.len());
	bb.append_bits(0, zeros as u8);
	let zeros = bb.0.len().wrapping_neg() & 7;
	bb.append_bits(0, zeros as u8);
	for &pad in [0xEC, 0x11].iter().cycle() {
		if bb.0.len() >= capacity {
			break;
		}
		bb.append_bits(pad, 8);
	}
	packed(&bb)
}

fn packed(bb: &BitBuffer) -> Vec<u8> {
	let mut data = vec![0u8; bb.0.len() / 8];
	for (i, &bit) in bb.0.iter().enumerate() {
		data[i >> 3] |= u8::from(bit) << (7 - (i & 7));
	}
	data
}

fn print_line(bytes: &[u8]) {
	print!("{:04X}", bytes.len());
	for b in bytes {
		print!("{:02X}", b);
	}
	println!();
}

fn pair(n: usize) -> [u8; 2] {
	[(n / 256) as u8, (n % 256) as u8]
}

// A list that is read back, where it fits; whether it does.
fn reads(ver: u8, l: usize, list: &List) -> bool {
	let version = Version::new(ver);
	let drawn = QrCode::encode_segments_advanced(&list.segs, level(l), version, version, Some(Mask::new(0)), false);
	let Ok(drawn) = drawn else { return false; };
	let data = words(&list.segs, version, level(l));
	assert!(QrCode::encode_codewords(version, level(l), &data, Some(Mask::new(0))).modules == drawn.modules);
	let mut line = vec![ver];
	line.extend(pair(data.len()));
	line.extend(pair(list.records.len()));
	line.extend(pair(list.text.len()));
	line.extend(data);
	for r in &list.records {
		line.push(r.kind);
		line.extend(pair(r.start));
		line.extend(pair(r.length));
		line.push((r.assign >> 16) as u8);
		line.extend(pair((r.assign & 0xFFFF) as usize));
	}
	line.extend(&list.text);
	print_line(&line);
	true
}

// Codewords that are refused, at a bit.
fn refused(ver: u8, data: &[u8], bit: usize) {
	let mut line = vec![ver];
	line.extend(pair(data.len()));
	line.extend(pair(0xFFFF));
	line.extend(pair(bit));
	line.extend(data);
	print_line(&line);
}

// Version 1, Low: these fields, and zero bits after them.
fn fields(parts: &[(u32, u8)]) -> Vec<u8> {
	let mut bb = BitBuffer(Vec::new());
	for &(val, len) in parts {
		bb.append_bits(val, len);
	}
	while bb.0.len() < 152 {
		bb.0.push(false);
	}
	packed(&bb)
}

fn refusals() {
	refused(1, &fields(&[(3, 4)]), 0); // an unknown mode
	refused(1, &fields(&[(1, 4), (3, 10), (1000, 10)]), 14); // a group of three digits that is 1,000
	refused(1, &fields(&[(1, 4), (5, 10), (999, 10), (100, 7)]), 24); // a group of two digits that is 100
	refused(1, &fields(&[(1, 4), (1, 10), (10, 4)]), 14); // a digit that is 10
	refused(1, &fields(&[(2, 4), (2, 9), (2025, 11)]), 13); // a pair that is 2,025
	refused(1, &fields(&[(2, 4), (3, 9), (2024, 11), (45, 6)]), 24); // a character that is 45
	refused(1, &fields(&[(7, 4), (0x8005, 16)]), 4); // 5 in two bytes
	refused(1, &fields(&[(7, 4), (0x807F, 16)]), 4); // 127 in two bytes
	refused(1, &fields(&[(7, 4), (0xC03FFF, 24)]), 4); // 16,383 in three bytes
	refused(1, &fields(&[(7, 4), (0xC00000 + 1_000_000, 24)]), 4); // 1,000,000
	refused(1, &fields(&[(7, 4), (0xE0, 8)]), 4); // an ECI number that begins 111
	refused(1, &fields(&[(4, 4), (200, 8)]), 148); // 200 bytes: the 18th is cut short
	let bytes = [(4, 4), (17, 8)].into_iter().chain((0 .. 17).map(|i| (i, 8))).chain([(4, 4)]);
	refused(1, &fields(&bytes.collect::<Vec<_>>()), 152); // a count that is cut short
	refused(1, &fields(&[(7, 4), (5, 8)]), 16); // no pad bytes
	let m = level(1);
	let digits = [QrSegment::make_numeric("01234567")];
	for (place, bit) in [(5, 45), (6, 48), (7, 56), (15, 120)] {
		let mut data = words(&digits, Version::new(1), m);
		data[place] ^= 1; // the fill up to a byte, and a pad byte
		refused(1, &data, bit);
	}
	let mut data = words(&[QrSegment::make_numeric(&"7".repeat(41))], Version::new(1), level(0));
	data[18] ^= 1; // the terminator of one bit
	refused(1, &data, 151);
}

fn next(x: &mut u64, n: u64) -> u64 {
	*x = (*x * 1103515245 + 12345) % 2147483648;
	*x / 65536 % n
}

fn random(x: &mut u64) -> List {
	let mut list = List::new();
	for _ in 0 .. next(x, 5) {
		let width = 1 + next(x, 7);
		let n = next(x, 1 << width);
		let kind = next(x, 4) as u8;
		let set: Vec<u8> = match kind {
			0 => b"0123456789".to_vec(),
			1 => b"0123456789ABCDEFGHIJKLMNOPQRSTUVWXYZ $%*+-./:".to_vec(),
			_ => (0 ..= 255).collect(),
		};
		let limit = [128, 16_384, 32_768][next(x, 3) as usize];
		list = match kind {
			3 => list.eci((next(x, limit) * [1, 30][next(x, 2) as usize]) as u32),
			_ => {
				let chars: Vec<u8> = (0 .. n).map(|_| set[next(x, set.len() as u64) as usize]).collect();
				list.chars(kind, &chars)
			},
		};
	}
	list
}

fn main() {
	let fixed = [
		(1, 1, List::new().chars(0, b"01234567")),
		(1, 0, List::new().chars(1, b"AC-42")),
		(1, 0, List::new().chars(0, &[b'7'; 41])),
		(1, 0, List::new().chars(2, &[200; 17])),
		(1, 3, List::new()),
		(10, 0, List::new().chars(2, &[65; 256])),
		(40, 0, List::new().chars(2, &[129; 2953])),
		(40, 0, List::new().chars(0, &[b'9'; 7089])),
		(9, 0, (0 .. 154).fold(List::new(), |l, _| l.chars(2, b""))),
		(2, 0, [0, 127, 128, 16_383, 16_384, 999_999].iter().fold(List::new(), |l, &n| l.eci(n))),
		(3, 2, List::new().chars(0, b"").chars(1, b"").eci(26).chars(2, b"").chars(1, b"Z").chars(0, b"12")),
	];
	for (ver, l, list) in &fixed {
		assert!(reads(*ver, *l, list));
	}
	refusals();
	let mut x = 2026;
	let mut taken = 0;
	while taken < 150 {
		let list = random(&mut x);
		let l = next(&mut x, 4) as usize;
		let mut ver = 1 + next(&mut x, 12) as u8 * next(&mut x, 4) as u8;
		while ver <= 40 && !reads(ver, l, &list) {
			ver += 1;
		}
		taken += 1;
	}
}
