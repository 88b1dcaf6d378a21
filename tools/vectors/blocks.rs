// Makes crates/replay_blocks/stdin: all codewords as the original source makes them, one case a line.
// add_ecc_and_interleave is private there, so this file is compiled behind the original's own text, in the same module.
// Run at the repository's root, QRCODEGEN being the path of the original's lib.rs:
//   cat "${QRCODEGEN:-../shared/docs/src/src/lib.rs}" tools/vectors/blocks.rs | rustc -O --edition 2021 -A warnings -o target/blocks -
//   target/blocks > crates/replay_blocks/stdin
// The data codewords of a version and a level are made on both sides by the rule of `data` below.
// A line: a kind, the version, the level, and in hexadecimal digits
//   F  all codewords
//   D  a digest of the data bytes, as they stand interleaved, and one of the check bytes (see `digest` below)
// There is a line D for every version and level, and a line F for those of `FULL`.

const FULL: [(u8, usize); 11] = [
	(1, 0), (1, 1), (1, 2), (1, 3), (2, 1), (3, 2), (4, 3), (5, 2), (7, 2), (8, 3), (10, 0),
];

fn level(l: usize) -> QrCodeEcc {
	[QrCodeEcc::Low, QrCodeEcc::Medium, QrCodeEcc::Quartile, QrCodeEcc::High][l]
}

fn data(ver: u8, l: usize, n: usize) -> Vec<u8> {
	let mut x = u64::from(ver) * 4 + l as u64;
	(0 .. n).map(|_| {
		x = (x * 1103515245 + 12345) % 2147483648;
		(x / 65536 % 256) as u8
	}).collect()
}

fn digest(bytes: &[u8]) -> u64 {
	bytes.iter().fold(0, |h, &b| (h * 16777619 + u64::from(b) + 1) % 4294967291)
}

fn words(ver: u8, l: usize) -> (usize, Vec<u8>) {
	let version = Version::new(ver);
	let n = QrCode::get_num_data_codewords(version, level(l));
	let code = QrCode {
		version: version,
		size: i32::from(ver) * 4 + 17,
		mask: Mask::new(0),
		errorcorrectionlevel: level(l),
		modules: Vec::new(),
		isfunction: Vec::new(),
	};
	(n, code.add_ecc_and_interleave(&data(ver, l, n)))
}

fn main() {
	for (ver, l) in FULL {
		print!("F {:02} {} ", ver, l);
		for b in words(ver, l).1 {
			print!("{:02x}", b);
		}
		println!();
	}
	for ver in 1 ..= 40 {
		for l in 0 .. 4 {
			let (n, all) = words(ver, l);
			println!("D {:02} {} {:08x}{:08x}", ver, l, digest(&all[.. n]), digest(&all[n ..]));
		}
	}
}
