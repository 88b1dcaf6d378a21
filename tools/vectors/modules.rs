// Makes crates/replay_modules/stdin: whole grids as the original source draws them, one case a line.
// draw_codewords and its like are private there, so this file is compiled behind the original's own text, in the same module.
// Run at the repository's root, QRCODEGEN being the path of the original's lib.rs:
//   cat "${QRCODEGEN:-../shared/docs/src/src/lib.rs}" tools/vectors/modules.rs | rustc -O --edition 2021 -A warnings -o target/modules -
//   target/modules > crates/replay_modules/stdin
// All codewords of a case are made on both sides by the rule of `words` below.
// A line: a kind, the version, the level, the mask, and
//   F  every module, row by row, 0 light and 1 dark
//   D  a digest of the modules, in eight hexadecimal digits (see `digest` below)
// There is a line D for every version, level and mask, and a line F for those of `FULL`: for each number of alignment
// positions the lowest version that has it, and versions 32, whose step is no formula's, and 40.

const FULL: [(u8, usize, u8); 9] = [
	(1, 0, 0), (2, 1, 1), (7, 2, 2), (14, 3, 3), (21, 0, 4), (28, 1, 5), (32, 2, 6), (35, 3, 7), (40, 0, 3),
];

fn level(l: usize) -> QrCodeEcc {
	[QrCodeEcc::Low, QrCodeEcc::Medium, QrCodeEcc::Quartile, QrCodeEcc::High][l]
}

fn words(ver: u8, l: usize, m: u8) -> Vec<u8> {
	let mut x = u64::from(ver) * 32 + l as u64 * 8 + u64::from(m);
	(0 .. QrCode::get_num_raw_data_modules(Version::new(ver)) / 8).map(|_| {
		x = (x * 1103515245 + 12345) % 2147483648;
		(x / 65536 % 256) as u8
	}).collect()
}

fn digest(grid: &[bool]) -> u64 {
	grid.iter().fold(0, |h, &b| (h * 16777619 + u64::from(b) + 1) % 4294967291)
}

fn grid(ver: u8, l: usize, m: u8) -> Vec<bool> {
	let size = usize::from(ver) * 4 + 17;
	let mut code = QrCode {
		version: Version::new(ver),
		size: size as i32,
		mask: Mask::new(m),
		errorcorrectionlevel: level(l),
		modules: vec![false; size * size],
		isfunction: vec![false; size * size],
	};
	code.draw_function_patterns();
	code.draw_codewords(&words(ver, l, m));
	code.apply_mask(Mask::new(m));
	code.draw_format_bits(Mask::new(m));
	code.modules
}

fn main() {
	for (ver, l, m) in FULL {
		let all: String = grid(ver, l, m).iter().map(|&b| if b { '1' } else { '0' }).collect();
		println!("F {:02} {} {} {}", ver, l, m, all);
	}
	for ver in 1 ..= 40 {
		for l in 0 .. 4 {
			for m in 0 .. 8 {
				println!("D {:02} {} {} {:08x}", ver, l, m, digest(&grid(ver, l, m)));
			}
		}
	}
}
