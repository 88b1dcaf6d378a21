// Makes crates/replay_penalty/stdin: penalty scores of the original source, one case a line.
// get_penalty_score is private there, so this file is compiled behind the original's own text, in the same module.
// Run at the repository's root, QRCODEGEN being the path of the original's lib.rs:
//   cat "${QRCODEGEN:-../shared/docs/src/src/lib.rs}" tools/vectors/penalty.rs | rustc -O --edition 2021 -A warnings -o target/penalty -
//   target/penalty > crates/replay_penalty/stdin
// A line: kind, version, parameter, score, each of a fixed width. The grids are made on both sides by the same rules:
//   0  each module is dark by itself: a random number modulo 8 is below 1 + seed % 7; the parameter is the seed
//   1  each module differs from the one before by the same rule
//   2  all light (parameter 0) or all dark (parameter 1)
//   3  stripes as wide as the parameter, along the rows
//   4  the same along the columns
//   5  rows by threes: a core of unit n at distance d from the left border; the same at the right border; dark;
//      the parameter is 10 n + d
//   6  the same in columns

fn next(x: u64) -> u64 {
	(x * 1103515245 + 12345) % 2147483648
}

fn random(side: usize, seed: u64, flips: bool) -> Vec<bool> {
	let mut x = seed;
	let mut last = false;
	(0 .. side * side).map(|_| {
		x = next(x);
		let hit = x / 65536 % 8 < 1 + seed % 7;
		last = if flips { last ^ hit } else { hit };
		last
	}).collect()
}

fn core(at: usize, n: usize, d: usize) -> bool {
	at >= d && at < d + 7 * n && (at - d) / n != 1 && (at - d) / n != 5
}

fn finder(side: usize, along: usize, across: usize, n: usize, d: usize) -> bool {
	match across % 3 {
		0 => core(along, n, d),
		1 => core(side - 1 - along, n, d),
		_ => true,
	}
}

fn module(kind: usize, side: usize, x: usize, y: usize, p: usize) -> bool {
	match kind {
		2 => p == 1,
		3 => x / p % 2 == 1,
		4 => y / p % 2 == 1,
		5 => finder(side, x, y, p / 10, p % 10),
		_ => finder(side, y, x, p / 10, p % 10),
	}
}

fn line(kind: usize, ver: u8, p: usize) {
	let side = usize::from(ver) * 4 + 17;
	let modules: Vec<bool> = match kind {
		0 => random(side, p as u64, false),
		1 => random(side, p as u64, true),
		_ => (0 .. side * side).map(|i| module(kind, side, i % side, i / side, p)).collect(),
	};
	let code = QrCode {
		version: Version::new(ver),
		size: side as i32,
		errorcorrectionlevel: QrCodeEcc::Low,
		mask: Mask::new(0),
		isfunction: vec![false; side * side],
		modules,
	};
	println!("{} {:02} {:03} {:07}", kind, ver, p, code.get_penalty_score());
}

fn main() {
	for ver in 1 ..= 40u8 {
		for seed in 0 .. 7 {
			line(0, ver, usize::from(ver) * 7 + seed);
			line(1, ver, usize::from(ver) * 7 + seed);
		}
		line(2, ver, 0);
		line(2, ver, 1);
		for width in 1 ..= 12 {
			line(3, ver, width);
			line(4, ver, width);
		}
		for n in 1 ..= 3 {
			for d in 0 .. 6 {
				line(5, ver, 10 * n + d);
				line(6, ver, 10 * n + d);
			}
		}
	}
}
