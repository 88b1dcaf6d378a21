// Makes crates/replay_choice/stdin: masks that the original source chooses by itself, and the grids that it draws with them, one case a line.
// The penalty score is private there, so this file is compiled behind the original's own text, in the same module.
// Run at the repository's root, QRCODEGEN being the path of the original's lib.rs:
//   cat "${QRCODEGEN:-../shared/docs/src/src/lib.rs}" tools/vectors/choice.rs | rustc -O --edition 2021 -A warnings -o target/choice -
//   target/choice > crates/replay_choice/stdin
// The data codewords of a case are made on both sides by a rule and a parameter:
//   0  pseudo-random bytes; the parameter is where they start
//   1  every byte is the parameter
// A line: a kind, the rule, the version, the level, the parameter, the mask, and
//   F  every module, row by row, 0 light and 1 dark
//   D  a digest of the modules, in eight hexadecimal digits (see `digest` below)
// There are, at every version: random bytes at every level; bytes 0 at every level, and bytes 255; the first random bytes for which two
// masks have the least penalty, and the first for which another mask would be chosen if mask 0's format bits were on every candidate.
// The last two stand as lines F at versions 1 to 7.

const LEVELS: [QrCodeEcc; 4] = [QrCodeEcc::Low, QrCodeEcc::Medium, QrCodeEcc::Quartile, QrCodeEcc::High];

struct Case {
	rule: usize,
	ver: u8,
	level: usize,
	parameter: u64,
}

impl Case {
	fn data(&self) -> Vec<u8> {
		let n = QrCode::get_num_data_codewords(Version::new(self.ver), LEVELS[self.level]);
		let mut x = self.parameter;
		(0 .. n).map(|_| {
			if self.rule == 1 {
				return self.parameter as u8;
			}
			x = (x * 1103515245 + 12345) % 2147483648;
			(x / 65536 % 256) as u8
		}).collect()
	}

	fn code(&self, mask: Option<Mask>) -> QrCode {
		QrCode::encode_codewords(Version::new(self.ver), LEVELS[self.level], &self.data(), mask)
	}

	// The penalties of the eight candidates, each with its own format bits or with mask 0's.
	fn scores(&self, own: bool) -> Vec<i32> {
		(0 .. 8).map(|m| {
			let mut code = self.code(Some(Mask::new(m)));
			if !own {
				code.isfunction = vec![false; code.modules.len()]; // It is dropped once a code is drawn
				code.draw_format_bits(Mask::new(0));
			}
			code.get_penalty_score()
		}).collect()
	}

	fn line(&self, full: bool) {
		let code = self.code(None);
		let shown = if full {
			code.modules.iter().map(|&b| if b { '1' } else { '0' }).collect()
		} else {
			format!("{:08x}", digest(&code.modules))
		};
		let kind = if full { 'F' } else { 'D' };
		println!("{} {} {:02} {} {:06} {} {}", kind, self.rule, self.ver, self.level, self.parameter, code.mask().value(), shown);
	}
}

fn digest(grid: &[bool]) -> u64 {
	grid.iter().fold(0, |h, &b| (h * 16777619 + u64::from(b) + 1) % 4294967291)
}

// The place of the least number, the first if there are several.
fn least(scores: &[i32]) -> usize {
	let low = scores.iter().min().unwrap();
	scores.iter().position(|s| s == low).unwrap()
}

fn tied(case: &Case) -> bool {
	let scores = case.scores(true);
	let low = scores.iter().min().unwrap();
	scores.iter().filter(|&s| s == low).count() > 1
}

fn misled(case: &Case) -> bool {
	least(&case.scores(true)) != least(&case.scores(false))
}

// The first random bytes, at one level for each version, of which a test holds.
fn first(ver: u8, test: fn(&Case) -> bool) -> Case {
	(1 ..).map(|parameter| Case { rule: 0, ver, level: usize::from(ver) % 4, parameter }).find(|case| test(case)).unwrap()
}

fn main() {
	for ver in 1 ..= 40u8 {
		for level in 0 .. 4 {
			Case { rule: 0, ver, level, parameter: u64::from(ver) * 4 + level as u64 }.line(false);
			Case { rule: 1, ver, level, parameter: 0 }.line(false);
		}
		Case { rule: 1, ver, level: usize::from(ver) % 4, parameter: 255 }.line(false);
		first(ver, tied).line(ver <= 7);
		first(ver, misled).line(ver <= 7);
	}
}
