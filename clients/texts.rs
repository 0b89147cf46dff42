//! Random rule texts: sound ones, made of what preparers write, and damaged ones.
//!
//! A sound text is made of small idioms (a masked load, a bound tested before a store, a divisor
//! that cannot be 0, ...), each of which checks clean by itself, and of wild instructions, as many
//! as the text's risk says; some are nudged, so that a bound or a mask is just a little off. A
//! damaged text is a sound one with a few things done to its lines or to its bytes.

/// Random numbers by splitmix64: the same seed gives the same texts everywhere.
pub struct Random(u64);

impl Random {
    pub fn new(seed: u64) -> Random {
        Random(seed)
    }

    fn word(&mut self) -> u64 {
        self.0 = self.0.wrapping_add(0x9e37_79b9_7f4a_7c15);
        let mut mixed = self.0;
        mixed = (mixed ^ (mixed >> 30)).wrapping_mul(0xbf58_476d_1ce4_e5b9);
        mixed = (mixed ^ (mixed >> 27)).wrapping_mul(0x94d0_49bb_1331_11eb);
        mixed ^ (mixed >> 31)
    }

    /// A number from 0 to one below the limit, which is above 0.
    fn below(&mut self, limit: usize) -> usize {
        (self.word() % limit as u64) as usize
    }

    fn from_to(&mut self, least: usize, most: usize) -> usize {
        least + self.below(most - least + 1)
    }

    fn chance(&mut self, percent: usize) -> bool {
        self.below(100) < percent
    }

    /// One of the fields of a line.
    fn field(&mut self, fields: &str) -> String {
        self.pick(&line(fields))
    }

    fn pick<T: Clone>(&mut self, choices: &[T]) -> T {
        choices[self.below(choices.len())].clone()
    }
}

/// A line of a text by its fields.
type Line = Vec<String>;

fn line(text: &str) -> Line {
    text.split_whitespace().map(String::from).collect()
}

/// A random text: about two of three are sound.
pub fn random_text(random: &mut Random) -> Vec<u8> {
    let mut lines = sound_lines(random);
    match random.below(12) {
        0..=4 => rendered(random, &lines),
        5..=7 => {
            nudge(random, &mut lines);
            rendered(random, &lines)
        }
        8..=10 => {
            for _ in 0..random.pick(&[1, 1, 1, 2, 3]) {
                damage_lines(random, &mut lines);
            }
            rendered(random, &lines)
        }
        _ => {
            let mut text = rendered(random, &lines);
            damage_bytes(random, &mut text);
            text
        }
    }
}

// ---------------------------------------------------------------------------------------------
// Sound texts
// ---------------------------------------------------------------------------------------------

#[derive(Clone)]
struct Buffer {
    name: String,
    size: usize,
    writable: bool,
}

/// What is written of a rule so far.
struct Writer<'r> {
    random: &'r mut Random,
    buffers: Vec<Buffer>,
    lines: Vec<Line>,
    instructions: usize,
    /// Registers that are set all along.
    live: Vec<usize>,
    /// Labels that a jump has named and that are still to be declared.
    pending: Vec<String>,
    labels: Vec<String>,
    /// How many of a hundred instructions are wild.
    risk: usize,
}

/// Room for the longest idiom and for what ends a rule.
const RESERVE: usize = 10;

fn sound_lines(random: &mut Random) -> Vec<Line> {
    let risk = random.pick(&[0, 0, 0, 0, 5, 20, 60, 100]);
    let mut writer = Writer {
        random,
        buffers: Vec::new(),
        lines: vec![line("name size mode")],
        instructions: 0,
        live: Vec::new(),
        pending: Vec::new(),
        labels: Vec::new(),
        risk,
    };
    writer.declare_buffers();
    writer.lines.push(line("code"));
    writer.set_registers();
    writer.write_body();
    writer.finish();
    writer.lines
}

impl Writer<'_> {
    fn declare_buffers(&mut self) {
        for number in 0..self.random.pick(&[0, 1, 1, 2, 2, 3, 4, 8]) {
            let stem = self.random.pick(&["b", "table", "r", "code", "ret", "sixteen_letters"]);
            let sizes = [1, 2, 4, 8, 9, 16, 63, 64, 65, 100, 255, 256, 257, 512, 1023, 1024];
            let (edge, other) = (self.random.pick(&sizes), self.random.from_to(1, 1024));
            let buffer = Buffer {
                name: if number == 0 { stem.to_string() } else { format!("{stem}{number}") },
                size: self.random.pick(&[edge, other]),
                writable: self.random.chance(60),
            };
            let mode = if buffer.writable { "rw" } else { "ro" };
            self.lines.push(line(&format!("{} {} {mode}", buffer.name, buffer.size)));
            self.buffers.push(buffer);
        }
    }

    fn set_registers(&mut self) {
        self.live = vec![1, 2, 3, 4];
        for register in [0, 5, 6, 7] {
            if self.random.chance(50) {
                let value = self.value();
                self.emit(&format!("mov r{register} {value}"));
                self.live.push(register);
            }
        }
    }

    fn write_body(&mut self) {
        let goal = self.random.pick(&[9, 12, 16, 20, 24, 32, 40, 48, 64, 96]);
        while self.instructions + RESERVE < goal {
            if self.random.chance(self.risk) {
                self.wild();
            } else {
                self.idiom();
            }
            if !self.pending.is_empty() && self.random.chance(30) {
                let place = self.random.below(self.pending.len());
                let label = self.pending.remove(place);
                self.declare(&label);
            }
            if self.random.chance(5) {
                let label = self.new_label();
                self.declare(&label);
            }
        }
    }

    fn finish(&mut self) {
        for label in std::mem::take(&mut self.pending) {
            self.declare(&label);
        }
        if self.random.chance(4) {
            while self.instructions < 94 {
                self.emit("mov r0 1");
            }
        }
        if !self.live.contains(&0) && !self.random.chance(self.risk) {
            let value = self.value();
            self.emit(&format!("mov r0 {value}"));
        }
        self.emit("ret");
    }

    fn emit(&mut self, instruction: &str) {
        self.lines.push(line(instruction));
        self.instructions += 1;
    }

    fn declare(&mut self, label: &str) {
        self.lines.push(vec![format!("{label}:")]);
    }

    fn new_label(&mut self) -> String {
        let stem = self.random.pick(&["l", "x_", "skip", "r", "ret"]);
        let plain = format!("{stem}{}", self.labels.len());
        let buffer = self.buffers.first().map_or("code", |buffer| &buffer.name).to_string();
        let label = match self.random.below(40) {
            0..=3 => format!("{plain:_<16}"),
            4 if !self.labels.contains(&buffer) => buffer,
            _ => plain,
        };
        self.labels.push(label.clone());
        label
    }

    /// A label to be declared some time later.
    fn later(&mut self) -> String {
        let label = self.new_label();
        self.pending.push(label.clone());
        label
    }

    fn register(&mut self) -> String {
        format!("r{}", self.random.pick(&self.live))
    }

    /// Two different registers that are set.
    fn two_registers(&mut self) -> (String, String) {
        let first = self.random.below(self.live.len());
        let second = (first + self.random.from_to(1, self.live.len() - 1)) % self.live.len();
        (format!("r{}", self.live[first]), format!("r{}", self.live[second]))
    }

    fn value(&mut self) -> String {
        if self.random.chance(40) && !self.live.is_empty() {
            self.register()
        } else {
            constant(self.random)
        }
    }

    fn condition(&mut self) -> &'static str {
        self.random.pick(&["jeq", "jne", "jlt", "jle"])
    }

    fn operation(&mut self) -> &'static str {
        self.random.pick(&["add", "sub", "mul", "and", "or", "xor"])
    }

    /// One of the idioms, each of which checks clean by itself.
    fn idiom(&mut self) {
        match self.random.below(22) {
            0..=2 => self.compute(),
            3 => self.masked_access(),
            4 => self.constant_access(),
            5 => self.bounded_access(),
            6 => self.scaled_access(),
            7 => self.summed_access(),
            8 => self.chosen_access(),
            9 => self.loaded_index(),
            10 | 11 => self.divide(),
            12 | 13 => self.shift(),
            14 => self.shifted_index(),
            15 => self.subtracted_index(),
            16 => self.bounded_mask(),
            17 => self.multiplied_index(),
            18 => self.branch(),
            19 => self.self_compare(),
            20 => self.early_return(),
            _ => self.narrow_twice(),
        }
    }

    fn compute(&mut self) {
        let (operation, target, value) = (self.operation(), self.register(), self.value());
        let word = self.random.pick(&["mov", operation, operation, operation]);
        self.emit(&format!("{word} {target} {value}"));
    }

    /// A buffer and a width that fits into it, in bytes.
    fn buffer_and_width(&mut self) -> Option<(Buffer, usize)> {
        if self.buffers.is_empty() {
            return None;
        }
        let buffer = self.random.pick(&self.buffers);
        let widths: Vec<usize> = [1, 2, 4, 8].into_iter().filter(|&w| w <= buffer.size).collect();
        let width = self.random.pick(&widths);
        Some((buffer, width))
    }

    /// A load or, where that may be, a store.
    fn access(&mut self, buffer: &Buffer, width: usize, index: &str) {
        let (register, bits) = (self.register(), 8 * width);
        if buffer.writable && self.random.chance(50) {
            self.emit(&format!("st{bits} {} {index} {register}", buffer.name));
        } else {
            self.emit(&format!("ld{bits} {register} {} {index}", buffer.name));
        }
    }

    fn masked_access(&mut self) {
        let Some((buffer, width)) = self.buffer_and_width() else { return };
        let power = 1 << buffer.size.ilog2();
        let index = self.register();
        self.emit(&format!("and {index} {}", power - width));
        self.access(&buffer, width, &index);
    }

    fn constant_access(&mut self) {
        let Some((buffer, width)) = self.buffer_and_width() else { return };
        let last = buffer.size / width - 1;
        let between = self.random.from_to(0, last);
        let place = self.random.pick(&[0, between, last]) * width;
        let index = place.to_string();
        self.access(&buffer, width, &index);
    }

    /// The index is made a multiple and tested against the last place, by a constant or a register.
    fn bounded_access(&mut self) {
        let Some((buffer, width)) = self.buffer_and_width() else { return };
        let (index, bound) = self.two_registers();
        let last = buffer.size - width;
        if width > 1 {
            self.emit(&format!("and {index} -{width}"));
        }
        match self.random.below(4) {
            0 => {
                let out = self.later();
                self.emit(&format!("mov {bound} {last}"));
                self.emit(&format!("jlt {bound} {index} {out}"));
            }
            1 => {
                let within = self.new_label();
                self.emit(&format!("jle {index} {last} {within}"));
                self.emit(&format!("mov {index} 0"));
                self.declare(&within);
            }
            2 => {
                let within = self.new_label();
                self.emit(&format!("jlt {index} {} {within}", last + 1));
                self.emit("mov r0 1");
                self.emit("ret");
                self.declare(&within);
            }
            _ => {
                let (within, out) = (self.new_label(), self.later());
                self.emit(&format!("mov {bound} {}", last + 1));
                self.emit(&format!("jlt {index} {bound} {within}"));
                self.emit(&format!("jmp {out}"));
                self.declare(&within);
            }
        }
        self.access(&buffer, width, &index);
    }

    fn scaled_access(&mut self) {
        let Some((buffer, width)) = self.buffer_and_width() else { return };
        let count: usize = 1 << (buffer.size / width).ilog2();
        let index = self.register();
        self.emit(&format!("and {index} {}", count - 1));
        self.emit(&format!("shl {index} {}", width.ilog2()));
        self.access(&buffer, width, &index);
    }

    /// Two masked words put together.
    fn summed_access(&mut self) {
        let Some((buffer, width)) = self.buffer_and_width() else { return };
        let half = (1 << buffer.size.ilog2()) / 2;
        if half < width {
            return;
        }
        let (a, b) = self.two_registers();
        let operation = self.random.pick(&["add", "or", "xor"]);
        self.emit(&format!("and {a} {}", half - width));
        self.emit(&format!("and {b} {half}"));
        self.emit(&format!("{operation} {a} {b}"));
        self.access(&buffer, width, &a);
    }

    /// One of two places, by a condition, so that two ways join.
    fn chosen_access(&mut self) {
        let Some((buffer, width)) = self.buffer_and_width() else { return };
        let (index, tested) = self.two_registers();
        let last = buffer.size / width - 1;
        let one = self.random.from_to(0, last) * width;
        let other = self.random.from_to(0, last) * width;
        let (condition, value) = (self.condition(), self.value());
        let (first, joined) = (self.new_label(), self.new_label());
        self.emit(&format!("{condition} {tested} {value} {first}"));
        self.emit(&format!("mov {index} {one}"));
        self.emit(&format!("jmp {joined}"));
        self.declare(&first);
        self.emit(&format!("mov {index} {other}"));
        self.declare(&joined);
        self.access(&buffer, width, &index);
    }

    /// A byte that is loaded serves as an index.
    fn loaded_index(&mut self) {
        let Some((buffer, _)) = self.buffer_and_width() else { return };
        let Some((long, _)) = self.buffer_and_width().filter(|(b, _)| b.size >= 256) else {
            return;
        };
        let index = self.register();
        self.emit(&format!("ld8 {index} {} 0", buffer.name));
        self.access(&long, 1, &index);
    }

    fn divide(&mut self) {
        let (target, divisor) = self.two_registers();
        match self.random.below(5) {
            0 => {
                let bits = self.random.pick(&["1", "2", "128", "-1", "9223372036854775808"]);
                self.emit(&format!("or {divisor} {bits}"));
            }
            1 => {
                let out = self.later();
                self.emit(&format!("jeq {divisor} 0 {out}"));
            }
            2 => {
                let out = self.later();
                self.emit(&format!("jlt {target} 1 {out}"));
                self.emit(&format!("or {divisor} {target}"));
            }
            3 => {
                let fine = self.new_label();
                self.emit(&format!("jne {divisor} 0 {fine}"));
                self.emit(&format!("mov {divisor} 1"));
                self.declare(&fine);
            }
            _ => {
                let constant = self.random.pick(&["1", "2", "10", "-1", "18446744073709551615"]);
                self.emit(&format!("div {target} {constant}"));
                return;
            }
        }
        self.emit(&format!("div {target} {divisor}"));
    }

    fn shift(&mut self) {
        let (target, amount) = self.two_registers();
        let word = self.random.pick(&["shl", "shr"]);
        match self.random.below(4) {
            0 => self.emit(&format!("and {amount} 63")),
            1 => {
                let fine = self.new_label();
                self.emit(&format!("jle {amount} 63 {fine}"));
                self.emit(&format!("mov {amount} 63"));
                self.declare(&fine);
            }
            2 => {
                let out = self.later();
                self.emit(&format!("mov {target} 63"));
                self.emit(&format!("jlt {target} {amount} {out}"));
            }
            _ => {
                let constant = self.random.pick(&[0, 1, 3, 8, 31, 32, 62, 63]);
                self.emit(&format!("{word} {target} {constant}"));
                return;
            }
        }
        self.emit(&format!("{word} {target} {amount}"));
    }

    /// The highest bits of a word as an index.
    fn shifted_index(&mut self) {
        let Some((buffer, width)) = self.buffer_and_width() else { return };
        let index = self.register();
        let bits = (buffer.size / width).ilog2();
        self.emit(&format!("and {index} {}", self.mask_of_high_bits(bits)));
        self.emit(&format!("shr {index} {}", 63 - bits - width.ilog2()));
        self.emit(&format!("shr {index} 1"));
        self.access(&buffer, width, &index);
    }

    fn mask_of_high_bits(&self, count: u32) -> u64 {
        !u64::MAX.checked_shr(count).unwrap_or(0)
    }

    /// An index that is counted from somewhere above 0.
    fn subtracted_index(&mut self) {
        let Some((buffer, _)) = self.buffer_and_width() else { return };
        let index = self.register();
        let first = self.random.pick(&[1, 8, 1000, 1 << 32]);
        let (low, high) = (self.later(), self.new_label());
        self.emit(&format!("jlt {index} {first} {low}"));
        self.emit(&format!("jlt {index} {} {high}", first + buffer.size));
        self.emit(&format!("mov {index} {first}"));
        self.declare(&high);
        self.emit(&format!("sub {index} {first}"));
        self.access(&buffer, 1, &index);
    }

    /// A mask of which only the greatest word is known.
    fn bounded_mask(&mut self) {
        let Some((buffer, _)) = self.buffer_and_width() else { return };
        let (index, mask) = self.two_registers();
        let fine = self.new_label();
        self.emit(&format!("jlt {mask} {} {fine}", buffer.size));
        self.emit(&format!("mov {mask} {}", buffer.size - 1));
        self.declare(&fine);
        let (target, operand) = self.random.pick(&[(&index, &mask), (&mask, &index)]);
        self.emit(&format!("and {target} {operand}"));
        self.access(&buffer, 1, target);
    }

    /// A row and a column of a table.
    fn multiplied_index(&mut self) {
        let Some((buffer, _)) = self.buffer_and_width() else { return };
        let (index, column) = self.two_registers();
        let columns = self.random.pick(&[1, 2, 4]);
        let rows: usize = 1 << (buffer.size / columns).max(1).ilog2();
        if rows * columns > buffer.size {
            return;
        }
        self.emit(&format!("and {index} {}", rows - 1));
        self.emit(&format!("mul {index} {columns}"));
        self.emit(&format!("and {column} {}", columns - 1));
        self.emit(&format!("add {index} {column}"));
        self.access(&buffer, 1, &index);
    }

    fn branch(&mut self) {
        let (condition, register, value) = (self.condition(), self.register(), self.value());
        let label = self.later();
        self.emit(&format!("{condition} {register} {value} {label}"));
    }

    fn self_compare(&mut self) {
        let (condition, register, label) = (self.condition(), self.register(), self.later());
        self.emit(&format!("{condition} {register} {register} {label}"));
    }

    fn early_return(&mut self) {
        let (condition, register, value) = (self.condition(), self.register(), self.value());
        let (result, label) = (self.value(), self.new_label());
        self.emit(&format!("{condition} {register} {value} {label}"));
        self.emit(&format!("mov r0 {result}"));
        self.emit("ret");
        self.declare(&label);
    }

    /// Two tests of one register, after which it may be a single word or none.
    fn narrow_twice(&mut self) {
        let (register, other) = self.two_registers();
        let near: u64 = self.random.pick(&[0, 1, 63, 255, 1 << 63, u64::MAX - 1]);
        let (first, second) = (self.condition(), self.condition());
        let (out, end) = (self.later(), self.later());
        if self.random.chance(50) {
            self.emit(&format!("and {register} {near}"));
        }
        self.emit(&format!("{first} {register} {near} {out}"));
        if self.random.chance(50) {
            self.emit(&format!("{second} {register} {} {end}", near + 1));
        } else {
            self.emit(&format!("mov {other} {}", near + 1));
            self.emit(&format!("{second} {other} {register} {end}"));
        }
    }

    /// Any instruction, whatever it reads and reaches.
    fn wild(&mut self) {
        let target = self.random.below(8);
        let value = self.wild_value();
        match self.random.below(14) {
            0 => self.emit(&format!("mov r{target} {value}")),
            1..=3 => {
                let words = ["add", "sub", "mul", "div", "and", "or", "xor", "shl", "shr"];
                let word = self.random.pick(&words);
                self.emit(&format!("{word} r{target} {value}"));
            }
            4..=6 => self.wild_access(target, &value),
            7 | 8 => {
                let (condition, label) = (self.condition(), self.later());
                self.emit(&format!("{condition} r{target} {value} {label}"));
            }
            9 => self.wild_end(),
            _ => self.probe(),
        }
    }

    /// Something is made of two words of which something is known, and used where a report tells
    /// what is known of it.
    fn probe(&mut self) {
        let (target, operand) = self.two_registers();
        self.shape(&target);
        self.shape(&operand);
        let words = ["add", "sub", "mul", "and", "or", "xor", "shl", "shr", "div"];
        let word = self.random.pick(&words);
        self.emit(&format!("{word} {target} {operand}"));
        match self.buffer_and_width() {
            Some((buffer, width)) if self.random.chance(70) => self.access(&buffer, width, &target),
            _ => {
                let word = self.random.pick(&["shl", "shr", "div"]);
                self.emit(&format!("{word} {operand} {target}"));
            }
        }
    }

    /// Gives a register some known bits or some range.
    fn shape(&mut self, register: &str) {
        let (one, other) = (pattern(self.random), pattern(self.random));
        let (least, most) = (one.min(other), one.max(other));
        match self.random.below(6) {
            0 => self.emit(&format!("mov {register} {one}")),
            1 => self.emit(&format!("and {register} {one}")),
            2 => {
                let word = self.random.pick(&["or", "xor", "add", "sub"]);
                self.emit(&format!("and {register} {one}"));
                self.emit(&format!("{word} {register} {other}"));
            }
            3 => {
                let (low, high) = (self.later(), self.new_label());
                self.emit(&format!("jlt {register} {least} {low}"));
                self.emit(&format!("jle {register} {most} {high}"));
                self.emit(&format!("mov {register} {most}"));
                self.declare(&high);
            }
            4 => {
                let label = self.new_label();
                let condition = self.condition();
                self.emit(&format!("{condition} {register} {one} {label}"));
                self.emit(&format!("mov {register} {other}"));
                self.declare(&label);
            }
            _ => {
                let (condition, label) = (self.condition(), self.later());
                self.emit(&format!("{condition} {register} {one} {label}"));
            }
        }
    }

    fn wild_value(&mut self) -> String {
        if self.random.chance(50) {
            format!("r{}", self.random.below(8))
        } else {
            constant(self.random)
        }
    }

    fn wild_access(&mut self, register: usize, index: &str) {
        if self.buffers.is_empty() {
            return;
        }
        let buffer = self.random.pick(&self.buffers);
        let bits = self.random.pick(&[8, 16, 32, 64]);
        let near_end = buffer.size.saturating_sub(self.random.from_to(0, 9)).to_string();
        let index = self.random.pick(&[index.to_string(), index.to_string(), near_end]);
        if buffer.writable && self.random.chance(50) {
            self.emit(&format!("st{bits} {} {index} r{register}", buffer.name));
        } else {
            self.emit(&format!("ld{bits} r{register} {} {index}", buffer.name));
        }
    }

    /// Control goes away, and comes again by a label most times.
    fn wild_end(&mut self) {
        if self.random.chance(50) {
            self.emit("ret");
        } else {
            let label = self.later();
            self.emit(&format!("jmp {label}"));
        }
        if !self.pending.is_empty() && self.random.chance(80) {
            let label = self.pending.remove(0);
            self.declare(&label);
        }
    }
}

/// Changes a few constants by a little, and a few registers. A text mostly stays a rule.
fn nudge(random: &mut Random, lines: &mut [Line]) {
    let first = code_line(lines).unwrap_or(0);
    for field in lines[first..].iter_mut().flatten() {
        if !random.chance(5) {
            continue;
        }
        if let Ok(word) = field.parse::<u64>() {
            let near = [word.wrapping_add(1), word.wrapping_sub(1), word / 2, word.wrapping_mul(2)];
            *field = random.pick(&near).to_string();
        } else if field.len() == 2 && field.starts_with('r') {
            *field = format!("r{}", random.below(8));
        }
    }
}

/// A word with few bits set, and mostly a small one.
fn pattern(random: &mut Random) -> u64 {
    let sparse = random.word() & random.word();
    sparse >> random.pick(&[0, 32, 52, 56, 58, 60, 61])
}

/// A constant, as a rule at the edges, in one of the ways to write it.
fn constant(random: &mut Random) -> String {
    let edges = [0, 1, 7, 8, 31, 32, 63, 64, 65, 255, 256, 1023, 1024, 65535, 65536];
    let high =
        [1 << 32, (1 << 63) - 1, 1 << 63, (1 << 63) + 1, u64::MAX - 7, u64::MAX - 1, u64::MAX];
    let word = match random.below(8) {
        0..=2 => random.pick(&edges),
        3 => random.pick(&high),
        4 => random.from_to(0, 1100) as u64,
        5 => 1 << random.below(64),
        6 => u64::MAX >> random.below(64),
        _ => random.word() >> random.below(64),
    };
    match random.below(20) {
        0 => format!("{word:025}"),
        1 if word == 0 => "-0".to_string(),
        1..=10 if word >= 1 << 63 => (word as i64).to_string(),
        _ => word.to_string(),
    }
}

// ---------------------------------------------------------------------------------------------
// How a text is laid out
// ---------------------------------------------------------------------------------------------

/// The bytes of a text: plain most times, else with spaces, comments and empty lines.
fn rendered(random: &mut Random, lines: &[Line]) -> Vec<u8> {
    let sloppy = random.pick(&[0, 0, 0, 10, 30]);
    let mut text = Vec::new();
    for fields in lines {
        while random.chance(sloppy) {
            text.extend(
                random.pick(&["\n", "  \n", "# empty\n", " #\n", "#!%& A-Z {}~\n"]).bytes(),
            );
        }
        for (place, field) in fields.iter().enumerate() {
            if place > 0 || random.chance(sloppy) {
                text.push(b' ');
            }
            while random.chance(sloppy) {
                text.push(b' ');
            }
            text.extend(field.bytes());
        }
        if random.chance(sloppy) {
            text.extend(
                random.pick(&[" ", "#", "# note", "#note # note", "   # \"NOTE\""]).bytes(),
            );
        }
        text.push(b'\n');
    }
    if random.chance(5) {
        text.pop();
    }
    if random.chance(2) {
        stretch(random, &mut text);
    }
    text
}

/// Makes a text about as long as a text may be, by a comment, empty lines or labels in its midst.
fn stretch(random: &mut Random, text: &mut Vec<u8>) {
    let goal = random.from_to(8188, 8194);
    let ends: Vec<usize> = (0..text.len()).filter(|&at| text[at] == b'\n').collect();
    if text.len() + 32 > goal || ends.is_empty() {
        return;
    }
    let missing = goal - text.len();
    let mut filling = match random.below(3) {
        0 => vec![b'\n'; missing],
        1 => format!("\n#{}", "~".repeat(missing - 2)).into_bytes(),
        _ => many_labels(missing - 2),
    };
    filling.resize(missing, b' ');
    let at = random.pick(&ends);
    text.splice(at..at, filling);
}

/// Lines of labels, all different, in at most so many bytes.
fn many_labels(room: usize) -> Vec<u8> {
    let mut labels = Vec::new();
    for number in 0.. {
        let label = format!("\nz{number:x}:");
        if labels.len() + label.len() > room {
            break;
        }
        labels.extend(label.bytes());
    }
    labels
}

// ---------------------------------------------------------------------------------------------
// Damage
// ---------------------------------------------------------------------------------------------

/// Does one thing to the lines of a text. Not each makes it one that is refused.
fn damage_lines(random: &mut Random, lines: &mut Vec<Line>) {
    if lines.is_empty() {
        return;
    }
    let (at, other) = (random.below(lines.len()), random.below(lines.len()));
    match random.below(20) {
        0 => drop(lines.remove(at)),
        1 => lines.insert(other, lines[at].clone()),
        2 => lines.swap(at, other),
        3 => damage_count(random, &mut lines[at]),
        4..=8 => damage_field(random, &mut lines[at]),
        9 => lines[0] = line(random.pick(&HEADINGS)),
        10 => lines.truncate(at),
        11 => drop(lines.pop()),
        12 => lines.push(line(random.pick(&["past:", "past: #", "code", "mov r0 0", "b 8 rw"]))),
        13 => jump_past_end(random, lines),
        14 => jump_back(random, lines),
        15 => make_read_only(lines),
        16 => add_buffers(random, lines),
        17 => add_instructions(random, lines),
        18 => repeat_declaration(random, lines),
        _ => rename(random, lines),
    }
}

const HEADINGS: [&str; 6] = [
    "name size",
    "size name mode",
    "name size mode mode",
    "Name size mode",
    "name: size mode",
    "code",
];

/// Fields of a wrong kind in some place or other, and some that are just right.
const FIELDS: &str = "r0 r7 r8 r r10 R1 0 00 -0 1 -1 +1 - --1 1- 0x10 1024 1025 01024 18446744073709551615 \
    18446744073709551616 -9223372036854775808 -9223372036854775809 \
    99999999999999999999999999999999999999999999 000000000000000000000000000000000000000001 \
    ro rw RW rox code code: ret name jmp mov ld24 st8 call _a a_ a:b : :: sixteen_letters_ \
    seventeen_letters b{0}";

/// Numbers at the limits.
const NUMBERS: &str = "-1 0 1 1024 1025 18446744073709551615 18446744073709551616 -9223372036854775808 \
    -9223372036854775809";

/// Puts a field of another kind there, or one of the same kind at its limits.
fn damage_field(random: &mut Random, fields: &mut Line) {
    if fields.is_empty() {
        return;
    }
    let at = random.below(fields.len());
    fields[at] = if random.chance(50) {
        random.field(FIELDS)
    } else if fields[at].parse::<i128>().is_ok() {
        random.field(NUMBERS)
    } else {
        let (stem, colon) = fields[at].split_at(fields[at].trim_end_matches(':').len());
        format!("{stem:x<0$}{colon}", random.from_to(15, 17))
    };
}

fn damage_count(random: &mut Random, fields: &mut Line) {
    if random.chance(50) {
        fields.insert(random.from_to(0, fields.len()), random.field(FIELDS));
    } else if !fields.is_empty() {
        fields.remove(random.below(fields.len()));
    }
}

fn code_line(lines: &[Line]) -> Option<usize> {
    lines.iter().position(|fields| fields.len() == 1 && fields[0] == "code")
}

fn is_label(fields: &Line) -> bool {
    fields.len() == 1 && fields[0].ends_with(':')
}

/// A random place among the lines of the code.
fn place_in_code(random: &mut Random, lines: &[Line]) -> usize {
    let first = code_line(lines).map_or(0, |at| at + 1);
    random.from_to(first, lines.len())
}

fn jump_past_end(random: &mut Random, lines: &mut Vec<Line>) {
    let at = place_in_code(random, lines);
    lines.insert(at, line("jmp past_end"));
    lines.push(line("past_end:"));
}

/// A jump to an instruction before it or to itself, or the other way round to a later one.
fn jump_back(random: &mut Random, lines: &mut Vec<Line>) {
    let jump = random.pick(&["jmp back", "jeq r1 5 back", "jlt r2 r2 back"]);
    let at = place_in_code(random, lines);
    lines.insert(at, line("back:"));
    let elsewhere = place_in_code(random, lines);
    lines.insert(random.pick(&[at + 1, elsewhere]), line(jump));
}

fn make_read_only(lines: &mut [Line]) {
    for fields in lines.iter_mut().filter(|fields| fields.len() == 3 && fields[2] == "rw") {
        fields[2] = "ro".to_string();
    }
}

/// As many buffers as there may be, or one more.
fn add_buffers(random: &mut Random, lines: &mut Vec<Line>) {
    let Some(code) = code_line(lines) else { return };
    for number in code..=random.from_to(8, 9) {
        lines.insert(code, line(&format!("more{number} 8 rw")));
    }
}

/// As many instructions as there may be, or one or two more.
fn add_instructions(random: &mut Random, lines: &mut Vec<Line>) {
    let Some(code) = code_line(lines) else { return };
    let labels = lines[code..].iter().filter(|fields| is_label(fields)).count();
    let instructions = lines.len() - code - 1 - labels;
    for _ in instructions..random.from_to(96, 98) {
        lines.insert(code + 1, line("add r1 1"));
    }
}

/// A buffer or a label that is there is declared again somewhere.
fn repeat_declaration(random: &mut Random, lines: &mut Vec<Line>) {
    let labels: Vec<Line> = lines.iter().filter(|fields| is_label(fields)).cloned().collect();
    let code = code_line(lines).unwrap_or(lines.len());
    if !labels.is_empty() && random.chance(60) {
        let at = place_in_code(random, lines);
        lines.insert(at, random.pick(&labels));
    } else if code > 1 {
        let at = random.from_to(1, code);
        lines.insert(at, lines[random.from_to(1, code - 1)].clone());
    }
}

/// One field of a line is taken from another line, so that names go where they do not belong.
fn rename(random: &mut Random, lines: &mut [Line]) {
    let other = random.pick(lines);
    let fields = &mut lines[random.below(lines.len())];
    if !fields.is_empty() && !other.is_empty() {
        let at = random.below(fields.len());
        fields[at] = random.pick(&other).trim_end_matches(':').to_string();
    }
}

/// Does a few things to the bytes of a text.
fn damage_bytes(random: &mut Random, text: &mut Vec<u8>) {
    if random.chance(8) {
        *text = odd_text(random);
        return;
    }
    for _ in 0..random.pick(&[1, 1, 2, 4]) {
        if text.is_empty() {
            return;
        }
        let at = random.below(text.len());
        match random.below(6) {
            0 => text[at] ^= 1 << random.below(8),
            1 => text[at] = random.pick(b"\t\r\0\x1f\x7f\x80\xc3\xff\x0b"),
            2 => text.insert(at, random.pick(b"#:-_ \nAz9~!r\"")),
            3 => text[at] = random.pick(b"#:-_ \nAz9~!r\""),
            4 => drop(text.remove(at)),
            _ => text.truncate(random.pick(&[at, text.len() - 1])),
        }
    }
}

/// A text that never was a rule.
fn odd_text(random: &mut Random) -> Vec<u8> {
    let length = random.below(40);
    match random.below(5) {
        0 => vec![b'\n'; length],
        1 => format!("{}# name size mode", " ".repeat(length)).into_bytes(),
        2 => vec![random.pick(b" #\n\xff"); random.from_to(8190, 8195)],
        3 => (0..length).map(|_| random.from_to(31, 127) as u8).collect(),
        _ => {
            let words =
                ["name size mode", "code", "ret", "mov r0 0", "a 8 rw", "l:", "jmp l", "\n"];
            let lines: Vec<&str> = (0..length % 8).map(|_| random.pick(&words)).collect();
            lines.join("\n").into_bytes()
        }
    }
}
