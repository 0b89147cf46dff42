//! What the checker answers, written a second time: from `docs/` alone, in plain safe Rust.
//!
//! It is meant to be read beside the documents, so it follows their order and their words:
//! reading (`docs/LANGUAGE.md`), the domains (`docs/DOMAINS.md`), the check (`docs/CHECK.md`) and
//! the printing of what was found. It proves nothing; `compare.rs` holds the proved library to it.

use std::collections::HashMap;

/// What is printed for a text: the reports of its check, or why it is no rule.
pub fn answer(text: &[u8]) -> Vec<u8> {
    let printed = match read(text) {
        Ok(rule) => print_reports(&check(&rule)),
        Err(fault) => print_fault(&fault),
    };
    printed.into_bytes()
}

// ---------------------------------------------------------------------------------------------
// Refusals
// ---------------------------------------------------------------------------------------------

/// Why a text is refused. The numbers are those of the table of refusals.
#[derive(Clone, Copy)]
enum Refusal {
    TooLong = 1,
    ForbiddenByte = 2,
    NoHeading = 3,
    NoKnownForm = 4,
    WrongKind = 5,
    DeclaredTwice = 6,
    Undeclared = 7,
    TooMany = 8,
    NotLater = 9,
    ReadOnly = 10,
    NoEnd = 11,
}

impl Refusal {
    fn layer(self) -> u8 {
        match self {
            Refusal::ForbiddenByte => 1,
            Refusal::WrongKind => 2,
            Refusal::NoHeading | Refusal::NoKnownForm => 3,
            _ => 4,
        }
    }
}

/// A refusal and its spot: a line, counted from 1, and a byte of the text, counted from 0.
struct Fault {
    refusal: Refusal,
    line: usize,
    place: usize,
}

// ---------------------------------------------------------------------------------------------
// Lines and fields
// ---------------------------------------------------------------------------------------------

/// A field of the text and the spot of its first character.
#[derive(Clone, Copy)]
struct Field<'t> {
    text: &'t str,
    line: usize,
    place: usize,
}

impl Field<'_> {
    fn fault(&self, refusal: Refusal) -> Fault {
        Fault { refusal, line: self.line, place: self.place }
    }
}

/// The fields of a filled line, at least one.
type Line<'t> = Vec<Field<'t>>;

fn check_bytes(text: &[u8]) -> Result<(), Fault> {
    let mut line = 1;
    for (place, &byte) in text.iter().enumerate() {
        match byte {
            b'\n' => line += 1,
            32..=126 => {}
            _ => {
                return Err(Fault { refusal: Refusal::ForbiddenByte, line, place });
            }
        }
    }
    Ok(())
}

fn filled_lines(text: &str) -> Vec<Line<'_>> {
    let mut lines = Vec::new();
    let mut start = 0;
    for (number, line) in (1..).zip(text.split('\n')) {
        let fields = fields_of(line, number, start);
        if !fields.is_empty() {
            lines.push(fields);
        }
        start += line.len() + 1;
    }
    lines
}

/// The fields of the line with this number, whose first character stands at `start`.
fn fields_of(line: &str, number: usize, start: usize) -> Line<'_> {
    let before_comment = line.split('#').next().unwrap_or_default();
    let mut fields = Vec::new();
    let mut place = start;
    for text in before_comment.split(' ') {
        if !text.is_empty() {
            fields.push(Field { text, line: number, place });
        }
        place += text.len() + 1;
    }
    fields
}

// ---------------------------------------------------------------------------------------------
// Kinds of fields
// ---------------------------------------------------------------------------------------------

/// A register by its number, 0 to 7.
type Register = usize;

/// What the language calls a value: a register, or a constant as the word that it stands for.
#[derive(Clone, Copy)]
enum Operand {
    Register(Register),
    Constant(u64),
}

fn is_name(text: &str) -> bool {
    text.len() <= 16
        && text.starts_with(|c: char| c.is_ascii_lowercase())
        && text.chars().all(|c| c.is_ascii_lowercase() || c.is_ascii_digit() || c == '_')
}

fn to_name<'t>(field: &Field<'t>) -> Result<Field<'t>, Fault> {
    if is_name(field.text) { Ok(*field) } else { Err(field.fault(Refusal::WrongKind)) }
}

fn parse_register(text: &str) -> Option<Register> {
    match text.as_bytes() {
        [b'r', digit @ b'0'..=b'7'] => Some(usize::from(digit - b'0')),
        _ => None,
    }
}

fn to_register(field: &Field) -> Result<Register, Fault> {
    parse_register(field.text).ok_or(field.fault(Refusal::WrongKind))
}

/// The number that a text tells. One beyond 2^64 counts as 2^64, which is beyond every limit too.
fn parse_number(text: &str) -> Option<i128> {
    let digits = text.strip_prefix('-').unwrap_or(text);
    if digits.is_empty() || !digits.bytes().all(|b| b.is_ascii_digit()) {
        return None;
    }
    let size =
        digits.bytes().fold(0, |sum: i128, b| (10 * sum + i128::from(b - b'0')).min(1 << 64));
    Some(if digits.len() < text.len() { -size } else { size })
}

/// The number in a field, if it lies from `least` to `most`.
fn to_number(field: &Field, least: i128, most: i128) -> Result<i128, Fault> {
    parse_number(field.text)
        .filter(|number| (least..=most).contains(number))
        .ok_or(field.fault(Refusal::WrongKind))
}

fn to_operand(field: &Field) -> Result<Operand, Fault> {
    if let Some(register) = parse_register(field.text) {
        return Ok(Operand::Register(register));
    }
    let number = to_number(field, i64::MIN.into(), u64::MAX.into())?;
    Ok(Operand::Constant(number as u64)) // a negative number wraps: it stands for itself plus 2^64
}

fn to_size(field: &Field) -> Result<u64, Fault> {
    Ok(to_number(field, 1, 1024)? as u64)
}

/// May the buffer be written?
fn to_mode(field: &Field) -> Result<bool, Fault> {
    match field.text {
        "ro" => Ok(false),
        "rw" => Ok(true),
        _ => Err(field.fault(Refusal::WrongKind)),
    }
}

// ---------------------------------------------------------------------------------------------
// Rules
// ---------------------------------------------------------------------------------------------

struct Buffer<'t> {
    name: &'t str,
    size: u64,
    writable: bool,
}

#[derive(Clone, Copy)]
enum Operation {
    Add,
    Sub,
    Mul,
    Div,
    And,
    Or,
    Xor,
    Shl,
    Shr,
}

#[derive(Clone, Copy)]
enum Relation {
    Equal,
    Unequal,
    Below,
    AtMost,
    Above,
    AtLeast,
}

impl Relation {
    /// The relation that holds where this one does not.
    fn opposite(self) -> Relation {
        match self {
            Relation::Equal => Relation::Unequal,
            Relation::Unequal => Relation::Equal,
            Relation::Below => Relation::AtLeast,
            Relation::AtMost => Relation::Above,
            Relation::Above => Relation::AtMost,
            Relation::AtLeast => Relation::Below,
        }
    }

    /// The relation in which b stands to a where a stands in this one to b.
    fn converse(self) -> Relation {
        match self {
            Relation::Equal => Relation::Equal,
            Relation::Unequal => Relation::Unequal,
            Relation::Below => Relation::Above,
            Relation::AtMost => Relation::AtLeast,
            Relation::Above => Relation::Below,
            Relation::AtLeast => Relation::AtMost,
        }
    }
}

/// What an instruction does. `B` tells its buffer and `L` where it jumps to: both are fields that
/// hold names at first, and once the names are known, the size of a buffer and the place of an
/// instruction. Widths are counted in bytes.
#[derive(Clone, Copy)]
enum Action<B, L> {
    Move { target: Register, source: Operand },
    Operate { operation: Operation, target: Register, operand: Operand },
    Load { width: u64, target: Register, buffer: B, index: Operand },
    Store { width: u64, buffer: B, index: Operand, source: Register },
    Jump { label: L },
    Branch { relation: Relation, left: Register, right: Operand, label: L },
    Return,
}

type NamedAction<'t> = Action<Field<'t>, Field<'t>>;
type BoundAction = Action<u64, usize>;

struct Instruction<A> {
    line: usize,
    action: A,
}

/// A rule, as far as a check looks at it.
struct Rule {
    instructions: Vec<Instruction<BoundAction>>,
}

// ---------------------------------------------------------------------------------------------
// Reading
// ---------------------------------------------------------------------------------------------

const TEXT_LIMIT: usize = 8192;
const BUFFER_LIMIT: usize = 8;
const INSTRUCTION_LIMIT: usize = 96;

/// Reads a text, in the order of judging: each `?` is a place where a refusal may be told.
fn read(text: &[u8]) -> Result<Rule, Fault> {
    if text.len() > TEXT_LIMIT {
        return Err(Fault { refusal: Refusal::TooLong, line: 0, place: 0 });
    }
    check_bytes(text)?;
    let text = str::from_utf8(text).expect("only printable characters and line feeds");
    let at_end = |refusal| Fault { refusal, line: 0, place: text.len() };

    let lines = filled_lines(text);
    let (heading, body) = lines.split_first().ok_or(at_end(Refusal::NoHeading))?;
    check_heading(heading)?;
    let (declarations, code) = split_at_code(body);
    let buffers = read_buffers(declarations)?;
    let code = read_code(code)?;
    let instructions = bind_names(&buffers, &code)?;
    if !ends_well(&code) {
        return Err(at_end(Refusal::NoEnd));
    }
    Ok(Rule { instructions })
}

fn check_heading(line: &Line) -> Result<(), Fault> {
    if line.iter().map(|field| field.text).eq(["name", "size", "mode"]) {
        Ok(())
    } else {
        Err(line[0].fault(Refusal::NoHeading))
    }
}

/// The lines before the first that is `code`, and those after it.
fn split_at_code<'l, 't>(lines: &'l [Line<'t>]) -> (&'l [Line<'t>], &'l [Line<'t>]) {
    let is_code = |line: &Line| line.len() == 1 && line[0].text == "code";
    match lines.iter().position(is_code) {
        Some(at) => (&lines[..at], &lines[at + 1..]),
        None => (lines, &[]),
    }
}

fn read_buffers<'t>(lines: &[Line<'t>]) -> Result<Vec<Buffer<'t>>, Fault> {
    let mut buffers: Vec<Buffer> = Vec::new();
    for line in lines {
        let [name, size, mode] = line.as_slice() else {
            return Err(line[0].fault(Refusal::NoKnownForm));
        };
        let buffer =
            Buffer { name: to_name(name)?.text, size: to_size(size)?, writable: to_mode(mode)? };
        if buffers.iter().any(|other| other.name == buffer.name) {
            return Err(name.fault(Refusal::DeclaredTwice));
        }
        if buffers.len() == BUFFER_LIMIT {
            return Err(name.fault(Refusal::TooMany));
        }
        buffers.push(buffer);
    }
    Ok(buffers)
}

/// The lines after `code`: the instructions, and for each label the place of the instruction that
/// comes next, which for one after the last instruction is the count of instructions.
#[derive(Default)]
struct Code<'t> {
    instructions: Vec<Instruction<NamedAction<'t>>>,
    labels: HashMap<&'t str, usize>,
}

fn read_code<'t>(lines: &[Line<'t>]) -> Result<Code<'t>, Fault> {
    let mut code = Code::default();
    for line in lines {
        let first = line[0];
        if let Some(label) = label_of(line) {
            if !is_name(label) {
                return Err(first.fault(Refusal::WrongKind));
            }
            if code.labels.insert(label, code.instructions.len()).is_some() {
                return Err(first.fault(Refusal::DeclaredTwice));
            }
        } else {
            let action = read_action(line)?;
            if code.instructions.len() == INSTRUCTION_LIMIT {
                return Err(first.fault(Refusal::TooMany));
            }
            code.instructions.push(Instruction { line: first.line, action });
        }
    }
    Ok(code)
}

/// What stands before the colon, if the line is a lone field that ends in one.
fn label_of<'t>(line: &Line<'t>) -> Option<&'t str> {
    match line.as_slice() {
        [only] => only.text.strip_suffix(':'),
        _ => None,
    }
}

enum Word {
    Move,
    Operate(Operation),
    Load(u64),
    Store(u64),
    Jump,
    Branch(Relation),
    Return,
}

fn parse_word(text: &str) -> Option<Word> {
    Some(match text {
        "mov" => Word::Move,
        "add" => Word::Operate(Operation::Add),
        "sub" => Word::Operate(Operation::Sub),
        "mul" => Word::Operate(Operation::Mul),
        "div" => Word::Operate(Operation::Div),
        "and" => Word::Operate(Operation::And),
        "or" => Word::Operate(Operation::Or),
        "xor" => Word::Operate(Operation::Xor),
        "shl" => Word::Operate(Operation::Shl),
        "shr" => Word::Operate(Operation::Shr),
        "ld8" => Word::Load(1),
        "ld16" => Word::Load(2),
        "ld32" => Word::Load(4),
        "ld64" => Word::Load(8),
        "st8" => Word::Store(1),
        "st16" => Word::Store(2),
        "st32" => Word::Store(4),
        "st64" => Word::Store(8),
        "jmp" => Word::Jump,
        "jeq" => Word::Branch(Relation::Equal),
        "jne" => Word::Branch(Relation::Unequal),
        "jlt" => Word::Branch(Relation::Below),
        "jle" => Word::Branch(Relation::AtMost),
        "ret" => Word::Return,
        _ => return None,
    })
}

/// Reads an instruction; its fields are judged from left to right.
fn read_action<'t>(line: &Line<'t>) -> Result<NamedAction<'t>, Fault> {
    let no_known_form = || line[0].fault(Refusal::NoKnownForm);
    let word = parse_word(line[0].text).ok_or_else(no_known_form)?;
    Ok(match (word, &line[1..]) {
        (Word::Move, [target, source]) => {
            Action::Move { target: to_register(target)?, source: to_operand(source)? }
        }
        (Word::Operate(operation), [target, operand]) => Action::Operate {
            operation,
            target: to_register(target)?,
            operand: to_operand(operand)?,
        },
        (Word::Load(width), [target, buffer, index]) => Action::Load {
            width,
            target: to_register(target)?,
            buffer: to_name(buffer)?,
            index: to_operand(index)?,
        },
        (Word::Store(width), [buffer, index, source]) => Action::Store {
            width,
            buffer: to_name(buffer)?,
            index: to_operand(index)?,
            source: to_register(source)?,
        },
        (Word::Jump, [label]) => Action::Jump { label: to_name(label)? },
        (Word::Branch(relation), [left, right, label]) => Action::Branch {
            relation,
            left: to_register(left)?,
            right: to_operand(right)?,
            label: to_name(label)?,
        },
        (Word::Return, []) => Action::Return,
        _ => return Err(no_known_form()),
    })
}

/// The instructions with each name replaced by what it stands for.
fn bind_names(buffers: &[Buffer], code: &Code) -> Result<Vec<Instruction<BoundAction>>, Fault> {
    let mut bound = Vec::new();
    for (place, instruction) in code.instructions.iter().enumerate() {
        let action = match instruction.action {
            Action::Load { width, target, buffer, index } => {
                Action::Load { width, target, buffer: find_buffer(buffers, &buffer)?.size, index }
            }
            Action::Store { width, buffer, index, source } => {
                Action::Store { width, buffer: find_writable(buffers, &buffer)?, index, source }
            }
            Action::Jump { label } => Action::Jump { label: find_later(code, &label, place)? },
            Action::Branch { relation, left, right, label } => {
                Action::Branch { relation, left, right, label: find_later(code, &label, place)? }
            }
            Action::Move { target, source } => Action::Move { target, source },
            Action::Operate { operation, target, operand } => {
                Action::Operate { operation, target, operand }
            }
            Action::Return => Action::Return,
        };
        bound.push(Instruction { line: instruction.line, action });
    }
    Ok(bound)
}

fn find_buffer<'b, 't>(buffers: &'b [Buffer<'t>], name: &Field) -> Result<&'b Buffer<'t>, Fault> {
    buffers.iter().find(|buffer| buffer.name == name.text).ok_or(name.fault(Refusal::Undeclared))
}

/// The size of the buffer of this name, which has to be one that may be written.
fn find_writable(buffers: &[Buffer], name: &Field) -> Result<u64, Fault> {
    let buffer = find_buffer(buffers, name)?;
    if buffer.writable { Ok(buffer.size) } else { Err(name.fault(Refusal::ReadOnly)) }
}

/// The place of the instruction that the label stands before, which has to come after `place`.
fn find_later(code: &Code, label: &Field, place: usize) -> Result<usize, Fault> {
    let target = *code.labels.get(label.text).ok_or(label.fault(Refusal::Undeclared))?;
    if place < target && target < code.instructions.len() {
        Ok(target)
    } else {
        Err(label.fault(Refusal::NotLater))
    }
}

/// Is the last instruction a `ret`, with no label after it?
fn ends_well(code: &Code) -> bool {
    let returns =
        code.instructions.last().is_some_and(|last| matches!(last.action, Action::Return));
    returns && code.labels.values().all(|&target| target < code.instructions.len())
}

// ---------------------------------------------------------------------------------------------
// Tristate numbers
// ---------------------------------------------------------------------------------------------

/// Known bits: those of `mask` are unknown, the others are those of `value`. The two share no bit.
#[derive(Clone, Copy)]
struct Tristate {
    value: u64,
    mask: u64,
}

impl Tristate {
    const ANY: Tristate = Tristate { value: 0, mask: u64::MAX };

    fn only(word: u64) -> Tristate {
        Tristate { value: word, mask: 0 }
    }

    /// The value is taken without the bits of the mask.
    fn new(value: u64, mask: u64) -> Tristate {
        Tristate { value: value & !mask, mask }
    }

    fn single(self) -> Option<u64> {
        (self.mask == 0).then_some(self.value)
    }

    fn of(operation: Operation, a: Tristate, b: Tristate) -> Tristate {
        match operation {
            Operation::Add => a.add(b),
            Operation::Sub => a.sub(b),
            Operation::And => a.and(b),
            Operation::Or => a.or(b),
            Operation::Xor => Tristate::new(a.value ^ b.value, a.mask | b.mask),
            Operation::Shl => a.shifted(b, |word, by| word << by),
            Operation::Shr => a.shifted(b, |word, by| word >> by),
            Operation::Mul => a.computed(b, |x, y| Some(x.wrapping_mul(y))),
            Operation::Div => a.computed(b, |x, y| x.checked_div(y)),
        }
    }

    fn add(self, b: Tristate) -> Tristate {
        let least = self.value.wrapping_add(b.value);
        let most = least.wrapping_add(self.mask).wrapping_add(b.mask);
        Tristate::new(least, (most ^ least) | self.mask | b.mask)
    }

    fn sub(self, b: Tristate) -> Tristate {
        let difference = self.value.wrapping_sub(b.value);
        let most = difference.wrapping_add(self.mask);
        let least = difference.wrapping_sub(b.mask);
        Tristate::new(difference, (most ^ least) | self.mask | b.mask)
    }

    fn and(self, b: Tristate) -> Tristate {
        let value = self.value & b.value;
        Tristate { value, mask: (self.value | self.mask) & (b.value | b.mask) & !value }
    }

    fn or(self, b: Tristate) -> Tristate {
        let value = self.value | b.value;
        Tristate { value, mask: (self.mask | b.mask) & !value }
    }

    fn shifted(self, b: Tristate, shift: impl Fn(u64, u64) -> u64) -> Tristate {
        match b.single() {
            Some(by @ 0..=63) => {
                Tristate { value: shift(self.value, by), mask: shift(self.mask, by) }
            }
            _ => Tristate::ANY,
        }
    }

    /// What is computed of two single words, if anything.
    fn computed(self, b: Tristate, compute: impl Fn(u64, u64) -> Option<u64>) -> Tristate {
        match (self.single(), b.single()) {
            (Some(x), Some(y)) => compute(x, y).map_or(Tristate::ANY, Tristate::only),
            _ => Tristate::ANY,
        }
    }

    fn join(self, b: Tristate) -> Tristate {
        Tristate::new(self.value & b.value, (self.value ^ b.value) | self.mask | b.mask)
    }

    fn common(self, b: Tristate) -> Option<Tristate> {
        let differ = (self.value ^ b.value) & !(self.mask | b.mask);
        (differ == 0).then_some(Tristate { value: self.value | b.value, mask: self.mask & b.mask })
    }

    fn narrow(self, relation: Relation, b: Tristate) -> Option<Tristate> {
        match relation {
            Relation::Equal => self.common(b),
            Relation::Unequal if self.single().is_some() && self.single() == b.single() => None,
            _ => Some(self),
        }
    }

    /// The range from the least word to the greatest.
    fn reach(self) -> Range {
        Range { least: self.value, most: self.value | self.mask }
    }

    fn facts(self) -> Facts {
        Facts { bits: self, range: self.reach() }
    }

    fn absorb(self, facts: Facts) -> Option<Tristate> {
        self.common(facts.bits)?.common(facts.range.span())
    }
}

// ---------------------------------------------------------------------------------------------
// Ranges
// ---------------------------------------------------------------------------------------------

/// The words from `least` to `most`, which are in this order.
#[derive(Clone, Copy)]
struct Range {
    least: u64,
    most: u64,
}

impl Range {
    const FULL: Range = Range { least: 0, most: u64::MAX };

    fn only(word: u64) -> Range {
        Range { least: word, most: word }
    }

    fn of(operation: Operation, a: Range, b: Range) -> Range {
        match operation {
            Operation::Add => a.unless_beyond(b, u64::checked_add),
            Operation::Mul => a.unless_beyond(b, u64::checked_mul),
            Operation::Sub if b.most <= a.least => {
                Range { least: a.least - b.most, most: a.most - b.least }
            }
            Operation::Div | Operation::Shr => Range { least: 0, most: a.most },
            Operation::And => Range { least: 0, most: a.most.min(b.most) },
            Operation::Or => Range { least: a.least.max(b.least), most: u64::MAX },
            Operation::Sub | Operation::Xor | Operation::Shl => Range::FULL,
        }
    }

    /// From what is made of the least words to what is made of the greatest, unless that is
    /// beyond the words.
    fn unless_beyond(self, b: Range, make: fn(u64, u64) -> Option<u64>) -> Range {
        match (make(self.least, b.least), make(self.most, b.most)) {
            (Some(least), Some(most)) => Range { least, most },
            _ => Range::FULL,
        }
    }

    fn join(self, b: Range) -> Range {
        Range { least: self.least.min(b.least), most: self.most.max(b.most) }
    }

    fn common(self, b: Range) -> Option<Range> {
        let common = Range { least: self.least.max(b.least), most: self.most.min(b.most) };
        (common.least <= common.most).then_some(common)
    }

    fn narrow(self, relation: Relation, b: Range) -> Option<Range> {
        let up_to = |most| self.common(Range { least: 0, most });
        let from = |least| self.common(Range { least, most: u64::MAX });
        match relation {
            Relation::Equal => self.common(b),
            Relation::Unequal if b.least == b.most => self.without(b.least),
            Relation::Unequal => Some(self),
            Relation::Below => up_to(b.most.checked_sub(1)?),
            Relation::AtMost => up_to(b.most),
            Relation::Above => from(b.least.checked_add(1)?),
            Relation::AtLeast => from(b.least),
        }
    }

    /// Takes a word off an end, if it is one.
    fn without(self, word: u64) -> Option<Range> {
        if self.least == word && self.most == word {
            None
        } else if self.least == word {
            Some(Range { least: word + 1, most: self.most })
        } else if self.most == word {
            Some(Range { least: self.least, most: word - 1 })
        } else {
            Some(self)
        }
    }

    /// The bits above every bit in which the ends differ are known.
    fn span(self) -> Tristate {
        let differ = self.least ^ self.most;
        let mask = u64::MAX.checked_shr(differ.leading_zeros()).unwrap_or(0);
        Tristate::new(self.least, mask)
    }

    fn facts(self) -> Facts {
        Facts { bits: self.span(), range: self }
    }

    fn absorb(self, facts: Facts) -> Option<Range> {
        self.common(facts.range)?.common(facts.bits.reach())
    }
}

// ---------------------------------------------------------------------------------------------
// The standard product
// ---------------------------------------------------------------------------------------------

/// What a domain tells of each word that it holds.
#[derive(Clone, Copy)]
struct Facts {
    bits: Tristate,
    range: Range,
}

/// What is known of a word: it is held by the known bits and by the range.
#[derive(Clone, Copy)]
struct Value {
    bits: Tristate,
    range: Range,
}

impl Value {
    const ANY: Value = Value { bits: Tristate::ANY, range: Range::FULL };

    fn only(word: u64) -> Value {
        Value { bits: Tristate::only(word), range: Range::only(word) }
    }

    /// The words of so many bytes.
    fn low(width: u64) -> Value {
        let most = u64::MAX >> (64 - 8 * width);
        Value { bits: Tristate { value: 0, mask: most }, range: Range { least: 0, most } }
    }

    fn of(operation: Operation, a: Value, b: Value) -> Value {
        Value {
            bits: Tristate::of(operation, a.bits, b.bits),
            range: Range::of(operation, a.range, b.range),
        }
        .reduce_or_stand()
    }

    fn join(self, b: Value) -> Value {
        Value { bits: self.bits.join(b.bits), range: self.range.join(b.range) }.reduce_or_stand()
    }

    fn narrow(self, relation: Relation, b: Value) -> Option<Value> {
        let bits = self.bits.narrow(relation, b.bits)?;
        let range = self.range.narrow(relation, b.range)?;
        Value { bits, range }.reduce()
    }

    /// Each part takes over what the other tells; none if no word is left.
    fn reduce(self) -> Option<Value> {
        let range = self.range.absorb(self.bits.facts())?;
        let bits = self.bits.absorb(range.facts())?;
        Some(Value { bits, range })
    }

    fn reduce_or_stand(self) -> Value {
        self.reduce().unwrap_or(self)
    }

    fn facts(self) -> Facts {
        let (first, second) = (self.bits.facts(), self.range.facts());
        Facts {
            bits: first.bits.common(second.bits).unwrap_or(first.bits),
            range: first.range.common(second.range).unwrap_or(first.range),
        }
    }
}

// ---------------------------------------------------------------------------------------------
// The check
// ---------------------------------------------------------------------------------------------

/// What is known before an instruction that control can come to: a value for each register, and
/// which registers are set on every way. One that is not set holds any word.
#[derive(Clone, Copy)]
struct State {
    values: [Value; 8],
    set: [bool; 8],
}

impl State {
    /// At the start `r1` to `r4` hold the input words.
    fn start() -> State {
        State {
            values: [Value::ANY; 8],
            set: std::array::from_fn(|register| (1..=4).contains(&register)),
        }
    }

    fn value(&self, operand: Operand) -> Value {
        match operand {
            Operand::Register(register) => self.values[register],
            Operand::Constant(word) => Value::only(word),
        }
    }

    fn with(mut self, register: Register, value: Value) -> State {
        self.values[register] = value;
        self.set[register] = true;
        self
    }

    fn join(self, coming: State) -> State {
        State {
            values: std::array::from_fn(|r| self.values[r].join(coming.values[r])),
            set: std::array::from_fn(|r| self.set[r] && coming.set[r]),
        }
    }
}

/// What may go wrong. The numbers are those of the table of causes.
#[derive(Clone, Copy)]
enum Cause {
    Unset = 1,
    ZeroDivisor = 2,
    LongShift = 3,
    BeyondBuffer = 4,
    NotAligned = 5,
}

struct Report {
    line: usize,
    cause: Cause,
    register: Option<Register>,
    range: Range,
}

/// The reports of a rule: each instruction is visited once, in order.
fn check(rule: &Rule) -> Vec<Report> {
    let mut reports = Vec::new();
    let mut before: Vec<Option<State>> = vec![None; rule.instructions.len()];
    before[0] = Some(State::start());
    for (place, instruction) in rule.instructions.iter().enumerate() {
        let Some(state) = before[place] else { continue };
        let found = lack(&state, &instruction.action);
        if let Some((cause, operand)) = found {
            reports.push(report(instruction.line, cause, operand, &state));
        }
        for (to, left) in leaves(state, place, &instruction.action, found.is_some()) {
            before[to] = Some(before[to].map_or(left, |there| there.join(left)));
        }
    }
    reports
}

fn report(line: usize, cause: Cause, operand: Operand, state: &State) -> Report {
    let register = match operand {
        Operand::Register(register) => Some(register),
        Operand::Constant(_) => None,
    };
    Report { line, cause, register, range: state.value(operand).facts().range }
}

/// The first thing that is not shown of what an instruction needs, and the operand concerned.
fn lack(state: &State, action: &BoundAction) -> Option<(Cause, Operand)> {
    let unset = |operand: &Operand| matches!(*operand, Operand::Register(r) if !state.set[r]);
    if let Some(operand) = reads(action).into_iter().find(unset) {
        return Some((Cause::Unset, operand));
    }
    match *action {
        Action::Operate { operation, operand, .. } => {
            let cause = operation_lacks(operation, state.value(operand).facts())?;
            Some((cause, operand))
        }
        Action::Load { width, buffer, index, .. } | Action::Store { width, buffer, index, .. } => {
            let cause = access_lacks(width, buffer, state.value(index).facts())?;
            Some((cause, index))
        }
        _ => None,
    }
}

/// What an instruction reads, in the order in which it is written.
fn reads(action: &BoundAction) -> Vec<Operand> {
    match *action {
        Action::Move { source, .. } => vec![source],
        Action::Operate { target, operand, .. } => vec![Operand::Register(target), operand],
        Action::Load { index, .. } => vec![index],
        Action::Store { index, source, .. } => vec![index, Operand::Register(source)],
        Action::Jump { .. } => vec![],
        Action::Branch { left, right, .. } => vec![Operand::Register(left), right],
        Action::Return => vec![Operand::Register(0)],
    }
}

fn operation_lacks(operation: Operation, facts: Facts) -> Option<Cause> {
    match operation {
        Operation::Div if facts.bits.value == 0 && facts.range.least == 0 => {
            Some(Cause::ZeroDivisor)
        }
        Operation::Shl | Operation::Shr if facts.range.most > 63 => Some(Cause::LongShift),
        _ => None,
    }
}

fn access_lacks(width: u64, size: u64, facts: Facts) -> Option<Cause> {
    let within = facts.range.most.checked_add(width).is_some_and(|end| end <= size);
    let aligned = facts.bits.value % width == 0 && facts.bits.mask % width == 0;
    if !within {
        Some(Cause::BeyondBuffer)
    } else if !aligned {
        Some(Cause::NotAligned)
    } else {
        None
    }
}

/// What an instruction leaves, and to which instructions it goes.
fn leaves(state: State, place: usize, action: &BoundAction, reported: bool) -> Vec<(usize, State)> {
    let next = place + 1;
    let unless_reported = |value| if reported { Value::ANY } else { value };
    match *action {
        Action::Move { target, source } => {
            vec![(next, state.with(target, unless_reported(state.value(source))))]
        }
        Action::Operate { operation, target, operand } => {
            let result = Value::of(operation, state.values[target], state.value(operand));
            vec![(next, state.with(target, unless_reported(result)))]
        }
        Action::Load { width, target, .. } => vec![(next, state.with(target, Value::low(width)))],
        Action::Store { .. } => vec![(next, state)],
        Action::Jump { label } => vec![(label, state)],
        Action::Branch { label, .. } if reported => vec![(next, state), (label, state)],
        Action::Branch { relation, left, right, label } => {
            [(next, relation.opposite()), (label, relation)]
                .into_iter()
                .filter_map(|(to, holds)| Some((to, narrowed(state, left, holds, right)?)))
                .collect()
        }
        Action::Return => vec![],
    }
}

/// What is known where `left` stands in the relation to `right`; none where that cannot be.
fn narrowed(state: State, left: Register, relation: Relation, right: Operand) -> Option<State> {
    if matches!(right, Operand::Register(register) if register == left) {
        return Some(state);
    }
    let (a, b) = (state.values[left], state.value(right));
    let narrowed_a = a.narrow(relation, b)?;
    let narrowed_b = b.narrow(relation.converse(), a)?;
    let state = state.with(left, narrowed_a);
    Some(match right {
        Operand::Register(register) => state.with(register, narrowed_b),
        Operand::Constant(_) => state,
    })
}

// ---------------------------------------------------------------------------------------------
// Printing
// ---------------------------------------------------------------------------------------------

fn print_reports(reports: &[Report]) -> String {
    let mut printed = String::from("line cause register least most\n");
    for Report { line, cause, register, range } in reports {
        let register = register.map_or("-".to_string(), |register| register.to_string());
        let cause = *cause as u8;
        printed += &format!("{line} {cause} {register} {} {}\n", range.least, range.most);
    }
    printed
}

fn print_fault(fault: &Fault) -> String {
    let Fault { refusal, line, place } = fault;
    let layer = refusal.layer();
    format!("number line place layer\n{} {line} {place} {layer}\n", *refusal as u8)
}
