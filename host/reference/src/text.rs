//! The layout of a text: fields of six bytes read, fields of nine columns written.

use crate::model::{label_plan, Labelling};
use crate::network::{
    judge_blocks, judge_bounds, judge_question, judge_row, judge_size, judge_vertices, Piece, Plan, MAX_TEXT,
    NO_PATH,
};

/// The number that six bytes say, or 3.
pub fn field(bytes: &[u8]) -> Result<u32, u32> {
    let blanks = bytes.iter().take_while(|&&b| b == b' ').count();
    let digits = &bytes[blanks..];
    let leading_zero = digits.len() > 1 && digits[0] == b'0';
    if digits.is_empty() || leading_zero || !digits.iter().all(u8::is_ascii_digit) {
        return Err(3);
    }
    Ok(digits.iter().fold(0, |x, digit| 10 * x + u32::from(digit - b'0')))
}

/// How no path stands in a length field.
const DASH: &[u8] = b"     -";

/// The length that six bytes say, or 3: no other field may be no path.
pub fn length(bytes: &[u8]) -> Result<u32, u32> {
    if bytes == DASH {
        return Ok(NO_PATH);
    }
    field(bytes)
}

/// The six bytes at a place of the text, or 3.
fn six_at(text: &[u8], at: usize) -> Result<&[u8], u32> {
    let end = at.checked_add(6).ok_or(3u32)?;
    text.get(at..end).ok_or(3)
}

/// The field at a place of the text, or 3.
pub fn field_at(text: &[u8], at: usize) -> Result<u32, u32> {
    field(six_at(text, at)?)
}

/// How six bytes are read.
type Reading = fn(&[u8]) -> Result<u32, u32>;

struct Reader<'a> {
    text: &'a [u8],
    at: usize,
}

impl Reader<'_> {
    fn next(&mut self, reading: Reading) -> Result<u32, u32> {
        let x = reading(six_at(self.text, self.at)?)?;
        self.at += 6;
        Ok(x)
    }

    /// So many fields and one byte 10.
    fn line(&mut self, count: u32, reading: Reading) -> Result<Vec<u32>, u32> {
        let mut fields = Vec::new();
        for _ in 0..count {
            fields.push(self.next(reading)?);
        }
        if self.text.get(self.at) != Some(&10) {
            return Err(3);
        }
        self.at += 1;
        Ok(fields)
    }

    fn piece(&mut self, n: u32) -> Result<Piece, u32> {
        let m = self.next(field)?;
        judge_size(m)?;
        let vertices = self.line(m, field)?;
        judge_vertices(n, &vertices)?;
        let mut lengths = Vec::new();
        for i in 0..m as usize {
            let row = self.line(m, length)?;
            judge_row(i, &row)?;
            lengths.push(row);
        }
        let piece = Piece { vertices, lengths };
        judge_blocks(&piece)?;
        Ok(piece)
    }

    /// The source, and the target if there is one: the question line has one field if byte 10 follows it, else two.
    fn question(&mut self, n: u32) -> Result<(u32, Option<u32>), u32> {
        let count = if self.text.get(self.at + 6) == Some(&10) { 1 } else { 2 };
        let fields = self.line(count, field)?;
        let (source, target) = (fields[0], fields.get(1).copied());
        judge_question(n, source, target)?;
        Ok((source, target))
    }
}

/// The plan that a text says, or the cause, 2 to 8 or 12.
pub fn read(text: &[u8]) -> Result<Plan, u32> {
    if text.len() > MAX_TEXT {
        return Err(2);
    }
    let mut reader = Reader { text, at: 0 };
    let first = reader.line(2, field)?;
    let (n, p) = (first[0], first[1]);
    judge_bounds(n, p)?;
    let mut pieces = Vec::new();
    for _ in 0..p {
        pieces.push(reader.piece(n)?);
    }
    let (source, target) = reader.question(n)?;
    if reader.at != text.len() {
        return Err(3);
    }
    Ok(Plan { n, pieces, source, target })
}

/// A number in six columns; only lengths are no path.
fn six_columns(x: u32) -> String {
    if x == NO_PATH {
        format!("{:>6}", "-")
    } else {
        format!("{x:6}")
    }
}

/// The text of a plan.
pub fn write(plan: &Plan) -> Vec<u8> {
    let line = |fields: &[u32]| -> String {
        let columns: String = fields.iter().map(|&x| six_columns(x)).collect();
        columns + "\n"
    };
    let mut text = line(&[plan.n, plan.pieces.len() as u32]);
    for piece in &plan.pieces {
        let m = piece.vertices.len() as u32;
        text += &line(&[&[m], &piece.vertices[..]].concat());
        for row in &piece.lengths {
            text += &line(row);
        }
    }
    let question: Vec<u32> = [plan.source].into_iter().chain(plan.target).collect();
    text += &line(&question);
    text.into_bytes()
}

/// A number in nine columns.
pub fn nine_columns(x: u32) -> String {
    if x > 999_999_999 {
        format!("{:>9}", "-")
    } else {
        format!("{x:9}")
    }
}

/// Numbers in nine columns each, and byte 10.
fn listing_line(numbers: &[u32]) -> String {
    let columns: String = numbers.iter().map(|&x| nine_columns(x)).collect();
    columns + "\n"
}

/// The labels of all vertices.
fn label_lines(plan: &Plan, done: &Labelling) -> String {
    let first = listing_line(&[plan.source, done.reached, done.extracted, done.inserted]);
    let others = (1..=plan.n).map(|v| listing_line(&[v, done.label(v)]));
    first + &others.collect::<String>()
}

/// The route to a target.
fn route_lines(plan: &Plan, done: &Labelling, target: u32) -> String {
    let route = done.route(target);
    let first = listing_line(&[plan.source, target, done.label(target), route.len() as u32]);
    let others = route.iter().map(|arc| listing_line(arc));
    first + &others.collect::<String>()
}

/// What the program `labels` writes for a text.
pub fn listing(text: &[u8]) -> Vec<u8> {
    let lines = match read(text) {
        Err(number) => format!("refused {number}\n"),
        Ok(plan) => match plan.target {
            None => label_lines(&plan, &label_plan(&plan)),
            Some(target) => route_lines(&plan, &label_plan(&plan), target),
        },
    };
    lines.into_bytes()
}
