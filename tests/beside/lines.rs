//! The lines of a script: how bytes are split, which lines are calls, and how replies are printed.

/// Each call with its numbers, in the order in which a line gives them.
#[derive(Clone, Copy, Debug, PartialEq)]
pub enum Call {
    Make { place: u32, references: u32, words: u32 },
    Load { into: u32, from: u32, reference: u32 },
    Store { into: u32, reference: u32, from: u32 },
    Read { from: u32, word: u32 },
    Write { into: u32, word: u32, value: u32 },
    Copy { into: u32, from: u32 },
    Clear { place: u32 },
    Same { left: u32, right: u32 },
    Shape { place: u32 },
    Schedule { time: u32, place: u32 },
    Next { into: u32 },
    Begin,
    Step { units: u32 },
    Count,
}

/// What a granted call answers.
#[derive(Clone, Copy, Debug, PartialEq)]
pub enum Answer {
    Done,
    Word(u32),
    Same(bool),
    Shape { references: u32, words: u32 },
    Time(u32),
    Progress { done: u64, total: u64, unfinished: bool },
    Counts { current: u32, husks: u32, uncut: u32, closed: u32 },
}

/// Why a call is refused, with the number that is printed.
#[derive(Clone, Copy, Debug, PartialEq)]
pub enum Refusal {
    NoSuchPlace = 1,
    TooLarge = 2,
    NoCall = 3,
    Nil = 11,
    NoSuchReference = 12,
    NoSuchWord = 13,
    NoRoom = 14,
    AgendaFull = 15,
    TimePassed = 16,
    SerialsUsedUp = 17,
    NoEvent = 18,
    CollectionRuns = 19,
    NoCollection = 20,
}

pub type Reply = Result<Answer, Refusal>;

pub const LONGEST_LINE: usize = 80;

/// What a line is.
pub enum Line<'a> {
    Call(Call),
    Remark(&'a [u8]),
    NoCall,
}

/// The lines of an input. Bytes after the last line feed are a line; after a last line feed no line comes.
pub fn lines_of(input: &[u8]) -> impl Iterator<Item = &[u8]> {
    let mut rest = input;
    std::iter::from_fn(move || {
        if rest.is_empty() {
            return None;
        }
        let end = rest.iter().position(|&byte| byte == b'\n');
        let line = &rest[..end.unwrap_or(rest.len())];
        rest = end.map_or(&[], |end| &rest[end + 1..]);
        Some(line)
    })
}

pub fn read_line(line: &[u8]) -> Line<'_> {
    if line.len() > LONGEST_LINE {
        Line::NoCall
    } else if line.first() == Some(&b'#') {
        Line::Remark(line)
    } else {
        read_call(line).map_or(Line::NoCall, Line::Call)
    }
}

fn read_call(line: &[u8]) -> Option<Call> {
    let mut fields = line.split(|&byte| byte == b'\t');
    let &[letter] = fields.next()? else {
        return None;
    };
    let mut number = || fields.next().and_then(read_number);
    let call = match letter {
        b'M' => Call::Make { place: number()?, references: number()?, words: number()? },
        b'L' => Call::Load { into: number()?, from: number()?, reference: number()? },
        b'S' => Call::Store { into: number()?, reference: number()?, from: number()? },
        b'R' => Call::Read { from: number()?, word: number()? },
        b'W' => Call::Write { into: number()?, word: number()?, value: number()? },
        b'C' => Call::Copy { into: number()?, from: number()? },
        b'K' => Call::Clear { place: number()? },
        b'Q' => Call::Same { left: number()?, right: number()? },
        b'H' => Call::Shape { place: number()? },
        b'E' => Call::Schedule { time: number()?, place: number()? },
        b'N' => Call::Next { into: number()? },
        b'B' => Call::Begin,
        b'G' => Call::Step { units: number()? },
        b'T' => Call::Count,
        _ => return None,
    };
    match fields.next() {
        None => Some(call),
        Some(_) => None,
    }
}

/// Digits only, no leading zero, at most the largest word.
fn read_number(field: &[u8]) -> Option<u32> {
    let digits = field.iter().all(|byte| byte.is_ascii_digit());
    let leading_zero = field.len() > 1 && field[0] == b'0';
    if field.is_empty() || !digits || leading_zero {
        return None;
    }
    std::str::from_utf8(field).ok()?.parse().ok()
}

impl Call {
    pub fn letter(&self) -> char {
        match self {
            Call::Make { .. } => 'M',
            Call::Load { .. } => 'L',
            Call::Store { .. } => 'S',
            Call::Read { .. } => 'R',
            Call::Write { .. } => 'W',
            Call::Copy { .. } => 'C',
            Call::Clear { .. } => 'K',
            Call::Same { .. } => 'Q',
            Call::Shape { .. } => 'H',
            Call::Schedule { .. } => 'E',
            Call::Next { .. } => 'N',
            Call::Begin => 'B',
            Call::Step { .. } => 'G',
            Call::Count => 'T',
        }
    }

    /// The refusal that the call's numbers alone bring about, with so many places in the holder.
    pub fn input_refusal(&self, places: usize) -> Option<Refusal> {
        let outside = |place: u32| place as usize >= places;
        let (first, second) = match *self {
            Call::Make { place, .. } => (Some(place), None),
            Call::Load { into, from, .. } => (Some(into), Some(from)),
            Call::Store { into, from, .. } => (Some(into), Some(from)),
            Call::Read { from, .. } => (Some(from), None),
            Call::Write { into, .. } => (Some(into), None),
            Call::Copy { into, from } => (Some(into), Some(from)),
            Call::Clear { place } => (Some(place), None),
            Call::Same { left, right } => (Some(left), Some(right)),
            Call::Shape { place } => (Some(place), None),
            Call::Schedule { place, .. } => (Some(place), None),
            Call::Next { into } => (Some(into), None),
            Call::Begin | Call::Step { .. } | Call::Count => (None, None),
        };
        if first.is_some_and(outside) || second.is_some_and(outside) {
            return Some(Refusal::NoSuchPlace);
        }
        match *self {
            Call::Make { references, words, .. } if references as u64 + words as u64 > 30 => Some(Refusal::TooLarge),
            _ => None,
        }
    }
}

/// Prints the reply to a call, with its line feed.
pub fn print_reply(output: &mut Vec<u8>, letter: char, reply: Reply) {
    use std::io::Write;
    let printed = match reply {
        Err(refusal) => writeln!(output, "{letter}\tno\t{}", refusal as u32),
        Ok(Answer::Done) => writeln!(output, "{letter}\tok"),
        Ok(Answer::Word(value)) => writeln!(output, "{letter}\tok\t{value}"),
        Ok(Answer::Same(same)) => writeln!(output, "{letter}\tok\t{}", same as u32),
        Ok(Answer::Shape { references, words }) => {
            writeln!(output, "{letter}\tok\t{references}\t{words}")
        }
        Ok(Answer::Time(time)) => writeln!(output, "{letter}\tok\t{time}"),
        Ok(Answer::Progress { done, total, unfinished }) => {
            writeln!(output, "{letter}\tok\t{done}\t{total}\t{}", unfinished as u32)
        }
        Ok(Answer::Counts { current, husks, uncut, closed }) => {
            writeln!(output, "{letter}\tok\t{current}\t{husks}\t{uncut}\t{closed}")
        }
    };
    printed.expect("a vector takes every byte");
}

/// Answers a whole script: `perform` carries out each call.
pub fn run_script(input: &[u8], mut perform: impl FnMut(&Call) -> Reply) -> Vec<u8> {
    let mut output = Vec::new();
    for line in lines_of(input) {
        match read_line(line) {
            Line::Call(call) => match perform(&call) {
                Err(Refusal::NoCall) => print_reply(&mut output, '-', Err(Refusal::NoCall)),
                reply => print_reply(&mut output, call.letter(), reply),
            },
            Line::Remark(remark) => {
                output.extend_from_slice(remark);
                output.push(b'\n');
            }
            Line::NoCall => print_reply(&mut output, '-', Err(Refusal::NoCall)),
        }
    }
    output
}
