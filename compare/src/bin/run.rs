//! The run program: event lines on standard input, answer lines on standard
//! output, in constant memory.

use compare::machine::{empty, Event, Machine, COMMIT, FIELDS};
use std::io::{self, Read, Write};
use std::process;

/// Bytes asked for in one read, and about the bytes of one write.
const CHUNK: usize = 64 * 1024;
/// No line longer than this can be read.
const LINE_MOST: usize = 64;

/// Reads the event of one line, given without its LF.
fn read_event(line: &[u8]) -> Option<Event> {
    if line.len() > LINE_MOST {
        return None;
    }
    let mut numbers = line.split(|&byte| byte == b' ').map(read_number);
    let kind = numbers.next()??;
    if kind == 0 {
        return None;
    }
    let count = *FIELDS.get(kind as usize)?;
    let mut fields = [0; 4];
    for field in &mut fields[..count] {
        *field = numbers.next()??;
    }
    match numbers.next() {
        Some(_) => None,
        None => Some(Event { kind, fields }),
    }
}

/// 1 to 10 digits, no leading zero but in 0 itself, within 32 bits.
fn read_number(digits: &[u8]) -> Option<u32> {
    if digits.is_empty() || digits.len() > 10 || (digits[0] == b'0' && digits.len() > 1) {
        return None;
    }
    let mut number: u64 = 0;
    for &digit in digits {
        if !digit.is_ascii_digit() {
            return None;
        }
        number = number * 10 + u64::from(digit - b'0');
    }
    if number > u64::from(u32::MAX) {
        return None;
    }
    Some(number as u32)
}

fn write_number(out: &mut Vec<u8>, mut number: u64) {
    let mut digits = [0; 20];
    let mut start = digits.len();
    loop {
        start -= 1;
        digits[start] = b'0' + (number % 10) as u8;
        number /= 10;
        if number == 0 {
            break;
        }
    }
    out.extend_from_slice(&digits[start..]);
}

/// The start of a line whose end hasn't been read yet.
struct Unended {
    bytes: [u8; LINE_MOST],
    length: usize,
    /// The line has passed 64 bytes; what follows of it isn't kept.
    too_long: bool,
}

impl Unended {
    fn none() -> Unended {
        Unended {
            bytes: [0; LINE_MOST],
            length: 0,
            too_long: false,
        }
    }

    fn is_none(&self) -> bool {
        self.length == 0 && !self.too_long
    }

    fn add(&mut self, more: &[u8]) {
        let end = self.length + more.len();
        if self.too_long || end > LINE_MOST {
            self.too_long = true;
            return;
        }
        self.bytes[self.length..end].copy_from_slice(more);
        self.length = end;
    }

    fn event(&self) -> Option<Event> {
        if self.too_long {
            return None;
        }
        read_event(&self.bytes[..self.length])
    }
}

struct Run {
    machine: Machine,
    /// Lines answered so far.
    lines: u64,
    answers: Vec<u8>,
    unended: Unended,
}

impl Run {
    fn new() -> Run {
        Run {
            machine: empty(),
            lines: 0,
            answers: Vec::with_capacity(CHUNK + 1024),
            unended: Unended::none(),
        }
    }

    /// Takes what one read gave, and writes all answers that it finishes.
    fn take(&mut self, mut text: &[u8], out: &mut dyn Write) -> io::Result<()> {
        while let Some(end) = text.iter().position(|&byte| byte == b'\n') {
            self.end_line(&text[..end]);
            text = &text[end + 1..];
            if self.answers.len() >= CHUNK {
                self.write_answers(out)?;
            }
        }
        self.unended.add(text);
        self.write_answers(out)
    }

    fn end_line(&mut self, rest: &[u8]) {
        if self.unended.is_none() {
            self.answer(read_event(rest));
            return;
        }
        self.unended.add(rest);
        let event = self.unended.event();
        self.unended = Unended::none();
        self.answer(event);
    }

    /// The last line may lack its LF.
    fn end_input(&mut self, out: &mut dyn Write) -> io::Result<()> {
        if !self.unended.is_none() {
            self.end_line(&[]);
        }
        self.write_answers(out)
    }

    fn answer(&mut self, event: Option<Event>) {
        self.lines += 1;
        write_number(&mut self.answers, self.lines);
        let event = match event {
            Some(event) => event,
            None => {
                self.answers.extend_from_slice(b" 3 0\n");
                return;
            }
        };
        let answer = self.machine.step(event);
        self.word(answer.code);
        self.word(answer.value);
        if event.kind == COMMIT && answer.code == 0 {
            for place in 0..3 * answer.value as usize {
                self.word(self.machine.output[place]);
            }
        }
        self.answers.push(b'\n');
    }

    fn word(&mut self, number: u32) {
        self.answers.push(b' ');
        write_number(&mut self.answers, u64::from(number));
    }

    fn write_answers(&mut self, out: &mut dyn Write) -> io::Result<()> {
        if !self.answers.is_empty() {
            out.write_all(&self.answers)?;
            out.flush()?;
            self.answers.clear();
        }
        Ok(())
    }
}

fn run(input: &mut dyn Read, out: &mut dyn Write) -> io::Result<()> {
    let mut run = Run::new();
    let mut chunk = vec![0; CHUNK];
    loop {
        match input.read(&mut chunk) {
            Ok(0) => return run.end_input(out),
            Ok(length) => run.take(&chunk[..length], out)?,
            Err(ref error) if error.kind() == io::ErrorKind::Interrupted => {}
            Err(error) => return Err(error),
        }
    }
}

fn main() {
    let (input, out) = (io::stdin(), io::stdout());
    if let Err(error) = run(&mut input.lock(), &mut out.lock()) {
        // A reader that has gone away needs no message.
        if error.kind() != io::ErrorKind::BrokenPipe {
            eprintln!("run: {}", error);
        }
        process::exit(1);
    }
}

#[cfg(test)]
mod tests {
    use super::{run, CHUNK};
    use std::io::{self, Read};

    /// Gives at most so many bytes in one read.
    struct Slow<'a> {
        text: &'a [u8],
        most: usize,
    }

    impl<'a> Read for Slow<'a> {
        fn read(&mut self, into: &mut [u8]) -> io::Result<usize> {
            let length = self.most.min(into.len()).min(self.text.len());
            into[..length].copy_from_slice(&self.text[..length]);
            self.text = &self.text[length..];
            Ok(length)
        }
    }

    fn answers(text: &[u8], most: usize) -> String {
        let mut out = Vec::new();
        run(&mut Slow { text, most }, &mut out).unwrap();
        String::from_utf8(out).unwrap()
    }

    #[test]
    fn where_reads_end_makes_no_difference() {
        let mut text = b"1 5 1001 1100 0\n2 0 0\n\n3 0 5\r\n3 0 5\n5 0 5 40\n".to_vec();
        text.extend_from_slice(&[b'7'; 64]);
        text.push(b'\n');
        text.extend_from_slice(&[b'7'; 65]);
        text.extend_from_slice(b"\n7 0\n9 5 0 3");
        let whole = "1 0 0\n2 0 0\n3 3 0\n4 3 0\n5 0 0\n6 0 0\n7 3 0\n8 3 0\n\
                     9 0 1 5 1001 40\n10 0 1\n";
        for most in 1..text.len() + 1 {
            assert_eq!(answers(&text, most), whole);
        }
    }

    #[test]
    fn unreadable_lines() {
        let lines: [&[u8]; 22] = [
            b"", b" ", b"7", b"7 ", b" 7 0", b"7  0", b"7 0 ", b"7 0 0", b"07 0", b"7 00",
            b"7 0\r", b"7\t0", b"+7 0", b"7 -0", b"seven 0", b"7 4294967296", b"7 00000000000",
            b"0", b"18", b"4294967295", b"7 0\0", b"\xff\xfe",
        ];
        for line in &lines {
            let text = [line, &b"\n17 0\n"[..]].concat();
            assert_eq!(answers(&text, CHUNK), "1 3 0\n2 7 0\n", "{:?}", line);
        }
    }

    #[test]
    fn numbers_up_to_32_bits_are_read() {
        // Read, and then a bad event: no such job.
        assert_eq!(answers(b"7 4294967295\n", CHUNK), "1 3 0\n");
        // 5 for a job that isn't open shows that the line was read.
        assert_eq!(answers(b"7 15\n", CHUNK), "1 5 0\n");
    }

    #[test]
    fn ends_of_the_input() {
        assert_eq!(answers(b"", CHUNK), "");
        assert_eq!(answers(b"\n", CHUNK), "1 3 0\n");
        assert_eq!(answers(b"17 0", CHUNK), "1 7 0\n");
        assert_eq!(answers(b"17 0\n", CHUNK), "1 7 0\n");
        assert_eq!(answers(b"17 0\n\n", CHUNK), "1 7 0\n2 3 0\n");
    }

    #[test]
    fn a_line_longer_than_any_buffer_is_one_line() {
        let mut text = vec![b'1'; 3 * CHUNK];
        text.extend_from_slice(b"\n17 0\n");
        text.extend_from_slice(&vec![b' '; 2 * CHUNK]);
        assert_eq!(answers(&text, CHUNK), "1 3 0\n2 7 0\n3 3 0\n");
    }

    #[test]
    fn more_answers_than_one_write_holds() {
        let text = vec![b'\n'; 2 * CHUNK];
        let out = answers(&text, CHUNK);
        assert_eq!(out.lines().count(), 2 * CHUNK);
        assert!(out.ends_with("\n131072 3 0\n"));
    }
}
