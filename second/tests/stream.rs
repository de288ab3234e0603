//! The stream of calls for a test program, and what that program must print.

mod common;

use common::folder::folder;
use second::cases::{expected, hash, stream};
use second::state::Answer;
use second::{compare, listing, Report, State};
use std::path::Path;

/// A test program: it plays a stream on this checker and prints what came.
struct Player<'a> {
    left: &'a [u8],
    state: State,
    cases: usize,
    printed: String,
}

impl<'a> Player<'a> {
    fn bytes(&mut self, count: usize) -> &'a [u8] {
        let (taken, left) = self.left.split_at(count);
        self.left = left;
        taken
    }

    /// A number of `size` bytes, high byte first.
    fn number(&mut self, size: usize) -> u64 {
        self.bytes(size)
            .iter()
            .fold(0, |number, &byte| number << 8 | u64::from(byte))
    }

    fn counted_bytes(&mut self) -> &'a [u8] {
        let count = self.number(4) as usize;
        self.bytes(count)
    }

    fn line(&mut self, line: String) {
        self.printed += &line;
        self.printed.push('\n');
    }

    fn case(&mut self) {
        self.line(format!("case {}", self.cases));
        self.cases += 1;
        self.state = State::fresh();
    }

    fn hand(&mut self) {
        let bytes = self.counted_bytes();
        assert!(bytes.len() <= State::CAPACITY);
        let length = self.number(8) as usize;
        let mode = self.number(1) as u8;
        self.state = State::by_hand(bytes, length, mode);
    }

    fn load(&mut self) {
        let bytes = self.counted_bytes();
        let verdict = self.state.load(bytes);
        let (mode, length) = (self.state.mode, self.state.length);
        let mut line = format!("load {}", verdict.report);
        if verdict.report.number == 0 {
            line += &format!(" overflow {}", verdict.overflows);
        }
        self.line(format!("{line} mode {mode} length {length}"));
    }

    fn query(&mut self) {
        let scale = self.number(4) as u32;
        let count = self.number(2);
        let queues: Vec<u32> = (0..count).map(|_| self.number(4) as u32).collect();
        let answer = self.state.query(&queues, scale);
        self.answer("query", answer);
    }

    fn poll(&mut self) {
        let bytes = self.counted_bytes();
        assert!(bytes.len() <= 1_024);
        let answer = self.state.poll(bytes);
        self.answer("poll", answer);
    }

    fn answer(&mut self, call: &str, answer: Answer) {
        self.line(format!(
            "{call} {} signal {} green {} mode {}",
            answer.report, answer.signal, answer.green, self.state.mode
        ));
    }

    fn write(&mut self) {
        let size = self.number(4) as usize;
        let start = self.number(8) as usize;
        let mut buffer: Vec<u8> = (0..size).map(|i| ((i * 7 + 3) % 256) as u8).collect();
        let report = self.state.write(&mut buffer, start);
        self.line(format!("write {report} sum {}", hash(&buffer)));
    }

    fn list(&mut self) {
        let (text, _) = listing(self.counted_bytes());
        assert!(text.len() <= 131_072);
        let report = Report::at(0, text.len());
        self.line(format!("list {report}"));
        self.printed += &text;
    }

    /// Both lengths stand before the bytes of the first certificate.
    fn compare(&mut self) {
        let counts = [self.number(4) as usize, self.number(4) as usize];
        let [first, second] = counts.map(|count| self.bytes(count));
        let answer = compare(first, second);
        self.line(format!("compare {} {}", answer.report(), answer.word()));
    }
}

fn play(stream: &[u8]) -> String {
    let mut player = Player {
        left: stream,
        state: State::fresh(),
        cases: 0,
        printed: String::new(),
    };
    loop {
        match player.number(1) as u8 {
            b'C' => player.case(),
            b'F' => player.state = State::fresh(),
            b'S' => player.hand(),
            b'L' => player.load(),
            b'Q' => player.query(),
            b'P' => player.poll(),
            b'W' => player.write(),
            b'T' => player.list(),
            b'M' => player.compare(),
            b'E' => break,
            other => panic!("mark {other}"),
        }
    }
    assert!(player.left.is_empty());
    player.printed
}

/// Playing the stream gives what is expected of it.
fn plays(folder: &Path) {
    assert_eq!(play(&stream(folder).unwrap()), expected(folder).unwrap());
}

#[test]
fn stored_cases_play() {
    let package = Path::new(env!("CARGO_MANIFEST_DIR"));
    plays(&package.join("../cases"));
    plays(&package.join("tests/data"));
}

#[test]
fn own_comparisons_play() {
    let package = Path::new(env!("CARGO_MANIFEST_DIR"));
    plays(&package.join("tests/data/comparisons"));
}

#[test]
fn hashes() {
    assert_eq!(hash(b""), 0x811C_9DC5);
    assert_eq!(hash(b"a"), 0xE40C_292C);
    assert_eq!(hash(b"foobar"), 0xBF9C_F968);
}

const SMALL: &str = "\
paper p
  bytes 41 42
  end
paper q from p
  cut 1
case one
  load q
  load q
  write buffer 3 start 258
case two
  fresh
  state q mode 9
  state p length 4294967298 mode 3
  query scale 65536 queues 1 4294967295
  query scale 1 queues none
  poll 4014000000000000 fault FE
  poll bytes 01 02 FF
  poll bytes none
  write buffer 1 start 0
  list q
";

const SMALL_DUE: &str = "\
case one
  load 1 0 0 0 mode 0 length 0
  load 0 1 2 3 overflow 4 mode 5 length 6
  write 18 0 0 0 kept
case two
  query 18 0 0 0 signal 0 green 00 mode 3
  query 0 1 2 3 signal 4 green FE mode 5
  poll 21 7 2 3 signal 15 green FD mode 255
  poll 18 0 0 0 signal 0 green 00 mode 3
  poll 20 1 0 0 signal 0 green 00 mode 0
  write 0 1 0 0 holds q from 0
  list
  | refused 1 0 0 0
";

/// Byte for byte, and by the due results alone: some of them are not what a checker would answer.
#[test]
fn small_stream() {
    let folder = folder("stream-small", SMALL, SMALL_DUE);
    let head = b"HD\0\0\0\x01\0\0\0";
    let mut due = b"CL\0\0\0\x01HL\0\0\0\x01HW\0\0\0\x03\0\0\0\0\0\0\x01\x02".to_vec();
    due.extend(b"CFS\0\0\0\x01H\0\0\0\0\0\0\0\x01\x09S\0\0\0\x0D");
    due.extend(head);
    due.extend(b"ABZZ\0\0\0\x01\0\0\0\x02\x03");
    due.extend(b"Q\0\x01\0\0\0\x02\0\0\0\x01\xFF\xFF\xFF\xFFQ\0\0\0\x01\0\0");
    due.extend(b"P\0\0\0\x12\0\x40\x14\0\0\0\0\0\0\x01\xFE\0\0\0\0\0\0\0");
    due.extend(b"P\0\0\0\x03\x01\x02\xFFP\0\0\0\0");
    due.extend(b"W\0\0\0\x01\0\0\0\0\0\0\0\0T\0\0\0\x01HE");
    assert_eq!(stream(&folder).unwrap(), due);
    let (kept, held) = (hash(&[3, 10, 17]), hash(b"H"));
    let text = format!(
        "case 0\nload 1 0 0 0 mode 0 length 0\nload 0 1 2 3 overflow 4 mode 5 length 6\n\
         write 18 0 0 0 sum {kept}\n\
         case 1\nquery 18 0 0 0 signal 0 green 0 mode 3\nquery 0 1 2 3 signal 4 green 254 mode 5\n\
         poll 21 7 2 3 signal 15 green 253 mode 255\npoll 18 0 0 0 signal 0 green 0 mode 3\n\
         poll 20 1 0 0 signal 0 green 0 mode 0\n\
         write 0 1 0 0 sum {held}\nlist 0 16 0 0\nrefused 1 0 0 0\n"
    );
    assert_eq!(expected(&folder).unwrap(), text);
}

/// Two comparisons behind these calls, also by their due results alone.
#[test]
fn small_stream_with_comparisons() {
    let before = folder("stream-small-before", SMALL, SMALL_DUE);
    let cases = format!("{SMALL}  compare q p\n  compare p q\n");
    let results = format!("{SMALL_DUE}  compare 1 2 3 4 refused\n  compare 0 0 0 0 second\n");
    let folder = folder("stream-small-compared", &cases, &results);
    let mut due = stream(&before).unwrap();
    assert_eq!(due.pop(), Some(b'E'));
    due.extend(b"M\0\0\0\x01\0\0\0\x0DHHD\0\0\0\x01\0\0\0ABZZ");
    due.extend(b"M\0\0\0\x0D\0\0\0\x01HD\0\0\0\x01\0\0\0ABZZHE");
    assert_eq!(stream(&folder).unwrap(), due);
    let text = "compare 1 2 3 4 refused\ncompare 0 0 0 0 second\n";
    assert_eq!(
        expected(&folder).unwrap(),
        expected(&before).unwrap() + text
    );
}

/// 40,960 bytes may stand in a case, no more; a paper that no case names may be longer.
#[test]
fn longest_paper() {
    let long = |count: usize| {
        let bytes = " 00".repeat(count - 11);
        format!("paper p\n  bytes{bytes}\n  end\npaper q\n  end\n")
    };
    let due = "case c\n  load 3 0 0 0 mode 0 length 0\n";
    let fits = folder(
        "stream-fits",
        &(long(40_960) + "case c\n  state p mode 0\n  fresh\n  load p\n"),
        due,
    );
    plays(&fits);
    let named = long(40_961) + "case c\n  load q\n  state p mode 0\n";
    let named = folder("stream-long", &named, due);
    let message = "x.cases:8: expected at most 40960 bytes, found 40961 in paper p";
    assert!(stream(&named).unwrap_err().ends_with(message));
    assert!(expected(&named).unwrap_err().ends_with(message));
    let unnamed = folder(
        "stream-unnamed",
        &(long(40_961) + "case c\n  load q\n"),
        due,
    );
    plays(&unnamed);
}

/// Each of two certificates that are compared may have 40,960 bytes, no more.
#[test]
fn longest_compared_papers() {
    let long = |name: &str, count: usize| {
        let bytes = " 00".repeat(count - 11);
        format!("paper {name}\n  bytes{bytes}\n  end\n")
    };
    let papers = long("p", 40_960) + &long("q", 40_961);
    let due = "case c\n  compare 3 0 0 0 refused\n";
    let calls = |line: &str| format!("{papers}case c\n  {line}\n");
    plays(&folder("stream-compared", &calls("compare p p"), due));
    for line in ["compare p q", "compare q p", "compare q q"] {
        let folder = folder("stream-compared-long", &calls(line), due);
        let message = "x.cases:8: expected at most 40960 bytes, found 40961 in paper q";
        assert!(stream(&folder).unwrap_err().ends_with(message));
        assert!(expected(&folder).unwrap_err().ends_with(message));
    }
}

#[test]
fn due_certificate_without_room() {
    let cases = "paper p\n  end\ncase c\n  write buffer 3 start 0\n";
    let folder = folder(
        "stream-room",
        cases,
        "case c\n  write 0 11 0 0 holds p from 0\n",
    );
    let message = "x.cases:4: expected a buffer with room for the due certificate";
    assert!(expected(&folder).unwrap_err().ends_with(message));
    assert!(stream(&folder).is_ok());
}

/// 1,024 bytes may stand in a poll, no more.
#[test]
fn longest_poll() {
    let case = |count: usize| format!("case c\n  poll bytes{}\n", " 00".repeat(count));
    let due = "case c\n  poll 18 0 0 0 signal 0 green 00 mode 0\n";
    plays(&folder("stream-poll-fits", &case(1_024), due));
    let long = folder("stream-poll-long", &case(1_025), due);
    let message = "x.cases:2: expected at most 1024 bytes, found 1025 in a poll";
    assert!(stream(&long).unwrap_err().ends_with(message));
    assert!(expected(&long).unwrap_err().ends_with(message));
}
