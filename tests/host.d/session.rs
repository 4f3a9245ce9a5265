// A host of both ends in Rust. First a tape from standard input on a printer end, with the lines that `replay` prints. Then the
// two sessions of session.c, in which each end is given what the other sends.
#[path = "../../include/prambow.rs"]
mod prambow;
use prambow::{Bulletin, Outcome, Printer, BM, CHAR, ENABLE_OURS, PAPER_ROOM, WIRE_ROOM};
use std::io::Read;

const MACRO: u8 = 0x80;

fn hex(bytes: &[u8]) -> String {
    if bytes.is_empty() {
        return "-".to_string();
    }
    bytes.iter().map(|b| format!("{:02X}", b)).collect()
}

struct Host {
    printer: Printer,
    bulletin: Bulletin,
    paper: [u8; PAPER_ROOM],
    wire: [u8; WIRE_ROOM],
    line: Vec<u8>, // what one end sent, and the other is to read
}

impl Host {
    fn new() -> Host {
        Host {
            printer: Printer::fresh(),
            bulletin: Bulletin::fresh(),
            paper: [0; PAPER_ROOM],
            wire: [0; WIRE_ROOM],
            line: Vec::new(),
        }
    }

    fn run_tape(&mut self, tape: &[u8]) {
        let (mut at, mut field) = (0, 1);
        while at + 3 <= tape.len() {
            let (tag, size) = (tape[at], 256 * tape[at + 1] as usize + tape[at + 2] as usize);
            let body = &tape[at + 3..at + 3 + size];
            for (i, b) in body.chunks(if tag == 1 { 1 } else { 2 }).enumerate() {
                let (paper, wire) = (&mut self.paper, &mut self.wire);
                let o = match tag {
                    1 => self.printer.network_byte(b[0], paper, wire),
                    2 => self.printer.press(b[0], b[1], paper, wire),
                    _ => self.printer.ask(b[0], b[1], paper, wire),
                };
                if o.code != 0 || o.first != 0 || o.wire != 0 {
                    println!("{}.{} {} {} {}", field, i + 1, o.code, hex(&paper[..o.first]), hex(&wire[..o.wire]));
                }
            }
            at += 3 + size;
            field += 1;
        }
    }

    // A call's answer, and its wire bytes put on the line.
    fn answered(&mut self, o: Outcome) {
        let (paper, wire) = (&self.paper[..o.first], &self.wire[..o.wire]);
        if o.code != 0 || o.note != 0 || o.first != 0 || o.wire != 0 {
            println!("{} {} {} {}", o.code, o.note, hex(paper), hex(wire));
        }
        self.line.extend_from_slice(wire);
    }

    // What stands on the line is read by an end, as it would come from a socket, but for a byte that is lost. Buffers of just the
    // size that code 1 asks for end a run behind each byte that writes, so every answer is seen.
    fn read_line(&mut self, at_printer: bool, lost: Option<usize>) {
        let mut came = std::mem::take(&mut self.line);
        if let Some(i) = lost {
            came.remove(i);
        }
        let mut at = 0;
        while at < came.len() {
            let r = if at_printer {
                self.printer.network_bytes(&came[at..], &mut self.paper, &mut self.wire)
            } else {
                self.bulletin.network_bytes(&came[at..], &mut self.paper, &mut self.wire)
            };
            self.answered(Outcome { code: r.code, note: r.note, first: r.first, wire: r.wire });
            at += r.taken;
        }
    }

    fn define(&mut self, text: &[u8], lost: Option<usize>) {
        let o = self.bulletin.define(MACRO, text, &mut self.wire);
        self.answered(o);
        self.read_line(true, lost);
        self.read_line(false, None);
    }

    fn use_macro(&mut self) {
        let o = self.bulletin.use_macro(MACRO, &mut self.wire);
        self.answered(o);
        self.read_line(true, None);
    }

    fn print_text(&mut self, text: &[u8]) {
        for b in text {
            let o = self.bulletin.text_item(CHAR, *b, &mut self.wire);
            self.answered(o);
        }
        self.read_line(true, None);
    }

    fn set_issue(&mut self, n: u16) {
        let o = self.bulletin.issue(n, &mut self.wire);
        self.answered(o);
    }

    fn standing(&self) {
        let s = self.bulletin.macro_standing(MACRO);
        println!("standing {} {} {}", s.status, s.kept, s.present);
    }

    // Both ends agree on BM.
    fn begin(&mut self) {
        let o = self.bulletin.ask(BM, ENABLE_OURS, &mut self.wire);
        self.answered(o);
        self.read_line(true, None);
        self.read_line(false, None);
    }

    // Of a new text a byte is lost.
    fn run_macros(&mut self) {
        self.begin();
        self.define(b"OLD", None);
        self.use_macro();
        self.define(b"NEW", Some(6));
        self.use_macro();
        self.print_text(&[MACRO]);
        self.standing();
    }

    // A paragraph of issue 16 is not used in issue 17.
    fn run_issues(&mut self) {
        self.begin();
        self.set_issue(16);
        self.define(b"GALE", None);
        self.use_macro();
        self.set_issue(17);
        self.use_macro();
        self.standing();
        self.print_text(b"CALM");
        self.define(b"CALM", None);
        self.use_macro();
        self.standing();
    }
}

fn main() {
    let mut tape = Vec::new();
    std::io::stdin().read_to_end(&mut tape).expect("a tape on standard input");
    Host::new().run_tape(&tape);
    Host::new().run_macros();
    Host::new().run_issues();
}
