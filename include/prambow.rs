//! Prambow's two ends for a host in Rust: safe calls over libprambow_c.a, which `rt lib` in crates/prambow_c leaves in
//! out. The codes, notes and other numbers are those of prambow.h, with a line on each there. A refused call
//! leaves the session and the buffers as they were; every session is a state, so no call can be made wrongly.
#![allow(dead_code)]

pub const PAPER_ROOM: usize = 1024;
pub const WIRE_ROOM: usize = 4096;

/// The kinds of a key and of a text item.
pub const CHAR: u8 = 0;
pub const LINE: u8 = 1;
pub const COMMAND: u8 = 2;

/// The options, and the ways of asking for one.
pub const ECHO: u8 = 1;
pub const SGA: u8 = 3;
pub const RCTE: u8 = 7;
pub const NAOCRD: u8 = 10;
pub const NAOHTD: u8 = 12;
pub const NAOFFD: u8 = 13;
pub const NAOLFD: u8 = 16;
pub const BM: u8 = 19;
pub const DISABLE_HIS: u8 = 0;
pub const ENABLE_HIS: u8 = 1;
pub const DISABLE_OURS: u8 = 2;
pub const ENABLE_OURS: u8 = 3;

/// What a call answers: a code, a note, bytes on the paper or for the host, bytes on the wire.
#[derive(Clone, Copy, Debug, PartialEq, Eq)]
#[repr(C)]
pub struct Outcome {
    pub code: u32,
    pub note: u32,
    pub first: usize,
    pub wire: usize,
}

/// What a run of network bytes answers: the same, and how many bytes were read; a note is that of the last of them.
#[derive(Clone, Copy, Debug, PartialEq, Eq)]
#[repr(C)]
pub struct Run {
    pub code: u32,
    pub note: u32,
    pub taken: usize,
    pub first: usize,
    pub wire: usize,
}

/// Who handles the character of an option about output disposition, 0 the receiver and 1 the sender, and by which value.
#[derive(Clone, Copy, Debug, PartialEq, Eq)]
#[repr(C)]
pub struct Handling {
    pub who: u8,
    pub value: u8,
}

/// What a report says, of each option about output disposition.
#[derive(Clone, Copy, Debug, PartialEq, Eq)]
#[repr(C)]
pub struct Report {
    pub naocrd: Handling,
    pub naolfd: Handling,
    pub naoffd: Handling,
    pub naohtd: Handling,
}

/// How a macro byte stands: its status (0 free, 1 pending, 2 pending as itself, 3 accepted, 4 refused), the issue that its last
/// DEFINE kept (0 without one), and the issue in force. A use of it needs 3 and two equal numbers.
#[derive(Clone, Copy, Debug, PartialEq, Eq)]
#[repr(C)]
pub struct Standing {
    pub status: u8,
    pub kept: u16,
    pub present: u16,
}

/// A session of the printer end, which is keyboard and paper.
#[derive(Clone)]
#[repr(C)]
pub struct Printer {
    counts: [usize; 3],
    classes: [u16; 2],
    marks: [u16; 256],
    waiting: [u16; 256],
    body: [u8; 260],
    cells: [u8; 1024],
    gathered: [u8; 512],
    small: [u8; 22],
}

/// A session of the bulletin end, which is the serving host.
#[derive(Clone)]
#[repr(C)]
pub struct Bulletin {
    counts: [usize; 1],
    issue: [u16; 1],
    marks: [u16; 256],
    kept: [u16; 256],
    body: [u8; 260],
    statuses: [u8; 256],
    cells: [u8; 1024],
    small: [u8; 23],
}

extern "C" {
    fn prambow_printer_fresh_arrays(
        small: &mut [u8; 22], classes: &mut [u16; 2], counts: &mut [usize; 3], body: &mut [u8; 260],
        marks: &mut [u16; 256], cells: &mut [u8; 1024], waiting: &mut [u16; 256], gathered: &mut [u8; 512],
    );
    fn prambow_printer_network_byte_arrays(
        small: &mut [u8; 22], classes: &mut [u16; 2], counts: &mut [usize; 3], body: &mut [u8; 260],
        marks: &mut [u16; 256], cells: &mut [u8; 1024], waiting: &mut [u16; 256], gathered: &mut [u8; 512], b: u8,
        paper: *mut u8, paper_len: usize, wire: *mut u8, wire_len: usize,
    ) -> Outcome;
    fn prambow_printer_network_bytes_arrays(
        small: &mut [u8; 22], classes: &mut [u16; 2], counts: &mut [usize; 3], body: &mut [u8; 260],
        marks: &mut [u16; 256], cells: &mut [u8; 1024], waiting: &mut [u16; 256], gathered: &mut [u8; 512],
        bytes: *const u8, bytes_len: usize, paper: *mut u8, paper_len: usize, wire: *mut u8, wire_len: usize,
    ) -> Run;
    fn prambow_printer_press_arrays(
        small: &mut [u8; 22], classes: &mut [u16; 2], counts: &mut [usize; 3], body: &mut [u8; 260],
        marks: &mut [u16; 256], cells: &mut [u8; 1024], waiting: &mut [u16; 256], gathered: &mut [u8; 512], kind: u8,
        b: u8, paper: *mut u8, paper_len: usize, wire: *mut u8, wire_len: usize,
    ) -> Outcome;
    fn prambow_printer_ask_arrays(
        small: &mut [u8; 22], classes: &mut [u16; 2], counts: &mut [usize; 3], body: &mut [u8; 260],
        marks: &mut [u16; 256], cells: &mut [u8; 1024], waiting: &mut [u16; 256], gathered: &mut [u8; 512], option: u8,
        way: u8, paper: *mut u8, paper_len: usize, wire: *mut u8, wire_len: usize,
    ) -> Outcome;
    fn prambow_printer_suggest_arrays(
        small: &mut [u8; 22], classes: &mut [u16; 2], counts: &mut [usize; 3], body: &mut [u8; 260],
        marks: &mut [u16; 256], cells: &mut [u8; 1024], waiting: &mut [u16; 256], gathered: &mut [u8; 512], option: u8,
        value: u8, paper: *mut u8, paper_len: usize, wire: *mut u8, wire_len: usize,
    ) -> Outcome;
    fn prambow_printer_report_arrays(small: &[u8; 22]) -> Report;
    fn prambow_printer_waiting_arrays(counts: &[usize; 3]) -> usize;
    fn prambow_bulletin_fresh_arrays(
        small: &mut [u8; 23], counts: &mut [usize; 1], body: &mut [u8; 260], statuses: &mut [u8; 256],
        marks: &mut [u16; 256], cells: &mut [u8; 1024], issue: &mut [u16; 1], kept: &mut [u16; 256],
    );
    fn prambow_bulletin_network_byte_arrays(
        small: &mut [u8; 23], counts: &mut [usize; 1], body: &mut [u8; 260], statuses: &mut [u8; 256],
        marks: &mut [u16; 256], cells: &mut [u8; 1024], issue: &mut [u16; 1], kept: &mut [u16; 256], b: u8,
        host: *mut u8, host_len: usize, wire: *mut u8, wire_len: usize,
    ) -> Outcome;
    fn prambow_bulletin_network_bytes_arrays(
        small: &mut [u8; 23], counts: &mut [usize; 1], body: &mut [u8; 260], statuses: &mut [u8; 256],
        marks: &mut [u16; 256], cells: &mut [u8; 1024], issue: &mut [u16; 1], kept: &mut [u16; 256],
        bytes: *const u8, bytes_len: usize, host: *mut u8, host_len: usize, wire: *mut u8, wire_len: usize,
    ) -> Run;
    fn prambow_bulletin_ask_arrays(
        small: &mut [u8; 23], counts: &mut [usize; 1], body: &mut [u8; 260], statuses: &mut [u8; 256],
        marks: &mut [u16; 256], cells: &mut [u8; 1024], issue: &mut [u16; 1], kept: &mut [u16; 256], option: u8,
        way: u8, wire: *mut u8, wire_len: usize,
    ) -> Outcome;
    fn prambow_bulletin_suggest_arrays(
        small: &mut [u8; 23], counts: &mut [usize; 1], body: &mut [u8; 260], statuses: &mut [u8; 256],
        marks: &mut [u16; 256], cells: &mut [u8; 1024], issue: &mut [u16; 1], kept: &mut [u16; 256], option: u8,
        value: u8, wire: *mut u8, wire_len: usize,
    ) -> Outcome;
    fn prambow_bulletin_order_arrays(
        small: &mut [u8; 23], counts: &mut [usize; 1], body: &mut [u8; 260], statuses: &mut [u8; 256],
        marks: &mut [u16; 256], cells: &mut [u8; 1024], issue: &mut [u16; 1], kept: &mut [u16; 256], cmd: u8,
        breaks: u16, sends: u16, wire: *mut u8, wire_len: usize,
    ) -> Outcome;
    fn prambow_bulletin_define_arrays(
        small: &mut [u8; 23], counts: &mut [usize; 1], body: &mut [u8; 260], statuses: &mut [u8; 256],
        marks: &mut [u16; 256], cells: &mut [u8; 1024], issue: &mut [u16; 1], kept: &mut [u16; 256], x: u8,
        text: *const u8, text_len: usize, wire: *mut u8, wire_len: usize,
    ) -> Outcome;
    fn prambow_bulletin_use_macro_arrays(
        small: &mut [u8; 23], counts: &mut [usize; 1], body: &mut [u8; 260], statuses: &mut [u8; 256],
        marks: &mut [u16; 256], cells: &mut [u8; 1024], issue: &mut [u16; 1], kept: &mut [u16; 256], x: u8,
        wire: *mut u8, wire_len: usize,
    ) -> Outcome;
    fn prambow_bulletin_text_item_arrays(
        small: &mut [u8; 23], counts: &mut [usize; 1], body: &mut [u8; 260], statuses: &mut [u8; 256],
        marks: &mut [u16; 256], cells: &mut [u8; 1024], issue: &mut [u16; 1], kept: &mut [u16; 256], kind: u8, b: u8,
        wire: *mut u8, wire_len: usize,
    ) -> Outcome;
    fn prambow_bulletin_issue_arrays(
        small: &mut [u8; 23], counts: &mut [usize; 1], body: &mut [u8; 260], statuses: &mut [u8; 256],
        marks: &mut [u16; 256], cells: &mut [u8; 1024], issue: &mut [u16; 1], kept: &mut [u16; 256], n: u16,
        wire: *mut u8, wire_len: usize,
    ) -> Outcome;
    fn prambow_bulletin_macro_standing_arrays(
        small: &[u8; 23], statuses: &[u8; 256], issue: &[u16; 1], kept: &[u16; 256], x: u8,
    ) -> Standing;
    fn prambow_bulletin_report_arrays(small: &[u8; 23]) -> Report;
    fn prambow_bulletin_output_arrays(small: &[u8; 23]) -> u8;
}

// A call on the arrays of a session.
macro_rules! on_printer {
    ($s:expr, $call:ident $(, $given:expr)*) => {
        unsafe { $call(&mut $s.small, &mut $s.classes, &mut $s.counts, &mut $s.body, &mut $s.marks, &mut $s.cells, &mut $s.waiting, &mut $s.gathered $(, $given)*) }
    };
}

// A call on the arrays of a session.
macro_rules! on_bulletin {
    ($s:expr, $call:ident $(, $given:expr)*) => {
        unsafe { $call(&mut $s.small, &mut $s.counts, &mut $s.body, &mut $s.statuses, &mut $s.marks, &mut $s.cells, &mut $s.issue, &mut $s.kept $(, $given)*) }
    };
}

impl Printer {
    /// A fresh end.
    pub fn fresh() -> Printer {
        let mut s = Printer {
            counts: [0; 3],
            classes: [0; 2],
            marks: [0; 256],
            waiting: [0; 256],
            body: [0; 260],
            cells: [0; 1024],
            gathered: [0; 512],
            small: [0; 22],
        };
        on_printer!(s, prambow_printer_fresh_arrays);
        s
    }

    /// A byte from the network. It gives notes, as runs of bytes do, and no other call.
    pub fn network_byte(&mut self, b: u8, paper: &mut [u8], wire: &mut [u8]) -> Outcome {
        on_printer!(
            self,
            prambow_printer_network_byte_arrays,
            b,
            paper.as_mut_ptr(),
            paper.len(),
            wire.as_mut_ptr(),
            wire.len()
        )
    }

    /// Bytes from the network one after the other, each in what the ones before left of the buffers. Stops before a byte for
    /// which a buffer is too small, and behind one that gave a note: call it again with the rest.
    pub fn network_bytes(&mut self, bytes: &[u8], paper: &mut [u8], wire: &mut [u8]) -> Run {
        on_printer!(
            self,
            prambow_printer_network_bytes_arrays,
            bytes.as_ptr(),
            bytes.len(),
            paper.as_mut_ptr(),
            paper.len(),
            wire.as_mut_ptr(),
            wire.len()
        )
    }

    /// A key, by its kind (CHAR, LINE, COMMAND) and its byte.
    pub fn press(&mut self, kind: u8, b: u8, paper: &mut [u8], wire: &mut [u8]) -> Outcome {
        on_printer!(
            self,
            prambow_printer_press_arrays,
            kind,
            b,
            paper.as_mut_ptr(),
            paper.len(),
            wire.as_mut_ptr(),
            wire.len()
        )
    }

    /// Asks for an option or gives it up.
    pub fn ask(&mut self, option: u8, way: u8, paper: &mut [u8], wire: &mut [u8]) -> Outcome {
        on_printer!(
            self,
            prambow_printer_ask_arrays,
            option,
            way,
            paper.as_mut_ptr(),
            paper.len(),
            wire.as_mut_ptr(),
            wire.len()
        )
    }

    /// This end's value of an option about output disposition, DR.
    pub fn suggest(&mut self, option: u8, value: u8, paper: &mut [u8], wire: &mut [u8]) -> Outcome {
        on_printer!(
            self,
            prambow_printer_suggest_arrays,
            option,
            value,
            paper.as_mut_ptr(),
            paper.len(),
            wire.as_mut_ptr(),
            wire.len()
        )
    }

    /// Of each option about output disposition who handles its character, and how.
    pub fn report(&self) -> Report {
        unsafe { prambow_printer_report_arrays(&self.small) }
    }

    /// How many keys wait, up to 256.
    pub fn waiting(&self) -> usize {
        unsafe { prambow_printer_waiting_arrays(&self.counts) }
    }
}

impl Bulletin {
    /// A fresh end.
    pub fn fresh() -> Bulletin {
        let mut s = Bulletin {
            counts: [0; 1],
            issue: [0; 1],
            marks: [0; 256],
            kept: [0; 256],
            body: [0; 260],
            statuses: [0; 256],
            cells: [0; 1024],
            small: [0; 23],
        };
        on_bulletin!(s, prambow_bulletin_fresh_arrays);
        s
    }

    /// A byte from the network. It gives notes, as runs of bytes do, and no other call.
    pub fn network_byte(&mut self, b: u8, host: &mut [u8], wire: &mut [u8]) -> Outcome {
        on_bulletin!(
            self,
            prambow_bulletin_network_byte_arrays,
            b,
            host.as_mut_ptr(),
            host.len(),
            wire.as_mut_ptr(),
            wire.len()
        )
    }

    /// Bytes from the network one after the other, as at the printer end.
    pub fn network_bytes(&mut self, bytes: &[u8], host: &mut [u8], wire: &mut [u8]) -> Run {
        on_bulletin!(
            self,
            prambow_bulletin_network_bytes_arrays,
            bytes.as_ptr(),
            bytes.len(),
            host.as_mut_ptr(),
            host.len(),
            wire.as_mut_ptr(),
            wire.len()
        )
    }

    /// Asks for an option or gives it up.
    pub fn ask(&mut self, option: u8, way: u8, wire: &mut [u8]) -> Outcome {
        on_bulletin!(self, prambow_bulletin_ask_arrays, option, way, wire.as_mut_ptr(), wire.len())
    }

    /// This end's value of an option about output disposition, DS.
    pub fn suggest(&mut self, option: u8, value: u8, wire: &mut [u8]) -> Outcome {
        on_bulletin!(self, prambow_bulletin_suggest_arrays, option, value, wire.as_mut_ptr(), wire.len())
    }

    /// An RCTE command; with 8 in cmd the break classes are sent, with 16 the transmission classes.
    pub fn order(&mut self, cmd: u8, breaks: u16, sends: u16, wire: &mut [u8]) -> Outcome {
        on_bulletin!(self, prambow_bulletin_order_arrays, cmd, breaks, sends, wire.as_mut_ptr(), wire.len())
    }

    /// A macro byte's new text.
    pub fn define(&mut self, x: u8, text: &[u8], wire: &mut [u8]) -> Outcome {
        on_bulletin!(self, prambow_bulletin_define_arrays, x, text.as_ptr(), text.len(), wire.as_mut_ptr(), wire.len())
    }

    /// An accepted macro, by its byte.
    pub fn use_macro(&mut self, x: u8, wire: &mut [u8]) -> Outcome {
        on_bulletin!(self, prambow_bulletin_use_macro_arrays, x, wire.as_mut_ptr(), wire.len())
    }

    /// A text item, given as a key is.
    pub fn text_item(&mut self, kind: u8, b: u8, wire: &mut [u8]) -> Outcome {
        on_bulletin!(self, prambow_bulletin_text_item_arrays, kind, b, wire.as_mut_ptr(), wire.len())
    }

    /// The forecast issue is n from now on; in a fresh end it is 0. It writes nothing, and is lent a wire buffer all the same.
    pub fn issue(&mut self, n: u16, wire: &mut [u8]) -> Outcome {
        on_bulletin!(self, prambow_bulletin_issue_arrays, n, wire.as_mut_ptr(), wire.len())
    }

    /// How the last DEFINE of a byte stands, the issue that it kept, and the issue in force.
    pub fn macro_standing(&self, x: u8) -> Standing {
        unsafe { prambow_bulletin_macro_standing_arrays(&self.small, &self.statuses, &self.issue, &self.kept, x) }
    }

    /// Of each option about output disposition who handles its character, and how.
    pub fn report(&self) -> Report {
        unsafe { prambow_bulletin_report_arrays(&self.small) }
    }

    /// Whether output waits for a byte from the printer end: 0 ready, 1 waiting.
    pub fn output(&self) -> u8 {
        unsafe { prambow_bulletin_output_arrays(&self.small) }
    }
}
