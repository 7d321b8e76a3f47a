//! Both servers over the same sessions, through the public API: `handle_next` to its error.
use std::cell::{Cell, RefCell};
use std::fs;
use std::io::{self, BufRead, Write};
use std::panic::{catch_unwind, AssertUnwindSafe};
use std::path::Path;
use std::rc::Rc;

use obex_server::observer::{Observer, Record};
use obex_server::session_file::SessionFile;
use obex_server::{End, Settings};

use crate::hex;
use crate::host::{Host, Log, Options, Shared, Transport, World};
use crate::script::{Script, Session};
use crate::server::Authentication;
use crate::show;
use crate::stops::first_stop;

macro_rules! play {
    ($server:path, $shared:expr, $prepare:expr) => {{
        let shared: Shared = $shared;
        let mut settings = std::mem::take(&mut shared.borrow_mut().session.settings);
        let mut server = <$server>::new(Transport(shared.clone()), Host(shared.clone()));
        if let Some(length) = settings.max_packet_length {
            server = server.with_max_packet_length(length);
        }
        if let Some(size) = settings.max_object_size {
            server = server.with_max_object_size(size);
        }
        server = server.with_single_response_mode(settings.srm_supported);
        if let Some(authentication) = settings.authentication.take() {
            server = server.with_authentication(authentication);
        }
        let mut server = $prepare(server);
        loop {
            let result = catch_unwind(AssertUnwindSafe(|| server.handle_next()));
            let log = &mut shared.borrow_mut().log;
            match result {
                Ok(Ok(())) => log.word("done\n"),
                Ok(Err(error)) => {
                    log.word(&format!("end {}\n", show::error(&error)));
                    break;
                }
                Err(_) => {
                    log.word("end panic\n");
                    break;
                }
            }
        }
        drop(server);
        let mut world = shared.borrow_mut();
        (std::mem::take(&mut world.log.text), std::mem::take(&mut world.replies))
    }};
}

thread_local! {
    static NEXT: RefCell<Option<Box<dyn Fn() -> [u8; 16]>>> = const { RefCell::new(None) };
}

fn next() -> [u8; 16] {
    NEXT.with_borrow(|next| next.as_ref().map_or([0; 16], |next| next()))
}

fn shared(session: Session) -> Shared {
    let options = Options { longest: 100_000, all_sent: true };
    Rc::new(RefCell::new(World { session, log: Log { text: Vec::new(), options }, nonces: Vec::new(), replies: Vec::new() }))
}

/// A reply to a Connect that no handler gave: a challenge, or 0x50 in the place of one that was too long.
fn challenges(line: &str) -> bool {
    line.starts_with("out d0000710") || line.starts_with("out c1") && line != "out c10003"
}

/// Where the rule of eight wrong passwords, which the original does not have, first acts in a session
/// of the original. The oracle tells it by a transcript of its own: there a `nonce` line says that a
/// challenge was made, and each operation ends with a `state` line.
fn stop(name: &str, lines: &[String]) -> Option<usize> {
    let handled = ["connect ", "disconnect ", "put ", "get ", "set_path ", "action ", "session ", "user_defined ", "abort "];
    let mut told = vec![(0, format!("start {name}"))];
    let mut asked = false;
    for (at, line) in lines.iter().enumerate() {
        asked |= handled.iter().any(|word| line.starts_with(word));
        if line.starts_with("done") || line.starts_with("end") {
            told.push((at, "state ".to_string()));
            asked = false;
        } else if !asked && challenges(line) {
            told.push((at, "nonce ".to_string()));
        } else if line.starts_with("password ") || line.starts_with("sent ") {
            told.push((at, line.clone()));
        }
    }
    let lines: Vec<&[u8]> = told.iter().map(|(_, line)| line.as_bytes()).collect();
    first_stop(&lines).map(|line| if line == 1 { 0 } else { told[line - 1].0 + 1 })
}

pub fn run<R: BufRead>(input: R) -> bool {
    // A session is taken apart while it is played, so the script is read twice.
    let text: Vec<String> = input.lines().map(|line| line.unwrap()).collect();
    let text = text.join("\n") + "\n";
    let (mut first, mut second) = (Script::new(text.as_bytes()), Script::new(text.as_bytes()));
    let (mut count, mut different, mut auth, mut stopped, mut passed_over) = (0, 0, 0, 0, 0);
    loop {
        let (Ok(a), Ok(b)) = (first.next_session(), second.next_session()) else { panic!("bad script") };
        let (Some(a), Some(b)) = (a, b) else { break };
        // No server can be told where ids are counted from; such a session keeps to 64 ids only if it can.
        if a.settings.counter.is_some() {
            passed_over += 1;
            continue;
        }
        let name = a.settings_words.clone();
        auth += usize::from(a.settings.authentication.is_some());
        let (original, replies) = play!(obex_protocol::server::Server<_, _>, shared(a), |s| s);
        // The nonce of the same reply. One that the original put into no reply, since the challenge was
        // too long for the peer, is not known, and any fresh one stands for it.
        let b = shared(b);
        let seen = b.clone();
        let made = Cell::new(0u128);
        NEXT.set(Some(Box::new(move || {
            made.set(made.get() + 1);
            replies.get(seen.borrow().replies.len()).copied().flatten().unwrap_or(made.get().to_be_bytes())
        })));
        let (proved, _) = play!(obex_server::server::Server<_, _>, b, |s: obex_server::server::Server<_, _>| s.with_nonces(next));
        count += 1;
        // the length that PacketTooLarge tells is not known to the engine's host
        let cut = |line: &str| if line.starts_with("end PacketTooLarge") { "end PacketTooLarge".to_string() } else { line.to_string() };
        let strip = |log: &[u8]| -> Vec<String> { String::from_utf8_lossy(log).lines().map(cut).collect() };
        let (mut x, mut y) = (strip(&original), strip(&proved));
        if let Some(at) = stop(&name, &x) {
            stopped += 1;
            x.truncate(at);
            y.truncate(at);
        }
        if x != y {
            different += 1;
            if different <= 5 {
                println!("different: {name}");
                for (i, pair) in x.iter().zip(&y).enumerate() {
                    if pair.0 != pair.1 {
                        println!("  line {i}\n  original {:.200}\n  proved   {:.200}", pair.0, pair.1);
                        break;
                    }
                }
                if x.len() != y.len() {
                    println!("  {} lines, {} lines; last {:.100} / {:.100}", x.len(), y.len(), x.last().unwrap(), y.last().unwrap());
                }
            }
        }
    }
    println!("with a password {auth}, compared up to the eighth wrong one {stopped}, passed over since they set the id counter {passed_over}");
    println!("compared {count} different {different}");
    different == 0
}

/// What an observer is told goes to a session file and to a list of records.
struct Filing {
    file: SessionFile<Shelf>,
    records: Shelf,
}

/// Bytes that are written while a server owns the writer.
#[derive(Clone, Default)]
struct Shelf(Rc<RefCell<Vec<u8>>>);

impl Write for Shelf {
    fn write(&mut self, bytes: &[u8]) -> io::Result<usize> {
        self.0.borrow_mut().write(bytes)
    }

    fn flush(&mut self) -> io::Result<()> {
        Ok(())
    }
}

/// A line as `tools/run/read-session` prints it.
fn record_line(record: &Record) -> String {
    let shown = |bytes: &[u8]| {
        let mut text = Vec::new();
        hex::push(&mut text, bytes);
        if text.is_empty() { "-".to_string() } else { String::from_utf8(text).unwrap() }
    };
    format!("record {} {}\n", shown(record.headers), record.body.map_or("none".to_string(), shown))
}

impl Observer for Filing {
    fn started(&mut self, settings: &Settings) {
        self.file.started(settings);
    }
    fn bytes_taken(&mut self, bytes: &[u8]) {
        self.file.bytes_taken(bytes);
    }
    fn reply_sent(&mut self, packet: &[u8]) {
        self.file.reply_sent(packet);
    }
    fn password_checked(&mut self, user_id: Option<&[u8]>, right: bool) {
        self.file.password_checked(user_id, right);
    }
    fn nonce_given(&mut self, nonce: [u8; 16]) {
        self.file.nonce_given(nonce);
    }
    fn reply_given(&mut self, code: u8, headers: &[u8]) {
        self.file.reply_given(code, headers);
    }
    fn object_given(&mut self) {
        self.file.object_given();
    }
    fn record(&mut self, record: Record<'_>) {
        self.records.write_all(record_line(&record).as_bytes()).unwrap();
    }
    fn ended(&mut self, end: End) {
        self.file.ended(end);
    }
}

/// Plays the sessions to the proved server and writes for each a session file, N.session, and the records
/// that the server handed over, N.records. `tools/run/read-session` has to find the same ones in the file.
pub fn files<R: BufRead>(input: R, folder: &Path) -> bool {
    let mut script = Script::new(input);
    let made = Rc::new(Cell::new(0u128));
    NEXT.set(Some(Box::new(move || {
        made.set(made.get() + 1);
        made.get().to_be_bytes()
    })));
    for number in 0.. {
        let Some(session) = script.next_session().unwrap_or_else(|_| panic!("bad script")) else {
            println!("{number} session files");
            return true;
        };
        let (file, records) = (Shelf::default(), Shelf::default());
        let filing = Filing { file: SessionFile::new(file.clone()), records: records.clone() };
        let prepare = |server: obex_server::server::Server<_, _>| server.with_nonces(next).with_observer(filing);
        let _ = play!(obex_server::server::Server<_, _>, shared(session), prepare);
        fs::write(folder.join(format!("{number}.session")), &*file.0.borrow()).unwrap();
        fs::write(folder.join(format!("{number}.records")), &*records.0.borrow()).unwrap();
    }
    unreachable!()
}
