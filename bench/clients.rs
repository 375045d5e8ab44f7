//! Measures `hdesk serve` over connections. Plain Rust, not part of the product.
//!
//! Build:  rustc --edition 2021 -O bench/clients.rs -o clients
//! Run:    ./clients PROGRAM FILE ID
//!
//! FILE is a dump, and ID an object of it with a slot `e0` that can be cut. A server of 16 analysts is started over the file.
//! Prints how many commands a second are answered over one connection and over sixteen at once, where each command waits for
//! the reply to the one before, and where a hundred are sent at a time; the longest reply to `strength` while another analyst
//! cuts and undoes; and how much memory the server has before and after its connections.

use std::io::{BufRead, BufReader, Write};
use std::net::TcpStream;
use std::process::{Child, Command, Stdio};
use std::sync::atomic::{AtomicBool, Ordering};
use std::time::{Duration, Instant};

/// How long one measurement goes on.
const SPAN: Duration = Duration::from_secs(2);

/// A connection to the server.
struct Client {
    reader: BufReader<TcpStream>,
    line: String,
}

impl Client {
    fn connect(port: u16) -> Client {
        let stream = TcpStream::connect(("127.0.0.1", port)).expect("connects");
        stream.set_nodelay(true).expect("no delay");
        Client { reader: BufReader::new(stream), line: String::new() }
    }

    fn send(&mut self, text: &str) {
        self.reader.get_mut().write_all(text.as_bytes()).expect("sends");
    }

    /// Reads one reply, and answers its first line.
    fn hear(&mut self) -> String {
        self.line.clear();
        self.reader.read_line(&mut self.line).expect("hears");
        let head = self.line.trim_end().to_string();
        let count = head.strip_prefix("ok ").and_then(|n| n.parse::<u32>().ok()).unwrap_or(0);
        for _ in 0..count {
            self.line.clear();
            self.reader.read_line(&mut self.line).expect("hears");
        }
        head
    }

    fn ask(&mut self, line: &str) -> String {
        self.send(&format!("{line}\n"));
        self.hear()
    }
}

/// How many commands are answered in a span, `at_a_time` sent at once.
fn answered(client: &mut Client, line: &str, at_a_time: u32) -> u64 {
    let text = format!("{line}\n").repeat(at_a_time as usize);
    let began = Instant::now();
    let mut count = 0;
    while began.elapsed() < SPAN {
        client.send(&text);
        for _ in 0..at_a_time {
            client.hear();
            count += 1;
        }
    }
    count
}

/// Commands a second over some connections at once.
fn rate(clients: &mut [Client], line: &str, at_a_time: u32) -> f64 {
    let began = Instant::now();
    let count: u64 = std::thread::scope(|scope| {
        let threads: Vec<_> = clients.iter_mut().map(|client| scope.spawn(move || answered(client, line, at_a_time))).collect();
        threads.into_iter().map(|thread| thread.join().expect("ends")).sum()
    });
    count as f64 / began.elapsed().as_secs_f64()
}

/// The memory of a process in KB: what it has, and the most that it had.
fn memory(process: &Child) -> (u64, u64) {
    let text = std::fs::read_to_string(format!("/proc/{}/status", process.id())).expect("a status");
    let field = |name: &str| text.lines().find_map(|l| l.strip_prefix(name)).and_then(|l| l.split_whitespace().next()?.parse().ok());
    (field("VmRSS:").unwrap_or(0), field("VmHWM:").unwrap_or(0))
}

/// The longest reply to `strength` while another analyst cuts and undoes, and how many edits those were.
fn longest(clients: &mut [Client], line: &str, cut: &str) -> (Duration, Duration, u32) {
    let done = AtomicBool::new(false);
    let (first, rest) = clients.split_at_mut(1);
    std::thread::scope(|scope| {
        let editor = scope.spawn(|| {
            let mut longest_edit = Duration::ZERO;
            for _ in 0..3 {
                for line in [cut, "undo"] {
                    let began = Instant::now();
                    let head = first[0].ask(line);
                    assert_eq!(head, "ok 1", "{line}");
                    longest_edit = longest_edit.max(began.elapsed());
                }
            }
            done.store(true, Ordering::SeqCst);
            longest_edit
        });
        let mut longest = Duration::ZERO;
        while !done.load(Ordering::SeqCst) {
            let began = Instant::now();
            rest[0].ask(line);
            longest = longest.max(began.elapsed());
        }
        (longest, editor.join().expect("ends"), 6)
    })
}

fn main() {
    let words: Vec<String> = std::env::args().collect();
    let [_, program, file, id] = words.as_slice() else {
        eprintln!("usage: clients PROGRAM FILE ID");
        std::process::exit(64);
    };
    let mut server = Command::new(program)
        .args(["serve", file, "--port", "0", "--analysts", "16"])
        .stdout(Stdio::piped())
        .spawn()
        .expect("starts");
    let mut told = String::new();
    let mut output = BufReader::new(server.stdout.take().expect("an output"));
    output.read_line(&mut told).expect("a port");
    let port = told.trim_end().strip_prefix("listening ").and_then(|p| p.parse().ok()).expect("a port");
    let strength = format!("strength {id}");
    let slots = format!("slots {id}");
    let mut clients = vec![Client::connect(port)];
    clients[0].ask(&strength);
    let one = memory(&server);
    for line in [&strength, &slots] {
        println!("1 connection, {line}: {:.0} a second, {:.0} a hundred at a time", rate(&mut clients, line, 1), rate(&mut clients, line, 100));
    }
    for _ in 1..16 {
        clients.push(Client::connect(port));
    }
    for client in &mut clients {
        client.ask(&strength);
    }
    let all = memory(&server);
    for line in [&strength, &slots] {
        println!("16 connections, {line}: {:.0} a second, {:.0} a hundred at a time", rate(&mut clients, line, 1), rate(&mut clients, line, 100));
    }
    println!("memory: {} KB with 1 connection, {} KB with 16: {} KB for each", one.0, all.0, (all.0.saturating_sub(one.0)) / 15);
    let (longest, edit, edits) = longest(&mut clients, &strength, &format!("cut {id} e0"));
    println!("longest reply to strength while another analyst made {edits} edits: {:.1} ms; longest edit {:.1} ms", longest.as_secs_f64() * 1e3, edit.as_secs_f64() * 1e3);
    println!("most memory: {} KB", memory(&server).1);
    for client in &mut clients {
        client.ask("quit");
    }
    server.wait().expect("ends");
}
