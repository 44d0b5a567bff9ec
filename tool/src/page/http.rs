//! The web server: three pages and the events, for browsers on this computer.

use super::Shared;
use std::io::{self, BufRead, BufReader, Read, Write};
use std::net::{SocketAddr, TcpListener, TcpStream};
use std::sync::atomic::{AtomicUsize, Ordering};
use std::sync::Arc;
use std::thread;
use std::time::Duration;

const PAGE: &str = include_str!("page.html");

/// The most bytes of a request.
const MOST: u64 = 16_384;
/// The most connections at a time.
const CONNECTIONS: usize = 64;
/// How often a page hears that the tool runs.
const BEAT: Duration = Duration::from_secs(2);

pub fn serve(listener: &TcpListener, address: SocketAddr, shared: &Arc<Shared>) {
    let open = Arc::new(AtomicUsize::new(0));
    for stream in listener.incoming() {
        let Ok(stream) = stream else {
            // No room for a connection: let others end.
            thread::sleep(Duration::from_millis(50));
            continue;
        };
        if open.fetch_add(1, Ordering::SeqCst) >= CONNECTIONS {
            open.fetch_sub(1, Ordering::SeqCst);
            continue;
        }
        let (shared, counted) = (Arc::clone(shared), Arc::clone(&open));
        thread::spawn(move || {
            // A browser that went away is no fault.
            let _ = answer(stream, address, &shared);
            counted.fetch_sub(1, Ordering::SeqCst);
        });
    }
}

fn answer(stream: TcpStream, address: SocketAddr, shared: &Shared) -> io::Result<()> {
    stream.set_read_timeout(Some(Duration::from_secs(5)))?;
    stream.set_write_timeout(Some(Duration::from_secs(5)))?;
    let mut lines = BufReader::new(stream.try_clone()?.take(MOST)).lines();
    let asked = lines.next().unwrap_or_else(|| Ok(String::new()))?;
    let mut host = String::new();
    for line in lines {
        let line = line?;
        match line.split_once(':') {
            Some((name, value)) if name.eq_ignore_ascii_case("host") => host = value.trim().to_string(),
            _ if line.is_empty() => break,
            _ => {}
        }
    }
    // A page of elsewhere whose name was led to this address is not answered.
    let port = address.port();
    let known = [address.to_string(), format!("localhost:{port}")];
    if !known.contains(&host) {
        return plain(stream, "403 Forbidden", "this board is served under its own address only\n");
    }
    let mut words = asked.split(' ');
    match (words.next(), words.next()) {
        (Some("GET"), Some("/")) => {
            let page = PAGE.replace("\"BOARD\"", &shared.lock().json());
            send(stream, "200 OK", "text/html; charset=utf-8", &page)
        }
        (Some("GET"), Some("/board.json")) => {
            let json = shared.lock().json();
            send(stream, "200 OK", "application/json", &json)
        }
        (Some("GET"), Some("/board.txt")) => {
            let text = shared.lock().desk.text();
            plain(stream, "200 OK", &text)
        }
        (Some("GET"), Some("/events")) => events(stream, shared),
        (Some("GET"), _) => plain(stream, "404 Not Found", "there is /, /board.txt and /board.json\n"),
        _ => plain(stream, "405 Method Not Allowed", "this board is only looked at\n"),
    }
}

const HEAD: &str = "Cache-Control: no-store\r\nX-Content-Type-Options: nosniff\r\nReferrer-Policy: no-referrer\r\n\
    Content-Security-Policy: default-src 'none'; img-src data:; style-src 'unsafe-inline'; script-src 'unsafe-inline'; connect-src 'self'; \
    base-uri 'none'; form-action 'none'; frame-ancestors 'none'\r\nConnection: close\r\n";

fn send(mut stream: TcpStream, status: &str, kind: &str, body: &str) -> io::Result<()> {
    write!(
        stream,
        "HTTP/1.1 {status}\r\nContent-Type: {kind}\r\nContent-Length: {}\r\n{HEAD}\r\n{body}",
        body.len()
    )?;
    stream.flush()
}

fn plain(stream: TcpStream, status: &str, body: &str) -> io::Result<()> {
    send(stream, status, "text/plain; charset=utf-8", body)
}

/// Tells the board at once, then each time that it changes, and a beat when it does not.
fn events(mut stream: TcpStream, shared: &Shared) -> io::Result<()> {
    write!(stream, "HTTP/1.1 200 OK\r\nContent-Type: text/event-stream\r\n{HEAD}\r\n")?;
    let mut told = None;
    loop {
        let said = {
            let shown = shared.lock();
            let waited = shared.changed.wait_timeout_while(shown, BEAT, |shown| told == Some(shown.changes));
            let shown = waited.map_or_else(|poisoned| poisoned.into_inner().0, |(shown, _)| shown);
            if told == Some(shown.changes) {
                "event: beat\ndata: \n\n".to_string()
            } else {
                told = Some(shown.changes);
                format!("data: {}\n\n", shown.json())
            }
        };
        stream.write_all(said.as_bytes())?;
        stream.flush()?;
    }
}
