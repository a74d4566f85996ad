//! HTTP and WebSocket, as a client speaks them: requests, frames, and what comes back.

use crate::draw::Draw;

/// The bytes of a request for WebSocket, with this token behind its path, if there is one.
pub fn upgrade(token: Option<&str>) -> Vec<u8> {
    let query = token.map(|token| format!("?token={token}")).unwrap_or_default();
    format!(
        "GET /ws{query} HTTP/1.1\r\nHost: localhost:4000\r\nConnection: Upgrade\r\nUpgrade: websocket\r\n\
         Sec-WebSocket-Version: 13\r\nSec-WebSocket-Key: dGhlIHNhbXBsZSBub25jZQ==\r\n\r\n"
    )
    .into_bytes()
}

/// The bytes of a masked frame.
fn frame(first: u8, bytes: &[u8], draw: &mut Draw) -> Vec<u8> {
    let mask = (draw.next() as u32).to_be_bytes();
    let mut made = vec![first];
    match bytes.len() {
        len @ 0..=125 => made.push(0x80 | len as u8),
        len @ 126..=65_535 => {
            made.push(0xfe);
            made.extend_from_slice(&(len as u16).to_be_bytes());
        }
        len => {
            made.push(0xff);
            made.extend_from_slice(&(len as u64).to_be_bytes());
        }
    }
    made.extend_from_slice(&mask);
    made.extend(bytes.iter().enumerate().map(|(at, byte)| byte ^ mask[at % 4]));
    made
}

/// Lines as messages of text, in drawn frames, with pings between them.
pub fn messages(lines: &str, draw: &mut Draw) -> Vec<u8> {
    let mut made = Vec::new();
    let mut rest = lines;
    while !rest.is_empty() {
        let count = draw.range(1, 4) as usize;
        let end = rest.match_indices('\n').nth(count - 1).map_or(rest.len(), |(at, _)| at + 1);
        let message = if draw.one_in(2) { &rest[..end - 1] } else { &rest[..end] };
        let cut = draw.below(message.len() as u64 + 1) as usize;
        if draw.one_in(4) {
            made.extend(frame(0x01, &message.as_bytes()[..cut], draw));
            if draw.one_in(3) {
                made.extend(frame(0x89, b"are you there", draw));
            }
            made.extend(frame(0x80, &message.as_bytes()[cut..], draw));
        } else {
            made.extend(frame(0x81, message.as_bytes(), draw));
        }
        rest = &rest[end..];
    }
    made
}

/// The answer to a ping.
pub fn pong(bytes: &[u8], draw: &mut Draw) -> Vec<u8> {
    frame(0x8a, bytes, draw)
}

/// What a connection that wants WebSocket is told.
#[derive(Debug, PartialEq, Eq)]
pub enum Told {
    /// The text of a message.
    Text(String),
    Ping(Vec<u8>),
    Pong,
    /// The connection is closed, with this code.
    Closed(u16),
}

/// What the first whole frame of these bytes says, and how many bytes it has.
pub fn first_frame(bytes: &[u8]) -> Result<Option<(Told, usize)>, String> {
    let [first, second, ..] = *bytes else { return Ok(None) };
    let (start, len) = match second {
        0..=125 => (2, second as usize),
        126 if bytes.len() >= 4 => (4, u16::from_be_bytes([bytes[2], bytes[3]]) as usize),
        127 if bytes.len() >= 10 => (10, u64::from_be_bytes(bytes[2..10].try_into().expect("8 bytes")) as usize),
        126 | 127 => return Ok(None),
        _ => return Err("a frame of the host's is masked".into()),
    };
    let Some(payload) = bytes.get(start..start + len) else { return Ok(None) };
    let told = match first {
        0x81 => Told::Text(String::from_utf8(payload.to_vec()).map_err(|_| "a text is no UTF-8")?),
        0x89 => Told::Ping(payload.to_vec()),
        0x8a => Told::Pong,
        0x88 => Told::Closed(payload.get(..2).map_or(0, |code| u16::from_be_bytes([code[0], code[1]]))),
        _ => return Err(format!("a frame begins with {first}")),
    };
    Ok(Some((told, start + len)))
}

/// A request over HTTP, and the statuses that may answer it.
pub struct Request {
    pub bytes: Vec<u8>,
    pub statuses: Vec<u32>,
    /// What its body is, where that is known.
    pub body: Option<&'static str>,
    pub is_head: bool,
    /// The token that it shows, and how often the host's had been read before it was made.
    pub token: Option<&'static str>,
    pub version: usize,
    /// It asks whether the host is ready, which was told before that its journal can't be written or not, and how often that
    /// had changed.
    pub is_readiness: bool,
    pub was_failing: (bool, u32),
}

/// A drawn request of a client of a host that has this token, if it has tokens.
pub fn request(token: Option<&'static str>, version: usize, draw: &mut Draw) -> Request {
    let shows_token = token.is_some() && draw.percent(70);
    let closed = if token.is_some() && !shows_token { 401 } else { 200 };
    let (line, statuses, body): (&str, Vec<u32>, Option<&'static str>) = match draw.below(12) {
        0..=2 => ("GET /healthz", vec![200], Some("ok\n")),
        3 => ("GET /readyz", vec![200, 503], Some("ready\n")),
        4 | 5 => ("GET /metrics", vec![closed], None),
        6 => ("GET /names.json", vec![closed], None),
        7 => ("GET /program.json", vec![closed], None),
        8 => ("HEAD /healthz", vec![200], None),
        9 => ("GET /", vec![200], None),
        10 => ("GET /nothing", vec![404, 401], None),
        _ => ("POST /healthz", vec![405, 401], None),
    };
    let host = if draw.percent(95) { "localhost:4000" } else { "elsewhere:4000" };
    let statuses = if host == "localhost:4000" { statuses } else { vec![403, 401] };
    let body = if host == "localhost:4000" { body } else { None };
    let token = token.filter(|_| shows_token);
    let field = token.map_or(String::new(), |token| format!("Authorization: Bearer {token}\r\n"));
    let bytes = format!("{line} HTTP/1.1\r\nHost: {host}\r\n{field}\r\n").into_bytes();
    let is_readiness = line == "GET /readyz" && host == "localhost:4000";
    Request { bytes, statuses, body, is_head: line.starts_with("HEAD"), token, version, is_readiness, was_failing: (false, 0) }
}

/// A response: its status, its body, whether the connection ends behind it, and how many bytes it has.
pub struct Response {
    pub status: u32,
    pub body: String,
    pub closes: bool,
    pub len: usize,
}

/// The first whole response of these bytes; that to a HEAD has no body.
pub fn first_response(bytes: &[u8], is_head: bool) -> Result<Option<Response>, String> {
    let Some(end) = bytes.windows(4).position(|window| window == b"\r\n\r\n") else { return Ok(None) };
    let head = String::from_utf8_lossy(&bytes[..end]).to_lowercase();
    let status = head.strip_prefix("http/1.1 ").and_then(|rest| rest.get(..3)?.parse().ok());
    let status = status.ok_or_else(|| format!("a response begins with {}", head.lines().next().unwrap_or("")))?;
    let field = |name: &str| head.lines().find_map(|line| line.strip_prefix(name)).map(str::trim);
    let len = if is_head || status == 101 { 0 } else { field("content-length:").and_then(|len| len.parse().ok()).unwrap_or(0) };
    let Some(body) = bytes.get(end + 4..end + 4 + len) else { return Ok(None) };
    let body = String::from_utf8_lossy(body).into_owned();
    Ok(Some(Response { status, body, closes: field("connection:") == Some("close"), len: end + 4 + len }))
}
