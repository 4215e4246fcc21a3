//! Requests and responses of HTTP/1.1 (RFC 9112), as this client of one server needs them; paths of URLs; dates.
use std::ffi::OsStr;
use std::io::{self, ErrorKind};
use std::os::unix::ffi::OsStrExt;

pub struct Response {
    pub status: u16,
    /// The lines of its head, the first one too.
    pub head: String,
    pub body: Vec<u8>,
}

impl Response {
    /// The response in these bytes.
    pub fn read(mut bytes: Vec<u8>) -> io::Result<Response> {
        let (mut response, end) = Response::begun(&bytes)?;
        response.body = bytes.split_off(end);
        Ok(response)
    }

    /// The response with which these bytes begin, without its body, and where that begins.
    pub fn begun(bytes: &[u8]) -> io::Result<(Response, usize)> {
        let end = bytes.windows(4).position(|four| four == b"\r\n\r\n");
        let head = end.and_then(|end| std::str::from_utf8(&bytes[..end]).ok());
        let status = head.and_then(|head| head.split(' ').nth(1)).and_then(|word| word.parse().ok());
        match (end, head, status) {
            (Some(end), Some(head), Some(status)) => Ok((Response { status, head: head.to_string(), body: Vec::new() }, end + 4)),
            _ => Err(io::Error::new(ErrorKind::InvalidData, "the answer is none of HTTP")),
        }
    }

    /// The responses in these bytes, one after another, each of the length that it tells.
    pub fn read_all(mut bytes: &[u8]) -> io::Result<Vec<Response>> {
        let mut found = Vec::new();
        while !bytes.is_empty() {
            let (mut response, end) = Response::begun(bytes)?;
            let body = bytes.get(end..end + response.length()?).ok_or(ErrorKind::UnexpectedEof)?;
            response.body = body.to_vec();
            bytes = &bytes[end + body.len()..];
            found.push(response);
        }
        Ok(found)
    }

    /// The value of a field of its head (RFC 9110, 6.3).
    pub fn field(&self, name: &str) -> Option<&str> {
        let fields = self.head.lines().skip(1).filter_map(|line| line.split_once(':'));
        fields.filter(|(told, _)| told.eq_ignore_ascii_case(name)).map(|(_, value)| value.trim()).next()
    }

    /// The bytes of its body (RFC 9112, 6.3).
    pub fn length(&self) -> io::Result<usize> {
        if self.field("Transfer-Encoding").is_some() {
            return Err(io::Error::new(ErrorKind::InvalidData, "the answer is in chunks, which this client doesn't read"));
        }
        match self.field("Content-Length") {
            Some(text) => text.parse().map_err(|_| io::Error::new(ErrorKind::InvalidData, "the answer has no length")),
            None => Ok(0),
        }
    }

    /// Whether the connection ends with it (RFC 9112, 9.6).
    pub fn ends(&self) -> bool {
        self.field("Connection").is_some_and(|value| value.eq_ignore_ascii_case("close"))
    }
}

/// The head of a request to this host with these further fields, each with its end.
pub fn head_of(host: &str, method: &str, path: &str, fields: &str, length: u64) -> Vec<u8> {
    format!("{method} {path} HTTP/1.1\r\nHost: {host}\r\nContent-Length: {length}\r\n{fields}\r\n").into_bytes()
}

/// A path with each segment as `segment_of` writes it; none where a `%` has no two digits.
pub fn path_of(path: &str) -> Option<String> {
    let segments = path.split('/').map(|segment| Some(segment_of(OsStr::from_bytes(&name_of(segment)?))));
    Some(segments.collect::<Option<Vec<_>>>()?.join("/"))
}

/// Bytes by base64 (RFC 4648, 4).
pub fn base64_of(bytes: &[u8]) -> String {
    const LETTERS: &[u8; 64] = b"ABCDEFGHIJKLMNOPQRSTUVWXYZabcdefghijklmnopqrstuvwxyz0123456789+/";
    let mut text = String::new();
    for three in bytes.chunks(3) {
        let word = three.iter().fold(0u32, |word, byte| word << 8 | u32::from(*byte)) << (8 * (3 - three.len()));
        for place in 0..4 {
            let letter = LETTERS[(word >> (18 - 6 * place) & 63) as usize];
            text.push(if place <= three.len() { char::from(letter) } else { '=' });
        }
    }
    text
}

/// A name as a segment of a URL's path (RFC 3986, 3.3).
pub fn segment_of(name: &OsStr) -> String {
    let mut text = String::new();
    for byte in name.as_bytes() {
        match byte {
            b'A'..=b'Z' | b'a'..=b'z' | b'0'..=b'9' | b'-' | b'.' | b'_' | b'~' => text.push(char::from(*byte)),
            _ => text.push_str(&format!("%{byte:02X}")),
        }
    }
    text
}

/// The bytes of a segment of a URL's path; none where a `%` has no two digits.
pub fn name_of(segment: &str) -> Option<Vec<u8>> {
    let mut name = Vec::new();
    let mut rest = segment.bytes();
    while let Some(byte) = rest.next() {
        if byte != b'%' {
            name.push(byte);
            continue;
        }
        let high = char::from(rest.next()?).to_digit(16)?;
        let low = char::from(rest.next()?).to_digit(16)?;
        name.push((high * 16 + low) as u8);
    }
    Some(name)
}

const DAYS: [&str; 7] = ["Thu", "Fri", "Sat", "Sun", "Mon", "Tue", "Wed"];
const MONTHS: [&str; 12] = ["Jan", "Feb", "Mar", "Apr", "May", "Jun", "Jul", "Aug", "Sep", "Oct", "Nov", "Dec"];

/// Year, month from 1 on and day of a day since 1970, in the Gregorian calendar: eras of 400 years have 146,097 days, and a year that
/// begins in March has its leap day at its end.
fn civil_of(days: u64) -> (u64, u64, u64) {
    let days = days + 719_468;
    let (era, day) = (days / 146_097, days % 146_097);
    let year = (day - day / 1460 + day / 36_524 - day / 146_096) / 365;
    let day = day - (365 * year + year / 4 - year / 100);
    let month = (5 * day + 2) / 153;
    let first = (153 * month + 2) / 5;
    let (month, next) = if month < 10 { (month + 3, 0) } else { (month - 9, 1) };
    (era * 400 + year + next, month, day - first + 1)
}

/// The days from 1970 to a day of the Gregorian calendar, by which `civil_of` gives that day; none of a day before, or of no day.
fn days_of(year: u64, month: u64, day: u64) -> Option<u64> {
    let (year, shifted) = if month > 2 { (year, month - 3) } else { (year.checked_sub(1)?, month + 9) };
    let of_year = (153 * shifted + 2) / 5 + day.checked_sub(1)?;
    let days = year / 400 * 146_097 + year % 400 * 365 + year % 400 / 4 - year % 400 / 100 + of_year;
    let days = days.checked_sub(719_468)?;
    (civil_of(days).1 == month && civil_of(days).2 == day).then_some(days)
}

/// The date of a moment as HTTP has it (RFC 9110, 5.6.7).
pub fn http_date(moment: u64) -> String {
    let (year, month, day) = civil_of(moment / 86_400);
    let (name, time) = (DAYS[(moment / 86_400 % 7) as usize], moment % 86_400);
    let (hours, minutes, seconds) = (time / 3600, time / 60 % 60, time % 60);
    format!("{name}, {day:02} {} {year:04} {hours:02}:{minutes:02}:{seconds:02} GMT", MONTHS[month as usize - 1])
}

/// The moment of such a date.
pub fn moment_of(date: &str) -> Option<u64> {
    let words: Vec<&str> = date.split([' ', ':']).collect();
    let [_, day, month, year, hours, minutes, seconds, "GMT"] = words[..] else { return None };
    let month = MONTHS.iter().position(|name| *name == month)? as u64 + 1;
    let days = days_of(year.parse().ok()?, month, day.parse().ok()?)?;
    let numbers: Vec<u64> = [hours, minutes, seconds].iter().map_while(|text| text.parse().ok()).collect();
    let [hours, minutes, seconds] = numbers[..] else { return None };
    Some(days * 86_400 + hours * 3600 + minutes * 60 + seconds)
}

/// The date of a moment as RFC 3339 has it.
pub fn internet_date(moment: u64) -> String {
    let (year, month, day) = civil_of(moment / 86_400);
    let time = moment % 86_400;
    format!("{year:04}-{month:02}-{day:02}T{:02}:{:02}:{:02}Z", time / 3600, time / 60 % 60, time % 60)
}

#[cfg(test)]
mod tests {
    use super::*;

    #[test]
    fn dates() {
        // RFC 9110, 5.6.7, and days around leap days; the seconds by `date -u -d .. +%s`.
        for (date, moment) in [
            ("Sun, 06 Nov 1994 08:49:37 GMT", 784_111_777),
            ("Thu, 01 Jan 1970 00:00:00 GMT", 0),
            ("Tue, 29 Feb 2000 23:59:59 GMT", 951_868_799),
            ("Wed, 01 Mar 2000 00:00:00 GMT", 951_868_800),
            ("Mon, 01 Mar 2100 00:00:00 GMT", 4_107_542_400),
            ("Fri, 31 Dec 9999 23:59:59 GMT", 253_402_300_799),
        ] {
            assert_eq!(http_date(moment), date);
            assert_eq!(moment_of(date), Some(moment));
        }
        for date in ["", "Mon, 29 Feb 2100 00:00:00 GMT", "Wed, 31 Dec 1969 23:59:59 GMT", "Sun, 06 Nov 1994 08:49:37 CET", "Sun, 06 Nov 1994 08:49 GMT"] {
            assert_eq!(moment_of(date), None, "{date}");
        }
        assert_eq!(internet_date(784_111_777), "1994-11-06T08:49:37Z");
    }

    #[test]
    fn segments() {
        assert_eq!(segment_of(OsStr::new("a b/ü%.txt")), "a%20b%2F%C3%BC%25.txt");
        assert_eq!(name_of("a%20b%2f%C3%BC%25.txt").unwrap(), "a b/ü%.txt".as_bytes());
        assert_eq!(name_of("a%2"), None);
        assert_eq!(name_of("a%zz"), None);
        assert_eq!(path_of("/a(b)/%63/%2f").unwrap(), "/a%28b%29/c/%2F");
        assert_eq!(path_of("/a%2"), None);
    }

    #[test]
    fn responses() {
        let told = Response::read(b"HTTP/1.1 200 OK\r\ncontent-length: 3\r\n\r\none".to_vec()).unwrap();
        assert_eq!((told.status, &told.body[..]), (200, &b"one"[..]));
        assert!(Response::read(b"HTTP/1.1 200 OK\r\n".to_vec()).is_err());
        assert!(Response::read(b"no\r\n\r\n".to_vec()).is_err());
        let two = b"HTTP/1.1 201 Created\r\nETag: \"a1\"\r\ncontent-length: 0\r\n\r\nHTTP/1.1 200 OK\r\nContent-Length: 2\r\nconnection: close\r\n\r\nok";
        let told = Response::read_all(two).unwrap();
        assert_eq!((told.len(), told[0].field("etag"), &told[1].body[..], told[0].ends(), told[1].ends()), (2, Some("\"a1\""), &b"ok"[..], false, true));
        assert!(Response::read_all(&two[..two.len() - 1]).is_err());
        assert!(Response::read_all(b"HTTP/1.1 200 OK\r\nTransfer-Encoding: chunked\r\n\r\n0\r\n\r\n").is_err());
    }

    #[test]
    fn base64() {
        // RFC 4648, 10; RFC 7617, 2.
        for (bytes, text) in [("", ""), ("f", "Zg=="), ("fo", "Zm8="), ("foo", "Zm9v"), ("foob", "Zm9vYg=="), ("fooba", "Zm9vYmE="), ("foobar", "Zm9vYmFy")] {
            assert_eq!(base64_of(bytes.as_bytes()), text);
        }
        assert_eq!(base64_of(b"Aladdin:open sesame"), "QWxhZGRpbjpvcGVuIHNlc2FtZQ==");
    }
}
