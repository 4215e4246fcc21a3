//! A server at an address, asked over HTTP/1.1 (RFC 9112).
use crate::asking::{AskError, Asks, Small};
use crate::http::{Response, base64_of, path_of};
use std::fs;
use std::io::{self, BufRead, BufReader, ErrorKind, Read, Write};
use std::net::{TcpStream, ToSocketAddrs};
use std::time::Duration;

/// How long it is waited for a connection, and for each piece of an answer.
const CONNECTING: Duration = Duration::from_secs(20);
const ANSWERING: Duration = Duration::from_secs(600);

/// A body of more bytes is sent once the head has passed.
const LARGE: u64 = 65_536;

/// The most bytes of a head.
const HEAD: usize = 65_536;

/// Where a server is, and who asks it.
pub struct Site {
    /// The host and port, as in the URL.
    host: String,
    /// The path of the folder at the top, without a slash at its end, as in a URL.
    pub prefix: String,
    /// The field of a login, or nothing.
    login: String,
}

impl Site {
    /// The server of a URL, `http://HOST[:PORT][/PREFIX]`, and the login in the first line of a file, `NAME:PASSWORD`.
    pub fn read(url: &str, login: Option<&str>) -> Result<Site, String> {
        let rest = url.strip_prefix("http://").ok_or(format!("{url}: isn't http://HOST:PORT/ (TLS is a proxy's)"))?;
        let (host, path) = rest.split_once('/').unwrap_or((rest, ""));
        if host.is_empty() || !host.bytes().all(|byte| byte.is_ascii_alphanumeric() || b".:-_[]".contains(&byte)) {
            return Err(format!("{url}: has no host"));
        }
        let segments = path.split('/').filter(|segment| !segment.is_empty());
        let prefix = path_of(&segments.map(|segment| format!("/{segment}")).collect::<String>()).ok_or(format!("{url}: has no path"))?;
        let login = match login {
            None => String::new(),
            Some(file) => {
                let text = fs::read_to_string(file).map_err(|error| format!("{file}: {error}"))?;
                let line = text.lines().next().filter(|line| line.contains(':')).ok_or(format!("{file}: its first line isn't NAME:PASSWORD"))?;
                format!("Authorization: Basic {}\r\n", base64_of(line.as_bytes()))
            }
        };
        Ok(Site { host: host.to_string(), prefix, login })
    }

    fn connect(&self) -> io::Result<TcpStream> {
        let has_port = self.host.rsplit_once(':').is_some_and(|(_, port)| !port.is_empty() && port.bytes().all(|byte| byte.is_ascii_digit()));
        let address = if has_port { self.host.clone() } else { format!("{}:80", self.host) };
        let mut last = io::Error::new(ErrorKind::NotFound, "the host has no address");
        for address in address.to_socket_addrs()? {
            match TcpStream::connect_timeout(&address, CONNECTING) {
                Ok(stream) => {
                    stream.set_nodelay(true)?;
                    stream.set_read_timeout(Some(ANSWERING))?;
                    stream.set_write_timeout(Some(ANSWERING))?;
                    return Ok(stream);
                }
                Err(error) => last = error,
            }
        }
        Err(last)
    }
}

/// A connection to a server: one request after another.
pub struct Client<'s> {
    site: &'s Site,
    stream: Option<BufReader<TcpStream>>,
}

impl Client<'_> {
    pub fn new(site: &Site) -> Client<'_> {
        Client { site, stream: None }
    }

    fn stream(&mut self) -> io::Result<&mut BufReader<TcpStream>> {
        if self.stream.is_none() {
            self.stream = Some(BufReader::with_capacity(1 << 17, self.site.connect()?));
        }
        Ok(self.stream.as_mut().expect("it was just made"))
    }

    fn send(&mut self, bytes: &[u8]) -> io::Result<()> {
        self.stream()?.get_mut().write_all(bytes)
    }

    /// The next response; a `100 Continue` is one without a body.
    fn receive(&mut self) -> io::Result<Response> {
        let stream = self.stream()?;
        let mut head = Vec::new();
        while !head.ends_with(b"\r\n\r\n") {
            if stream.by_ref().take((HEAD - head.len()) as u64).read_until(b'\n', &mut head)? == 0 {
                return Err(ErrorKind::UnexpectedEof.into());
            }
        }
        let mut response = Response::begun(&head)?.0;
        if response.status >= 200 {
            response.body = vec![0; response.length()?];
            stream.read_exact(&mut response.body)?;
        }
        if response.ends() {
            self.stream = None;
        }
        Ok(response)
    }

    /// Sends a body whose head has passed.
    fn send_body(&mut self, body: &mut dyn Read, mut left: u64) -> Result<(), AskError> {
        let mut piece = vec![0u8; LARGE as usize];
        while left > 0 {
            let count = usize::try_from(left).unwrap_or(piece.len()).min(piece.len());
            body.read_exact(&mut piece[..count]).map_err(AskError::Body)?;
            self.send(&piece[..count]).map_err(AskError::Lost)?;
            left -= count as u64;
        }
        Ok(())
    }

    fn ask_once(&mut self, method: &str, path: &str, fields: &str, body: &mut dyn Read, length: u64) -> Result<Response, AskError> {
        let waits = length > LARGE;
        let fields = format!("{}{}{fields}", self.site.login, if waits { "Expect: 100-continue\r\n" } else { "" });
        let mut text = crate::http::head_of(&self.site.host, method, path, &fields, length);
        if !waits {
            body.take(length).read_to_end(&mut text).map_err(AskError::Body)?;
        }
        self.send(&text).map_err(AskError::Lost)?;
        let mut response = self.receive().map_err(AskError::Lost)?;
        if response.status == 100 {
            self.send_body(body, length)?;
            response = self.receive().map_err(AskError::Lost)?;
        } else if waits {
            self.stream = None; // the body is no request
        }
        Ok(response)
    }
}

impl Asks for Client<'_> {
    fn ask(&mut self, method: &str, path: &str, fields: &str, body: &mut dyn Read, length: u64) -> Result<Response, AskError> {
        let asked = self.ask_once(method, path, fields, body, length);
        if asked.is_err() {
            self.stream = None;
        }
        asked
    }

    fn ask_all(&mut self, requests: &[Small]) -> Result<Vec<Response>, AskError> {
        let texts: Vec<Vec<u8>> = requests.iter().map(|request| request.written(&self.site.host, &self.site.login)).collect();
        let mut found = Vec::new();
        let mut asked = self.send(&texts.concat());
        while asked.is_ok() && found.len() < requests.len() {
            asked = self.receive().map(|response| found.push(response));
            if asked.is_ok() && self.stream.is_none() {
                break;
            }
        }
        match asked {
            Ok(()) => Ok(found),
            Err(error) => {
                self.stream = None;
                Err(AskError::Lost(error))
            }
        }
    }
}

#[cfg(test)]
mod tests {
    use super::*;

    #[test]
    fn sites() {
        let site = Site::read("http://192.0.2.1:4918/team/a%20b/", None).ok().unwrap();
        assert_eq!((&site.host[..], &site.prefix[..], &site.login[..]), ("192.0.2.1:4918", "/team/a%20b", ""));
        assert_eq!(Site::read("http://[::1]", None).ok().unwrap().prefix, "");
        for url in ["https://a/", "a", "http:///a", "http://a b/", "http://a/%2", "http://u:p@h/"] {
            assert!(Site::read(url, None).is_err(), "{url}");
        }
    }
}
