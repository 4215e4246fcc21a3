//! What the answers to requests mean by which a folder is made: whether one was done, is to come again, or why it isn't done.
use crate::asking::Small;
use crate::http::Response;
use crate::making::{Made, refused};
use crate::xml::Element;

/// Whether a request is to come again later.
pub fn is_later(status: u16) -> bool {
    matches!(status, 429 | 503)
}

/// Whether a request was done: of a PROPPATCH each property (RFC 4918, 9.2).
pub fn check(request: &Small, response: &Response) -> Made<()> {
    let is_done = match request.method {
        "PROPPATCH" => response.status == 207 && are_all_set(&response.body),
        _ => response.status == 201,
    };
    if is_done { Ok(()) } else { refused(format!("{} {}: {}", request.method, request.path, reason(response.status))) }
}

fn are_all_set(body: &[u8]) -> bool {
    let root = std::str::from_utf8(body).ok().and_then(Element::read);
    let is_set = |stat: &Element| stat.first("status").is_some_and(|status| status.text().split(' ').nth(1) == Some("200"));
    root.is_some_and(|root| root.all("response").all(|response| response.all("propstat").all(is_set)))
}

/// Why a request isn't done.
pub fn reason(status: u16) -> String {
    let reason = match status {
        400 => "it has a name that can't be one",
        401 => "the login isn't taken (--login)",
        403 => "there is no leave",
        405 => "something is there",
        412 => "something is there by now",
        413 => "it is too large for the server",
        414 | 431 => "its path is too long",
        421 => "the server doesn't have that folder (--only), or isn't asked by a name of its own (--host)",
        423 => "it is locked",
        429 | 503 => "the server has no time for it",
        507 => "there is no room",
        _ => "it is refused",
    };
    format!("{reason} ({status})")
}
