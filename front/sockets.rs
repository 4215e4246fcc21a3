//! What the kernel does with the bytes of a connection that its client doesn't take. What is declared here of the C library is that of Linux with glibc or musl.
#![allow(unsafe_code)]

use std::ffi::{c_int, c_void};
use std::net::TcpStream;
use std::os::fd::AsRawFd;

/// So many bytes that can't be sent yet the kernel takes of a connection.
const MOST_UNSENT: c_int = 131_072;

const SOCKET: c_int = 1;
const TCP: c_int = 6;
const LINGER: c_int = 13;
const NOT_SENT: c_int = 25;

unsafe extern "C" {
    fn setsockopt(socket: c_int, level: c_int, name: c_int, value: *const c_void, length: u32) -> c_int;
}

/// The kernel takes no more bytes than a few before it can send them, so that one that isn't read has little of its memory. Where it can't do that, it is as it
/// was.
pub fn keep_few_unsent(stream: &TcpStream) {
    set(stream, TCP, NOT_SENT, &[MOST_UNSENT]);
}

/// Once it is closed, the kernel drops what the client didn't take, and tells it that the connection broke.
pub fn drop_unsent(stream: &TcpStream) {
    set(stream, SOCKET, LINGER, &[1, 0]);
}

fn set(stream: &TcpStream, level: c_int, name: c_int, value: &[c_int]) {
    // SAFETY: the socket is open, and `value` has as many bytes as are told and lives through the call.
    unsafe { setsockopt(stream.as_raw_fd(), level, name, value.as_ptr().cast(), size_of_val(value) as u32) };
}
