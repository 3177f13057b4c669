//! `send INTERFACE FILE`: sends the frames of a classic capture on an interface of Linux, as they are, one every 20
//! microseconds, so that another program can capture them. It needs the right to open a raw socket.

#[path = "../yardsticks/pcap.rs"]
mod pcap;

use pcap::read_records;
use std::env;
use std::ffi::CString;
use std::fs::File;
use std::io::{self, Error};
use std::os::raw::{c_char, c_int, c_uint, c_void};
use std::thread::sleep;
use std::time::Duration;

const AF_PACKET: c_int = 17;
const SOCK_RAW: c_int = 3;

/// The address of an interface for a packet socket (`struct sockaddr_ll`).
#[repr(C)]
struct Address {
    family: u16,
    protocol: u16,
    interface: c_int,
    hardware: u16,
    kind: u8,
    length: u8,
    address: [u8; 8],
}

unsafe extern "C" {
    fn socket(domain: c_int, kind: c_int, protocol: c_int) -> c_int;
    fn if_nametoindex(name: *const c_char) -> c_uint;
    fn sendto(
        socket: c_int,
        bytes: *const c_void,
        len: usize,
        flags: c_int,
        address: *const Address,
        address_len: c_uint,
    ) -> isize;
}

fn main() -> io::Result<()> {
    let words: Vec<String> = env::args().skip(1).collect();
    let [interface, file] = words.as_slice() else {
        return Err(Error::other("send INTERFACE FILE"));
    };
    let name = CString::new(interface.as_str())?;
    let socket = unsafe { socket(AF_PACKET, SOCK_RAW, 0) };
    let index = unsafe { if_nametoindex(name.as_ptr()) };
    if socket < 0 || index == 0 {
        return Err(Error::last_os_error());
    }
    let address = Address {
        family: AF_PACKET as u16,
        protocol: 0,
        interface: index as c_int,
        hardware: 0,
        kind: 0,
        length: 6,
        address: [0; 8],
    };
    let sent = read_records(File::open(file)?, |_, _, frame| {
        let bytes = frame.as_ptr().cast();
        let len = size_of::<Address>() as c_uint;
        let moved = unsafe { sendto(socket, bytes, frame.len(), 0, &address, len) };
        if moved != frame.len() as isize {
            return Err(Error::last_os_error());
        }
        sleep(Duration::from_micros(20));
        Ok(())
    })?;
    match sent {
        Ok(_) => Ok(()),
        Err(refusal) => Err(Error::other(refusal.0)),
    }
}
