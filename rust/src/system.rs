//! The system calls on a netlink socket, with the numbers and the structs of Linux on x86-64.

use crate::socket::Wire;
use std::ffi::{c_int, c_long, c_void};
use std::io;
use std::mem::size_of;
use std::os::fd::{AsRawFd, FromRawFd, OwnedFd};
use std::ptr::null_mut;
use std::time::Duration;

const AF_NETLINK: u16 = 16;
const SOCK_RAW: c_int = 3;
const SOCK_CLOEXEC: c_int = 0o2000000;
const SOL_SOCKET: c_int = 1;
const SO_RCVBUF: c_int = 8;
const SO_RCVTIMEO: c_int = 20;
const SOL_NETLINK: c_int = 270;

pub const NETLINK_ADD_MEMBERSHIP: c_int = 1;
pub const NETLINK_DROP_MEMBERSHIP: c_int = 2;
pub const NETLINK_CAP_ACK: c_int = 10;
pub const NETLINK_EXT_ACK: c_int = 11;
pub const NETLINK_GET_STRICT_CHK: c_int = 12;
pub const MSG_PEEK: c_int = 0x02;
pub const MSG_TRUNC: c_int = 0x20;
pub const MSG_DONTWAIT: c_int = 0x40;
pub const ENOPROTOOPT: i32 = 92;
pub const ENOBUFS: i32 = 105;

/// `struct sockaddr_nl`.
#[repr(C)]
#[derive(Clone, Copy, Default)]
struct Address {
    family: u16,
    padding: u16,
    port: u32,
    groups: u32,
}

/// `struct iovec`.
#[repr(C)]
struct Buffer {
    bytes: *mut u8,
    size: usize,
}

/// `struct msghdr`.
#[repr(C)]
struct Envelope {
    address: *mut Address,
    address_size: u32,
    buffers: *mut Buffer,
    buffer_count: usize,
    control: *mut c_void,
    control_size: usize,
    flags: c_int,
}

/// `struct timeval`.
#[repr(C)]
struct Time {
    seconds: c_long,
    microseconds: c_long,
}

mod c {
    use super::{c_int, c_void, Address, Envelope};

    extern "C" {
        pub fn socket(domain: c_int, kind: c_int, protocol: c_int) -> c_int;
        pub fn bind(fd: c_int, address: *const Address, size: u32) -> c_int;
        pub fn getsockname(fd: c_int, address: *mut Address, size: *mut u32) -> c_int;
        pub fn setsockopt(fd: c_int, level: c_int, name: c_int, value: *const c_void, size: u32) -> c_int;
        pub fn send(fd: c_int, bytes: *const u8, size: usize, flags: c_int) -> isize;
        pub fn recvmsg(fd: c_int, envelope: *mut Envelope, flags: c_int) -> isize;
    }
}

/// Returns the error in errno if the result is negative.
fn checked(result: c_int) -> io::Result<()> {
    (result >= 0).then_some(()).ok_or_else(io::Error::last_os_error)
}

/// Opens a socket that is closed when the process executes another program.
pub fn open(protocol: i32) -> io::Result<OwnedFd> {
    // SAFETY: the arguments are integers.
    let fd = unsafe { c::socket(AF_NETLINK.into(), SOCK_RAW | SOCK_CLOEXEC, protocol) };
    checked(fd)?;
    // SAFETY: the descriptor is open, and nothing else owns it.
    Ok(unsafe { OwnedFd::from_raw_fd(fd) })
}

/// Binds the socket to a port that the kernel chooses, and returns the port.
pub fn bind(socket: &OwnedFd) -> io::Result<u32> {
    let mut address = Address { family: AF_NETLINK, ..Address::default() };
    let mut size = size_of::<Address>() as u32;
    // SAFETY: the address is live and has this size.
    checked(unsafe { c::bind(socket.as_raw_fd(), &address, size) })?;
    // SAFETY: the address is live and has this size, and the size is live.
    checked(unsafe { c::getsockname(socket.as_raw_fd(), &mut address, &mut size) })?;
    Ok(address.port)
}

fn set<T>(socket: &OwnedFd, level: c_int, name: c_int, value: &T) -> io::Result<()> {
    let size = size_of::<T>() as u32;
    // SAFETY: the value is live and has this size.
    checked(unsafe { c::setsockopt(socket.as_raw_fd(), level, name, (value as *const T).cast(), size) })
}

/// Sets an option of netlink.
pub fn set_option(socket: &OwnedFd, name: c_int, value: u32) -> io::Result<()> {
    set(socket, SOL_NETLINK, name, &value)
}

/// Sets the size of the receive buffer in bytes.
pub fn set_receive_buffer(socket: &OwnedFd, size: usize) -> io::Result<()> {
    set(socket, SOL_SOCKET, SO_RCVBUF, &c_int::try_from(size).unwrap_or(c_int::MAX))
}

/// Sets how long `recvmsg` waits. Rounds up to microseconds, because 0 means no limit.
pub fn set_time_limit(socket: &OwnedFd, limit: Option<Duration>) -> io::Result<()> {
    let microseconds = limit.map_or(0, |it| it.as_nanos().div_ceil(1000));
    let seconds = c_long::try_from(microseconds / 1_000_000).unwrap_or(c_long::MAX);
    let time = Time { seconds, microseconds: (microseconds % 1_000_000) as c_long };
    set(socket, SOL_SOCKET, SO_RCVTIMEO, &time)
}

impl Wire for OwnedFd {
    fn send(&mut self, bytes: &[u8]) -> io::Result<()> {
        // SAFETY: the slice is live.
        let size = unsafe { c::send(self.as_raw_fd(), bytes.as_ptr(), bytes.len(), 0) };
        (size >= 0).then_some(()).ok_or_else(io::Error::last_os_error)
    }

    fn receive(&mut self, buffer: &mut [u8], flags: i32) -> io::Result<(usize, u32)> {
        let mut address = Address::default();
        let mut part = Buffer { bytes: buffer.as_mut_ptr(), size: buffer.len() };
        let mut envelope = Envelope {
            address: &mut address,
            address_size: size_of::<Address>() as u32,
            buffers: &mut part,
            buffer_count: 1,
            control: null_mut(),
            control_size: 0,
            flags: 0,
        };
        // SAFETY: the envelope is live, and so are the address and the slice whose sizes it has.
        let size = unsafe { c::recvmsg(self.as_raw_fd(), &mut envelope, flags) };
        let size = usize::try_from(size).map_err(|_| io::Error::last_os_error())?;
        Ok((size, address.port))
    }
}
