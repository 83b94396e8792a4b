//! A network namespace and mounts of a test's own, and a socket at the kernel's side of the daemon's device: what it sends,
//! the daemon reads; what the daemon writes, it receives.

use live::system::{self, Waited};
use programs::IP;
use std::ffi::{c_char, c_void, CString};
use std::fs;
use std::io::{self, ErrorKind, Write};
use std::mem::size_of;
use std::os::fd::{AsRawFd, FromRawFd, OwnedFd};
use std::os::unix::fs::{MetadataExt, PermissionsExt};
use std::path::Path;
use std::time::{Duration, Instant};

const CLONE_NEWNET: i32 = 0x4000_0000;
const CLONE_NEWNS: i32 = 0x0002_0000;
const MNT_DETACH: i32 = 2;
const MS_BIND: u64 = 0x1000;
const MS_REC: u64 = 0x4000;
const MS_PRIVATE: u64 = 0x4_0000;
const AF_PACKET: i32 = 17;
const SOCK_DGRAM: i32 = 2;
const SOL_SOCKET: i32 = 1;
const SO_RCVBUFFORCE: i32 = 33;
const MSG_DONTWAIT: i32 = 0x40;
const IPV4: u16 = 0x0800;

/// C's `struct sockaddr_ll`.
#[repr(C)]
struct LinkAddress {
    family: u16,
    protocol: u16,
    interface: i32,
    rest: [u8; 12],
}

extern "C" {
    fn unshare(flags: i32) -> i32;
    fn mount(
        source: *const c_char,
        target: *const c_char,
        kind: *const c_char,
        flags: u64,
        options: *const c_char,
    ) -> i32;
    fn umount2(target: *const c_char, flags: i32) -> i32;
    fn mknod(path: *const c_char, mode: u32, device: u64) -> i32;
    fn socket(domain: i32, kind: i32, protocol: i32) -> i32;
    fn bind(descriptor: i32, address: *const LinkAddress, length: u32) -> i32;
    fn send(descriptor: i32, bytes: *const u8, length: usize, flags: i32) -> isize;
    fn recv(descriptor: i32, bytes: *mut u8, length: usize, flags: i32) -> isize;
    fn setsockopt(descriptor: i32, level: i32, name: i32, value: *const c_void, length: u32)
        -> i32;
    fn if_nametoindex(name: *const c_char) -> u32;
}

/// Gives the calling thread, and what it starts from now on, a network of its own. An error says why that isn't possible.
pub fn enter_own_network() -> Result<(), String> {
    if system::own_user() != 0 {
        return Err("it needs root".into());
    }
    if !Path::new("/dev/net/tun").exists() {
        return Err("there is no /dev/net/tun".into());
    }
    // SAFETY: unshare takes any number; this one changes nothing but the thread's network.
    if unsafe { unshare(CLONE_NEWNET) } != 0 {
        return Err(format!("no network namespace: {}", io::Error::last_os_error()));
    }
    // else the kernel sends packets of its own into the device; where there is no IPv6 it doesn't
    let _ = fs::write("/proc/sys/net/ipv6/conf/default/disable_ipv6", "1");
    Ok(())
}

/// Something mounted, until this goes.
pub struct Mounted(CString);

impl Drop for Mounted {
    fn drop(&mut self) {
        // SAFETY: the path ends in a zero and lives through the call.
        unsafe { umount2(self.0.as_ptr(), MNT_DETACH) };
    }
}

/// Mounts a file system of 64 KiB at that directory, for the calling thread and what it starts.
pub fn mount_small(directory: &str) -> Mounted {
    // SAFETY: unshare takes any number; this one changes nothing but what the thread sees mounted.
    assert_eq!(unsafe { unshare(CLONE_NEWNS) }, 0, "{}", io::Error::last_os_error());
    // else it would be seen by all
    std::mem::forget(mount_at("none", "/", MS_REC | MS_PRIVATE, ""));
    mount_at("tmpfs", directory, 0, "size=64k")
}

/// Lets every user open /dev/net/tun, as it is where udev runs, for the calling thread and what it starts. The directory is
/// taken for it.
pub fn open_tun_to_all(directory: &str) -> [Mounted; 2] {
    let small = mount_small(directory);
    let tun = "/dev/net/tun";
    let (own, kind) = (format!("{directory}/tun"), fs::metadata(tun).unwrap());
    let path = CString::new(own.as_str()).unwrap();
    // SAFETY: the path ends in a zero and lives through the call.
    let made = unsafe { mknod(path.as_ptr(), kind.mode(), kind.rdev()) };
    assert_eq!(made, 0, "{}", io::Error::last_os_error());
    fs::set_permissions(&own, fs::Permissions::from_mode(0o666)).unwrap();
    [mount_at(&own, tun, MS_BIND, ""), small]
}

fn mount_at(source: &str, target: &str, flags: u64, options: &str) -> Mounted {
    let texts = [source, target, "tmpfs", options].map(|text| CString::new(text).unwrap());
    let [from, to, kind, options] = texts.each_ref().map(|text| text.as_ptr());
    // SAFETY: the texts end in a zero and live through the call.
    let mounted = unsafe { mount(from, to, kind, flags, options) };
    assert_eq!(mounted, 0, "{target}: {}", io::Error::last_os_error());
    let [_, target, ..] = texts;
    Mounted(target)
}

/// Says something past the capture of the test's output.
pub fn say(line: &str) {
    let _ = writeln!(io::stderr(), "{line}");
}

/// Runs an `ip` command, which must succeed.
pub fn ip(words: &str) {
    let output = IP.run(&words.split(' ').collect::<Vec<_>>());
    assert!(output.status.success(), "ip {words}: {}", String::from_utf8_lossy(&output.stderr));
}

/// The number of the device of that name; None where there is none.
pub fn device_number(name: &str) -> Option<i32> {
    let name = CString::new(name).unwrap();
    // SAFETY: the name ends in a zero and lives through the call.
    let number = unsafe { if_nametoindex(name.as_ptr()) } as i32;
    (number > 0).then_some(number)
}

/// The socket.
pub struct Link(OwnedFd);

impl Link {
    /// At the device of that name.
    pub fn open(device: &str) -> Link {
        let interface = device_number(device).expect("there is no such device");
        let protocol = IPV4.to_be();
        // SAFETY: plain numbers; a descriptor that isn't negative is new and nobody else's.
        let descriptor = unsafe { socket(AF_PACKET, SOCK_DGRAM, i32::from(protocol)) };
        assert!(descriptor >= 0, "{}", io::Error::last_os_error());
        // SAFETY: as said.
        let link = Link(unsafe { OwnedFd::from_raw_fd(descriptor) });
        let family = AF_PACKET as u16;
        let address = LinkAddress { family, protocol, interface, rest: [0; 12] };
        let length = size_of::<LinkAddress>() as u32;
        // SAFETY: the address is a whole sockaddr_ll of the length told.
        let bound = unsafe { bind(descriptor, &address, length) };
        assert_eq!(bound, 0, "{}", io::Error::last_os_error());
        link.enlarge_buffer();
        link
    }

    /// Room for all that a batch of packets may bring.
    fn enlarge_buffer(&self) {
        let bytes: i32 = 16 << 20;
        let (value, length) = ((&raw const bytes).cast(), size_of::<i32>() as u32);
        // SAFETY: the value is an int of the length told, and lives through the call.
        let set =
            unsafe { setsockopt(self.0.as_raw_fd(), SOL_SOCKET, SO_RCVBUFFORCE, value, length) };
        assert_eq!(set, 0, "{}", io::Error::last_os_error());
    }

    /// Sends a packet into the device.
    pub fn send(&self, packet: &[u8]) {
        match self.send_once(packet) {
            // told once after the device was down; is it down now, this is told again
            Err(error) if error.kind() == ErrorKind::NetworkDown => self.send_once(packet).unwrap(),
            other => other.unwrap(),
        }
    }

    /// Sends a packet into the device if it takes one: false where its queue is full, it is down or gone.
    pub fn offer(&self, packet: &[u8]) -> bool {
        self.send_once(packet).is_ok()
    }

    fn send_once(&self, packet: &[u8]) -> io::Result<()> {
        // SAFETY: the pointer and the length are those of a slice that is lent for the call.
        let sent = unsafe { send(self.0.as_raw_fd(), packet.as_ptr(), packet.len(), 0) };
        match sent == packet.len() as isize {
            true => Ok(()),
            false => Err(io::Error::last_os_error()),
        }
    }

    /// The next packet that the daemon wrote, if one comes in time.
    pub fn receive(&self, time: Duration) -> Option<Vec<u8>> {
        let deadline = Instant::now() + time;
        loop {
            match self.receive_now() {
                Ok(packet) => return Some(packet),
                Err(error) if error.kind() == ErrorKind::WouldBlock => {}
                // told once after the device was down
                Err(error) if error.kind() == ErrorKind::NetworkDown => continue,
                Err(error) => panic!("{error}"),
            }
            let left = deadline.checked_duration_since(Instant::now())?;
            system::wait(&mut [Waited::new(&self.0, true, false)], left).unwrap();
        }
    }

    fn receive_now(&self) -> io::Result<Vec<u8>> {
        let mut bytes = vec![0; 65_536];
        let (place, room) = (bytes.as_mut_ptr(), bytes.len());
        // SAFETY: the pointer and the length are those of a vector that lives through the call.
        let length = unsafe { recv(self.0.as_raw_fd(), place, room, MSG_DONTWAIT) };
        match length {
            0.. => {
                bytes.truncate(length as usize);
                Ok(bytes)
            }
            _ => Err(io::Error::last_os_error()),
        }
    }
}
