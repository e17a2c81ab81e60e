//! Standard output, and whether it was open when the program began. Rust opens `/dev/null` for one that is closed, before `main`: what is
//! printed would be lost without a word.

use std::io::{self, Write};

#[cfg(target_os = "linux")]
mod at_start {
    use std::ffi::c_int;
    use std::sync::atomic::{AtomicBool, Ordering};

    extern "C" {
        fn fcntl(file: c_int, command: c_int, ...) -> c_int;
    }

    static CLOSED: AtomicBool = AtomicBool::new(false);
    const STANDARD_OUTPUT: c_int = 1;
    const F_GETFD: c_int = 1;

    /// Run by the loader, before anything of Rust's own.
    #[used]
    #[link_section = ".init_array"]
    static LOOK: extern "C" fn() = look;

    extern "C" fn look() {
        // SAFETY: the call only looks at the file's flags, and takes any number.
        let flags = unsafe { fcntl(STANDARD_OUTPUT, F_GETFD) };
        CLOSED.store(flags < 0, Ordering::Relaxed);
    }

    pub fn closed() -> bool {
        CLOSED.load(Ordering::Relaxed)
    }
}

#[cfg(not(target_os = "linux"))]
mod at_start {
    pub fn closed() -> bool {
        false
    }
}

/// To standard output. A reader that has seen enough, as `head`, is no fault.
pub fn write(bytes: &[u8]) -> io::Result<()> {
    must_be_open()?;
    let mut out = io::stdout().lock();
    match out.write_all(bytes).and_then(|()| out.flush()) {
        Err(why) if why.kind() == io::ErrorKind::BrokenPipe => Ok(()),
        written => written,
    }
}

pub fn must_be_open() -> io::Result<()> {
    match at_start::closed() {
        true => Err(io::Error::other("it is closed")),
        false => Ok(()),
    }
}
