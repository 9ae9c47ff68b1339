// Stand-in for one function of sys/unix.rs.

/// Calls again while the call is interrupted; -1 is an error.
pub fn cvt_r(mut call: impl FnMut() -> i32) -> std::io::Result<i32> {
    loop {
        match call() {
            -1 => {
                let e = std::io::Error::last_os_error();
                if e.kind() != std::io::ErrorKind::Interrupted {
                    return Err(e);
                }
            }
            r => return Ok(r),
        }
    }
}
