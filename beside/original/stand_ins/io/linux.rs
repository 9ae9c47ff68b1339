// Stand-in for the I/O worker: a read is a pread, a write a pwrite.
use super::{CompleteIo, IoKind, IoPacket, IoUringPermission, PagePool, PAGE_SIZE};
use crossbeam_channel::Sender;
use std::os::fd::RawFd;
use threadpool::ThreadPool;

pub fn check_iou_permissions() -> IoUringPermission {
    IoUringPermission::NotSupported
}

pub(super) fn start_io_worker(
    _page_pool: PagePool,
    io_workers_tp: &ThreadPool,
    io_workers: usize,
) -> Sender<IoPacket> {
    let (sender, receiver) = crossbeam_channel::unbounded();
    for _ in 0..io_workers {
        let receiver = receiver.clone();
        io_workers_tp.execute(move || {
            while let Ok(packet) = receiver.recv() {
                carry_out(packet);
            }
        });
    }
    sender
}

pub(super) fn carry_out(packet: IoPacket) {
    let IoPacket { mut command, completion_sender } = packet;
    let result = match &mut command.kind {
        IoKind::Read(fd, pn, page) => read(*fd, *pn, page),
        IoKind::Write(fd, pn, page) => write(*fd, *pn, page.as_ptr()),
        IoKind::WriteArc(fd, pn, page) => write(*fd, *pn, page.as_ptr()),
        IoKind::WriteRaw(fd, pn, page) => write(*fd, *pn, page.as_ptr()),
    };
    // The other side may have hung up.
    let _ = completion_sender.send(CompleteIo { command, result });
}

fn read(fd: RawFd, pn: u64, page: &mut [u8]) -> std::io::Result<()> {
    // SAFETY: the page is PAGE_SIZE bytes.
    let r = unsafe { libc::pread(fd, page.as_mut_ptr().cast(), PAGE_SIZE, (pn * PAGE_SIZE as u64) as i64) };
    whole(r)
}

fn write(fd: RawFd, pn: u64, page: *const u8) -> std::io::Result<()> {
    // SAFETY: the page is PAGE_SIZE bytes.
    let r = unsafe { libc::pwrite(fd, page.cast(), PAGE_SIZE, (pn * PAGE_SIZE as u64) as i64) };
    whole(r)
}

fn whole(r: isize) -> std::io::Result<()> {
    match r {
        -1 => Err(std::io::Error::last_os_error()),
        _ if r == PAGE_SIZE as isize => Ok(()),
        _ => Err(std::io::ErrorKind::UnexpectedEof.into()),
    }
}
