
pub(crate) mod beside {
    use super::*;

    // The worker's end of a pool: it does its work when it is told, on the thread that tells it.
    pub(crate) struct Worker(Receiver<IoPacket>);

    impl Worker {
        pub(crate) fn carry_out(&self) {
            for packet in self.0.try_iter() {
                platform::carry_out(packet);
            }
        }
    }

    pub(crate) fn pool(page_pool: PagePool) -> (IoPool, Worker) {
        let (sender, receiver) = crossbeam_channel::unbounded();
        let pool = IoPool {
            sender: Some(Arc::new(sender)),
            page_pool,
            io_workers_tp: ThreadPool::new(1),
        };
        (pool, Worker(receiver))
    }
}
