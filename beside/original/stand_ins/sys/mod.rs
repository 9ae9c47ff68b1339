// Stand-in: the two that are needed of sys.
pub mod linux;
pub mod unix;
