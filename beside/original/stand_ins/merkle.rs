// Of merkle/mod.rs what bitbox uses: the elided children.
use nomt_core::page_id::ChildPageIndex;

// PASSAGE
