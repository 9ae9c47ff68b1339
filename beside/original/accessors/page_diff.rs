
pub(crate) mod beside {
    use super::PageDiff;

    pub(crate) fn of(changed_nodes: [u64; 2]) -> PageDiff {
        PageDiff { changed_nodes }
    }

    pub(crate) fn words(diff: &PageDiff) -> [u64; 2] {
        diff.changed_nodes
    }
}
