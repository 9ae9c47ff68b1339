
pub(crate) mod beside {
    use super::RehashMarker;

    pub(crate) const MARKER_FILE: &str = super::MARKER_FILE;
    pub(crate) const TMP_HT_FILE: &str = super::TMP_HT_FILE;

    pub(crate) fn encode(old_num_pages: u32, new_num_pages: u32) -> [u8; 16] {
        RehashMarker { old_num_pages, new_num_pages }.encode()
    }

    pub(crate) fn decode(bytes: &[u8]) -> anyhow::Result<(u32, u32)> {
        RehashMarker::decode(bytes).map(|m| (m.old_num_pages, m.new_num_pages))
    }
}
