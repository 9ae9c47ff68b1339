
pub(crate) mod beside {
    pub(crate) use super::MetaMap;

    pub(crate) fn full_entry(hash: u64) -> u8 {
        super::full_entry(hash)
    }

    pub(crate) fn is_full(map: &MetaMap, bucket: usize) -> bool {
        map.is_full(bucket)
    }

    pub(crate) fn padding_is_empty(map: &MetaMap) -> bool {
        map.padding_is_empty()
    }

    pub(crate) fn tags(map: &MetaMap) -> &[u8] {
        &map.bitvec
    }

    pub(crate) fn tags_mut(map: &mut MetaMap) -> &mut [u8] {
        &mut map.bitvec
    }
}
