
pub(crate) mod beside {
    pub(crate) use super::WalBlobBuilder;

    pub(crate) fn with_initial_size(size: usize) -> anyhow::Result<WalBlobBuilder> {
        WalBlobBuilder::with_initial_size(size)
    }

    pub(crate) fn position(builder: &WalBlobBuilder) -> usize {
        builder.cur
    }
}
