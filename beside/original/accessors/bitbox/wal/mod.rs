
pub(crate) mod beside {
    pub(crate) use super::read::beside as read;
    pub(crate) use super::write::beside as write;
}
