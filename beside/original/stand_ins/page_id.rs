// Stand-in for page ids: bitbox only encodes and clones them, so any 32 bytes will do.
#[derive(Clone, Debug, PartialEq, Eq, Hash)]
pub struct PageId(pub [u8; 32]);

impl PageId {
    pub fn encode(&self) -> [u8; 32] {
        self.0
    }
}

#[derive(Clone, Copy)]
pub struct ChildPageIndex(u8);

impl ChildPageIndex {
    pub fn to_u8(self) -> u8 {
        self.0
    }
}
