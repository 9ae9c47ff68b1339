// Stand-in for the page pool: every page is an allocation of its own. As in the pool, a page comes
// with whatever was there before, here a byte that is neither zero nor a tag that means anything.
use super::PAGE_SIZE;
use std::ops::{Deref, DerefMut};

const USED_BEFORE: u8 = 0x55;

#[derive(Clone)]
pub struct PagePool;

impl PagePool {
    pub fn new() -> Self {
        PagePool
    }

    pub fn alloc_fat_page(&self) -> FatPage {
        FatPage(Box::new([USED_BEFORE; PAGE_SIZE]))
    }

    pub fn alloc(&self) -> Page {
        Page(Box::into_raw(Box::new([USED_BEFORE; PAGE_SIZE])))
    }

    pub fn dealloc(&self, page: Page) {
        // SAFETY: a page comes from `alloc` and is given back once.
        drop(unsafe { Box::from_raw(page.0) });
    }
}

#[derive(Clone, Copy)]
pub struct Page(*mut [u8; PAGE_SIZE]);

unsafe impl Send for Page {}

impl Page {
    pub fn as_ptr(&self) -> *const u8 {
        self.0 as *const u8
    }

    /// # Safety
    ///
    /// The page is allocated, and no other slice of it is in use.
    pub unsafe fn as_mut_slice<'a>(&self) -> &'a mut [u8] {
        &mut *self.0
    }
}

#[derive(Clone)]
pub struct FatPage(Box<[u8; PAGE_SIZE]>);

impl Deref for FatPage {
    type Target = [u8];

    fn deref(&self) -> &[u8] {
        &self.0[..]
    }
}

impl DerefMut for FatPage {
    fn deref_mut(&mut self) -> &mut [u8] {
        &mut self.0[..]
    }
}

impl AsMut<[u8]> for FatPage {
    fn as_mut(&mut self) -> &mut [u8] {
        &mut self.0[..]
    }
}
