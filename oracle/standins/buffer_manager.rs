// Stands in for storage/buffer_manager.rs: n lent pages and one inventory page, for one thread.
// A lock that is held where it is asked for again times out at once.

use std::cell::{Cell, Ref, RefCell, RefMut};
use std::fmt::Debug;
use std::marker::PhantomData;
use std::rc::Rc;
use std::time::Duration;

use super::page::{Page, PageId, SegmentId, PAGE_SIZE};
use crate::util::align::alligned_slice;
use store::Answer;

pub trait BufferManager: Clone + Debug {
    type BError: Debug + From<u64>;
    fn fix_page(&self, id: PageId) -> Result<BMArc<Self>, Self::BError>;
    fn segment_size(&self, id: SegmentId) -> usize;
}

pub const SEGMENT: SegmentId = 0;
pub const INVENTORY: SegmentId = 1;

pub type BMArc<B> = Fixed<B>;

pub struct Fixed<B> {
    lent: Rc<Pages>,
    frame: usize,
    manager: PhantomData<B>,
}

impl<B> Fixed<B> {
    pub fn read(&self) -> Ref<'_, Page> {
        self.lent.frames[self.frame].borrow()
    }

    pub fn write(&self) -> RefMut<'_, Page> {
        self.lent.written.borrow_mut().push(self.frame);
        self.lent.frames[self.frame].borrow_mut()
    }

    pub fn try_read_for(&self, _: Duration) -> Option<Ref<'_, Page>> {
        self.lent.frames[self.frame].try_borrow().ok()
    }

    pub fn try_write_for(&self, _: Duration) -> Option<RefMut<'_, Page>> {
        self.lent.written.borrow_mut().push(self.frame);
        self.lent.frames[self.frame].try_borrow_mut().ok()
    }
}

/// Why a call stopped: a page past the lent run, or in the corrected Rust a numbered answer.
#[derive(Debug)]
pub struct Stopped(pub Answer);

impl From<u64> for Stopped {
    fn from(number: u64) -> Stopped {
        Stopped(Answer::Number(number))
    }
}

/// The lent pages and, as the last frame, the inventory page.
#[derive(Debug)]
pub struct Pages {
    frames: Vec<RefCell<Page>>,
    written: RefCell<Vec<usize>>,
    last_fixed: Cell<usize>,
    fixes_left: Cell<usize>,
}

#[derive(Clone, Debug)]
pub struct Lent(pub Rc<Pages>);

fn empty_frame(frame: usize) -> RefCell<Page> {
    let mut page = Page::new(PageId::new(SEGMENT, frame as u64));
    page.data = alligned_slice(PAGE_SIZE, 512);
    RefCell::new(page)
}

impl Lent {
    pub fn new(pages: usize) -> Lent {
        Lent(Rc::new(Pages {
            frames: (0..=pages).map(empty_frame).collect(),
            written: RefCell::new(Vec::new()),
            last_fixed: Cell::new(0),
            fixes_left: Cell::new(0),
        }))
    }

    pub fn pages(&self) -> usize {
        self.0.frames.len() - 1
    }

    pub fn frame(&self, frame: usize) -> Ref<'_, Page> {
        self.0.frames[frame].borrow()
    }

    pub fn load(&self, frame: usize, bytes: &[u8]) {
        self.0.frames[frame].borrow_mut().copy_from_slice(bytes);
    }

    /// Before each call. A retry that changes anything sets the nibble of one page right, so a
    /// call that ends retries at most once a page, and fixes four pages each time; one that
    /// fixes more is taken to retry for ever.
    pub fn begin_call(&self) {
        self.0.fixes_left.set(64 + 8 * self.pages());
        self.0.written.borrow_mut().clear();
    }

    /// The frames that the call may have written.
    pub fn written(&self) -> Vec<usize> {
        self.0.written.borrow().clone()
    }

    /// Where a part of the page fixed last lies in the segment.
    pub fn offset_of(&self, part: &[u8]) -> u64 {
        let page = self.0.last_fixed.get();
        let start = self.frame(page).as_ptr() as usize;
        (page * PAGE_SIZE + part.as_ptr() as usize - start) as u64
    }
}

impl BufferManager for Lent {
    type BError = Stopped;

    fn fix_page(&self, id: PageId) -> Result<BMArc<Self>, Stopped> {
        if self.0.fixes_left.get() == 0 {
            store::end_endless();
        }
        self.0.fixes_left.set(self.0.fixes_left.get() - 1);
        if id.offset_id >= self.segment_size(id.segment_id) as u64 {
            return Err(Stopped(Answer::PastEnd));
        }
        let frame = if id.segment_id == INVENTORY { self.pages() } else { id.offset_id as usize };
        self.0.last_fixed.set(frame);
        Ok(Fixed { lent: self.0.clone(), frame, manager: PhantomData })
    }

    fn segment_size(&self, id: SegmentId) -> usize {
        if id == INVENTORY { 1 } else { self.pages() }
    }
}
