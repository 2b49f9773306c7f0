//! Stand-in for bumpalo: an arena of chunks, only what path_builder.rs and
//! tree_cache.rs call.

use std::cell::{Cell, RefCell};

const FIRST_CHUNK: usize = 512;

/// `u64` words keep every chunk aligned to 8 bytes.
#[derive(Default)]
pub struct Bump {
    chunks: RefCell<Vec<Box<[u64]>>>,
    // bytes used in the last chunk
    used: Cell<usize>,
}

impl Bump {
    pub fn new() -> Self {
        Self::default()
    }

    /// Frees every chunk but the last (largest) one, which is used again.
    pub fn reset(&mut self) {
        let chunks = self.chunks.get_mut();
        if chunks.len() > 1 {
            let last = chunks.pop().expect("no chunk");
            chunks.clear();
            chunks.push(last);
        }
        self.used.set(0);
    }

    /// `size` fresh bytes, at an address that is a multiple of `align`.
    fn take(&self, size: usize, align: usize) -> *mut u8 {
        assert!(align <= 8);
        let mut chunks = self.chunks.borrow_mut();
        let start = self.used.get().next_multiple_of(align);
        if let Some(chunk) = chunks.last_mut()
            && start + size <= chunk.len() * 8
        {
            self.used.set(start + size);
            // in bounds: start + size is at most the chunk's length in bytes
            return unsafe { chunk.as_mut_ptr().cast::<u8>().add(start) };
        }
        let last = chunks.last().map_or(0, |c| c.len() * 8);
        let bytes = (last * 2).max(FIRST_CHUNK).max(size);
        chunks.push(vec![0_u64; bytes.div_ceil(8)].into_boxed_slice());
        self.used.set(size);
        chunks.last_mut().expect("no chunk").as_mut_ptr().cast()
    }

    // A part is handed out once until reset(), which needs &mut self.
    #[allow(clippy::mut_from_ref)]
    pub fn alloc_slice_fill_default<T: Copy + Default>(&self, len: usize) -> &mut [T] {
        let p: *mut T = self.take(len * size_of::<T>(), align_of::<T>()).cast();
        unsafe {
            for i in 0..len {
                p.add(i).write(T::default());
            }
            std::slice::from_raw_parts_mut(p, len)
        }
    }

    #[allow(clippy::mut_from_ref)]
    pub fn alloc_slice_copy<T: Copy>(&self, src: &[T]) -> &mut [T] {
        let p: *mut T = self.take(size_of_val(src), align_of::<T>()).cast();
        unsafe {
            std::ptr::copy_nonoverlapping(src.as_ptr(), p, src.len());
            std::slice::from_raw_parts_mut(p, src.len())
        }
    }
}
