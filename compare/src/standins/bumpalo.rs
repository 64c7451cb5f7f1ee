//! bumpalo: an arena that hands out parts of large blocks and frees them all at once.
//!
//! It is a true arena and not a box for each part, so that a benchmark against the printed Rust
//! is not won by a slow stand-in. As in bumpalo, what lies in it is never dropped. Its parts are
//! handed out to be read only, which is all that the printed files do with them.

use std::alloc::{Layout, alloc, dealloc, handle_alloc_error};
use std::cell::{Cell, RefCell};
use std::fmt;
use std::ptr::NonNull;

/// The least size of a block, and an alignment that suits all that is put in.
const BLOCK: usize = 16 * 1024;
const ALIGN: usize = 16;

pub struct Bump {
    /// Where the newest block is free from, and how many bytes are.
    free: Cell<NonNull<u8>>,
    left: Cell<usize>,
    blocks: RefCell<Vec<(NonNull<u8>, Layout)>>,
}

impl Default for Bump {
    fn default() -> Self {
        Bump {
            free: Cell::new(NonNull::dangling()),
            left: Cell::new(0),
            blocks: RefCell::new(Vec::new()),
        }
    }
}

impl Bump {
    pub fn new() -> Self {
        Bump::default()
    }

    pub fn with_capacity(bytes: usize) -> Self {
        let bump = Bump::new();
        bump.add_block(bytes);
        bump
    }

    /// Frees all that was put in. The newest block is kept to be used again, as in bumpalo.
    pub fn reset(&mut self) {
        let kept = self.blocks.get_mut().pop();
        self.clear();
        if let Some((block, layout)) = kept {
            self.free.set(block);
            self.left.set(layout.size());
            self.blocks.get_mut().push((block, layout));
        }
    }

    fn clear(&mut self) {
        self.left.set(0);
        for (block, layout) in self.blocks.get_mut().drain(..) {
            // SAFETY: the block came from `alloc` with this layout, and `&mut self` says that
            // nothing borrowed from it is left.
            unsafe { dealloc(block.as_ptr(), layout) };
        }
    }

    pub fn alloc_str(&self, text: &str) -> &str {
        let bytes = self.alloc_slice_fill_iter(text.bytes());
        // SAFETY: the bytes are those of a `str`.
        unsafe { std::str::from_utf8_unchecked(bytes) }
    }

    pub fn alloc<T>(&self, item: T) -> &T {
        &self.alloc_slice_fill_iter([item])[0]
    }

    pub fn alloc_slice_fill_iter<T, I>(&self, items: I) -> &[T]
    where
        I: IntoIterator<Item = T>,
        I::IntoIter: ExactSizeIterator,
    {
        let mut items = items.into_iter();
        let filled = self.alloc_slice_try_fill_with(items.len(), |_| {
            Ok::<T, std::convert::Infallible>(items.next().expect("an iterator of that length"))
        });
        match filled {
            Ok(slice) => slice,
            Err(never) => match never {},
        }
    }

    pub fn alloc_slice_try_fill_with<T, F, E>(&self, len: usize, mut fill: F) -> Result<&[T], E>
    where
        F: FnMut(usize) -> Result<T, E>,
    {
        let at = self.room::<T>(len);
        for i in 0..len {
            let item = fill(i)?;
            // SAFETY: `room` gave space for `len` items that nobody else has.
            unsafe { at.add(i).write(item) };
        }
        // SAFETY: all `len` items are written, and the space lives as long as `self` is lent.
        Ok(unsafe { std::slice::from_raw_parts(at.as_ptr(), len) })
    }

    /// Space for `len` items.
    fn room<T>(&self, len: usize) -> NonNull<T> {
        let layout = Layout::array::<T>(len).expect("a size in range");
        assert!(layout.align() <= ALIGN, "an alignment that blocks have");
        if layout.size() == 0 {
            return NonNull::dangling();
        }
        let size = layout.size().next_multiple_of(ALIGN);
        if size > self.left.get() {
            self.add_block(size);
        }
        let at = self.free.get();
        // SAFETY: at least `size` bytes are left in the block.
        self.free.set(unsafe { at.add(size) });
        self.left.set(self.left.get() - size);
        at.cast()
    }

    fn add_block(&self, least: usize) {
        let size = least.max(BLOCK).next_multiple_of(ALIGN);
        let layout = Layout::from_size_align(size, ALIGN).expect("a size in range");
        // SAFETY: the size is not zero.
        let Some(block) = NonNull::new(unsafe { alloc(layout) }) else {
            handle_alloc_error(layout);
        };
        self.blocks.borrow_mut().push((block, layout));
        self.free.set(block);
        self.left.set(size);
    }
}

impl Drop for Bump {
    fn drop(&mut self) {
        self.clear();
    }
}

impl fmt::Debug for Bump {
    fn fmt(&self, f: &mut fmt::Formatter<'_>) -> fmt::Result {
        f.write_str("Bump")
    }
}

pub mod collections {
    //! Growing things that end up in an arena. They grow outside it and move in at the end.

    use super::Bump;
    use std::fmt::{self, Debug, Formatter};
    use std::ops::{Deref, DerefMut};

    pub struct Vec<'a, T> {
        items: std::vec::Vec<T>,
        arena: &'a Bump,
    }

    impl<'a, T> Vec<'a, T> {
        pub fn new_in(arena: &'a Bump) -> Self {
            Vec::with_capacity_in(0, arena)
        }

        pub fn with_capacity_in(capacity: usize, arena: &'a Bump) -> Self {
            let items = std::vec::Vec::with_capacity(capacity);
            Vec { items, arena }
        }

        pub fn push(&mut self, item: T) {
            self.items.push(item);
        }

        pub fn pop(&mut self) -> Option<T> {
            self.items.pop()
        }

        pub fn clear(&mut self) {
            self.items.clear();
        }

        pub fn reserve(&mut self, more: usize) {
            self.items.reserve(more);
        }

        pub fn into_bump_slice(self) -> &'a [T] {
            self.arena.alloc_slice_fill_iter(self.items)
        }
    }

    impl<T: Clone> Vec<'_, T> {
        pub fn extend_from_slice(&mut self, items: &[T]) {
            self.items.extend_from_slice(items);
        }
    }

    impl<T: Clone> Clone for Vec<'_, T> {
        fn clone(&self) -> Self {
            Vec {
                items: self.items.clone(),
                arena: self.arena,
            }
        }
    }

    impl<T: Debug> Debug for Vec<'_, T> {
        fn fmt(&self, f: &mut Formatter<'_>) -> fmt::Result {
            self.items.fmt(f)
        }
    }

    impl<T: PartialEq> PartialEq for Vec<'_, T> {
        fn eq(&self, other: &Self) -> bool {
            self.items == other.items
        }
    }

    impl<T> Deref for Vec<'_, T> {
        type Target = [T];
        fn deref(&self) -> &[T] {
            &self.items
        }
    }

    impl<T> DerefMut for Vec<'_, T> {
        fn deref_mut(&mut self) -> &mut [T] {
            &mut self.items
        }
    }

    impl<'v, T> IntoIterator for &'v Vec<'_, T> {
        type Item = &'v T;
        type IntoIter = std::slice::Iter<'v, T>;
        fn into_iter(self) -> Self::IntoIter {
            self.items.iter()
        }
    }

    impl<T> IntoIterator for Vec<'_, T> {
        type Item = T;
        type IntoIter = std::vec::IntoIter<T>;
        fn into_iter(self) -> Self::IntoIter {
            self.items.into_iter()
        }
    }

    impl<T> Extend<T> for Vec<'_, T> {
        fn extend<I: IntoIterator<Item = T>>(&mut self, items: I) {
            self.items.extend(items);
        }
    }

    pub struct String<'a> {
        text: std::string::String,
        arena: &'a Bump,
    }

    impl<'a> String<'a> {
        pub fn with_capacity_in(capacity: usize, arena: &'a Bump) -> Self {
            let text = std::string::String::with_capacity(capacity);
            String { text, arena }
        }

        pub fn push(&mut self, ch: char) {
            self.text.push(ch);
        }

        pub fn into_bump_str(self) -> &'a str {
            self.arena.alloc_str(&self.text)
        }
    }
}
