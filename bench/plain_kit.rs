//! Stand-ins for what the sources use of the kit, over the vectors and boxes of Rust. Memory is never wanting.
pub use std::marker::PhantomData;
use std::ops::{Deref, DerefMut, RangeBounds};

/// The allocator of the system.
#[derive(Clone, Copy, Debug)]
pub struct Global;

#[derive(Clone, Copy, Debug, PartialEq, Eq)]
pub struct AllocError;

#[derive(Debug)]
pub struct AllocFailed<T> {
    pub value: T,
}

/// Every type meets this bound.
pub trait Drop {}

impl<T: ?Sized> Drop for T {}

/// Names of traits that are only imported.
pub trait Model {}
pub trait Error {}
pub trait MadeWith<A> {}

/// A growing vector.
#[derive(Debug)]
pub struct Vec<T>(std::vec::Vec<T>);

impl<T> Vec<T> {
    pub fn new(_alloc: Global) -> Vec<T> {
        Vec(std::vec::Vec::new())
    }

    pub fn with_capacity(_alloc: Global, room: usize) -> Result<Vec<T>, AllocError> {
        Ok(Vec(std::vec::Vec::with_capacity(room)))
    }

    pub fn from_slice(_alloc: Global, items: &[T]) -> Result<Vec<T>, AllocError>
    where
        T: Copy,
    {
        Ok(Vec(items.to_vec()))
    }

    pub fn filled(_alloc: Global, item: T, count: usize) -> Result<Vec<T>, AllocError>
    where
        T: Copy,
    {
        Ok(Vec(std::vec![item; count]))
    }

    pub fn of_array<const N: usize>(items: [T; N]) -> Result<Vec<T>, AllocError> {
        Ok(Vec(items.into()))
    }

    pub fn push(&mut self, value: T) -> Result<(), AllocFailed<T>> {
        self.0.push(value);
        Ok(())
    }

    pub fn insert(&mut self, place: usize, value: T) -> Result<(), AllocFailed<T>> {
        self.0.insert(place, value);
        Ok(())
    }

    pub fn extend_from_slice(&mut self, items: &[T]) -> Result<(), AllocError>
    where
        T: Copy,
    {
        self.0.extend_from_slice(items);
        Ok(())
    }

    pub fn try_reserve(&mut self, more: usize) -> Result<(), AllocError> {
        self.0.reserve(more);
        Ok(())
    }

    pub fn pop(&mut self) -> Option<T> {
        self.0.pop()
    }

    pub fn remove(&mut self, place: usize) -> T {
        self.0.remove(place)
    }

    pub fn swap_remove(&mut self, place: usize) -> T {
        self.0.swap_remove(place)
    }

    pub fn truncate(&mut self, count: usize) {
        self.0.truncate(count)
    }

    pub fn clear(&mut self) {
        self.0.clear()
    }

    pub fn as_slice(&self) -> &[T] {
        &self.0
    }

    pub fn as_mut_slice(&mut self) -> &mut [T] {
        &mut self.0
    }

    pub fn slice_mut(&mut self, range: std::ops::Range<usize>) -> &mut [T] {
        &mut self.0[range]
    }
}

impl<T> Deref for Vec<T> {
    type Target = [T];

    fn deref(&self) -> &[T] {
        &self.0
    }
}

impl<T> DerefMut for Vec<T> {
    fn deref_mut(&mut self) -> &mut [T] {
        &mut self.0
    }
}

impl<T> IntoIterator for Vec<T> {
    type Item = T;
    type IntoIter = std::vec::IntoIter<T>;

    fn into_iter(self) -> Self::IntoIter {
        self.0.into_iter()
    }
}

impl<'a, T> IntoIterator for &'a Vec<T> {
    type Item = &'a T;
    type IntoIter = std::slice::Iter<'a, T>;

    fn into_iter(self) -> Self::IntoIter {
        self.0.iter()
    }
}

impl<'a, T> IntoIterator for &'a mut Vec<T> {
    type Item = &'a mut T;
    type IntoIter = std::slice::IterMut<'a, T>;

    fn into_iter(self) -> Self::IntoIter {
        self.0.iter_mut()
    }
}

/// Copies of slices.
pub trait ToVec<T> {
    fn kit_to_vec(&self, alloc: Global) -> Result<Vec<T>, AllocError>;
}

impl<T: Copy> ToVec<T> for [T] {
    fn kit_to_vec(&self, alloc: Global) -> Result<Vec<T>, AllocError> {
        Vec::from_slice(alloc, self)
    }
}

/// Vectors of what an iterator gives.
pub trait Collect: Iterator + Sized {
    fn kit_collect(self, _alloc: Global) -> Result<Vec<Self::Item>, AllocError> {
        Ok(Vec(Iterator::collect(self)))
    }
}

impl<I: Iterator> Collect for I {}

/// A vector with room for some items of its own.
#[derive(Debug)]
pub struct SmallVec<T, const N: usize>(Vec<T>);

impl<T, const N: usize> SmallVec<T, N> {
    pub fn new(alloc: Global) -> Self {
        SmallVec(Vec::new(alloc))
    }
}

impl<T, const N: usize> Deref for SmallVec<T, N> {
    type Target = Vec<T>;

    fn deref(&self) -> &Vec<T> {
        &self.0
    }
}

impl<T, const N: usize> DerefMut for SmallVec<T, N> {
    fn deref_mut(&mut self) -> &mut Vec<T> {
        &mut self.0
    }
}

/// A value of its own place.
#[derive(Debug)]
pub struct Box<T>(std::boxed::Box<T>);

impl<T> Box<T> {
    pub fn new(_alloc: Global, value: T) -> Result<Box<T>, AllocFailed<T>> {
        Ok(Box(std::boxed::Box::new(value)))
    }

    pub fn into_inner(this: Box<T>) -> T {
        *this.0
    }
}

impl<T> Deref for Box<T> {
    type Target = T;

    fn deref(&self) -> &T {
        &self.0
    }
}

impl<T> DerefMut for Box<T> {
    fn deref_mut(&mut self) -> &mut T {
        &mut self.0
    }
}

/// A value that several own.
#[derive(Debug)]
pub struct Rc<T>(std::rc::Rc<T>);

impl<T> Rc<T> {
    pub fn new(_alloc: Global, value: T) -> Result<Rc<T>, AllocFailed<T>> {
        Ok(Rc(std::rc::Rc::new(value)))
    }

    pub fn clone(&self) -> Result<Rc<T>, AllocError> {
        Ok(Rc(self.0.clone()))
    }
}

#[macro_export]
macro_rules! kit_vec {
    ($alloc:expr; $item:expr; $count:expr) => {
        $crate::kit::Vec::filled($alloc, $item, $count)
    };
    ($alloc:expr; $($item:expr),* $(,)?) => {
        $crate::kit::Vec::of_array([$($item),*])
    };
}
pub use kit_vec;
