//! A plain iterator in place of a parallel one: candidates are scored in order, and of equal greatest
//! scores `max_by_key` takes the last.

pub mod iter {
    pub trait IntoParallelIterator: IntoIterator + Sized {
        fn into_par_iter(self) -> Self::IntoIter {
            self.into_iter()
        }
    }

    impl<I: IntoIterator> IntoParallelIterator for I {}

    pub trait ParallelIterator {}
}
