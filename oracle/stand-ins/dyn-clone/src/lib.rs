//! Stand-in for `dyn-clone`: cloning a boxed trait object whose type can be cloned.

pub trait DynClone {
    /// A clone on the heap, its type forgotten; `clone_box` gives the type back.
    fn clone_on_heap(&self) -> *mut ();
}

impl<T: Clone> DynClone for T {
    fn clone_on_heap(&self) -> *mut () {
        Box::into_raw(Box::new(self.clone())).cast()
    }
}

/// Clones what `original` points to, behind the same kind of pointer.
pub fn clone_box<T: ?Sized + DynClone>(original: &T) -> Box<T> {
    let mut pointer: *const T = original;
    let address = original.clone_on_heap();
    // SAFETY: the clone has the type of the original, so the original's table of methods fits it.
    // A pointer's first word is its address, which is all that is changed here.
    unsafe {
        (&raw mut pointer).cast::<*mut ()>().write(address);
        Box::from_raw(pointer.cast_mut())
    }
}

#[macro_export]
macro_rules! clone_trait_object {
    ($name:path) => {
        impl Clone for Box<dyn $name> {
            fn clone(&self) -> Self {
                $crate::clone_box(&**self)
            }
        }
    };
}
