//! The exported calls and the wrapper over them.

mod calls;
mod checked;
mod layout;
mod lists;
mod plain;
mod states;
mod wrapper;
