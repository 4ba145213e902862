//! A stub: empty. Nothing in the given files names an item of this module.
