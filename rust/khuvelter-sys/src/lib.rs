//! The C interface of the proved gateway, `include/khuvelter.h`, with slices for pointers and lengths, and the flat forms of what it takes.
//!
//! Every function here is safe to call with anything: the proved entries have no precondition on octets or lengths; a slice is memory
//! that lives through the call, and the borrow rules exclude that a `&mut` slice overlaps another one. What a number means, and which
//! octets go where, the header says; a gateway is built on the crate `khuvelter`, which owns its memory and has types for all of it.
//!
//! ```
//! use khuvelter_sys::{open, register_point, share, table_octets, Record};
//!
//! let mut table = vec![0; table_octets(8, 1)];
//! assert_eq!(open(&mut table, 8, &[7, 2, 4]).number, 0);
//! let point = Record { ca: 7, ioa: 10, type_id: 1, group: Some(1), counter_group: None, value: [0; 12] };
//! assert_eq!(register_point(&mut table, &point.octets()).number, 0);
//! assert_eq!(share(&table, 7).held, 1);
//! ```

mod calls;
mod flat;

pub use calls::*;
pub use flat::*;
