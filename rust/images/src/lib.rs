// SPDX-License-Identifier: Apache-2.0
//! Images of disks with a film, in layout 2, and stores of packages of them: written once and named
//! last; what may be believed is what their checksums say. docs/man/cuzhaveli.1 describes the layout.
//!
//! [`layout`] says where all stands in an image, [`read`] reads and mends, [`write`] writes, [`store`]
//! keeps packages over disks, [`os`] is what the system is asked for. Each uses those before it, and
//! [`os`]. All coding is done by the proved library.

pub mod fault;
pub mod layout;
pub mod names;
pub mod os;
pub mod read;
pub mod store;
pub mod watch;
pub mod write;
