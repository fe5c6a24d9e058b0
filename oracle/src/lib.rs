//! The original Rust of the externals reader as an oracle: for sessions of `extread`, and for
//! a fixed list of steps on the anchors cache. README.md tells the options.
//!
//! A library, so that it can also be run beside another implementation in one process.

#![allow(dead_code, unused_imports, unused_variables, unused_assignments, private_interfaces)]

mod beyond;
mod cache_bench;
mod cache_steps;
mod collator;
mod questions;
mod read_bench;
mod records;
mod refusals;
mod session;

/// The original measured beside another implementation.
pub mod bench {
    pub use crate::collator::messages_reader::externals_reader::hook::bench::*;
    pub use crate::collator::messages_reader::externals_reader::hook::{RangeRecord, Settings};
}
pub use beyond::FUNCTIONS;
pub use session::{Opts, session};

/// `crate::internal_queue` around the original router.
mod internal_queue {
    pub mod types {
        pub mod router {
            include!(concat!(env!("OUT_DIR"), "/seed/router.rs"));
        }
        /// Not in the sources: a bound that only `collect_messages` needs.
        pub mod message {
            pub trait InternalMessageValue {}
        }
    }
}
/// `crate::mempool`: its types only.
mod mempool {
    use std::sync::Arc;

    use tycho_network::PeerId;
    use tycho_types::models::*;
    use tycho_types::prelude::*;

    include!(concat!(env!("OUT_DIR"), "/seed/mempool.rs"));
}
mod tracing_targets {
    include!(concat!(env!("OUT_DIR"), "/seed/tracing_targets.rs"));
}
/// `crate::types`: what the text names of it.
mod types {
    include!(concat!(env!("OUT_DIR"), "/seed/types.rs"));

    pub mod processed_upto {
        use crate::mempool::MempoolAnchorId;

        include!(concat!(env!("OUT_DIR"), "/seed/processed_upto.rs"));
    }
}

/// The program.
pub fn main() {
    let args: Vec<String> = std::env::args().skip(1).collect();
    match args.first().map(String::as_str) {
        Some("--cache-steps") => cache_steps::main(),
        Some("--bench") => cache_bench::main(&args[1..]),
        Some("--bench-read") => read_bench::main(&args[1..]),
        _ => session::main(&args),
    }
}
