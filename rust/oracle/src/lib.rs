//! The published files of crate ntfs 0.4.0, unchanged, over stand-ins for the files that they lean on and that aren't there; `api` makes
//! plain functions of what they can do.
extern crate alloc;

/// What `helpers.rs` of the crate has.
macro_rules! iter_try {
    ($e:expr) => {
        match $e {
            Ok(x) => x,
            Err(e) => return Some(Err(e.into())),
        }
    };
}

include!(concat!(env!("OUT_DIR"), "/published.rs"));

mod attribute {
    /// Only named in error variants that nothing here gives.
    #[derive(Debug)]
    pub enum NtfsAttributeType {}
}

mod ntfs {
    /// All that the reading core asks of a volume.
    #[derive(Debug)]
    pub struct Ntfs {
        pub cluster_size: u32,
    }

    impl Ntfs {
        pub fn cluster_size(&self) -> u32 {
            self.cluster_size
        }
    }
}

pub mod api;
mod disk;
mod refusal;
