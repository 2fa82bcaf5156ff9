// The module tree of the published files, with stand-ins for what they lean on. The published
// files are taken from the build's folder, where the build script put them.

pub mod access {
    pub mod free_space_inventory {
        include!(concat!(env!("OUT_DIR"), "/access/free_space_inventory.rs"));
    }
    pub mod slotted_page_segment {
        include!(concat!(env!("OUT_DIR"), "/access/slotted_page_segment.rs"));
    }
    pub mod tuple {
        include!("tuple.rs");
    }
}

pub mod storage {
    pub mod buffer_manager {
        include!("buffer_manager.rs");
    }
    pub mod page {
        include!(concat!(env!("OUT_DIR"), "/storage/page.rs"));
    }
}

pub mod types {
    include!(concat!(env!("OUT_DIR"), "/types.rs"));
}

pub mod util {
    pub mod align {
        include!(concat!(env!("OUT_DIR"), "/util/align.rs"));
    }
}

mod lent {
    include!("lent.rs");
}

pub use lent::LentStore;
