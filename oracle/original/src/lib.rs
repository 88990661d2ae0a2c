//! The original caller, compiled from its own text, and what had to be put in place of the rest.

#![allow(dead_code, unused_imports, clippy::all)]

include!(concat!(env!("OUT_DIR"), "/caller.mod.rs"));
include!(concat!(env!("OUT_DIR"), "/codec_caller.mod.rs"));
include!(concat!(env!("OUT_DIR"), "/phred.mod.rs"));
include!(concat!(env!("OUT_DIR"), "/source_window.mod.rs"));
include!(concat!(env!("OUT_DIR"), "/vanilla_caller.mod.rs"));

pub mod trace;

pub(crate) use vanilla_caller::{
    IndexedSourceRead, SourceRead, select_most_common_alignment_group,
};

/// Stand-in: methylation is left out.
#[derive(Debug, Clone, Copy)]
pub enum MethylationMode {
    Disabled,
}

/// Stand-in: only the name is mentioned.
pub mod methylation {
    #[derive(Debug, Clone)]
    pub struct MethylationAnnotation;
}

/// Stand-in: strand building is left out.
pub mod base_builder {
    #[derive(Debug, Clone, Copy, Default)]
    pub enum TieRule {
        #[default]
        LeftOut,
    }
}

/// Stand-in: UMIs are left out, so there is never one to combine.
pub mod simple_umi {
    pub fn consensus_umis(_umis: &[String]) -> String {
        String::new()
    }
}
