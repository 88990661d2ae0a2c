//! Output records are left out by document 01: the builder takes everything and writes nothing.

pub struct UnmappedSamBuilder;

impl UnmappedSamBuilder {
    #[allow(clippy::new_without_default)]
    pub fn new() -> Self {
        Self
    }

    pub fn try_build_record(
        &mut self,
        _name: &[u8],
        _flag: u16,
        _bases: &[u8],
        _quals: &[u8],
    ) -> Result<(), String> {
        Ok(())
    }

    pub fn append_string_tag(&mut self, _tag: impl Into<[u8; 2]>, _value: &[u8]) {}

    pub fn append_int_tag(&mut self, _tag: impl Into<[u8; 2]>, _value: i32) {}

    pub fn append_float_tag(&mut self, _tag: impl Into<[u8; 2]>, _value: f32) {}

    pub fn append_i16_array_tag(&mut self, _tag: impl Into<[u8; 2]>, _values: &[i16]) {}

    pub fn append_phred33_string_tag(&mut self, _tag: impl Into<[u8; 2]>, _quals: &[u8]) {}

    pub fn write_with_block_size(&mut self, _out: &mut Vec<u8>) {}
}
