//! Stands in for deno_media_type: the eleven media that a sheet knows, in document 01's order.

#[derive(Debug, Clone, Copy, PartialEq, Eq)]
pub enum MediaType {
    JavaScript,
    Jsx,
    Mjs,
    Cjs,
    TypeScript,
    Mts,
    Cts,
    Dts,
    Dmts,
    Dcts,
    Tsx,
}

impl MediaType {
    pub const ALL: [MediaType; 11] = [
        MediaType::JavaScript,
        MediaType::Jsx,
        MediaType::Mjs,
        MediaType::Cjs,
        MediaType::TypeScript,
        MediaType::Mts,
        MediaType::Cts,
        MediaType::Dts,
        MediaType::Dmts,
        MediaType::Dcts,
        MediaType::Tsx,
    ];

    pub fn is_typed(&self) -> bool {
        !matches!(self, MediaType::JavaScript | MediaType::Jsx | MediaType::Mjs | MediaType::Cjs)
    }
}
