//! Modules of gatk-rs that the four files lean on, as small as they allow. The functions of `read_binding`, `read_model` and
//! `read_projection` serve parts of hq_soft_clip.rs that the oracle never calls.

pub mod bio_ids {
    /// Sample ploidy, as bio_ids.rs has it.
    #[derive(Debug, Clone, Copy, PartialEq, Eq)]
    pub struct Ploidy(u8);

    impl Ploidy {
        pub const DIPLOID: Self = Self(2);

        pub const fn new_unchecked(ploidy: u8) -> Self {
            Self(ploidy)
        }

        pub const fn as_u32(self) -> u32 {
            self.0 as u32
        }
    }
}

pub mod read_binding {
    use crate::read_model::ReadFilterParams;
    use rust_htslib::bam;

    pub fn record_overlaps_closed_interval_1based(_: &bam::Record, _: &bam::HeaderView, _: &str, _: u64, _: u64, _: &ReadFilterParams) -> bool {
        unreachable!("not part of the oracle")
    }
}

pub mod read_model {
    use rust_htslib::bam;

    pub struct ReadFilterParams;

    pub fn passes_hc_read_filters_with_header(_: &bam::Record, _: &bam::HeaderView, _: &ReadFilterParams) -> bool {
        unreachable!("not part of the oracle")
    }
}

pub mod read_projection {
    use rust_htslib::bam::record::Cigar;

    pub fn cigar_soft_clip_ends(_: &[Cigar]) -> (u32, u32) {
        unreachable!("not part of the oracle")
    }
}
