//! Stands in for rust_htslib: a record that holds CIGAR operations and qualities, as hq_soft_clip.rs reads them.
pub mod bam {
    pub mod record {
        #[derive(Clone, Copy)]
        pub enum Cigar {
            Match(u32),
            Ins(u32),
            Del(u32),
            RefSkip(u32),
            SoftClip(u32),
            HardClip(u32),
            Pad(u32),
            Equal(u32),
            Diff(u32),
        }

        impl Cigar {
            #[allow(clippy::len_without_is_empty)]
            pub fn len(&self) -> u32 {
                match *self {
                    Cigar::Match(n)
                    | Cigar::Ins(n)
                    | Cigar::Del(n)
                    | Cigar::RefSkip(n)
                    | Cigar::SoftClip(n)
                    | Cigar::HardClip(n)
                    | Cigar::Pad(n)
                    | Cigar::Equal(n)
                    | Cigar::Diff(n) => n,
                }
            }
        }
    }

    pub struct HeaderView;

    pub struct Record {
        pub cigar: Vec<record::Cigar>,
        pub qual: Vec<u8>,
    }

    impl Record {
        pub fn cigar(&self) -> Vec<record::Cigar> {
            self.cigar.clone()
        }

        pub fn qual(&self) -> &[u8] {
            &self.qual
        }

        pub fn seq(&self) -> &[u8] {
            &self.qual
        }
    }
}
