//! Stands in for gatk_common: the settings and the error type that the four files lean on, with document 01's defaults.

pub struct AssemblyRegionConfig {
    pub max_prob_propagation_distance: u32,
    pub active_prob_threshold: f64,
    pub activity_profile_max_filter_size: u32,
    pub activity_profile_sigma: f64,
}

impl AssemblyRegionConfig {
    pub const GATK_DEFAULT_ACTIVE_PROB_THRESHOLD: f64 = 0.002;
    pub const GATK_DEFAULT_MAX_PROB_PROPAGATION_DISTANCE: u32 = 50;
    pub const GATK_ACTIVITY_PROFILE_MAX_FILTER_SIZE: u32 = 50;
    pub const GATK_ACTIVITY_PROFILE_SIGMA: f64 = 17.0;
}

impl Default for AssemblyRegionConfig {
    fn default() -> Self {
        Self {
            max_prob_propagation_distance: Self::GATK_DEFAULT_MAX_PROB_PROPAGATION_DISTANCE,
            active_prob_threshold: Self::GATK_DEFAULT_ACTIVE_PROB_THRESHOLD,
            activity_profile_max_filter_size: Self::GATK_ACTIVITY_PROFILE_MAX_FILTER_SIZE,
            activity_profile_sigma: Self::GATK_ACTIVITY_PROFILE_SIGMA,
        }
    }
}

pub struct HaplotypeCallerConfig {
    pub min_base_quality_score: u8,
    pub stand_call_confidence: f64,
}

#[derive(Debug)]
pub struct GatkError(pub String);

impl GatkError {
    pub fn argument(text: impl Into<String>) -> Self {
        Self(text.into())
    }

    pub fn invalid_argument(name: &str, text: String) -> Self {
        Self(format!("{name}: {text}"))
    }

    pub fn invalid_configuration(name: &str, text: String) -> Self {
        Self(format!("{name}: {text}"))
    }
}
