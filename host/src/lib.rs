//! The host's tools around the proved fit: `pmf-make` fills a PMF file from a text run, `pmf-card`
//! makes a listing and its PMF file readable. None of this is proved; it stands outside the fit.

pub mod angle;
pub mod arguments;
pub mod belongs;
pub mod card;
pub mod csv;
pub mod fault;
pub mod harmonic;
pub mod indat;
pub mod jacobian;
pub mod listing;
pub mod make;
pub mod number;
pub mod pmf;
pub mod refusal;
pub mod residuals;
pub mod run;
pub mod sheet;
pub mod svg;
pub mod terms;
