//! The calls as a user of the crate meets them: sheet A and the estates of the documents, every refusal, and any bytes.

mod anything;
mod estate;
mod refusals;
mod samples;
mod sheet_a;
