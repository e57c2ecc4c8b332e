//! Document 01's worked cases and boundaries, those of requests C-11 to C-17, and those of many questions in one call, over the public interface.

mod exactness;
mod half_shafts;
mod loads;
mod losses;
mod queries;
mod reckoned;
mod refusals;
mod refused_numbers;
mod retarders;
mod steps;
mod support;
mod traces;
mod writing;
