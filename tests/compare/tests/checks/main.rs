//! The library against the model and the documents' examples.

mod array;
mod calendar;
mod decimals;
mod documents;
mod layout;
mod listed;
mod meaning;
mod odd;
mod random;
mod sessions;
mod sessions_listed;
mod support;
mod weekdays;
mod zones;
